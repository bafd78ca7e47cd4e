//! The two ends of the cable, by the proved library and by the second implementation (01 "The two ends of the cable").

use trials::door;
use twin::chip::{step, Answer, Chip, Event};
use twin::dock::{self, Report, Stage};
use twin::frame;
use twin::sums::Sums;

use crate::job::{
    part, Flash, Job, CLOCK, CODE_BLOCKS, DATA_BLOCKS, NAMES, OPTIONS, RATE, RETRIES, SUPPLY,
};

/// A call of the door that brings neither byte nor frame.
type Quiet = fn(
    &door::Part,
    &mut [u8; door::STATE],
    &mut [u8],
    &mut [u8],
    &mut [u16; door::SUMS],
    &mut [u8],
) -> door::Told;

/// How a job stands, and the frames and retries that the dock told.
#[derive(Clone, Copy)]
pub enum Stand {
    GoesOn,
    Finished {
        frames: usize,
        retries: usize,
    },
    Failed {
        named: Named,
        frames: usize,
        retries: usize,
    },
    /// More frames than 01 allows were asked for; the dock was left there.
    Endless,
}

impl Stand {
    pub fn failed_by(self, by: Cause) -> bool {
        matches!(self, Stand::Failed { named, .. } if named.cause == by)
    }
}

/// What a failure names.
#[derive(Clone, Copy)]
pub struct Named {
    pub cause: Cause,
    pub block: Option<usize>,
    pub command: u8,
    pub page: Option<usize>,
    pub status: u8,
    pub fault: Option<Fault>,
}

#[derive(Clone, Copy, PartialEq, Eq)]
pub enum Cause {
    Status,
    Mismatch,
    Unreadable,
    Timeout,
}

/// What was wrong with an answer that could not be read (02 §4).
#[derive(Clone, Copy, PartialEq, Eq)]
pub enum Fault {
    First,
    Len,
    Footer,
    Sum,
}

/// The two ends of the cable: a chip with its flash and kept sums, and a dock at a job. No call of a trial may be refused.
pub trait Ends<'a>: Clone {
    /// A fresh chip that holds this flash, its sums worked out, and no dock yet.
    fn with(job: &'a Job, flash: &Flash) -> Self;
    fn flash(&self) -> &Flash;
    fn sums(&self) -> &Sums;
    fn options(&self) -> [u8; OPTIONS];
    /// Bytes reach the chip; what it says is added.
    fn hear(&mut self, bytes: &[u8], said: &mut Vec<u8>);
    fn gap(&mut self);
    fn power_on(&mut self);
    /// A new dock, before its first frame.
    fn start(&mut self);
    fn ask(&mut self) -> Vec<u8>;
    fn answer(&mut self, answer: &[u8]) -> Stand;
    fn timeout(&mut self) -> Stand;
}

#[derive(Clone)]
pub struct Proved<'a> {
    job: door::Job<'a>,
    chip: [u8; door::STATE],
    dock: [u8; door::DOCK],
    flash: Flash,
    sums: Sums,
    room: [u8; door::ROOM],
}

impl Proved<'_> {
    fn stand(&self, told: door::Report) -> Stand {
        assert_eq!(told.refusal, 0, "the dock refused an answer or a timeout");
        let (frames, retries) = (told.frames_used as usize, told.retries_used as usize);
        match told.ended {
            0 => return Stand::GoesOn,
            1 => return Stand::Finished { frames, retries },
            2 => {}
            other => panic!("the dock told {other} for how it ended"),
        }
        let cause = match self.dock[20] {
            1 => Cause::Status,
            2 => Cause::Mismatch,
            3 => Cause::Unreadable,
            4 => Cause::Timeout,
            other => panic!("the dock's state has {other} for why it failed"),
        };
        let fault = match door::dock_fault(&self.dock) {
            door::FAULT_NONE => None,
            door::FAULT_FOOTER => Some(Fault::Footer),
            door::FAULT_SUM => Some(Fault::Sum),
            door::FAULT_LEN => Some(Fault::Len),
            door::FAULT_FIRST => Some(Fault::First),
            other => panic!("the dock's state has {other} for a fault"),
        };
        let number = |at: usize| match self.dock[at] {
            0 => None,
            _ => {
                let bytes = self.dock[at + 1..at + 5].try_into().unwrap();
                Some(u32::from_le_bytes(bytes) as usize)
            }
        };
        Stand::Failed {
            named: Named {
                cause,
                block: number(10),
                command: self.dock[21],
                page: number(15),
                status: self.dock[22],
                fault,
            },
            frames,
            retries,
        }
    }

    /// An event to which the chip says nothing.
    fn in_silence(&mut self, event: Quiet, name: &str) {
        let Flash { code, data } = &mut self.flash;
        let told = event(
            &self.job.part,
            &mut self.chip,
            code,
            data,
            &mut self.sums,
            &mut self.room,
        );
        assert_eq!(
            (told.refusal, told.bytes),
            (0, 0),
            "the chip takes {name} in silence"
        );
    }
}

impl<'a> Ends<'a> for Proved<'a> {
    fn with(job: &'a Job, flash: &Flash) -> Self {
        let part = door::part(CODE_BLOCKS, DATA_BLOCKS, CLOCK, &NAMES);
        let mut chip = [0; door::STATE];
        assert_eq!(door::fresh(&part, &mut chip), 0, "the part is described");
        let mut sums = [0; door::SUMS];
        let refusal = door::sums(&part, &flash.code, &flash.data, &mut sums);
        assert_eq!(refusal, 0, "the flash fits the part");
        Proved {
            job: door::Job {
                part,
                work: door::work(job.start() as u32, job.end() as u32, RATE, SUPPLY, RETRIES),
                image: &job.image,
            },
            chip,
            dock: [0; door::DOCK],
            flash: flash.clone(),
            sums,
            room: [0; door::ROOM],
        }
    }

    fn flash(&self) -> &Flash {
        &self.flash
    }

    fn sums(&self) -> &Sums {
        &self.sums
    }

    fn options(&self) -> [u8; OPTIONS] {
        self.chip[..OPTIONS].try_into().unwrap()
    }

    fn hear(&mut self, bytes: &[u8], said: &mut Vec<u8>) {
        let mut rest = bytes;
        while !rest.is_empty() {
            let Flash { code, data } = &mut self.flash;
            let (taken, told) = door::feed(
                &self.job.part,
                &mut self.chip,
                rest,
                code,
                data,
                &mut self.sums,
                &mut self.room,
            );
            assert_eq!(told.refusal, 0, "the chip refused a byte");
            said.extend(&self.room[..told.bytes as usize]);
            rest = &rest[taken as usize..];
        }
    }

    fn gap(&mut self) {
        self.in_silence(door::gap, "a gap");
    }

    fn power_on(&mut self) {
        self.in_silence(door::power_on, "power-on");
    }

    fn start(&mut self) {
        let refusal = door::start(&self.job, &mut self.dock);
        assert_eq!(refusal, 0, "the dock refused the job");
    }

    fn ask(&mut self) -> Vec<u8> {
        let mut room = [0; door::FRAME_ROOM];
        let (refusal, bytes) = door::ask(&self.job, &mut self.dock, &mut room);
        assert_eq!(refusal, 0, "the dock refused a frame");
        room[..bytes as usize].to_vec()
    }

    fn answer(&mut self, answer: &[u8]) -> Stand {
        let told = door::answer(&self.job, &mut self.dock, answer);
        self.stand(told)
    }

    fn timeout(&mut self) -> Stand {
        let told = door::timeout(&self.job, &mut self.dock);
        self.stand(told)
    }
}

#[derive(Clone)]
pub struct Twin<'a> {
    job: dock::Job,
    image: &'a [u8],
    chip: Chip,
    dock: dock::State,
    flash: Flash,
    sums: Sums,
}

impl Twin<'_> {
    fn event(&mut self, event: Event, said: &mut Vec<u8>) {
        let mut room = [0; door::ROOM];
        let Flash { code, data } = &mut self.flash;
        let answer = step(
            &self.job.part,
            &mut self.chip,
            event,
            code,
            data,
            &mut self.sums,
            &mut room,
        );
        match answer {
            Answer::Replied { bytes, .. } => said.extend(&room[..bytes]),
            Answer::Refused(number) => panic!("the twin's chip refused, {number}"),
        }
    }
}

impl<'a> Ends<'a> for Twin<'a> {
    fn with(job: &'a Job, flash: &Flash) -> Self {
        let part = part();
        Twin {
            chip: Chip::fresh(&part).expect("the part is described"),
            job: dock::Job {
                part,
                start: job.start() as u64,
                end: job.end() as u64,
                rate: RATE.into(),
                supply: SUPPLY.into(),
                retries: RETRIES.into(),
            },
            image: &job.image,
            dock: dock::State {
                stage: Stage::Finished,
                awaited: false,
                retries: 0,
                frames: 0,
            },
            flash: flash.clone(),
            sums: flash.sums(),
        }
    }

    fn flash(&self) -> &Flash {
        &self.flash
    }

    fn sums(&self) -> &Sums {
        &self.sums
    }

    fn options(&self) -> [u8; OPTIONS] {
        let options = self.chip.options;
        let ([start, start_high], [end, end_high]) =
            (options.start.to_le_bytes(), options.end.to_le_bytes());
        [
            options.flags,
            options.boot,
            start,
            start_high,
            end,
            end_high,
        ]
    }

    fn hear(&mut self, bytes: &[u8], said: &mut Vec<u8>) {
        bytes
            .iter()
            .for_each(|byte| self.event(Event::Byte(*byte), said));
    }

    fn gap(&mut self) {
        self.event(Event::Gap, &mut Vec::new());
    }

    fn power_on(&mut self) {
        self.event(Event::PowerOn, &mut Vec::new());
    }

    fn start(&mut self) {
        self.dock = dock::start(&self.job, self.image).expect("the job is good");
    }

    fn ask(&mut self) -> Vec<u8> {
        let mut room = [0; door::FRAME_ROOM];
        let bytes =
            dock::ask(&self.job, self.image, &mut self.dock, &mut room).expect("a frame is due");
        room[..bytes].to_vec()
    }

    fn answer(&mut self, answer: &[u8]) -> Stand {
        stand_of(dock::answer(&self.job, self.image, &mut self.dock, answer))
    }

    fn timeout(&mut self) -> Stand {
        stand_of(dock::timeout(&self.job, self.image, &mut self.dock))
    }
}

pub fn stand_of(told: Result<Report, u8>) -> Stand {
    match told.expect("an answer is awaited") {
        Report::GoesOn => Stand::GoesOn,
        Report::Finished { frames, retries } => Stand::Finished {
            frames: frames as usize,
            retries: retries as usize,
        },
        Report::Failed {
            failure,
            frames,
            retries,
        } => Stand::Failed {
            named: Named {
                cause: match failure.cause {
                    dock::Cause::Status => Cause::Status,
                    dock::Cause::Mismatch => Cause::Mismatch,
                    dock::Cause::Unreadable => Cause::Unreadable,
                    dock::Cause::Timeout => Cause::Timeout,
                },
                block: failure.block.map(|block| block as usize),
                command: failure.command,
                page: failure.page.map(|page| page as usize),
                status: failure.status,
                fault: failure.fault.map(|fault| match fault {
                    frame::Fault::Footer(_) => Fault::Footer,
                    frame::Fault::Sum(_) => Fault::Sum,
                    frame::Fault::Len => Fault::Len,
                    frame::Fault::First => Fault::First,
                }),
            },
            frames: frames as usize,
            retries: retries as usize,
        },
    }
}

/// The frame that was handed out is on the line: the dock hears what was said, or reports that nothing was.
pub fn heard<'a>(ends: &mut impl Ends<'a>, said: &[u8]) -> Stand {
    if said.is_empty() {
        ends.timeout()
    } else {
        ends.answer(said)
    }
}

/// From the next frame to the end of the job on an undamaged line, a gap before each frame; so many frames were asked for before.
pub fn go_on<'a>(ends: &mut impl Ends<'a>, job: &Job, asked: &mut usize) -> Stand {
    let mut said = Vec::new();
    while *asked < job.bound() {
        let frame = ends.ask();
        *asked += 1;
        ends.gap();
        said.clear();
        ends.hear(&frame, &mut said);
        match heard(ends, &said) {
            Stand::GoesOn => {}
            over => return over,
        }
    }
    Stand::Endless
}
