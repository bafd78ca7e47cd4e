//! The flow over a whole history of answers, written as 01's paragraph runs and not in steps (01 "The dock's flow"), with the fault of an unreadable one (02 §4).

use super::{frame, sum_of};
use twin::dock::{Cause, Failure, Job};
use twin::frame::Fault;
use twin::part::Area;

/// What comes back to a frame: the whole answer's bytes, or nothing in time.
pub type Heard = Option<Vec<u8>>;

#[derive(Clone, Debug, PartialEq)]
pub struct Told {
    /// The frames handed out, in order.
    pub frames: Vec<Vec<u8>>,
    pub retries: u64,
    pub end: End,
}

#[derive(Clone, Copy, Debug, PartialEq)]
pub enum End {
    /// The history is over before the job: the last frame awaits its answer.
    Open,
    Finished,
    Failed(Failure),
}

enum Stop {
    NoMore,
    Retry(Failure),
    Fails(Failure),
}

struct Flow<'a> {
    job: &'a Job,
    image: &'a [u8],
    history: std::slice::Iter<'a, Heard>,
    frames: Vec<Vec<u8>>,
    retries: u64,
}

pub fn flow(job: &Job, image: &[u8], history: &[Heard]) -> Told {
    let mut flow = Flow {
        job,
        image,
        history: history.iter(),
        frames: Vec::new(),
        retries: 0,
    };
    let end = match flow.run() {
        Ok(()) => End::Finished,
        Err(Stop::NoMore) => End::Open,
        Err(Stop::Retry(failure) | Stop::Fails(failure)) => End::Failed(failure),
    };
    Told {
        frames: flow.frames,
        retries: flow.retries,
        end,
    }
}

impl Flow<'_> {
    fn run(&mut self) -> Result<(), Stop> {
        self.again_on_retry(Flow::set_rate)?;
        self.again_on_retry(|flow| flow.command(&[0x00], None, &[0x06]).map(drop))?;
        self.again_on_retry(Flow::match_signature)?;
        for block in 0..(self.image.len() / self.job.block_size()) as u64 {
            self.again_on_retry(|flow| flow.block(block))?;
        }
        Ok(())
    }

    fn again_on_retry(&mut self, work: impl Fn(&mut Self) -> Result<(), Stop>) -> Result<(), Stop> {
        loop {
            match work(self) {
                Err(Stop::Retry(_)) if self.retries < self.job.retries => self.retries += 1,
                other => return other,
            }
        }
    }

    fn set_rate(&mut self) -> Result<(), Stop> {
        let supply = self.job.supply as u8;
        let body = [0x9A, self.job.rate as u8, supply];
        let heard = self.exchange(frame(0x01, &body, 0x03), 0x9A, None, None)?;
        let name = failure(0x9A, None, None);
        let acknowledged = heard.get(2) == Some(&0x06);
        let unreadable = || unreadable(&name, &heard, if acknowledged { &[3] } else { &[1] });
        if let [0x02, 0x03, 0x06, clock, mode, ..] = heard[..] {
            if heard != frame(0x02, &[0x06, clock, mode], 0x03) {
                return Err(unreadable());
            }
            let right = (self.job.part.clock as u8, u8::from(supply < 27));
            return if (clock, mode) == right {
                Ok(())
            } else {
                Err(Stop::Fails(name(Cause::Mismatch, 0x06)))
            };
        }
        match lone_status(&heard) {
            Some(status) if status != 0x06 => Err(unexpected(name(Cause::Status, status))),
            _ => Err(unreadable()),
        }
    }

    fn match_signature(&mut self) -> Result<(), Stop> {
        let heard = self.exchange(frame(0x01, &[0xC0], 0x03), 0xC0, None, None)?;
        let name = failure(0xC0, None, None);
        if let Some(status) = lone_status(&heard).filter(|status| *status != 0x06) {
            return Err(unexpected(name(Cause::Status, status)));
        }
        let acknowledged = heard.get(2) == Some(&0x06);
        let lengths: &[usize] = if acknowledged { &[1, 22] } else { &[1] };
        if heard.len() != 5 + 26 {
            return Err(unreadable(&name, &heard, lengths));
        }
        let mut whole = frame(0x02, &[0x06], 0x03);
        whole.extend(frame(0x02, &heard[7..29], 0x03));
        if heard != whole {
            return Err(unreadable(&name, &heard, lengths));
        }
        if heard[7..29] != signature_of(self.job) {
            return Err(Stop::Fails(name(Cause::Mismatch, 0x06)));
        }
        Ok(())
    }

    fn block(&mut self, block: u64) -> Result<(), Stop> {
        let size = self.job.block_size() as u64;
        let first = self.job.start + size * block;
        let start = low_middle_high(first);
        let end = low_middle_high(first + size - 1);
        let both = [start, end].concat();
        let check = [&[0x32][..], &both, &[0x00]].concat();
        if self.command(&check, Some(block), &[0x06, 0x1B])? == 0x1B {
            self.command(&[&[0x22][..], &start].concat(), Some(block), &[0x06])?;
        }
        for command in [0x40, 0x13] {
            self.command(&[&[command][..], &both].concat(), Some(block), &[0x06])?;
            for page in 0..self.job.pages_of_block() {
                self.page(command, block, page)?;
            }
        }
        Ok(())
    }

    /// A command that is answered with one status.
    fn command(&mut self, body: &[u8], block: Option<u64>, expected: &[u8]) -> Result<u8, Stop> {
        let heard = self.exchange(frame(0x01, body, 0x03), body[0], None, block)?;
        let name = failure(body[0], None, block);
        match lone_status(&heard) {
            None => Err(unreadable(&name, &heard, &[1])),
            Some(status) if expected.contains(&status) => Ok(status),
            Some(status) => Err(unexpected(name(Cause::Status, status))),
        }
    }

    fn page(&mut self, command: u8, block: u64, page: u64) -> Result<(), Stop> {
        let size = self.job.part.page_size();
        let before = self.job.pages_of_block() * block + page;
        let at = before as usize * size;
        let is_last = page + 1 == self.job.pages_of_block();
        let footer = if is_last { 0x03 } else { 0x17 };
        let sent = frame(0x02, &self.image[at..at + size], footer);
        let heard = self.exchange(sent, command, Some(page), Some(block))?;
        let name = failure(command, Some(page), Some(block));
        if heard.len() < 6 {
            return Err(unreadable(&name, &heard, &[2]));
        }
        let mut statuses = heard[2..4].to_vec();
        let mut whole = frame(0x02, &statuses, 0x03);
        let mut lengths: &[usize] = &[2];
        if command == 0x40 && is_last && statuses == [0x06, 0x06] {
            lengths = &[2, 1];
            let Some(third) = heard.get(8) else {
                return Err(unreadable(&name, &heard, lengths));
            };
            statuses.push(*third);
            whole.extend(frame(0x02, &[*third], 0x03));
        }
        if heard != whole {
            return Err(unreadable(&name, &heard, lengths));
        }
        match statuses.into_iter().find(|status| *status != 0x06) {
            Some(status) => Err(unexpected(name(Cause::Status, status))),
            None => Ok(()),
        }
    }

    fn exchange(
        &mut self,
        sent: Vec<u8>,
        command: u8,
        page: Option<u64>,
        block: Option<u64>,
    ) -> Result<Vec<u8>, Stop> {
        self.frames.push(sent);
        match self.history.next() {
            None => Err(Stop::NoMore),
            Some(None) => Err(Stop::Fails(failure(command, page, block)(
                Cause::Timeout,
                0x00,
            ))),
            Some(Some(heard)) => Ok(heard.clone()),
        }
    }
}

fn failure(command: u8, page: Option<u64>, block: Option<u64>) -> impl Fn(Cause, u8) -> Failure {
    move |cause, status| Failure {
        cause,
        command,
        page,
        status,
        block,
        fault: None,
    }
}

fn unreadable(name: impl Fn(Cause, u8) -> Failure, heard: &[u8], lengths: &[usize]) -> Stop {
    Stop::Fails(Failure {
        fault: Some(fault_of(heard, lengths)),
        ..name(Cause::Unreadable, 0x00)
    })
}

/// The fault of an answer that is not exactly the frames of these lengths, from its first faulty frame.
pub fn fault_of(heard: &[u8], lengths: &[usize]) -> Fault {
    let mut header = 0;
    for (number, length) in lengths.iter().enumerate() {
        let byte = |place: usize| heard.get(header + place);
        let (sum, footer) = (length + 2, length + 3);
        if byte(0) != Some(&0x02) {
            return Fault::First;
        }
        let cut_short = byte(footer).is_none();
        let overlong = number + 1 == lengths.len() && byte(footer + 1).is_some();
        if byte(1) != Some(&((length % 256) as u8)) || cut_short || overlong {
            return Fault::Len;
        }
        if byte(footer) != Some(&0x03) {
            return Fault::Footer(footer as u16);
        }
        if byte(sum) != Some(&sum_of(&heard[header + 1..header + sum])) {
            return Fault::Sum(sum as u16);
        }
        header += footer + 1;
    }
    panic!("no fault in {heard:02X?}")
}

fn unexpected(failure: Failure) -> Stop {
    match failure.status {
        0x07 | 0x15 => Stop::Retry(failure),
        _ => Stop::Fails(failure),
    }
}

fn lone_status(heard: &[u8]) -> Option<u8> {
    let status = *heard.get(2)?;
    (heard == frame(0x02, &[status], 0x03)).then_some(status)
}

fn low_middle_high(address: u64) -> [u8; 3] {
    [
        (address % 256) as u8,
        (address / 256 % 256) as u8,
        (address / 65_536) as u8,
    ]
}

/// C0h's 22 bytes for the job's part.
pub fn signature_of(job: &Job) -> Vec<u8> {
    let part = &job.part;
    let last_data = match part.size(Area::Data) as u64 {
        0 => 0,
        size => 0xF1000 + size - 1,
    };
    [
        &part.device[..],
        &part.name,
        &low_middle_high(part.size(Area::Code) as u64 - 1),
        &low_middle_high(last_data),
        &part.version,
    ]
    .concat()
}
