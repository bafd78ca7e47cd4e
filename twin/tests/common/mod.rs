//! The bench the tests share: a part, its chip and flash, and frames written as 01 prints them (01 "Examples").
// Each test file is its own crate and uses only some of this.
#![allow(dead_code)]

pub mod flow;

use twin::chip::{step, Answer, Chip, Event, Phase};
use twin::frame::Fault;
use twin::part::{Area, Part};
use twin::replay::replay_part;
use twin::sums::{work_out, Sums, SUMS};

pub const FILLER: u8 = 0xA5;

pub fn part_of(code_blocks: u32, data_blocks: u32, clock: u32) -> Part {
    Part {
        code_blocks,
        data_blocks,
        clock,
        ..replay_part()
    }
}

pub fn hex(text: &str) -> Vec<u8> {
    text.split_whitespace()
        .map(|pair| u8::from_str_radix(pair, 16).unwrap())
        .collect()
}

/// SUM counted upwards and negated, not the way the twin does it.
pub fn sum_of(bytes: &[u8]) -> u8 {
    let total: u32 = bytes.iter().map(|byte| u32::from(*byte)).sum();
    ((256 - total % 256) % 256) as u8
}

pub fn frame(header: u8, body: &[u8], footer: u8) -> Vec<u8> {
    assert!((1..=256).contains(&body.len()));
    let mut bytes = vec![header, (body.len() % 256) as u8];
    bytes.extend_from_slice(body);
    bytes.push(sum_of(&bytes[1..]));
    bytes.push(footer);
    bytes
}

pub fn command(body: &str) -> Vec<u8> {
    frame(0x01, &hex(body), 0x03)
}

pub fn page(bytes: &[u8], footer: u8) -> Vec<u8> {
    frame(0x02, bytes, footer)
}

pub fn ramp() -> Vec<u8> {
    (0..=255).collect()
}

/// A mixed page, another for each number; not the same byte throughout.
pub fn mixed(number: usize) -> Vec<u8> {
    (0..256)
        .map(|at| (at * 7 + number * 13 + at * at / 5) as u8)
        .collect()
}

/// Phase 4, with or without a difference remembered.
pub const fn awaiting(command: u8, next: usize, last: usize, differed: bool) -> Phase {
    Phase::Awaiting {
        command,
        next,
        last,
        differed,
    }
}

pub fn status(code: u8) -> Vec<Vec<u8>> {
    vec![frame(0x02, &[code], 0x03)]
}

pub fn pair(first: u8, second: u8) -> Vec<Vec<u8>> {
    vec![frame(0x02, &[first, second], 0x03)]
}

#[derive(Clone, PartialEq, Debug)]
pub struct Bench {
    pub part: Part,
    pub chip: Chip,
    pub code: Vec<u8>,
    pub data: Vec<u8>,
    pub sums: Sums,
}

impl Bench {
    pub fn fresh(part: Part) -> Bench {
        let chip = Chip::fresh(&part).unwrap();
        let code = vec![0xFF; part.size(Area::Code)];
        let data = vec![0xFF; part.size(Area::Data)];
        let mut bench = Bench {
            part,
            chip,
            code,
            data,
            sums: [0; SUMS],
        };
        bench.work_out();
        bench
    }

    /// The sums of the flash as it is; to be called where a test has laid bytes into it.
    pub fn work_out(&mut self) {
        work_out(&self.part, &self.code, &self.data, &mut self.sums).unwrap();
    }

    /// The part of 01's examples, fresh and in phase 3.
    pub fn ready() -> Bench {
        Bench::ready_with(replay_part())
    }

    pub fn ready_with(part: Part) -> Bench {
        let mut bench = Bench::fresh(part);
        bench.chip.phase = Phase::Ready;
        bench
    }

    pub fn awaiting(command: u8, next: usize, last: usize) -> Bench {
        let mut bench = Bench::ready();
        bench.chip.phase = awaiting(command, next, last, false);
        bench
    }

    pub fn event(&mut self, event: Event) -> Vec<Vec<u8>> {
        self.judged(event).0
    }

    /// The frames said, and the fault told.
    pub fn judged(&mut self, event: Event) -> (Vec<Vec<u8>>, Option<Fault>) {
        let mut room = [FILLER; 40];
        match self.event_in(event, &mut room) {
            Answer::Refused(number) => panic!("refused with {number}"),
            Answer::Replied {
                bytes,
                frames,
                fault,
            } => {
                assert!(room[bytes..].iter().all(|byte| *byte == FILLER));
                let split = split(&room[..bytes]);
                assert_eq!(split.len(), frames);
                (split, fault)
            }
        }
    }

    pub fn event_in(&mut self, event: Event, room: &mut [u8]) -> Answer {
        step(
            &self.part,
            &mut self.chip,
            event,
            &mut self.code,
            &mut self.data,
            &mut self.sums,
            room,
        )
    }

    pub fn say(&mut self, bytes: &[u8]) -> Vec<Vec<u8>> {
        bytes
            .iter()
            .flat_map(|byte| self.event(Event::Byte(*byte)))
            .collect()
    }

    pub fn say_hex(&mut self, text: &str) -> Vec<Vec<u8>> {
        self.say(&hex(text))
    }

    pub fn say_command(&mut self, body: &str) -> Vec<Vec<u8>> {
        self.say(&command(body))
    }

    /// Bytes of which the last may complete a frame: what is said to it, and its fault as a number and a place, 0 and 0 where there is none.
    pub fn say_judged(&mut self, bytes: &[u8]) -> (Vec<Vec<u8>>, (u8, u16)) {
        let (last, before) = bytes.split_last().unwrap();
        for byte in before {
            assert_eq!(self.judged(Event::Byte(*byte)), (Vec::new(), None));
        }
        let (said, fault) = self.judged(Event::Byte(*last));
        (said, in_numbers(fault))
    }

    pub fn gap(&mut self) {
        assert!(self.event(Event::Gap).is_empty());
    }
}

pub fn in_numbers(fault: Option<Fault>) -> (u8, u16) {
    fault.map_or((0, 0), |fault| (fault.number(), fault.place()))
}

/// The frames of a reply, each with right LEN, SUM and footer.
fn split(mut reply: &[u8]) -> Vec<Vec<u8>> {
    let mut frames = Vec::new();
    while !reply.is_empty() {
        let body = usize::from(reply[1]);
        let (one, rest) = reply.split_at(body + 4);
        assert_eq!(one, frame(0x02, &one[2..2 + body], 0x03));
        frames.push(one.to_vec());
        reply = rest;
    }
    frames
}
