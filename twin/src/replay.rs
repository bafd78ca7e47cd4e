//! A recorded capture, of either form, played into a fresh chip, its replies as lines of hex (01 "Replay", 02 §5); byte by byte, and by the plain engine (02 §7).

use std::io::{self, Read, Write};

use crate::capture::{judge_record, Form, Record, NEW_RECORD, PLAYED_SEAT};
use crate::chip::{step, Answer, Chip, Event, ERASED, SMALLEST_ROOM};
use crate::engine::{self, Said};
use crate::frame::{counted, Fault};
use crate::part::{Area, Part};
use crate::sums::{work_out, Sums, SUMS};

/// The part of the replay; device code, name and version as in 000 table 3-2, its misprint mended.
pub fn replay_part() -> Part {
    Part {
        code_blocks: 16,
        data_blocks: 4,
        clock: 32,
        device: [0x10, 0x00, 0x06],
        name: *b"R5F100LE  ",
        version: [0x01, 0x02, 0x03],
    }
}

/// How a replay ended.
#[derive(Clone, Copy, Debug, PartialEq, Eq)]
pub enum Outcome {
    /// Count of reply frames.
    End(u64),
    /// Number of the bad or short record.
    Bad(u64),
}

/// The chip's whole answer to one event, and the fault of the frame that the event completed, if it was judged bad.
#[derive(Clone, Debug, PartialEq, Eq)]
pub struct Reply {
    pub bytes: Vec<u8>,
    pub frames: usize,
    pub fault: Option<Fault>,
}

/// A chip with its flash and the sums kept of its blocks.
pub struct Player {
    pub part: Part,
    pub chip: Chip,
    pub code: Vec<u8>,
    pub data: Vec<u8>,
    pub sums: Sums,
}

impl Player {
    pub fn fresh() -> Player {
        let part = replay_part();
        let chip = Chip::fresh(&part).expect("the replay part is inside 01's numbers");
        let code = vec![ERASED; part.size(Area::Code)];
        let data = vec![ERASED; part.size(Area::Data)];
        Player::taken_up(part, chip, code, data)
    }

    /// A chip on flash that fits its part; the sums are worked out here, once (02 §1).
    pub fn taken_up(part: Part, chip: Chip, code: Vec<u8>, data: Vec<u8>) -> Player {
        let mut sums = [0; SUMS];
        work_out(&part, &code, &data, &mut sums).expect("flash that fits its part");
        Player {
            part,
            chip,
            code,
            data,
            sums,
        }
    }

    pub fn hear(&mut self, event: Event) -> Reply {
        let mut room = [0; SMALLEST_ROOM];
        let answer = step(
            &self.part,
            &mut self.chip,
            event,
            &mut self.code,
            &mut self.data,
            &mut self.sums,
            &mut room,
        );
        match answer {
            Answer::Replied {
                bytes,
                frames,
                fault,
            } => Reply {
                bytes: room[..bytes].to_vec(),
                frames,
                fault,
            },
            // the player lends what the chip asks for, and only the chip changes its state.
            Answer::Refused(number) => unreachable!("refused with {number}"),
        }
    }

    /// A whole stretch by the plain engine: the replies to all of it, and what else is told of it.
    pub fn play(&mut self, stretch: &[u8]) -> (Vec<u8>, Said) {
        let mut room = vec![0; SMALLEST_ROOM * stretch.len()];
        let said = engine::play(
            &self.part,
            &mut self.chip,
            stretch,
            &mut self.code,
            &mut self.data,
            &mut self.sums,
            &mut room,
        )
        .expect("the player lends what the engine asks for");
        room.truncate(said.bytes);
        (room, said)
    }
}

/// Plays a capture of this form; every answer with at least one frame is also shown to `heard`.
pub fn replay<R: Read, W: Write>(
    form: Form,
    mut capture: R,
    mut output: W,
    mut heard: impl FnMut(&[u8]),
) -> io::Result<Outcome> {
    let mut player = Player::fresh();
    let mut frames = 0;
    let mut number = 0;
    let mut room = [0; NEW_RECORD];
    loop {
        let got = read_up_to(&mut capture, &mut room[..form.record()])?;
        if got == 0 {
            writeln!(output, "END {frames}")?;
            return Ok(Outcome::End(frames));
        }
        let Some(good) = judge_record(form, &room[..got]) else {
            writeln!(output, "BAD {number}")?;
            return Ok(Outcome::Bad(number));
        };
        for event in events(&good) {
            let reply = player.hear(event);
            if reply.frames > 0 {
                heard(&reply.bytes);
            }
            for frame in split_frames(&reply.bytes) {
                writeln!(output, "{}", hex_line(frame))?;
                frames += 1;
            }
        }
        number += 1;
    }
}

/// The replay of a capture held in memory, as text.
pub fn replay_text(form: Form, capture: &[u8]) -> String {
    let mut output = Vec::new();
    replay(form, capture, &mut output, |_| ()).expect("memory neither ends early nor fails");
    String::from_utf8(output).expect("only hex, digits and capitals are written")
}

/// The same text by the plain engine: a gap ends a stretch, and so does the capture's end or a bad record.
pub fn replay_plain(form: Form, capture: &[u8]) -> String {
    let mut player = Player::fresh();
    let (mut text, mut frames) = (String::new(), 0);
    let mut play = |player: &mut Player, stretch: &mut Vec<u8>| {
        let (replies, said) = player.play(stretch);
        for frame in split_frames(&replies) {
            text += &hex_line(frame);
            text += "\n";
        }
        frames += said.frames;
        stretch.clear();
    };
    let mut stretch = Vec::new();
    let mut bad = None;
    for (number, record) in capture.chunks(form.record()).enumerate() {
        let Some(good) = judge_record(form, record) else {
            bad = Some(number);
            break;
        };
        for event in events(&good) {
            match event {
                Event::Byte(byte) => stretch.push(byte),
                Event::Gap | Event::PowerOn => {
                    play(&mut player, &mut stretch);
                    player.hear(event);
                }
            }
        }
    }
    play(&mut player, &mut stretch);
    let last = match bad {
        Some(number) => format!("BAD {number}\n"),
        None => format!("END {frames}\n"),
    };
    text + &last
}

/// What a good record plays; of seat 1 it is nothing, and a gap there drops nothing.
pub fn events(record: &Record) -> Vec<Event> {
    match &record.carried {
        _ if record.seat != PLAYED_SEAT => Vec::new(),
        None => vec![Event::Gap],
        Some(carried) => carried.bytes().iter().copied().map(Event::Byte).collect(),
    }
}

/// The frames of an answer; they lie end to end.
pub fn split_frames(mut answer: &[u8]) -> Vec<&[u8]> {
    let mut frames = Vec::new();
    while !answer.is_empty() {
        let (frame, rest) = answer.split_at(counted(answer[1]) + 4);
        frames.push(frame);
        answer = rest;
    }
    frames
}

pub fn hex_line(bytes: &[u8]) -> String {
    let pairs: Vec<String> = bytes.iter().map(|byte| format!("{byte:02X}")).collect();
    pairs.join(" ")
}

/// Fills the buffer as far as the input goes; a reader may hand out less than asked each time.
fn read_up_to<R: Read>(input: &mut R, buffer: &mut [u8]) -> io::Result<usize> {
    let mut got = 0;
    while got < buffer.len() {
        match input.read(&mut buffer[got..]) {
            Ok(0) => break,
            Ok(count) => got += count,
            Err(error) if error.kind() == io::ErrorKind::Interrupted => (),
            Err(error) => return Err(error),
        }
    }
    Ok(got)
}
