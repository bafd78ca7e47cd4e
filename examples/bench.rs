//! What the Rust examples that rehearse a job, or damage what is sent in one, have in common: a chip of the replay's part (document 01, "Replay") with its flash,
//! sums and reply room, and a job from its first frame to how it ended. Each of them uses some of it.
#![allow(dead_code)]

#[path = "../include/door.rs"]
pub mod door;

use door::{Job, Part, Report, Told, DOCK, FRAME_ROOM, ROOM, STATE, SUMS};

pub const NAMES: &[u8; door::NAMES] = b"\x10\x00\x06R5F100LE  \x01\x02\x03";
const MODE_BYTE: u8 = 0x3A;

/// The first bytes as hex, and two dots where there are more.
pub fn hex(bytes: &[u8], most: usize) -> String {
    let shown: Vec<String> = bytes
        .iter()
        .take(most)
        .map(|byte| format!("{byte:02X}"))
        .collect();
    shown.join(" ") + if bytes.len() > most { " .." } else { "" }
}

/// A chip's part and state, with its flash, sums and reply room.
pub struct Chip {
    pub part: Part,
    state: [u8; STATE],
    pub code: Vec<u8>,
    pub data: Vec<u8>,
    pub sums: [u16; SUMS],
    room: [u8; ROOM],
}

impl Chip {
    /// A fresh chip is taken up with this flash, which need not be blank, and hears its mode byte.
    pub fn taken_up(code: Vec<u8>, data: Vec<u8>) -> Chip {
        let mut chip = Chip {
            part: door::part(16, 4, 32, NAMES),
            state: [0; STATE],
            code,
            data,
            sums: [0; SUMS],
            room: [0; ROOM],
        };
        must("zc_fresh", door::fresh(&chip.part, &mut chip.state));
        must(
            "zc_sums",
            door::sums(&chip.part, &chip.code, &chip.data, &mut chip.sums),
        );
        chip.hear(&[MODE_BYTE]);
        chip
    }

    /// The bytes reach the chip; all that it says is handed back.
    pub fn hear(&mut self, mut bytes: &[u8]) -> Vec<u8> {
        let mut said = Vec::new();
        while !bytes.is_empty() {
            let (taken, reply, _) = self.feed(bytes);
            said.extend(reply);
            bytes = &bytes[taken..];
        }
        said
    }

    /// The bytes up to the first that is answered: how many they are, the reply, and what else was told of them.
    pub fn feed(&mut self, bytes: &[u8]) -> (usize, &[u8], Told) {
        let (taken, told) = door::feed(
            &self.part,
            &mut self.state,
            bytes,
            &mut self.code,
            &mut self.data,
            &mut self.sums,
            &mut self.room,
        );
        must("zc_feed", told.refusal);
        (taken as usize, &self.room[..told.bytes as usize], told)
    }

    pub fn gap(&mut self) {
        let told = door::gap(
            &self.part,
            &mut self.state,
            &mut self.code,
            &mut self.data,
            &mut self.sums,
            &mut self.room,
        );
        must("zc_gap", told.refusal);
    }
}

pub fn must(call: &str, refusal: u32) {
    if refusal != 0 {
        println!("{call}: refused, {refusal}");
        std::process::exit(1);
    }
}

/// Frame by frame to the job's end, a pause before each. `show` is called when the chip has answered a frame and the dock has not heard it yet.
pub fn rehearse(
    chip: &mut Chip,
    job: &Job,
    dock: &mut [u8; DOCK],
    mut show: impl FnMut(&Chip, &[u8; DOCK], &[u8], &[u8]),
) -> Report {
    loop {
        let mut frame = [0; FRAME_ROOM];
        let (refusal, bytes) = door::ask(job, dock, &mut frame);
        must("zc_ask", refusal);
        chip.gap();
        let frame = &frame[..bytes as usize];
        let answer = chip.hear(frame);
        show(chip, dock, frame, &answer);
        let report = match answer.is_empty() {
            false => door::answer(job, dock, &answer),
            true => door::timeout(job, dock),
        };
        must("zc_answer or zc_timeout", report.refusal);
        if report.ended != 0 {
            return report;
        }
    }
}

/// What is wrong with a frame, and which of its bytes, the header being byte 0; nothing where nothing is.
pub fn fault_text(fault: u64, place: u64) -> String {
    let what = match fault {
        door::FAULT_NONE => return String::new(),
        door::FAULT_FOOTER => "wrong footer",
        door::FAULT_SUM => "wrong SUM",
        door::FAULT_LEN => "unfit LEN",
        _ => "first byte missing or not 02h",
    };
    format!(", {what} (byte {place})")
}

/// How the job ended, of an unreadable answer with what was wrong in it, and whether code flash from `start` on holds the image; whether both are well.
pub fn print_end(
    report: &Report,
    dock: &[u8; DOCK],
    chip: &Chip,
    start: usize,
    image: &[u8],
) -> bool {
    let how = match (report.ended, dock[20]) {
        (1, _) => "finished",
        (_, 1) => "failed by status",
        (_, 2) => "failed by mismatch",
        (_, 3) => "failed, unreadable",
        _ => "failed by timeout",
    };
    println!(
        "{how}{}, {} frames, {} retries",
        fault_text(door::dock_fault(dock), door::dock_place(dock)),
        report.frames_used,
        report.retries_used
    );
    let end = start + image.len();
    let holds = &chip.code[start..end] == image;
    let verb = if holds { "holds" } else { "does not hold" };
    println!("{start:05X}h to {:05X}h {verb} the image", end - 1);
    report.ended == 1 && holds
}
