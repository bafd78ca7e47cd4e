//! Which fault the chip tells, and at which byte (02 §4): directed frames with every fault at every place, in every phase that awaits a frame; and how often each
//! place came, each status with its fault, and each status without one.

use twin::chip::{Phase, BAD_SUM, NACK};
use twin::frame::{COMMAND_HEADER, DATA_HEADER, LAST_FOOTER};
use twin::part::Part;
use twin::random::{command_frame, data_frame};

use crate::chip::{phase_index, said_text, Difference, Sides, PHASES};
use crate::coverage::{row, Coverage};
use crate::directed::{phases, standing};
use crate::script;

/// The fault numbers of door.h.
const FAULTS: [&str; 5] = ["none", "footer", "SUM", "LEN", "first byte"];
const FOOTER: usize = 1;
const SUM: usize = 2;
const LEN: usize = 3;

/// The first of the phases that await a frame.
const AWAITING: usize = 1;

impl Sides<'_> {
    /// The frame that was answered, by the phase that awaited it.
    pub fn count_fault(&mut self, phase: Phase, said: &[u8], fault: u64, place: u64) {
        let phase = PHASES[phase_index(phase)];
        let fault = FAULTS[fault as usize];
        let status = match said {
            [BAD_SUM, ..] => Some(BAD_SUM),
            [NACK, ..] => Some(NACK),
            _ => None,
        };
        match status {
            Some(status) => {
                self.coverage
                    .count(&format!("{status:02X}h in {phase}, {fault}"));
                self.coverage.count(&format!("{fault} in {phase}, {place}"));
            }
            None => self.coverage.count(&format!(
                "answered with the fault {fault}, {}",
                said_text(said)
            )),
        }
    }
}

/// A frame that the phase awaits but for its COM or its LEN, with the footer that it asks for.
fn awaited(part: &Part, phase: Phase, body: &[u8]) -> Vec<u8> {
    match phase {
        Phase::Awaiting {
            command,
            next,
            last,
            ..
        } => {
            let footer = match command {
                0xA0 => LAST_FOOTER,
                _ => script::footer(part, next, last),
            };
            data_frame(body, footer)
        }
        _ => command_frame(body),
    }
}

/// The last three bytes of the frame, where the others are collected already.
fn finish(sides: &mut Sides, phase: Phase, frame: &[u8]) -> Result<(), Difference> {
    let mut chip = standing(sides, phase);
    let (collected, rest) = frame.split_at(frame.len() - 3);
    chip.count = collected.len();
    chip.collected[..chip.count].copy_from_slice(collected);
    sides.hand_in(chip);
    sides.bytes(rest, 32)
}

/// Frames of every LEN with a wrong footer, a wrong SUM and both, and with neither; the shortest and the longest byte by byte, of the others the end.
pub fn run(sides: &mut Sides) -> Result<(), Difference> {
    let part = sides.part.clone();
    for phase in phases(&part).into_iter().skip(AWAITING) {
        for length in 1..=256 {
            // No COM of a command, so that only its ends are judged.
            let body: Vec<u8> = (0..length).map(|at| (at * 11 + 0x55) as u8).collect();
            let good = awaited(&part, phase, &body);
            for (sum, footer) in [(0, 0), (0x01, 0), (0, 0x14), (0x80, 0xFF)] {
                let mut frame = good.clone();
                frame[length + 2] ^= sum;
                frame[length + 3] ^= footer;
                if matches!(length, 1..=4 | 8 | 254..=256) {
                    sides.hand_in(standing(sides, phase));
                    sides.bytes(&frame, 32)?;
                } else {
                    finish(sides, phase, &frame)?;
                }
                sides.no_byte()?;
            }
        }
    }
    unfit_lengths(sides)?;
    inner_frames(sides)
}

/// Each command with every LEN, in both phases that await one: 04h where it is not allowed, whatever its LEN, else 15h where LEN is unfit.
fn unfit_lengths(sides: &mut Sides) -> Result<(), Difference> {
    for phase in [Phase::Setup, Phase::Ready] {
        for command in script::COMMANDS.into_iter().chain([0x55]) {
            for length in 1..=256 {
                let mut body = vec![0x00; length];
                body[0] = command;
                finish(sides, phase, &command_frame(&body))?;
            }
        }
    }
    Ok(())
}

/// Headers inside a frame: places count from the frame's own.
fn inner_frames(sides: &mut Sides) -> Result<(), Difference> {
    let part = sides.part.clone();
    for phase in phases(&part).into_iter().skip(AWAITING) {
        for header in [COMMAND_HEADER, DATA_HEADER] {
            let mut frame = awaited(&part, phase, &[header; 9]);
            let sum = frame.len() - 2;
            frame[sum] ^= 0x10;
            sides.hand_in(standing(sides, phase));
            sides.bytes(&[&[0x03, 0x17, 0x55], &frame[..]].concat(), 32)?;
        }
    }
    Ok(())
}

/// Prints what came of faults; hands back what did not come.
pub fn table(coverage: &Coverage) -> Vec<String> {
    let mut rows = Vec::new();
    for phase in &PHASES[AWAITING..] {
        rows.push(row(
            &format!("15h in {phase}"),
            &[FAULTS[FOOTER], FAULTS[LEN]],
        ));
        rows.push(row(&format!("07h in {phase}"), &[FAULTS[SUM]]));
    }
    rows.push(row(
        "answered with the fault none",
        &[
            "04h",
            "05h",
            "06h",
            "10h",
            "1Bh",
            "06h 06h",
            "06h 06h 06h",
            "06h 0Fh",
            "06h 1Ch",
        ],
    ));
    let mut missing = coverage.table("faults of frames to the chip", &rows);
    // By hand: LEN counts 1 to 256, SUM lies two places behind what it counts, and the footer three.
    for phase in &PHASES[AWAITING..] {
        for (fault, places) in [(FOOTER, 4..=259), (SUM, 3..=258)] {
            let row = format!("{} in {phase}", FAULTS[fault]);
            missing.extend(coverage.places(&row, places));
        }
    }
    missing
}
