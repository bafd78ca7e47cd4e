//! The twin's dock in the door's layout: a job, and a state as 26 bytes.

use crate::chip::{described, fault_numbers};
use crate::door::{self, DOCK};
use twin::dock::{Cause, Job, Stage, State};

/// A job whose numbers are within 32 bits, as the door takes it.
pub fn work<'a>(job: &Job, image: &'a [u8]) -> door::Job<'a> {
    door::Job {
        part: described(&job.part),
        work: door::work(
            narrow(job.start),
            narrow(job.end),
            narrow(job.rate),
            narrow(job.supply),
            narrow(job.retries),
        ),
        image,
    }
}

/// The twin's numbers are wider than the door's.
fn narrow(number: u64) -> u32 {
    u32::try_from(number).expect("a number within 32 bits")
}

/// The stage's byte.
pub fn stage_number(stage: Stage) -> u8 {
    match stage {
        Stage::Rate => 1,
        Stage::Reset => 2,
        Stage::Signature => 3,
        Stage::Blank { .. } => 4,
        Stage::Erase { .. } => 5,
        Stage::Program { .. } => 6,
        Stage::ProgramPage { .. } => 7,
        Stage::Verify { .. } => 8,
        Stage::VerifyPage { .. } => 9,
        Stage::Finished => 10,
        Stage::Failed(_) => 11,
    }
}

/// The cause's byte in a state.
pub fn cause_number(cause: Cause) -> u8 {
    match cause {
        Cause::Status => 1,
        Cause::Mismatch => 2,
        Cause::Unreadable => 3,
        Cause::Timeout => 4,
    }
}

/// Where a state names the fault of an unreadable answer (02 §4), and its place, low byte first.
pub const FAULT: usize = 23;
pub const PLACE: usize = 24;

/// The twin's state in the door's layout.
pub fn layout(state: &State) -> [u8; DOCK] {
    let (block, page) = match state.stage {
        Stage::Blank { block }
        | Stage::Erase { block }
        | Stage::Program { block }
        | Stage::Verify { block } => (Some(block), None),
        Stage::ProgramPage { block, page } | Stage::VerifyPage { block, page } => {
            (Some(block), Some(page))
        }
        Stage::Failed(failure) => (failure.block, failure.page),
        Stage::Rate | Stage::Reset | Stage::Signature | Stage::Finished => (None, None),
    };
    let mut bytes = [0; DOCK];
    bytes[0] = stage_number(state.stage);
    bytes[1] = u8::from(state.awaited);
    bytes[2..6].copy_from_slice(&narrow(state.retries).to_le_bytes());
    bytes[6..10].copy_from_slice(&narrow(state.frames).to_le_bytes());
    for (at, named) in [(10, block), (15, page)] {
        if let Some(number) = named {
            bytes[at] = 1;
            bytes[at + 1..at + 5].copy_from_slice(&narrow(number).to_le_bytes());
        }
    }
    if let Stage::Failed(failure) = state.stage {
        let (fault, place) = fault_numbers(failure.fault);
        bytes[20..=FAULT].copy_from_slice(&[
            cause_number(failure.cause),
            failure.command,
            failure.status,
            fault,
        ]);
        bytes[PLACE..].copy_from_slice(&place.to_le_bytes());
    }
    bytes
}
