//! Directed answers to the dock: every form of an answer damaged in every way and in two ways at once, so that every fault is named at every place that it can have
//! (02 §4); and bytes 23 to 25 of a state, with what is refused and what is accepted.

use trials::dock::{layout, stage_number};
use twin::chip::{mode_of, signature, ACK, NOT_BLANK};
use twin::dock::{Cause, Failure, Job, Stage, State};
use twin::frame::{Fault, LAST_FOOTER};
use twin::part::Part;
use twin::random::data_frame;
use twin::replay::replay_part;
use twin::transcript::{Action, Call};

use crate::chip::Difference;
use crate::coverage::{row, Coverage};
use crate::dock::{compared, name_fault, not_refused, Counts, STAGES};

struct Work {
    job: Job,
    image: Vec<u8>,
}

/// A block of code flash, and two of data flash with a low supply.
fn works() -> [Work; 2] {
    let work = |part: Part, start: u64, end: u64, supply: u64| Work {
        image: (start..=end).map(|at| (at * 7 + at / 256) as u8).collect(),
        job: Job {
            part,
            start,
            end,
            rate: 0,
            supply,
            retries: 2,
        },
    };
    let small = Part {
        code_blocks: 8,
        data_blocks: 2,
        clock: 20,
        ..replay_part()
    };
    [
        work(replay_part(), 0x0400, 0x07FF, 33),
        work(small, 0xF1000, 0xF17FF, 18),
    ]
}

impl Work {
    /// A stage of each kind, with the first page and the last.
    fn stages(&self) -> [Stage; 11] {
        let (block, page) = (0, self.job.pages_of_block() - 1);
        [
            Stage::Rate,
            Stage::Reset,
            Stage::Signature,
            Stage::Blank { block },
            Stage::Erase { block },
            Stage::Program { block },
            Stage::ProgramPage { block, page: 0 },
            Stage::ProgramPage { block, page },
            Stage::Verify { block },
            Stage::VerifyPage { block, page: 0 },
            Stage::VerifyPage { block, page },
        ]
    }

    /// Readable answers of each form that the stage has.
    fn readable(&self, stage: Stage) -> Vec<Vec<u8>> {
        let job = &self.job;
        let frames = |each: &[&[u8]]| -> Vec<u8> {
            each.iter()
                .flat_map(|data| data_frame(data, LAST_FOOTER))
                .collect()
        };
        let refused = frames(&[&[0x05]]);
        match stage {
            Stage::Rate => {
                let mode = mode_of(job.supply as u8);
                vec![frames(&[&[ACK, job.part.clock as u8, mode]]), refused]
            }
            Stage::Signature => vec![frames(&[&[ACK], &signature(&job.part)]), refused],
            Stage::Blank { .. } => vec![frames(&[&[ACK]]), frames(&[&[NOT_BLANK]]), refused],
            Stage::ProgramPage { page, .. } if page + 1 == job.pages_of_block() => {
                vec![frames(&[&[ACK, ACK], &[ACK]]), frames(&[&[ACK, 0x1C]])]
            }
            Stage::ProgramPage { .. } | Stage::VerifyPage { .. } => {
                vec![frames(&[&[ACK, ACK]]), frames(&[&[0x15, 0x15]])]
            }
            _ => vec![frames(&[&[ACK]]), refused],
        }
    }
}

/// Both jobs at every stage.
pub fn run(coverage: &mut Coverage, counts: &mut Counts) -> Result<(), Difference> {
    for work in works() {
        for stage in work.stages() {
            let state = State {
                stage,
                awaited: true,
                retries: 0,
                frames: 5,
            };
            for answer in work.readable(stage) {
                for bytes in damaged(&answer) {
                    let action = Action::Answer {
                        state,
                        bytes: &bytes,
                    };
                    compared(&work.call(action), coverage, counts)?;
                }
            }
            fault_bytes(&work, state, coverage, counts)?;
        }
        for over in [Stage::Finished, failed(Cause::Status, None)] {
            let state = State {
                stage: over,
                awaited: false,
                retries: 0,
                frames: 5,
            };
            fault_bytes(&work, state, coverage, counts)?;
        }
        handed_in(&work, coverage, counts)?;
    }
    Ok(())
}

impl Work {
    fn call<'a>(&'a self, action: Action<'a>) -> Call<'a> {
        Call {
            job: &self.job,
            image: &self.image,
            action,
            faults: &[],
            kept: false,
            manner: "directed",
        }
    }
}

/// The answer as it is, with one byte changed, two bytes changed, one lost, one added, cut short and overlong, and each of the last two with a byte changed too.
fn damaged(answer: &[u8]) -> Vec<Vec<u8>> {
    let places = 0..answer.len();
    let changed = |place: usize, difference: u8| {
        let mut bytes = answer.to_vec();
        bytes[place] ^= difference;
        bytes
    };
    let mut all = vec![answer.to_vec(), Vec::new()];
    for place in places.clone() {
        for difference in [0x01, 0x02, 0x04, 0x14, 0x80, 0xFF] {
            let one = changed(place, difference);
            for other in place + 1..answer.len() {
                let mut two = one.clone();
                two[other] ^= 0x14;
                all.push(two);
            }
            all.push([&one[..], &[0x02]].concat());
            all.push(one);
        }
        let one = changed(place, 0x10);
        all.extend(places.clone().map(|cut| one[..cut].to_vec()));
        all.extend(places.clone().map(|cut| answer[..cut].to_vec()));
        all.push([&answer[..place], &answer[place + 1..]].concat());
    }
    for added in [0x00, 0x02, 0x03, 0x06, 0x17, 0xFF] {
        for place in 0..=answer.len() {
            all.push([&answer[..place], &[added], &answer[place..]].concat());
        }
    }
    all.push([answer, answer].concat());
    all.push([answer, &data_frame(&[ACK], LAST_FOOTER)].concat());
    all
}

fn failed(cause: Cause, fault: Option<Fault>) -> Stage {
    Stage::Failed(Failure {
        cause,
        command: 0x40,
        page: Some(1),
        status: 0x00,
        block: Some(0),
        fault,
    })
}

const PLACES: [u16; 10] = [0, 1, 2, 3, 4, 255, 256, 257, 259, 0xFFFF];

/// Which (fault, place) a failed job's state may name.
fn is_named(fault: u8, place: u16) -> bool {
    match fault {
        0 => place == 0,
        1 | 2 => true,
        3 => place == 1,
        4 => place == 0,
        _ => false,
    }
}

/// The state with every number in byte 23, and places of each kind in bytes 24 and 25, that it may not have: refused with 9 by each call.
fn fault_bytes(
    work: &Work,
    state: State,
    coverage: &mut Coverage,
    counts: &mut Counts,
) -> Result<(), Difference> {
    let is_failed = matches!(state.stage, Stage::Failed(_));
    let stage = stage_number(state.stage);
    for fault in 0..=255 {
        for place in PLACES {
            let nothing = (fault, place) == (0, 0);
            if nothing || is_failed && is_named(fault, place) {
                continue;
            }
            let mut dock = layout(&state);
            name_fault(&mut dock, fault, place);
            for action in [
                Action::Ask { state, room: 260 },
                Action::Ask { state, room: 0 },
                Action::Answer {
                    state,
                    bytes: &[0x02],
                },
                Action::Timeout { state },
            ] {
                counts.no_states += 1;
                if let Some(what) = not_refused(&work.call(action), dock, 9) {
                    return Err(format!("stage {stage}, fault {fault} at {place}: {what}"));
                }
            }
            let in_stage = STAGES.get(usize::from(stage) - 1);
            let how = in_stage.copied().unwrap_or(match is_failed {
                true => "failed",
                false => "finished",
            });
            coverage.count(&format!("bytes 23 to 25 refused, {how}"));
        }
    }
    Ok(())
}

const CAUSES: [Cause; 4] = [
    Cause::Status,
    Cause::Mismatch,
    Cause::Unreadable,
    Cause::Timeout,
];

/// A failed job's state with each fault that it may name, beside each cause: refused with 8 as every job that is over, and so not with 9.
fn handed_in(work: &Work, coverage: &mut Coverage, counts: &mut Counts) -> Result<(), Difference> {
    let each = PLACES.map(|place| [Fault::Footer(place), Fault::Sum(place)]);
    let faults = each.into_iter().flatten().chain([Fault::Len, Fault::First]);
    for fault in faults.map(Some).chain([None]) {
        for cause in CAUSES {
            let state = State {
                stage: failed(cause, fault),
                awaited: false,
                retries: 0,
                frames: 5,
            };
            for action in [
                Action::Ask { state, room: 260 },
                Action::Answer { state, bytes: &[] },
                Action::Timeout { state },
            ] {
                let call = Call {
                    faults: &[8],
                    ..work.call(action)
                };
                compared(&call, coverage, counts)?;
            }
            coverage.count(&format!(
                "fault handed in and accepted, {}",
                fault.map_or("none", Fault::name)
            ));
        }
    }
    Ok(())
}

/// Prints what came of faults; hands back what did not come.
pub fn table(coverage: &Coverage) -> Vec<String> {
    // By hand: of n bytes SUM is at n + 2 and the footer at n + 3; one status, two of a page, 9Ah's three bytes, C0h's 22.
    let (first, len) = ("first byte at 0", "LEN at 1");
    let one = [first, len, "footer at 4", "SUM at 3"];
    let two = [first, len, "footer at 5", "SUM at 4"];
    let rows: Vec<_> = STAGES
        .iter()
        .map(|stage| {
            let places = match *stage {
                "9Ah" => [&one[..], &["footer at 6", "SUM at 5"]].concat(),
                "C0h" => [&one[..], &["footer at 25", "SUM at 24"]].concat(),
                "40h page" => [&two[..], &["footer at 4", "SUM at 3"]].concat(),
                "13h page" => two.to_vec(),
                _ => one.to_vec(),
            };
            row(&format!("unreadable at {stage}"), &places)
        })
        .chain([
            row(
                "bytes 23 to 25 refused",
                &[&STAGES[..], &["finished", "failed"]].concat(),
            ),
            row(
                "fault handed in and accepted",
                &["none", "footer", "SUM", "LEN", "first byte"],
            ),
        ])
        .collect();
    coverage.table("faults of answers to the dock", &rows)
}
