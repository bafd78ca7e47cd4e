//! Random histories: every call gets the refusal it gives cause for or none, counts are the flow's, and every cause,
//! refusal and ending comes (01 "The dock's flow", "Refusal numbers").

mod common;

use common::flow::{flow, End, Heard};
use twin::dock::{Job, Report, Stage, State};
use twin::histories::{play, Ending, History};
use twin::transcript::{twin_dock, Action, Call, Outcome, Reply, Tally, FILLER};

const HISTORIES: u64 = 2_000;

fn state_before(call: &Call) -> Option<State> {
    match call.action {
        Action::Start => None,
        Action::Ask { state, .. } | Action::Answer { state, .. } | Action::Timeout { state } => {
            Some(state)
        }
    }
}

fn played(seed: u64, mut seen: impl FnMut(&Call, &Outcome)) -> History {
    play(seed, |call| {
        let outcome = twin_dock(call);
        seen(call, &outcome);
        outcome
    })
}

/// A refusal exactly where one was provoked, the first of the order, and nothing changed by it.
#[test]
fn refusals_come_exactly_when_provoked() {
    for seed in 0..HISTORIES {
        played(seed, |call, outcome| match outcome.reply {
            Reply::Refused(number) => {
                assert_eq!(call.expected_refusal(), Some(number), "{seed} {call:?}");
                assert_eq!(outcome.state, state_before(call));
                assert!(outcome.room.iter().all(|byte| *byte == FILLER));
            }
            Reply::Frame(length) => {
                assert_eq!(call.faults, []);
                let past = &outcome.room[length..];
                assert!(past.iter().all(|byte| *byte == FILLER));
            }
            Reply::Started | Reply::Told(_) => assert_eq!(call.faults, []),
        });
    }
}

/// A dock of narrower numbers can be given every call. The widest come with two faults at once, which are rare.
#[test]
fn all_numbers_are_within_32_bits() {
    for seed in 0..5 * HISTORIES {
        played(seed, |call, _| {
            let Job {
                start,
                end,
                rate,
                supply,
                retries,
                ..
            } = *call.job;
            for number in [start, end, rate, supply, retries] {
                assert!(number <= u64::from(u32::MAX), "{seed} {call:?}");
            }
            if let Some(state) = state_before(call) {
                let most = state.frames.max(state.retries);
                assert!(most <= u64::from(u32::MAX), "{seed} {call:?}");
            }
        });
    }
}

/// "at most 3 + 12(B + R) frames", and no retry past the allowance, from handed-in states too.
#[test]
fn no_count_passes_its_bound() {
    for seed in 0..HISTORIES {
        played(seed, |call, outcome| {
            let (Some(state), None) = (outcome.state, call.expected_refusal()) else {
                return;
            };
            let blocks = (call.image.len() / call.job.block_size()) as u64;
            assert!(state.frames <= call.job.bound(blocks), "{seed}");
            assert!(state.retries <= call.job.retries, "{seed}");
            if let Some(before) = state_before(call) {
                let asked = u64::from(matches!(call.action, Action::Ask { .. }));
                assert_eq!(state.frames, before.frames + asked);
                assert!(state.retries - before.retries <= 1 - asked);
            }
        });
    }
}

/// What the kept calls of a history were given and handed out.
struct Course {
    job: Option<Job>,
    image: Vec<u8>,
    state: Option<State>,
    frames: Vec<Vec<u8>>,
    heard: Vec<Heard>,
    /// The history went on from a state that was handed in.
    strayed: bool,
}

impl Course {
    fn new() -> Course {
        Course {
            job: None,
            image: Vec::new(),
            state: None,
            frames: Vec::new(),
            heard: Vec::new(),
            strayed: false,
        }
    }

    fn see(&mut self, call: &Call, outcome: &Outcome) {
        if !call.kept {
            return;
        }
        self.strayed |= state_before(call) != self.state;
        self.state = outcome.state;
        match call.action {
            Action::Start => {
                self.job = Some(call.job.clone());
                self.image = call.image.to_vec();
            }
            Action::Ask { .. } => {
                if let Reply::Frame(length) = outcome.reply {
                    self.frames.push(outcome.room[..length].to_vec());
                }
            }
            Action::Answer { bytes, .. } => self.heard.push(Some(bytes.to_vec())),
            Action::Timeout { .. } => self.heard.push(None),
        }
    }
}

/// Frames, retries and outcome are those of the flow over the same answers.
#[test]
fn the_stepped_dock_is_the_flow() {
    let mut compared = 0;
    for seed in 0..HISTORIES {
        let mut course = Course::new();
        played(seed, |call, outcome| course.see(call, outcome));
        let (Some(job), Some(state), false) = (&course.job, course.state, course.strayed) else {
            continue;
        };
        let told = flow(job, &course.image, &course.heard);
        let end = match state.stage {
            Stage::Finished => End::Finished,
            Stage::Failed(failure) => End::Failed(failure),
            _ => End::Open,
        };
        assert_eq!(told.end, end, "{seed}");
        assert_eq!(told.frames, course.frames, "{seed}");
        assert_eq!(told.frames.len() as u64, state.frames);
        assert_eq!(told.retries, state.retries);
        compared += 1;
    }
    assert!(compared > HISTORIES / 2);
}

/// Every prefix of a history too: where the answers stop, the flow awaits one.
#[test]
fn the_flow_over_every_prefix() {
    for seed in 0..300 {
        let mut course = Course::new();
        let mut states = Vec::new();
        played(seed, |call, outcome| {
            course.see(call, outcome);
            if call.kept && matches!(call.action, Action::Ask { .. }) {
                states.push(outcome.state);
            }
        });
        let (Some(job), false) = (&course.job, course.strayed) else {
            continue;
        };
        for (heard, state) in states.iter().enumerate().take(60) {
            let told = flow(job, &course.image, &course.heard[..heard]);
            let state = state.unwrap();
            assert_eq!(told.end, End::Open);
            assert_eq!(told.frames, course.frames[..heard + 1]);
            assert_eq!(told.retries, state.retries);
            assert!(state.awaited);
        }
    }
}

#[test]
fn every_cause_refusal_and_ending_comes() {
    let mut tally = Tally::new();
    let mut ended = Tally::new();
    for seed in 0..HISTORIES {
        let history = played(seed, |call, outcome| {
            tally.hear(call, outcome);
            if let Reply::Told(Report::Finished { retries, .. }) = outcome.reply {
                ended.count(format!("finished after retries {}", retries > 0));
            }
        });
        assert_ne!(history.ending, Ending::Endless);
        ended.count(history.ending.to_string());
    }
    for cause in ["status", "unreadable", "timeout"] {
        for place in [
            "9Ah", "00h", "C0h", "32h", "22h", "40h", "40h page", "13h", "13h page",
        ] {
            let name = format!("cause {cause} at {place}");
            assert!(tally.of(&name) > 0, "{name}");
        }
    }
    for name in ["cause mismatch at 9Ah", "cause mismatch at C0h"] {
        assert!(tally.of(name) > 0, "{name}");
    }
    // 02 §4: frames of one byte, of two, of 9Ah's three and of C0h's 22.
    for fault in [
        "first byte at 0",
        "LEN at 1",
        "footer at 4",
        "footer at 5",
        "footer at 6",
        "footer at 25",
        "SUM at 3",
        "SUM at 4",
        "SUM at 5",
        "SUM at 24",
        "none",
    ] {
        assert!(tally.of(&format!("fault {fault}")) > 0, "{fault}");
    }
    for action in ["start", "ask", "answer", "timeout"] {
        for number in [1, 5, 6, 7, 9, 4, 8] {
            let given = match number {
                9 | 8 => action != "start",
                4 => action == "ask",
                _ => true,
            };
            let name = format!("refusal {number} to {action}");
            assert_eq!(tally.of(&name) > 0, given, "{name}");
        }
    }
    // 8 is the last of the order: with another fault it never shows.
    for number in [1, 5, 6, 7, 9, 4] {
        let name = format!("refusal {number} with more faults");
        assert!(tally.of(&name) > 0, "{name}");
    }
    assert_eq!(tally.of("refusal 8 with more faults"), 0);
    for status in [
        "00h", "04h", "05h", "06h", "07h", "0Fh", "10h", "15h", "1Bh", "1Ch",
    ] {
        assert!(tally.of(&format!("named {status}")) > 0, "{status}");
    }
    for name in [
        "finished",
        "failed status",
        "failed mismatch",
        "failed unreadable",
        "failed timeout",
        "refused 1",
        "refused 5",
        "refused 6",
        "refused 7",
        "refused 9",
        "finished after retries true",
        "finished after retries false",
    ] {
        assert!(ended.of(name) > 0, "{name}");
    }
    assert!(tally.of("retry spent") > 0);
}

#[test]
fn a_line_for_each_call_and_the_same_for_the_same_seed() {
    for seed in 0..200 {
        let mut calls = 0;
        let history = played(seed, |_, _| calls += 1);
        let jobs = history
            .lines
            .iter()
            .filter(|line| line.starts_with("job "))
            .count();
        assert_eq!(history.lines.len() - jobs, calls);
        assert!(history.lines[0].starts_with("job "));
        assert!(history.lines.iter().all(|line| !line.contains('\n')));
        assert!(history.lines == play(seed, twin_dock).lines);
    }
}

/// A dock that differs in one call is told apart by that call's line.
#[test]
fn lines_tell_another_dock_apart() {
    let wrong_docks: [fn(&Call, &mut Outcome); 5] = [
        |_, outcome| {
            if let Some(state) = &mut outcome.state {
                state.frames += u64::from(matches!(outcome.reply, Reply::Frame(_)));
            }
        },
        |_, outcome| {
            if let Reply::Frame(length) = outcome.reply {
                outcome.room[length - 1] ^= 0x14;
            }
        },
        |_, outcome| {
            if let (Reply::Frame(_), Some(last)) = (outcome.reply, outcome.room.last_mut()) {
                *last = 0x00;
            }
        },
        |call, outcome| {
            if let (Reply::Refused(9), Action::Ask { .. }) = (outcome.reply, call.action) {
                outcome.reply = Reply::Refused(8);
            }
        },
        |_, outcome| {
            if let Some(Stage::Failed(failure)) = outcome.state.as_mut().map(|it| &mut it.stage) {
                failure.fault = None;
            }
        },
    ];
    for change in wrong_docks {
        let told_apart = (0..200).filter(|seed| {
            let other = play(*seed, |call| {
                let mut outcome = twin_dock(call);
                change(call, &mut outcome);
                outcome
            });
            other.lines != play(*seed, twin_dock).lines
        });
        assert!(told_apart.count() > 0);
    }
}
