//! The dock: random histories of calls to the twin and to the proved dock; after each call the reply, the 26 bytes of state with the fault that a failure names
//! (02 §4), the whole room and the counts are compared (01 "The dock's flow", "Refusal numbers"). Beside them, bytes that are no state of a dock, which the twin's
//! types cannot hold.

use trials::dock::{layout, stage_number, work, FAULT, PLACE};
use trials::door::{self, Report as Told, ANSWER, DOCK, UNTOLD};
use twin::dock::{start, Cause, Report, Stage, State};
use twin::histories::play;
use twin::random::Generator;
use twin::replay::hex_line;
use twin::transcript::{
    call_line, cause_text, fault_text, job_line, twin_dock, Action, Call, Outcome, Reply, FILLER,
};

use crate::answers;
use crate::chip::Difference;
use crate::coverage::{row, Coverage};

/// What the histories were, for the report.
#[derive(Default)]
pub struct Counts {
    pub calls: u64,
    pub no_states: u64,
}

/// One history; every call of it compared.
pub fn history(seed: u64, coverage: &mut Coverage, counts: &mut Counts) -> Result<(), Difference> {
    let mut choice = Generator::new(!seed);
    let mut difference = None;
    let played = play(seed, |call| {
        let expected = twin_dock(call);
        counts.calls += 1;
        if difference.is_none() {
            let mut what = unlike(call, &expected);
            if what.is_none() && choice.chance(20) {
                counts.no_states += 1;
                what = no_state(&mut choice, call, coverage);
            }
            difference = what.map(|what| told_of(&what, call, &expected));
        }
        count(coverage, call, &expected);
        expected
    });
    coverage.count(&format!("ending, {}", played.ending));
    match difference {
        Some(what) => Err(what),
        None => Ok(()),
    }
}

/// One call, compared.
pub fn compared(
    call: &Call,
    coverage: &mut Coverage,
    counts: &mut Counts,
) -> Result<(), Difference> {
    let expected = twin_dock(call);
    counts.calls += 1;
    count(coverage, call, &expected);
    match unlike(call, &expected) {
        Some(what) => Err(told_of(&what, call, &expected)),
        None => Ok(()),
    }
}

/// What differs, with the call and what the twin made of it.
fn told_of(what: &str, call: &Call, expected: &Outcome) -> Difference {
    format!(
        "{what}\n  {}\n  the twin: {}",
        job_line(call.job, call.image),
        call_line(call, expected)
    )
}

/// The call, made to the proved dock; what differs from the twin's outcome, if anything.
fn unlike(call: &Call, expected: &Outcome) -> Option<String> {
    let refusal = match expected.reply {
        Reply::Refused(number) => u32::from(number),
        _ => 0,
    };
    if call.expected_refusal() != Some(refusal as u8).filter(|number| *number != 0) {
        return Some(format!(
            "the twin tells {refusal} to faults {:?}",
            call.faults
        ));
    }
    let job = work(call.job, call.image);
    // What a refused start leaves is what was lent.
    let mut dock = match call.action {
        Action::Start => [0xEE; DOCK],
        Action::Ask { state, .. } | Action::Answer { state, .. } | Action::Timeout { state } => {
            layout(&state)
        }
    };
    let after = expected.state.as_ref().map_or(dock, layout);
    let told = match call.action {
        Action::Start => {
            let told = door::start(&job, &mut dock);
            (told != refusal).then(|| format!("zc_start told {told}, not {refusal}"))
        }
        Action::Ask { room, .. } => {
            let mut lent = vec![FILLER; room];
            let told = door::ask(&job, &mut dock, &mut lent);
            let length = match expected.reply {
                Reply::Frame(length) => length as u64,
                _ => UNTOLD,
            };
            if told != (refusal, length) {
                Some(format!("zc_ask told {told:?}, not {:?}", (refusal, length)))
            } else if lent != expected.room {
                Some(format!(
                    "room {}, the twin's {}",
                    hex_line(&lent),
                    hex_line(&expected.room)
                ))
            } else {
                None
            }
        }
        Action::Answer { bytes, .. } => {
            let wants = unlike_wants(&job, &dock, bytes, expected);
            wants.or_else(|| {
                unlike_report("zc_answer", door::answer(&job, &mut dock, bytes), expected)
            })
        }
        Action::Timeout { .. } => {
            unlike_report("zc_timeout", door::timeout(&job, &mut dock), expected)
        }
    };
    told.or_else(|| {
        (dock != after)
            .then(|| format!("state {}, the twin's {}", hex_line(&dock), hex_line(&after)))
    })
}

/// zc_wants at every front of the answer: of one that is read all but the whole want more, and none wants more than 31 bytes in all; of one that is refused
/// whatever it is, none wants anything.
fn unlike_wants(
    job: &door::Job,
    dock: &[u8; DOCK],
    bytes: &[u8],
    expected: &Outcome,
) -> Option<String> {
    let wanted: Vec<u64> = (0..=bytes.len())
        .map(|at| door::wants(job, dock, &bytes[..at]))
        .collect();
    let (whole, fronts) = wanted.split_last()?;
    let right = match expected.reply {
        Reply::Refused(_) => wanted.iter().all(|more| *more == 0),
        _ if unreadable(expected) => (0..)
            .zip(&wanted)
            .all(|(at, more)| *more == 0 || at + more <= ANSWER as u64),
        _ => {
            *whole == 0
                && (0..)
                    .zip(fronts)
                    .all(|(at, more)| *more > 0 && at + more <= bytes.len() as u64)
        }
    };
    (!right).then(|| {
        format!(
            "zc_wants told {wanted:?} at the fronts of {}",
            hex_line(bytes)
        )
    })
}

fn unreadable(outcome: &Outcome) -> bool {
    matches!(
        outcome.reply,
        Reply::Told(Report::Failed { failure, .. }) if failure.cause == Cause::Unreadable
    )
}

fn unlike_report(name: &str, told: Told, expected: &Outcome) -> Option<String> {
    let expected = in_numbers(expected);
    (told != expected).then(|| format!("{name} told {told:?}, not {expected:?}"))
}

fn in_numbers(outcome: &Outcome) -> Told {
    let (refusal, ended, frames, retries) = match outcome.reply {
        Reply::Refused(number) => (number, UNTOLD, UNTOLD, UNTOLD),
        Reply::Told(Report::Finished { frames, retries }) => (0, 1, frames, retries),
        Reply::Told(Report::Failed {
            frames, retries, ..
        }) => (0, 2, frames, retries),
        _ => (0, 0, 0, 0),
    };
    Told {
        refusal: refusal.into(),
        ended,
        frames_used: frames,
        retries_used: retries,
    }
}

pub const NO_STATES: [&str; 13] = [
    "stage",
    "awaited",
    "a block named or not against the stage",
    "a number of no block",
    "a page named or not against the stage",
    "a number of no page",
    "cause",
    "command or status of no failure",
    "a fault over 4",
    "a place of no fault",
    "another place of LEN than 1",
    "another place of a first byte than 0",
    "a fault or a place of no failure",
];

/// The call again, with bytes that are no state; nothing may change. To start, any bytes do.
fn no_state(choice: &mut Generator, call: &Call, coverage: &mut Coverage) -> Option<String> {
    let state = match call.action {
        Action::Start => return None,
        Action::Ask { state, .. } | Action::Answer { state, .. } | Action::Timeout { state } => {
            state
        }
    };
    let way = choice.below(NO_STATES.len());
    let mut dock = layout(&state);
    spoil(choice, &mut dock, way);
    // 1, 5, 6 and 7 come before 9, and 9 before 4 and 8.
    let expected = match start(call.job, call.image) {
        Err(number) => u32::from(number),
        Ok(_) => 9,
    };
    if let Some(what) = not_refused(call, dock, expected) {
        return Some(format!("no state ({}): {what}", NO_STATES[way]));
    }
    if expected == 9 {
        coverage.count(&format!("no state, {}", NO_STATES[way]));
    }
    None
}

/// The call on these bytes in place of its state, which must be refused with this number; what is wrong, if anything. Nothing may change or be told, and nothing is
/// wanted of an answer.
pub fn not_refused(call: &Call, mut dock: [u8; DOCK], expected: u32) -> Option<String> {
    let job = work(call.job, call.image);
    let room = match call.action {
        Action::Ask { room, .. } => room,
        _ => 0,
    };
    let kept = dock;
    let mut lent = vec![FILLER; room];
    let none = |told: Told| {
        let numbers = [told.ended, told.frames_used, told.retries_used];
        (told.refusal, numbers == [UNTOLD; 3])
    };
    let (told, untold) = match call.action {
        Action::Start | Action::Ask { .. } => {
            let (told, length) = door::ask(&job, &mut dock, &mut lent);
            (told, length == UNTOLD)
        }
        Action::Answer { bytes, .. } => {
            let (told, untold) = none(door::answer(&job, &mut dock, bytes));
            (told, untold && door::wants(&job, &dock, bytes) == 0)
        }
        Action::Timeout { .. } => none(door::timeout(&job, &mut dock)),
    };
    let changed = !untold || dock != kept || lent.iter().any(|byte| *byte != FILLER);
    (told != expected || changed).then(|| {
        format!(
            "told {told}, not {expected}, or something changed; dock {} after {}",
            hex_line(&dock),
            hex_line(&kept)
        )
    })
}

fn spoil(choice: &mut Generator, dock: &mut [u8; DOCK], way: usize) {
    let stage = dock[0];
    let names_block = (4..=9).contains(&stage);
    let names_page = stage == 7 || stage == 9;
    let over = stage == 11;
    match way {
        0 => dock[0] = choice.pick(&[0, 12, 13, 0x80, 0xFF]),
        1 => dock[1] = choice.pick(&[2, 3, 0xFF]),
        2 if over => dock[10] = choice.pick(&[2, 0xFF]),
        2 if names_block => dock[10..15].fill(0),
        2 => dock[10] = 1,
        3 => {
            dock[10] = 0;
            dock[choice.between(11, 14)] |= 1;
        }
        4 if over => dock[15] = choice.pick(&[2, 0xFF]),
        4 if names_page => dock[15..20].fill(0),
        4 => dock[15] = 1,
        5 => {
            dock[15] = 0;
            dock[choice.between(16, 19)] |= 1;
        }
        6 if over => dock[20] = choice.pick(&[0, 5, 0xFF]),
        6 => dock[20] = choice.pick(&[1, 4, 5, 0xFF]),
        7 if over => dock[20] = 0,
        7 => dock[choice.pick(&[21, 22])] = choice.pick(&[0x01, 0x40, 0xFF]),
        8 => in_failure(
            dock,
            choice.pick(&[5, 6, 0x80, 0xFF]),
            choice.pick(&[0, 1, 4]),
        ),
        9 => in_failure(dock, 0, choice.pick(&[1, 4, 259, 0xFF00])),
        10 => in_failure(dock, 3, choice.pick(&[0, 2, 256, 257, 0xFFFF])),
        11 => in_failure(dock, 4, choice.pick(&[1, 2, 256, 0xFFFF])),
        _ => {
            if over {
                dock[0] = 10;
                dock[10..].fill(0);
            }
            let (fault, place) = choice.pick(&[(1, 4), (2, 3), (3, 1), (4, 0), (0, 1), (0, 256)]);
            name_fault(dock, fault, place);
        }
    }
}

/// A job that failed where it stood, and names this.
fn in_failure(dock: &mut [u8; DOCK], fault: u8, place: u16) {
    if dock[0] != 11 {
        dock[0] = 11;
        dock[20] = 3;
    }
    name_fault(dock, fault, place);
}

pub fn name_fault(dock: &mut [u8; DOCK], fault: u8, place: u16) {
    dock[FAULT] = fault;
    dock[PLACE..].copy_from_slice(&place.to_le_bytes());
}

fn count(coverage: &mut Coverage, call: &Call, outcome: &Outcome) {
    let (name, before): (&str, Option<State>) = match call.action {
        Action::Start => ("zc_start", None),
        Action::Ask { state, .. } => ("zc_ask", Some(state)),
        Action::Answer { state, .. } => ("zc_answer", Some(state)),
        Action::Timeout { state } => ("zc_timeout", Some(state)),
    };
    if let Reply::Refused(number) = outcome.reply {
        coverage.count(&format!("{name}, {number}"));
        let alone = if call.faults.len() == 1 {
            "alone"
        } else {
            "with more faults"
        };
        coverage.count(&format!("dock's refusal {number}, {alone}"));
        return;
    }
    coverage.count(&format!("{name}, accepted"));
    let Some(before) = before else { return };
    coverage.count(&format!(
        "{name} at, {}",
        STAGES[usize::from(stage_number(before.stage)) - 1]
    ));
    if let Some(State {
        stage: Stage::Failed(failure),
        ..
    }) = outcome.state
    {
        let page = failure.page.map_or("", |_| " page");
        coverage.count(&format!(
            "{}, {:02X}h{page}",
            cause_text(failure.cause),
            failure.command
        ));
        coverage.count(&format!("named, {:02X}h", failure.status));
        if failure.cause == Cause::Unreadable {
            coverage.count(&format!(
                "unreadable at {:02X}h{page}, {}",
                failure.command,
                fault_text(failure.fault)
            ));
        }
    }
    if outcome
        .state
        .is_some_and(|after| after.retries > before.retries)
    {
        coverage.count(&format!(
            "retry spent at, {}",
            STAGES[usize::from(stage_number(before.stage)) - 1]
        ));
    }
}

/// The stages that have a frame, as failures name it.
pub const STAGES: [&str; 9] = [
    "9Ah", "00h", "C0h", "32h", "22h", "40h", "40h page", "13h", "13h page",
];

/// Prints what came; hands back what did not.
pub fn tables(coverage: &Coverage) -> Vec<String> {
    let mut missing = Vec::new();
    let stages = [
        row("zc_ask at", &STAGES),
        row("zc_answer at", &STAGES),
        row("zc_timeout at", &STAGES),
        row("retry spent at", &STAGES),
    ];
    missing.extend(coverage.table("calls of the dock by stage", &stages));
    let failures = [
        row("status", &STAGES),
        row("mismatch", &["9Ah", "C0h"]),
        row("unreadable", &STAGES),
        row("timeout", &STAGES),
        row(
            "named",
            &[
                "00h", "04h", "05h", "06h", "07h", "0Fh", "10h", "15h", "1Bh", "1Ch",
            ],
        ),
        row(
            "ending",
            &[
                "finished",
                "failed status",
                "failed mismatch",
                "failed unreadable",
                "failed timeout",
                "refused 1",
                "refused 5",
                "refused 6",
                "refused 7",
                "refused 9",
            ],
        ),
    ];
    missing.extend(coverage.table("failures, by cause and frame", &failures));
    missing.extend(answers::table(coverage));
    let mut refusals = vec![
        row("zc_start", &["accepted", "1", "5", "6", "7"]),
        row("zc_ask", &["accepted", "1", "5", "6", "7", "9", "4", "8"]),
        row("zc_answer", &["accepted", "1", "5", "6", "7", "9", "8"]),
        row("zc_timeout", &["accepted", "1", "5", "6", "7", "9", "8"]),
    ];
    for number in [1, 5, 6, 7, 9, 4, 8] {
        // 8 is the last of the order: with another fault it never shows.
        let both = ["alone", "with more faults"];
        let ways = if number == 8 { &both[..1] } else { &both };
        refusals.push(row(&format!("dock's refusal {number}"), ways));
    }
    refusals.push(row("no state", &NO_STATES));
    missing.extend(coverage.table("refusals of the dock", &refusals));
    missing
}
