//! Calls to a dock as values and as text, one line each, so that two docks can be given the same calls and compared
//! line by line; and a count of what came of them (01 "The dock's flow", "Refusal numbers").

use std::collections::BTreeMap;
use std::fmt;

use crate::dock::{answer, ask, start, timeout, Cause, Failure, Job, Report, Stage, State};
use crate::frame::Fault;
use crate::replay::hex_line;

/// Every byte of a room before it is lent, so that one written past the frame shows.
pub const FILLER: u8 = 0xA5;

/// One call, with all that is handed in.
#[derive(Clone, Copy, Debug)]
pub struct Call<'a> {
    pub job: &'a Job,
    pub image: &'a [u8],
    pub action: Action<'a>,
    /// Each refusal for which this call gives cause; none if it is to be accepted.
    pub faults: &'a [u8],
    /// False for a call made aside: the history goes on as if it had not been made.
    pub kept: bool,
    /// How the call was made up; of interest to a count only.
    pub manner: &'static str,
}

#[derive(Clone, Copy, Debug)]
pub enum Action<'a> {
    Start,
    Ask { state: State, room: usize },
    Answer { state: State, bytes: &'a [u8] },
    Timeout { state: State },
}

/// What a dock made of a call.
#[derive(Clone, Debug, PartialEq, Eq)]
pub struct Outcome {
    pub reply: Reply,
    /// The state after the call; none for a start that was refused.
    pub state: Option<State>,
    /// The whole room after the call; empty where none was lent.
    pub room: Vec<u8>,
}

#[derive(Clone, Copy, Debug, PartialEq, Eq)]
pub enum Reply {
    Started,
    /// Length of the frame at the start of the room.
    Frame(usize),
    Told(Report),
    /// 01 "Refusal numbers".
    Refused(u8),
}

impl Call<'_> {
    /// Of several faults the first in the order that 01 gives for the dock.
    pub fn expected_refusal(&self) -> Option<u8> {
        [1, 5, 6, 7, 9, 4, 8]
            .into_iter()
            .find(|number| self.faults.contains(number))
    }
}

/// The call, made to the twin's dock.
pub fn twin_dock(call: &Call) -> Outcome {
    let (job, image) = (call.job, call.image);
    let told = |state: State, result: Result<Report, u8>| Outcome {
        reply: result.map_or_else(Reply::Refused, Reply::Told),
        state: Some(state),
        room: Vec::new(),
    };
    match call.action {
        Action::Start => {
            let result = start(job, image);
            Outcome {
                reply: result.map_or_else(Reply::Refused, |_| Reply::Started),
                state: result.ok(),
                room: Vec::new(),
            }
        }
        Action::Ask { mut state, room } => {
            let mut room = vec![FILLER; room];
            let result = ask(job, image, &mut state, &mut room);
            Outcome {
                reply: result.map_or_else(Reply::Refused, Reply::Frame),
                state: Some(state),
                room,
            }
        }
        Action::Answer { mut state, bytes } => {
            let result = answer(job, image, &mut state, bytes);
            told(state, result)
        }
        Action::Timeout { mut state } => {
            let result = timeout(job, image, &mut state);
            told(state, result)
        }
    }
}

/// The job of the calls that follow; its image is long and stands there by length and hash.
pub fn job_line(job: &Job, image: &[u8]) -> String {
    let part = &job.part;
    format!(
        "job code {} data {} clock {} device {} name {} version {} start {:05X} end {:05X} rate {} supply {} retries {} image {} {:016X}",
        part.code_blocks,
        part.data_blocks,
        part.clock,
        hex_line(&part.device),
        hex_line(&part.name),
        hex_line(&part.version),
        job.start,
        job.end,
        job.rate,
        job.supply,
        job.retries,
        image.len(),
        hash(image),
    )
}

/// FNV-1a in 64 bits.
fn hash(bytes: &[u8]) -> u64 {
    bytes.iter().fold(0xCBF2_9CE4_8422_2325, |mixed, byte| {
        (mixed ^ u64::from(*byte)).wrapping_mul(0x0100_0000_01B3)
    })
}

/// The call with what was handed in, then what came of it and the state after it.
pub fn call_line(call: &Call, outcome: &Outcome) -> String {
    let aside = if call.kept { "" } else { "aside " };
    let asked = match call.action {
        Action::Start => "start".to_string(),
        Action::Ask { state, room } => format!("ask [{}] room {room}", state_text(&state)),
        Action::Answer { state, bytes } => {
            format!("answer [{}] {}", state_text(&state), bytes_text(bytes))
        }
        Action::Timeout { state } => format!("timeout [{}]", state_text(&state)),
    };
    let written = match outcome.reply {
        Reply::Frame(length) => length,
        _ => 0,
    };
    let reply = match outcome.reply {
        Reply::Started => "started".to_string(),
        Reply::Frame(length) => match outcome.room.get(..length) {
            Some(frame) => format!("frame {}", bytes_text(frame)),
            None => format!("frame of {length} bytes, past the room"),
        },
        Reply::Told(report) => report_text(&report),
        Reply::Refused(number) => format!("refused {number}"),
    };
    let touched = outcome
        .room
        .iter()
        .skip(written)
        .any(|byte| *byte != FILLER);
    let touched = if touched { ", room changed" } else { "" };
    let after = outcome
        .state
        .as_ref()
        .map_or("none".to_string(), state_text);
    format!("{aside}{asked} -> {reply}{touched} [{after}]")
}

fn bytes_text(bytes: &[u8]) -> String {
    match bytes {
        [] => "empty".to_string(),
        _ => hex_line(bytes),
    }
}

fn state_text(state: &State) -> String {
    let stage = match state.stage {
        Stage::Rate => "rate".to_string(),
        Stage::Reset => "reset".to_string(),
        Stage::Signature => "signature".to_string(),
        Stage::Blank { block } => format!("blank {block}"),
        Stage::Erase { block } => format!("erase {block}"),
        Stage::Program { block } => format!("program {block}"),
        Stage::ProgramPage { block, page } => format!("program {block} page {page}"),
        Stage::Verify { block } => format!("verify {block}"),
        Stage::VerifyPage { block, page } => format!("verify {block} page {page}"),
        Stage::Finished => "finished".to_string(),
        Stage::Failed(failure) => format!("failed {}", failure_text(&failure)),
    };
    let turn = if state.awaited { "awaited" } else { "due" };
    format!(
        "{stage}, {turn}, frames {} retries {}",
        state.frames, state.retries
    )
}

fn report_text(report: &Report) -> String {
    match report {
        Report::GoesOn => "goes on".to_string(),
        Report::Finished { frames, retries } => {
            format!("finished frames {frames} retries {retries}")
        }
        Report::Failed {
            failure,
            frames,
            retries,
        } => format!(
            "failed {} frames {frames} retries {retries}",
            failure_text(failure)
        ),
    }
}

fn failure_text(failure: &Failure) -> String {
    let number = |number: Option<u64>| number.map_or("none".to_string(), |some| some.to_string());
    format!(
        "{} {:02X}h page {} status {:02X}h block {} fault {}",
        cause_text(failure.cause),
        failure.command,
        number(failure.page),
        failure.status,
        number(failure.block),
        fault_text(failure.fault),
    )
}

/// The byte that is wrong, and its place.
pub fn fault_text(fault: Option<Fault>) -> String {
    fault.map_or("none".to_string(), |fault| {
        format!("{} at {}", fault.name(), fault.place())
    })
}

pub fn cause_text(cause: Cause) -> &'static str {
    match cause {
        Cause::Status => "status",
        Cause::Mismatch => "mismatch",
        Cause::Unreadable => "unreadable",
        Cause::Timeout => "timeout",
    }
}

/// How often each thing came, by its name.
#[derive(Default)]
pub struct Tally(BTreeMap<String, u64>);

impl Tally {
    pub fn new() -> Tally {
        Tally::default()
    }

    pub fn count(&mut self, name: String) {
        *self.0.entry(name).or_default() += 1;
    }

    pub fn of(&self, name: &str) -> u64 {
        self.0.get(name).copied().unwrap_or(0)
    }

    pub fn hear(&mut self, call: &Call, outcome: &Outcome) {
        let (action, before) = match call.action {
            Action::Start => ("start", None),
            Action::Ask { state, .. } => ("ask", Some(state)),
            Action::Answer { state, .. } => ("answer", Some(state)),
            Action::Timeout { state } => ("timeout", Some(state)),
        };
        self.count(format!("call {action}"));
        self.count(format!("manner {}", call.manner));
        match outcome.reply {
            Reply::Refused(number) => {
                self.count(format!("refusal {number}"));
                self.count(format!("refusal {number} to {action}"));
                if call.faults.len() > 1 {
                    self.count(format!("refusal {number} with more faults"));
                }
            }
            Reply::Told(Report::Failed { failure, .. }) => {
                let cause = cause_text(failure.cause);
                let page = failure.page.map_or("", |_| " page");
                self.count(format!("cause {cause}"));
                self.count(format!("cause {cause} at {:02X}h{page}", failure.command));
                self.count(format!("named {:02X}h", failure.status));
                self.count(format!("fault {}", fault_text(failure.fault)));
            }
            _ => (),
        }
        if let (Some(before), Some(after)) = (before, outcome.state) {
            if after.retries > before.retries {
                self.count("retry spent".to_string());
            }
        }
    }
}

impl fmt::Display for Tally {
    fn fmt(&self, output: &mut fmt::Formatter) -> fmt::Result {
        for (name, count) in &self.0 {
            writeln!(output, "{name}: {count}")?;
        }
        Ok(())
    }
}
