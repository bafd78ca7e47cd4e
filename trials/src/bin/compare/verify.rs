//! What 13h tells late (02 §2): how often a page was equal or differed, after one that had differed or after none, and what else came while a difference was
//! remembered, with 40h and A0h too; and how often byte 293 of a state was refused.

use trials::chip::DIFFERED;
use trials::door::STATE;
use twin::chip::{Event, Phase, ACK, PROGRAM, SECURITY_SET, UNEQUAL, VERIFY};
use twin::frame::{DATA_HEADER, LAST_FOOTER};

use crate::chip::{said_text, Sides, CALLS, PHASES};
use crate::coverage::{row, Coverage};
use crate::script;

const EQUAL: &str = "equal";
const EQUAL_LATE: &str = "equal after one that differed";
const DIFFERS: &str = "differing";
const DIFFERS_AGAIN: &str = "differing after another";

impl Sides<'_> {
    /// An event in phase 4: a good page of 13h, and whatever comes while a difference is remembered.
    pub fn count_difference(
        &mut self,
        event: Event,
        phase: Phase,
        before: &[u8; STATE],
        said: &[u8],
    ) {
        let Phase::Awaiting {
            command,
            next,
            last,
            differed,
        } = phase
        else {
            return;
        };
        if let (VERIFY, [ACK, second]) = (command, said) {
            let held = script::held(&self.part, next, &self.twin.code, &self.twin.data);
            // The page lies in the collector behind header and LEN.
            let how = match (before[35..35 + held.len()] == *held, differed) {
                (true, false) => EQUAL,
                (true, true) => EQUAL_LATE,
                (false, false) => DIFFERS,
                (false, true) => DIFFERS_AGAIN,
            };
            let on_last = script::footer(&self.part, next, last) == LAST_FOOTER;
            let told = answered(on_last, *second);
            self.coverage.count(&format!("{told}, {how}"));
        }
        if let (true, Some(what)) = (differed, what_came(event, before, said)) {
            self.coverage
                .count(&format!("{}, {what}", remembered(command)));
        }
    }
}

fn answered(on_last: bool, second: u8) -> String {
    let place = if on_last { "last" } else { "middle" };
    format!("{place} page of 13h answered {}", said_text(&[ACK, second]))
}

fn remembered(command: u8) -> String {
    format!("difference remembered in {command:02X}h")
}

/// Nothing for a byte that is collected.
fn what_came(event: Event, before: &[u8; STATE], said: &[u8]) -> Option<String> {
    let collecting = before[25..33] != [0; 8];
    let quiet = match event {
        Event::Gap if collecting => "gap within a frame",
        Event::Gap => "gap",
        Event::PowerOn => "power-on",
        Event::Byte(byte) if !collecting && byte != DATA_HEADER => "skipped byte",
        Event::Byte(_) => return (!said.is_empty()).then(|| said_text(said)),
    };
    Some(quiet.to_string())
}

/// A call refused with 9 for byte 293 of these bytes.
pub fn count_refused(coverage: &mut Coverage, state: &[u8; STATE], call: &str) {
    let phase = match state[7] {
        4 => format!("phase 4 of {:02X}h", state[8]),
        number => format!("phase {number}"),
    };
    let held = state[DIFFERED];
    coverage.count(&format!("byte 293 refused in {phase}, {held:02X}h"));
    coverage.count(&format!("byte 293 refused, {call}"));
}

/// Prints what came of differences; hands back what did not come.
pub fn table(coverage: &Coverage) -> Vec<String> {
    let mut rows = vec![
        row(
            &answered(false, ACK),
            &[EQUAL, EQUAL_LATE, DIFFERS, DIFFERS_AGAIN],
        ),
        row(&answered(true, ACK), &[EQUAL]),
        row(
            &answered(true, UNEQUAL),
            &[EQUAL_LATE, DIFFERS, DIFFERS_AGAIN],
        ),
    ];
    let quiet = ["gap", "gap within a frame", "skipped byte", "power-on"];
    let answers: [(u8, &[&str]); 3] = [
        (VERIFY, &["06h 06h", "06h 0Fh", "07h 07h", "15h 15h"]),
        (
            PROGRAM,
            &["06h 06h", "06h 06h 06h", "06h 1Ch", "07h 07h", "15h 15h"],
        ),
        (SECURITY_SET, &["05h", "06h", "07h", "10h", "15h"]),
    ];
    for (command, answers) in answers {
        rows.push(row(&remembered(command), &[&quiet, answers].concat()));
    }
    rows.push(row("byte 293 refused", &CALLS));
    for phase in PHASES {
        // In phase 4 either number is accepted.
        let barred: &[&str] = match phase.starts_with("phase 4") {
            true => &["02h", "FFh"],
            false => &["01h", "02h", "FFh"],
        };
        rows.push(row(&format!("byte 293 refused in {phase}"), barred));
    }
    coverage.table("differences that 13h met", &rows)
}
