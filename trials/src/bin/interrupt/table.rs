//! What came of the interruptions, as the Markdown of docs/INTERRUPTED.md.

use std::fmt::Write;

use crate::ends::Fault;
use crate::job::{Job, RETRIES};
use crate::trial::{Left, Tally, KINDS, MUST_BE_0};

/// A number with a comma at each thousand.
pub fn figure(number: u64) -> String {
    let digits = number.to_string();
    let mut text = String::new();
    for (at, digit) in digits.chars().enumerate() {
        if at > 0 && (digits.len() - at).is_multiple_of(3) {
            text.push(',');
        }
        text.push(digit);
    }
    text
}

pub fn table(job: &Job, tallies: &[Tally; KINDS.len()]) -> String {
    let mut text = format!(
        "| | {} |\n|---|{}\n",
        KINDS.join(" | "),
        "---:|".repeat(KINDS.len())
    );
    let mut row = |name: &str, cell: &dyn Fn(&Tally) -> String| {
        let cells: Vec<String> = tallies.iter().map(cell).collect();
        writeln!(text, "| {name} | {} |", cells.join(" | ")).unwrap();
    };
    // Where the cable is pulled the dock is gone too, and nobody tells how the job ended.
    let told = |tally: &Tally, number: u64| match tally.most_frames {
        0 => "–".to_string(),
        _ => figure(number),
    };
    row("tried", &|tally| figure(tally.tried));
    row("the job finished without a retry", &|tally| {
        told(tally, tally.finished)
    });
    row("the job finished after a retry", &|tally| {
        told(tally, tally.finished_retried)
    });
    for (cause, name) in ["status", "mismatch", "unreadable", "timeout"]
        .iter()
        .enumerate()
    {
        row(&format!("the job failed: {name}"), &|tally| {
            told(tally, tally.failed[cause])
        });
        if *name != "unreadable" {
            continue;
        }
        // In the order in which an answer is judged.
        for (fault, name) in [
            (Fault::First, "first byte"),
            (Fault::Len, "LEN"),
            (Fault::Footer, "footer"),
            (Fault::Sum, "SUM"),
        ] {
            row(&format!("unreadable, {name}"), &|tally| {
                told(tally, tally.faults[fault as usize])
            });
        }
    }
    row(
        &format!("most frames in a run ({} allowed)", job.bound()),
        &|tally| told(tally, tally.most_frames as u64),
    );
    row(
        &format!("most retries in a run ({RETRIES} allowed)"),
        &|tally| told(tally, tally.most_retries as u64),
    );
    let left = [
        (Left::Old, "its old bytes"),
        (Left::Erased, "all FFh"),
        (Left::SomePages, "one to three new pages, FFh behind them"),
        (Left::AllPages, "all four new pages"),
        (Left::TwoWrong, "all four new pages but for the two bytes"),
    ];
    for (left, name) in left {
        row(&format!("left in the block reached: {name}"), &|tally| {
            figure(tally.reached[left as usize])
        });
    }
    for (number, name) in MUST_BE_0.iter().enumerate() {
        row(&format!("**must be 0:** {name}"), &|tally| {
            figure(tally.must_be_0()[number])
        });
    }
    row("run again, after power-on", &|tally| figure(tally.again));
    row(
        "**must be as many:** finished, the image in the range, all else as it was",
        &|tally| figure(tally.again_right),
    );
    text
}
