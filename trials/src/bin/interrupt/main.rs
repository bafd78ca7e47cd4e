//! Interrupted everywhere: a job of the proved dock on the proved chip, with the cable pulled and with a byte wrong at every place of every frame, and what is
//! left each time (01 "Frames", "The dock's flow"). It prints the tables of docs/INTERRUPTED.md and ends with status 1 where a number is not as it must be.

mod ends;
mod job;
mod table;
mod trial;

use std::fmt::Write;
use std::process::ExitCode;

use ends::{Ends, Proved, Twin};
use job::{noise, part, Area, Flash, Job};
use table::{figure, table};
use trial::{interrupt, planted, planted_at, Tally, PLANTED, PLANTED_HEARD};

const USAGE: &str = "usage: interrupt [--twin] [--check]
  prints what interruptions of a job leave; status 1 where a number is not as it must be
  --twin   with the dock and the chip of the second implementation in place of the proved library
  --check  prints no tables, but compares them with those in docs/INTERRUPTED.md; status 1 where they differ";

const PAGE: &str = concat!(env!("CARGO_MANIFEST_DIR"), "/../docs/INTERRUPTED.md");

struct Jobs {
    code: Job,
    data: Job,
    planted: Job,
}

fn jobs() -> Jobs {
    let part = part();
    let (code, data) = (part.block_size(Area::Code), part.block_size(Area::Data));
    let mut image = vec![0x55; code];
    image[planted_at()..][..PLANTED.len()].copy_from_slice(&PLANTED);
    let job = |area, first_block, image| Job {
        area,
        first_block,
        image,
    };
    Jobs {
        code: job(Area::Code, 6, noise(1, 3 * code)),
        data: job(Area::Data, 1, noise(2, 2 * data)),
        planted: job(Area::Code, 6, image),
    }
}

/// The tables, and what in them is not as it must be.
fn tables<'a, E: Ends<'a>>(jobs: &'a Jobs) -> (String, Vec<String>) {
    let (mut text, mut wrong) = (String::new(), Vec::new());
    for (job, area) in [(&jobs.code, "code"), (&jobs.data, "data")] {
        match interrupt::<E>(job, Flash::full()) {
            Ok(tallies) => {
                writeln!(
                    text,
                    "{} blocks of {area} flash, {:05X}h to {:05X}h, none of them blank before: the mode byte and {} frames.\n\n{}",
                    job.blocks(),
                    job.start(),
                    job.end(),
                    job.frames(),
                    table(job, &tallies)
                )
                .unwrap();
                if !tallies.iter().all(Tally::is_right) {
                    wrong.push(format!("{area} flash: a number is not as it must be"));
                }
                let sums: u64 = tallies.iter().map(|tally| tally.sums_wrong).sum();
                if sums != 0 {
                    wrong.push(format!(
                        "{area} flash: {sums} runs left a kept sum that is not its block's"
                    ));
                }
            }
            Err(why) => wrong.push(format!("{area} flash: {why}")),
        }
    }
    match planted::<E>(&jobs.planted, Flash::full()) {
        Ok((tried, erased)) => {
            writeln!(
                text,
                "An image that holds a whole right command, the erase of another block: {} LEN bytes changed or lost, that block erased by {} of them (by hand: {}).",
                figure(tried),
                figure(erased),
                figure(PLANTED_HEARD)
            )
            .unwrap();
            if erased != PLANTED_HEARD {
                wrong.push("the planted command was not heard as often as by hand".to_string());
            }
        }
        Err(why) => wrong.push(why),
    }
    (text, wrong)
}

/// Whether the page shows these tables as they are.
fn compare(text: &str) -> Result<(), String> {
    let page = std::fs::read_to_string(PAGE).map_err(|why| format!("{PAGE}: {why}"))?;
    if page.contains(text) {
        return Ok(());
    }
    let missing = text
        .lines()
        .find(|line| !page.lines().any(|shown| shown == *line));
    Err(format!(
        "docs/INTERRUPTED.md shows other tables; the first line that it does not show: {}",
        missing.unwrap_or("none, but they stand in another order")
    ))
}

fn tell<'a, E: Ends<'a>>(jobs: &'a Jobs, check: bool) -> Result<(), String> {
    let (text, wrong) = tables::<E>(jobs);
    if !check || !wrong.is_empty() {
        print!("{text}");
    }
    if !wrong.is_empty() {
        return Err(wrong.join("; "));
    }
    if check {
        compare(&text)?;
        println!(
            "interrupt: every number and every kept sum is as it must be, and docs/INTERRUPTED.md shows these tables"
        );
    }
    Ok(())
}

fn main() -> ExitCode {
    let (mut twin, mut check) = (false, false);
    for argument in std::env::args().skip(1) {
        match &argument[..] {
            "--twin" => twin = true,
            "--check" => check = true,
            _ => {
                eprintln!("{USAGE}");
                return ExitCode::from(2);
            }
        }
    }
    let jobs = jobs();
    let told = match twin {
        true => tell::<Twin>(&jobs, check),
        false => tell::<Proved>(&jobs, check),
    };
    match told {
        Ok(()) => ExitCode::SUCCESS,
        Err(why) => {
            eprintln!("interrupt: {why}");
            ExitCode::FAILURE
        }
    }
}
