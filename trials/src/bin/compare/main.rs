//! The proved chip, plain engine, dock and conversions, through the door, against the twin: the same events and the same calls to both, everything compared after
//! each (01 "How tightly things are promised": "All others run as program tests against a second implementation"). Ends with 1 at the first difference, or if
//! anything that must come did not.

mod answers;
mod captures;
mod chip;
mod conversions;
mod coverage;
mod directed;
mod dock;
mod engine;
mod faults;
mod late;
mod script;
mod sums;
mod verify;
mod write_over;

use std::env;
use std::process::ExitCode;
use std::time::Instant;

use twin::capture::Form;
use twin::chip::Event;
use twin::part::Area;
use twin::random::Generator;

use chip::{Difference, Sides, BAD_PARTS, BAD_STATES, CALLS, PHASES};
use coverage::{row, Coverage};

/// How much is tried.
struct Size {
    events: u64,
    /// Of the old form; half as many are of the new form, and a fifth as many are old ones played as new.
    captures: u64,
    conversions: u64,
    /// Courses of stretches to the plain engine.
    stretched: u64,
    histories: u64,
}

const LONG: Size = Size {
    events: 50_000_000,
    captures: 20_000,
    conversions: 3_000_000,
    stretched: 100_000,
    histories: 200_000,
};
const SHARE: Size = Size {
    events: 5_000_000,
    captures: 1_000,
    conversions: 200_000,
    stretched: 3_000,
    histories: 10_000,
};

fn main() -> ExitCode {
    let arguments: Vec<String> = env::args().skip(1).collect();
    let size = match arguments.as_slice() {
        [] => LONG,
        [one] if one == "--share" => SHARE,
        _ => {
            eprintln!("usage: compare [--share]");
            return ExitCode::from(2);
        }
    };
    let mut coverage = Coverage::default();
    if let Err(difference) = compare(&size, &mut coverage) {
        println!("DIFFERENCE: {difference}");
        return ExitCode::FAILURE;
    }
    let missing = tables(&coverage);
    for name in &missing {
        println!("NEVER CAME: {name}");
    }
    if missing.is_empty() {
        println!("no difference, and everything came");
        ExitCode::SUCCESS
    } else {
        ExitCode::FAILURE
    }
}

fn compare(size: &Size, coverage: &mut Coverage) -> Result<(), Difference> {
    compare_chips(size, coverage)?;
    compare_engines(size, coverage)?;
    compare_captures(size, coverage)?;
    compare_conversions(size, coverage)?;
    compare_docks(size, coverage)?;
    Ok(())
}

fn tables(coverage: &Coverage) -> Vec<String> {
    let mut missing = chip_tables(coverage);
    missing.extend(dock::tables(coverage));
    missing
}

fn compare_chips(size: &Size, coverage: &mut Coverage) -> Result<(), Difference> {
    let start = Instant::now();
    let (mut events, mut refused) =
        directed::run(coverage).map_err(|difference| format!("chip, directed: {difference}"))?;
    let directed = events;
    let mut seed = 0;
    while events < directed + size.events {
        let (more, more_refused) = course(seed, coverage)
            .map_err(|difference| format!("chip, seed {seed}: {difference}"))?;
        events += more;
        refused += more_refused;
        seed += 1;
    }
    println!(
        "chip: {events} events ({directed} directed, the others in {seed} courses), each compared with the fault told, all flash, options and kept sums; {refused} \
         refused calls; {:.0} s",
        start.elapsed().as_secs_f64()
    );
    Ok(())
}

fn compare_engines(size: &Size, coverage: &mut Coverage) -> Result<(), Difference> {
    let start = Instant::now();
    let counts = engine::run(size.stretched, coverage)
        .map_err(|difference| format!("plain engine, {difference}"))?;
    println!(
        "plain engine: {} stretches of {} bytes, directed and in {} courses, each also byte by byte by zc_byte; {} refused calls; {:.0} s",
        counts.stretches,
        counts.bytes,
        size.stretched,
        counts.refused,
        start.elapsed().as_secs_f64()
    );
    Ok(())
}

fn compare_captures(size: &Size, coverage: &mut Coverage) -> Result<(), Difference> {
    let start = Instant::now();
    let counts = [size.captures, size.captures / 2];
    let mut records = [0; 2];
    for (which, form) in Form::BOTH.into_iter().enumerate() {
        for seed in 0..counts[which] {
            records[which] += captures::capture(form, seed, coverage).map_err(|difference| {
                format!(
                    "capture of the {} form, seed {seed}: {difference}",
                    form.name()
                )
            })?;
        }
    }
    let mut both = 0;
    for seed in 0..size.captures / 5 {
        both += captures::widened(seed, coverage).map_err(|difference| {
            format!("old capture played as new, seed {seed}: {difference}")
        })?;
    }
    println!(
        "replay: {} captures of {} records of the old form, {} of {} of the new, {} of {both} old ones played as new; {:.0} s",
        counts[0],
        records[0],
        counts[1],
        records[1],
        size.captures / 5,
        start.elapsed().as_secs_f64()
    );
    Ok(())
}

fn compare_conversions(size: &Size, coverage: &mut Coverage) -> Result<(), Difference> {
    let start = Instant::now();
    let long = size.captures / 5;
    let directed = conversions::run(size.conversions, long, coverage)
        .map_err(|difference| format!("conversion, {difference}"))?;
    println!(
        "conversion: {} captures ({directed} more directed, {long} long ones of each form), each with all of the output, and back again; {:.0} s",
        size.conversions,
        start.elapsed().as_secs_f64()
    );
    Ok(())
}

fn compare_docks(size: &Size, coverage: &mut Coverage) -> Result<(), Difference> {
    let start = Instant::now();
    let mut counts = dock::Counts::default();
    answers::run(coverage, &mut counts)
        .map_err(|difference| format!("dock, directed: {difference}"))?;
    let directed = counts.calls;
    for seed in 0..size.histories {
        dock::history(seed, coverage, &mut counts)
            .map_err(|difference| format!("dock, seed {seed}: {difference}"))?;
    }
    println!(
        "dock: {} calls compared ({directed} directed, the others in {} histories), {} calls with bytes that are no state; {:.0} s",
        counts.calls,
        size.histories,
        counts.no_states,
        start.elapsed().as_secs_f64()
    );
    Ok(())
}

/// A part, a flash, and what a chip hears from one state to the next.
fn course(seed: u64, coverage: &mut Coverage) -> Result<(u64, u64), Difference> {
    let mut choice = Generator::new(seed);
    let part = script::part_by_turns(seed, &mut choice);
    coverage.count(&format!("code blocks, {}", part.code_blocks));
    coverage.count(&format!("data blocks, {}", part.data_blocks));
    coverage.count(&format!("clock, {}", part.clock));
    let filled = choice.pick(&[0, 5, 50]);
    let code = script::flash(&mut choice, filled, &part, Area::Code);
    let data = script::flash(&mut choice, filled, &part, Area::Data);
    let mut sides = Sides::fresh(&part, code, data, coverage)?;
    sides.refused_fresh(&mut choice)?;
    // Wrong sums are no cause to refuse; in half of the courses there are some, again and again.
    let spoils = choice.chance(50);
    for _ in 0..60 {
        let room = choice.pick(&[32, 32, 32, 33, 64]);
        if spoils && choice.chance(30) {
            sides.spoil_sums(&mut choice);
        }
        if spoils && choice.chance(5) {
            sides.work_out()?;
        }
        if choice.chance(15) {
            sides.refused_call(&mut choice)?;
        }
        if choice.chance(3) {
            let faults = choice.pick(&[&[1][..], &[2], &[3], &[1, 2], &[2, 3], &[3, 1]]);
            sides.refused_sums(&mut choice, faults)?;
        }
        if choice.chance(3) {
            sides.pause(Event::PowerOn, room)?;
        }
        if choice.chance(1) {
            sides.hand_in_flash(
                script::flash(&mut choice, 0, &part, Area::Code),
                script::flash(&mut choice, 0, &part, Area::Data),
            );
            if !spoils {
                sides.work_out()?;
            }
        }
        if choice.chance(12) {
            let mut chip = script::good_chip(&mut choice, &part);
            let frame = script::heard(
                &mut choice,
                &part,
                &chip,
                &sides.twin.code,
                &sides.twin.data,
            );
            let rest = script::begin(&mut choice, &mut chip, &frame);
            sides.hand_in(chip);
            sides.bytes(&rest, room)?;
            continue;
        }
        if choice.chance(70) {
            sides.pause(Event::Gap, room)?;
        }
        let twin = &sides.twin;
        let mut bytes = script::heard(&mut choice, &part, &twin.state, &twin.code, &twin.data);
        if choice.chance(5) {
            let tail = bytes.split_off(choice.below(bytes.len() + 1));
            sides.bytes(&bytes, room)?;
            sides.pause(Event::Gap, room)?;
            bytes = tail;
        }
        sides.bytes(&bytes, room)?;
    }
    Ok(sides.finish())
}

/// Prints what came; hands back what did not.
fn chip_tables(coverage: &Coverage) -> Vec<String> {
    let mut missing = Vec::new();
    let commands = [
        row("9Ah", &["04h", "05h", "06h", "07h", "15h"]),
        row("00h", &["04h", "06h", "07h", "15h"]),
        row("22h", &["04h", "05h", "06h", "07h", "10h", "15h"]),
        row("32h", &["04h", "05h", "06h", "07h", "15h", "1Bh"]),
        row("40h", &["04h", "05h", "06h", "07h", "10h", "15h"]),
        row("13h", &["04h", "05h", "06h", "07h", "15h"]),
        row("B0h", &["04h", "05h", "06h", "07h", "15h"]),
        row("C0h", &["04h", "06h", "07h", "15h"]),
        row("A1h", &["04h", "06h", "07h", "15h"]),
        row("A0h", &["04h", "06h", "07h", "15h"]),
        row("A2h", &["04h", "06h", "07h", "10h", "15h", "1Bh"]),
        row("another COM", &["04h", "07h", "15h"]),
        row(
            "page of 40h",
            &["06h 06h", "06h 06h 06h", "06h 1Ch", "07h 07h", "15h 15h"],
        ),
        row("page of 13h", &["06h 06h", "06h 0Fh", "07h 07h", "15h 15h"]),
        row("data of A0h", &["05h", "06h", "07h", "10h", "15h"]),
        row(
            "status",
            &[
                "04h", "05h", "06h", "07h", "0Fh", "10h", "15h", "1Bh", "1Ch",
            ],
        ),
    ];
    missing.extend(coverage.table("answers of the chip", &commands));
    missing.extend(coverage.table("events by phase", &[row("events", &PHASES)]));
    let each = ["1", "2", "3", "9", "4"];
    let mut refusals: Vec<_> = CALLS.iter().map(|call| row(call, &each)).collect();
    refusals.push(row("zc_fresh", &["1"]));
    for number in each {
        // 4 is the last of the order: with another fault it never shows.
        let both = ["alone", "with more faults"];
        let ways = if number == "4" { &both[..1] } else { &both };
        refusals.push(row(&format!("refusal {number}"), ways));
    }
    refusals.push(row("refusal 1 by", &BAD_PARTS));
    refusals.push(row("refusal 9 by", &BAD_STATES));
    missing.extend(coverage.table("refusals of the chip", &refusals));
    missing.extend(sums::table(coverage));
    missing.extend(verify::table(coverage));
    missing.extend(faults::table(coverage));
    missing.extend(write_over::table(coverage));
    let numbers = |low: u32, high: u32| (low..=high).map(|number| number.to_string()).collect();
    let parts = [
        ("code blocks".to_string(), numbers(8, 64)),
        ("data blocks".to_string(), numbers(0, 8)),
        ("clock".to_string(), numbers(1, 32)),
    ];
    missing.extend(coverage.table("courses by part", &parts));
    let many = [row("zc_feed", &["calls", "bytes", "calls without a byte"])];
    missing.extend(coverage.table("many at once", &many));
    missing.extend(engine::table(coverage));
    missing.extend(captures::table(coverage));
    missing.extend(conversions::table(coverage));
    missing
}
