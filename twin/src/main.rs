//! The twin's program: replays and converts a capture (01 "Replay", 02 §5, §7), makes random captures and random histories of the dock, and draws a map of blocks.

use std::env;
use std::fs::{self, File};
use std::io::{self, BufReader, BufWriter, Read, Write};
use std::process::ExitCode;

use twin::capture::{converted, Form};
use twin::histories::play;
use twin::map::map;
use twin::random::{random_capture, Tally};
use twin::replay::{replay, replay_plain};
use twin::transcript::{self, twin_dock};

const USAGE: &str = "usage: twin replay [--old|--new] [FILE]
       twin replay --plain --old|--new FILE  (the same by the plain engine)
       twin convert --to-new|--to-old FILE   (writes the capture in the other form)
       twin capture [--new] SEED  (writes the random capture of that seed)
       twin count SEED CAPTURES   (replays that many, prints how often each status came)
       twin dock SEED             (plays the dock's random history of that seed, a line for each call)
       twin dock SEED HISTORIES   (plays that many, prints how often each cause, refusal and ending came)
       twin map                   (rehearses the job of examples/map.c and prints what it must print)";

fn main() -> ExitCode {
    let words: Vec<String> = env::args().skip(1).collect();
    let words: Vec<&str> = words.iter().map(String::as_str).collect();
    let result = match words[..] {
        ["replay"] | ["replay", "--old"] => print_replay(Form::Old, io::stdin().lock()),
        ["replay", "--new"] => print_replay(Form::New, io::stdin().lock()),
        ["replay", path] | ["replay", "--old", path] => print_file(Form::Old, path),
        ["replay", "--new", path] => print_file(Form::New, path),
        ["replay", "--plain", "--old", path] => print_plain(Form::Old, path),
        ["replay", "--plain", "--new", path] => print_plain(Form::New, path),
        ["convert", "--to-new", path] => write_converted(Form::Old, path),
        ["convert", "--to-old", path] => write_converted(Form::New, path),
        ["capture", seed] => number(seed).and_then(|seed| write_capture(Form::Old, seed)),
        ["capture", "--new", seed] => number(seed).and_then(|seed| write_capture(Form::New, seed)),
        ["count", seed, captures] => number(seed)
            .and_then(|seed| Ok((seed, number(captures)?)))
            .and_then(|(seed, captures)| print_counts(seed, captures)),
        ["dock", seed] => number(seed).and_then(print_history),
        ["dock", seed, histories] => number(seed)
            .and_then(|seed| Ok((seed, number(histories)?)))
            .and_then(|(seed, histories)| print_dock_counts(seed, histories)),
        ["map"] => io::stdout().write_all(map(|_| ()).as_bytes()),
        _ => Err(io::Error::other(USAGE)),
    };
    match result {
        Ok(()) => ExitCode::SUCCESS,
        Err(error) => {
            eprintln!("{error}");
            ExitCode::FAILURE
        }
    }
}

fn number(word: &str) -> io::Result<u64> {
    word.parse().map_err(io::Error::other)
}

fn print_file(form: Form, path: &str) -> io::Result<()> {
    print_replay(form, File::open(path)?)
}

fn print_replay<R: Read>(form: Form, capture: R) -> io::Result<()> {
    let mut output = BufWriter::new(io::stdout().lock());
    replay(form, BufReader::new(capture), &mut output, |_| ())?;
    output.flush()
}

fn print_plain(form: Form, path: &str) -> io::Result<()> {
    let text = replay_plain(form, &fs::read(path)?);
    io::stdout().write_all(text.as_bytes())
}

fn write_converted(from: Form, path: &str) -> io::Result<()> {
    let capture = converted(from, &fs::read(path)?).map_err(|refusal| {
        let number = refusal.number();
        let record = refusal
            .record()
            .expect("room is made for all, so that 12 cannot come");
        io::Error::other(format!("convert: refused {number}, record {record}"))
    })?;
    let mut output = io::stdout().lock();
    output.write_all(&capture)?;
    output.flush()
}

fn write_capture(form: Form, seed: u64) -> io::Result<()> {
    let mut output = io::stdout().lock();
    output.write_all(&random_capture(form, seed))?;
    output.flush()
}

fn print_counts(seed: u64, captures: u64) -> io::Result<()> {
    let mut tally = Tally::new();
    for offset in 0..captures {
        let capture = random_capture(Form::Old, seed.wrapping_add(offset));
        replay(Form::Old, &capture[..], io::sink(), |answer| {
            tally.hear(answer)
        })?;
    }
    print!("{tally}");
    Ok(())
}

fn print_history(seed: u64) -> io::Result<()> {
    let mut output = BufWriter::new(io::stdout().lock());
    for line in play(seed, twin_dock).lines {
        writeln!(output, "{line}")?;
    }
    output.flush()
}

fn print_dock_counts(seed: u64, histories: u64) -> io::Result<()> {
    let mut tally = transcript::Tally::new();
    for offset in 0..histories {
        let history = play(seed.wrapping_add(offset), |call| {
            let outcome = twin_dock(call);
            tally.hear(call, &outcome);
            outcome
        });
        tally.count(format!("ending {}", history.ending));
    }
    print!("{tally}");
    Ok(())
}
