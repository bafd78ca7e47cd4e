//! The proved program beside the twin's: each, as a process, reads a capture of a million records from a file, plays it and prints its replies (01 "Replay"). By
//! the clock, the least of several runs, the two taking turns; whatever they print must be the same, byte for byte.
//!
//! The proved program is x86-64 code. On another machine the proved library takes its place, in a process of this trial that reads, plays and prints as the
//! program does, and the program itself, emulated, is only compared. Ends with 1 where what is printed is wrong, with 2 where something is missing.

use std::env;
use std::ffi::{OsStr, OsString};
use std::fs::{self, File};
use std::io::{self, Read, Write};
use std::path::{Path, PathBuf};
use std::process::{self, Command, ExitCode, Stdio};
use std::time::Instant;

use trials::chip::Door;
use trials::door::{BAD_RECORD, OUTPUT};
use trials::traffic::{capture, page_frames};
use twin::capture::{Form, CARRIED, RECORD};
use twin::replay::{replay_part, split_frames};

const RUNS: usize = 5;
/// A process that ends within a few milliseconds is seldom left alone for as long.
const SHORT_RUNS: usize = 25;
const FEW: usize = 10_000;
const MANY: usize = 1_000_000;

/// The word for the library as a program.
const BY_LIBRARY: &str = "--library";

struct Failure {
    status: u8,
    why: String,
}

fn missing(why: String) -> Failure {
    Failure { status: 2, why }
}

fn wrong(why: String) -> Failure {
    Failure { status: 1, why }
}

fn main() -> ExitCode {
    let words: Vec<OsString> = env::args_os().skip(1).collect();
    let ended = match &words[..] {
        [] => trial(),
        [word, path] if word == BY_LIBRARY => play(Path::new(path))
            .map_err(|error| missing(format!("{}: {error}", path.to_string_lossy()))),
        _ => Err(missing(format!("usage: program [{BY_LIBRARY} CAPTURE]"))),
    };
    match ended {
        Ok(()) => ExitCode::SUCCESS,
        Err(Failure { status, why }) => {
            eprintln!("program: {why}");
            ExitCode::from(status)
        }
    }
}

// The library as a program

/// As much as the program reads at a time (crates/replay).
const BUFFER: usize = 2_048;

fn play(path: &Path) -> io::Result<()> {
    let (mut input, mut printed) = (File::open(path)?, io::stdout().lock());
    let mut door = Door::fresh(&replay_part());
    let (mut buffer, mut output) = ([0; BUFFER], [0; BUFFER / RECORD * OUTPUT]);
    let (mut records, mut frames) = (0, 0);
    loop {
        let n = fill(&mut input, &mut buffer)?;
        let told = door.play(Form::Old, &buffer[..n], &mut output);
        records += told.records;
        frames += told.frames;
        printed.write_all(&lines(&output[..told.bytes as usize]))?;
        match told.refusal {
            0 if n == BUFFER => (),
            0 => return writeln!(printed, "END {frames}"),
            BAD_RECORD => return writeln!(printed, "BAD {records}"),
            // Refusals and OUTPUT_FULL: all that is lent fits, and the output has room for a whole buffer's replies.
            other => return Err(io::Error::other(format!("zc_replay ended with {other}"))),
        }
    }
}

/// A read may hand out less than was asked for; only the last buffer may end within a record.
fn fill(input: &mut File, buffer: &mut [u8]) -> io::Result<usize> {
    let mut n = 0;
    while n < buffer.len() {
        match input.read(&mut buffer[n..])? {
            0 => break,
            more => n += more,
        }
    }
    Ok(n)
}

/// Reply frames that lie end to end, each as a line of hex.
fn lines(replies: &[u8]) -> Vec<u8> {
    const DIGITS: &[u8; 16] = b"0123456789ABCDEF";
    let mut text = Vec::with_capacity(3 * replies.len());
    for frame in split_frames(replies) {
        for byte in frame {
            text.push(DIGITS[usize::from(byte >> 4)]);
            text.push(DIGITS[usize::from(byte & 0x0F)]);
            text.push(b' ');
        }
        text.pop();
        text.push(b'\n');
    }
    text
}

// Processes

/// A program that replays the capture in the file that is its last word.
struct Program {
    path: PathBuf,
    words: Vec<&'static str>,
}

fn top(path: &str) -> PathBuf {
    Path::new(env!("CARGO_MANIFEST_DIR")).join("..").join(path)
}

fn this() -> Result<PathBuf, Failure> {
    env::current_exe().map_err(|error| missing(format!("the path of this program: {error}")))
}

/// trials/run puts it beside this one.
fn twin_program() -> Result<Program, Failure> {
    let path = this()?.with_file_name("twin");
    if !path.is_file() {
        let why = "is not built: start this by trials/run program, which builds it";
        return Err(missing(format!("the twin's program {why}")));
    }
    let words = vec!["replay"];
    Ok(Program { path, words })
}

fn proved_program() -> Result<Program, Failure> {
    if !top("crates/replay/out/replay").is_file() {
        let why = "is not built; run this first, in crates/replay: rt run";
        return Err(missing(format!("crates/replay/out/replay {why}")));
    }
    Ok(Program {
        path: top("bin/run"),
        words: vec!["replay"],
    })
}

fn library_program() -> Result<Program, Failure> {
    Ok(Program {
        path: this()?,
        words: vec![BY_LIBRARY],
    })
}

impl Program {
    /// What it prints, and how many nanoseconds went by from its start to its end.
    fn run(&self, capture: &Path) -> Result<(f64, Vec<u8>), Failure> {
        let mut command = Command::new(&self.path);
        command.args(&self.words).arg(capture).stdin(Stdio::null());
        let name = self
            .path
            .file_name()
            .map_or("".into(), OsStr::to_string_lossy);
        let start = Instant::now();
        let output = command
            .output()
            .map_err(|error| missing(format!("{name} cannot be started: {error}")))?;
        let time = start.elapsed().as_nanos() as f64;
        if !output.status.success() || !output.stderr.is_empty() {
            let said = String::from_utf8_lossy(&output.stderr);
            let why = format!("{name} ended with {} and said: {said}", output.status);
            // 2 is bin/run's status, too, where something is missing.
            return Err(match output.status.code() {
                Some(2) => missing(why),
                _ => wrong(why),
            });
        }
        Ok((time, output.stdout))
    }
}

// The trial

/// A capture of page traffic in a file, which goes with it.
struct Recorded {
    path: PathBuf,
    records: usize,
}

impl Recorded {
    fn new(records: usize) -> Result<Recorded, Failure> {
        let path = env::temp_dir().join(format!("capture-{records}-{}", process::id()));
        let recorded = Recorded { path, records };
        fs::write(&recorded.path, capture(page_frames(), CARRIED, records))
            .map_err(|error| missing(format!("{}: {error}", recorded.path.display())))?;
        Ok(recorded)
    }

    fn name(&self) -> String {
        match self.records {
            0 => "an empty capture".to_string(),
            FEW => "10,000 records".to_string(),
            MANY => "1,000,000 records".to_string(),
            other => format!("{other} records"),
        }
    }
}

impl Drop for Recorded {
    fn drop(&mut self) {
        // Nothing is left to do about it where it fails.
        let _ = fs::remove_file(&self.path);
    }
}

/// Both must print the same, up to an END.
fn same(recorded: &Recorded, a: &[u8], b: &[u8]) -> Result<(), Failure> {
    let name = recorded.name();
    if a != b {
        return Err(wrong(format!("{name}: not the same lines")));
    }
    let last = a.split(|byte| *byte == b'\n').rev().nth(1);
    if !last.is_some_and(|line| line.starts_with(b"END ")) {
        return Err(wrong(format!("{name}: the last line is no END")));
    }
    Ok(())
}

/// Nanoseconds of the quickest runs of both.
fn row(recorded: &Recorded, programs: &[Program; 2]) -> Result<[f64; 2], Failure> {
    let mut quick = [f64::MAX; 2];
    let [proved, twin] = programs;
    let runs = match recorded.records {
        MANY => RUNS,
        _ => SHORT_RUNS,
    };
    for _ in 0..runs {
        let ((time, said), (twin_time, twin_said)) =
            (proved.run(&recorded.path)?, twin.run(&recorded.path)?);
        same(recorded, &said, &twin_said)?;
        quick = [quick[0].min(time), quick[1].min(twin_time)];
    }
    let [ms, twin_ms] = quick.map(|time| time / 1e6);
    print!(
        "{:58} {:8.2}   ({ms:.2} and {twin_ms:.2} ms",
        recorded.name(),
        ms / twin_ms
    );
    if recorded.records > 0 {
        let [each, twin_each] = quick.map(|time| time / recorded.records as f64);
        print!("; {each:.2} and {twin_each:.2} ns a record");
    }
    println!(")");
    Ok(quick)
}

fn trial() -> Result<(), Failure> {
    let native = cfg!(target_arch = "x86_64");
    let (proved, how) = if native {
        (proved_program()?, "crates/replay/out/replay by bin/run")
    } else {
        (library_program()?, "the library in a process of this trial")
    };
    let programs = [proved, twin_program()?];
    println!(
        "a capture read from a file, played and printed, by the clock, least of {RUNS} runs, of {SHORT_RUNS} under a million records; proved is {how}"
    );
    println!("{:58} {:>8}", "proved over twin", "ratio");
    row(&Recorded::new(0)?, &programs)?;
    let small = Recorded::new(FEW)?;
    let few = row(&small, &programs)?;
    let many = row(&Recorded::new(MANY)?, &programs)?;
    let [grown, twin_grown] = [0, 1].map(|at| many[at] * FEW as f64 / (few[at] * MANY as f64));
    println!("1,000,000 records over 100 times 10,000 records, proved {grown:11.3}   (twin {twin_grown:.3})");
    if !native {
        emulated(&small, &programs[1])?;
    }
    Ok(())
}

/// The program itself where it is built, compared and not timed.
fn emulated(recorded: &Recorded, twin: &Program) -> Result<(), Failure> {
    let name = recorded.name();
    let Ok(program) = proved_program() else {
        println!("crates/replay/out/replay is not built, so the emulated program is not compared");
        return Ok(());
    };
    let ((_, said), (_, twin_said)) = (program.run(&recorded.path)?, twin.run(&recorded.path)?);
    same(recorded, &said, &twin_said)?;
    println!("crates/replay/out/replay, emulated, prints the same for {name}");
    Ok(())
}
