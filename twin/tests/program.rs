//! The built program `replay` and bin/replay beside the twin: every sample of captures/, and random captures of both forms (01 "Replay", "Examples", 02 §5); and the
//! same by the plain engine, which must print the same lines (02 §7).

use std::collections::BTreeSet;
use std::ffi::OsString;
use std::fs::{self, File};
use std::io::{self, Write};
use std::ops::RangeInclusive;
use std::os::unix::ffi::OsStringExt;
use std::path::{Path, PathBuf};
use std::process::{Command, Output, Stdio};
use std::sync::atomic::{AtomicU64, Ordering};
use std::thread;
use std::time::Instant;

use twin::capture::Form;
use twin::random::{random_capture, Tally};
use twin::replay::{replay, replay_plain, replay_text, Outcome};

/// One random capture each; `twin capture SEED` writes it, and `twin capture --new SEED` that of the new form.
const SEEDS: RangeInclusive<u64> = 1..=2_000;
const NEW_SEEDS: RangeInclusive<u64> = 1..=600;
/// Those of them that are also played by the plain engine.
const PLAIN_SEEDS: RangeInclusive<u64> = 1..=600;
const PLAIN_NEW_SEEDS: RangeInclusive<u64> = 1..=300;
/// Every status that the chip can send (01 "Frames", "Commands").
const STATUSES: [u8; 9] = [0x04, 0x05, 0x06, 0x07, 0x0F, 0x10, 0x15, 0x1B, 0x1C];

fn top() -> PathBuf {
    Path::new(env!("CARGO_MANIFEST_DIR")).join("..")
}

fn scratch(name: &str) -> PathBuf {
    Path::new(env!("CARGO_TARGET_TMPDIR")).join(name)
}

/// The program, as bin/run starts it.
fn program() -> Command {
    assert!(
        top().join("crates/replay/out/replay").is_file(),
        "crates/replay/out/replay is missing: run `rt run` in crates/replay first"
    );
    let mut command = Command::new(top().join("bin/run"));
    command.arg("replay").stdin(Stdio::null());
    command
}

/// Byte by byte, or each stretch at once by the plain engine.
#[derive(Clone, Copy, Debug, PartialEq)]
enum By {
    Bytes,
    Stretches,
}

/// What the program prints for the capture in a file, named or as standard input; else what went wrong. The old form goes without saying where it is named.
fn printed(by: By, form: Form, capture: &Path, named: bool) -> Result<String, String> {
    let mut command = program();
    if by == By::Stretches {
        command.arg("--plain");
    }
    match form {
        Form::Old if named => (),
        Form::Old => drop(command.arg("--old")),
        Form::New => drop(command.arg("--new")),
    }
    if named {
        command.arg(capture);
    } else {
        command.stdin(File::open(capture).unwrap());
    }
    let Output {
        status,
        stdout,
        stderr,
    } = command.output().unwrap();
    let said = String::from_utf8_lossy(&stderr);
    if !status.success() || !said.is_empty() {
        return Err(format!("the program ended with {status} and said: {said}"));
    }
    String::from_utf8(stdout).map_err(|error| error.to_string())
}

/// What is wrong with what was printed, if anything: the first line that differs.
fn difference(printed: &Result<String, String>, must: &str) -> Option<String> {
    let printed = match printed {
        Ok(printed) if printed == must => return None,
        Ok(printed) => printed,
        Err(error) => return Some(error.clone()),
    };
    let mut lines = printed.split_inclusive('\n');
    let mut must = must.split_inclusive('\n');
    let mut number = 1;
    loop {
        let (line, right) = (lines.next(), must.next());
        if line != right {
            let line = line.unwrap_or("nothing");
            let right = right.unwrap_or("nothing");
            return Some(format!("line {number} is {line:?} and must be {right:?}"));
        }
        number += 1;
    }
}

/// A capture as a text that captures/make reads.
fn as_text(form: Form, capture: &[u8]) -> String {
    let mut text = format!("form {}\n", form.name());
    for record in capture.chunks(form.record()) {
        let bytes: Vec<String> = record.iter().map(|byte| format!("{byte:02X}")).collect();
        text += &bytes.join(" ");
        text += "\n";
    }
    text
}

/// The capture of a text; else what captures/make said, and that it wrote nothing.
fn make(text: &Path) -> Result<Vec<u8>, String> {
    let made = Command::new(top().join("captures/make"))
        .arg(text)
        .output()
        .unwrap();
    if made.status.success() {
        return Ok(made.stdout);
    }
    assert!(made.stdout.is_empty());
    Err(String::from_utf8(made.stderr).unwrap())
}

/// The form that captures/make says a text has.
fn form_of(text: &Path) -> Form {
    let told = Command::new(top().join("captures/make"))
        .arg("--form")
        .arg(text)
        .output()
        .unwrap();
    assert!(told.status.success() && told.stderr.is_empty());
    match &told.stdout[..] {
        b"old\n" => Form::Old,
        b"new\n" => Form::New,
        other => panic!("{}: {other:?} is no form", text.display()),
    }
}

/// The names of the samples' files that end so.
fn samples(ending: &str) -> BTreeSet<String> {
    fs::read_dir(top().join("captures"))
        .unwrap()
        .map(|entry| entry.unwrap().file_name().into_string().unwrap())
        .filter_map(|name| name.strip_suffix(ending).map(str::to_string))
        .collect()
}

#[test]
fn every_sample_prints_what_it_must() {
    let names = samples(".txt");
    assert_eq!(names, samples(".out"), "a sample is NAME.txt and NAME.out");
    assert!(names.len() >= 57, "{} samples", names.len());
    let captures = top().join("captures");
    for name in &names {
        let must = fs::read_to_string(captures.join(format!("{name}.out"))).unwrap();
        let text = captures.join(format!("{name}.txt"));
        let (form, capture) = (form_of(&text), make(&text).unwrap());
        assert_eq!(
            form == Form::New,
            name.starts_with("new-") || name == "two-seats",
            "{name}"
        );
        let twin = difference(&Ok(replay_text(form, &capture)), &must);
        assert_eq!(twin, None, "the twin, captures/{name}.txt");
        let file = scratch("sample");
        fs::write(&file, capture).unwrap();
        for named in [true, false] {
            let program = difference(&printed(By::Bytes, form, &file, named), &must);
            assert_eq!(program, None, "the program, captures/{name}.txt");
        }
    }
}

/// Every test of --plain begins here, so that a program without it is told from one that plays wrongly. They are left out (`#[ignore]`) until the program takes it.
fn program_knows_plain() {
    let file = scratch("plain-empty");
    fs::write(&file, []).unwrap();
    let printed = printed(By::Stretches, Form::Old, &file, true);
    assert_eq!(
        printed.as_deref(),
        Ok("END 0\n"),
        "crates/replay/out/replay does not take --plain: is it older than its crate? `rt run` in crates/replay builds it"
    );
}

#[test]
#[ignore = "the program does not take --plain yet"]
fn every_sample_prints_the_same_by_the_plain_engine() {
    program_knows_plain();
    let captures = top().join("captures");
    for name in &samples(".txt") {
        let must = fs::read_to_string(captures.join(format!("{name}.out"))).unwrap();
        let text = captures.join(format!("{name}.txt"));
        let (form, capture) = (form_of(&text), make(&text).unwrap());
        let twin = difference(&Ok(replay_plain(form, &capture)), &must);
        assert_eq!(twin, None, "the twin's engine, captures/{name}.txt");
        let file = scratch("plain-sample");
        fs::write(&file, capture).unwrap();
        for named in [true, false] {
            let program = difference(&printed(By::Stretches, form, &file, named), &must);
            assert_eq!(program, None, "replay --plain, captures/{name}.txt");
        }
    }
}

/// The run that `rt` holds the program to is the whole case of 01.
#[test]
fn stored_run_is_the_whole_case() {
    let stored = top().join("crates/replay");
    let captures = top().join("captures");
    assert_eq!(
        fs::read(stored.join("stdin")).unwrap(),
        make(&captures.join("whole-case.txt")).unwrap()
    );
    assert_eq!(
        fs::read(stored.join("stdout")).unwrap(),
        fs::read(captures.join("whole-case.out")).unwrap()
    );
}

/// What the comparison has seen.
struct Seen {
    statuses: Tally,
    ended: u64,
    bad: u64,
    short: u64,
    frames: u64,
}

impl Seen {
    fn nothing() -> Seen {
        Seen {
            statuses: Tally::new(),
            ended: 0,
            bad: 0,
            short: 0,
            frames: 0,
        }
    }

    fn add(&mut self, other: &Seen) {
        self.statuses.add(&other.statuses);
        self.ended += other.ended;
        self.bad += other.bad;
        self.short += other.short;
        self.frames += other.frames;
    }

    /// The twin's replay.
    fn hear(&mut self, form: Form, capture: &[u8]) -> String {
        let mut output = Vec::new();
        let outcome = replay(form, capture, &mut output, |answer| {
            self.statuses.hear(answer)
        })
        .unwrap();
        let text = String::from_utf8(output).unwrap();
        self.frames += text.lines().count() as u64 - 1;
        match outcome {
            Outcome::End(_) => self.ended += 1,
            Outcome::Bad(number) => {
                self.bad += 1;
                let at = number as usize * form.record();
                self.short += u64::from(capture.len() - at < form.record());
            }
        }
        text
    }
}

/// Takes seeds until none is left; at a difference, tells it and leaves none for the others.
fn compare(by: By, form: Form, worker: usize, next: &AtomicU64, last: u64) -> Result<Seen, String> {
    let file = scratch(&format!("random-{by:?}-{}-{worker}", form.name()));
    let mut seen = Seen::nothing();
    loop {
        let seed = next.fetch_add(1, Ordering::Relaxed);
        if seed > last {
            return Ok(seen);
        }
        let capture = random_capture(form, seed);
        fs::write(&file, &capture).unwrap();
        let must = seen.hear(form, &capture);
        if let Some(wrong) = difference(&printed(by, form, &file, seed % 2 == 1), &must) {
            next.store(last + 1, Ordering::Relaxed);
            return Err(tell(by, form, seed, &capture, &wrong, &file));
        }
    }
}

/// A difference, with the capture cut down to the records that it takes.
fn tell(by: By, form: Form, seed: u64, capture: &[u8], wrong: &str, file: &Path) -> String {
    let size = form.record();
    let wrong_with = |records: usize| {
        let cut = &capture[..capture.len().min(records * size)];
        fs::write(file, cut).unwrap();
        difference(&printed(by, form, file, true), &replay_text(form, cut))
    };
    let mut agrees = 0;
    let mut differs = capture.len().div_ceil(size);
    while agrees + 1 < differs {
        let middle = (agrees + differs) / 2;
        if wrong_with(middle).is_some() {
            differs = middle;
        } else {
            agrees = middle;
        }
    }
    let cut = &capture[..capture.len().min(differs * size)];
    let wrong_there = wrong_with(differs).unwrap_or_default();
    format!(
        "the program, by {by:?}, and the twin differ on the random capture of seed {seed}, {form:?} form: {wrong}\n\
         its first {differs} records suffice: {wrong_there}\n\
         as a text for captures/make:\n{}",
        as_text(form, cut)
    )
}

/// All of these seeds by every core at hand; prints and hands back what came.
fn compare_all(by: By, form: Form, seeds: RangeInclusive<u64>) -> Seen {
    let began = Instant::now();
    let next = AtomicU64::new(*seeds.start());
    let last = *seeds.end();
    let workers = thread::available_parallelism().map_or(2, |count| count.get());
    let mut seen = Seen::nothing();
    thread::scope(|scope| {
        let next = &next;
        let working: Vec<_> = (0..workers)
            .map(|worker| scope.spawn(move || compare(by, form, worker, next, last)))
            .collect();
        for worker in working {
            match worker.join().unwrap() {
                Ok(its) => seen.add(&its),
                Err(told) => panic!("{told}"),
            }
        }
    });
    // Not by println, which a passing test keeps to itself.
    write!(
        io::stdout(),
        "\nrandom captures of seeds {} to {last}, {form:?} form, program (by {by:?}) and twin, every line equal: {} END, {} BAD ({} at a short record), {} reply frames, {} s\n\
         how often each status came:\n{}",
        seeds.start(),
        seen.ended,
        seen.bad,
        seen.short,
        seen.frames,
        began.elapsed().as_secs(),
        seen.statuses
    )
    .unwrap();
    assert_eq!(seen.ended + seen.bad, seeds.count() as u64);
    for status in STATUSES {
        assert!(seen.statuses.of(status) > 100, "{status:02X}h too rare");
    }
    seen
}

#[test]
fn random_captures_print_the_same_lines() {
    let seen = compare_all(By::Bytes, Form::Old, SEEDS);
    assert!(seen.ended > 100 && seen.bad - seen.short > 100 && seen.short > 10);
    let seen = compare_all(By::Bytes, Form::New, NEW_SEEDS);
    assert!(seen.ended > 100 && seen.bad - seen.short > 30 && seen.short > 10);
}

/// What the program prints of these captures byte by byte, the test above holds to the twin.
#[test]
#[ignore = "the program does not take --plain yet"]
fn random_captures_print_the_same_lines_by_the_plain_engine() {
    program_knows_plain();
    let seen = compare_all(By::Stretches, Form::Old, PLAIN_SEEDS);
    assert!(seen.ended > 100 && seen.bad - seen.short > 30 && seen.short > 10);
    let seen = compare_all(By::Stretches, Form::New, PLAIN_NEW_SEEDS);
    assert!(seen.ended > 100 && seen.bad - seen.short > 10 && seen.short > 5);
}

/// More records and replies than any buffer holds, as close as they come, and a count of frames over 65,535.
fn long_capture_by(by: By) {
    for form in Form::BOTH {
        let mut text = format!("form {}\nsend 3A\ncommand 9A 00 21\n", form.name());
        for _ in 0..330 {
            text += "send";
            text += &" 0101C03F03".repeat(100);
            text += "\n";
        }
        let file = scratch(&format!("long-{by:?}.txt"));
        fs::write(&file, text).unwrap();
        let capture = make(&file).unwrap();
        let file = scratch(&format!("long-{by:?}"));
        fs::write(&file, &capture).unwrap();
        let must = replay_text(form, &capture);
        assert!(must.ends_with("\nEND 66001\n"));
        assert_eq!(difference(&printed(by, form, &file, true), &must), None);
    }
}

#[test]
fn long_capture() {
    long_capture_by(By::Bytes);
}

/// Not one gap, so that the stretch is longer than anything that a program can hold of it.
#[test]
#[ignore = "the program does not take --plain yet"]
fn long_stretch_by_the_plain_engine() {
    program_knows_plain();
    long_capture_by(By::Stretches);
}

/// Cut within a record, by a bad or a short one: what came before it has been heard, and nothing of it.
#[test]
#[ignore = "the program does not take --plain yet"]
fn a_bad_record_ends_a_stretch() {
    program_knows_plain();
    let file = scratch("plain-bad.txt");
    for (bad, printed_last) in [
        ("01 05 01 01 A1 5E 03 01", "BAD 4\n"),
        ("01 05 01", "BAD 4\n"),
    ] {
        let text = format!("send 3A\ncommand 9A 00 21\nsend 0101A15E03\n{bad}\n");
        fs::write(&file, text).unwrap();
        let capture = make(&file).unwrap();
        let path = scratch("plain-bad");
        fs::write(&path, &capture).unwrap();
        let must = "02 03 06 20 00 D7 03\n02 01 06 F9 03\n02 08 FF 03 00 00 0F 00 FF FF E9 03\n";
        let must = format!("{must}{printed_last}");
        assert_eq!(replay_plain(Form::Old, &capture), must);
        let program = printed(By::Stretches, Form::Old, &path, true);
        assert_eq!(difference(&program, &must), None);
    }
}

/// A pipe hands out what it has, not what was asked for: records come in pieces.
fn capture_in_pieces_with(options: &[&str], name: &str) {
    let captures = top().join("captures");
    let capture = make(&captures.join(format!("{name}.txt"))).unwrap();
    let mut child = program()
        .args(options)
        .stdin(Stdio::piped())
        .stdout(Stdio::piped())
        .spawn()
        .unwrap();
    let mut pipe = child.stdin.take().unwrap();
    for piece in capture.chunks(13) {
        pipe.write_all(piece).unwrap();
        thread::sleep(std::time::Duration::from_millis(2));
    }
    drop(pipe);
    let output = child.wait_with_output().unwrap();
    let must = fs::read_to_string(captures.join(format!("{name}.out"))).unwrap();
    assert_eq!(
        difference(&Ok(String::from_utf8(output.stdout).unwrap()), &must),
        None
    );
}

#[test]
fn capture_in_pieces() {
    capture_in_pieces_with(&["--old"], "write-ban");
    capture_in_pieces_with(&["--new"], "two-seats");
}

#[test]
#[ignore = "the program does not take --plain yet"]
fn capture_in_pieces_by_the_plain_engine() {
    program_knows_plain();
    capture_in_pieces_with(&["--plain", "--old"], "write-ban");
    capture_in_pieces_with(&["--plain", "--new"], "two-seats");
}

/// What cannot be read gets a message that names it, and nothing that looks like a result.
#[test]
fn unreadable_captures() {
    let missing = scratch("no-such-capture");
    for path in [missing.as_path(), Path::new(env!("CARGO_TARGET_TMPDIR"))] {
        let output = program().arg(path).output().unwrap();
        assert!(output.stdout.is_empty());
        let said = String::from_utf8(output.stderr).unwrap();
        assert!(said.contains(path.to_str().unwrap()), "{said}");
    }
    let good = scratch("good");
    fs::write(&good, []).unwrap();
    let good = good.to_str().unwrap();
    for words in [
        &[good, good][..],
        &["--old", "--new", good],
        &["--new", "--old", good],
        &["--new", "--old"],
        &["--new", good, good],
        &["--plain", good, good],
        &["--plain", "--old", "--new", good],
        &["--plain", "no-such-capture"],
    ] {
        let output = program().args(words).output().unwrap();
        assert!(
            output.stdout.is_empty() && !output.stderr.is_empty(),
            "{words:?}"
        );
    }
}

/// bin/replay with these words, its status, what it prints and what it says.
fn by_script(words: &[&str]) -> (Option<i32>, String, String) {
    let output = Command::new(top().join("bin/replay"))
        .args(words)
        .stdin(Stdio::null())
        .output()
        .unwrap();
    (
        output.status.code(),
        String::from_utf8(output.stdout).unwrap(),
        String::from_utf8(output.stderr).unwrap(),
    )
}

/// The program's library opens no file whose name is not UTF-8; the script hands such a one on all the same.
#[test]
fn a_name_that_is_no_text() {
    program();
    let captures = top().join("captures");
    let mut name = scratch("no-text-").into_os_string().into_vec();
    name.push(0xFF);
    let file = OsString::from_vec(name);
    fs::write(&file, make(&captures.join("whole-case.txt")).unwrap()).unwrap();
    let output = Command::new(top().join("bin/replay"))
        .arg(&file)
        .stdin(Stdio::null())
        .output()
        .unwrap();
    let must = fs::read(captures.join("whole-case.out")).unwrap();
    assert_eq!((output.status.code(), output.stdout), (Some(0), must));
}

/// A text is replayed as what it is, a capture as what is told, and as old where nothing is.
#[test]
fn the_script_knows_the_form() {
    program();
    let captures = top().join("captures");
    let sample = |name: &str| captures.join(name).to_str().unwrap().to_string();
    let (old, new) = (sample("whole-case.txt"), sample("new-whole-case.txt"));
    let must = fs::read_to_string(captures.join("whole-case.out")).unwrap();
    let file = scratch("script-new");
    fs::write(&file, make(Path::new(&new)).unwrap()).unwrap();
    let file = file.to_str().unwrap();
    for words in [
        &[&old[..]][..],
        &["--old", &old],
        &[&new],
        &["--new", &new],
        &[&new, "--new"],
        &["--new", file],
    ] {
        let (status, printed, _) = by_script(words);
        assert_eq!((status, &printed), (Some(0), &must), "{words:?}");
    }
    // Taken as old, the first half of its first record is a good record, and the second half, of kind 3Ah, is none.
    let (status, printed, _) = by_script(&[file]);
    assert_eq!((status, &printed[..]), (Some(0), "BAD 1\n"));
    for (words, what) in [
        (
            &["--new", &old[..]][..],
            "whole-case.txt is a text of the old form",
        ),
        (
            &["--old", &new],
            "new-whole-case.txt is a text of the new form",
        ),
        (&["--old", "--new", file], "told twice"),
        (&["--plain", "--plain", file], "--plain is told twice"),
        (&["--newer", file], "--newer is no option"),
        (&[file, file], "more than one capture"),
        (
            &["no-such-capture"],
            "no-such-capture: there is no such file",
        ),
    ] {
        let (status, printed, said) = by_script(words);
        assert_eq!((status, &printed[..]), (Some(2), ""), "{words:?}");
        assert!(said.contains(what), "{said}");
    }
}

/// --plain stands anywhere among the words, beside either form.
#[test]
#[ignore = "the program does not take --plain yet"]
fn the_script_hands_plain_on() {
    program_knows_plain();
    let captures = top().join("captures");
    let sample = |name: &str| captures.join(name).to_str().unwrap().to_string();
    let (old, new) = (sample("whole-case.txt"), sample("new-whole-case.txt"));
    let must = fs::read_to_string(captures.join("whole-case.out")).unwrap();
    let file = scratch("script-plain-new");
    fs::write(&file, make(Path::new(&new)).unwrap()).unwrap();
    let file = file.to_str().unwrap();
    for words in [
        &["--plain", &old[..]][..],
        &[&old, "--plain"],
        &["--old", "--plain", &old],
        &["--plain", &new],
        &["--plain", "--new", file],
        &["--new", file, "--plain"],
    ] {
        let (status, printed, _) = by_script(words);
        assert_eq!((status, &printed), (Some(0), &must), "{words:?}");
    }
}

#[test]
fn help() {
    let output = program().arg("--help").output().unwrap();
    assert!(output.stderr.is_empty());
    let said = String::from_utf8(output.stdout).unwrap();
    assert!(said.contains("END") && said.contains("BAD"), "{said}");
}

/// What a difference prints is the capture again.
#[test]
fn printed_captures_can_be_made() {
    let file = scratch("printed.txt");
    for form in Form::BOTH {
        for seed in 1..=10 {
            let capture = random_capture(form, seed);
            fs::write(&file, as_text(form, &capture)).unwrap();
            assert_eq!(make(&file).unwrap(), capture);
            assert_eq!(form_of(&file), form);
        }
        let short = [0x01, 0x02, 0x3A];
        fs::write(&file, as_text(form, &short)).unwrap();
        assert_eq!(make(&file).unwrap(), short);
    }
}

#[test]
fn forms_of_a_text() {
    let file = scratch("form.txt");
    for (text, bytes) in [
        ("", "".to_string()),
        ("# nothing\n\n   # more of it\r\n", "".to_string()),
        ("gap\n", "00 00 00 00 00 00 00 00\n".to_string()),
        ("Send 3a # one\r\n", "01 01 3A 00 00 00 00 00\n".to_string()),
        (
            "send 0101A15E 03 00..02",
            "01 06 01 01 A1 5E 03 00\n01 02 01 02 00 00 00 00\n".to_string(),
        ),
        ("command A1", "01 05 01 01 A1 5E 03 00\n".to_string()),
        (
            "last FF 80 40 22",
            "01 06 02 04 FF 80 40 22\n01 02 1B 03 00 00 00 00\n".to_string(),
        ),
        (
            "more 5A*256",
            format!(
                "01 06 02 00 5A 5A 5A 5A\n{}01 02 00 17 00 00 00 00\n",
                "01 06 5A 5A 5A 5A 5A 5A\n".repeat(42)
            ),
        ),
        ("0201\t0304", "02 01 03 04\n".to_string()),
        ("Form OLD\ngap\n", "00 00 00 00 00 00 00 00\n".to_string()),
    ] {
        fs::write(&file, text).unwrap();
        let made = as_text(Form::Old, &make(&file).unwrap());
        assert_eq!(made, format!("form old\n{bytes}"), "{text}");
        assert_eq!(form_of(&file), Form::Old);
    }
    for (text, bytes) in [
        ("form new", "".to_string()),
        (
            "# a comment\nform new # and one\nsend 3A",
            "01 01 00 00 00 00 00 00 3A 00 00 00 00 00 00 00\n".to_string(),
        ),
        (
            "FORM New\r\nSeat 1\r\nTick 4660\r\ngap\r\n",
            "00 00 01 00 34 12 00 00 00 00 00 00 00 00 00 00\n".to_string(),
        ),
        (
            "form new\ntick 4294967295\nsend 01..09\ntick 65536\nseat 1\nsend 01\nseat 0\ngap",
            "01 08 00 00 FF FF FF FF 01 02 03 04 05 06 07 08\n\
             01 01 00 00 FF FF FF FF 09 00 00 00 00 00 00 00\n\
             01 01 01 00 00 00 01 00 01 00 00 00 00 00 00 00\n\
             00 00 00 00 00 00 01 00 00 00 00 00 00 00 00 00\n"
                .to_string(),
        ),
        (
            "form new\ncommand 9A 00 21\nlast FF 80 40 22",
            "01 07 00 00 00 00 00 00 01 03 9A 00 21 42 03 00\n\
             01 08 00 00 00 00 00 00 02 04 FF 80 40 22 1B 03\n"
                .to_string(),
        ),
        (
            "form new\ntick 2\nmore 5A*256",
            format!(
                "01 08 00 00 02 00 00 00 02 00 5A 5A 5A 5A 5A 5A\n{}01 04 00 00 02 00 00 00 5A 5A 00 17 00 00 00 00\n",
                "01 08 00 00 02 00 00 00 5A 5A 5A 5A 5A 5A 5A 5A\n".repeat(31)
            ),
        ),
        (
            "form new\nseat 1\ntick 9\n00..0F\n0001 02",
            "00 01 02 03 04 05 06 07 08 09 0A 0B 0C 0D 0E 0F\n00 01 02\n".to_string(),
        ),
    ] {
        fs::write(&file, text).unwrap();
        let made = as_text(Form::New, &make(&file).unwrap());
        assert_eq!(made, format!("form new\n{bytes}"), "{text}");
        assert_eq!(form_of(&file), Form::New);
    }
}

#[test]
fn texts_that_are_not_right() {
    let file = scratch("wrong.txt");
    for (text, line) in [
        ("gap\n01 0G\n", 2),
        ("gap\n# comment\n01 1\n", 3),
        ("01 02 03\ngap\n", 1),
        ("01 02 03 04 05 06 07 08 09\n", 1),
        ("gap\ngap 01\n", 2),
        ("send\n", 1),
        ("comand A1\n", 1),
        ("send FF*0\n", 1),
        ("send FF*\n", 1),
        ("send *3\n", 1),
        ("send 05..01\n", 1),
        ("send 5..10\n", 1),
        ("gap\n\nmore FF*257\n", 3),
        ("form\n", 1),
        ("form newer\n", 1),
        ("form new new\n", 1),
        ("form new\nform new\n", 2),
        ("form old\ngap\nform new\n", 3),
        ("gap\nform new\n", 2),
        ("gap\nseat 0\n", 2),
        ("tick 0\nform new\n", 1),
        ("form old\nseat 1\n", 2),
        ("form new\nseat 2\n", 2),
        ("form new\nseat\n", 2),
        ("form new\nseat 0 1\n", 2),
        ("form new\nseat 01\n", 2),
        ("form new\ntick 4294967296\n", 2),
        ("form new\ntick 99999999999\n", 2),
        ("form new\ntick -1\n", 2),
        ("form new\ntick 1F\n", 2),
        ("form new\n00..10\n", 2),
        ("form new\n01 02 03 04 05 06 07 08\ngap\n", 2),
        ("form new\ngap 00\n", 2),
    ] {
        fs::write(&file, text).unwrap();
        let said = make(&file).expect_err(text);
        assert!(said.contains(&format!("wrong.txt:{line}: ")), "{said}");
        assert_eq!(said.lines().count(), 1, "{said}");
        let told = Command::new(top().join("captures/make"))
            .arg("--form")
            .arg(&file)
            .output()
            .unwrap();
        assert!(!told.status.success() && told.stdout.is_empty(), "{text}");
    }
    assert!(make(&scratch("no-such-text")).is_err());
}
