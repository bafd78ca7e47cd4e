//! The built program `convert` and bin/convert beside the twin: random captures of both forms, what is refused, and what is left where it is (02 §5).

use std::ffi::OsStr;
use std::fs::{self, File};
use std::io::{self, Write};
use std::os::unix::ffi::OsStrExt;
use std::os::unix::fs::{symlink, PermissionsExt};
use std::path::{Path, PathBuf};
use std::process::{Child, Command, Output, Stdio};
use std::sync::Once;
use std::thread;
use std::time::{Duration, Instant};

use twin::capture::{converted, Form, Refusal};
use twin::random::{
    bad_record, bad_ways, not_held_record, random_capture, short_tail, Generator, NOT_HELD_WAYS,
};

const SEEDS: u64 = 150;

fn top() -> PathBuf {
    Path::new(env!("CARGO_MANIFEST_DIR")).join("..")
}

/// A folder of its own for a test, empty.
fn folder(name: &str) -> PathBuf {
    let folder = Path::new(env!("CARGO_TARGET_TMPDIR")).join(format!("convert-{name}"));
    let _ = fs::remove_dir_all(&folder);
    fs::create_dir_all(&folder).unwrap();
    folder
}

/// The names in a folder.
fn within(folder: &Path) -> Vec<String> {
    let mut names: Vec<String> = fs::read_dir(folder)
        .unwrap()
        .map(|entry| entry.unwrap().file_name().into_string().unwrap())
        .collect();
    names.sort();
    names
}

fn is_built() {
    assert!(
        top().join("crates/convert/out/convert").is_file(),
        "crates/convert/out/convert is missing: run `rt run` in crates/convert first"
    );
}

/// The word for the way from this form to the other.
fn way(from: Form) -> &'static str {
    match from {
        Form::Old => "--to-new",
        Form::New => "--to-old",
    }
}

/// Status, standard output, standard error.
type Said = (Option<i32>, String, String);

fn said(output: Output) -> Said {
    (
        output.status.code(),
        String::from_utf8(output.stdout).unwrap(),
        String::from_utf8(output.stderr).unwrap(),
    )
}

fn by_program(words: &[&str]) -> Said {
    is_built();
    let mut command = Command::new(top().join("bin/run"));
    command.arg("convert").args(words).stdin(Stdio::null());
    said(command.output().unwrap())
}

/// What was refused, as the program prints it and as it says it.
fn refused(refusal: Refusal) -> (String, String) {
    let (number, record) = (refusal.number(), refusal.record().unwrap());
    (
        format!("REFUSED {number} {record}\n"),
        format!("convert: refused {number}, record {record}\n"),
    )
}

/// What the comparison has seen.
#[derive(Default, Debug)]
struct Seen {
    converted: u64,
    bad: u64,
    not_held: u64,
}

const BEFORE: &[u8] = b"as it was";

/// One capture through the program: what it prints, says and writes is what the twin does; where it is refused, the output is not made. A file that is there is not
/// written over.
fn compare(from: Form, capture: &[u8], at: &Path, exists: bool, seen: &mut Seen) {
    let (input, output) = (at.join("in"), at.join("out"));
    fs::write(&input, capture).unwrap();
    let _ = fs::remove_file(&output);
    if exists {
        fs::write(&output, BEFORE).unwrap();
    }
    let words = [way(from), input.to_str().unwrap(), output.to_str().unwrap()];
    let must = converted(from, capture);
    if exists && must.is_ok() {
        let (status, printed, message) = by_program(&words);
        assert_eq!((status, printed.as_str()), (Some(0), ""));
        assert_eq!(message, format!("convert: {}: File exists\n", words[2]));
        assert_eq!(fs::read(&output).unwrap(), BEFORE);
        fs::remove_file(&output).unwrap();
    }
    let told = by_program(&words);
    let left = fs::read(&output).ok();
    match must {
        Ok(bytes) => {
            let records = capture.len() / from.record();
            assert_eq!(told, (Some(0), format!("END {records}\n"), String::new()));
            assert!(left == Some(bytes), "not the twin's bytes");
            seen.converted += 1;
        }
        Err(refusal) => {
            let (printed, message) = refused(refusal);
            assert_eq!(told, (Some(0), printed, message));
            assert_eq!(left.as_deref(), exists.then_some(BEFORE));
            match refusal {
                Refusal::Bad(_) => seen.bad += 1,
                _ => seen.not_held += 1,
            }
        }
    }
    assert_eq!(fs::read(&input).unwrap(), capture);
}

/// A capture of the new form that the old one can hold, with records put in that it cannot, or that are bad.
fn planted(choice: &mut Generator, seed: u64) -> Vec<u8> {
    let old = random_capture(Form::Old, seed);
    let whole = &old[..old.len() / Form::Old.record() * Form::Old.record()];
    let mut capture = converted(Form::Old, whole).unwrap_or_default();
    let put = |capture: &mut Vec<u8>, record: Vec<u8>, choice: &mut Generator| {
        let size = Form::New.record();
        let at = choice.below(capture.len() / size + 1) * size;
        capture.splice(at..at, record);
    };
    for _ in 0..choice.below(3) {
        let way = choice.below(NOT_HELD_WAYS.len());
        let record = not_held_record(way, choice);
        put(&mut capture, record, choice);
    }
    if choice.chance(40) {
        let way = choice.below(bad_ways(Form::New).len());
        let any = choice.between(1, 255) as u8;
        let record = bad_record(Form::New, way, any, choice);
        put(&mut capture, record, choice);
    }
    if choice.chance(10) {
        capture.extend(short_tail(Form::New, choice));
    }
    capture
}

#[test]
fn random_captures_are_converted_the_same() {
    let at = folder("random");
    let (mut old, mut new) = (Seen::default(), Seen::default());
    let mut choice = Generator::new(1);
    for seed in 1..=SEEDS {
        let exists = seed % 2 == 0;
        let capture = random_capture(Form::Old, seed);
        compare(Form::Old, &capture, &at, exists, &mut old);
        let capture = match seed % 3 {
            0 => random_capture(Form::New, seed),
            _ => planted(&mut choice, seed),
        };
        compare(Form::New, &capture, &at, exists, &mut new);
    }
    // Not by println, which a passing test keeps to itself.
    writeln!(
        io::stdout(),
        "\nrandom captures, program and twin, every byte equal: to new {old:?}, to old {new:?}"
    )
    .unwrap();
    assert!(old.converted > 50 && old.bad > 5 && old.not_held == 0);
    assert!(new.converted > 15 && new.bad > 15 && new.not_held > 15);
}

/// Each kind of bad record and each reason of 11, after and before the other, by its name.
#[test]
fn every_refusal() {
    let at = folder("refusals");
    let mut choice = Generator::new(2);
    let mut seen = Seen::default();
    for form in Form::BOTH {
        let gap = vec![0; form.record()];
        for way in 0..bad_ways(form).len() {
            for any in [0x01, 0x80, 0xFF] {
                let bad = bad_record(form, way, any, &mut choice);
                let capture = [&gap[..], &gap, &bad, &gap].concat();
                compare(form, &capture, &at, true, &mut seen);
            }
        }
        for short in 1..form.record() {
            let capture = vec![0; form.record() + short];
            compare(form, &capture, &at, false, &mut seen);
        }
        compare(form, &[], &at, true, &mut seen);
    }
    // Seat 2, and so bad; were it good, the old form could not hold it.
    let mut bad = vec![0; 16];
    bad[2] = 2;
    for way in 0..NOT_HELD_WAYS.len() {
        let not_held = not_held_record(way, &mut choice);
        let gap = vec![0; 16];
        for capture in [
            [&not_held[..], &gap].concat(),
            [&gap[..], &not_held, &not_held].concat(),
            [&not_held[..], &gap, &bad].concat(),
            [&not_held[..], &[0; 3]].concat(),
        ] {
            compare(Form::New, &capture, &at, true, &mut seen);
        }
    }
    assert_eq!((seen.converted, seen.not_held), (2, 14));
    assert_eq!(seen.bad, 3 * (6 + 8) + 7 + 15 + 14);
}

/// More records than any buffer holds, and the same with the last one bad, or not held: then nothing is written.
#[test]
fn long_captures() {
    let at = folder("long");
    let mut seen = Seen::default();
    let old: Vec<u8> = (0..200_000_u32)
        .flat_map(|number| {
            let [a, b, c, _] = number.to_le_bytes();
            [0x01, 0x04, a, b, c, 0x5A, 0x00, 0x00]
        })
        .collect();
    let new = converted(Form::Old, &old).unwrap();
    compare(Form::Old, &old, &at, false, &mut seen);
    compare(Form::New, &new, &at, true, &mut seen);
    let mut last_bad = old;
    *last_bad.last_mut().unwrap() = 0x01;
    compare(Form::Old, &last_bad, &at, false, &mut seen);
    let mut last_not_held = new;
    let tick = last_not_held.len() - 9;
    last_not_held[tick] = 0x01;
    compare(Form::New, &last_not_held, &at, true, &mut seen);
    let counts = (seen.converted, seen.bad, seen.not_held);
    assert_eq!(counts, (2, 1, 1));
}

/// Nothing on standard output, one message on standard error, and nothing is written.
#[test]
fn what_the_program_cannot_do() {
    let at = folder("cannot");
    let name = |name: &str| at.join(name).to_str().unwrap().to_string();
    let (good, out, missing) = (name("good"), name("out"), name("missing"));
    let nowhere = name("missing/out");
    fs::write(&good, [0; 16]).unwrap();
    for words in [
        &[][..],
        &["--to-new"],
        &["--to-new", &good],
        &[&good, &out],
        &["--to-new", "--to-old", &good, &out],
        &["--to-new", &good, &out, &out],
        &["--to-newer", &good, &out],
        &["--to-new", &missing, &out],
        &["--to-old", at.to_str().unwrap(), &out],
        &["--to-new", &good, &nowhere],
        &["--to-new", &good, at.to_str().unwrap()],
        &["--to-new", &good, &good],
    ] {
        let (_, printed, message) = by_program(words);
        assert_eq!(printed, "", "{words:?}");
        assert!(message.starts_with("convert: "), "{words:?}: {message}");
        assert_eq!(message.lines().count(), 1, "{words:?}: {message}");
        assert_eq!(within(&at), ["good"], "{words:?}");
        assert_eq!(fs::read(&good).unwrap(), [0; 16], "{words:?}");
    }
}

/// What could not be written whole does not stay.
#[test]
fn output_that_does_not_fit() {
    is_built();
    let at = folder("does-not-fit");
    fs::write(at.join("in"), vec![0; 80_000]).unwrap();
    // Files may have 64 times 512 or 1,024 bytes then; without the trap of SIGXFSZ, which is 25, the program would be stopped.
    let script = "trap '' 25; ulimit -f 64; exec \"$1\" convert --to-new in out";
    let mut command = Command::new("sh");
    command
        .args(["-c", script, "sh"])
        .arg(top().canonicalize().unwrap().join("bin/run"))
        .current_dir(&at);
    let (_, printed, message) = said(command.stdin(Stdio::null()).output().unwrap());
    assert_eq!(printed, "");
    assert_eq!(message, "convert: out: File too large\n");
    assert_eq!(within(&at), ["in"]);
}

/// bin/convert in a folder of its own, with another of its own for its temporary files, which must go.
struct Script {
    at: PathBuf,
    room: PathBuf,
}

impl Script {
    /// A folder with a capture of each form, `old` and `new`, which are the same, and with `other`, whose record 1 the old form cannot hold, and `bad`.
    fn new(name: &str) -> Script {
        static BUILT: Once = Once::new();
        is_built();
        // Where the program is older than its sources the script builds it, and says so: so first of all.
        BUILT.call_once(|| {
            let text = top().join("captures/empty.txt");
            let mut command = Command::new(top().join("bin/convert"));
            command.arg("--to-new").arg(text);
            let told = said(command.stdin(Stdio::null()).output().unwrap());
            assert_eq!(told.0, Some(0), "{told:?}");
        });
        let script = Script {
            at: folder(name),
            room: folder(&format!("{name}-room")),
        };
        script.put("old", &old());
        script.put("new", &new());
        script.put("other", &other());
        script.put("bad", &[&new()[..], &[0x02]].concat());
        script
    }

    fn put(&self, name: &str, bytes: &[u8]) {
        fs::write(self.at.join(name), bytes).unwrap();
    }

    fn get(&self, name: &str) -> Vec<u8> {
        fs::read(self.at.join(name)).unwrap()
    }

    fn command(&self, words: &[&str]) -> Command {
        let mut command = Command::new(top().canonicalize().unwrap().join("bin/convert"));
        command
            .args(words)
            .current_dir(&self.at)
            .env("TMPDIR", &self.room)
            .stdin(Stdio::null());
        command
    }

    /// The status, and what it said; it prints nothing.
    fn run(&self, words: &[&str]) -> (Option<i32>, String) {
        let (status, printed, message) = said(self.command(words).output().unwrap());
        assert_eq!(printed, "", "{words:?}");
        self.nothing_left();
        (status, message)
    }

    fn done(&self, words: &[&str]) {
        assert_eq!(self.run(words), (Some(0), String::new()), "{words:?}");
    }

    /// No temporary file is left, in the one folder or in the other.
    fn nothing_left(&self) {
        assert_eq!(within(&self.room), [""; 0]);
        let hidden = |name: &String| name.starts_with('.') || name.contains("convert");
        assert!(
            !within(&self.at).iter().any(hidden),
            "{:?}",
            within(&self.at)
        );
    }
}

fn old() -> Vec<u8> {
    vec![
        0x01, 0x01, 0x3A, 0, 0, 0, 0, 0, //
        0x00, 0x00, 0, 0, 0, 0, 0, 0, //
        0x01, 0x06, 1, 2, 3, 4, 5, 6,
    ]
}

fn new() -> Vec<u8> {
    vec![
        0x01, 0x01, 0, 0, 0, 0, 0, 0, 0x3A, 0, 0, 0, 0, 0, 0, 0, //
        0x00, 0x00, 0, 0, 0, 0, 0, 0, 0, 0, 0, 0, 0, 0, 0, 0, //
        0x01, 0x06, 0, 0, 0, 0, 0, 0, 1, 2, 3, 4, 5, 6, 0, 0,
    ]
}

/// Record 1 is of seat 1.
fn other() -> Vec<u8> {
    let mut capture = new();
    capture[16 + 2] = 1;
    capture
}

#[test]
fn both_ways() {
    let script = Script::new("ways");
    script.done(&["--to-new", "old", "out"]);
    assert_eq!(script.get("out"), new());
    script.done(&["new", "--to-old", "out"]);
    assert_eq!(script.get("out"), old());
    // From another folder, by a path, and into the file itself.
    let path = script.at.join("old").to_str().unwrap().to_string();
    script.done(&["--to-new", &path, &path]);
    assert_eq!(script.get("old"), new());
    script.done(&["--to-old", "old", "old"]);
    assert_eq!(script.get("old"), old());
    script.put("empty", &[]);
    script.done(&["--to-old", "empty", "out"]);
    assert_eq!(script.get("out"), [0; 0]);
    script.put("a name; with $(odd) 'signs'", &old());
    script.done(&["--to-new", "a name; with $(odd) 'signs'", "and out * too"]);
    assert_eq!(script.get("and out * too"), new());
}

/// The program's library opens no file whose name is not UTF-8; the script has such captures converted all the same.
#[test]
fn names_that_are_no_text() {
    let script = Script::new("no-text");
    let folder = script.at.join(OsStr::from_bytes(b"folder-\xFF"));
    fs::create_dir(&folder).unwrap();
    fs::write(folder.join(OsStr::from_bytes(b"old-\xFF")), old()).unwrap();
    let name = |bytes: &'static [u8]| OsStr::from_bytes(bytes);
    let mut command = script.command(&["--to-new"]);
    command.args([name(b"folder-\xFF/old-\xFF"), name(b"folder-\xFF/out")]);
    assert_eq!(
        said(command.output().unwrap()),
        (Some(0), String::new(), String::new())
    );
    assert_eq!(fs::read(folder.join("out")).unwrap(), new());
    assert_eq!(fs::read_dir(&folder).unwrap().count(), 2);
    fs::remove_dir_all(&folder).unwrap();
    script.nothing_left();
}

/// One line, status 1, and OUT as it was, or not made.
#[test]
fn refusals_of_the_script() {
    let script = Script::new("refused");
    let before = within(&script.at);
    for (words, line) in [
        (
            ["--to-old", "other", "out"],
            "convert: refused 11, record 1\n",
        ),
        (
            ["--to-old", "bad", "out"],
            "convert: refused 10, record 3\n",
        ),
        (
            ["--to-new", "bad", "out"],
            "convert: refused 10, record 1\n",
        ),
    ] {
        assert_eq!(script.run(&words), (Some(1), line.to_string()));
        assert_eq!(within(&script.at), before);
        script.put("out", BEFORE);
        assert_eq!(script.run(&words), (Some(1), line.to_string()));
        assert_eq!(script.get("out"), BEFORE);
        fs::remove_file(script.at.join("out")).unwrap();
        // To standard output, and through a link.
        assert_eq!(script.run(&words[..2]), (Some(1), line.to_string()));
        script.put("file", BEFORE);
        symlink("file", script.at.join("out")).unwrap();
        assert_eq!(script.run(&words), (Some(1), line.to_string()));
        assert_eq!(script.get("file"), BEFORE);
        fs::remove_file(script.at.join("out")).unwrap();
        fs::remove_file(script.at.join("file")).unwrap();
        // Into the file itself.
        let kept = script.get(words[1]);
        assert_eq!(
            script.run(&[words[0], words[1], words[1]]),
            (Some(1), line.to_string())
        );
        assert_eq!(script.get(words[1]), kept);
    }
}

/// Status 2, a message that says what is wrong, and nothing is written.
#[test]
fn misused_or_unreadable() {
    let script = Script::new("misused");
    fs::create_dir(script.at.join("folder")).unwrap();
    let sample = |name: &str| {
        let path = top().join("captures").join(name);
        path.canonicalize().unwrap().to_str().unwrap().to_string()
    };
    let (old_text, new_text) = (sample("whole-case.txt"), sample("new-whole-case.txt"));
    script.put("wrong.txt", b"gap\nsned 3A\n");
    // A device is named by a link: a script that puts something in its place must not reach the device.
    symlink("/dev/full", script.at.join("full")).unwrap();
    let before = within(&script.at);
    for (words, what) in [
        (&[][..], "which way?"),
        (&["old", "out"], "which way?"),
        (&["--to-new"], "which capture?"),
        (&["--to-new", "--to-old", "old", "out"], "told twice"),
        (&["--to-new", "old", "out", "more"], "more than IN and OUT"),
        (&["--newer", "old", "out"], "--newer is no option"),
        (
            &["--to-new", "missing", "out"],
            "missing: there is no such file",
        ),
        (&["--to-new", "folder", "out"], "folder is a folder"),
        (&["--to-new", "old", "folder"], "folder is a folder"),
        (&["--to-new", "old", "folder/"], "names no file"),
        (&["--to-new", "old", ""], "names no file"),
        (
            &["--to-new", "old", "missing/out"],
            "missing/: there is no such folder",
        ),
        (
            &["--to-new", "old", "/proc/out"],
            "/proc/out cannot be written",
        ),
        (
            &["--to-new", "old", "out.txt"],
            "out.txt is the name of a text",
        ),
        (&["--to-new", "wrong.txt", "out"], "wrong.txt:2: "),
        (&["--to-new", &new_text, "out"], "is a text of the new form"),
        (&["--to-old", &old_text, "out"], "is a text of the old form"),
        (&["--to-new", "old", "full"], "could not be written to full"),
    ] {
        let (status, message) = script.run(words);
        assert_eq!(status, Some(2), "{words:?}: {message}");
        assert!(message.contains(what), "{words:?}: {message}");
        assert_eq!(within(&script.at), before);
    }
    // Standard output that takes nothing.
    let mut command = script.command(&["--to-new", "old"]);
    let full = File::options().write(true).open("/dev/full").unwrap();
    let (status, _, message) = said(command.stdout(full).output().unwrap());
    assert_eq!(status, Some(2));
    assert!(message.contains("standard output"), "{message}");
    script.nothing_left();
}

#[test]
fn help() {
    let script = Script::new("help");
    let (status, printed, message) = said(script.command(&["--help"]).output().unwrap());
    assert_eq!((status, &message[..]), (Some(0), ""));
    for word in ["--to-new", "--to-old", "refused 11", "symbolic link"] {
        assert!(printed.contains(word), "{printed}");
    }
}

/// Standard input, pipes and texts are taken as well as files, and standard output where no OUT is named.
#[test]
fn other_inputs_and_outputs() {
    let script = Script::new("inputs");
    let mut command = script.command(&["--to-new", "-", "out"]);
    let file = File::open(script.at.join("old")).unwrap();
    let told = said(command.stdin(file).output().unwrap());
    assert_eq!(told, (Some(0), String::new(), String::new()));
    assert_eq!(script.get("out"), new());
    script.nothing_left();

    for name in ["-", "/dev/stdin"] {
        let mut command = script.command(&["--to-old", name]);
        let mut child = piped(&mut command);
        child.stdin.take().unwrap().write_all(&new()).unwrap();
        let output = child.wait_with_output().unwrap();
        assert_eq!(output.stdout, old());
        assert_eq!(
            (output.status.code(), &output.stderr[..]),
            (Some(0), &[][..])
        );
        script.nothing_left();
    }

    // No standard input at all.
    let convert = script.command(&[]).get_program().to_os_string();
    let told = Command::new("sh")
        .args(["-c", "exec \"$1\" --to-new old closed <&-", "sh"])
        .arg(convert)
        .current_dir(&script.at)
        .env("TMPDIR", &script.room)
        .output()
        .unwrap();
    assert_eq!(said(told), (Some(0), String::new(), String::new()));
    assert_eq!(script.get("closed"), new());

    let made = Command::new("mkfifo").arg(script.at.join("pipe")).status();
    assert!(made.unwrap().success());
    let feeding = thread::spawn({
        let pipe = script.at.join("pipe");
        move || fs::write(pipe, old()).unwrap()
    });
    script.done(&["--to-new", "pipe", "out"]);
    feeding.join().unwrap();
    assert_eq!(script.get("out"), new());

    let text = top()
        .join("captures/whole-case.txt")
        .canonicalize()
        .unwrap();
    let output = script
        .command(&["--to-new", text.to_str().unwrap()])
        .output()
        .unwrap();
    let must = Command::new(top().join("captures/make"))
        .arg(top().join("captures/new-whole-case.txt"))
        .output()
        .unwrap();
    assert!(must.status.success() && must.stdout.len() == 64);
    assert_eq!(output.stdout, must.stdout);
}

fn piped(command: &mut Command) -> Child {
    command
        .stdin(Stdio::piped())
        .stdout(Stdio::piped())
        .stderr(Stdio::piped())
        .spawn()
        .unwrap()
}

/// Links and what is no plain file are written through.
#[test]
fn written_through() {
    let script = Script::new("through");
    script.put("file", BEFORE);
    symlink("file", script.at.join("link")).unwrap();
    symlink("made", script.at.join("dangling")).unwrap();
    script.done(&["--to-new", "old", "link"]);
    assert_eq!(script.get("file"), new());
    script.done(&["--to-new", "old", "dangling"]);
    assert_eq!(script.get("made"), new());
    for name in ["link", "dangling"] {
        assert!(script.at.join(name).is_symlink());
    }
    // Devices too, by a link as well: a script that puts something in its place must not reach the device.
    symlink("/dev/null", script.at.join("null")).unwrap();
    symlink("/dev/stdout", script.at.join("stdout")).unwrap();
    script.done(&["--to-old", "new", "null"]);
    let output = script
        .command(&["--to-old", "new", "stdout"])
        .output()
        .unwrap();
    assert_eq!(output.stdout, old());
    let made = Command::new("mkfifo").arg(script.at.join("pipe")).status();
    assert!(made.unwrap().success());
    let reading = thread::spawn({
        let pipe = script.at.join("pipe");
        move || fs::read(pipe).unwrap()
    });
    script.done(&["--to-new", "old", "pipe"]);
    assert_eq!(reading.join().unwrap(), new());
    let kind = fs::symlink_metadata(script.at.join("pipe")).unwrap();
    assert!(!kind.is_file());
}

/// A new file has the permissions of the caller's new files; one that was there keeps its own, and so does what a link names.
#[test]
fn permissions() {
    let script = Script::new("permissions");
    let mode = |name: &str| {
        let data = fs::metadata(script.at.join(name)).unwrap();
        data.permissions().mode() & 0o7777
    };
    let with_umask = |umask: &str, out: &str| {
        let convert = script.command(&[]).get_program().to_os_string();
        let status = Command::new("sh")
            .args([
                "-c",
                "umask \"$1\" && exec \"$2\" --to-new old \"$3\"",
                "sh",
            ])
            .arg(umask)
            .arg(convert)
            .arg(out)
            .current_dir(&script.at)
            .env("TMPDIR", &script.room)
            .stdin(Stdio::null())
            .status();
        assert!(status.unwrap().success());
    };
    for (umask, must) in [
        ("022", 0o644),
        ("027", 0o640),
        ("077", 0o600),
        ("000", 0o666),
    ] {
        let out = format!("out-{umask}");
        with_umask(umask, &out);
        assert_eq!(mode(&out), must, "umask {umask}");
    }
    for kept in [0o600, 0o640, 0o664, 0o755] {
        fs::set_permissions(script.at.join("out-022"), fs::Permissions::from_mode(kept)).unwrap();
        with_umask("022", "out-022");
        assert_eq!(mode("out-022"), kept);
        assert_eq!(script.get("out-022"), new());
    }
}

fn stop(child: &Child) {
    let stopped = Command::new("kill")
        .args(["-TERM", &child.id().to_string()])
        .status();
    assert!(stopped.unwrap().success());
}

/// However late a signal to the script comes, OUT is as it was, or whole, and nothing else is left; and the script ends soon, also where it waits for its input.
#[test]
fn stopped_by_a_signal() {
    let script = Script::new("stopped");
    let capture = old().repeat(100_000);
    let must = converted(Form::Old, &capture).unwrap();
    script.put("long", &capture);
    let (mut finished, mut stopped) = (0, 0);
    // The last is longer than it takes, and is not waited for.
    for wait in [2, 10, 20, 40, 60, 80, 100, 150, 200, 300, 60_000] {
        script.put("out", BEFORE);
        let mut child = piped(&mut script.command(&["--to-new", "long", "out"]));
        let began = Instant::now();
        while began.elapsed() < Duration::from_millis(wait) && child.try_wait().unwrap().is_none() {
            thread::sleep(Duration::from_millis(1));
        }
        let whole = match child.try_wait().unwrap() {
            Some(status) => status.success(),
            None => {
                stop(&child);
                child.wait().unwrap().success()
            }
        };
        finished += u64::from(whole);
        stopped += u64::from(!whole);
        let left = script.get("out");
        assert!(left == BEFORE && !whole || left == must, "after {wait} ms");
        script.nothing_left();
    }
    assert!(finished > 0 && stopped > 0, "{finished}, {stopped}");

    // While it cleans up, OUT being in place.
    for wait in (0..60).map(|step| step * 40) {
        fs::remove_file(script.at.join("out")).unwrap();
        let mut child = piped(&mut script.command(&["--to-new", "old", "out"]));
        let began = Instant::now();
        while !script.at.join("out").exists() && began.elapsed() < Duration::from_secs(30) {}
        thread::sleep(Duration::from_micros(wait));
        stop(&child);
        child.wait().unwrap();
        assert_eq!(script.get("out"), new());
        script.nothing_left();
    }

    // Standard input that never ends.
    let mut child = piped(&mut script.command(&["--to-new", "-", "out"]));
    let mut input = child.stdin.take().unwrap();
    input.write_all(&old()).unwrap();
    while within(&script.room).is_empty() && child.try_wait().unwrap().is_none() {
        thread::sleep(Duration::from_millis(1));
    }
    thread::sleep(Duration::from_millis(50));
    stop(&child);
    let began = Instant::now();
    while child.try_wait().unwrap().is_none() && began.elapsed() < Duration::from_secs(30) {
        thread::sleep(Duration::from_millis(1));
    }
    let ended = child.try_wait().unwrap();
    drop(input);
    assert_eq!(ended.map(|status| status.code()), Some(Some(2)));
    script.nothing_left();
}
