//! Which fault, and at which byte (02 §4): what the chip tells of a bad frame, and what a failed job names of an unreadable answer. A fault is its number and its
//! place: 1 footer, 2 SUM, 3 LEN, 4 first byte; 0 and 0 where there is none. All of them are written down from the document.

mod common;

use std::process::Command;

use common::flow::signature_of;
use common::*;
use twin::capture::{judge_record, Form, RECORD};
use twin::chip::{Event, Phase};
use twin::dock::{answer, ask, start, timeout};
use twin::dock::{Cause, Failure, Job, Stage, State};
use twin::frame::{read_reply, Fault};
use twin::replay::{events, hex_line, replay_part, Player};

const NONE: (u8, u16) = (0, 0);
const LEN: (u8, u16) = (3, 1);
const FIRST: (u8, u16) = (4, 0);

#[test]
fn numbers_and_places() {
    for (fault, number, place) in [
        (Fault::Footer(4), 1, 4),
        (Fault::Footer(259), 1, 259),
        (Fault::Sum(3), 2, 3),
        (Fault::Sum(258), 2, 258),
        (Fault::Len, 3, 1),
        (Fault::First, 4, 0),
    ] {
        assert_eq!((fault.number(), fault.place()), (number, place));
    }
}

// The chip: footer, SUM, (04h), LEN

/// Of a frame with so many bytes after LEN: SUM's place and the footer's.
const PLACES: [(usize, u16, u16); 7] = [
    (1, 3, 4),
    (2, 4, 5),
    (4, 6, 7),
    (8, 10, 11),
    (254, 256, 257),
    (255, 257, 258),
    (256, 258, 259),
];

/// Every phase that awaits a frame: header, the footer that it asks for, and whether a bad frame gets two statuses.
fn awaited() -> Vec<(Phase, u8, u8, bool)> {
    vec![
        (Phase::Setup, 0x01, 0x03, false),
        (Phase::Ready, 0x01, 0x03, false),
        (awaiting(0x40, 0x100, 0x3FF, false), 0x02, 0x17, true),
        (awaiting(0x40, 0x300, 0x3FF, false), 0x02, 0x03, true),
        (awaiting(0x13, 0x100, 0x3FF, true), 0x02, 0x17, true),
        (awaiting(0x13, 0xF1300, 0xF13FF, false), 0x02, 0x03, true),
        (awaiting(0xA0, 0, 0, false), 0x02, 0x03, false),
    ]
}

fn standing(phase: Phase) -> Bench {
    let mut bench = Bench::ready();
    bench.chip.phase = phase;
    bench
}

#[test]
fn wrong_footer_and_wrong_sum_at_every_place() {
    for (phase, header, footer, pages) in awaited() {
        for (length, sum_place, footer_place) in PLACES {
            // 55h is no command, so a command frame that is only odd in this has no fault.
            let mut body = mixed(5)[..length].to_vec();
            body[0] = 0x55;
            let good = frame(header, &body, footer);
            let size = good.len();
            let said = |code: u8| {
                if pages {
                    pair(code, code)
                } else {
                    status(code)
                }
            };
            for other in (0..=255).filter(|other| *other != footer) {
                let mut bad = good.clone();
                bad[size - 1] = other;
                let told = standing(phase).say_judged(&bad);
                assert_eq!(told, (said(0x15), (1, footer_place)), "{phase:?} {other}");
                // The footer is judged before SUM.
                bad[size - 2] ^= 0x10;
                let told = standing(phase).say_judged(&bad);
                assert_eq!(told, (said(0x15), (1, footer_place)), "{phase:?} {other}");
            }
            for flip in 1..=255 {
                let mut bad = good.clone();
                bad[size - 2] ^= flip;
                let told = standing(phase).say_judged(&bad);
                assert_eq!(told, (said(0x07), (2, sum_place)), "{phase:?} {flip}");
            }
        }
    }
}

/// COM and the LEN that 01 gives it.
const COMMANDS: [(u8, usize); 11] = [
    (0x9A, 3),
    (0x00, 1),
    (0x22, 4),
    (0x32, 8),
    (0x40, 7),
    (0x13, 7),
    (0xB0, 7),
    (0xC0, 1),
    (0xA1, 1),
    (0xA0, 1),
    (0xA2, 1),
];

fn command_of(com: u8, length: usize) -> Vec<u8> {
    let mut body = vec![0x00; length];
    body[0] = com;
    frame(0x01, &body, 0x03)
}

#[test]
fn a_command_of_unfit_len() {
    for (com, fit) in COMMANDS {
        let phase = match com {
            0x9A => Phase::Setup,
            _ => Phase::Ready,
        };
        for length in (1..=256).filter(|length| *length != fit) {
            let told = standing(phase).say_judged(&command_of(com, length));
            assert_eq!(told, (status(0x15), LEN), "{com:02X} of {length}");
        }
        let (_, fault) = standing(phase).say_judged(&command_of(com, fit));
        assert_eq!(fault, NONE, "{com:02X}");
    }
}

/// 04h is judged before LEN: such a frame has no fault, whatever its LEN.
#[test]
fn an_unknown_command_or_one_not_allowed_has_no_fault() {
    for length in [1, 2, 3, 4, 7, 8, 9, 255, 256] {
        for com in 0..=255 {
            let known = COMMANDS.iter().any(|(other, _)| *other == com);
            for phase in [Phase::Setup, Phase::Ready] {
                let allowed = known && (com == 0x9A) == (phase == Phase::Setup);
                if !allowed {
                    let told = standing(phase).say_judged(&command_of(com, length));
                    assert_eq!(told, (status(0x04), NONE), "{com:02X} of {length}");
                }
            }
        }
    }
}

#[test]
fn a_data_frame_of_unfit_len() {
    for (phase, header, footer, pages) in awaited().split_off(2) {
        let (fit, said) = match pages {
            true => (256, pair(0x15, 0x15)),
            false => (8, status(0x15)),
        };
        for length in (1..=256).filter(|length| *length != fit) {
            let told = standing(phase).say_judged(&frame(header, &mixed(3)[..length], footer));
            assert_eq!(told, (said.clone(), LEN), "{phase:?} of {length}");
        }
    }
}

/// The frames of 000 and 003 whose answers are printed or worked out, with what is now told beside them.
#[test]
fn vectors() {
    for (bytes, code, fault) in [
        ("01 01 00 00 00", 0x15, (1, 4)),
        ("01 01 55 00 03", 0x07, (2, 3)),
        ("01 01 55 00 17", 0x15, (1, 4)),
        ("01 02 00 00 FE 03", 0x15, LEN),
        ("01 02 00 00 00 03", 0x07, (2, 4)),
        ("01 02 00 00 FE 17", 0x15, (1, 5)),
        ("01 02 9A 00 64 03", 0x04, NONE),
        ("01 02 55 01 A8 03", 0x04, NONE),
        ("01 03 22 01 00 DA 03", 0x15, LEN),
        ("01 04 22 01 04 00 D5 03", 0x05, NONE),
        ("01 04 22 00 04 00 D6 03", 0x06, NONE),
        ("01 04 22 00 04 00 D6 17", 0x15, (1, 7)),
        ("01 04 22 00 04 00 D5 03", 0x07, (2, 6)),
        ("01 07 B0 01 01 00 FF 03 00 45 03", 0x05, NONE),
    ] {
        let told = Bench::ready().say_judged(&hex(bytes));
        assert_eq!(told, (status(code), fault), "{bytes}");
    }
    let (good_sum, bad_sum) = ("02 04 FF 80 40 22 1B 03", "02 04 FF 80 40 22 1A 03");
    for (com, next, bytes, code, fault) in [
        (0xA0, 0x000, bad_sum, 0x07, (2, 6)),
        (0xA0, 0x000, good_sum, 0x15, LEN),
        (0x40, 0x100, bad_sum, 0x15, (1, 7)),
        (0x40, 0x100, good_sum, 0x15, (1, 7)),
        (0x13, 0x300, bad_sum, 0x07, (2, 6)),
        (0x13, 0x300, good_sum, 0x15, LEN),
        (0x40, 0x100, "02 01 00 FF FF", 0x15, (1, 4)),
        (0xA0, 0x000, "02 01 00 FF FF", 0x15, (1, 4)),
    ] {
        let said = match com {
            0xA0 => status(code),
            _ => pair(code, code),
        };
        let told = Bench::awaiting(com, next, 0x3FF).say_judged(&hex(bytes));
        assert_eq!(told, (said, fault), "{com:02X} {next:03X} {bytes}");
    }
}

/// "either footer accepted on any page": the footer of the other kind of page is the footer's fault, and 259 is its place.
#[test]
fn the_other_footer_on_a_page() {
    for com in [0x40, 0x13] {
        for (next, wrong) in [(0x000, 0x03), (0x100, 0x03), (0x200, 0x03), (0x300, 0x17)] {
            let told = Bench::awaiting(com, next, 0x3FF).say_judged(&page(&ramp(), wrong));
            assert_eq!(told, (pair(0x15, 0x15), (1, 259)));
        }
    }
}

/// Statuses that answer a frame without fault: 05h, 06h, 0Fh, 10h, 1Bh, 1Ch.
#[test]
fn other_statuses_have_no_fault() {
    let mut bench = Bench::ready();
    bench.code[0x400] = 0x00;
    bench.chip.options.flags = 0xE9;
    for (body, code) in [
        ("22 01 00 00", 0x05),
        ("22 00 04 00", 0x10),
        ("32 00 04 00 FF 07 00 00", 0x1B),
        ("32 00 00 00 FF 03 00 00", 0x06),
        ("40 00 04 00 FF 07 00", 0x10),
        ("A2", 0x10),
        ("00", 0x06),
    ] {
        let told = bench.say_judged(&command(body));
        assert_eq!(told, (status(code), NONE), "{body}");
    }
    let said = bench.say_judged(&command("A1"));
    assert_eq!((said.0.len(), said.1), (2, NONE));
    let mut written = Bench::awaiting(0x40, 0x400, 0x7FF);
    written.code[0x400] = 0x00;
    let told = written.say_judged(&page(&mixed(1), 0x17));
    assert_eq!(told, (pair(0x06, 0x1C), NONE));
    let told = Bench::awaiting(0x40, 0x300, 0x3FF).say_judged(&page(&mixed(1), 0x03));
    assert_eq!(told, ([pair(0x06, 0x06), status(0x06)].concat(), NONE));
    let told = Bench::awaiting(0x13, 0x300, 0x3FF).say_judged(&page(&mixed(1), 0x03));
    assert_eq!(told, (pair(0x06, 0x0F), NONE));
    for (data, code) in [
        ("02 08 FF 03 00 00 0F 00 FF FF E9 03", 0x06),
        ("02 08 7F 03 00 00 0F 00 FF FF 69 03", 0x05),
    ] {
        let told = Bench::awaiting(0xA0, 0, 0).say_judged(&hex(data));
        assert_eq!(told, (status(code), NONE));
    }
    let mut banned = Bench::awaiting(0xA0, 0, 0);
    banned.chip.options.flags = 0xEF;
    let told = banned.say_judged(&hex("02 08 FF 03 00 00 0F 00 FF FF E9 03"));
    assert_eq!(told, (status(0x10), NONE));
}

#[test]
fn bytes_that_complete_nothing_gaps_and_power_on_have_no_fault() {
    let bad = page(&ramp(), 0x03);
    let mut bench = Bench::awaiting(0x40, 0x000, 0x3FF);
    for byte in [&[0x01, 0x00, 0x17, 0x03][..], &bad[..259]].concat() {
        assert_eq!(bench.judged(Event::Byte(byte)), (Vec::new(), None));
    }
    assert_eq!(bench.chip.count, 259);
    for event in [Event::Gap, Event::Gap, Event::PowerOn] {
        assert_eq!(bench.judged(event), (Vec::new(), None));
    }
    for byte in [0x55, 0x3A, 0x00, 0x01] {
        assert_eq!(bench.judged(Event::Byte(byte)), (Vec::new(), None));
    }
    // The fault is told with its own frame, and not again.
    let mut bench = Bench::ready();
    assert_eq!(bench.say_judged(&hex("01 01 00 FE 03")).1, (2, 3));
    assert_eq!(bench.judged(Event::Gap), (Vec::new(), None));
    assert_eq!(bench.say_judged(&command("00")), (status(0x06), NONE));
}

// Replies: first byte, LEN, footer, SUM

/// "a missing or wrong first byte is a fourth fault at place 0, judged first; a frame cut short, overlong or without LEN is an unfit LEN, judged second"
#[test]
fn a_reply_frame_of_every_length() {
    let told = |bytes: &[u8], length: usize, last: bool| {
        let read = read_reply(bytes, length, last);
        if let Ok((body, rest)) = read {
            assert_eq!(*body, bytes[2..2 + length]);
            assert_eq!(*rest, bytes[4 + length..]);
        }
        in_numbers(read.err())
    };
    for (length, sum_place, footer_place) in PLACES {
        let good = frame(0x02, &mixed(2)[..length], 0x03);
        let (sum, footer) = (length + 2, length + 3);
        let changed = |places: &[usize]| {
            let mut bytes = good.clone();
            places.iter().for_each(|place| bytes[*place] ^= 0x14);
            bytes
        };
        let longer = |bytes: &[u8]| [bytes, &[0x02]].concat();
        for last in [false, true] {
            for (bytes, fault) in [
                (good.clone(), NONE),
                (Vec::new(), FIRST),
                (changed(&[0]), FIRST),
                (vec![0x02], LEN),
                (changed(&[1]), LEN),
                (changed(&[2]), (2, sum_place)),
                (changed(&[sum]), (2, sum_place)),
                (changed(&[footer]), (1, footer_place)),
                // Two at once.
                (changed(&[0, 1]), FIRST),
                (changed(&[0, footer]), FIRST),
                (changed(&[0])[..footer].to_vec(), FIRST),
                (changed(&[1, footer]), LEN),
                (changed(&[1, sum]), LEN),
                (changed(&[sum, footer]), (1, footer_place)),
                (changed(&[2, footer]), (1, footer_place)),
                (changed(&[sum])[..footer].to_vec(), LEN),
                (longer(&changed(&[0])), FIRST),
            ] {
                assert_eq!(told(&bytes, length, last), fault, "{length} {bytes:02X?}");
            }
            for cut in 1..good.len() {
                assert_eq!(told(&good[..cut], length, last), LEN, "{length} {cut}");
            }
            for expected in [1, 2, 3, 22, 256] {
                if expected != length {
                    assert_eq!(told(&good, expected, last), LEN, "{length} {expected}");
                }
            }
        }
        // What follows the last frame makes it overlong, whatever else is wrong behind LEN; what follows another is the next.
        for (bytes, alone) in [
            (good.clone(), NONE),
            (changed(&[sum]), (2, sum_place)),
            (changed(&[footer]), (1, footer_place)),
            (changed(&[sum, footer]), (1, footer_place)),
        ] {
            assert_eq!(told(&longer(&bytes), length, true), LEN);
            assert_eq!(told(&longer(&bytes), length, false), alone);
        }
    }
}

/// One block of the part of 01's examples.
fn job() -> Job {
    Job {
        part: replay_part(),
        start: 0x400,
        end: 0x7FF,
        rate: 0,
        supply: 33,
        retries: 1,
    }
}

fn image() -> Vec<u8> {
    (0..4).flat_map(mixed).collect()
}

/// What the job names when it stands at this stage and hears this, or nothing in time.
fn failure(stage: Stage, heard: Option<&[u8]>) -> Option<Failure> {
    let image = image();
    let mut state = start(&job(), &image).unwrap();
    state.stage = stage;
    ask(&job(), &image, &mut state, &mut [0; 260]).unwrap();
    let report = match heard {
        Some(bytes) => answer(&job(), &image, &mut state, bytes),
        None => timeout(&job(), &image, &mut state),
    };
    report.unwrap();
    match state.stage {
        Stage::Failed(failure) => Some(failure),
        _ => None,
    }
}

fn unreadable(stage: Stage, heard: &[u8]) -> (u8, u16) {
    let failure = failure(stage, Some(heard)).unwrap_or_else(|| panic!("{heard:02X?} is read"));
    assert_eq!((failure.cause, failure.status), (Cause::Unreadable, 0x00));
    in_numbers(failure.fault)
}

const ERASE: Stage = Stage::Erase { block: 0 };
const PAGE: Stage = Stage::VerifyPage { block: 0, page: 3 };
const MIDDLE_PAGE: Stage = Stage::ProgramPage { block: 0, page: 2 };
const LAST_PAGE: Stage = Stage::ProgramPage { block: 0, page: 3 };

#[test]
fn one_status_damaged() {
    for (heard, fault) in [
        ("", FIRST),
        ("06", FIRST),
        ("01", FIRST),
        ("01 01 06 F9 03", FIRST),
        ("12 01 06 F9 03", FIRST),
        ("01 06 F9 03", FIRST),
        ("00 02 01 06 F9 03", FIRST),
        ("02", LEN),
        ("02 01", LEN),
        ("02 01 06", LEN),
        ("02 01 06 F9", LEN),
        ("02 06 F9 03", LEN),
        ("02 00 06 F9 03", LEN),
        ("02 02 06 F9 03", LEN),
        ("02 03 06 F9 03", LEN),
        ("02 02 06 06 F2 03", LEN),
        ("02 02 01 06 F9 03", LEN),
        ("02 01 06 F9 03 00", LEN),
        ("02 01 06 F9 03 03", LEN),
        ("02 01 06 F9 03 02 01 06 F9 03", LEN),
        ("02 01 06 F9 17", (1, 4)),
        ("02 01 06 F9 00", (1, 4)),
        ("02 01 06 F9 02", (1, 4)),
        ("02 01 06 F8 03", (2, 3)),
        ("02 01 06 07 03", (2, 3)),
        ("02 01 07 F9 03", (2, 3)),
        // Two at once: first byte, LEN, footer, SUM.
        ("01 02 06 F8 17", FIRST),
        ("01 01 06 F8 03", FIRST),
        ("00 01", FIRST),
        ("02 02 06 F8 03", LEN),
        ("02 02 06 F9 17", LEN),
        ("02 01 06 F8", LEN),
        ("02 01 06 F8 03 00", LEN),
        ("02 01 06 F9 17 00", LEN),
        ("02 01 06 F8 17 00", LEN),
        ("02 01 06 F8 17", (1, 4)),
        ("02 01 07 F9 17", (1, 4)),
    ] {
        for stage in [Stage::Reset, ERASE, Stage::Verify { block: 0 }] {
            assert_eq!(unreadable(stage, &hex(heard)), fault, "{stage:?} {heard}");
        }
    }
}

/// 9Ah: three bytes if the first is 06h, as it lies there, else one.
#[test]
fn the_answer_to_9ah_damaged() {
    for (heard, fault) in [
        ("", FIRST),
        ("03 03 06 20 00 D7 03", FIRST),
        ("02", LEN),
        ("02 03", LEN),
        ("02 03 06", LEN),
        ("02 03 06 20 00 D7", LEN),
        ("02 01 06 F9 03", LEN),
        ("02 02 06 20 D8 03", LEN),
        ("02 13 06 20 00 D7 03", LEN),
        ("02 03 06 20 00 D7 03 00", LEN),
        ("02 03 06 20 00 D6 03 00", LEN),
        ("02 03 06 20 00 D7 17", (1, 6)),
        ("02 03 06 20 00 D6 17", (1, 6)),
        ("02 03 06 20 00 D6 03", (2, 5)),
        ("02 03 06 21 00 D7 03", (2, 5)),
        ("02 03 06 20 01 D7 03", (2, 5)),
        // The first byte is not 06h: three are too many.
        ("02 03 07 20 00 D7 03", LEN),
        ("02 03 05 20 00 D8 03", LEN),
        ("02 01 05 FA 17", (1, 4)),
        ("02 01 05 FB 03", (2, 3)),
        ("02 01 05 FA 03 00", LEN),
        ("02 01 05 FA", LEN),
        // One byte of a refusal became 06h: one is too few.
        ("02 01 06 FA 03", LEN),
    ] {
        assert_eq!(unreadable(Stage::Rate, &hex(heard)), fault, "{heard}");
    }
}

/// C0h: a frame of one byte, and if that is 06h, as it lies there, one of 22, whose places count from its own header.
#[test]
fn the_answer_to_c0h_damaged() {
    let first = hex("02 01 06 F9 03");
    let second =
        hex("02 16 10 00 06 52 35 46 31 30 30 4C 45 20 20 FF 3F 00 FF 1F 0F 01 02 03 34 03");
    assert_eq!(second, page(&signature_of(&job()), 0x03));
    assert_eq!(second.len(), 26);
    let with = |place: usize, byte: u8| {
        let mut other = second.clone();
        other[place] = byte;
        other
    };
    let both = |first: &str, second: &[u8]| [&hex(first), second].concat();
    let right = "02 01 06 F9 03";
    for (heard, fault) in [
        (Vec::new(), FIRST),
        (first.clone(), FIRST),
        (both(right, &with(0, 0x01)), FIRST),
        (both(right, &second[1..]), FIRST),
        (both(right, &[&[0x00], &second[..]].concat()), FIRST),
        (both(right, &[0x02]), LEN),
        (both(right, &second[..25]), LEN),
        (both(right, &second[..10]), LEN),
        (both(right, &with(1, 0x15)), LEN),
        (both(right, &with(1, 0x00)), LEN),
        (both(right, &first), LEN),
        (both(right, &[&second[..], &[0x00]].concat()), LEN),
        (both(right, &[&with(24, 0x35)[..], &[0x00]].concat()), LEN),
        (both(right, &with(25, 0x17)), (1, 25)),
        (both(right, &with(24, 0x35)), (2, 24)),
        (both(right, &with(2, 0x11)), (2, 24)),
        (both(right, &with(23, 0x04)), (2, 24)),
        // The first faulty frame decides.
        (both("02 01 06 F8 03", &second), (2, 3)),
        (both("02 01 06 F9 17", &second), (1, 4)),
        (both("01 01 06 F9 03", &second), FIRST),
        (both("02 02 06 F9 03", &second), LEN),
        (both("02 01 06 F8 03", &with(25, 0x17)), (2, 3)),
        (both("02 01 06 F9 17", &with(0, 0x00)), (1, 4)),
        (both("02 01 06 F8 03", &second[..25]), (2, 3)),
        (hex("02 01 06 F9 17"), (1, 4)),
        (hex("02 01 06 F8 03"), (2, 3)),
        (hex("02 01 06 F9"), LEN),
        // Whatever followed the first frame, if its 06h became 07h one frame is expected, and the rest trails it.
        (both("02 01 07 F9 03", &second), LEN),
        (both("02 01 07 F8 03", &second), LEN),
        (both("02 01 04 FB 03", &second), LEN),
        (both("02 01 04 FB 03", &[0x00]), LEN),
        (hex("02 01 07 F9 03"), (2, 3)),
        // The second alone: byte 2 is not 06h, so one byte is expected.
        (second.clone(), LEN),
    ] {
        assert_eq!(unreadable(Stage::Signature, &heard), fault, "{heard:02X?}");
    }
}

#[test]
fn the_answer_to_a_page_damaged() {
    for (heard, fault) in [
        ("", FIRST),
        ("17 02 06 06 F2 03", FIRST),
        ("02", LEN),
        ("02 02 06 06 F2", LEN),
        ("02 01 06 F9 03", LEN),
        ("02 03 06 06 F2 03", LEN),
        ("02 02 06 06 F2 03 02 01 06 F9 04", LEN),
        ("02 02 15 15 D4 03 00", LEN),
        ("02 02 15 15 D5 03 00", LEN),
        ("02 02 06 06 F2 17", (1, 5)),
        ("02 02 06 06 F3 17", (1, 5)),
        ("02 02 06 06 F3 03", (2, 4)),
        ("02 02 06 07 F2 03", (2, 4)),
        ("02 02 15 15 D5 03", (2, 4)),
    ] {
        for stage in [PAGE, MIDDLE_PAGE] {
            assert_eq!(unreadable(stage, &hex(heard)), fault, "{stage:?} {heard}");
        }
    }
    // 40h's last page: behind 06h 06h one more frame of one byte, and behind anything else none.
    for (heard, fault) in [
        ("02 02 06 06 F2 03", FIRST),
        ("02 02 06 06 F2 03 01 01 06 F9 03", FIRST),
        ("02 02 06 06 F2 03 01 06 F9 03", FIRST),
        ("02 02 06 06 F2 03 02", LEN),
        ("02 02 06 06 F2 03 02 02 06 F9 03", LEN),
        ("02 02 06 06 F2 03 02 01 06 F9", LEN),
        ("02 02 06 06 F2 03 02 01 06 F9 03 00", LEN),
        ("02 02 06 06 F2 03 02 01 06 F8 03 00", LEN),
        ("02 02 06 06 F2 03 02 01 06 F9 17", (1, 4)),
        ("02 02 06 06 F2 03 02 01 06 F8 17", (1, 4)),
        ("02 02 06 06 F2 03 02 01 06 F8 03", (2, 3)),
        ("02 02 06 06 F2 03 02 01 16 F9 03", (2, 3)),
        ("02 02 06 06 F2 17 02 01 06 F9 03", (1, 5)),
        ("02 02 06 06 F3 03 02 01 06 F9 03", (2, 4)),
        ("02 02 06 06 F3 03", (2, 4)),
        ("02 02 06 06 F2 17 01", (1, 5)),
        ("02 01 06 06 F2 03 02 01 06 F9 03", LEN),
        ("02 02 06 06 F2", LEN),
        ("02 02 06 06", LEN),
        ("02 02 06", LEN),
        ("02 02 07 06 F2 03 02 01 06 F9 03", LEN),
        ("02 02 06 07 F2 03 02 01 06 F9 03", LEN),
        ("02 02 06 07 F1 03 02 01 06 F9 03", LEN),
        ("02 02 06 1C DC 03 00", LEN),
        ("02 02 06 1C DD 03", (2, 4)),
        ("02 02 06 1C DC 17", (1, 5)),
        ("", FIRST),
    ] {
        assert_eq!(unreadable(LAST_PAGE, &hex(heard)), fault, "{heard}");
    }
}

/// A right answer with one byte changed to every other value, by the place it has in its frame.
#[test]
fn one_byte_of_a_right_answer_changed() {
    let signature = signature_of(&job());
    // The frames of each answer, and its bytes that decide which frames are expected.
    type Case<'a> = (Stage, Vec<&'a [u8]>, &'a [usize]);
    let cases: [Case; 7] = [
        (Stage::Rate, vec![&[0x06, 0x20, 0x00]], &[2]),
        (Stage::Reset, vec![&[0x06]], &[]),
        (Stage::Signature, vec![&[0x06], &signature], &[2]),
        (ERASE, vec![&[0x06]], &[]),
        (MIDDLE_PAGE, vec![&[0x06, 0x06]], &[]),
        (LAST_PAGE, vec![&[0x06, 0x06], &[0x06]], &[2, 3]),
        (PAGE, vec![&[0x06, 0x06]], &[]),
    ];
    for (stage, frames, deciding) in cases {
        let right: Vec<u8> = frames.iter().flat_map(|data| page(data, 0x03)).collect();
        assert_eq!(failure(stage, Some(&right)), None);
        let mut header = 0;
        for data in frames {
            let (sum, footer) = (data.len() + 2, data.len() + 3);
            for place in 0..=footer {
                let at = header + place;
                let fault = match place {
                    0 => FIRST,
                    1 => LEN,
                    _ if deciding.contains(&at) => LEN,
                    _ if place == footer => (1, footer as u16),
                    _ => (2, sum as u16),
                };
                for flip in 1..=255 {
                    let mut heard = right.clone();
                    heard[at] ^= flip;
                    assert_eq!(unreadable(stage, &heard), fault, "{stage:?} {heard:02X?}");
                }
            }
            header += footer + 1;
        }
        // Cut short within a frame it is LEN, between two the next one's first byte; one byte more trails the last.
        let between: Vec<usize> = match stage {
            Stage::Signature => vec![0, 5],
            LAST_PAGE => vec![0, 6],
            _ => vec![0],
        };
        for cut in 0..right.len() {
            let fault = if between.contains(&cut) { FIRST } else { LEN };
            assert_eq!(unreadable(stage, &right[..cut]), fault, "{stage:?} {cut}");
        }
        for more in 0..=255 {
            assert_eq!(unreadable(stage, &[&right[..], &[more]].concat()), LEN);
        }
    }
}

#[test]
fn status_mismatch_and_timeout_name_no_fault() {
    let signature = signature_of(&job());
    let mut other = signature.clone();
    other[0] ^= 1;
    let mismatch = [page(&[0x06], 0x03), page(&other, 0x03)].concat();
    for (stage, heard, cause) in [
        (ERASE, Some(page(&[0x10], 0x03)), Cause::Status),
        (PAGE, Some(page(&[0x06, 0x0F], 0x03)), Cause::Status),
        (Stage::Rate, Some(page(&[0x05], 0x03)), Cause::Status),
        (
            Stage::Rate,
            Some(page(&[0x06, 0x21, 0x00], 0x03)),
            Cause::Mismatch,
        ),
        (Stage::Signature, Some(mismatch), Cause::Mismatch),
        (Stage::Signature, None, Cause::Timeout),
        (LAST_PAGE, None, Cause::Timeout),
    ] {
        let failure = failure(stage, heard.as_deref()).unwrap();
        assert_eq!((failure.cause, failure.fault), (cause, None), "{stage:?}");
    }
    // 15h with no retry left is a status too.
    let image = image();
    let mut state = start(&job(), &image).unwrap();
    state.stage = ERASE;
    state.awaited = true;
    state.retries = 1;
    answer(&job(), &image, &mut state, &page(&[0x15], 0x03)).unwrap();
    let Stage::Failed(failure) = state.stage else {
        panic!("{state:?}");
    };
    assert_eq!((failure.cause, failure.fault), (Cause::Status, None));
}

/// What a failure names need not fit together: such a state is refused with 8, as every job that is over, not with 9.
#[test]
fn a_fault_beside_another_cause_is_handed_in() {
    let image = image();
    for cause in [
        Cause::Status,
        Cause::Mismatch,
        Cause::Unreadable,
        Cause::Timeout,
    ] {
        for fault in [
            None,
            Some(Fault::Footer(0)),
            Some(Fault::Footer(u16::MAX)),
            Some(Fault::Sum(0)),
            Some(Fault::Sum(u16::MAX)),
            Some(Fault::Len),
            Some(Fault::First),
        ] {
            let mut state = State {
                stage: Stage::Failed(Failure {
                    cause,
                    command: 0x40,
                    page: None,
                    status: 0x06,
                    block: None,
                    fault,
                }),
                awaited: false,
                retries: 0,
                frames: 0,
            };
            let kept = state;
            let asked = ask(&job(), &image, &mut state, &mut [0; 260]);
            assert_eq!((asked, state), (Err(8), kept));
            assert_eq!(timeout(&job(), &image, &mut state), Err(8));
            assert_eq!(answer(&job(), &image, &mut state, &[]), Err(8));
        }
    }
}

/// A job on the twin's own chip whose answers the line damages: the fault is named, with the frame.
#[test]
fn a_rehearsed_job_names_the_fault() {
    for (spoiled, place, fault) in [
        // 9Ah's answer: SUM, footer.
        (0, 5, (2, 5)),
        (0, 6, (1, 6)),
        // C0h's second frame begins at byte 5.
        (2, 5, FIRST),
        (2, 6, LEN),
        (2, 29, (2, 24)),
        (2, 30, (1, 25)),
        // 32h.
        (3, 0, FIRST),
        (3, 4, (1, 4)),
    ] {
        let image = image();
        let mut bench = Bench::fresh(replay_part());
        bench.event(Event::Byte(0x3A));
        let mut state = start(&job(), &image).unwrap();
        for number in 0..=spoiled {
            let mut room = [0; 260];
            let length = ask(&job(), &image, &mut state, &mut room).unwrap();
            bench.gap();
            let mut heard = bench.say(&room[..length]).concat();
            if number == spoiled {
                heard[place] ^= 0x80;
            }
            answer(&job(), &image, &mut state, &heard).unwrap();
        }
        let Stage::Failed(failure) = state.stage else {
            panic!("{state:?}");
        };
        assert_eq!(failure.cause, Cause::Unreadable);
        assert_eq!(in_numbers(failure.fault), fault, "frame {spoiled}");
        assert_eq!(failure.command, [0x9A, 0x00, 0xC0, 0x32][spoiled]);
    }
}

// The example: examples/faults.c and examples/faults.rs

const EXPECTED: &str = concat!(env!("CARGO_MANIFEST_DIR"), "/../examples/faults.stdout");

fn in_words((number, place): (u8, u16)) -> String {
    let words = [
        "wrong footer",
        "wrong SUM",
        "unfit LEN",
        "first byte missing or not 02h",
    ];
    match number {
        0 => String::new(),
        number => format!(", {} (byte {place})", words[usize::from(number) - 1]),
    }
}

/// The first twelve bytes.
fn shown(bytes: &[u8]) -> String {
    let more = if bytes.len() > 12 { " .." } else { "" };
    hex_line(&bytes[..bytes.len().min(12)]) + more
}

/// A frame to the chip, and what is said and told.
fn line(bench: &mut Bench, sent: &[u8]) -> String {
    bench.gap();
    let (said, fault) = bench.say_judged(sent);
    let said = hex_line(&said.concat());
    format!("{} -> {said}{}\n", shown(sent), in_words(fault))
}

#[test]
fn the_example_prints_what_is_written_down() {
    let mut bench = Bench::fresh(replay_part());
    bench.event(Event::Byte(0x3A));
    let mut text = String::new();
    for sent in [
        "01 03 9A 00 21 42 03",
        "01 01 A1 5D 03",
        "01 01 A1 5E 17",
        "01 02 A1 00 5D 03",
        "01 02 55 00 A9 03",
        "01 01 A0 5F 03",
        "02 04 FF 80 40 22 1A 03",
    ] {
        text += &line(&mut bench, &hex(sent));
    }
    let mut other_sum = page(&ramp(), 0x17);
    other_sum[258] = 0x81;
    for sent in [
        page(&ramp(), 0x03),
        other_sum,
        page(&ramp()[..255], 0x17),
        page(&ramp(), 0x17),
    ] {
        text += &line(&mut bench, &command("40 00 18 00 FF 1B 00"));
        text += &line(&mut bench, &sent);
    }
    let mut signature = page(&signature_of(&job()), 0x03);
    signature[24] = 0x35;
    let acknowledged = "02 01 06 F9 03";
    for (stage, asked, heard) in [
        (Stage::Rate, "9A 00 21", hex("02 03 06 20 00 D7 17")),
        (Stage::Rate, "9A 00 21", hex("02 03 06 21 00 D7 03")),
        (Stage::Rate, "9A 00 21", hex(acknowledged)),
        (Stage::Rate, "9A 00 21", hex("02 03 06 20 00")),
        (Stage::Rate, "9A 00 21", hex("03 06 20 00 D7 03")),
        (Stage::Rate, "9A 00 21", hex("02 01 05 FA 03")),
        (Stage::Signature, "C0", hex(acknowledged)),
        (
            Stage::Signature,
            "C0",
            [hex(acknowledged), signature].concat(),
        ),
    ] {
        let failure = failure(stage, Some(&heard)).unwrap();
        let why = match failure.cause {
            Cause::Unreadable => ", unreadable",
            _ => "",
        };
        let (asked, heard) = (hex_line(&command(asked)), hex_line(&heard));
        let fault = in_words(in_numbers(failure.fault));
        text += &format!("{asked} <- {heard}{why}{fault}\n");
    }
    assert_eq!(std::fs::read_to_string(EXPECTED).unwrap(), text);
}

// The samples: captures/faults-of-*.txt

const CAPTURES: &str = concat!(env!("CARGO_MANIFEST_DIR"), "/../captures");

/// The place that a line's comment gives, as "byte 259: 15h 15h"; 0 where it gives none.
fn place_said(line: &str) -> u16 {
    let said = line.split_once(", byte ").and_then(|(_, rest)| {
        let (place, _) = rest.split_once(':')?;
        place.parse().ok()
    });
    said.unwrap_or(0)
}

/// What the texts say of their frames is what is told of them.
#[test]
fn the_samples_say_which_byte_is_wrong() {
    for name in ["faults-of-commands", "faults-of-data"] {
        let path = format!("{CAPTURES}/{name}.txt");
        let made = Command::new(format!("{CAPTURES}/make"))
            .arg(&path)
            .output()
            .unwrap();
        assert!(made.status.success());
        let mut player = Player::fresh();
        let told: Vec<u16> = made
            .stdout
            .chunks(RECORD)
            .flat_map(|record| events(&judge_record(Form::Old, record).unwrap()))
            .map(|event| player.hear(event))
            .filter(|reply| reply.frames > 0)
            .map(|reply| in_numbers(reply.fault).1)
            .collect();
        // Each frame is a line; the mode byte is the first of them, and is not answered.
        let text = std::fs::read_to_string(&path).unwrap();
        let said: Vec<u16> = text
            .lines()
            .filter(|line| !line.starts_with('#') && !line.starts_with("gap"))
            .skip(1)
            .map(place_said)
            .collect();
        assert_eq!(told, said, "{name}");
        assert!(said.contains(&259) && said.contains(&258) && said.contains(&1));
    }
}
