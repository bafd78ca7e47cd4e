//! Records of both forms, a capture of one form converted to the other, and the replay of the new form (02 §5).

mod common;

use std::process::Command;

use common::*;
use twin::capture::{convert, converted, judge_record, Form, Record, Refusal};
use twin::chip::Event;
use twin::random::{
    bad_record, bad_ways, not_held_record, random_capture, short_tail, Generator, NOT_HELD_WAYS,
};
use twin::replay::{events, hex_line, replay_text, Player};

const WHOLE_CASE: &str = "01 01 3A 00 00 00 00 00
     01 06 01 03 9A 00 21 42
     01 01 03 00 00 00 00 00
     01 05 01 01 A1 5E 03 00";

/// Document 01's whole case, record for record, with seat 0 and tick 0.
const NEW_WHOLE_CASE: &str = "01 01 00 00 00 00 00 00 3A 00 00 00 00 00 00 00
     01 06 00 00 00 00 00 00 01 03 9A 00 21 42 00 00
     01 01 00 00 00 00 00 00 03 00 00 00 00 00 00 00
     01 05 00 00 00 00 00 00 01 01 A1 5E 03 00 00 00";

const PRINTED: &str = "02 03 06 20 00 D7 03
02 01 06 F9 03
02 08 FF 03 00 00 0F 00 FF FF E9 03
END 3
";

fn is_good(form: Form, record: &[u8]) -> bool {
    judge_record(form, record).is_some()
}

/// The values of the byte at this place with which the record is good, all others as they are.
fn good_values(form: Form, record: &str, place: usize) -> Vec<u8> {
    let mut record = hex(record);
    (0..=255)
        .filter(|value| {
            record[place] = *value;
            is_good(form, &record)
        })
        .collect()
}

/// Every byte of a record set to every value. Count 6 to 8 of the five bytes' record is good: a byte carried may be 00h.
#[test]
fn which_values_are_good() {
    let any: Vec<u8> = (0..=255).collect();
    let five = "01 05 01 00 44 33 22 11 01 01 A1 5E 03 00 00 00";
    let gap = "00 00 01 00 44 33 22 11 00 00 00 00 00 00 00 00";
    for (form, record, places) in [
        (
            Form::New,
            five,
            vec![
                (0..=0, &[0x01][..]),
                (1..=1, &[5, 6, 7, 8]),
                (2..=2, &[0, 1]),
                (3..=3, &[0x00]),
                (4..=11, &any),
                (12..=12, &any),
                (13..=15, &[0x00]),
            ],
        ),
        (
            Form::New,
            gap,
            vec![
                (0..=0, &[0x00][..]),
                (1..=1, &[0]),
                (2..=2, &[0, 1]),
                (3..=3, &[0x00]),
                (4..=7, &any),
                (8..=15, &[0x00]),
            ],
        ),
        (
            Form::Old,
            "01 05 01 01 A1 5E 03 00",
            vec![
                (0..=0, &[0x01][..]),
                (1..=1, &[5, 6]),
                (2..=6, &any),
                (7..=7, &[0x00]),
            ],
        ),
        (
            Form::Old,
            "00 00 00 00 00 00 00 00",
            vec![(0..=0, &[0x00][..]), (1..=1, &[0]), (2..=7, &[0x00])],
        ),
    ] {
        let mut tried = 0;
        for (range, values) in places {
            for place in range {
                let good = good_values(form, record, place);
                assert_eq!(good, values, "{form:?} {record}, byte {place}");
                tried += 1;
            }
        }
        assert_eq!(tried, form.record());
    }
}

#[test]
fn what_good_records_hold() {
    for (form, record, seat, tick, carried) in [
        (Form::Old, "00 00 00 00 00 00 00 00", 0, 0, ""),
        (Form::Old, "01 01 3A 00 00 00 00 00", 0, 0, "3A"),
        (
            Form::Old,
            "01 06 01 03 9A 00 21 42",
            0,
            0,
            "01 03 9A 00 21 42",
        ),
        (
            Form::New,
            "00 00 01 00 78 56 34 12 00 00 00 00 00 00 00 00",
            1,
            0x1234_5678,
            "",
        ),
        (
            Form::New,
            "01 01 00 00 FF 00 00 00 3A 00 00 00 00 00 00 00",
            0,
            255,
            "3A",
        ),
        (
            Form::New,
            "01 08 01 00 FF FF FF FF 01 03 9A 00 21 42 03 00",
            1,
            u32::MAX,
            "01 03 9A 00 21 42 03 00",
        ),
    ] {
        let good = judge_record(form, &hex(record)).unwrap();
        assert_eq!(good, Record::carrying(seat, tick, &hex(carried)));
        assert_eq!(good.written(form), hex(record));
    }
}

/// One record for each sentence: a gap's count is 0, and so are its bytes; kind 01h carries 1 to 8; the seat is 0 or 1; byte 3 is 00h; unused bytes are 00h.
const BAD: [&str; 14] = [
    "02 01 00 00 00 00 00 00 3A 00 00 00 00 00 00 00",
    "FF 00 00 00 00 00 00 00 00 00 00 00 00 00 00 00",
    "00 01 00 00 00 00 00 00 00 00 00 00 00 00 00 00",
    "00 01 00 00 00 00 00 00 3A 00 00 00 00 00 00 00",
    "00 00 00 00 00 00 00 00 01 00 00 00 00 00 00 00",
    "00 00 00 00 00 00 00 00 00 00 00 00 00 00 00 01",
    "01 00 00 00 00 00 00 00 00 00 00 00 00 00 00 00",
    "01 09 00 00 00 00 00 00 01 01 01 01 01 01 01 01",
    "01 FF 00 00 00 00 00 00 01 01 01 01 01 01 01 01",
    "01 01 02 00 00 00 00 00 3A 00 00 00 00 00 00 00",
    "00 00 FF 00 00 00 00 00 00 00 00 00 00 00 00 00",
    "01 01 00 01 00 00 00 00 3A 00 00 00 00 00 00 00",
    "01 01 00 00 00 00 00 00 3A 01 00 00 00 00 00 00",
    "01 07 00 00 00 00 00 00 01 03 9A 00 21 42 03 01",
];

/// A bad record is bad whatever its tick, and on seat 1 as on seat 0.
#[test]
fn bad_records_of_the_new_form() {
    for bad in BAD {
        let mut on_seat_1 = hex(bad);
        if on_seat_1[2] == 0 {
            on_seat_1[2] = 1;
            on_seat_1[7] = 0x80;
        }
        for bad in [hex(bad), on_seat_1] {
            assert_eq!(replay_text(Form::New, &bad), "BAD 0\n", "{bad:02X?}");
            assert_eq!(converted(Form::New, &bad), Err(Refusal::Bad(0)));
            let mut capture = vec![0; 48];
            capture.extend(bad);
            capture.extend([0; 16]);
            assert_eq!(replay_text(Form::New, &capture), "BAD 3\n");
            assert_eq!(converted(Form::New, &capture), Err(Refusal::Bad(3)));
        }
    }
}

#[test]
fn short_tails_are_bad() {
    for form in Form::BOTH {
        for short in 1..form.record() {
            for records in 0..4 {
                let capture = vec![0; records * form.record() + short];
                let number = records as u64;
                assert_eq!(
                    replay_text(form, &capture),
                    format!("BAD {number}\n"),
                    "{short}"
                );
                assert_eq!(converted(form, &capture), Err(Refusal::Bad(number)));
            }
        }
    }
}

#[test]
fn the_whole_case_in_both_forms() {
    assert_eq!(
        converted(Form::Old, &hex(WHOLE_CASE)),
        Ok(hex(NEW_WHOLE_CASE))
    );
    assert_eq!(
        converted(Form::New, &hex(NEW_WHOLE_CASE)),
        Ok(hex(WHOLE_CASE))
    );
    assert_eq!(replay_text(Form::Old, &hex(WHOLE_CASE)), PRINTED);
    assert_eq!(replay_text(Form::New, &hex(NEW_WHOLE_CASE)), PRINTED);
}

/// "new to old where the seat is 0, the tick 0 and the count at most 6", alone and after a record that can be held.
#[test]
fn what_the_old_form_cannot_hold() {
    for not_held in [
        "01 01 01 00 00 00 00 00 3A 00 00 00 00 00 00 00",
        "00 00 01 00 00 00 00 00 00 00 00 00 00 00 00 00",
        "01 01 00 00 01 00 00 00 3A 00 00 00 00 00 00 00",
        "01 01 00 00 00 01 00 00 3A 00 00 00 00 00 00 00",
        "01 01 00 00 00 00 01 00 3A 00 00 00 00 00 00 00",
        "01 01 00 00 00 00 00 01 3A 00 00 00 00 00 00 00",
        "00 00 00 00 00 00 00 80 00 00 00 00 00 00 00 00",
        "01 07 00 00 00 00 00 00 01 03 9A 00 21 42 03 00",
        "01 07 00 00 00 00 00 00 00 00 00 00 00 00 00 00",
        "01 08 00 00 00 00 00 00 00 00 00 00 00 00 00 00",
    ] {
        let mut capture = hex(not_held);
        assert_eq!(converted(Form::New, &capture), Err(Refusal::NotHeld(0)));
        capture.splice(..0, hex(NEW_WHOLE_CASE));
        capture.extend(hex(not_held));
        assert_eq!(converted(Form::New, &capture), Err(Refusal::NotHeld(4)));
    }
    for held in 1..=6 {
        let bytes = [0x00, 0x01, 0x02, 0x03, 0x04, 0x05];
        let record = Record::carrying(0, 0, &bytes[..held]);
        let old = converted(Form::New, &record.written(Form::New));
        assert_eq!(old, Ok(record.written(Form::Old)));
    }
}

const GOOD: &str = "01 01 00 00 00 00 00 00 3A 00 00 00 00 00 00 00 ";
const SEAT_1: &str = "01 01 01 00 00 00 00 00 3A 00 00 00 00 00 00 00 ";
const SPOILED: &str = "01 01 00 01 00 00 00 00 3A 00 00 00 00 00 00 00 ";

/// "10 before 11" over the whole capture, each for the first such record; then 12.
#[test]
fn the_order_of_the_refusals() {
    for (capture, refusal) in [
        (vec![SEAT_1, SPOILED], Refusal::Bad(1)),
        (vec![SPOILED, SEAT_1], Refusal::Bad(0)),
        (vec![GOOD, SEAT_1, SEAT_1, GOOD], Refusal::NotHeld(1)),
        (vec![GOOD, SPOILED, SPOILED, GOOD], Refusal::Bad(1)),
        (vec![SEAT_1, GOOD, GOOD, "00 00 00"], Refusal::Bad(3)),
        (vec![SEAT_1, SPOILED, "00"], Refusal::Bad(1)),
        (vec![GOOD], Refusal::ShortOutput),
    ] {
        let capture = hex(&capture.concat());
        // Whatever room there is, but for 12.
        let rooms: &[usize] = match refusal {
            Refusal::ShortOutput => &[0, 1, 7],
            _ => &[0, 1, 8, 100],
        };
        for room in rooms {
            let mut output = vec![FILLER; *room];
            assert_eq!(convert(Form::New, &capture, &mut output), Err(refusal));
            assert!(output.iter().all(|byte| *byte == FILLER));
        }
    }
    assert_eq!(Refusal::Bad(7).number(), 10);
    assert_eq!(Refusal::NotHeld(7).number(), 11);
    assert_eq!(Refusal::ShortOutput.number(), 12);
}

/// 12 exactly where the bytes needed do not fit; what is written stands at the start, and the room past it stays.
#[test]
fn room_for_the_output() {
    let old = hex(WHOLE_CASE);
    let new = hex(NEW_WHOLE_CASE);
    for (from, capture, must) in [(Form::Old, &old, &new), (Form::New, &new, &old)] {
        for room in 0..=must.len() + 20 {
            let mut output = vec![FILLER; room];
            let told = convert(from, capture, &mut output);
            let mut expected = vec![FILLER; room];
            if room < must.len() {
                assert_eq!(told, Err(Refusal::ShortOutput), "{room}");
            } else {
                assert_eq!(told, Ok(must.len()), "{room}");
                expected[..must.len()].copy_from_slice(must);
            }
            assert_eq!(output, expected);
        }
    }
}

#[test]
fn empty_captures() {
    for form in Form::BOTH {
        for room in [0, 1, 40] {
            let mut output = vec![FILLER; room];
            assert_eq!(convert(form, &[], &mut output), Ok(0));
            assert!(output.iter().all(|byte| *byte == FILLER));
        }
        assert_eq!(replay_text(form, &[]), "END 0\n");
    }
}

/// What was tried of conversions there and back.
#[derive(Default, Debug)]
struct Tried {
    returned: u64,
    bad: u64,
    not_held: u64,
}

/// "Either round trip gives the same bytes if no leg is refused"; an old capture is never refused with 11, and what it became is never refused at all.
#[test]
fn there_and_back_again() {
    for from in Form::BOTH {
        let mut tried = Tried::default();
        for seed in 1..=600 {
            let capture = random_capture(from, seed);
            match converted(from, &capture) {
                Ok(other) => {
                    let returned = converted(from.other(), &other);
                    assert_eq!(returned, Ok(capture), "seed {seed}");
                    tried.returned += 1;
                }
                Err(Refusal::Bad(_)) => tried.bad += 1,
                Err(Refusal::NotHeld(_)) => tried.not_held += 1,
                Err(Refusal::ShortOutput) => panic!("room is made for all"),
            }
        }
        println!("{from:?} {tried:?}");
        assert!(tried.returned > 50 && tried.bad > 20, "{tried:?}");
        assert_eq!(tried.not_held > 0, from == Form::New);
    }
}

/// The new form of an old capture prints the same lines.
#[test]
fn converted_captures_replay_as_before() {
    let mut tried = 0;
    for seed in 1..=200 {
        let capture = random_capture(Form::Old, seed);
        if let Ok(new) = converted(Form::Old, &capture) {
            assert_eq!(
                replay_text(Form::New, &new),
                replay_text(Form::Old, &capture)
            );
            tried += 1;
        }
    }
    assert!(tried > 100, "{tried}");
}

/// Bytes of a seat in records of the new form, eight to a record.
fn records(seat: u8, bytes: &[u8]) -> Vec<u8> {
    bytes
        .chunks(8)
        .flat_map(|carried| Record::carrying(seat, 7, carried).written(Form::New))
        .collect()
}

fn gap(seat: u8) -> Vec<u8> {
    Record::carrying(seat, 9, &[]).written(Form::New)
}

fn setup() -> Vec<u8> {
    [records(0, &hex("3A")), records(0, &command("9A 00 21"))].concat()
}

/// Seat 1 is skipped: within a frame of seat 0 its bytes are not heard, and its gap drops nothing; seat 0's own gap does.
#[test]
fn seat_1_plays_nothing() {
    let asked = command("A1");
    let (first, rest) = asked.split_at(2);
    for (between, heard) in [
        (records(1, &command("00")), true),
        (records(1, &hex("01")), true),
        (gap(1), true),
        ([gap(1), records(1, &hex("3A 01")), gap(1)].concat(), true),
        (gap(0), false),
    ] {
        let capture = [setup(), records(0, first), between, records(0, rest)].concat();
        let must = match heard {
            true => PRINTED,
            false => "02 03 06 20 00 D7 03\nEND 1\n",
        };
        assert_eq!(replay_text(Form::New, &capture), must);
    }
    // A capture of seat 1 alone.
    let mut other = setup();
    for record in other.chunks_mut(16) {
        record[2] = 1;
    }
    assert_eq!(replay_text(Form::New, &other), "END 0\n");
}

/// A bad record of seat 1 is met in its turn, with its number among all records, and what follows is not heard.
#[test]
fn seat_1_is_judged() {
    let mut bad = gap(1);
    bad[15] = 0x01;
    let capture = [setup(), gap(1), bad, records(0, &command("A1"))].concat();
    assert_eq!(
        replay_text(Form::New, &capture),
        "02 03 06 20 00 D7 03\nBAD 3\n"
    );
}

#[test]
fn eight_bytes_complete_two_frames() {
    let capture = [
        setup(),
        records(0, &hex("01 01")),
        records(0, &hex("C0 3F 03 01 01 C0 3F 03")),
    ]
    .concat();
    let text = replay_text(Form::New, &capture);
    assert!(text.ends_with("END 5\n"), "{text}");
    assert_eq!(text.lines().count(), 6);
}

/// What examples/convert.c and examples/convert.rs must print: the whole case in both forms, with a record of seat 1 in the new one, as this twin has it.
#[test]
fn the_example_is_the_one_written_down() {
    let mut text = String::new();
    let mut show = |what: &str, form: Form, capture: &[u8]| {
        text += what;
        text += "\n";
        for record in capture.chunks(form.record()) {
            text += &(hex_line(record) + "\n");
        }
    };
    let old = hex(WHOLE_CASE);
    let new = converted(Form::Old, &old).unwrap();
    let other = Record::carrying(1, 4660, &hex("01 01 C0 3F 03 01 01 00"));
    let both = [&new[..32], &other.written(Form::New), &new[32..]].concat();
    show("old:", Form::Old, &old);
    show("new:", Form::New, &new);
    show("and seat 1 at tick 4660:", Form::New, &both);
    let printed = replay_text(Form::New, &both);
    text += printed.strip_suffix("END 3\n").unwrap();
    text += "5 records played, 3 reply frames\n";
    let refusal = converted(Form::New, &both).unwrap_err();
    let (number, record) = (refusal.number(), refusal.record().unwrap());
    text += &format!("to old: refused {number}, record {record}\n");
    let back = converted(Form::New, &new).unwrap();
    assert_eq!(back, old);
    text += &format!("to old: {} bytes, the same as at the start\n", back.len());
    let expected = concat!(env!("CARGO_MANIFEST_DIR"), "/../examples/convert.stdout");
    assert_eq!(std::fs::read_to_string(expected).unwrap(), text);
}

/// The twin's own program: what it writes, and its status and message where a capture is refused.
#[test]
fn the_twins_program() {
    let run = |words: &[&str]| {
        let twin = env!("CARGO_BIN_EXE_twin");
        let output = Command::new(twin).args(words).output().unwrap();
        let said = String::from_utf8(output.stderr).unwrap();
        (output.status.code(), output.stdout, said)
    };
    let file = std::path::Path::new(env!("CARGO_TARGET_TMPDIR")).join("forms");
    let name = file.to_str().unwrap();
    let written = |bytes: Vec<u8>| (Some(0), bytes, String::new());
    std::fs::write(&file, hex(WHOLE_CASE)).unwrap();
    assert_eq!(run(&["replay", name]), written(PRINTED.into()));
    assert_eq!(run(&["replay", "--old", name]), written(PRINTED.into()));
    assert_eq!(
        run(&["convert", "--to-new", name]),
        written(hex(NEW_WHOLE_CASE))
    );
    std::fs::write(&file, hex(NEW_WHOLE_CASE)).unwrap();
    assert_eq!(run(&["replay", "--new", name]), written(PRINTED.into()));
    assert_eq!(
        run(&["convert", "--to-old", name]),
        written(hex(WHOLE_CASE))
    );
    for (capture, message) in [
        ([GOOD, SEAT_1].concat(), "convert: refused 11, record 1\n"),
        (
            [SEAT_1, SPOILED].concat(),
            "convert: refused 10, record 1\n",
        ),
    ] {
        std::fs::write(&file, hex(&capture)).unwrap();
        let refused = (Some(1), Vec::new(), message.to_string());
        assert_eq!(run(&["convert", "--to-old", name]), refused);
    }
    for (words, form) in [
        (&["capture", "7"][..], Form::Old),
        (&["capture", "--new", "7"], Form::New),
    ] {
        assert_eq!(run(words), written(random_capture(form, 7)));
    }
}

/// What random captures of the new form are made of.
#[derive(Default, Debug)]
struct Reach {
    counts: [u64; 9],
    seats: [u64; 2],
    ticks: [u64; 4],
    no_tick: u64,
    other_bytes_in_a_frame: u64,
    other_gaps_in_a_frame: u64,
    bad: u64,
    bad_on_seat_1: u64,
    short: u64,
    whole: u64,
}

#[test]
fn random_captures_of_the_new_form() {
    let mut reach = Reach::default();
    for seed in 1..=400 {
        let capture = random_capture(Form::New, seed);
        assert_eq!(capture, random_capture(Form::New, seed));
        let mut player = Player::fresh();
        let mut ended = false;
        for bytes in capture.chunks(16) {
            let Some(record) = judge_record(Form::New, bytes) else {
                reach.bad += 1;
                reach.short += u64::from(bytes.len() < 16);
                reach.bad_on_seat_1 += u64::from(bytes.get(2) == Some(&1));
                ended = true;
                break;
            };
            let count = record.carried.map_or(0, |carried| carried.count);
            reach.counts[count] += 1;
            reach.seats[usize::from(record.seat)] += 1;
            for (place, byte) in record.tick.to_le_bytes().into_iter().enumerate() {
                reach.ticks[place] += u64::from(byte != 0);
            }
            reach.no_tick += u64::from(record.tick == 0);
            if record.seat == 1 && player.chip.count > 0 {
                reach.other_bytes_in_a_frame += u64::from(count > 0);
                reach.other_gaps_in_a_frame += u64::from(count == 0);
            }
            let heard = events(&record);
            assert_eq!(heard.is_empty(), record.seat == 1);
            if record.seat == 0 && count == 0 {
                assert_eq!(heard, [Event::Gap]);
            }
            for event in heard {
                player.hear(event);
            }
        }
        reach.whole += u64::from(!ended);
    }
    println!("{reach:?}");
    let each = [
        &reach.counts[..],
        &reach.seats,
        &reach.ticks,
        &[
            reach.no_tick,
            reach.other_bytes_in_a_frame,
            reach.other_gaps_in_a_frame,
            reach.bad,
            reach.bad_on_seat_1,
            reach.short,
            reach.whole,
        ],
    ];
    assert!(each.concat().iter().all(|count| *count > 0), "{reach:?}");
}

/// What the comparisons plant is what it is said to be: a record bad in that way, and none that is not held for that reason.
#[test]
fn planted_records() {
    let mut choice = Generator::new(5);
    for form in Form::BOTH {
        for way in 0..bad_ways(form).len() {
            for any in 1..=255 {
                let record = bad_record(form, way, any, &mut choice);
                assert_eq!(record.len(), form.record());
                assert!(!is_good(form, &record), "{record:02X?}");
            }
        }
        for _ in 0..100 {
            let tail = short_tail(form, &mut choice);
            assert!((1..form.record()).contains(&tail.len()));
        }
    }
    for (way, name) in NOT_HELD_WAYS.iter().enumerate() {
        for _ in 0..100 {
            let record = judge_record(Form::New, &not_held_record(way, &mut choice)).unwrap();
            let ticked = record.tick.to_le_bytes().map(|byte| byte != 0);
            let count = record.carried.map_or(0, |carried| carried.count);
            let reasons = [
                record.seat == 1,
                ticked[0],
                ticked[1],
                ticked[2],
                ticked[3],
                count == 7,
                count == 8,
            ];
            let found: Vec<usize> = (0..7).filter(|at| reasons[*at]).collect();
            assert_eq!(found, [way], "{name}");
        }
    }
}
