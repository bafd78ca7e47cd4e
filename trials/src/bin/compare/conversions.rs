//! Captures through zc_to_new and zc_to_old, and through the twin: the same number, record and bytes told, and the same output, past what is written too (02 §5).
//! Records that are bad or that the old form cannot hold stand at any place, alone and together, and the output is as long as needed, shorter, longer or nothing.
//! Every byte of a record is also set to every value, and judged by the replays as well.

use trials::door::{self, Converted, BAD_RECORD, NOT_HELD, SHORT_OUTPUT};
use twin::capture::{convert, judge_record, Form, Record};
use twin::random::{
    bad_record, bad_ways, not_held_record, random_capture, short_tail, Generator, NOT_HELD_WAYS,
};
use twin::replay::hex_line;

use crate::captures::{call, Proved};
use crate::chip::Difference;
use crate::coverage::{row, Coverage};

fn by_door(from: Form, capture: &[u8], output: &mut [u8]) -> Converted {
    match from {
        Form::Old => door::to_new(capture, output),
        Form::New => door::to_old(capture, output),
    }
}

fn name(from: Form) -> &'static str {
    match from {
        Form::Old => "zc_to_new",
        Form::New => "zc_to_old",
    }
}

/// What the twin tells of it, in the door's numbers.
fn by_twin(from: Form, capture: &[u8], output: &mut [u8]) -> Converted {
    match convert(from, capture, output) {
        Ok(bytes) => Converted {
            refusal: 0,
            bytes: bytes as u64,
            record: 0,
        },
        Err(refusal) => Converted {
            refusal: refusal.number(),
            bytes: 0,
            record: refusal.record().unwrap_or(0),
        },
    }
}

/// What lies before and after the output, and must stay as well.
const MARGIN: usize = 24;

/// One call of each on the same capture and the same output, which is lent out of the middle of more; hands back what was told, and what was written.
fn compared(
    from: Form,
    capture: &[u8],
    room: usize,
    choice: &mut Generator,
) -> Result<(Converted, Vec<u8>), Difference> {
    let before = choice.below(MARGIN);
    let mut lent: Vec<u8> = (0..before + room + MARGIN).map(|_| choice.byte()).collect();
    let mut must = lent.clone();
    let within = before..before + room;
    let expected = by_twin(from, capture, &mut must[within.clone()]);
    // Records lie at any address.
    let mut held = vec![0; choice.below(16)];
    let at = held.len();
    held.extend_from_slice(capture);
    let told = by_door(from, &held[at..], &mut lent[within.clone()]);
    if told != expected || lent != must {
        return Err(format!(
            "{} with output {room}: told {told:?}, the twin {expected:?}, output {}; the capture is {}",
            name(from),
            if lent == must { "the same" } else { "not the twin's" },
            hex_line(capture)
        ));
    }
    let written = lent[within][..told.bytes as usize].to_vec();
    Ok((told, written))
}

/// What a record of a capture is there for.
enum Piece {
    Good,
    NotHeld(usize),
    Bad(usize),
    Short,
}

/// Few records, most of them good and held by either form, and which is what.
fn pieces(from: Form, choice: &mut Generator) -> (Vec<u8>, Vec<Piece>) {
    let (mut capture, mut pieces) = (Vec::new(), Vec::new());
    let not_held = choice.pick(&[0, 0, 10, 30]);
    let bad = choice.pick(&[0, 0, 5, 20]);
    for _ in 0..choice.below(12) {
        if from == Form::New && choice.chance(not_held) {
            let way = choice.below(NOT_HELD_WAYS.len());
            capture.extend(not_held_record(way, choice));
            pieces.push(Piece::NotHeld(way));
        } else if choice.chance(bad) {
            let way = choice.below(bad_ways(from).len());
            let any = choice.between(1, 255) as u8;
            capture.extend(bad_record(from, way, any, choice));
            pieces.push(Piece::Bad(way));
        } else {
            let carried: Vec<u8> = (0..choice.below(7)).map(|_| choice.byte()).collect();
            capture.extend(Record::carrying(0, 0, &carried).written(from));
            pieces.push(Piece::Good);
        }
    }
    if choice.chance(8) {
        capture.extend(short_tail(from, choice));
        pieces.push(Piece::Short);
    }
    (capture, pieces)
}

/// The refusal by the order of the numbers, from what the records are there for.
fn due(pieces: &[Piece]) -> (u32, u64) {
    let first = |is: fn(&Piece) -> bool| pieces.iter().position(is);
    let bad = first(|piece| matches!(piece, Piece::Bad(_) | Piece::Short));
    let not_held = first(|piece| matches!(piece, Piece::NotHeld(_)));
    match (bad, not_held) {
        (Some(record), _) => (BAD_RECORD, record as u64),
        (None, Some(record)) => (NOT_HELD, record as u64),
        (None, None) => (0, 0),
    }
}

/// Output for so many bytes, and how much that is.
fn room_for(needed: usize, choice: &mut Generator) -> (usize, &'static str) {
    let (less, more) = (choice.below(needed.max(1)), choice.between(1, 40));
    match choice.below(6) {
        0 | 1 => (needed, "exact"),
        2 if needed > 0 => (needed - 1, "one byte short"),
        3 if needed > 0 => (less, "short"),
        4 => (0, "none"),
        _ => (needed + more, "larger"),
    }
}

/// One capture of pieces, and back again where it was converted.
fn small(seed: u64, coverage: &mut Coverage) -> Result<(), Difference> {
    let mut choice = Generator::new(seed);
    let from = choice.pick(&Form::BOTH);
    let (capture, pieces) = pieces(from, &mut choice);
    let needed = capture.len() / from.record() * from.other().record();
    let (room, how) = room_for(needed, &mut choice);
    let (told, written) = compared(from, &capture, room, &mut choice)?;

    let mut must = due(&pieces);
    if must.0 == 0 && room < needed {
        must.0 = SHORT_OUTPUT;
    }
    if (told.refusal, told.record) != must {
        return Err(format!(
            "both tell {told:?} where the records call for {must:?}: {}",
            hex_line(&capture)
        ));
    }
    count(from, &pieces, told, room < needed, coverage);
    coverage.count(&format!("output of {}, {how}", name(from)));
    if told.refusal == 0 {
        round_trip(from, &capture, &written, &mut choice, coverage)?;
    }
    Ok(())
}

fn count(from: Form, pieces: &[Piece], told: Converted, short: bool, coverage: &mut Coverage) {
    let call = name(from);
    let at = told.record as usize;
    let any = |pieces: &[Piece]| pieces.iter().any(|it| matches!(it, Piece::NotHeld(_)));
    match told.refusal {
        0 if pieces.is_empty() => coverage.count(&format!("{call}, nothing to convert")),
        0 => coverage.count(&format!("{call}, converted")),
        number => coverage.count(&format!("{call}, {number}")),
    }
    if told.refusal == BAD_RECORD {
        let way = match pieces[at] {
            Piece::Bad(way) => bad_ways(from)[way],
            _ => "short tail",
        };
        coverage.count(&format!("10 of {call} by, {way}"));
        for (found, what) in [
            (any(&pieces[..at]), "not held before it"),
            (any(&pieces[at..]), "not held after it"),
            (short, "too little output"),
        ] {
            if found {
                coverage.count(&format!("10 with, {what}"));
            }
        }
    }
    if let (NOT_HELD, Piece::NotHeld(way)) = (told.refusal, pieces.get(at).unwrap_or(&Piece::Good))
    {
        coverage.count(&format!("11 by, {}", NOT_HELD_WAYS[*way]));
        if short {
            coverage.count("11 with, too little output");
        }
    }
}

/// What was converted, converted back: never refused, and the same bytes.
fn round_trip(
    from: Form,
    capture: &[u8],
    written: &[u8],
    choice: &mut Generator,
    coverage: &mut Coverage,
) -> Result<(), Difference> {
    let (told, back) = compared(from.other(), written, capture.len(), choice)?;
    if told.refusal != 0 || back != capture {
        return Err(format!(
            "{} and back: told {told:?}, not the same bytes; the capture is {}",
            name(from),
            hex_line(capture)
        ));
    }
    coverage.count(&format!("there and back, by {} first", name(from)));
    Ok(())
}

/// A long capture of each form as the random replays have it.
fn long(seed: u64, coverage: &mut Coverage) -> Result<(), Difference> {
    let mut choice = Generator::new(seed);
    for from in Form::BOTH {
        let capture = random_capture(from, seed);
        let needed = capture.len() / from.record() * from.other().record();
        let (told, written) = compared(from, &capture, needed, &mut choice)?;
        coverage.count(&format!(
            "long captures by {}, {}",
            name(from),
            told.refusal
        ));
        if told.refusal == 0 {
            round_trip(from, &capture, &written, &mut choice, coverage)?;
        }
    }
    Ok(())
}

/// Good records of the form, of each kind of content.
fn bases(form: Form) -> Vec<Vec<u8>> {
    let carried: &[&[u8]] = &[&[], &[0x00], &[0x3A], &[1, 1, 0xA1, 0x5E, 3], &[1; 6]];
    let mut bases: Vec<Vec<u8>> = carried
        .iter()
        .map(|carried| Record::carrying(0, 0, carried).written(form))
        .collect();
    if form == Form::New {
        let more: [(u8, u32, &[u8]); 4] = [
            (1, 0, &[]),
            (0, 0x0102_0304, &[]),
            (1, u32::MAX, &[0x3A]),
            (0, 0, &[1; 8]),
        ];
        bases.extend(more.map(|(seat, tick, it)| Record::carrying(seat, tick, it).written(form)));
    }
    bases
}

/// Every byte of each of these records set to every value: judged by the conversion, after a good record and before one, and by the replay of its form.
fn every_byte(coverage: &mut Coverage) -> Result<u64, Difference> {
    let mut choice = Generator::new(0);
    let mut tried = 0;
    for form in Form::BOTH {
        let (_, replay, least) = call(form);
        for base in bases(form) {
            for place in 0..form.record() {
                for value in 0..=255 {
                    let mut record = base.clone();
                    record[place] = value;
                    let gap = vec![0; form.record()];
                    for capture in [&[&record[..], &gap], &[&gap[..], &record]] {
                        let room = 2 * form.other().record();
                        compared(form, &capture.concat(), room, &mut choice)?;
                        tried += 1;
                    }
                    let good = judge_record(form, &record).is_some();
                    let mut proved = Proved::fresh(0xA5)?;
                    let told = proved.play(form, &record, &mut vec![0; least]);
                    let must = if good { (0, 1) } else { (BAD_RECORD, 0) };
                    if (told.refusal, told.records) != must {
                        return Err(format!("{replay} told {told:?} of {}", hex_line(&record)));
                    }
                    tried += 1;
                    let how = if good { "good" } else { "bad" };
                    coverage.count(&format!("every byte, {} {how}", form.name()));
                }
            }
        }
    }
    Ok(tried)
}

/// Output of every length around what is needed, for no records and for some.
fn every_room(coverage: &mut Coverage) -> Result<u64, Difference> {
    let mut choice = Generator::new(0);
    let mut tried = 0;
    for from in Form::BOTH {
        for records in 0..5 {
            let capture = Record::carrying(0, 0, &[1, 2, 3])
                .written(from)
                .repeat(records);
            let needed = records * from.other().record();
            for room in 0..=needed + MARGIN {
                let (told, _) = compared(from, &capture, room, &mut choice)?;
                let must = if room < needed { SHORT_OUTPUT } else { 0 };
                if told.refusal != must {
                    return Err(format!("both tell {told:?} of {records} records in {room}"));
                }
                tried += 1;
                coverage.count(&format!("every length of output, {must}"));
            }
        }
    }
    Ok(tried)
}

/// So many captures of pieces, and so many long ones; hands back how many calls were directed.
pub fn run(pieces: u64, captures: u64, coverage: &mut Coverage) -> Result<u64, Difference> {
    let directed = every_byte(coverage)? + every_room(coverage)?;
    for seed in 0..pieces {
        small(seed, coverage).map_err(|difference| format!("seed {seed}: {difference}"))?;
    }
    for seed in 0..captures {
        long(seed, coverage).map_err(|difference| format!("long, seed {seed}: {difference}"))?;
    }
    Ok(directed)
}

pub fn table(coverage: &Coverage) -> Vec<String> {
    let rooms = ["exact", "one byte short", "short", "none", "larger"];
    let by = |form: Form| [bad_ways(form), &["short tail"]].concat();
    let rows = [
        row(
            "zc_to_new",
            &["converted", "nothing to convert", "10", "12"],
        ),
        row(
            "zc_to_old",
            &["converted", "nothing to convert", "10", "11", "12"],
        ),
        row("10 of zc_to_new by", &by(Form::Old)),
        row("10 of zc_to_old by", &by(Form::New)),
        row(
            "10 with",
            &[
                "not held before it",
                "not held after it",
                "too little output",
            ],
        ),
        row("11 by", &NOT_HELD_WAYS),
        row("11 with", &["too little output"]),
        row("output of zc_to_new", &rooms),
        row("output of zc_to_old", &rooms),
        row(
            "there and back",
            &["by zc_to_new first", "by zc_to_old first"],
        ),
        row("long captures by zc_to_new", &["0", "10"]),
        row("long captures by zc_to_old", &["0", "10", "11"]),
        row(
            "every byte",
            &["old good", "old bad", "new good", "new bad"],
        ),
        row("every length of output", &["0", "12"]),
    ];
    coverage.table("conversions", &rows)
}
