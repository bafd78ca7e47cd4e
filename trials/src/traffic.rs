//! Page traffic of a bench, and frames of any kind as a capture (01 "Replay").

use std::iter;

use twin::capture::{bytes_record, converted, Form, NEW_RECORD, RECORD};
use twin::chip::{BLOCK_ERASE, PROGRAM, RATE_SET, VERIFY};
use twin::frame::{LAST_FOOTER, MORE_FOOTER};
use twin::part::Area;
use twin::random::{command_frame, data_frame, range_body};
use twin::replay::replay_part;

/// What a page is written with, in no round, block or place the same.
pub fn page(round: usize, block: usize, number: usize) -> Vec<u8> {
    (0..replay_part().page_size())
        .map(|at| (at * 7 + number * 31 + block * 13 + round) as u8)
        .collect()
}

/// One round over every code block: erase it, write its pages, verify its pages.
fn round_of_frames(round: usize) -> Vec<Vec<u8>> {
    let mut frames = Vec::new();
    let part = replay_part();
    let (size, pages) = (part.block_size(Area::Code), part.pages_of_block(Area::Code));
    for block in 0..part.blocks(Area::Code) {
        let (start, end) = (block * size, block * size + size - 1);
        frames.push(command_frame(&[
            BLOCK_ERASE,
            start as u8,
            (start >> 8) as u8,
            (start >> 16) as u8,
        ]));
        for command in [PROGRAM, VERIFY] {
            frames.push(command_frame(&range_body(command, start, end)));
            for number in 0..pages {
                let footer = if number + 1 == pages {
                    LAST_FOOTER
                } else {
                    MORE_FOOTER
                };
                frames.push(data_frame(&page(round, block, number), footer));
            }
        }
    }
    frames
}

/// What makes a fresh chip ready: the mode byte, and 9Ah.
fn opening_frames() -> [Vec<u8>; 2] {
    [vec![0x3A], command_frame(&[RATE_SET, 0x00, 0x21])]
}

pub fn opening() -> Vec<u8> {
    opening_frames().concat()
}

/// The frames of page traffic, round after round without end.
pub fn page_frames() -> impl Iterator<Item = Vec<u8>> {
    (0..).flat_map(round_of_frames)
}

/// Page traffic of so many rounds.
pub fn traffic(rounds: usize) -> Vec<u8> {
    let rounds = (0..rounds).flat_map(round_of_frames);
    iter::once(opening()).chain(rounds).flatten().collect()
}

/// A fresh chip made ready, and then these frames, which must not run out: a gap before each, up to so many bytes to a record; so many records.
pub fn capture(frames: impl Iterator<Item = Vec<u8>>, carried: usize, records: usize) -> Vec<u8> {
    opening_frames()
        .into_iter()
        .chain(frames)
        .flat_map(|frame| recorded(&frame, carried))
        .take(records)
        .flatten()
        .collect()
}

fn recorded(frame: &[u8], carried: usize) -> Vec<[u8; RECORD]> {
    let mut records = vec![[0; RECORD]];
    records.extend(frame.chunks(carried).map(bytes_record));
    records
}

/// The same traffic in the new form, seat 0 and tick 0.
pub fn in_new_form(capture: &[u8]) -> Vec<u8> {
    converted(Form::Old, capture).expect("good records")
}

/// And with as much of seat 1, record by record.
pub fn of_two_seats(new: &[u8]) -> Vec<u8> {
    new.chunks_exact(NEW_RECORD)
        .flat_map(|record| {
            let mut other = record.to_vec();
            other[2] = 1;
            [record.to_vec(), other].concat()
        })
        .collect()
}

/// How many bytes the records of a capture carry.
pub fn carried_bytes(capture: &[u8]) -> usize {
    capture
        .chunks(RECORD)
        .map(|record| usize::from(record[1]))
        .sum()
}
