//! Wider capture records, from Rust (document 02, section 5): an old capture is written in the new form, a record of seat 1 is put into it, and it is replayed,
//! which skips that record. Back in the old form there is no place for it, so that is refused; without it the old bytes come back.

mod bench;

use bench::door::{self, BAD_RECORD, NOT_HELD, OUTPUT_NEW, RECORD, RECORD_NEW, ROOM, STATE, SUMS};
use bench::{hex, must};

/// Document 01's whole case.
const OLD_FORM: [u8; 4 * RECORD] = [
    0x01, 0x01, 0x3A, 0x00, 0x00, 0x00, 0x00, 0x00, // the mode byte
    0x01, 0x06, 0x01, 0x03, 0x9A, 0x00, 0x21, 0x42, // Baud Rate Set ..
    0x01, 0x01, 0x03, 0x00, 0x00, 0x00, 0x00, 0x00, // .. and its footer
    0x01, 0x05, 0x01, 0x01, 0xA1, 0x5E, 0x03, 0x00, // Security Get
];

/// Eight bytes in one record: a Silicon Signature and the beginning of a Reset.
const HEARD_BY_SEAT_1: [u8; 8] = [0x01, 0x01, 0xC0, 0x3F, 0x03, 0x01, 0x01, 0x00];
const PLACE: usize = 2;

fn print_records(what: &str, records: &[u8], size: usize) {
    println!("{what}:");
    for record in records.chunks(size) {
        println!("{}", hex(record, size));
    }
}

/// The record of the new form that seat 1 heard at this tick.
fn of_seat_1(tick: u32) -> [u8; RECORD_NEW] {
    let mut record = [0; RECORD_NEW];
    record[..3].copy_from_slice(&[0x01, HEARD_BY_SEAT_1.len() as u8, 1]);
    record[4..8].copy_from_slice(&tick.to_le_bytes());
    record[8..].copy_from_slice(&HEARD_BY_SEAT_1);
    record
}

/// A capture of the new form, played into a fresh chip of the replay's part.
fn replay(capture: &[u8]) {
    let part = door::part(16, 4, 32, bench::NAMES);
    let mut state = [0; STATE];
    let (mut code, mut data, mut room) = ([0xFF; 16 * 1024], [0xFF; 4 * 1024], [0; ROOM]);
    let mut sums = [0; SUMS];
    must("zc_fresh", door::fresh(&part, &mut state));
    must("zc_sums", door::sums(&part, &code, &data, &mut sums));
    let mut output = vec![0; capture.len() / RECORD_NEW * OUTPUT_NEW];
    let told = door::replay_new(
        &part,
        &mut state,
        capture,
        &mut code,
        &mut data,
        &mut sums,
        &mut room,
        &mut output,
    );
    must("zc_replay_new", told.refusal);
    // Reply frames lie end to end; a frame has LEN + 4 bytes, and LEN 00h is 256.
    let mut rest = &output[..told.bytes as usize];
    while let [_, len, ..] = *rest {
        let (frame, more) = rest.split_at(if len == 0 { 260 } else { usize::from(len) + 4 });
        println!("{}", hex(frame, frame.len()));
        rest = more;
    }
    println!(
        "{} records played, {} reply frames",
        told.records, told.frames
    );
}

/// A capture of the new form back to the old, and whether that is the one at the start.
fn to_old(capture: &[u8]) {
    let mut back = [0; OLD_FORM.len()];
    let told = door::to_old(capture, &mut back);
    match told.refusal {
        BAD_RECORD | NOT_HELD => {
            println!("to old: refused {}, record {}", told.refusal, told.record);
        }
        other => {
            must("zc_to_old", other);
            let same = if back[..told.bytes as usize] == OLD_FORM {
                "the same as at the start"
            } else {
                "not the same"
            };
            println!("to old: {} bytes, {same}", told.bytes);
        }
    }
}

fn main() {
    print_records("old", &OLD_FORM, RECORD);
    let mut new_form = [0; 4 * RECORD_NEW];
    let told = door::to_new(&OLD_FORM, &mut new_form);
    must("zc_to_new", told.refusal);
    print_records("new", &new_form[..told.bytes as usize], RECORD_NEW);

    // Amid seat 0's Baud Rate Set.
    let mut two_seats = new_form.to_vec();
    let at = PLACE * RECORD_NEW;
    two_seats.splice(at..at, of_seat_1(4660));
    print_records("and seat 1 at tick 4660", &two_seats, RECORD_NEW);

    replay(&two_seats);
    to_old(&two_seats);
    to_old(&new_form);
}
