//! Document 01's whole case from Rust: a fresh chip hears the four records and prints its reply frames.

#[path = "../include/door.rs"]
mod door;

use door::{fresh, replay, sums, BAD_RECORD, OUTPUT, ROOM, STATE, SUMS};

const NAMES: &[u8; door::NAMES] = b"\x10\x00\x06R5F100LE  \x01\x02\x03";

const WHOLE_CASE: [u8; 32] = [
    0x01, 0x01, 0x3A, 0x00, 0x00, 0x00, 0x00, 0x00, //
    0x01, 0x06, 0x01, 0x03, 0x9A, 0x00, 0x21, 0x42, //
    0x01, 0x01, 0x03, 0x00, 0x00, 0x00, 0x00, 0x00, //
    0x01, 0x05, 0x01, 0x01, 0xA1, 0x5E, 0x03, 0x00, //
];

fn main() {
    let part = door::part(16, 4, 32, NAMES);
    let mut state = [0; STATE];
    let (mut code, mut data, mut room) = ([0xFF; 16 * 1024], [0xFF; 4 * 1024], [0; ROOM]);
    let mut kept = [0; SUMS];
    assert_eq!(fresh(&part, &mut state), 0, "the part is described");
    assert_eq!(
        sums(&part, &code, &data, &mut kept),
        0,
        "its flash is as long as it says"
    );

    // Output enough for the replies to all records.
    let mut output = [0; OUTPUT * (WHOLE_CASE.len() / 8 + 1)];
    let told = replay(
        &part,
        &mut state,
        &WHOLE_CASE,
        &mut code,
        &mut data,
        &mut kept,
        &mut room,
        &mut output,
    );
    let mut rest = &output[..told.bytes as usize];
    while let [_, len, ..] = *rest {
        let end = if len == 0 { 260 } else { usize::from(len) + 4 };
        let line: Vec<String> = rest[..end]
            .iter()
            .map(|byte| format!("{byte:02X}"))
            .collect();
        println!("{}", line.join(" "));
        rest = &rest[end..];
    }
    match told.refusal {
        0 => println!("END {}", told.frames),
        BAD_RECORD => println!("BAD {}", told.records),
        number => println!("REFUSED {number}"),
    }
}
