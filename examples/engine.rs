//! A capture by the plain engine, from Rust (document 02, section 7): all bytes between two gaps are one stretch, handed in at once. Each line says what is told of
//! a stretch, and the reply frames to it follow. What is printed of the frames is what a replay prints of the same records.

#[path = "../include/door.rs"]
mod door;

use door::{engine, fresh, gap, sums, ROOM, STATE, SUMS};

const NAMES: &[u8; door::NAMES] = b"\x10\x00\x06R5F100LE  \x01\x02\x03";

/// The bytes of a capture between its gaps: the mode byte and 9Ah; a frame whose SUM is wrong, with a good Reset inside that is not heard, then A1h, and a frame
/// begun, which the gap drops; and a Reset, with a frame begun behind it.
const STRETCHES: [&[u8]; 3] = [
    &[0x3A, 0x01, 0x03, 0x9A, 0x00, 0x21, 0x42, 0x03],
    &[
        0x01, 0x05, 0x01, 0x01, 0x00, 0xFF, 0x03, 0xF6, 0x03, 0x01, 0x01, 0xA1, 0x5E, 0x03, 0x01,
        0x07, 0xB0,
    ],
    &[0x01, 0x01, 0x00, 0xFF, 0x03, 0x01, 0x01, 0xC0],
];

fn main() {
    let part = door::part(16, 4, 32, NAMES);
    let mut state = [0; STATE];
    let (mut code, mut data, mut kept) = ([0xFF; 16 * 1024], [0xFF; 4 * 1024], [0; SUMS]);
    assert_eq!(fresh(&part, &mut state), 0, "the part is described");
    let told = sums(&part, &code, &data, &mut kept);
    assert_eq!(told, 0, "its flash is as long as it says");
    let mut frames = 0;
    for stretch in STRETCHES {
        // 32 bytes for each byte fed, whatever is said to them.
        let mut room = vec![0; ROOM * stretch.len()];
        let told = engine(
            &part, &mut state, stretch, &mut code, &mut data, &mut kept, &mut room,
        );
        assert_eq!(told.refusal, 0, "the room is long enough");
        let fault = match told.fault {
            door::FAULT_NONE => String::new(),
            fault => {
                let what = ["wrong footer", "wrong SUM", "unfit LEN"][fault as usize - 1];
                format!(" ({what}, byte {})", told.place)
            }
        };
        // A count of collected bytes is never over 259.
        let held = u16::from_le_bytes([state[25], state[26]]);
        println!(
            "{} bytes fed, reply frames: {}, bad frames: {}{fault}, bytes held: {held}",
            stretch.len(),
            told.frames,
            told.faults
        );
        let mut rest = &room[..told.bytes as usize];
        while let [_, len, ..] = *rest {
            let (frame, after) = rest.split_at(usize::from(len) + 4);
            let line: Vec<String> = frame.iter().map(|byte| format!("{byte:02X}")).collect();
            println!("{}", line.join(" "));
            rest = after;
        }
        frames += told.frames;
        let told = gap(
            &part,
            &mut state,
            &mut code,
            &mut data,
            &mut kept,
            &mut [0; ROOM],
        );
        assert_eq!(told.refusal, 0, "a gap is refused for nothing else");
    }
    println!("END {frames}");
}
