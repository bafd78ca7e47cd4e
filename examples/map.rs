//! A map of blocks from Rust, as a bench screen draws it after every frame (document 02, section 1): the proved dock rewrites four blocks of the proved chip, and
//! each block is one character that its kept sum alone decides. On a terminal the map is drawn again where it stands; elsewhere each one is a line more.
//! A sum is not the bytes: other bytes may have the sum of the image's block. 13h, which the dock sends after each 40h, compares the bytes themselves.

mod bench;

use std::io::{stdout, IsTerminal};
use std::time::Duration;

use bench::door::{self, Job, DATA_SUMS, DOCK, SUMS};
use bench::{must, print_end, rehearse, Chip};

/// Code blocks 6 to 9.
const START: usize = 0x1800;
const END: usize = 0x27FF;
const BLOCK: usize = 1024;
const FIRST: usize = START / BLOCK;
/// What B0h says of a block of FFh (document 01, "Examples").
const BLANK: u16 = 0x0400;

/// What a kept sum is compared with, and how the map is drawn.
struct Screen {
    at_start: [u16; SUMS],
    of_image: Vec<u16>,
    terminal: bool,
    drawn: bool,
}

/// 0000h less each byte, in 16 bits, as B0h does it.
fn sum_of(bytes: &[u8]) -> u16 {
    bytes
        .iter()
        .fold(0, |sum: u16, byte| sum.wrapping_sub(u16::from(*byte)))
}

impl Screen {
    fn mark(&self, sums: &[u16; SUMS], slot: usize) -> char {
        let wanted = slot.checked_sub(FIRST).and_then(|at| self.of_image.get(at));
        match sums[slot] {
            sum if wanted == Some(&sum) => '#',
            BLANK => '.',
            sum if sum == self.at_start[slot] => 'o',
            _ => 'w',
        }
    }

    /// The map, and the frame after which it is drawn: the dock's state names it until its answer is handed in.
    fn draw(&mut self, chip: &Chip, dock: &[u8; DOCK]) {
        if self.terminal && self.drawn {
            std::thread::sleep(Duration::from_millis(100));
            print!("\x1b[A"); // one line up
        }
        self.drawn = true;
        let marks = |from: usize, flash: &[u8]| -> String {
            (from..from + flash.len() / BLOCK)
                .map(|slot| self.mark(&chip.sums, slot))
                .collect()
        };
        let (code, data) = (marks(0, &chip.code), marks(DATA_SUMS, &chip.data));
        let rest = if self.terminal { "\x1b[K" } else { "" }; // nothing stays of a longer line
        println!("code {code}  data {data}  {}{rest}", named(dock));
    }
}

/// The frame that was asked for last; door.h says where a dock's state names it.
fn named(dock: &[u8; DOCK]) -> String {
    let number = |at: usize| u32::from_le_bytes(dock[at..at + 4].try_into().unwrap());
    let mut name = match dock[0] {
        _ if number(6) == 0 => return "taken up".to_string(),
        1 => "9Ah",
        2 => "00h",
        3 => "C0h",
        4 => "32h",
        5 => "22h",
        6 | 7 => "40h",
        _ => "13h",
    }
    .to_string();
    if dock[10] == 1 {
        name += &format!(", block {}", FIRST as u32 + number(11));
    }
    if dock[15] == 1 {
        name += &format!(", page {}", number(16));
    }
    format!("frame {:2}, {name}", number(6))
}

fn main() {
    // An older program in the lower half of code flash, and two save slots that are taken.
    let half = |blocks: usize| {
        [
            vec![0x5A; blocks / 2 * BLOCK],
            vec![0xFF; blocks / 2 * BLOCK],
        ]
        .concat()
    };
    let mut chip = Chip::taken_up(half(16), half(4));

    let image: Vec<u8> = (0..END + 1 - START)
        .map(|at| (at * at / 5 + at / 256) as u8)
        .collect();
    let job = Job {
        part: chip.part,
        work: door::work(START as u32, END as u32, 0, 33, 3),
        image: &image,
    };
    let mut dock = [0; DOCK];
    must("zc_start", door::start(&job, &mut dock));
    let mut screen = Screen {
        at_start: chip.sums,
        of_image: image.chunks(BLOCK).map(sum_of).collect(),
        terminal: stdout().is_terminal(),
        drawn: false,
    };

    println!("by its sum alone a block is: . blank, o as at the start, w being written, # as the image has it");
    screen.draw(&chip, &dock);
    let report = rehearse(&mut chip, &job, &mut dock, |chip, dock, _, _| {
        screen.draw(chip, dock)
    });

    let done = print_end(&report, &dock, &chip, START, &image);
    let mut afresh = [0; SUMS];
    must(
        "zc_sums",
        door::sums(&chip.part, &chip.code, &chip.data, &mut afresh),
    );
    let right = if chip.sums == afresh {
        "those"
    } else {
        "not those"
    };
    println!("the kept sums are {right} worked out afresh");
    if !done || chip.sums != afresh {
        std::process::exit(1);
    }
}
