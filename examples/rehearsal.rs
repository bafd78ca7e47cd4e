//! A rehearsal from Rust: the proved dock rewrites two blocks of the proved chip, over flash that is not blank (document 01, "The dock's flow"). Each frame is
//! a line: its first bytes, and the chip's answer.

mod bench;

use bench::door::{self, Job, DOCK};
use bench::{hex, must, print_end, rehearse, Chip};

const START: usize = 0x1800;
const END: usize = 0x1FFF;

fn main() {
    let mut chip = Chip::taken_up(vec![0x5A; 1024 * 16], vec![0xFF; 1024 * 4]);

    // Code blocks 6 and 7, at 115,200 baud and 3.3 V, with up to three retries.
    let image: Vec<u8> = (0..END + 1 - START)
        .map(|at| (7 * at + at / 256) as u8)
        .collect();
    let job = Job {
        part: chip.part,
        work: door::work(START as u32, END as u32, 0, 33, 3),
        image: &image,
    };
    let mut dock = [0; DOCK];
    must("zc_start", door::start(&job, &mut dock));

    let report = rehearse(&mut chip, &job, &mut dock, |_, _, frame, answer| {
        println!("{} -> {}", hex(frame, 12), hex(answer, answer.len()))
    });

    // By hand: three frames of setup, then for each block that is not blank 32h, 22h, 40h, four pages, 13h and four pages: 3 + 2 * 12 = 27.
    if !print_end(&report, &dock, &chip, START, &image) {
        std::process::exit(1);
    }
}
