//! Which byte was wrong, from Rust (document 02, section 4): damaged frames reach the proved chip, and damaged answers the proved dock, and each line ends with
//! what is told of them. On the wire, 15h alone does not say whether a footer or a LEN is wrong, nor which of a page's 260 bytes.

mod bench;

use bench::door::{self, Job, DOCK, FRAME_ROOM};
use bench::{fault_text, hex, must, Chip};

/// Code block 6.
const START: usize = 0x1800;
const END: usize = 0x1BFF;

fn bytes(text: &str) -> Vec<u8> {
    text.split(' ')
        .map(|pair| u8::from_str_radix(pair, 16).expect("a byte of two hex digits"))
        .collect()
}

/// A frame to the chip, after a pause: what it says, and what is told of the frame.
fn to_chip(chip: &mut Chip, sent: &[u8]) {
    chip.gap();
    let (_, reply, told) = chip.feed(sent);
    let fault = fault_text(told.fault, told.place);
    println!("{} -> {}{fault}", hex(sent, 12), hex(reply, reply.len()));
}

/// 40h for the block, and its first page: the first of the bytes 00h, 01h, 02h and so on, with this LEN, SUM and footer.
fn page_to_chip(chip: &mut Chip, len: u8, sum: u8, footer: u8) {
    let last = len.wrapping_sub(1);
    let page: Vec<u8> = [0x02, len]
        .into_iter()
        .chain(0..=last)
        .chain([sum, footer])
        .collect();
    to_chip(chip, &bytes("01 07 40 00 18 00 FF 1B 00 87 03"));
    to_chip(chip, &page);
}

/// The right answers to 9Ah and 00h.
const RIGHT: [&str; 2] = ["02 03 06 20 00 D7 03", "02 01 06 F9 03"];

/// An answer to a new dock, which has heard so many right ones before it: what a job that fails for it names.
fn to_dock(job: &Job, before: usize, heard: &str) {
    let (mut dock, mut frame, mut length) = ([0; DOCK], [0; FRAME_ROOM], 0);
    must("zc_start", door::start(job, &mut dock));
    for answer in RIGHT[..before].iter().chain([&heard]) {
        let (refusal, asked) = door::ask(job, &mut dock, &mut frame);
        must("zc_ask", refusal);
        length = asked as usize;
        let report = door::answer(job, &mut dock, &bytes(answer));
        must("zc_answer", report.refusal);
    }
    let why = if dock[20] == 3 { ", unreadable" } else { "" };
    let fault = fault_text(door::dock_fault(&dock), door::dock_place(&dock));
    println!("{} <- {heard}{why}{fault}", hex(&frame[..length], 12));
}

fn main() {
    let mut chip = Chip::taken_up(vec![0xFF; 1024 * 16], vec![0xFF; 1024 * 4]);
    for frame in [
        "01 03 9A 00 21 42 03",
        "01 01 A1 5D 03",
        "01 01 A1 5E 17",
        "01 02 A1 00 5D 03",
        // An unknown command, whatever its LEN: nothing is wrong with the frame.
        "01 02 55 00 A9 03",
        "01 01 A0 5F 03",
        "02 04 FF 80 40 22 1A 03",
    ] {
        to_chip(&mut chip, &bytes(frame));
    }
    // 03h on a page that is not the last, a wrong SUM, a page of 255 bytes, and the page as it should be.
    page_to_chip(&mut chip, 0x00, 0x80, 0x03);
    page_to_chip(&mut chip, 0x00, 0x81, 0x17);
    page_to_chip(&mut chip, 0xFF, 0x80, 0x17);
    page_to_chip(&mut chip, 0x00, 0x80, 0x17);

    let image = vec![0; END + 1 - START];
    let job = Job {
        part: chip.part,
        work: door::work(START as u32, END as u32, 0, 33, 3),
        image: &image,
    };
    for heard in [
        "02 03 06 20 00 D7 17",
        "02 03 06 21 00 D7 03",
        "02 01 06 F9 03",
        "02 03 06 20 00",
        "03 06 20 00 D7 03",
        // 05h is read, and ends the job by its status.
        "02 01 05 FA 03",
    ] {
        to_dock(&job, 0, heard);
    }
    // C0h is answered with two frames; the second is missing, or its SUM is wrong, whose place counts from that frame's own header.
    to_dock(&job, 2, "02 01 06 F9 03");
    to_dock(&job, 2, "02 01 06 F9 03 02 16 10 00 06 52 35 46 31 30 30 4C 45 20 20 FF 3F 00 FF 1F 0F 01 02 03 35 03");
}
