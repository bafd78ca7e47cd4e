//! The rehearsal of examples/ by this dock and this chip: they say, frame by frame, what examples/rehearsal.stdout expects of the proved library.

use std::fmt::Write;

use twin::chip::{step, Answer, Chip, Event};
use twin::dock::{answer, ask, start, Job, Report, SMALLEST_ROOM};
use twin::part::Area;
use twin::replay::{hex_line, replay_part};
use twin::sums::{work_out, SUMS};

const START: usize = 0x1800;
const END: usize = 0x1FFF;
const SHOWN: usize = 12;
const EXPECTED: &str = concat!(env!("CARGO_MANIFEST_DIR"), "/../examples/rehearsal.stdout");

#[test]
fn two_blocks_over_flash_that_is_not_blank() {
    let part = replay_part();
    let mut chip = Chip::fresh(&part).unwrap();
    let mut code = vec![0x5A; part.size(Area::Code)];
    let mut data = vec![0xFF; part.size(Area::Data)];
    let mut sums = [0; SUMS];
    work_out(&part, &code, &data, &mut sums).unwrap();
    let mut event = |event: Event, said: &mut Vec<u8>, code: &mut [u8]| {
        let mut room = [0; 32];
        let told = step(
            &part, &mut chip, event, code, &mut data, &mut sums, &mut room,
        );
        let Answer::Replied { bytes, .. } = told else {
            panic!("{told:?}");
        };
        said.extend(&room[..bytes]);
    };

    let image: Vec<u8> = (0..END + 1 - START)
        .map(|at| (7 * at + at / 256) as u8)
        .collect();
    let job = Job {
        part: part.clone(),
        start: START as u64,
        end: END as u64,
        rate: 0,
        supply: 33,
        retries: 3,
    };
    let mut dock = start(&job, &image).unwrap();

    event(Event::Byte(0x3A), &mut Vec::new(), &mut code);
    let mut text = String::new();
    let (frames, retries) = loop {
        let mut room = [0; SMALLEST_ROOM];
        let length = ask(&job, &image, &mut dock, &mut room).unwrap();
        let frame = &room[..length];
        let mut said = Vec::new();
        event(Event::Gap, &mut said, &mut code);
        for byte in frame {
            event(Event::Byte(*byte), &mut said, &mut code);
        }
        let more = if length > SHOWN { " .." } else { "" };
        let shown = hex_line(&frame[..length.min(SHOWN)]);
        writeln!(text, "{shown}{more} -> {}", hex_line(&said)).unwrap();
        match answer(&job, &image, &mut dock, &said).unwrap() {
            Report::GoesOn => {}
            Report::Finished { frames, retries } => break (frames, retries),
            failed => panic!("{failed:?}"),
        }
    };
    assert_eq!((frames, retries), (3 + 2 * 12, 0));
    assert_eq!(code[START..=END], image);
    writeln!(text, "finished, {frames} frames, {retries} retries").unwrap();
    writeln!(text, "{START:05X}h to {END:05X}h holds the image").unwrap();
    assert_eq!(std::fs::read_to_string(EXPECTED).unwrap(), text);
}
