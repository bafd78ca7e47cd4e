//! Records of the old form, the printed lines, and random captures (01 "Replay"); tests/forms.rs has the new form.

mod common;

use std::io::{self, Read};

use common::*;
use twin::capture::{bytes_record, judge_record, Form, CARRIED, RECORD};
use twin::chip::{Event, Phase};
use twin::part::Part;
use twin::random::{random_capture, Tally};
use twin::replay::{events, replay, split_frames, Outcome, Player};

const CAPTURES: u64 = 2_000;

/// Bytes in full records of six, as many as it takes.
fn records(bytes: &[u8]) -> Vec<u8> {
    bytes.chunks(CARRIED).flat_map(bytes_record).collect()
}

fn replay_text(capture: &[u8]) -> String {
    twin::replay::replay_text(Form::Old, capture)
}

fn setup() -> Vec<u8> {
    let mut bytes = vec![0x3A];
    bytes.extend(command("9A 00 21"));
    bytes
}

#[test]
fn empty_capture() {
    assert_eq!(replay_text(&[]), "END 0\n");
    assert_eq!(replay_text(&[0; 8]), "END 0\n");
}

#[test]
fn bad_records() {
    for bad in [
        "02 01 00 00 00 00 00 00",
        "FF 00 00 00 00 00 00 00",
        "00 01 00 00 00 00 00 00",
        "00 00 01 00 00 00 00 00",
        "00 00 00 00 00 00 00 01",
        "01 00 00 00 00 00 00 00",
        "01 07 01 01 01 01 01 01",
        "01 FF 01 01 01 01 01 01",
        "01 01 3A 01 00 00 00 00",
        "01 05 3A 01 00 00 00 01",
    ] {
        assert_eq!(replay_text(&hex(bad)), "BAD 0\n", "{bad}");
        let mut capture = vec![0; 24];
        capture.extend(hex(bad));
        capture.extend([0; 8]);
        assert_eq!(replay_text(&capture), "BAD 3\n", "{bad}");
    }
}

#[test]
fn short_records() {
    for length in 1..8 {
        assert_eq!(replay_text(&vec![0x00; length]), "BAD 0\n");
        let mut capture = records(&setup());
        let number = capture.len() / 8;
        capture.extend(vec![0x00; length]);
        let printed = format!("02 03 06 20 00 D7 03\nBAD {number}\n");
        assert_eq!(replay_text(&capture), printed);
    }
}

#[test]
fn bad_record_is_not_heard() {
    let mut capture = records(&setup());
    let number = capture.len() / 8;
    // Five good bytes of a Reset, but the unused sixth is not 00h.
    capture.extend(hex("01 05 01 01 00 FF 03 01"));
    let printed = format!("02 03 06 20 00 D7 03\nBAD {number}\n");
    assert_eq!(replay_text(&capture), printed);
}

#[test]
fn signature_prints_two_lines() {
    let mut bytes = setup();
    bytes.extend(command("C0"));
    let printed = "02 03 06 20 00 D7 03
02 01 06 F9 03
02 16 10 00 06 52 35 46 31 30 30 4C 45 20 20 FF 3F 00 FF 1F 0F 01 02 03 34 03
END 3
";
    assert_eq!(replay_text(&records(&bytes)), printed);
}

#[test]
fn one_record_with_four_reply_frames() {
    let mut capture = records(&setup());
    // 01 01 C0 3F, then 03 01 01 C0 3F 03: both frames complete in the second record.
    capture.extend(hex("01 04 01 01 C0 3F 00 00"));
    capture.extend(hex("01 06 03 01 01 C0 3F 03"));
    let text = replay_text(&capture);
    assert!(text.ends_with("END 5\n"));
    assert_eq!(text.lines().count(), 6);
}

#[test]
fn gap_record_drops_what_is_collected() {
    let mut capture = records(&setup());
    capture.extend(records(&hex("01 01 A1")));
    capture.extend([0; 8]);
    capture.extend(records(&command("00")));
    let printed = "02 03 06 20 00 D7 03\n02 01 06 F9 03\nEND 2\n";
    assert_eq!(replay_text(&capture), printed);
}

/// Hands out one byte at a time, and is interrupted in between.
struct Trickle<'a> {
    bytes: &'a [u8],
    interrupted: bool,
}

impl Read for Trickle<'_> {
    fn read(&mut self, buffer: &mut [u8]) -> io::Result<usize> {
        self.interrupted = !self.interrupted;
        if self.interrupted {
            return Err(io::ErrorKind::Interrupted.into());
        }
        let take = self.bytes.len().min(buffer.len()).min(1);
        buffer[..take].copy_from_slice(&self.bytes[..take]);
        self.bytes = &self.bytes[take..];
        Ok(take)
    }
}

#[test]
fn any_reader_gives_the_same_text() {
    for seed in 0..50 {
        let capture = random_capture(Form::Old, seed);
        let mut output = Vec::new();
        let trickle = Trickle {
            bytes: &capture,
            interrupted: false,
        };
        replay(Form::Old, trickle, &mut output, |_| ()).unwrap();
        assert_eq!(String::from_utf8(output).unwrap(), replay_text(&capture));
    }
}

#[test]
fn same_seed_same_capture() {
    for seed in 0..50 {
        assert_eq!(
            random_capture(Form::Old, seed),
            random_capture(Form::Old, seed)
        );
    }
    assert_ne!(random_capture(Form::Old, 1), random_capture(Form::Old, 2));
}

#[test]
fn random_captures_reach_every_status() {
    let mut tally = Tally::new();
    let (mut ended, mut bad, mut frames) = (0, 0, 0);
    for seed in 1..=CAPTURES {
        let capture = random_capture(Form::Old, seed);
        let mut output = Vec::new();
        let outcome = replay(Form::Old, &capture[..], &mut output, |answer| {
            tally.hear(answer)
        })
        .unwrap();
        let text = String::from_utf8(output).unwrap();
        let lines = text.lines().count() as u64;
        match outcome {
            Outcome::End(count) => {
                assert_eq!(lines, count + 1);
                assert!(text.ends_with(&format!("END {count}\n")));
                ended += 1;
            }
            Outcome::Bad(number) => {
                assert!(text.ends_with(&format!("BAD {number}\n")));
                bad += 1;
            }
        }
        frames += lines - 1;
    }
    println!("{CAPTURES} captures: {ended} END, {bad} BAD, {frames} reply frames");
    print!("{tally}");
    for status in [0x04, 0x05, 0x06, 0x07, 0x0F, 0x10, 0x15, 0x1B, 0x1C] {
        assert!(tally.of(status) > 100, "{status:02X}h too rare");
    }
    for status in [0x1A, 0x24] {
        assert_eq!(tally.of(status), 0);
    }
    assert!(ended > 0 && bad > 0);
}

/// A page that is its block's last.
fn ends_block(part: &Part, next: usize) -> bool {
    part.place(next)
        .is_some_and(|at| (at.offset + part.page_size()).is_multiple_of(part.block_size(at.area)))
}

/// The page of flash at this address.
fn held(player: &Player, next: usize) -> &[u8] {
    match next.checked_sub(0xF1000) {
        Some(offset) => &player.data[offset..offset + 256],
        None => &player.code[next..next + 256],
    }
}

/// How far random captures get into the chip's work.
#[derive(Default, Debug)]
struct Reach {
    commands: std::collections::BTreeMap<u8, u64>,
    options_stored: u64,
    protected: u64,
    released: u64,
    written: u64,
    written_data: u64,
    written_many: u64,
    /// Good pages of 40h over flash that isn't blank (02 §6), by what came of them: the same page 06h, more 0 bits 06h, 1Ch with mixed bytes, 1Ch with flash as it was.
    written_over: [u64; 4],
    verified: u64,
    /// Pages of 13h, not the last, that differ and get 06h 06h (02 §2).
    differed: u64,
    /// Last pages of 13h that are equal and tell of an earlier one.
    told_late: u64,
    bad_pages: u64,
    rates: u64,
    gaps_inside: u64,
    longest_frame: u64,
}

impl Reach {
    /// The page of flash that was awaited, before it came.
    fn page(&mut self, old: &[u8], after: &Player, next: usize, second: u8) {
        if old.iter().all(|byte| *byte == 0xFF) {
            return;
        }
        let changed = usize::from(old != held(after, next));
        self.written_over[match second {
            0x06 => changed,
            _ => 3 - changed,
        }] += 1;
    }

    fn hear(&mut self, before: &Player, old: &[u8], after: &Player, event: Event, reply: &[u8]) {
        let (was, is) = (&before.chip, &after.chip);
        if event == Event::Gap && was.count > 0 {
            self.gaps_inside += 1;
        }
        let frames = split_frames(reply);
        let Some(first) = frames.first() else {
            return;
        };
        if was.count == 259 {
            self.longest_frame += 1;
        }
        if let (
            Phase::Awaiting {
                command: 0x40,
                next,
                ..
            },
            [0x02, 0x02, 0x06, second, ..],
        ) = (was.phase, &first[..])
        {
            self.page(old, after, next, *second);
        }
        match was.phase {
            Phase::Awaiting { command: 0xA0, .. } if was.options != is.options => {
                self.options_stored += 1;
                self.protected += u64::from(is.options.flags != 0xFF);
            }
            Phase::Awaiting {
                command: 0x40,
                next,
                ..
            } if frames.len() == 2 => {
                self.written += 1;
                self.written_data += u64::from(next >= 0xF1000);
            }
            Phase::Awaiting {
                command: 0x40,
                next,
                ..
            } if ends_block(&before.part, next) && is.phase != Phase::Ready => {
                self.written_many += 1;
            }
            Phase::Awaiting {
                command: 0x40 | 0x13,
                ..
            } if first[2] != 0x06 => {
                self.bad_pages += 1;
            }
            Phase::Awaiting {
                command: 0x13,
                next,
                last,
                ..
            } => {
                let equal = held(after, next) == &is.collected[2..258];
                let on_last = next + 255 == last;
                self.verified += u64::from(on_last && first[3] == 0x06);
                self.differed += u64::from(!on_last && !equal && first[3] == 0x06);
                self.told_late += u64::from(on_last && equal && first[3] == 0x0F);
            }
            Phase::Setup | Phase::Ready if first[2] == 0x06 => {
                *self.commands.entry(was.collected[2]).or_default() += 1;
                self.released += u64::from(was.options != is.options);
                self.rates += u64::from(is.rate != was.rate);
            }
            _ => (),
        }
    }
}

#[test]
fn random_captures_reach_every_command() {
    let mut reach = Reach::default();
    for seed in 1..=300 {
        let capture = random_capture(Form::Old, seed);
        let mut player = Player::fresh();
        for record in capture.chunks_exact(RECORD) {
            let Some(good) = judge_record(Form::Old, record) else {
                break;
            };
            for event in events(&good) {
                let before = Player {
                    part: player.part.clone(),
                    chip: player.chip.clone(),
                    code: Vec::new(),
                    data: Vec::new(),
                    sums: player.sums,
                };
                let old = match player.chip.phase {
                    Phase::Awaiting {
                        command: 0x40,
                        next,
                        ..
                    } => held(&player, next).to_vec(),
                    _ => Vec::new(),
                };
                let reply = player.hear(event);
                assert_eq!(split_frames(&reply.bytes).len(), reply.frames);
                reach.hear(&before, &old, &player, event, &reply.bytes);
            }
        }
    }
    println!("{reach:?}");
    assert_eq!(reach.commands.len(), 11);
    assert!(
        reach.written_over.iter().all(|count| *count > 10),
        "{reach:?}"
    );
    for count in [
        reach.options_stored,
        reach.protected,
        reach.released,
        reach.written,
        reach.written_data,
        reach.written_many,
        reach.verified,
        reach.differed,
        reach.told_late,
        reach.bad_pages,
        reach.rates,
        reach.gaps_inside,
        reach.longest_frame,
    ] {
        assert!(count > 0, "{reach:?}");
    }
}
