//! The kept sums: what works them out, what renews one, what says one, and that nothing else does (02 §1); tests/write_over.rs has the pages over written flash.

mod common;

use common::*;
use twin::capture::{judge_record, Form, RECORD};
use twin::chip::{Event, Phase};
use twin::part::{Area, Part};
use twin::random::{random_capture, range_body, Generator};
use twin::replay::{events, replay_part, Player};
use twin::sums::{slot_of, sum_of, work_out, Sums, SUMS};

/// The sum counted upwards and negated, not the way the twin does it.
fn upwards(bytes: &[u8]) -> u16 {
    let total: u64 = bytes.iter().map(|byte| u64::from(*byte)).sum();
    ((65_536 - total % 65_536) % 65_536) as u16
}

/// A wrong number in each slot, no two alike; none is the sum of a blank block.
fn spoiled() -> Sums {
    std::array::from_fn(|at| 0xB100 + 3 * at as u16)
}

/// Ready, with flash of all bytes and every sum wrong.
fn spoiled_bench(part: Part) -> Bench {
    let mut bench = Bench::ready_with(part);
    let mut bytes = Generator::new(11);
    bench.code.fill_with(|| bytes.byte());
    bench.data.fill_with(|| bytes.byte());
    bench.sums = spoiled();
    bench
}

fn blocks(part: &Part) -> Vec<(Area, usize)> {
    [Area::Code, Area::Data]
        .into_iter()
        .flat_map(|area| (0..part.blocks(area)).map(move |block| (area, block)))
        .collect()
}

fn first_address(part: &Part, (area, block): (Area, usize)) -> usize {
    part.start(area) + 1024 * block
}

fn bytes_of(bench: &Bench, (area, block): (Area, usize)) -> &[u8] {
    let flash = match area {
        Area::Code => &bench.code,
        Area::Data => &bench.data,
    };
    &flash[1024 * block..1024 * (block + 1)]
}

fn erase(bench: &mut Bench, block: (Area, usize)) -> Vec<Vec<u8>> {
    let start = first_address(&bench.part, block);
    bench.say(&frame(0x01, &range_body(0x22, start, 0)[..4], 0x03))
}

/// B0h from one block to another of the same area.
fn checksum(bench: &mut Bench, first: (Area, usize), last: (Area, usize)) -> u16 {
    let start = first_address(&bench.part, first);
    let end = first_address(&bench.part, last) + 1023;
    let answer = bench.say(&frame(0x01, &range_body(0xB0, start, end), 0x03));
    assert_eq!(answer.len(), 2);
    assert_eq!(answer[..1], status(0x06));
    let [0x02, 0x02, low, high, _, 0x03] = answer[1][..] else {
        panic!("{answer:?}");
    };
    u16::from_le_bytes([low, high])
}

#[test]
fn where_the_sums_lie() {
    assert_eq!(SUMS, 64 + 8);
    assert_eq!(slot_of(Area::Code, 0), 0);
    assert_eq!(slot_of(Area::Code, 63), 63);
    assert_eq!(slot_of(Area::Data, 0), 64);
    assert_eq!(slot_of(Area::Data, 7), 71);
}

#[test]
fn sums_of_few_bytes() {
    assert_eq!(sum_of(&[]), 0x0000);
    assert_eq!(sum_of(&[0x01]), 0xFFFF);
    assert_eq!(sum_of(&[0xFF; 1024]), 0x0400);
    assert_eq!(sum_of(&ramp()), 0x8080);
}

#[test]
fn worked_out_when_a_chip_is_taken_up() {
    for (code_blocks, data_blocks) in [(8, 0), (16, 4), (16, 1), (64, 8), (64, 0), (8, 8)] {
        let part = part_of(code_blocks, data_blocks, 32);
        let mut fresh = Bench::fresh(part.clone());
        fresh.sums = spoiled();
        fresh.work_out();
        let mut full = spoiled_bench(part.clone());
        full.work_out();
        let mut absent = spoiled().to_vec();
        for block in blocks(&part) {
            let at = slot_of(block.0, block.1);
            assert_eq!(fresh.sums[at], 0x0400);
            assert_eq!(full.sums[at], upwards(bytes_of(&full, block)));
            absent[at] = full.sums[at];
        }
        assert_eq!(full.sums[..], absent);
    }
}

#[test]
fn working_out_refused() {
    for faults in 1..8u8 {
        let mut bench = spoiled_bench(replay_part());
        if faults & 1 != 0 {
            bench.part.clock = 33;
        }
        if faults & 2 != 0 {
            bench.code.pop();
        }
        if faults & 4 != 0 {
            bench.data.push(0xFF);
        }
        let first = 1 + faults.trailing_zeros() as u8;
        let told = work_out(&bench.part, &bench.code, &bench.data, &mut bench.sums);
        assert_eq!(told, Err(first), "{faults}");
        assert_eq!(bench.sums, spoiled());
    }
}

#[test]
fn one_block_says_the_kept_sum_right_or_wrong() {
    for (code_blocks, data_blocks) in [(16, 4), (16, 1), (64, 8), (8, 0)] {
        let mut bench = spoiled_bench(part_of(code_blocks, data_blocks, 32));
        for block in blocks(&bench.part) {
            assert_eq!(
                checksum(&mut bench, block, block),
                spoiled()[slot_of(block.0, block.1)]
            );
        }
        assert_eq!(bench.sums, spoiled());
        bench.work_out();
        for block in blocks(&bench.part) {
            let said = checksum(&mut bench, block, block);
            assert_eq!(said, upwards(bytes_of(&bench, block)));
        }
    }
}

#[test]
fn more_blocks_say_the_sum_of_the_bytes() {
    let mut bench = spoiled_bench(replay_part());
    for (area, first, last) in [
        (Area::Code, 0, 1),
        (Area::Code, 14, 15),
        (Area::Code, 3, 9),
        (Area::Code, 0, 15),
        (Area::Data, 0, 1),
        (Area::Data, 2, 3),
        (Area::Data, 0, 3),
    ] {
        let flash = match area {
            Area::Code => &bench.code,
            Area::Data => &bench.data,
        };
        let expected = upwards(&flash[1024 * first..1024 * (last + 1)]);
        assert_eq!(
            checksum(&mut bench, (area, first), (area, last)),
            expected,
            "{area:?} {first} to {last}"
        );
    }
    assert_eq!(bench.sums, spoiled());
}

#[test]
fn an_erase_renews_its_own_sum() {
    for block in blocks(&replay_part()) {
        let mut bench = spoiled_bench(replay_part());
        // The second finds the block blank and its sum wrong again.
        for _ in 0..2 {
            bench.sums = spoiled();
            assert_eq!(erase(&mut bench, block), status(0x06));
            let mut expected = spoiled();
            expected[slot_of(block.0, block.1)] = 0x0400;
            assert_eq!(bench.sums, expected, "{block:?}");
        }
    }
}

#[test]
fn a_stored_page_renews_the_sum_of_its_block() {
    for block in blocks(&replay_part()) {
        let mut bench = spoiled_bench(replay_part());
        assert_eq!(erase(&mut bench, block), status(0x06));
        let start = first_address(&bench.part, block);
        let asked = frame(0x01, &range_body(0x40, start, start + 1023), 0x03);
        assert_eq!(bench.say(&asked), status(0x06));
        // The second page is FFh throughout: stored, though no byte differs.
        for (number, held) in [mixed(1), vec![0xFF; 256], mixed(2), mixed(3)]
            .iter()
            .enumerate()
        {
            bench.sums = spoiled();
            let footer = if number == 3 { 0x03 } else { 0x17 };
            let answer = bench.say(&page(held, footer));
            assert_eq!(answer[..1], pair(0x06, 0x06));
            let mut expected = spoiled();
            expected[slot_of(block.0, block.1)] = upwards(bytes_of(&bench, block));
            assert_eq!(bench.sums, expected, "{block:?}, page {number}");
        }
    }
}

/// Pages over two blocks: each renews the block it lies in.
#[test]
fn pages_over_more_blocks() {
    let mut bench = Bench::ready();
    bench.sums = spoiled();
    assert_eq!(bench.say_command("40 00 14 0F FF 1B 0F"), status(0x06));
    for number in 0..8 {
        let footer = if number == 7 { 0x03 } else { 0x17 };
        let answer = bench.say(&page(&mixed(number), footer));
        assert_eq!(answer[..1], pair(0x06, 0x06));
        let mut expected = spoiled();
        expected[65] = upwards(bytes_of(&bench, (Area::Data, 1)));
        if number >= 4 {
            expected[66] = upwards(bytes_of(&bench, (Area::Data, 2)));
        }
        assert_eq!(bench.sums, expected, "page {number}");
    }
}

/// "only the sums of blocks that the event touched may change": none here, and all of them are wrong.
#[test]
fn nothing_else_writes_a_sum() {
    let block_0 = |command: u8| awaiting(command, 0x000, 0x3FF, false);
    let mut cases: Vec<(Phase, u8, Vec<u8>, Vec<Vec<u8>>)> = Vec::new();
    let mut command_case = |flags: u8, body: &str, answer: u8| {
        cases.push((Phase::Ready, flags, command(body), status(answer)));
    };
    command_case(0xFF, "22 01 00 00", 0x05);
    command_case(0xFF, "22 00 40 00", 0x05);
    command_case(0xFF, "22 00 20 0F", 0x05);
    command_case(0xFB, "22 00 10 00", 0x10);
    command_case(0xFD, "22 00 0C 00", 0x10);
    command_case(0xFB, "22 00 10 0F", 0x10);
    command_case(0xFF, "22 00 00", 0x15);
    command_case(0xFF, "32 00 00 00 FF 03 00 00", 0x1B);
    command_case(0xFF, "32 00 04 00 FF 07 00 00", 0x06);
    command_case(0xFF, "32 00 00 00 FF 3F 00 01", 0x1B);
    command_case(0xFF, "40 00 00 00 FF 03 00", 0x06);
    command_case(0xEF, "40 00 00 00 FF 03 00", 0x10);
    command_case(0xFF, "40 00 00 00 FF 02 00", 0x05);
    command_case(0xFF, "13 00 00 00 FF 03 00", 0x06);
    command_case(0xFF, "00", 0x06);
    command_case(0xFF, "A0", 0x06);
    command_case(0xFF, "A2", 0x1B);
    command_case(0xFB, "A2", 0x10);
    command_case(0xFF, "55", 0x04);
    command_case(0xFF, "9A 00 21", 0x04);
    let ready = |bytes: &str, answer: u8| (Phase::Ready, 0xFF, hex(bytes), status(answer));
    cases.push(ready("01 04 22 00 04 00 D5 03", 0x07));
    cases.push(ready("01 04 22 00 04 00 D6 17", 0x15));
    // Block 0 holds the page mixed(1) at its start and FFh behind it.
    for (com, bytes, answer) in [
        (0x40, page(&mixed(1), 0x03), pair(0x15, 0x15)),
        (0x40, page(&mixed(1)[..255], 0x17), pair(0x15, 0x15)),
        (0x40, hex("02 01 00 FE 17"), pair(0x07, 0x07)),
        (0x13, page(&mixed(1), 0x17), pair(0x06, 0x06)),
        (0x13, page(&mixed(2), 0x17), pair(0x06, 0x06)),
        (0x13, page(&mixed(1), 0x03), pair(0x15, 0x15)),
        (
            0xA0,
            page(&hex("FB 03 01 00 0E 00 FF FF"), 0x03),
            status(0x06),
        ),
        (
            0xA0,
            page(&hex("FB 03 01 00 0E 00 FF 00"), 0x03),
            status(0x05),
        ),
    ] {
        cases.push((block_0(com), 0xFF, bytes, answer));
    }
    // The last page of 13h, with 0Fh for itself or for an earlier one.
    for (held, differed) in [(mixed(1), false), (vec![0xFF; 256], true)] {
        let last = awaiting(0x13, 0x300, 0x3FF, differed);
        cases.push((last, 0xFF, page(&held, 0x03), pair(0x06, 0x0F)));
    }
    cases.push((
        Phase::Setup,
        0xFF,
        command("9A 00 21"),
        vec![hex("02 03 06 20 00 D7 03")],
    ));
    cases.push((Phase::ModeByte, 0xFF, hex("3A"), vec![]));
    cases.push((Phase::Ready, 0xFF, hex("11 22 00 04 00 D6 03"), vec![]));
    for (phase, flags, bytes, answer) in cases {
        let mut bench = Bench::ready();
        bench.code[..256].copy_from_slice(&mixed(1));
        bench.chip.phase = phase;
        bench.chip.options.flags = flags;
        bench.sums = spoiled();
        assert_eq!(bench.say(&bytes), answer, "{bytes:02X?}");
        assert_eq!(bench.sums, spoiled(), "{bytes:02X?}");
        for event in [Event::Gap, Event::PowerOn] {
            assert!(bench.event(event).is_empty());
            assert_eq!(bench.sums, spoiled(), "{event:?} after {bytes:02X?}");
        }
    }
    for body in ["B0 00 00 00 FF 03 00", "B0 00 00 00 FF 3F 00", "C0", "A1"] {
        let mut bench = spoiled_bench(replay_part());
        assert_eq!(bench.say_command(body)[..1], status(0x06));
        assert_eq!(bench.sums, spoiled(), "{body}");
    }
    // A2h that is done, on blank flash.
    let mut bench = Bench::ready();
    bench.chip.options.flags = 0xEF;
    bench.sums = spoiled();
    assert_eq!(bench.say_command("A2"), status(0x06));
    assert_eq!((bench.chip.options.flags, bench.sums), (0xFF, spoiled()));
}

/// "If they were right before an event, each equals the sum worked out afresh after it", over whole captures.
#[test]
fn right_sums_stay_right() {
    let mut renewed = 0;
    for seed in 1..=300 {
        let mut player = Player::fresh();
        for record in random_capture(Form::Old, seed).chunks_exact(RECORD) {
            let Some(good) = judge_record(Form::Old, record) else {
                break;
            };
            for event in events(&good) {
                let before = player.sums;
                let said = player.hear(event).frames > 0;
                renewed += u64::from(player.sums != before);
                assert!(said || player.sums == before);
                for block in blocks(&player.part).into_iter().filter(|_| said) {
                    let flash = match block.0 {
                        Area::Code => &player.code,
                        Area::Data => &player.data,
                    };
                    let bytes = &flash[1024 * block.1..1024 * (block.1 + 1)];
                    assert_eq!(player.sums[slot_of(block.0, block.1)], upwards(bytes));
                }
            }
        }
    }
    assert!(renewed > 1000, "{renewed}");
}
