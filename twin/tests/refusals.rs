//! Refusals: each number exactly when 01 says, their order with several faults, nothing changed (01 "Refusal numbers").

mod common;

use common::*;
use twin::chip::{Answer, Chip, Event, Phase};
use twin::sums::SUMS;

const EVENTS: [Event; 5] = [
    Event::Byte(0x01),
    Event::Byte(0x02),
    Event::Byte(0x3A),
    Event::Gap,
    Event::PowerOn,
];

/// Every event on this bench and room gets that refusal, and nothing changes, a wrong sum neither.
fn refused(bench: &Bench, room: usize, number: u8) {
    let mut bench = bench.clone();
    bench.sums = [0xB10C; SUMS];
    for event in EVENTS {
        let mut tried = bench.clone();
        let mut lent = vec![FILLER; room];
        let answer = tried.event_in(event, &mut lent);
        assert_eq!(answer, Answer::Refused(number), "{event:?}");
        assert_eq!(tried, bench);
        assert!(lent.iter().all(|byte| *byte == FILLER));
    }
}

fn accepted(bench: &Bench) {
    for event in EVENTS {
        let mut lent = [FILLER; 32];
        let answer = bench.clone().event_in(event, &mut lent);
        assert!(matches!(answer, Answer::Replied { .. }), "{answer:?}");
    }
}

fn changed(change: impl Fn(&mut Bench)) -> Bench {
    let mut bench = Bench::ready();
    change(&mut bench);
    bench
}

#[test]
fn part_outside_the_numbers() {
    for (code_blocks, data_blocks, clock) in [
        (7, 4, 32),
        (65, 4, 32),
        (0, 4, 32),
        (256 + 16, 4, 32),
        (16, 9, 32),
        (16, 260, 32),
        (16, 4, 0),
        (16, 4, 33),
        (16, 4, 256 + 32),
        (u32::MAX, u32::MAX, u32::MAX),
    ] {
        let part = part_of(code_blocks, data_blocks, clock);
        assert_eq!(Chip::fresh(&part), Err(1));
        let bench = changed(|bench| bench.part = part.clone());
        refused(&bench, 32, 1);
    }
    for (code_blocks, data_blocks, clock) in [(8, 0, 1), (64, 8, 32), (16, 4, 20)] {
        accepted(&Bench::ready_with(part_of(code_blocks, data_blocks, clock)));
    }
}

#[test]
fn slices_of_wrong_length() {
    refused(&changed(|bench| bench.code.push(0xFF)), 32, 2);
    refused(&changed(|bench| bench.code.truncate(16_383)), 32, 2);
    refused(&changed(|bench| bench.code.clear()), 32, 2);
    refused(&changed(|bench| bench.data.push(0xFF)), 32, 3);
    refused(&changed(|bench| bench.data.truncate(4_095)), 32, 3);
    let mut none = Bench::ready_with(part_of(16, 0, 32));
    none.data = vec![0xFF];
    refused(&none, 32, 3);
}

#[test]
fn room_is_tested_for_every_event() {
    for room in [0, 5, 31] {
        refused(&Bench::ready(), room, 4);
        refused(&Bench::fresh(part_of(16, 4, 32)), room, 4);
    }
    accepted(&Bench::ready());
}

fn collecting(phase: Phase, bytes: &[u8], count: usize) -> Bench {
    changed(|bench| {
        bench.chip.phase = phase;
        bench.chip.collected = [0xEE; 260];
        bench.chip.collected[..bytes.len()].copy_from_slice(bytes);
        bench.chip.count = count;
    })
}

const DATA: Phase = awaiting(0x40, 0, 0x3FF, false);

#[test]
fn collector_states() {
    for (phase, bytes, count) in [
        (Phase::ModeByte, &[0x3A][..], 1),
        (Phase::ModeByte, &[0x01], 1),
        (Phase::ModeByte, &[], usize::MAX),
        (Phase::Setup, &[0x02], 1),
        (Phase::Ready, &[0x02], 1),
        (Phase::Ready, &[0x00, 0x01], 2),
        (Phase::Ready, &[0x01, 0x01], 5),
        (Phase::Ready, &[0x01, 0x01], 6),
        (Phase::Ready, &[0x01, 0xFF], 259),
        (Phase::Ready, &[0x01, 0x00], 260),
        (Phase::Ready, &[0x01, 0x00], 261),
        (Phase::Ready, &[0x01, 0x00], usize::MAX),
        (DATA, &[0x01, 0x00], 2),
        (DATA, &[0x02, 0x08], 12),
    ] {
        refused(&collecting(phase, bytes, count), 32, 9);
    }
    for (phase, bytes, count) in [
        (Phase::ModeByte, &[0xEE][..], 0),
        (Phase::Setup, &[0x01], 1),
        (Phase::Ready, &[0x01], 1),
        (Phase::Ready, &[0xEE, 0xEE], 0),
        (Phase::Ready, &[0x01, 0x01], 4),
        (Phase::Ready, &[0x01, 0xFF], 258),
        (Phase::Ready, &[0x01, 0x00], 2),
        (Phase::Ready, &[0x01, 0x00], 259),
        (DATA, &[0x02], 1),
        (DATA, &[0x02, 0x08], 11),
    ] {
        accepted(&collecting(phase, bytes, count));
    }
}

#[test]
fn rates_and_options() {
    refused(&changed(|bench| bench.chip.rate = 0x04), 32, 9);
    refused(&changed(|bench| bench.chip.rate = 0xFF), 32, 9);
    for phase in [Phase::ModeByte, Phase::Setup, Phase::Ready] {
        accepted(&changed(|bench| {
            bench.chip.rate = 0x03;
            bench.chip.phase = phase;
        }));
    }
    for flags in 0..=255u8 {
        let bench = changed(|bench| bench.chip.options.flags = flags);
        let fixed = [0, 3, 5, 6, 7].iter().all(|bit| flags >> bit & 1 == 1);
        if fixed {
            accepted(&bench);
        } else {
            refused(&bench, 32, 9);
        }
    }
    for boot in [0x00, 0x02, 0x04, 0xFF] {
        refused(&changed(|bench| bench.chip.options.boot = boot), 32, 9);
    }
    for (start, end, good) in [
        (0, 15, true),
        (15, 15, true),
        (0, 0, true),
        (0, 16, false),
        (8, 7, false),
        (0, 0x100, false),
        (0x10F, 0x10F, false),
    ] {
        let bench = changed(|bench| {
            bench.chip.options.start = start;
            bench.chip.options.end = end;
        });
        if good {
            accepted(&bench);
        } else {
            refused(&bench, 32, 9);
        }
    }
}

#[test]
fn phase_4_states() {
    // A difference that is handed in bars none of the three, at the range's first page neither (02 §2).
    for (command, differed) in (0..=255u8).flat_map(|com| [(com, false), (com, true)]) {
        let bench = changed(|bench| bench.chip.phase = awaiting(command, 0, 0x3FF, differed));
        if [0x40, 0x13, 0xA0].contains(&command) {
            accepted(&bench);
        } else {
            refused(&bench, 32, 9);
        }
    }
    for command in [0x40, 0x13] {
        for (next, last) in [
            (0x001, 0x3FF),
            (0x080, 0x3FF),
            (0x000, 0x3FE),
            (0x000, 0x0FF),
            (0x000, 0x400),
            (0x400, 0x3FF),
            (0x000, 0x43FF),
            (0x4000, 0x43FF),
            (0x000, 0xF13FF),
            (0xF0F00, 0xF13FF),
            (0xF1000, 0xF23FF),
            (0xF1000, 0x3FF),
            (0, usize::MAX),
            (usize::MAX - 255, usize::MAX),
        ] {
            refused(&Bench::awaiting(command, next, last), 32, 9);
        }
        for (next, last) in [
            (0x000, 0x3FF),
            (0x300, 0x3FF),
            (0x100, 0x3FFF),
            (0x3F00, 0x3FFF),
            (0xF1000, 0xF1FFF),
            (0xF1F00, 0xF1FFF),
        ] {
            accepted(&Bench::awaiting(command, next, last));
        }
    }
    for (next, last) in [(0, 0), (1, 0), (usize::MAX, 7)] {
        accepted(&Bench::awaiting(0xA0, next, last));
    }
    accepted(&changed(|bench| {
        bench.chip.phase = DATA;
        bench.chip.options.flags = 0xE9;
    }));
    // The same range is outside a part without data flash.
    let mut bench = Bench::ready_with(part_of(16, 0, 32));
    bench.chip.phase = awaiting(0x40, 0xF1000, 0xF13FF, false);
    refused(&bench, 32, 9);
}

#[test]
fn order_with_two_faults() {
    type Fault = (u8, fn(&mut Bench));
    let faults: [Fault; 4] = [
        (1, |bench| bench.part.clock = 0),
        (2, |bench| bench.code.push(0)),
        (3, |bench| bench.data.clear()),
        (9, |bench| bench.chip.rate = 4),
    ];
    for (index, (first, apply_first)) in faults.iter().enumerate() {
        let alone = changed(apply_first);
        refused(&alone, 32, *first);
        refused(&alone, 31, *first);
        for (_, apply_second) in &faults[index + 1..] {
            let both = changed(|bench| {
                apply_first(bench);
                apply_second(bench);
            });
            refused(&both, 32, *first);
            refused(&both, 0, *first);
        }
    }
    let all = changed(|bench| faults.iter().for_each(|(_, apply)| apply(bench)));
    refused(&all, 0, 1);
}
