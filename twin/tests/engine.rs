//! The plain engine (02 §7): what the documents say of whole stretches, written down by hand, and the same as byte by byte on random traffic, wherever it is cut.

mod common;

use common::*;
use twin::capture::{bytes_record, Form};
use twin::chip::{Answer, Event, Options, Phase};
use twin::engine::{play, Said};
use twin::frame::LONGEST;
use twin::part::{Area, Part};
use twin::random::{random_capture, Generator};
use twin::replay::{hex_line, replay_part, replay_plain, replay_text, split_frames, Player};

/// What is said and told of a stretch: the replies' bytes, and faults as numbers.
#[derive(Clone, Debug, PartialEq)]
struct Heard {
    replies: Vec<u8>,
    frames: usize,
    faults: usize,
    first: (u8, u16),
}

fn by_engine_in(bench: &mut Bench, stretch: &[u8], room: &mut [u8]) -> Result<Said, u8> {
    play(
        &bench.part,
        &mut bench.chip,
        stretch,
        &mut bench.code,
        &mut bench.data,
        &mut bench.sums,
        room,
    )
}

/// By the engine, with just enough room. What lies behind the replies stays, and so do the collected bytes past the count.
fn by_engine(bench: &mut Bench, stretch: &[u8]) -> Heard {
    let spare = bench.chip.collected;
    let mut room = vec![FILLER; 32 * stretch.len()];
    let said = by_engine_in(bench, stretch, &mut room).unwrap();
    assert!(room[said.bytes..].iter().all(|byte| *byte == FILLER));
    let count = bench.chip.count;
    assert_eq!(bench.chip.collected[count..], spare[count..]);
    Heard {
        replies: room[..said.bytes].to_vec(),
        frames: said.frames,
        faults: said.faults,
        first: in_numbers(said.first),
    }
}

fn by_bytes(bench: &mut Bench, stretch: &[u8]) -> Heard {
    let mut heard = Heard {
        replies: Vec::new(),
        frames: 0,
        faults: 0,
        first: (0, 0),
    };
    for byte in stretch {
        let (frames, fault) = bench.judged(Event::Byte(*byte));
        heard.frames += frames.len();
        heard.replies.extend(frames.concat());
        if fault.is_some() && heard.faults == 0 {
            heard.first = in_numbers(fault);
        }
        heard.faults += usize::from(fault.is_some());
    }
    heard
}

/// Both hold the same, spare bytes apart.
fn assert_alike(engine: &Bench, stepped: &Bench) {
    let count = stepped.chip.count;
    assert_eq!(
        engine.chip.collected[..engine.chip.count],
        stepped.chip.collected[..count]
    );
    let mut chip = engine.chip.clone();
    chip.collected = stepped.chip.collected;
    assert_eq!(chip, stepped.chip);
    assert_eq!(engine.code, stepped.code);
    assert_eq!(engine.data, stepped.data);
    assert_eq!(engine.sums, stepped.sums);
}

/// A stretch by both, and in two pieces cut at each of these places; all must agree.
fn heard_at(bench: &mut Bench, stretch: &[u8], cuts: impl IntoIterator<Item = usize>) -> Heard {
    let before = bench.clone();
    let mut stepped = before.clone();
    let heard = by_engine(bench, stretch);
    assert_eq!(heard, by_bytes(&mut stepped, stretch));
    assert_alike(bench, &stepped);
    for cut in cuts {
        let (front, back) = stretch.split_at(cut);
        let mut pieces = before.clone();
        let first = by_engine(&mut pieces, front);
        let second = by_engine(&mut pieces, back);
        let joined = Heard {
            replies: [first.replies, second.replies].concat(),
            frames: first.frames + second.frames,
            faults: first.faults + second.faults,
            first: if first.faults > 0 {
                first.first
            } else {
                second.first
            },
        };
        assert_eq!(joined, heard, "cut at {cut}");
        assert_alike(&pieces, &stepped);
    }
    heard
}

/// The same, cut at every place.
fn heard(bench: &mut Bench, stretch: &[u8]) -> Heard {
    heard_at(bench, stretch, 0..=stretch.len())
}

/// Replies as written down: the frames of each answer.
fn replies(answers: &[Vec<Vec<u8>>]) -> Vec<u8> {
    answers.concat().concat()
}

fn frames_of(text: &[&str]) -> Vec<u8> {
    text.iter().flat_map(|frame| hex(frame)).collect()
}

// By hand, from the documents

#[test]
fn the_whole_case_in_one_stretch() {
    let mut bench = Bench::fresh(replay_part());
    let said = heard(&mut bench, &hex("3A 01 03 9A 00 21 42 03 01 01 A1 5E 03"));
    let due = frames_of(&[
        "02 03 06 20 00 D7 03",
        "02 01 06 F9 03",
        "02 08 FF 03 00 00 0F 00 FF FF E9 03",
    ]);
    assert_eq!((said.replies, said.frames), (due, 3));
    assert_eq!((said.faults, said.first), (0, (0, 0)));
    assert_eq!(bench.chip.phase, Phase::Ready);
    assert_eq!(bench.chip.count, 0);
}

/// An update without a pause: skipped bytes, the mode byte, 9Ah, 40h and its last page, 13h and a bad page each change what is sought next.
#[test]
fn the_header_changes_within_the_stretch() {
    let mut bench = Bench::fresh(replay_part());
    let pages: Vec<Vec<u8>> = (0..4)
        .map(|at| page(&mixed(at), if at == 3 { 0x03 } else { 0x17 }))
        .collect();
    let mut cut_page = pages[1].clone();
    cut_page[259] = 0x03;
    let stretch = [
        // 01h is no mode byte, and C0h before 9Ah is not allowed.
        &hex("01 02 FF 00")[..],
        &command("C0"),
        &command("9A 00 21"),
        // Bytes before 01h are skipped, 02h too.
        &hex("02 03 17"),
        &command("40 00 04 00 FF 07 00"),
        &hex("01 17"),
        &pages.concat(),
        &hex("02"),
        &command("13 00 04 00 FF 07 00"),
        &pages[0],
        // 03h on a page that is not the last ends the command; what follows is a command again, and a page is noise.
        &cut_page,
        &command("A0"),
        &page(&hex("EF 03 00 00 0F 00 FF FF"), 0x03),
        &command("A1"),
    ]
    .concat();
    let said = heard_at(&mut bench, &stretch, (0..=stretch.len()).step_by(7));
    let due = replies(&[
        status(0x04),
        vec![frame(0x02, &[0x06, 32, 0x00], 0x03)],
        status(0x06),
        pair(0x06, 0x06),
        pair(0x06, 0x06),
        pair(0x06, 0x06),
        pair(0x06, 0x06),
        status(0x06),
        status(0x06),
        pair(0x06, 0x06),
        pair(0x15, 0x15),
        status(0x06),
        status(0x06),
        status(0x06),
        vec![frame(0x02, &hex("EF 03 00 00 0F 00 FF FF"), 0x03)],
    ]);
    assert_eq!(said.replies, due);
    assert_eq!((said.frames, said.faults, said.first), (15, 1, (1, 259)));
    for (at, sent) in (0..4).map(|at| (0x400 + 256 * at, mixed(at))) {
        assert_eq!(bench.code[at..at + 256], sent[..]);
    }
    assert_eq!(bench.chip.phase, Phase::Ready);
    assert_eq!(bench.chip.options.flags, 0xEF);
}

/// 01 05, the five bytes of a good Reset, and a SUM that is not F7h: 07h, and the Reset inside is not heard. So with a bad page.
#[test]
fn a_bad_frame_is_not_scanned_again() {
    let mut bench = Bench::ready();
    let said = heard(
        &mut bench,
        &hex("01 05 01 01 00 FF 03 F6 03 01 01 A1 5E 03"),
    );
    let due = frames_of(&[
        "02 01 07 F8 03",
        "02 01 06 F9 03",
        "02 08 FF 03 00 00 0F 00 FF FF E9 03",
    ]);
    assert_eq!((said.replies, said.faults, said.first), (due, 1, (2, 7)));
    // The wrong footer is 01h, and a Reset would begin with it; but the next frame begins behind it, with LEN 00h, and is held.
    let mut bench = Bench::ready();
    let said = heard(&mut bench, &hex("01 03 01 01 00 FF 01 01 00 FF 03"));
    assert_eq!(said.replies, replies(&[status(0x15)]));
    assert_eq!((said.faults, said.first), (1, (1, 6)));
    assert_eq!(bench.chip.count, 4);
    assert_eq!(bench.chip.collected[..4], hex("01 00 FF 03"));
    // A page: ready again after it, with 01h sought, but not within it.
    let mut bench = Bench::awaiting(0x40, 0, 0x3FF);
    let inner = command("00").repeat(4);
    let said = heard(&mut bench, &[page(&inner, 0xFF), command("00")].concat());
    assert_eq!(said.replies, replies(&[pair(0x15, 0x15), status(0x06)]));
    assert_eq!((said.faults, said.first), (1, (1, 23)));
}

/// With its first byte 11h, the frame is skipped up to the inner one (01 "Examples").
#[test]
fn what_is_no_frame_is_scanned() {
    let mut bench = Bench::ready();
    let said = heard(&mut bench, &hex("11 07 B0 01 01 00 FF 03 00 45 03"));
    assert_eq!(said.replies, hex("02 01 06 F9 03"));
    let mut bench = Bench::ready();
    let said = heard(&mut bench, &hex("01 07 B0 01 01 00 FF 03 00 45 03"));
    assert_eq!(said.replies, hex("02 01 05 FA 03"));
}

/// Four pages of 5Ah add up to 16800h, so the block's sum is 9800h; blank it is 0400h. A wrong sum is said until the block is touched.
#[test]
fn checksum_sees_what_the_stretch_has_changed() {
    let ask = command("B0 00 04 00 FF 07 00");
    let sum = |low: u8, high: u8| vec![frame(0x02, &[0x06], 0x03), frame(0x02, &[low, high], 0x03)];
    let pages: Vec<u8> = (0..4)
        .flat_map(|at| page(&[0x5A; 256], if at == 3 { 0x03 } else { 0x17 }))
        .collect();
    let stretch = [
        &ask[..],
        &command("40 00 04 00 FF 07 00"),
        &pages,
        &ask,
        &command("22 00 04 00"),
        &ask,
    ]
    .concat();
    let stored = vec![pair(0x06, 0x06); 4].concat();
    let written = [status(0x06), stored, status(0x06)].concat();
    for (kept, said_first) in [(0x0400, sum(0x00, 0x04)), (0x1234, sum(0x34, 0x12))] {
        let mut bench = Bench::ready();
        bench.sums[1] = kept;
        bench.sums[2] = 0x5678;
        let said = heard_at(&mut bench, &stretch, (0..=stretch.len()).step_by(13));
        let due = replies(&[
            said_first,
            written.clone(),
            sum(0x00, 0x98),
            status(0x06),
            sum(0x00, 0x04),
        ]);
        assert_eq!(said.replies, due);
        assert_eq!((bench.sums[1], bench.sums[2]), (0x0400, 0x5678));
    }
}

#[test]
fn the_first_fault_is_told_and_all_are_counted() {
    let mut bench = Bench::ready();
    let stretch = [
        command("A1"),
        // An unknown command of odd LEN has no fault; 22h with LEN 5 has.
        command("55 00 00"),
        command("22 00 04 00 00"),
        hex("01 01 A1 5D 03"),
        command("22 01 04 00"),
        hex("01 01 A1 5E 17"),
    ]
    .concat();
    let said = heard(&mut bench, &stretch);
    assert_eq!((said.frames, said.faults, said.first), (7, 3, (3, 1)));
    assert_eq!(heard(&mut bench, &command("00")).faults, 0);
    // The longest frame: a SUM at place 258, then a footer at 259.
    let mut long = frame(0x01, &[0x00; 256], 0x03);
    long[258] ^= 0x01;
    let mut longer = frame(0x01, &[0x00; 256], 0x03);
    longer[259] = 0x17;
    let said = heard(&mut bench, &[long, longer].concat());
    assert_eq!((said.faults, said.first), (2, (2, 258)));
}

/// A page of which 1, 2 and 259 bytes are held at the start, and which is there at once, or byte by byte; what is held at the end goes on in the next stretch.
#[test]
fn held_bytes() {
    let sent = page(&mixed(1), 0x17);
    let (short, a1) = (command("00"), command("A1"));
    for held in [1, 2, 3, 100, 257, 258, 259] {
        let mut bench = Bench::awaiting(0x40, 0x400, 0x7FF);
        bench.chip.collected = [0x3C; LONGEST];
        bench.chip.collected[..held].copy_from_slice(&sent[..held]);
        bench.chip.count = held;
        let stretch = [&sent[held..], &hex("01 02 05")].concat();
        let said = heard(&mut bench, &stretch);
        assert_eq!(said.replies, replies(&[pair(0x06, 0x06)]));
        assert_eq!(bench.code[0x400..0x500], mixed(1)[..]);
        // 01h was skipped: 02 05 is the front of the next page.
        assert_eq!(bench.chip.count, 2);
        assert_eq!(bench.chip.collected[..2], [0x02, 0x05]);
        let spare = if held > 2 { sent[2] } else { 0x3C };
        assert_eq!(bench.chip.collected[2], spare);
    }
    for held in 1..5 {
        let mut bench = Bench::ready();
        bench.chip.collected[..held].copy_from_slice(&short[..held]);
        bench.chip.count = held;
        let stretch = [&short[held..], &a1[..], &a1[..4]].concat();
        let said = heard(&mut bench, &stretch);
        assert_eq!(said.frames, 3);
        assert_eq!(
            (bench.chip.count, &bench.chip.collected[..4]),
            (4, &a1[..4])
        );
        assert_eq!(heard(&mut bench, &a1[4..]).frames, 2);
    }
}

/// Only an empty stretch needs no room, whatever is held; it says and changes nothing.
#[test]
fn an_empty_stretch() {
    for (phase, held) in [
        (Phase::ModeByte, ""),
        (Phase::Ready, ""),
        (Phase::Ready, "01"),
        (Phase::Ready, "01 07 B0"),
        (awaiting(0x13, 0x400, 0x7FF, true), "02 00 11 22"),
    ] {
        for length in [0, 1, 31, 32, 100] {
            let mut bench = Bench::ready();
            bench.chip.phase = phase;
            bench.chip.collected = [0x77; LONGEST];
            let held = hex(held);
            bench.chip.collected[..held.len()].copy_from_slice(&held);
            bench.chip.count = held.len();
            let before = bench.clone();
            let mut room = vec![FILLER; length];
            let said = by_engine_in(&mut bench, &[], &mut room);
            assert_eq!(said, Ok(Said::default()));
            assert_eq!(bench, before);
            assert!(room.iter().all(|byte| *byte == FILLER));
        }
    }
}

/// 32 bytes for each byte fed, though no more than 5 of them are needed here: 32 n is accepted, 32 n - 1 is 12, and 4 is never given.
#[test]
fn room_for_each_byte() {
    for stretch in [
        &hex("01")[..],
        &hex("FF FF FF"),
        &command("C0"),
        &[0x3A; 300],
    ] {
        let n = stretch.len();
        for (length, refusal) in [
            (0, Some(12)),
            (1, Some(12)),
            (31, Some(12)),
            (32 * n - 1, Some(12)),
            (32 * n, None),
            (32 * n + 1, None),
            (32 * n + 32, None),
        ] {
            let mut bench = Bench::ready();
            let before = bench.clone();
            let mut room = vec![FILLER; length];
            let said = by_engine_in(&mut bench, stretch, &mut room);
            assert_eq!(said.err(), refusal, "{n} bytes, room {length}");
            if refusal.is_some() {
                assert_eq!(bench, before);
                assert!(room.iter().all(|byte| *byte == FILLER));
            }
        }
    }
}

/// Every set of 1, 2, 3, 9 and 12, with and without bytes: the first of this order, and nothing changes.
#[test]
fn refusals_in_their_order() {
    for faults in 0..32_u32 {
        let has = |number: u32| faults & 1 << number != 0;
        for stretch in [&[][..], &hex("01"), &command("22 00 04 00").repeat(3)] {
            let mut bench = Bench::ready();
            bench.code[0x400] = 0x00;
            bench.work_out();
            if has(0) {
                bench.part.clock = 33;
            }
            if has(1) {
                bench.code.push(0xFF);
            }
            if has(2) {
                bench.data.pop();
            }
            if has(3) {
                bench.chip.rate = 4;
            }
            let length = 32 * stretch.len();
            let short = has(4) && !stretch.is_empty();
            let mut room = vec![FILLER; if short { length - 1 } else { length }];
            let before = bench.clone();
            let said = by_engine_in(&mut bench, stretch, &mut room);
            let due = match (has(0), has(1), has(2), has(3), short) {
                (true, ..) => Some(1),
                (_, true, ..) => Some(2),
                (_, _, true, ..) => Some(3),
                (_, _, _, true, _) => Some(9),
                (.., true) => Some(12),
                _ => None,
            };
            assert_eq!(said.err(), due, "{faults:05b} {}", stretch.len());
            if due.is_some() {
                assert_eq!(bench, before);
                assert!(room.iter().all(|byte| *byte == FILLER));
            }
        }
    }
}

/// What a byte is refused for with 9, the engine is, with or without bytes: nothing may be held in phase 1, and no more than a front elsewhere.
#[test]
fn refused_states() {
    let cases = [
        (Phase::ModeByte, "01", 1),
        (Phase::Ready, "02 03", 2),
        (Phase::Ready, "01 01 00 FF 03", 5),
        (Phase::Ready, "01 00", 260),
        (awaiting(0x40, 0, 0x3FF, false), "01 00", 2),
        (awaiting(0x40, 1, 0x3FF, false), "", 0),
        (awaiting(0x22, 0, 0x3FF, false), "", 0),
    ];
    for (phase, held, count) in cases {
        let mut bench = Bench::ready();
        bench.chip.phase = phase;
        let held = hex(held);
        bench.chip.collected[..held.len()].copy_from_slice(&held);
        bench.chip.count = count;
        let mut room = [FILLER; 64];
        assert_eq!(
            bench.clone().event_in(Event::Byte(0x00), &mut room),
            Answer::Refused(9)
        );
        let before = bench.clone();
        for stretch in [&[][..], &[0x00], &[0x01; 100]] {
            assert_eq!(by_engine_in(&mut bench, stretch, &mut room), Err(9));
            assert_eq!(bench, before);
        }
    }
}

// Random traffic, cut at random

/// What a chip may hear where it stands, with no gap: mostly frames that are awaited there, some of them damaged.
fn next_bytes(choice: &mut Generator, bench: &Bench) -> Vec<u8> {
    let mut sent = match bench.chip.phase {
        Phase::ModeByte => vec![choice.pick(&[0x3A, 0x00, 0x01, 0xFF])],
        Phase::Setup => frame(0x01, &[0x9A, choice.pick(&[0, 3, 4]), 0x21], 0x03),
        Phase::Ready => any_command(choice, &bench.part),
        Phase::Awaiting { command: 0xA0, .. } => {
            let flags = choice.pick(&[0xFF, 0xFF, 0xEF, 0xFD, 0x00]);
            let end = choice.pick(&[7, 7, 0, 0xFF]);
            let footer = choice.pick(&[0x03, 0x03, 0x03, 0x17]);
            page(&[flags, 3, 0, 0, end, 0, 0xFF, 0xFF], footer)
        }
        Phase::Awaiting { next, last, .. } => {
            let place = bench.part.place(next).unwrap();
            let flash = match place.area {
                Area::Code => &bench.code,
                Area::Data => &bench.data,
            };
            let mut bytes = flash[place.offset..place.offset + 256].to_vec();
            if choice.chance(40) {
                bytes.fill_with(|| choice.byte());
            }
            bytes.truncate(choice.pick(&[256, 256, 256, 256, 256, 20]));
            page(&bytes, if next + 255 == last { 0x03 } else { 0x17 })
        }
    };
    let at = choice.below(sent.len());
    match choice.below(30) {
        0 => sent[at] ^= choice.pick(&[0x01, 0x02, 0x80, 0xFF]),
        1 => drop(sent.remove(at)),
        2 => sent.insert(at, choice.pick(&[0x01, 0x02, 0x03, 0x55])),
        // Within a frame that is whole the next one is noise, or a bad frame around it.
        3 => sent
            .splice(0..0, [choice.pick(&[0x01, 0x02]), choice.byte() & 15])
            .for_each(drop),
        _ => (),
    }
    sent
}

fn any_command(choice: &mut Generator, part: &Part) -> Vec<u8> {
    let (start, size) = match part.data_blocks {
        blocks @ 1.. if choice.chance(30) => (0xF1000 + 1024 * choice.below(blocks as usize), 1024),
        _ => (
            1024 * choice.below(6),
            choice.pick(&[1024, 1024, 1024, 2048, 1000]),
        ),
    };
    let (low, high) = (start.to_le_bytes(), (start + size - 1).to_le_bytes());
    let com = choice.pick(&[
        0x40, 0x40, 0x40, 0x13, 0x13, 0xB0, 0xB0, 0x22, 0x22, 0x32, 0xA0, 0x00, 0xA1, 0xA2, 0xC0,
        0x9A, 0x77,
    ]);
    let mut body = vec![com];
    match com {
        0x22 => body.extend_from_slice(&low[..3]),
        0x40 | 0x13 | 0xB0 => body.extend([&low[..3], &high[..3]].concat()),
        0x32 => body.extend([&low[..3], &high[..3], &[choice.pick(&[0, 1])]].concat()),
        _ => (),
    }
    if choice.chance(3) {
        body.push(0x00);
    }
    frame(0x01, &body, 0x03)
}

/// A chip that stands anywhere, on flash that may hold something, with sums that may be wrong and spare bytes of any kind.
fn any_bench(choice: &mut Generator) -> Bench {
    let (code, data) = choice.pick(&[(8, 0), (8, 1), (16, 4), (13, 8), (64, 8)]);
    let mut bench = Bench::fresh(part_of(code, data, 1 + choice.below(32) as u32));
    for block in bench
        .code
        .chunks_mut(1024)
        .chain(bench.data.chunks_mut(1024))
    {
        if choice.chance(20) {
            block.fill(choice.byte());
        }
    }
    bench.work_out();
    if choice.chance(30) {
        bench.sums.fill_with(|| choice.word() as u16);
    }
    bench.chip.collected.fill_with(|| choice.byte());
    let differed = choice.chance(30);
    bench.chip.phase = choice.pick(&[
        Phase::ModeByte,
        Phase::Setup,
        Phase::Ready,
        awaiting(0xA0, 0, 0, differed),
        awaiting(0x40, 0x500, 0xBFF, differed),
        awaiting(0x13, 0x700, 0x7FF, differed),
    ]);
    bench.chip.options = Options {
        flags: choice.pick(&[0xFF, 0xFF, 0xFF, 0xFD, 0xEB]),
        ..bench.chip.options
    };
    bench
}

#[test]
fn random_stretches_are_as_byte_by_byte() {
    // Stretches that were empty, that began with 1 byte, header and LEN, or all but the last held, and that ended with something held; frames; faults.
    let mut came = [0_u64; 7];
    for seed in 0..1_500 {
        let mut choice = Generator::new(seed);
        let mut engine = any_bench(&mut choice);
        let mut guide = engine.clone();
        let mut traffic = Vec::new();
        for _ in 0..choice.between(1, 25) {
            let sent = next_bytes(&mut choice, &guide);
            guide.say(&sent);
            traffic.extend(sent);
        }
        let mut stepped = engine.clone();
        let mut rest = &traffic[..];
        let mut is_over = false;
        while !is_over {
            let some = choice.below(rest.len().min(600) + 1);
            let length = choice.pick(&[0, 1, 2, 3, some, some, some, rest.len()]);
            let (stretch, after) = rest.split_at(length.min(rest.len()));
            let count = engine.chip.count;
            let needs = match engine.chip.collected[1] {
                0 => 260,
                len => usize::from(len) + 4,
            };
            let all_but_last = count >= 2 && count + 1 == needs;
            let said = by_engine(&mut engine, stretch);
            assert_eq!(said, by_bytes(&mut stepped, stretch), "seed {seed}");
            assert_alike(&engine, &stepped);
            came[0] += u64::from(stretch.is_empty());
            came[1] += u64::from(count == 1);
            came[2] += u64::from(count == 2);
            came[3] += u64::from(all_but_last);
            came[4] += u64::from(engine.chip.count > 0);
            came[5] += said.frames as u64;
            came[6] += said.faults as u64;
            is_over = after.is_empty();
            rest = after;
            if choice.chance(2) {
                engine.gap();
                stepped.gap();
            }
        }
    }
    println!("{came:?}");
    assert!(came.iter().all(|count| *count > 100), "{came:?}");
}

/// Captures of both forms print the same where the bytes between two gaps are one stretch.
#[test]
fn random_captures_print_the_same() {
    for form in Form::BOTH {
        for seed in 0..300 {
            let capture = random_capture(form, seed);
            assert_eq!(
                replay_plain(form, &capture),
                replay_text(form, &capture),
                "{form:?}, seed {seed}"
            );
        }
    }
}

/// What examples/engine.c and examples/engine.rs print: the bytes between the gaps of a capture, each stretch at once.
#[test]
fn the_example_prints_what_is_expected() {
    let mut player = Player::fresh();
    let mut text = String::new();
    let mut capture = Vec::new();
    let mut frames = 0;
    for stretch in [
        "3A 01 03 9A 00 21 42 03",
        "01 05 01 01 00 FF 03 F6 03 01 01 A1 5E 03 01 07 B0",
        "01 01 00 FF 03 01 01 C0",
    ] {
        let stretch = hex(stretch);
        let (replies, said) = player.play(&stretch);
        let fault = said.first.map_or(String::new(), |fault| {
            format!(" (wrong {}, byte {})", fault.name(), fault.place())
        });
        text += &format!(
            "{} bytes fed, reply frames: {}, bad frames: {}{fault}, bytes held: {}\n",
            stretch.len(),
            said.frames,
            said.faults,
            player.chip.count
        );
        for frame in split_frames(&replies) {
            text += &format!("{}\n", hex_line(frame));
        }
        frames += said.frames;
        player.hear(Event::Gap);
        capture.extend(stretch.chunks(6).flat_map(bytes_record));
        capture.extend([0x00; 8]);
    }
    text += &format!("END {frames}\n");
    let expected = concat!(env!("CARGO_MANIFEST_DIR"), "/../examples/engine.stdout");
    assert_eq!(std::fs::read_to_string(expected).unwrap(), text);
    // A replay prints the same frames, and the same end.
    let of_frames: String = text
        .lines()
        .filter(|line| !line.contains("fed"))
        .fold(String::new(), |lines, line| lines + line + "\n");
    assert_eq!(replay_text(Form::Old, &capture), of_frames);
}
