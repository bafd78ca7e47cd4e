//! Phases, collecting, judgement with several faults, and every command's work (01 "Frames", "Phases", "Commands").

mod common;

use common::*;
use twin::chip::{Event, Phase};
use twin::part::Area;
use twin::random::Generator;
use twin::replay::replay_part;

#[test]
fn mode_bytes() {
    for byte in 0..=255u8 {
        let mut bench = Bench::fresh(replay_part());
        let mut expected = bench.clone();
        if byte == 0x3A || byte == 0x00 {
            expected.chip.phase = Phase::Setup;
        }
        assert!(bench.say(&[byte]).is_empty());
        assert_eq!(bench, expected);
    }
}

#[test]
fn second_mode_byte_is_skipped() {
    let mut bench = Bench::fresh(replay_part());
    let answer = bench.say_hex("3A 3A 00 01 03 9A 02 21 40 03");
    assert_eq!(answer, vec![hex("02 03 06 20 00 D7 03")]);
    assert_eq!(bench.chip.rate, 0x02);
}

const ALL: [&str; 11] = [
    "9A 00 21",
    "00",
    "22 00 04 00",
    "32 00 00 00 FF 03 00 00",
    "40 00 00 00 FF 03 00",
    "13 00 00 00 FF 03 00",
    "B0 00 00 00 FF 03 00",
    "C0",
    "A1",
    "A0",
    "A2",
];

#[test]
fn commands_by_phase() {
    for body in ALL {
        let in_setup = {
            let mut bench = Bench::fresh(replay_part());
            bench.chip.phase = Phase::Setup;
            bench.say_command(body)
        };
        let in_ready = Bench::ready().say_command(body);
        if body.starts_with("9A") {
            assert_eq!(in_setup, vec![hex("02 03 06 20 00 D7 03")]);
            assert_eq!(in_ready, status(0x04));
        } else {
            assert_eq!(in_setup, status(0x04), "{body}");
            assert_eq!(in_ready[..1], status(0x06), "{body}");
        }
    }
}

#[test]
fn unknown_commands() {
    let known: Vec<u8> = ALL.iter().map(|body| hex(body)[0]).collect();
    for com in (0..=255u8).filter(|com| !known.contains(com)) {
        for length in [1, 4, 256] {
            let mut body = vec![0x00; length];
            body[0] = com;
            let mut bench = Bench::ready();
            let before = bench.clone();
            assert_eq!(bench.say(&frame(0x01, &body, 0x03)), status(0x04));
            assert_eq!(bench.chip.phase, before.chip.phase);
            assert_eq!(bench.code, before.code);
        }
    }
}

#[test]
fn unfit_lengths() {
    for body in ALL.iter().map(|body| hex(body)) {
        let phase = match body[0] {
            0x9A => Phase::Setup,
            _ => Phase::Ready,
        };
        for length in (1..=256).filter(|length| *length != body.len()) {
            let mut other = body.clone();
            other.resize(length, 0x00);
            let mut bench = Bench::ready();
            bench.chip.phase = phase;
            assert_eq!(bench.say(&frame(0x01, &other, 0x03)), status(0x15));
            assert_eq!(bench.chip.phase, phase);
        }
    }
}

#[test]
fn faults_two_at_a_time_in_a_command() {
    // Footer before SUM before command before LEN before parameters before protection.
    let mut bench = Bench::ready();
    bench.chip.options.flags = 0xE9;
    for (bytes, answer) in [
        ("01 01 55 00 17", 0x15),
        ("01 01 00 FE 17", 0x15),
        ("01 01 55 00 03", 0x07),
        ("01 02 00 00 00 03", 0x07),
        ("01 02 55 00 A9 03", 0x04),
        ("01 03 22 01 00 DA 03", 0x15),
        ("01 04 22 01 00 00 D9 03", 0x05),
        ("01 04 22 00 00 00 DA 03", 0x10),
        ("01 07 40 00 00 00 FF 02 00 B8 03", 0x05),
        ("01 07 40 00 00 00 FF 03 00 B7 03", 0x10),
    ] {
        assert_eq!(bench.say_hex(bytes), status(answer), "{bytes}");
    }
    // A2h: protection before blank.
    bench.code[5] = 0x00;
    assert_eq!(bench.say_command("A2"), status(0x10));
    bench.chip.options.flags = 0xEF;
    assert_eq!(bench.say_command("A2"), status(0x1B));
    bench.code[5] = 0xFF;
    bench.data[4095] = 0x7F;
    assert_eq!(bench.say_command("A2"), status(0x1B));
}

#[test]
fn faults_two_at_a_time_in_data() {
    let short = page(&[0x12, 0x34], 0x03);
    let mut bad_sum = short.clone();
    bad_sum[4] ^= 1;
    let mut both = bad_sum.clone();
    both[5] = 0x17;
    for (bytes, code) in [(&short, 0x15), (&bad_sum, 0x07), (&both, 0x15)] {
        assert_eq!(Bench::awaiting(0xA0, 0, 0).say(bytes), status(code));
        let answer = Bench::awaiting(0x13, 0x300, 0x3FF).say(bytes);
        assert_eq!(answer, pair(code, code));
    }
    // A0h: parameters before protection.
    let mut bench = Bench::awaiting(0xA0, 0, 0);
    bench.chip.options.flags = 0xEF;
    let data = hex("FF 03 00 00 10 00 FF FF");
    assert_eq!(bench.say(&page(&data, 0x03)), status(0x05));
}

#[test]
fn options_data() {
    for (data, answer) in [
        ("FF 03 00 00 0F 00 FF FF", 0x06),
        ("E9 03 0F 00 0F 00 FF FF", 0x06),
        ("FE 03 00 00 0F 00 FF FF", 0x05),
        ("F7 03 00 00 0F 00 FF FF", 0x05),
        ("DF 03 00 00 0F 00 FF FF", 0x05),
        ("BF 03 00 00 0F 00 FF FF", 0x05),
        ("7F 03 00 00 0F 00 FF FF", 0x05),
        ("FF 02 00 00 0F 00 FF FF", 0x05),
        ("FF 03 00 00 0F 00 FE FF", 0x05),
        ("FF 03 00 00 0F 00 FF FE", 0x05),
        ("FF 03 08 00 07 00 FF FF", 0x05),
        ("FF 03 00 01 0F 00 FF FF", 0x05),
        ("FF 03 00 00 10 00 FF FF", 0x05),
        ("FF 03 00 00 0F 01 FF FF", 0x05),
        ("FF 03 00 00 0F 00 FF", 0x15),
        ("FF 03 00 00 0F 00 FF FF FF", 0x15),
    ] {
        let mut bench = Bench::awaiting(0xA0, 0, 0);
        let before = bench.chip.options;
        assert_eq!(bench.say(&page(&hex(data), 0x03)), status(answer), "{data}");
        assert_eq!(bench.chip.phase, Phase::Ready);
        if answer != 0x06 {
            assert_eq!(bench.chip.options, before);
        }
    }
    let mut bench = Bench::awaiting(0xA0, 0, 0);
    let data = hex("FF 03 00 00 0F 00 FF FF");
    assert_eq!(bench.say(&page(&data, 0x17)), status(0x15));
    assert_eq!(bench.chip.phase, Phase::Ready);
}

#[test]
fn flags_only_fall() {
    let values = [0xFF, 0xFD, 0xFB, 0xF9, 0xEF, 0xED, 0xEB, 0xE9];
    for stored in values {
        for asked in values {
            let mut bench = Bench::awaiting(0xA0, 5, 77);
            bench.chip.options.flags = stored;
            let data = [asked, 0x03, 0x02, 0x00, 0x03, 0x00, 0xFF, 0xFF];
            let rises = [1, 2, 4]
                .iter()
                .any(|bit| stored >> bit & 1 == 0 && asked >> bit & 1 == 1);
            let before = bench.chip.options;
            let answer = bench.say(&page(&data, 0x03));
            if rises {
                assert_eq!(answer, status(0x10));
                assert_eq!(bench.chip.options, before);
            } else {
                assert_eq!(answer, status(0x06));
                let now = bench.chip.options;
                assert_eq!((now.flags, now.start, now.end), (asked, 2, 3));
            }
        }
    }
}

#[test]
fn erase_touches_one_block() {
    for (body, in_data, block) in [("22 00 08 00", false, 2), ("22 00 18 0F", true, 2)] {
        let mut bench = Bench::ready();
        bench.code.fill(0x11);
        bench.data.fill(0x22);
        let mut expected = bench.clone();
        let (area, flash) = match in_data {
            false => (Area::Code, &mut expected.code),
            true => (Area::Data, &mut expected.data),
        };
        let size = bench.part.block_size(area);
        flash[block * size..(block + 1) * size].fill(0xFF);
        assert_eq!(bench.say_command(body), status(0x06));
        assert_eq!(bench.code, expected.code);
        assert_eq!(bench.data, expected.data);
    }
}

#[test]
fn erase_addresses() {
    for (data_blocks, body, answer) in [
        (4, "22 00 14 0F", 0x06),
        (4, "22 00 1C 0F", 0x06),
        (4, "22 00 11 0F", 0x05),
        (4, "22 00 0C 0F", 0x05),
        (4, "22 FF FF FF", 0x05),
        (0, "22 00 10 0F", 0x05),
        (8, "22 00 2C 0F", 0x06),
        (8, "22 00 30 0F", 0x05),
    ] {
        let mut bench = Bench::ready_with(part_of(16, data_blocks, 32));
        assert_eq!(bench.say_command(body), status(answer), "{body}");
    }
}

#[test]
fn ranges() {
    for (addresses, good) in [
        ("00 00 00 FF 03 00", true),
        ("00 00 00 FF 3F 00", true),
        ("00 3C 00 FF 3F 00", true),
        ("00 10 0F FF 1F 0F", true),
        ("00 04 00 FF 03 00", false),
        ("00 00 00 FF 43 00", false),
        ("00 40 00 FF 43 00", false),
        ("01 00 00 FF 03 00", false),
        ("00 01 00 FF 03 00", false),
        ("00 00 00 FE 03 00", false),
        ("00 00 00 FF 02 00", false),
        ("00 00 00 00 04 00", false),
        ("00 00 00 FF 13 0F", false),
        ("00 10 0F FF 03 00", false),
        ("00 0C 0F FF 13 0F", false),
        ("00 10 0F FF 23 0F", false),
    ] {
        let (yes, no) = (status(0x06), status(0x05));
        for com in ["40", "13", "B0"] {
            let answer = Bench::ready().say_command(&format!("{com} {addresses}"));
            assert_eq!(answer[..1], if good { yes.clone() } else { no.clone() });
        }
        for (area, fits) in [("00", true), ("01", true), ("02", false), ("FF", false)] {
            let answer = Bench::ready().say_command(&format!("32 {addresses} {area}"));
            let expected = if good && fits { &yes } else { &no };
            assert_eq!(answer, *expected, "{addresses} {area}");
        }
    }
}

#[test]
fn blank_checks() {
    let mut bench = Bench::ready();
    bench.code[0x7FF] = 0xFE;
    for (addresses, answer) in [
        ("00 00 00 FF 03 00", 0x06),
        ("00 04 00 FF 07 00", 0x1B),
        ("00 00 00 FF 07 00", 0x1B),
        ("00 08 00 FF 3F 00", 0x06),
        ("00 10 0F FF 1F 0F", 0x06),
    ] {
        for area in ["00", "01"] {
            let asked = format!("32 {addresses} {area}");
            assert_eq!(bench.say_command(&asked), status(answer), "{asked}");
        }
    }
    for (flags, start, end) in [(0xEF, 0, 15), (0xFF, 1, 15), (0xFF, 0, 14)] {
        let mut bench = Bench::ready();
        bench.chip.options.flags = flags;
        bench.chip.options.start = start;
        bench.chip.options.end = end;
        let without = bench.say_command("32 00 00 00 FF 03 00 00");
        let with = bench.say_command("32 00 00 00 FF 03 00 01");
        assert_eq!((without, with), (status(0x06), status(0x1B)));
    }
}

#[test]
fn release_sets_flags_and_window() {
    let mut bench = Bench::ready();
    bench.chip.options.flags = 0xEF;
    bench.chip.options.start = 2;
    bench.chip.options.end = 3;
    bench.chip.rate = 0x02;
    let mut expected = Bench::ready();
    expected.chip.rate = 0x02;
    assert_eq!(bench.say_command("A2"), status(0x06));
    expected.chip.collected = bench.chip.collected;
    assert_eq!(bench, expected);
}

#[test]
fn checksum_counts_every_byte() {
    let mut bench = Bench::ready();
    let mut bytes = Generator::new(7);
    bench.code.iter_mut().for_each(|byte| *byte = bytes.byte());
    bench.data.iter_mut().for_each(|byte| *byte = bytes.byte());
    let lower = |part: &[u8]| {
        let total: u64 = part.iter().map(|byte| u64::from(*byte)).sum();
        let left = (65_536 - total % 65_536) % 65_536;
        frame(0x02, &[left as u8, (left >> 8) as u8], 0x03)
    };
    for (addresses, expected) in [
        ("00 00 00 FF 3F 00", lower(&bench.code)),
        ("00 04 00 FF 0B 00", lower(&bench.code[0x400..0xC00])),
        ("00 14 0F FF 1F 0F", lower(&bench.data[0x400..])),
    ] {
        let answer = bench.say_command(&format!("B0 {addresses}"));
        assert_eq!(answer[1], expected);
    }
}

/// Sends a command and its mixed pages; each is taken, and only 40h's last gets a further status reply.
fn send_pages(bench: &mut Bench, com: &str, addresses: &str, pages: usize) {
    assert_eq!(
        bench.say_command(&format!("{com} {addresses}")),
        status(0x06)
    );
    for index in 0..pages {
        let last = index + 1 == pages;
        let answer = bench.say(&page(&mixed(index), if last { 0x03 } else { 0x17 }));
        let mut expected = pair(0x06, 0x06);
        if last && com == "40" {
            expected.extend(status(0x06));
        }
        assert_eq!(answer, expected, "page {index}");
    }
    assert_eq!(bench.chip.phase, Phase::Ready);
}

#[test]
fn writing_and_verifying_whole_areas() {
    for (addresses, in_data, pages) in [
        ("00 00 00 FF 3F 00", false, 64),
        ("00 08 00 FF 0F 00", false, 8),
        ("00 10 0F FF 1F 0F", true, 16),
        ("00 18 0F FF 1B 0F", true, 4),
    ] {
        let mut bench = Bench::ready();
        send_pages(&mut bench, "40", addresses, pages);
        let written: Vec<u8> = (0..pages).flat_map(mixed).collect();
        let start = hex(addresses)[1] as usize * 256 % 0x1000;
        let (area, other) = match in_data {
            false => (&bench.code, &bench.data),
            true => (&bench.data, &bench.code),
        };
        assert_eq!(area[start..start + pages * 256], written[..]);
        let rest = area[..start].iter().chain(&area[start + pages * 256..]);
        assert!(rest.chain(other).all(|byte| *byte == 0xFF));
        let before = bench.clone();
        send_pages(&mut bench, "13", addresses, pages);
        assert_eq!(bench.code, before.code);
        assert_eq!(bench.data, before.data);
    }
}

#[test]
fn the_largest_part_takes_256_pages() {
    let mut bench = Bench::ready_with(part_of(64, 8, 32));
    send_pages(&mut bench, "40", "00 00 00 FF FF 00", 256);
    let written: Vec<u8> = (0..256).flat_map(mixed).collect();
    assert_eq!(bench.code, written);
}

#[test]
fn page_over_written_flash() {
    let mut bench = Bench::awaiting(0x40, 0x100, 0x7FF);
    bench.code[0x1FF] = 0x7F;
    let before = bench.clone();
    // FAh over 7Fh is 7Ah; the others are stored (02 §6).
    assert_eq!(mixed(4)[255], 0xFA);
    assert_eq!(bench.say(&page(&mixed(4), 0x17)), pair(0x06, 0x1C));
    assert_eq!(bench.code[0x100..0x1FF], mixed(4)[..255]);
    assert_eq!(bench.code[0x1FF], 0x7A);
    assert_eq!(bench.code[..0x100], before.code[..0x100]);
    assert_eq!(bench.code[0x200..], before.code[0x200..]);
    assert_eq!(bench.chip.phase, Phase::Ready);
    // The last page gets no further status reply after 1Ch.
    let mut bench = Bench::awaiting(0x40, 0x700, 0x7FF);
    bench.code[0x700] = 0x00;
    assert_eq!(bench.say(&page(&mixed(4), 0x03)), pair(0x06, 0x1C));
    assert_eq!(bench.chip.phase, Phase::Ready);
    // Flash beside the page does not matter.
    let mut bench = Bench::awaiting(0x40, 0x100, 0x7FF);
    bench.code[0x0FF] = 0x00;
    bench.code[0x200] = 0x00;
    assert_eq!(bench.say(&page(&mixed(4), 0x17)), pair(0x06, 0x06));
}

#[test]
fn page_in_a_protected_state_is_stored() {
    // protection is judged with the command frame only.
    let mut bench = Bench::awaiting(0x40, 0, 0x3FF);
    bench.chip.options.flags = 0xE9;
    assert_eq!(bench.say(&page(&mixed(1), 0x17)), pair(0x06, 0x06));
    assert_eq!(bench.code[..256], mixed(1)[..]);
}

#[test]
fn commands_are_not_seen_while_data_is_awaited() {
    let mut bench = Bench::awaiting(0x40, 0x100, 0x3FF);
    assert!(bench.say_command("A1").is_empty());
    bench.gap();
    assert_eq!(bench.chip.phase, awaiting(0x40, 0x100, 0x3FF, false));
    assert_eq!(bench.say(&page(&mixed(2), 0x17)), pair(0x06, 0x06));
    assert_eq!(bench.code[0x100..0x200], mixed(2)[..]);
}

#[test]
fn no_second_look_at_a_bad_frame() {
    let mut bench = Bench::ready();
    // The outer frame has a wrong footer; the good Reset inside it stays unseen.
    assert_eq!(bench.say_hex("01 05 01 01 00 FF 03 F7 17"), status(0x15));
    assert_eq!(bench.chip.count, 0);
    assert_eq!(bench.say_command("00"), status(0x06));
}

#[test]
fn gap_and_power_on() {
    let phases = [
        Phase::Setup,
        Phase::Ready,
        awaiting(0xA0, 3, 9, false),
        awaiting(0xA0, 3, 9, true),
        awaiting(0x13, 0x100, 0x3FF, true),
        awaiting(0x40, 0x100, 0x3FF, true),
    ];
    for phase in phases {
        let mut bench = Bench::ready();
        bench.chip.phase = phase;
        bench.chip.rate = 0x03;
        bench.chip.options.flags = 0xEF;
        bench.code[7] = 0x12;
        bench.say(&[0x02, 0x01, 0x02, 0x02]);
        assert!(bench.chip.count > 0);
        let mut expected = bench.clone();
        expected.chip.count = 0;
        bench.gap();
        assert_eq!(bench, expected);
        bench.say(&[0x02, 0x01, 0x02, 0x02]);
        let mut expected = bench.clone();
        expected.chip.count = 0;
        expected.chip.rate = 0x00;
        expected.chip.phase = Phase::ModeByte;
        assert!(bench.event(Event::PowerOn).is_empty());
        assert_eq!(bench, expected);
    }
}

#[test]
fn collector_bytes_past_the_count_stay() {
    let mut bench = Bench::ready();
    bench.chip.collected = [0xEE; 260];
    let mut expected = bench.chip.collected;
    bench.say(&hex("55 66 01 01 A1 5E"));
    expected[..4].copy_from_slice(&hex("01 01 A1 5E"));
    assert_eq!((bench.chip.collected, bench.chip.count), (expected, 4));
    // The byte that completes a frame is not stored.
    bench.say(&[0x03]);
    assert_eq!((bench.chip.collected, bench.chip.count), (expected, 0));
    bench.say(&[0x02, 0x01]);
    assert_eq!((bench.chip.collected, bench.chip.count), (expected, 1));
    bench.gap();
    bench.event(Event::PowerOn);
    assert_eq!((bench.chip.collected, bench.chip.count), (expected, 0));
}

/// Demand 3: a good frame with one byte after LEN changed is judged bad, and changes nothing but phase 4. The fault is the footer's where the footer was changed,
/// else SUM's (02 §4).
fn one_byte_changed(bench: &Bench, good: &[u8], values: impl Fn(usize) -> Vec<u8>) {
    for at in 2..good.len() {
        for value in values(at).into_iter().filter(|value| *value != good[at]) {
            let mut bytes = good.to_vec();
            bytes[at] = value;
            let mut heard = bench.clone();
            let (answer, fault) = heard.say_judged(&bytes);
            let (sum, footer) = (good.len() - 2, good.len() - 1);
            let (code, told) = if at == footer {
                (0x15, (1, footer as u16))
            } else {
                (0x07, (2, sum as u16))
            };
            assert_eq!(fault, told, "byte {at} as {value:02X}");
            let (expected, phase) = match bench.chip.phase {
                Phase::Awaiting { command: 0xA0, .. } => (status(code), Phase::Ready),
                Phase::Awaiting { .. } => (pair(code, code), Phase::Ready),
                other => (status(code), other),
            };
            assert_eq!(answer, expected, "byte {at} as {value:02X}");
            assert_eq!(heard.chip.phase, phase);
            assert_eq!(heard.chip.count, 0);
            assert_eq!(heard.chip.options, bench.chip.options);
            assert_eq!(heard.chip.rate, bench.chip.rate);
            assert!(heard.code == bench.code && heard.data == bench.data);
        }
    }
}

#[test]
fn one_byte_changed_in_a_good_frame() {
    let every = |_: usize| (0..=255).collect::<Vec<u8>>();
    let few = |at: usize| vec![0x00, 0x01, 0x02, 0x03, 0x17, 0xFF, at as u8];
    for body in ALL.iter().filter(|body| !body.starts_with("9A")) {
        one_byte_changed(&Bench::ready(), &command(body), every);
    }
    let mut setup = Bench::ready();
    setup.chip.phase = Phase::Setup;
    one_byte_changed(&setup, &command("9A 00 21"), every);
    let options = hex("02 08 FB 03 01 00 0E 00 FF FF ED 03");
    one_byte_changed(&Bench::awaiting(0xA0, 0, 0), &options, every);
    for com in [0x40, 0x13] {
        one_byte_changed(&Bench::awaiting(com, 0, 0x3FF), &page(&mixed(1), 0x17), few);
        let last = Bench::awaiting(com, 0x300, 0x3FF);
        one_byte_changed(&last, &page(&mixed(1), 0x03), few);
    }
}
