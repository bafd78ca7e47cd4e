//! Test vectors of 000 and 003 that concern the chip, completed by the SUM rule, and sequences of them (01 "Commands").

mod common;

use common::*;
use twin::chip::{Options, Phase};
use twin::replay::replay_part;

#[test]
fn printed_commands() {
    for (body, printed) in [
        ("00", "01 01 00 FF 03"),
        ("A0", "01 01 A0 5F 03"),
        ("A1", "01 01 A1 5E 03"),
        ("A2", "01 01 A2 5D 03"),
        ("C0", "01 01 C0 3F 03"),
    ] {
        assert_eq!(command(body), hex(printed));
        assert_eq!(Bench::ready().say_hex(printed)[0], hex("02 01 06 F9 03"));
    }
    assert_eq!(pair(0x06, 0x06), vec![hex("02 02 06 06 F2 03")]);
}

#[test]
fn page_with_footer_ff() {
    for com in [0x40, 0x13] {
        for next in [0x000, 0x300] {
            let mut bench = Bench::awaiting(com, next, 0x3FF);
            let answer = bench.say_hex("02 01 00 FF FF");
            assert_eq!(answer, vec![hex("02 02 15 15 D4 03")]);
            assert_eq!(bench.chip.phase, Phase::Ready);
        }
    }
}

#[test]
fn rate_set() {
    let full = "02 03 06 20 00 D7 03";
    let wide = "02 03 06 20 01 D6 03";
    let bad = "02 01 05 FA 03";
    for (asked, answer, rate) in [
        ("01 03 9A 00 24 3F 03", full, 0),
        ("01 03 9A 00 15 4E 03", wide, 0),
        ("01 03 9A 00 12 51 03", wide, 0),
        ("01 03 9A 00 11 52 03", bad, 9),
        ("01 03 9A 00 37 2C 03", full, 0),
        ("01 03 9A 00 38 2B 03", bad, 9),
        ("01 03 9A 00 1A 49 03", wide, 0),
        ("01 03 9A 00 1B 48 03", full, 0),
        ("01 03 9A 03 21 3F 03", full, 3),
        ("01 03 9A 04 21 3E 03", bad, 9),
    ] {
        let mut bench = Bench::fresh(replay_part());
        bench.say_hex("3A");
        let before = bench.clone();
        assert_eq!(bench.say_hex(asked), vec![hex(answer)], "{asked}");
        if answer == bad {
            assert_eq!(bench.chip.phase, Phase::Setup);
            assert_eq!(bench.chip.rate, before.chip.rate);
        } else {
            assert_eq!(bench.chip.phase, Phase::Ready);
            assert_eq!(bench.chip.rate, rate);
        }
    }
    let mut bench = Bench::fresh(part_of(16, 4, 20));
    let answer = bench.say_hex("00 01 03 9A 00 21 42 03");
    assert_eq!(answer, vec![hex("02 03 06 14 00 E3 03")]);
}

#[test]
fn ranges_of_protocol_d_are_outside_every_part() {
    for (code_blocks, data_blocks) in [(8, 0), (16, 4), (64, 8)] {
        for asked in [
            "01 07 13 00 38 02 FF FF 03 AB 03",
            "01 04 22 00 34 02 A4 03",
            "01 07 40 00 34 02 FF FF 03 82 03",
            "01 07 B0 00 34 02 FF FF 03 12 03",
            "01 08 32 00 34 02 FF FF 03 00 8F 03",
            "01 08 32 00 34 02 FF FF 03 01 8E 03",
        ] {
            let mut bench = Bench::ready_with(part_of(code_blocks, data_blocks, 32));
            assert_eq!(bench.say_hex(asked), status(0x05), "{asked}");
        }
    }
}

#[test]
fn security_id_is_unknown_to_an_a_part() {
    let asked = "01 11 9C 01 23 45 67 89 AB CD EF F0 F1 F2 F3 F4 F5 F6 F7 F7 03";
    assert_eq!(Bench::ready().say_hex(asked), status(0x04));
    let asked = format!("01 11 9C {}63 03", "FF ".repeat(16));
    assert_eq!(Bench::ready().say_hex(&asked), status(0x04));
}

#[test]
fn status_frames() {
    for (code, sum) in [
        (0x04, 0xFB),
        (0x05, 0xFA),
        (0x07, 0xF8),
        (0x10, 0xEF),
        (0x15, 0xEA),
        (0x1A, 0xE5),
        (0x1B, 0xE4),
        (0x1C, 0xE3),
        (0x24, 0xDB),
    ] {
        assert_eq!(status(code), vec![vec![0x02, 0x01, code, sum, 0x03]]);
    }
    for (first, second, sum) in [
        (0x06, 0x0F, 0xE9),
        (0x06, 0x1C, 0xDC),
        (0x07, 0x07, 0xF0),
        (0x15, 0x15, 0xD4),
    ] {
        let printed = vec![vec![0x02, 0x02, first, second, sum, 0x03]];
        assert_eq!(pair(first, second), printed);
    }
}

#[test]
fn signature_of_the_replay_part() {
    let answer = Bench::ready().say_command("C0");
    let second = "02 16 10 00 06 52 35 46 31 30 30 4C 45 20 20 FF 3F 00 FF 1F 0F 01 02 03 34 03";
    assert_eq!(answer, vec![hex("02 01 06 F9 03"), hex(second)]);
}

#[test]
fn signature_addresses_of_other_parts() {
    for (code_blocks, data_blocks, addresses) in [
        (64, 4, "FF FF 00 FF 1F 0F"),
        (8, 0, "FF 1F 00 00 00 00"),
        (8, 8, "FF 1F 00 FF 2F 0F"),
        (63, 1, "FF FB 00 FF 13 0F"),
    ] {
        let mut bench = Bench::ready_with(part_of(code_blocks, data_blocks, 1));
        bench.part.name = *b"R7F100GAJ ";
        let answer = bench.say_command("C0");
        assert_eq!(answer[1][5..15], hex("52 37 46 31 30 30 47 41 4A 20")[..]);
        assert_eq!(answer[1][15..21], hex(addresses)[..]);
    }
}

/// A0h and its data; the answers of both.
fn set_options(bench: &mut Bench, data: &str) -> Vec<Vec<u8>> {
    let mut answers = bench.say_hex("01 01 A0 5F 03");
    answers.extend(bench.say_hex(data));
    answers
}

fn acknowledged(second: u8) -> Vec<Vec<u8>> {
    [status(0x06), status(second)].concat()
}

#[test]
fn security_set_data() {
    let fresh = Bench::ready().chip.options;
    let flags = |flags| Options { flags, ..fresh };
    let banned = Options {
        flags: 0xFB,
        boot: 3,
        start: 1,
        end: 14,
    };
    for (data, answer, stored) in [
        ("02 08 FF 03 00 00 0F 00 FF FF E9 03", 0x06, fresh),
        ("02 08 EF 03 00 00 0F 00 FF FF F9 03", 0x06, flags(0xEF)),
        ("02 08 FD 03 00 00 0F 00 FF FF EB 03", 0x06, flags(0xFD)),
        ("02 08 FB 03 01 00 0E 00 FF FF ED 03", 0x06, banned),
        ("02 08 FF 03 00 00 10 00 FF FF E8 03", 0x05, fresh),
        ("02 08 7F 03 00 00 0F 00 FF FF 69 03", 0x05, fresh),
    ] {
        let mut bench = Bench::ready();
        assert_eq!(
            set_options(&mut bench, data),
            acknowledged(answer),
            "{data}"
        );
        assert_eq!(bench.chip.options, stored);
        assert_eq!(bench.chip.phase, Phase::Ready);
        let reported = bench.say_command("A1");
        let shown = if answer == 0x06 {
            hex(data)
        } else {
            hex("02 08 FF 03 00 00 0F 00 FF FF E9 03")
        };
        assert_eq!(reported[1], shown);
    }
}

#[test]
fn write_ban() {
    let mut bench = Bench::ready();
    let ban = "02 08 EF 03 00 00 0F 00 FF FF F9 03";
    assert_eq!(set_options(&mut bench, ban), acknowledged(0x06));
    assert_eq!(
        bench.say_hex("01 07 40 00 10 00 FF 13 00 97 03"),
        status(0x10)
    );
    assert_eq!(
        bench.say_hex("01 07 40 00 10 0F FF 13 0F 79 03"),
        status(0x10)
    );
    let allow = "02 08 FF 03 00 00 0F 00 FF FF E9 03";
    assert_eq!(set_options(&mut bench, allow), acknowledged(0x10));
    assert_eq!(bench.chip.options.flags, 0xEF);
    // Block erase stays allowed.
    assert_eq!(bench.say_hex("01 04 22 00 10 0F BB 03"), status(0x06));
    assert_eq!(bench.say_hex("01 01 A2 5D 03"), status(0x06));
    assert_eq!(bench.chip.options.flags, 0xFF);
    assert_eq!(
        bench.say_hex("01 07 40 00 10 00 FF 13 00 97 03"),
        status(0x06)
    );
}

#[test]
fn erase_ban() {
    let mut bench = Bench::ready();
    let ban = "02 08 FB 03 01 00 0E 00 FF FF ED 03";
    assert_eq!(set_options(&mut bench, ban), acknowledged(0x06));
    let stored = bench.chip.options;
    assert_eq!(bench.say_hex("01 01 A2 5D 03"), status(0x10));
    assert_eq!(bench.say_hex("01 04 22 00 10 0F BB 03"), status(0x10));
    assert_eq!(bench.say_hex("01 04 22 00 3C 00 9E 03"), status(0x10));
    assert_eq!(bench.chip.options, stored);
    // Writing stays allowed.
    assert_eq!(
        bench.say_hex("01 07 40 00 10 0F FF 13 0F 79 03"),
        status(0x06)
    );
}

#[test]
fn boot_ban() {
    let mut bench = Bench::ready();
    let ban = "02 08 FD 03 00 00 0F 00 FF FF EB 03";
    assert_eq!(set_options(&mut bench, ban), acknowledged(0x06));
    for (body, answer) in [
        ("22 00 00 00", 0x10),
        ("22 00 0C 00", 0x10),
        ("22 00 10 00", 0x06),
        ("22 00 10 0F", 0x06),
        ("40 00 00 00 FF 03 00", 0x10),
        ("40 00 0C 00 FF 13 00", 0x10),
        ("A2", 0x10),
        ("13 00 00 00 FF 03 00", 0x06),
    ] {
        assert_eq!(bench.say_command(body), status(answer), "{body}");
    }
    for body in ["40 00 10 00 FF 13 00", "40 00 10 0F FF 1F 0F"] {
        bench.chip.phase = Phase::Ready;
        assert_eq!(bench.say_command(body), status(0x06), "{body}");
    }
}

#[test]
fn block_0_with_a_ramp() {
    let mut bench = Bench::ready();
    let ramp_frame = page(&ramp(), 0x17);
    assert_eq!(ramp_frame[258], 0x80);
    assert_eq!(
        bench.say_hex("01 07 40 00 00 00 FF 03 00 B7 03"),
        status(0x06)
    );
    assert_eq!(bench.say(&ramp_frame), pair(0x06, 0x06));
    assert_eq!(bench.say(&page(&ramp(), 0x03)), pair(0x15, 0x15));
    assert_eq!(bench.chip.phase, Phase::Ready);
    assert_eq!(bench.code[..256], ramp()[..]);
    assert!(bench.code[256..].iter().all(|byte| *byte == 0xFF));
    assert_eq!(
        bench.say_hex("01 08 32 00 00 00 FF 03 00 00 C4 03"),
        status(0x1B)
    );
    let sum = bench.say_hex("01 07 B0 00 00 00 FF 03 00 47 03");
    assert_eq!(sum, vec![hex("02 01 06 F9 03"), hex("02 02 80 83 FB 03")]);
    assert_eq!(
        bench.say_hex("01 07 40 00 00 00 FF 03 00 B7 03"),
        status(0x06)
    );
    // The same page again is 06h (02 §6), and the command goes on to page 1, which the wrong footer ends again.
    assert_eq!(bench.say(&ramp_frame), pair(0x06, 0x06));
    assert_eq!(bench.chip.phase, awaiting(0x40, 0x100, 0x3FF, false));
    assert_eq!(bench.say(&page(&ramp(), 0x03)), pair(0x15, 0x15));
    assert_eq!(bench.chip.phase, Phase::Ready);
    assert_eq!(bench.code[..256], ramp()[..]);
    assert!(bench.code[256..].iter().all(|byte| *byte == 0xFF));
    assert_eq!(
        bench.say_hex("01 07 13 00 00 00 FF 03 00 E4 03"),
        status(0x06)
    );
    // Page 0 is equal and the others are blank: the last page tells (02 §2).
    for _ in 0..3 {
        assert_eq!(bench.say(&ramp_frame), pair(0x06, 0x06));
    }
    assert_eq!(bench.say(&page(&ramp(), 0x03)), pair(0x06, 0x0F));
    assert_eq!(bench.chip.phase, Phase::Ready);
}

#[test]
fn fresh_sums() {
    let mut bench = Bench::ready();
    assert_eq!(
        bench.say_hex("01 07 B0 00 00 00 FF 3F 00 0B 03")[1],
        hex("02 02 00 40 BE 03")
    );
    assert_eq!(
        bench.say_hex("01 07 B0 00 10 0F FF 1F 0F FD 03")[1],
        hex("02 02 00 10 EE 03")
    );
    let two_blocks = bench.say_command("B0 00 00 00 FF 07 00");
    assert_eq!(two_blocks[1], frame(0x02, &[0x00, 0x08], 0x03));
    let mut bench = Bench::ready_with(part_of(64, 0, 32));
    let whole = bench.say_command("B0 00 00 00 FF FF 00");
    assert_eq!(whole[1], frame(0x02, &[0x00, 0x00], 0x03));
    // the fresh sum of 64 blocks says nothing, a written byte shows.
    bench.code[0xFFFF] = 0xFE;
    let whole = bench.say_command("B0 00 00 00 FF FF 00");
    assert_eq!(whole[1], frame(0x02, &[0x01, 0x00], 0x03));
}

#[test]
fn crossing_from_code_to_data() {
    let asked = "01 07 B0 00 00 00 FF 13 0F 28 03";
    assert_eq!(Bench::ready().say_hex(asked), status(0x05));
}

#[test]
fn order_of_judgement() {
    for (asked, answer) in [
        ("01 01 00 00 00", 0x15),
        ("01 02 9A 00 64 03", 0x04),
        ("01 02 00 00 FE 03", 0x15),
        ("01 02 55 01 A8 03", 0x04),
    ] {
        assert_eq!(Bench::ready().say_hex(asked), status(answer), "{asked}");
    }
}

#[test]
fn reset_of_260_bytes() {
    let mut frame = vec![0x01, 0x00];
    frame.extend([0x00; 257]);
    frame.push(0x03);
    assert_eq!(frame.len(), 260);
    let mut bench = Bench::ready();
    assert!(bench.say(&frame[..259]).is_empty());
    assert_eq!(bench.chip.count, 259);
    assert_eq!(bench.say(&frame[259..]), status(0x15));
    assert_eq!(bench.chip.count, 0);
}

#[test]
fn data_frame_of_000_in_each_state() {
    let good_sum = "02 04 FF 80 40 22 1B 03";
    let bad_sum = "02 04 FF 80 40 22 1A 03";
    assert_eq!(Bench::awaiting(0xA0, 0, 0).say_hex(bad_sum), status(0x07));
    assert_eq!(Bench::awaiting(0xA0, 0, 0).say_hex(good_sum), status(0x15));
    for com in [0x40, 0x13] {
        let middle = || Bench::awaiting(com, 0x100, 0x3FF);
        let last = || Bench::awaiting(com, 0x300, 0x3FF);
        assert_eq!(middle().say_hex(bad_sum), pair(0x15, 0x15));
        assert_eq!(middle().say_hex(good_sum), pair(0x15, 0x15));
        assert_eq!(last().say_hex(bad_sum), pair(0x07, 0x07));
        assert_eq!(last().say_hex(good_sum), pair(0x15, 0x15));
    }
}

#[test]
fn weak_vectors() {
    // A page of equal bytes has SUM 00h whatever the byte, so only the stored bytes tell one from another.
    for byte in [0x00, 0x5A, 0xFF] {
        let equal = page(&[byte; 256], 0x17);
        assert_eq!(equal[258], 0x00);
        let mut bench = Bench::awaiting(0x40, 0x400, 0x7FF);
        assert_eq!(bench.say(&equal), pair(0x06, 0x06));
        assert_eq!(bench.code[0x400..0x500], [byte; 256]);
    }
    assert_ne!(page(&mixed(3), 0x17)[258], 0x00);
}
