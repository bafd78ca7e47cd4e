//! Every example 01 prints (01 "Replay", "Examples, on that part", "Easy to get wrong").

mod common;

use common::*;
use twin::capture::Form;
use twin::chip::Phase;
use twin::replay::replay_text;

#[test]
fn whole_case() {
    let capture = hex("01 01 3A 00 00 00 00 00
         01 06 01 03 9A 00 21 42
         01 01 03 00 00 00 00 00
         01 05 01 01 A1 5E 03 00");
    let printed = "02 03 06 20 00 D7 03
02 01 06 F9 03
02 08 FF 03 00 00 0F 00 FF FF E9 03
END 3
";
    assert_eq!(replay_text(Form::Old, &capture), printed);
}

#[test]
fn sum_of_security_get() {
    let mut bench = Bench::ready();
    assert_eq!(command("A1"), hex("01 01 A1 5E 03"));
    let answer = bench.say_hex("01 01 A1 5E 03");
    assert_eq!(answer[0], hex("02 01 06 F9 03"));
    assert_eq!(answer[1], hex("02 08 FF 03 00 00 0F 00 FF FF E9 03"));
}

#[test]
fn sum_of_the_data_frame_of_000() {
    assert_eq!(
        page(&hex("FF 80 40 22"), 0x03),
        hex("02 04 FF 80 40 22 1B 03")
    );
    let mut bench = Bench::awaiting(0xA0, 0, 0);
    assert_eq!(bench.say_hex("02 04 FF 80 40 22 1A 03"), status(0x07));
    assert_eq!(bench.chip.phase, Phase::Ready);
}

#[test]
fn erases() {
    let cases = [
        ("01 04 22 00 04 00 D6 03", "02 01 06 F9 03"),
        ("01 04 22 01 04 00 D5 03", "02 01 05 FA 03"),
        ("01 04 22 00 3C 00 9E 03", "02 01 06 F9 03"),
        ("01 04 22 00 40 00 9A 03", "02 01 05 FA 03"),
        ("01 04 22 00 10 0F BB 03", "02 01 06 F9 03"),
        ("01 04 22 00 20 0F AB 03", "02 01 05 FA 03"),
    ];
    for (asked, answer) in cases {
        assert_eq!(Bench::ready().say_hex(asked), vec![hex(answer)], "{asked}");
    }
}

#[test]
fn checksum_of_a_fresh_block() {
    let answer = Bench::ready().say_hex("01 07 B0 00 00 00 FF 03 00 47 03");
    assert_eq!(
        answer,
        vec![hex("02 01 06 F9 03"), hex("02 02 00 04 FA 03")]
    );
}

#[test]
fn frame_inside_a_frame() {
    let outer = hex("01 07 B0 01 01 00 FF 03 00 45 03");
    assert_eq!(Bench::ready().say(&outer), status(0x05));
    let mut noise = outer;
    noise[0] = 0x11;
    // 01 "Examples": skipped up to the inner 01 01 00 FF 03, a good Reset.
    assert_eq!(Bench::ready().say(&noise), status(0x06));
}

#[test]
fn easy_to_get_wrong() {
    // LEN 00h is 256, the header is outside SUM: a page of 256 bytes is stored.
    let mut bench = Bench::awaiting(0x40, 0, 0x3FF);
    assert_eq!(bench.say(&page(&mixed(1), 0x17)), pair(0x06, 0x06));
    assert_eq!(bench.code[..256], mixed(1)[..]);
    // Neither footer passes for the other.
    assert_eq!(bench.say(&page(&mixed(2), 0x03)), pair(0x15, 0x15));
    let mut bench = Bench::awaiting(0x40, 0x300, 0x3FF);
    assert_eq!(bench.say(&page(&mixed(2), 0x17)), pair(0x15, 0x15));
    // A write ban holds for data flash.
    let mut bench = Bench::ready();
    bench.chip.options.flags = 0xEF;
    assert_eq!(bench.say_command("40 00 10 0F FF 13 0F"), status(0x10));
    // No Release while erase is forbidden.
    bench.chip.options.flags = 0xFB;
    assert_eq!(bench.say_command("A2"), status(0x10));
    assert_eq!(bench.chip.options.flags, 0xFB);
    // The last data address is 0F1FFFh.
    assert_eq!(bench.say_command("C0")[1][18..21], hex("FF 1F 0F")[..]);
}
