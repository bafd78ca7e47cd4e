//! What 13h tells, and when: every good page but the last gets 06h 06h, and the last one 0Fh if any page of the command differed (000 3.5.3, 02 §2).

mod common;

use common::*;
use twin::chip::{Event, Phase};
use twin::random::{range_body, Generator};

/// One block and two, in code and in data flash: the first address, and how many pages.
const RANGES: [(usize, usize); 4] = [(0x800, 4), (0xF1400, 4), (0x3800, 8), (0xF1800, 8)];

/// Ready, with a mixed page in every place of flash.
fn filled() -> Bench {
    let mut bench = Bench::ready();
    for flash in [&mut bench.code, &mut bench.data] {
        for (number, held) in flash.chunks_mut(256).enumerate() {
            held.copy_from_slice(&mixed(number));
        }
    }
    bench.work_out();
    bench
}

/// The page of flash at this address.
fn held(bench: &Bench, at: usize) -> Vec<u8> {
    match at.checked_sub(0xF1000) {
        Some(offset) => bench.data[offset..offset + 256].to_vec(),
        None => bench.code[at..at + 256].to_vec(),
    }
}

/// 40h or 13h over so many pages from this address.
fn asked(com: u8, start: usize, pages: usize) -> Vec<u8> {
    frame(0x01, &range_body(com, start, start + 256 * pages - 1), 0x03)
}

/// What flash holds there, or all of it but one bit, with the footer of its place in the range.
fn sent(bench: &Bench, start: usize, pages: usize, number: usize, differs: bool) -> Vec<u8> {
    let mut bytes = held(bench, start + 256 * number);
    if differs {
        bytes[61 * number % 256] ^= 0x10;
    }
    page(&bytes, if number + 1 == pages { 0x03 } else { 0x17 })
}

/// A 13h over these pages from its command on, those that differ by their bits; the second status of the last page.
fn verified(bench: &mut Bench, start: usize, pages: usize, differing: u32) -> u8 {
    assert_eq!(bench.say(&asked(0x13, start, pages)), status(0x06));
    let mut second = 0;
    for number in 0..pages {
        let frame = sent(bench, start, pages, number, differing >> number & 1 == 1);
        let [answer] = &bench.say(&frame)[..] else {
            panic!("one frame answers a page of 13h");
        };
        second = answer[3];
    }
    assert_eq!(bench.chip.phase, Phase::Ready);
    second
}

/// Ready as before, with the same flash and sums.
fn only_ready(bench: &mut Bench, before: &Bench) {
    assert_eq!(bench.chip.phase, Phase::Ready);
    assert_eq!(bench.say_command("00"), status(0x06));
    assert!(bench.code == before.code && bench.data == before.data);
    assert_eq!(bench.sums, before.sums);
    assert_eq!(bench.chip.options, before.chip.options);
}

#[test]
fn every_set_of_differing_pages() {
    let before = filled();
    for (start, pages) in RANGES {
        for differing in 0..1u32 << pages {
            let mut bench = before.clone();
            assert_eq!(bench.say(&asked(0x13, start, pages)), status(0x06));
            for number in 0..pages {
                let differs = differing >> number & 1 == 1;
                let answer = bench.say(&sent(&before, start, pages, number, differs));
                let named = format!("{start:X}, pages {differing:b} differ, page {number}");
                if number + 1 == pages {
                    let second = if differing == 0 { 0x06 } else { 0x0F };
                    assert_eq!(answer, pair(0x06, second), "{named}");
                } else {
                    let so_far = differing << (31 - number) != 0;
                    let (next, last) = (start + 256 * (number + 1), start + 256 * pages - 1);
                    assert_eq!(answer, pair(0x06, 0x06), "{named}");
                    let phase = awaiting(0x13, next, last, so_far);
                    assert_eq!(bench.chip.phase, phase, "{named}");
                }
            }
            only_ready(&mut bench, &before);
        }
    }
}

/// The longest range: the first of its pages differs, and 255 later the last one tells.
#[test]
fn the_first_of_256_pages() {
    let before = Bench::ready_with(part_of(64, 0, 32));
    let mut bench = before.clone();
    assert_eq!(bench.say(&asked(0x13, 0, 256)), status(0x06));
    for number in 0..256 {
        let answer = bench.say(&sent(&before, 0, 256, number, number == 0));
        let second = if number == 255 { 0x0F } else { 0x06 };
        assert_eq!(answer, pair(0x06, second), "page {number}");
    }
    only_ready(&mut bench, &before);
}

/// One byte is enough, in any place of any page, and by any bit.
#[test]
fn one_byte_of_a_page() {
    let before = filled();
    for number in [0, 2, 3] {
        for at in 0..256 {
            let mut bytes = held(&before, 0x800 + 256 * number);
            bytes[at] ^= 1 << (at % 8);
            let mut bench = before.clone();
            assert_eq!(bench.say(&asked(0x13, 0x800, 4)), status(0x06));
            for other in 0..4 {
                let mut frame = sent(&before, 0x800, 4, other, false);
                if other == number {
                    frame = page(&bytes, if number == 3 { 0x03 } else { 0x17 });
                }
                let second = if other == 3 { 0x0F } else { 0x06 };
                assert_eq!(bench.say(&frame), pair(0x06, second), "{number} {at}");
            }
        }
    }
}

/// "A damaged page still ends the command at once", with its status in both places and no word of the difference.
#[test]
fn a_damaged_page_after_a_difference() {
    let before = filled();
    for (start, pages) in RANGES {
        for damaged in 1..pages {
            let good = sent(&before, start, pages, damaged, false);
            let mut bad_sum = good.clone();
            bad_sum[258] ^= 0x01;
            let mut bad_byte = good.clone();
            bad_byte[9] ^= 0x80;
            let mut other_footer = good.clone();
            other_footer[259] ^= 0x03 ^ 0x17;
            let short = page(&good[2..257], good[259]);
            for (frame, code) in [
                (&bad_sum, 0x07),
                (&bad_byte, 0x07),
                (&other_footer, 0x15),
                (&short, 0x15),
            ] {
                let mut bench = before.clone();
                bench.say(&asked(0x13, start, pages));
                for number in 0..damaged {
                    let earlier = sent(&before, start, pages, number, number == 0);
                    assert_eq!(bench.say(&earlier), pair(0x06, 0x06));
                }
                assert_eq!(bench.say(frame), pair(code, code), "page {damaged}");
                only_ready(&mut bench, &before);
                assert_eq!(verified(&mut bench, start, pages, 0), 0x06);
            }
        }
    }
}

/// Between two pages: what is heard, and whether a gap follows. None of it completes a frame.
const QUIET: [(&str, bool); 8] = [
    ("", true),
    ("00 FF 03 17 55", false),
    ("01 01 00 FF 03", false),
    ("0F 06 13", true),
    ("02", true),
    ("02 00 11 22 33", true),
    ("02 01 00 FF", true),
    ("55 02 08 FF 03 00 00 0F 00 FF FF E9", true),
];

/// Gaps, skipped bytes and frames that a gap cuts off keep the phase whole, a remembered difference with it.
#[test]
fn what_is_quiet_keeps_a_difference() {
    let before = filled();
    for (start, pages) in RANGES {
        for differing in [0b0000, 0b0001, 0b0010] {
            for (bytes, gap) in QUIET {
                let mut bench = before.clone();
                assert_eq!(bench.say(&asked(0x13, start, pages)), status(0x06));
                for number in 0..pages {
                    let phase = bench.chip.phase;
                    assert!(bench.say_hex(bytes).is_empty());
                    if gap {
                        bench.gap();
                    }
                    assert_eq!((bench.chip.phase, bench.chip.count), (phase, 0));
                    let differs = differing >> number & 1 == 1;
                    let answer = bench.say(&sent(&before, start, pages, number, differs));
                    let told = number + 1 == pages && differing != 0;
                    let second = if told { 0x0F } else { 0x06 };
                    assert_eq!(answer, pair(0x06, second), "{bytes}, page {number}");
                }
                only_ready(&mut bench, &before);
            }
        }
    }
}

/// Bytes and gaps that complete no frame where a data frame is awaited; a gap is the last.
fn noise(choice: &mut Generator) -> Vec<Event> {
    let mut events = Vec::new();
    for _ in 0..choice.between(1, 6) {
        if choice.chance(50) {
            // None of them is 02h.
            let skipped = choice.between(1, 9);
            events.extend((0..skipped).map(|_| Event::Byte(choice.byte() | 0x04)));
        } else {
            let len = choice.between(1, 256);
            let rest = choice.below(len + 2);
            events.extend([Event::Byte(0x02), Event::Byte((len % 256) as u8)]);
            events.extend((0..rest).map(|_| Event::Byte(choice.byte())));
            events.push(Event::Gap);
        }
    }
    events.push(Event::Gap);
    events
}

#[test]
fn noise_keeps_a_difference() {
    let before = filled();
    let mut choice = Generator::new(2);
    for (start, pages) in RANGES.repeat(40) {
        let differing = choice.below(1 << pages) & choice.below(1 << pages);
        let mut bench = before.clone();
        assert_eq!(bench.say(&asked(0x13, start, pages)), status(0x06));
        for number in 0..pages {
            for event in noise(&mut choice) {
                assert!(bench.event(event).is_empty());
            }
            let differs = differing >> number & 1 == 1;
            let answer = bench.say(&sent(&before, start, pages, number, differs));
            let told = number + 1 == pages && differing != 0;
            assert_eq!(answer, pair(0x06, if told { 0x0F } else { 0x06 }));
        }
        only_ready(&mut bench, &before);
    }
}

/// Whatever a 13h told, and wherever it ended, the next command remembers nothing of it.
#[test]
fn the_next_command_starts_clean() {
    let before = filled();
    let (start, pages) = RANGES[1];
    let last = start + 256 * pages - 1;
    let mut ended = vec![];
    for differing in [0b0001, 0b1000, 0b1111] {
        let mut bench = before.clone();
        assert_eq!(verified(&mut bench, start, pages, differing), 0x0F);
        ended.push(bench);
    }
    let mut damaged = before.clone();
    damaged.say(&asked(0x13, start, pages));
    damaged.say(&sent(&before, start, pages, 0, true));
    assert_eq!(damaged.say_hex("02 01 00 FE 17"), pair(0x07, 0x07));
    ended.push(damaged);
    for bench in ended {
        let mut again = bench.clone();
        assert_eq!(verified(&mut again, start, pages, 0), 0x06);
        assert_eq!(verified(&mut again, start, pages, 0b0100), 0x0F);
        for (command, phase) in [
            (
                asked(0x13, start, pages),
                awaiting(0x13, start, last, false),
            ),
            (
                asked(0x40, start, pages),
                awaiting(0x40, start, last, false),
            ),
            (command("A0"), awaiting(0xA0, 0, 0, false)),
        ] {
            let mut next = bench.clone();
            assert_eq!(next.say(&command), status(0x06));
            assert_eq!(next.chip.phase, phase);
        }
    }
}

/// Power-on leaves phase 4, and with it what was remembered.
#[test]
fn power_on_forgets() {
    for (start, pages) in RANGES {
        let before = filled();
        let mut bench = before.clone();
        bench.say(&asked(0x13, start, pages));
        bench.say(&sent(&before, start, pages, 0, true));
        bench.say(&sent(&before, start, pages, 1, false)[..100]);
        assert!(bench.event(Event::PowerOn).is_empty());
        assert_eq!(bench.chip.phase, Phase::ModeByte);
        assert!(bench.say_hex("3A").is_empty());
        assert_eq!(
            bench.say_command("9A 00 21"),
            vec![hex("02 03 06 20 00 D7 03")]
        );
        assert_eq!(verified(&mut bench, start, pages, 0), 0x06);
        only_ready(&mut bench, &before);
    }
}

/// Phase 4 does not know where the range began: a difference handed in counts at its first page too.
#[test]
fn a_difference_handed_in_with_13h() {
    let before = filled();
    for (start, pages) in RANGES {
        let last = start + 256 * pages - 1;
        for (first, differed) in (0..pages).flat_map(|first| [(first, false), (first, true)]) {
            let mut bench = before.clone();
            bench.chip.phase = awaiting(0x13, start + 256 * first, last, differed);
            for number in first..pages {
                let answer = bench.say(&sent(&before, start, pages, number, false));
                let told = number + 1 == pages && differed;
                assert_eq!(answer, pair(0x06, if told { 0x0F } else { 0x06 }));
            }
            only_ready(&mut bench, &before);
        }
    }
}

/// 40h stores as ever and answers as ever; it neither notes a difference, though every page differs from blank flash, nor forgets one.
#[test]
fn a_difference_handed_in_with_40h() {
    for differed in [false, true] {
        for (start, pages) in RANGES {
            let last = start + 256 * pages - 1;
            let image = filled();
            let mut bench = Bench::ready();
            bench.chip.phase = awaiting(0x40, start, last, differed);
            for number in 0..pages {
                let answer = bench.say(&sent(&image, start, pages, number, false));
                let mut expected = pair(0x06, 0x06);
                let mut phase = awaiting(0x40, start + 256 * (number + 1), last, differed);
                if number + 1 == pages {
                    expected.extend(status(0x06));
                    phase = Phase::Ready;
                }
                assert_eq!(answer, expected, "page {number}");
                assert_eq!(bench.chip.phase, phase);
                let at = start + 256 * number;
                assert_eq!(held(&bench, at), held(&image, at));
            }
            assert_eq!(verified(&mut bench, start, pages, 0), 0x06);
        }
        // Pages that 1Ch answers and that change nothing, since all of them is FFh (02 §6), and bad ones.
        for (next, frame, answer) in [
            (0x900, page(&[0xFF; 256], 0x17), pair(0x06, 0x1C)),
            (0xB00, page(&[0xFF; 256], 0x03), pair(0x06, 0x1C)),
            (0xB00, page(&mixed(1), 0x17), pair(0x15, 0x15)),
            (0x900, hex("02 01 00 FE 17"), pair(0x07, 0x07)),
        ] {
            let before = filled();
            let mut bench = before.clone();
            bench.chip.phase = awaiting(0x40, next, 0xBFF, differed);
            assert_eq!(bench.say(&frame), answer);
            only_ready(&mut bench, &before);
        }
    }
}

/// A0h's data is judged and stored as ever.
#[test]
fn a_difference_handed_in_with_a0h() {
    for (data, footer, answer, flags) in [
        ("FB 03 01 00 0E 00 FF FF", 0x03, 0x06, 0xFB),
        ("FF 03 00 00 0F 00 FF FF", 0x03, 0x10, 0xEF),
        ("FB 03 01 00 0E 00 FF 00", 0x03, 0x05, 0xEF),
        ("FB 03 01 00 0E 00 FF FF", 0x17, 0x15, 0xEF),
    ] {
        for differed in [false, true] {
            let mut bench = Bench::ready();
            bench.chip.options.flags = if answer == 0x06 { 0xFF } else { 0xEF };
            bench.chip.phase = awaiting(0xA0, 0, 0, differed);
            bench.gap();
            assert_eq!(bench.chip.phase, awaiting(0xA0, 0, 0, differed));
            assert_eq!(bench.say(&page(&hex(data), footer)), status(answer));
            assert_eq!(bench.chip.phase, Phase::Ready);
            assert_eq!(bench.chip.options.flags, flags);
        }
    }
}
