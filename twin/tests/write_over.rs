//! Pages of 40h over flash that isn't blank: old AND new, 06h if that is what was sent, else 1Ch and the mixed bytes stay (02 §6).

mod common;

use common::*;
use twin::chip::{Event, Phase};
use twin::part::Area;
use twin::sums::slot_of;

/// A page of flash: its address, the last address of the command's range, its area, block and offset there.
struct Place {
    next: usize,
    last: usize,
    area: Area,
    block: usize,
    offset: usize,
}

/// First, middle and last pages of a block, in a range of one block and of more, at both ends of code and of data flash.
const PLACES: [Place; 7] = [
    place(0x0000, 0x03FF, Area::Code, 0, 0x0000),
    place(0x0500, 0x0BFF, Area::Code, 1, 0x0500),
    place(0x0B00, 0x0BFF, Area::Code, 2, 0x0B00),
    place(0x3F00, 0x3FFF, Area::Code, 15, 0x3F00),
    place(0xF1000, 0xF1FFF, Area::Data, 0, 0x0000),
    place(0xF1600, 0xF17FF, Area::Data, 1, 0x0600),
    place(0xF1F00, 0xF1FFF, Area::Data, 3, 0x0F00),
];

const fn place(next: usize, last: usize, area: Area, block: usize, offset: usize) -> Place {
    Place {
        next,
        last,
        area,
        block,
        offset,
    }
}

impl Place {
    fn on_last(&self) -> bool {
        self.next + 255 == self.last
    }

    fn frame(&self, bytes: &[u8]) -> Vec<u8> {
        page(bytes, if self.on_last() { 0x03 } else { 0x17 })
    }

    fn flash<'a>(&self, bench: &'a mut Bench) -> &'a mut [u8] {
        let flash = match self.area {
            Area::Code => &mut bench.code,
            Area::Data => &mut bench.data,
        };
        &mut flash[self.offset..self.offset + 256]
    }

    fn slot(&self) -> usize {
        slot_of(self.area, self.block)
    }

    /// All blank but for this page, and the page awaited; the sums are right, or every one is wrong.
    fn bench(&self, old: &[u8], right: bool) -> Bench {
        let mut bench = Bench::awaiting(0x40, self.next, self.last);
        self.flash(&mut bench).copy_from_slice(old);
        bench.work_out();
        if !right {
            bench.sums = std::array::from_fn(|at| 0xB100 + 3 * at as u16);
        }
        bench
    }

    /// What 06h 06h and 06h 1Ch leave to be answered, with the phase after it.
    fn answer(&self, second: u8) -> (Vec<Vec<u8>>, Phase) {
        let mut frames = pair(0x06, second);
        let mut phase = Phase::Ready;
        if second == 0x06 && self.on_last() {
            frames.extend(status(0x06));
        } else if second == 0x06 {
            phase = awaiting(0x40, self.next + 256, self.last, false);
        }
        (frames, phase)
    }

    /// The page sent over the old one, with right sums and with wrong ones: the second status, the page of flash and the sum of its block then; nothing else changes.
    fn writes(&self, old: &[u8], sent: &[u8], (second, after, sum): (u8, &[u8], u16)) {
        for right in [true, false] {
            let mut bench = self.bench(old, right);
            let mut expected = bench.clone();
            self.flash(&mut expected).copy_from_slice(after);
            expected.sums[self.slot()] = sum;
            let told = bench.say(&self.frame(sent));
            let (frames, phase) = self.answer(second);
            let named = format!("{:05X}, {:02X} over {:02X}", self.next, sent[0], old[0]);
            assert_eq!((told, bench.chip.phase), (frames, phase), "{named}");
            assert!(
                bench.code == expected.code && bench.data == expected.data,
                "{named}"
            );
            assert_eq!(bench.sums, expected.sums, "{named}");
            assert_eq!(bench.chip.options, expected.chip.options);
        }
    }
}

/// Pages of 256 equal bytes, of one block whose other pages are blank: what is held, what is sent, what is held then, the second status, and the block's sum. By
/// hand: the four pages add up to bb00h and three times FF00h, so that the sum is 0300h - bb00h.
const EQUAL_BYTES: [(u8, u8, u8, u8, u16); 16] = [
    // Blank: as before this rule.
    (0xFF, 0x5A, 0x5A, 0x06, 0xA900),
    (0xFF, 0x00, 0x00, 0x06, 0x0300),
    (0xFF, 0xFF, 0xFF, 0x06, 0x0400),
    // The same page again.
    (0x5A, 0x5A, 0x5A, 0x06, 0xA900),
    (0x00, 0x00, 0x00, 0x06, 0x0300),
    // More 0 bits.
    (0x5A, 0x4A, 0x4A, 0x06, 0xB900),
    (0x5A, 0x00, 0x00, 0x06, 0x0300),
    (0xFE, 0x7E, 0x7E, 0x06, 0x8500),
    // 1 bits over 0 bits: mixed.
    (0x5A, 0x3C, 0x18, 0x1C, 0xEB00),
    (0x5A, 0xA5, 0x00, 0x1C, 0x0300),
    (0xF0, 0xE1, 0xE0, 0x1C, 0x2300),
    // And where nothing was left to clear.
    (0x5A, 0x5B, 0x5A, 0x1C, 0xA900),
    (0x5A, 0xFF, 0x5A, 0x1C, 0xA900),
    (0xFE, 0xFF, 0xFE, 0x1C, 0x0500),
    (0x7F, 0xFF, 0x7F, 0x1C, 0x8400),
    (0x00, 0x01, 0x00, 0x1C, 0x0300),
];

#[test]
fn pages_of_equal_bytes() {
    for place in &PLACES {
        for (old, sent, after, second, sum) in EQUAL_BYTES {
            place.writes(&[old; 256], &[sent; 256], (second, &[after; 256], sum));
        }
    }
}

/// One byte at fault, at each place of the page and by each bit: 1Ch, and all the others are as sent. By hand: a page of 5Ah with three blank ones has A900h, and
/// the bit that is 0 in flash takes nothing off.
#[test]
fn one_bit_at_fault() {
    for place in [&PLACES[1], &PLACES[6]] {
        for at in 0..256 {
            for bit in 0..8 {
                let one = 1u8 << bit;
                let (mut old, mut sent, mut after) = ([0xFF; 256], [0x5A; 256], [0x5A; 256]);
                old[at] = !one;
                sent[at] |= one;
                after[at] &= !one;
                let sum = 0xA900 + 0x5A - u16::from(after[at]);
                place.writes(&old, &sent, (0x1C, &after, sum));
            }
        }
    }
}

/// The same bit 0 in flash and in the page: 06h.
#[test]
fn one_bit_that_is_0_in_both() {
    for place in [&PLACES[1], &PLACES[6]] {
        for at in 0..256 {
            for bit in [0, 3, 7] {
                let one = 1u8 << bit;
                let (mut old, mut sent) = ([0xFF; 256], [0x5A; 256]);
                old[at] = !one;
                sent[at] &= !one;
                let sum = 0xA900 + 0x5A - u16::from(sent[at]);
                place.writes(&old, &sent, (0x06, &sent, sum));
            }
        }
    }
}

/// Every byte over every byte, 256 pairs to a page: the page that holds 00h to FFh gets one byte throughout. Bit by bit, 1 only where both are.
#[test]
fn every_byte_over_every_byte() {
    for sent in 0..=255u8 {
        let after: Vec<u8> = ramp()
            .iter()
            .map(|old| {
                (0..8)
                    .map(|bit| (((old >> bit) % 2) * ((sent >> bit) % 2)) << bit)
                    .sum()
            })
            .collect();
        let mut bench = PLACES[5].bench(&ramp(), true);
        // Only a page of 00h is held as sent, since one byte of the ramp is 00h.
        let second = if sent == 0x00 { 0x06 } else { 0x1C };
        let told = bench.say(&PLACES[5].frame(&[sent; 256]));
        assert_eq!(told, pair(0x06, second), "{sent:02X}");
        assert_eq!(PLACES[5].flash(&mut bench), after, "{sent:02X}");
    }
}

/// "resending the same page succeeds": a whole block again, and the further 06h after its last page as ever.
#[test]
fn the_same_block_again() {
    for addresses in ["00 08 00 FF 0B 00", "00 14 0F FF 17 0F"] {
        let mut bench = Bench::ready();
        let mut first = None;
        for _ in 0..3 {
            assert_eq!(bench.say_command(&format!("40 {addresses}")), status(0x06));
            for number in 0..3 {
                let told = bench.say(&page(&mixed(number), 0x17));
                assert_eq!(told, pair(0x06, 0x06), "page {number}");
            }
            let told = bench.say(&page(&mixed(3), 0x03));
            assert_eq!(told, [pair(0x06, 0x06), status(0x06)].concat());
            assert_eq!(bench.chip.phase, Phase::Ready);
            assert_eq!(*first.get_or_insert(bench.clone()), bench);
        }
    }
}

/// A write cut off after two pages and begun again, without an erase.
#[test]
fn a_write_cut_off_and_begun_again() {
    let mut bench = Bench::ready();
    assert_eq!(bench.say_command("40 00 08 00 FF 0B 00"), status(0x06));
    for number in 0..2 {
        assert_eq!(bench.say(&page(&mixed(number), 0x17)), pair(0x06, 0x06));
    }
    bench.event(Event::PowerOn);
    bench.say_hex("3A");
    bench.say_command("9A 00 21");
    assert_eq!(bench.say_command("40 00 08 00 FF 0B 00"), status(0x06));
    for number in 0..3 {
        assert_eq!(bench.say(&page(&mixed(number), 0x17)), pair(0x06, 0x06));
    }
    let told = bench.say(&page(&mixed(3), 0x03));
    assert_eq!(told, [pair(0x06, 0x06), status(0x06)].concat());
    let written: Vec<u8> = (0..4).flat_map(mixed).collect();
    assert_eq!(bench.code[0x800..0xC00], written);
}

/// Block 2 or data block 1 with 3Ch over 5Ah in its first page, all else blank: 06h 1Ch, and 18h is held.
fn mixed_page(data: bool) -> Bench {
    let mut bench = Bench::ready();
    let [write, erased] = match data {
        true => ["40 00 14 0F FF 17 0F", "32 00 14 0F FF 17 0F 00"],
        false => ["40 00 08 00 FF 0B 00", "32 00 08 00 FF 0B 00 00"],
    };
    assert_eq!(bench.say_command(erased), status(0x06));
    assert_eq!(bench.say_command(write), status(0x06));
    assert_eq!(bench.say(&page(&[0x5A; 256], 0x17)), pair(0x06, 0x06));
    // A bad page ends the command.
    assert_eq!(bench.say_hex("02 01 00 FF FF"), pair(0x15, 0x15));
    assert_eq!(bench.say_command(write), status(0x06));
    assert_eq!(bench.say(&page(&[0x3C; 256], 0x17)), pair(0x06, 0x1C));
    assert_eq!(bench.say_command(erased), status(0x1B));
    bench
}

/// The mixed page as B0h and 13h say it, and nothing else written: EB00h is 0300h - 1800h.
fn says_mixed(bench: &mut Bench, data: bool) {
    let [sum, verify] = match data {
        true => ["B0 00 14 0F FF 17 0F", "13 00 14 0F FF 17 0F"],
        false => ["B0 00 08 00 FF 0B 00", "13 00 08 00 FF 0B 00"],
    };
    let said = bench.say_command(sum);
    assert_eq!(said, vec![hex("02 01 06 F9 03"), hex("02 02 00 EB 13 03")]);
    for (first, second) in [(0x18, 0x06), (0x3C, 0x0F), (0x5A, 0x0F)] {
        assert_eq!(bench.say_command(verify), status(0x06));
        assert_eq!(bench.say(&page(&[first; 256], 0x17)), pair(0x06, 0x06));
        assert_eq!(bench.say(&page(&[0xFF; 256], 0x17)), pair(0x06, 0x06));
        assert_eq!(bench.say(&page(&[0xFF; 256], 0x17)), pair(0x06, 0x06));
        assert_eq!(bench.say(&page(&[0xFF; 256], 0x03)), pair(0x06, second));
    }
}

/// "and the command ends": the pages that still come are no pages, since only 01h begins a frame, and a command is heard.
#[test]
fn no_page_is_heard_after_1c() {
    for data in [false, true] {
        let mut bench = mixed_page(data);
        let before = bench.clone();
        for footer in [0x17, 0x03] {
            assert!(bench.say(&page(&[0x55; 256], footer)).is_empty());
            assert_eq!(bench, before);
        }
        assert_eq!(bench.say_command("00"), status(0x06));
        says_mixed(&mut bench, data);
    }
}

/// "Pages answered 1Ch also stand in demand 3": after a gap, after noise that completes no good frame, and after power-on.
#[test]
fn the_mixed_page_stays() {
    for data in [false, true] {
        for noise in [
            "",
            "55 AA FF 03 17 02 00",
            "01 04 22 00 08",
            // 22h of the block with a wrong SUM and with a wrong footer, and a SUM that fits with LEN unfit.
            "01 04 22 00 08 00 D3 03",
            "01 04 22 00 08 00 D2 17",
            "01 03 22 00 08 D3 03",
        ] {
            let mut bench = mixed_page(data);
            let before = bench.clone();
            bench.gap();
            let said = bench.say_hex(noise);
            assert!(said.iter().all(|answer| answer[2] != 0x06), "{noise}");
            bench.gap();
            assert!(bench.code == before.code && bench.data == before.data);
            assert_eq!(
                (bench.sums, &bench.chip.phase),
                (before.sums, &Phase::Ready)
            );
            says_mixed(&mut bench, data);
            assert!(bench.event(Event::PowerOn).is_empty());
            bench.say_hex("3A");
            bench.say_command("9A 00 21");
            says_mixed(&mut bench, data);
            assert!(bench.code == before.code && bench.data == before.data);
            assert_eq!(bench.sums, before.sums);
        }
    }
}

/// Pages stored before one that is answered 1Ch stay, in another block too, and those behind it are as they were.
#[test]
fn pages_before_and_behind() {
    let mut bench = Bench::ready();
    bench.code[0x0D00..0x0E00].fill(0x0F);
    bench.code[0x0F00..0x1000].fill(0x33);
    bench.work_out();
    assert_eq!(bench.say_command("40 00 08 00 FF 0F 00"), status(0x06));
    for _ in 0..5 {
        assert_eq!(bench.say(&page(&[0xC3; 256], 0x17)), pair(0x06, 0x06));
    }
    assert_eq!(bench.say(&page(&[0xC3; 256], 0x17)), pair(0x06, 0x1C));
    assert_eq!(bench.chip.phase, Phase::Ready);
    let mut expected = vec![0xFF; 16 * 1024];
    expected[0x0800..0x0D00].fill(0xC3);
    expected[0x0D00..0x0E00].fill(0x03);
    expected[0x0F00..0x1000].fill(0x33);
    assert_eq!(bench.code, expected);
    // By hand: 0000h less four times C300h; 0000h less C300h, 0300h, FF00h and 3300h.
    assert_eq!(bench.sums[1..5], [0x0400, 0xF400, 0x0800, 0x0400]);
}

/// Bits that are 0 come back by an erase alone: after it the page that was answered 1Ch is stored.
#[test]
fn an_erase_and_the_page_again() {
    let mut bench = mixed_page(false);
    assert_eq!(bench.say_command("22 00 08 00"), status(0x06));
    assert_eq!(bench.say_command("40 00 08 00 FF 0B 00"), status(0x06));
    assert_eq!(bench.say(&page(&[0x3C; 256], 0x17)), pair(0x06, 0x06));
    assert_eq!(bench.code[0x800..0x900], [0x3C; 256]);
}

/// 32h and A2h ask for FFh throughout, as before: a page of FFh over blank flash leaves it blank, and one over data does not make it so.
#[test]
fn blank_is_ff_throughout() {
    let mut bench = Bench::ready();
    assert_eq!(bench.say_command("40 00 08 00 FF 0B 00"), status(0x06));
    for _ in 0..3 {
        assert_eq!(bench.say(&page(&[0xFF; 256], 0x17)), pair(0x06, 0x06));
    }
    let told = bench.say(&page(&[0xFF; 256], 0x03));
    assert_eq!(told, [pair(0x06, 0x06), status(0x06)].concat());
    assert_eq!(bench.say_command("32 00 08 00 FF 0B 00 00"), status(0x06));
    assert_eq!(bench.say_command("A2"), status(0x06));
    bench.data[0x0400] = 0xFE;
    assert_eq!(bench.say_command("40 00 14 0F FF 17 0F"), status(0x06));
    assert_eq!(bench.say(&page(&[0xFF; 256], 0x17)), pair(0x06, 0x1C));
    assert_eq!(bench.data[0x0400], 0xFE);
    assert_eq!(bench.say_command("32 00 14 0F FF 17 0F 00"), status(0x1B));
    assert_eq!(bench.say_command("A2"), status(0x1B));
}

/// A bad page puts its status in both and clears no bit, whatever it would have cleared (01 "Commands").
#[test]
fn a_bad_page_over_written_flash() {
    for place in &PLACES {
        let good = place.frame(&[0x00; 256]);
        let (mut bad_sum, mut bad_footer) = (good.clone(), good.clone());
        bad_sum[258] ^= 0x01;
        bad_footer[259] = if place.on_last() { 0x17 } else { 0x03 };
        for (frame, told) in [
            (bad_sum, 0x07),
            (bad_footer, 0x15),
            (place.frame(&[0x00; 255]), 0x15),
        ] {
            let mut expected = place.bench(&[0x5A; 256], false);
            let mut bench = expected.clone();
            assert_eq!(bench.say(&frame), pair(told, told));
            expected.chip = bench.chip.clone();
            assert_eq!(bench.chip.phase, Phase::Ready);
            assert!(bench == expected, "{:05X}, {told:02X}", place.next);
        }
    }
}

/// The bans and the ranges of 40h are judged before any page, as before, over flash that isn't blank too.
#[test]
fn refused_over_written_flash() {
    for (flags, body, answer) in [
        (0xEF, "40 00 08 00 FF 0B 00", 0x10),
        (0xEF, "40 00 14 0F FF 17 0F", 0x10),
        (0xFD, "40 00 0C 00 FF 0F 00", 0x10),
        (0xFF, "40 00 08 00 FF 0A 00", 0x05),
        (0xFF, "40 00 09 00 FF 0B 00", 0x05),
    ] {
        for data in [false, true] {
            let mut bench = mixed_page(data);
            bench.chip.options.flags = flags;
            let before = bench.clone();
            assert_eq!(bench.say_command(body), status(answer), "{body}");
            assert!(bench.say(&page(&[0x00; 256], 0x17)).is_empty());
            assert!(bench.code == before.code && bench.data == before.data);
            assert_eq!(bench.sums, before.sums);
        }
    }
}
