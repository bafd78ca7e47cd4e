//! Pages of 40h over flash that isn't blank (02 §6): directed events; and how often a page came out in each way, in each area and as a last page or not, how often
//! one bit of one byte alone was at fault, at each place of a page, and what came next after 1Ch.

use trials::door::STATE;
use twin::chip::{Event, Phase, ACK, CHECKSUM, ERASED, NOT_WRITTEN, PROGRAM, RATE_SET};
use twin::frame::{COMMAND_HEADER, DATA_HEADER, LAST_FOOTER};
use twin::part::Area;
use twin::random::{command_frame, data_frame, range_body, Generator};
use twin::sums::SUMS;

use crate::chip::{Difference, Sides};
use crate::coverage::{row, Coverage};
use crate::directed::{awaiting, standing};
use crate::late::{self, Pages};
use crate::script;
use crate::sums::{area_text, own_sum, renewed};

/// How a good page of 40h comes out, by what flash held there and holds then.
pub const OUTCOMES: [&str; 5] = [
    "06h over blank flash",
    "06h for the same page",
    "06h for more 0 bits",
    "1Ch with mixed bytes",
    "1Ch with flash as it was",
];

fn outcome(old: &[u8], held: &[u8], second: u8) -> &'static str {
    let blank = old.iter().all(|byte| *byte == ERASED);
    OUTCOMES[match (second, old == held) {
        (NOT_WRITTEN, false) => 3,
        (NOT_WRITTEN, true) => 4,
        _ if blank => 0,
        (_, true) => 1,
        (_, false) => 2,
    }]
}

fn one_bit_row(area: Area) -> String {
    format!("1Ch for one bit alone in {}", area_text(area))
}

impl Sides<'_> {
    /// A good page of 40h, with what flash held there before it and which sums were wrong.
    pub fn count_page(
        &mut self,
        phase: Phase,
        old: &[u8],
        wrong: &[bool; SUMS],
        before: &[u8; STATE],
        said: &[u8],
    ) {
        let (
            Phase::Awaiting {
                command: PROGRAM,
                next,
                last,
                ..
            },
            [ACK, second, ..],
        ) = (phase, said)
        else {
            return;
        };
        let Some(own @ (area, _)) = own_sum(&self.part, next) else {
            return;
        };
        let held = script::held(&self.part, next, &self.twin.code, &self.twin.data);
        let outcome = outcome(old, held, *second);
        let place = match script::footer(&self.part, next, last) {
            LAST_FOOTER => "last page",
            _ => "before it",
        };
        let of_area = area_text(area);
        self.coverage
            .count(&format!("{outcome}, {of_area} {place}"));
        renewed(self.coverage, &with_sums(outcome), own, wrong);
        // The page lies in the collector behind header and LEN.
        let mut amiss = (before[35..].iter().zip(held).enumerate())
            .map(|(at, (sent, byte))| (at, sent ^ byte))
            .filter(|(_, bits)| *bits != 0);
        if let (Some((at, bits)), None) = (amiss.next(), amiss.next()) {
            if bits.is_power_of_two() {
                let bit = 8 * at + bits.trailing_zeros() as usize;
                self.coverage
                    .count(&format!("{}, {bit}", one_bit_row(area)));
            }
        }
    }

    /// What an event is to a chip whose last event was answered 1Ch.
    pub fn count_next(&mut self, event: Event, said: &[u8]) {
        if self.after_1c {
            self.coverage.count(match event {
                Event::Gap => "next after 1Ch, gap",
                Event::PowerOn => "next after 1Ch, power-on",
                Event::Byte(COMMAND_HEADER) => "next after 1Ch, 01h",
                Event::Byte(DATA_HEADER) => "next after 1Ch, 02h",
                Event::Byte(_) => "next after 1Ch, another byte",
            });
        }
        self.after_1c = said == [ACK, NOT_WRITTEN];
    }

    /// Another page of flash on all sides; the sums stay as they are.
    fn hand_in_page(&mut self, next: usize, page: &[u8]) {
        let (mut code, mut data) = (self.twin.code.clone(), self.twin.data.clone());
        let data_start = self.part.start(Area::Data);
        let held = match next.checked_sub(data_start) {
            Some(offset) => &mut data[offset..],
            None => &mut code[next..],
        };
        held[..page.len()].copy_from_slice(page);
        self.hand_in_flash(code, data);
    }
}

/// The outcome's row among the kept sums.
pub fn with_sums(outcome: &str) -> String {
    format!("page, {outcome}")
}

pub fn run(sides: &mut Sides, choice: &mut Generator) -> Result<(), Difference> {
    let areas = [Area::Code, Area::Data].map(|area| (area, sides.part.blocks(area)));
    for (area, _) in areas.into_iter().filter(|(_, blocks)| *blocks > 0) {
        late::flash(sides, choice, 50);
        let block = Pages::of_last_block(&sides.part, area);
        for spoils in [false, true] {
            every_pair(sides, choice, &block, spoils)?;
            again(sides, choice, &block)?;
            ended(sides, choice, &block, spoils)?;
        }
        one_bit(sides, choice, &block)?;
    }
    Ok(())
}

fn any_page(choice: &mut Generator, size: usize) -> Vec<u8> {
    (0..size).map(|_| choice.byte()).collect()
}

/// Right sums for the flash as it lies, or wrong ones.
fn hand_in_sums(sides: &mut Sides, choice: &mut Generator, spoils: bool) -> Result<(), Difference> {
    if spoils {
        sides.spoil_sums(choice);
        return Ok(());
    }
    sides.work_out()
}

/// Each byte of the one with that of the other.
fn joined(one: &[u8], other: &[u8], by: fn(u8, u8) -> u8) -> Vec<u8> {
    one.iter().zip(other).map(|(a, b)| by(*a, *b)).collect()
}

/// Pages over pages, at each place of the block.
fn every_pair(
    sides: &mut Sides,
    choice: &mut Generator,
    block: &Pages,
    spoils: bool,
) -> Result<(), Difference> {
    let size = block.size;
    for number in 0..block.count {
        let (any, other) = (any_page(choice, size), any_page(choice, size));
        let (blank, zeros) = (vec![ERASED; size], vec![0x00; size]);
        let both = joined(&any, &other, |a, b| a & b);
        let either = joined(&any, &other, |a, b| a | b);
        for (old, sent) in [
            (&blank, &any),
            (&any, &any),
            (&any, &both),
            (&any, &zeros),
            (&zeros, &zeros),
            (&any, &other),
            (&any, &blank),
            (&any, &either),
            (&zeros, &any),
        ] {
            let (next, last) = (block.next(number), block.last());
            sides.hand_in_page(next, old);
            hand_in_sums(sides, choice, spoils)?;
            sides.hand_in(standing(sides, awaiting(PROGRAM, next, last)));
            let footer = script::footer(&sides.part, next, last);
            sides.bytes(&data_frame(sent, footer), 32)?;
        }
    }
    Ok(())
}

/// One bit of one byte is 0 in flash and 1 in the page, at each place; all else is blank, or as sent already. Only the last byte of the frame is heard.
fn one_bit(sides: &mut Sides, choice: &mut Generator, block: &Pages) -> Result<(), Difference> {
    let (next, last) = (block.next(1), block.last());
    let footer = script::footer(&sides.part, next, last);
    for bit in 0..8 * block.size {
        let (at, one) = (bit / 8, 1 << (bit % 8));
        let mut sent = any_page(choice, block.size);
        sent[at] |= one;
        let mut old = match choice.chance(50) {
            true => sent.clone(),
            false => vec![ERASED; block.size],
        };
        old[at] &= !one;
        sides.hand_in_page(next, &old);
        let mut chip = standing(sides, awaiting(PROGRAM, next, last));
        let frame = data_frame(&sent, footer);
        let (heard, rest) = frame.split_at(frame.len() - 1);
        chip.collected[..heard.len()].copy_from_slice(heard);
        chip.count = heard.len();
        sides.hand_in(chip);
        sides.bytes(rest, 32)?;
    }
    Ok(())
}

/// A block written, written again with the same pages, and with fewer 1 bits.
fn again(sides: &mut Sides, choice: &mut Generator, block: &Pages) -> Result<(), Difference> {
    let mut pages: Vec<Vec<u8>> = Vec::new();
    for number in 0..block.count {
        sides.hand_in_page(block.next(number), &vec![ERASED; block.size]);
        pages.push(any_page(choice, block.size));
    }
    sides.hand_in(standing(sides, Phase::Ready));
    for round in 0..3 {
        sides.bytes(&block.command(PROGRAM), 32)?;
        for (number, page) in pages.iter_mut().enumerate() {
            if round == 2 {
                *page = joined(page, &any_page(choice, block.size), |a, b| a & b);
            }
            let footer = script::footer(&sides.part, block.next(number), block.last());
            sides.bytes(&data_frame(page, footer), 32)?;
        }
    }
    Ok(())
}

/// What comes after a 1Ch.
#[derive(Clone, Copy)]
enum Then {
    /// The next page at once, without an 01h in it.
    BlankPage,
    AnyPage,
    Quiet((&'static [u8], bool)),
    PowerOn,
    Command,
}

/// 1Ch at each page of the block, pages before it being what is held; what comes then, and what B0h and 13h say of the block.
fn ended(
    sides: &mut Sides,
    choice: &mut Generator,
    block: &Pages,
    spoils: bool,
) -> Result<(), Difference> {
    let quiet = late::QUIET.map(Then::Quiet);
    let others = [Then::BlankPage, Then::AnyPage, Then::PowerOn, Then::Command];
    for number in 0..block.count {
        for then in quiet.into_iter().chain(others) {
            // Bit 0 is 0 in every byte, so that a page can be at fault.
            for at in 0..block.count {
                let page = any_page(choice, block.size);
                let held: Vec<u8> = page.iter().map(|byte| byte & 0xFE).collect();
                sides.hand_in_page(block.next(at), &held);
            }
            hand_in_sums(sides, choice, spoils)?;
            sides.hand_in(standing(sides, Phase::Ready));
            sides.bytes(&block.command(PROGRAM), 32)?;
            for before in 0..number {
                let frame = block.frame(sides, before, false);
                sides.bytes(&frame, 32)?;
            }
            let footer = |at: usize| {
                let at = at.min(block.count - 1);
                script::footer(&sides.part, block.next(at), block.last())
            };
            let (own, next) = (footer(number), footer(number + 1));
            let mut page = any_page(choice, block.size);
            page[choice.below(block.size)] |= 0x01;
            sides.bytes(&data_frame(&page, own), 32)?;
            match then {
                Then::BlankPage => sides.bytes(&data_frame(&vec![ERASED; block.size], next), 32)?,
                Then::AnyPage => {
                    sides.bytes(&data_frame(&any_page(choice, block.size), next), 32)?
                }
                Then::Quiet(heard) => late::quiet(sides, heard)?,
                Then::PowerOn => {
                    sides.pause(Event::PowerOn, 32)?;
                    sides.bytes(&[0x3A], 32)?;
                    sides.bytes(&command_frame(&[RATE_SET, 0x00, 0x21]), 32)?;
                }
                Then::Command => (),
            }
            if !matches!(then, Then::Command) {
                sides.pause(Event::Gap, 32)?;
            }
            let sum = range_body(CHECKSUM, block.start, block.last());
            sides.bytes(&command_frame(&sum), 32)?;
            block.begin(sides, block.count, 0)?;
        }
    }
    Ok(())
}

/// Prints what came of pages over pages; hands back what did not come.
pub fn table(coverage: &Coverage) -> Vec<String> {
    let places = [
        "code before it",
        "code last page",
        "data before it",
        "data last page",
    ];
    let mut rows: Vec<_> = OUTCOMES
        .iter()
        .map(|outcome| row(outcome, &places))
        .collect();
    rows.push(row(
        "next after 1Ch",
        &["01h", "02h", "another byte", "gap", "power-on"],
    ));
    let mut missing = coverage.table("pages of 40h", &rows);
    for area in [Area::Code, Area::Data] {
        missing.extend(coverage.places(&one_bit_row(area), 0..=2047));
    }
    missing
}
