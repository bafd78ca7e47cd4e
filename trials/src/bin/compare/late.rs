//! Directed events for what 13h tells late (02 §2): pages that differ in every set, with a gap or noise between them, a damaged page or power-on after them; a
//! difference that is handed in with each of the three commands; and byte 293 of a state with each number that is refused.

use twin::chip::{Event, Phase, PROGRAM, RATE_SET, SECURITY_SET, VERIFY};
use twin::frame::{LAST_FOOTER, MORE_FOOTER};
use twin::part::{Area, Part};
use twin::random::{command_frame, data_frame, range_body, Generator};

use crate::chip::{Difference, Sides};
use crate::directed::{phases, sets_of, standing};
use crate::script;

pub fn run(sides: &mut Sides, choice: &mut Generator) -> Result<(), Difference> {
    let areas = [Area::Code, Area::Data].map(|area| (area, sides.part.blocks(area)));
    for (area, _) in areas.into_iter().filter(|(_, blocks)| *blocks > 0) {
        flash(sides, choice, 100);
        sides.hand_in(standing(sides, Phase::Ready));
        let last = Pages::of_last_block(&sides.part, area);
        every_set(sides, &last)?;
        two_blocks(sides, choice, area)?;
        between_pages(sides, &last)?;
        damaged_pages(sides, &last)?;
        power_on(sides, &last)?;
        for filled in [100, 0] {
            flash(sides, choice, filled);
            handed_in(sides, &last)?;
        }
    }
    handed_in_for_options(sides)?;
    handed_in_and_quiet(sides)?;
    byte_293(sides, choice)
}

/// Another flash on all sides, so many percent of its blocks not blank.
pub fn flash(sides: &mut Sides, choice: &mut Generator, filled: usize) {
    let part = sides.part.clone();
    sides.hand_in_flash(
        script::flash(choice, filled, &part, Area::Code),
        script::flash(choice, filled, &part, Area::Data),
    );
}

/// Phase 4 with a difference remembered.
fn differed(command: u8, next: usize, last: usize) -> Phase {
    Phase::Awaiting {
        command,
        next,
        last,
        differed: true,
    }
}

/// The range of a 13h or a 40h.
pub struct Pages {
    pub start: usize,
    pub count: usize,
    pub size: usize,
}

impl Pages {
    pub fn of_last_block(part: &Part, area: Area) -> Pages {
        Pages {
            start: part.end(area) - part.block_size(area),
            count: part.pages_of_block(area),
            size: part.page_size(),
        }
    }

    pub fn next(&self, number: usize) -> usize {
        self.start + number * self.size
    }

    pub fn last(&self) -> usize {
        self.next(self.count) - 1
    }

    pub fn command(&self, command: u8) -> Vec<u8> {
        command_frame(&range_body(command, self.start, self.last()))
    }

    /// The frame of a page: what flash holds there, or all of it but one bit.
    pub fn frame(&self, sides: &Sides, number: usize, differs: bool) -> Vec<u8> {
        let next = self.next(number);
        let mut page = script::held(&sides.part, next, &sides.twin.code, &sides.twin.data).to_vec();
        if differs {
            page[number * 85 % self.size] ^= 1 << (number % 8);
        }
        data_frame(&page, script::footer(&sides.part, next, self.last()))
    }

    /// 13h and its first pages, so many; those that differ by their bits.
    pub fn begin(
        &self,
        sides: &mut Sides,
        pages: usize,
        differing: usize,
    ) -> Result<(), Difference> {
        sides.bytes(&self.command(VERIFY), 32)?;
        for number in 0..pages {
            let frame = self.frame(sides, number, differing >> number & 1 == 1);
            sides.bytes(&frame, 32)?;
        }
        Ok(())
    }

    /// The whole 13h, and after it one without a difference.
    fn verify(&self, sides: &mut Sides, differing: usize) -> Result<(), Difference> {
        self.begin(sides, self.count, differing)?;
        self.begin(sides, self.count, 0)
    }
}

fn every_set(sides: &mut Sides, range: &Pages) -> Result<(), Difference> {
    (0..1 << range.count).try_for_each(|differing| range.verify(sides, differing))
}

/// The first two blocks of the area, with some of the sets.
fn two_blocks(sides: &mut Sides, choice: &mut Generator, area: Area) -> Result<(), Difference> {
    let range = Pages {
        start: sides.part.start(area),
        count: 2 * sides.part.pages_of_block(area),
        size: sides.part.page_size(),
    };
    (0..16).try_for_each(|_| range.verify(sides, choice.below(1 << range.count)))
}

/// What completes no frame where a data frame is awaited; where it holds 02h, a gap cuts it off.
pub const QUIET: [(&[u8], bool); 5] = [
    (&[], true),
    (&[0x00, 0x0F, 0x17, 0x03], false),
    (&[0x01, 0x01, 0x00, 0xFF, 0x03], true),
    (&[0x02], true),
    (&[0x55, 0x02, 0x01, 0x00, 0xFF], true),
];

pub fn quiet(sides: &mut Sides, (bytes, gap): (&[u8], bool)) -> Result<(), Difference> {
    sides.bytes(bytes, 32)?;
    if gap {
        sides.pause(Event::Gap, 32)?;
    }
    Ok(())
}

/// The first page differs, or the second, and what is quiet comes before each page.
fn between_pages(sides: &mut Sides, range: &Pages) -> Result<(), Difference> {
    for heard in QUIET {
        for differing in [0, 1] {
            range.begin(sides, 0, 0)?;
            for number in 0..range.count {
                quiet(sides, heard)?;
                let frame = range.frame(sides, number, number == differing);
                sides.bytes(&frame, 32)?;
            }
        }
    }
    Ok(())
}

/// The first page differs, and a later one has another SUM, another footer or another LEN.
fn damaged_pages(sides: &mut Sides, range: &Pages) -> Result<(), Difference> {
    for number in 1..range.count {
        let good = range.frame(sides, number, false);
        let (sum, footer) = (good.len() - 2, good.len() - 1);
        let (mut bad_sum, mut bad_footer) = (good.clone(), good.clone());
        bad_sum[sum] ^= 0x01;
        bad_footer[footer] ^= LAST_FOOTER ^ MORE_FOOTER;
        let short = data_frame(&good[2..sum - 1], good[footer]);
        for damaged in [bad_sum, bad_footer, short] {
            range.begin(sides, number, 1)?;
            sides.bytes(&damaged, 32)?;
            range.verify(sides, 0)?;
        }
    }
    Ok(())
}

/// The first page differs, power-on cuts the command off, and the next one is without a difference.
fn power_on(sides: &mut Sides, range: &Pages) -> Result<(), Difference> {
    range.begin(sides, 2, 1)?;
    sides.pause(Event::PowerOn, 32)?;
    sides.bytes(&[0x3A], 32)?;
    sides.bytes(&command_frame(&[RATE_SET, 0x00, 0x21]), 32)?;
    range.verify(sides, 0)
}

/// A difference that is handed in at each page: with 13h, whose other pages are equal; with 40h, as long as no page is answered 1Ch; and a bad page with each.
fn handed_in(sides: &mut Sides, range: &Pages) -> Result<(), Difference> {
    for command in [VERIFY, PROGRAM] {
        for first in 0..range.count {
            let phase = differed(command, range.next(first), range.last());
            sides.hand_in(standing(sides, phase));
            for number in first..range.count {
                if sides.twin.state.phase == Phase::Ready {
                    break;
                }
                let frame = range.frame(sides, number, command == PROGRAM);
                sides.bytes(&frame, 32)?;
            }
            sides.hand_in(standing(sides, phase));
            sides.bytes(&data_frame(&[0x00], 0xFF), 32)?;
        }
    }
    Ok(())
}

/// A difference that is handed in with A0h, and each answer to its data.
fn handed_in_for_options(sides: &mut Sides) -> Result<(), Difference> {
    let last = sides.part.code_blocks as u8 - 1;
    let good = data_frame(&[0xEF, 3, 0, 0, last, 0, 0xFF, 0xFF], LAST_FOOTER);
    let mut bad_sum = good.clone();
    bad_sum[10] ^= 0x01;
    for (stored, frame) in [
        (0xFF, &good),
        (0xEB, &good),
        (0xFF, &bad_sum),
        (0xFF, &data_frame(&[0xEF, 3], LAST_FOOTER)),
        (0xFF, &data_frame(&[0x00; 8], LAST_FOOTER)),
    ] {
        let mut chip = standing(sides, differed(SECURITY_SET, 0, 0));
        chip.options.flags = stored;
        sides.hand_in(chip);
        sides.bytes(frame, 32)?;
    }
    Ok(())
}

fn handed_in_and_quiet(sides: &mut Sides) -> Result<(), Difference> {
    let range = Pages::of_last_block(&sides.part, Area::Code);
    for phase in [
        differed(VERIFY, range.start, range.last()),
        differed(PROGRAM, range.start, range.last()),
        differed(SECURITY_SET, 0, 0),
    ] {
        for heard in QUIET {
            sides.hand_in(standing(sides, phase));
            quiet(sides, heard)?;
            sides.pause(Event::PowerOn, 32)?;
        }
    }
    Ok(())
}

/// Each number that byte 293 may not hold in the phase, alone, beside a rate that is refused too, and with every set of the other faults.
fn byte_293(sides: &mut Sides, choice: &mut Generator) -> Result<(), Difference> {
    for phase in phases(&sides.part) {
        let barred: &[u8] = match phase {
            Phase::Awaiting { .. } => &[0x02, 0xFF],
            _ => &[0x01, 0x02, 0xFF],
        };
        for held in barred {
            for faults in sets_of(&[1, 2, 3, 4]) {
                for rate in [0, 1, 2, 3, 4, 0xFF] {
                    let mut chip = standing(sides, phase);
                    chip.rate = rate;
                    sides.refused_byte_293(choice, &faults, &chip, *held)?;
                }
            }
        }
    }
    Ok(())
}
