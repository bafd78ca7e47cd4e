//! The kept sums (02 §1): all of them worked out by zc_sums and by the twin, that call refused, wrong ones handed in, and how often a sum was said, renewed or
//! left alone while it was right and while it was wrong.

use trials::chip::described;
use trials::door::{self, STATE};
use twin::chip::{
    Event, Phase, ACK, BLANK_CHECK, BLOCK_ERASE, CHECKSUM, PROGRAM, SECURITY_RELEASE, VERIFY,
};
use twin::part::{Area, Part};
use twin::random::Generator;
use twin::sums::{slot_of, sum_of, work_out, Sums, SUMS};

use crate::chip::{Difference, Sides};
use crate::coverage::{row, Coverage};
use crate::write_over::{with_sums, OUTCOMES};

impl Sides<'_> {
    /// All sums worked out on the flash as it lies: the same on all sides, and right; slots of blocks that the part has not are as they were.
    pub fn work_out(&mut self) -> Result<(), Difference> {
        let before = self.twin.sums;
        let Sides { part, twin, .. } = self;
        let by_twin = work_out(part, &twin.code, &twin.data, &mut twin.sums);
        for side in [&mut self.stepped, &mut self.fed, &mut self.engine] {
            let told = door::sums(&self.described, &side.code, &side.data, &mut side.sums);
            if told != 0 || by_twin.is_err() || side.sums != self.twin.sums {
                return Err(format!(
                    "zc_sums on {:?} told {told}, the twin {by_twin:?}\n  sums {:04X?}\n  the twin's {:04X?}\n  before {before:04X?}",
                    self.part, side.sums, self.twin.sums
                ));
            }
        }
        self.coverage.count("zc_sums, worked out");
        Ok(())
    }

    /// zc_sums with these faults of 1, 2, 3, on copies: the first of them, and no sum changes.
    pub fn refused_sums(
        &mut self,
        choice: &mut Generator,
        faults: &[u8],
    ) -> Result<(), Difference> {
        let (part, _, code, data) = self.lent(choice, faults);
        let before = spoiled(choice, &self.twin.sums);
        let (mut by_twin, mut by_door) = (before, before);
        let expected = work_out(&part, &code, &data, &mut by_twin);
        let told = door::sums(&described(&part), &code, &data, &mut by_door);
        let first = [1, 2, 3].into_iter().find(|number| faults.contains(number));
        if expected.err() != first
            || Some(told) != first.map(u32::from)
            || by_twin != before
            || by_door != before
        {
            return Err(format!(
                "zc_sums with faults {faults:?} told {told}, the twin {expected:?}, or sums changed\n  {part:?}, code {}, data {}",
                code.len(),
                data.len()
            ));
        }
        self.calls_refused += 1;
        let more = if faults.len() > 1 {
            " with more faults"
        } else {
            ""
        };
        self.coverage.count(&format!("zc_sums{more}, {told}"));
        Ok(())
    }

    /// Wrong sums on all sides, in slots of blocks that the part has not too.
    pub fn spoil_sums(&mut self, choice: &mut Generator) {
        let sums = spoiled(choice, &self.twin.sums);
        for at in (0..SUMS).filter(|at| sums[*at] != self.twin.sums[*at]) {
            let held = blocks(&self.part).any(|(area, block)| slot_of(area, block) == at);
            self.coverage.count(match held {
                true => "spoiled, slots of blocks",
                false => "spoiled, slots of no block",
            });
        }
        self.twin.sums = sums;
        self.stepped.sums = sums;
        self.fed.sums = sums;
        self.engine.sums = sums;
    }

    /// Which sums are not their block's; the slot of a block that the part has not is never wrong.
    pub fn wrong_sums(&self) -> [bool; SUMS] {
        let mut wrong = [false; SUMS];
        for (area, block) in blocks(&self.part) {
            let flash = match area {
                Area::Code => &self.twin.code,
                Area::Data => &self.twin.data,
            };
            let size = self.part.block_size(area);
            let at = slot_of(area, block);
            wrong[at] = self.twin.sums[at] != sum_of(&flash[block * size..][..size]);
        }
        wrong
    }
}

fn blocks(part: &Part) -> impl Iterator<Item = (Area, usize)> + '_ {
    let each = |area: Area| (0..part.blocks(area)).map(move |block| (area, block));
    each(Area::Code).chain(each(Area::Data))
}

/// Few slots or most of them, set to random numbers, now and then to one that is right elsewhere.
pub fn spoiled(choice: &mut Generator, sums: &Sums) -> Sums {
    let mut spoiled = *sums;
    for _ in 0..choice.pick(&[1, 4, 2 * SUMS]) {
        let any = choice.word() as u16;
        spoiled[choice.below(SUMS)] = choice.pick(&[any, any, any, 0x0000, 0x0400]);
    }
    spoiled
}

/// The area of an address, and the slot of its block's sum.
pub fn own_sum(part: &Part, address: usize) -> Option<(Area, usize)> {
    part.place(address).map(|place| {
        let block = place.offset / part.block_size(place.area);
        (place.area, slot_of(place.area, block))
    })
}

/// What an event that was answered, a gap or power-on said, renewed or left alone, by which sums were wrong before it; a good page of 40h is counted with how it
/// came out.
pub fn count(
    coverage: &mut Coverage,
    part: &Part,
    wrong: &[bool; SUMS],
    event: Event,
    phase: Phase,
    before: &[u8; STATE],
    said: &[u8],
) {
    let any = wrong.contains(&true);
    let mut left = |name: &str, is_wrong: bool| {
        if is_wrong {
            coverage.count(&format!("left alone while wrong, {name}"));
        }
    };
    // The frame's addresses lie behind its COM, which is byte 35 of a state.
    let address = |at: usize| {
        usize::from_le_bytes([before[at], before[at + 1], before[at + 2], 0, 0, 0, 0, 0])
    };
    let start = match phase {
        Phase::Awaiting { next, .. } => next,
        _ => address(36),
    };
    let own = own_sum(part, start);
    let own_wrong = own.is_some_and(|(_, at)| wrong[at]);
    match (event, phase) {
        (Event::Gap, _) => left("gap", any),
        (Event::PowerOn, _) => left("power-on", any),
        (
            _,
            Phase::Awaiting {
                command: PROGRAM, ..
            },
        ) => match said {
            [ACK, ..] => (),
            _ => left("bad page", own_wrong),
        },
        (
            _,
            Phase::Awaiting {
                command: VERIFY, ..
            },
        ) => left("page of 13h", own_wrong),
        (_, Phase::Awaiting { .. }) => left("data of A0h", any),
        _ => match (before[35], said) {
            (BLOCK_ERASE, [ACK]) => {
                if let Some(own) = own {
                    renewed(coverage, "22h that erases", own, wrong);
                }
            }
            (BLOCK_ERASE, _) => left("22h refused", own_wrong),
            (PROGRAM, [ACK]) => left("40h", own_wrong),
            (BLANK_CHECK, [ACK, ..]) => left("32h", own_wrong),
            (SECURITY_RELEASE, [ACK]) => left("A2h", any),
            (CHECKSUM, [ACK]) => {
                let end = address(39);
                let Some((area, _)) = own else {
                    return;
                };
                let size = part.block_size(area);
                let (first, last) = (
                    (start - part.start(area)) / size,
                    (end - part.start(area)) / size,
                );
                let range_wrong = (first..=last).any(|block| wrong[slot_of(area, block)]);
                let over = if first == last { "one" } else { "more" };
                let how = if range_wrong { "wrong" } else { "right" };
                coverage.count(&format!("B0h over {over}, {} {how}", area_text(area)));
            }
            _ => left("another frame", any),
        },
    }
}

/// The sum of a block was worked out afresh.
pub fn renewed(
    coverage: &mut Coverage,
    name: &str,
    (area, own): (Area, usize),
    wrong: &[bool; SUMS],
) {
    let how = if wrong[own] { "wrong" } else { "right" };
    coverage.count(&format!("{name}, {} {how}", area_text(area)));
    if (0..SUMS).any(|at| at != own && wrong[at]) {
        coverage.count(&format!("{name}, others wrong"));
    }
}

pub fn area_text(area: Area) -> &'static str {
    match area {
        Area::Code => "code",
        Area::Data => "data",
    }
}

/// Prints what came of the sums; hands back what did not come.
pub fn table(coverage: &Coverage) -> Vec<String> {
    let each = ["code right", "code wrong", "data right", "data wrong"];
    let touched = [&each[..], &["others wrong"]].concat();
    let mut rows = vec![
        row("B0h over one", &each),
        row("B0h over more", &each),
        row("22h that erases", &touched),
    ];
    rows.extend(OUTCOMES.map(|outcome| row(&with_sums(outcome), &touched)));
    rows.extend([
        row(
            "left alone while wrong",
            &[
                "gap",
                "power-on",
                "22h refused",
                "40h",
                "bad page",
                "page of 13h",
                "32h",
                "A2h",
                "data of A0h",
                "another frame",
            ],
        ),
        row("spoiled", &["slots of blocks", "slots of no block"]),
        row("zc_sums", &["worked out", "1", "2", "3"]),
        // 3 is the last of the order: with another fault it never shows.
        row("zc_sums with more faults", &["1", "2"]),
    ]);
    coverage.table("kept sums", &rows)
}
