//! Directed events: every COM with every fault of a frame in every phase, every pair of edge addresses, every page, one byte amiss in every place of a page,
//! every flag byte and every window edge for A0h, protection by every flag byte that the chip accepts, every block's kept sum, every set of faults of a refused
//! call (01 "Frames", "Phases", "Commands", "Refusal numbers", 02 §1), what 13h tells late (02 §2), every fault at every place (02 §4), and pages over pages (02 §6).

use twin::chip::{
    Chip, Event, Phase, BLANK_CHECK, BLOCK_ERASE, CHECKSUM, ERASED, PROGRAM, SECURITY_RELEASE,
    SECURITY_SET, VERIFY,
};
use twin::frame::{LAST_FOOTER, MORE_FOOTER};
use twin::part::{Area, Part};
use twin::random::{command_frame, data_frame, range_body, Generator};
use twin::replay::replay_part;

use crate::chip::{Difference, Sides, ORDER};
use crate::coverage::Coverage;
use crate::faults;
use crate::late;
use crate::script;
use crate::write_over;

pub fn parts() -> [Part; 3] {
    [(8, 0, 1), (16, 4, 32), (64, 8, 20)].map(|(code_blocks, data_blocks, clock)| Part {
        code_blocks,
        data_blocks,
        clock,
        ..replay_part()
    })
}

/// All of it; hands back the events and the refused calls.
pub fn run(coverage: &mut Coverage) -> Result<(u64, u64), Difference> {
    let mut counts = (0, 0);
    for part in parts() {
        let mut choice = Generator::new(part.code_blocks.into());
        let code = script::flash(&mut choice, 50, &part, Area::Code);
        let data = script::flash(&mut choice, 50, &part, Area::Data);
        let mut sides = Sides::fresh(&part, code, data, coverage)?;
        every_command(&mut sides)?;
        edge_ranges(&mut sides)?;
        every_page(&mut sides, &mut choice)?;
        one_byte(&mut sides)?;
        options(&mut sides)?;
        protection(&mut sides)?;
        kept_sums(&mut sides, &mut choice)?;
        every_refusal(&mut sides, &mut choice)?;
        late::run(&mut sides, &mut choice)?;
        faults::run(&mut sides)?;
        write_over::run(&mut sides, &mut choice)?;
        let (events, refused) = sides.finish();
        counts = (counts.0 + events, counts.1 + refused);
    }
    Ok(counts)
}

pub fn standing(sides: &Sides, phase: Phase) -> Chip {
    let mut chip = Chip::fresh(&sides.part).expect("a described part");
    chip.phase = phase;
    chip
}

/// Phase 4 with no difference met.
pub fn awaiting(command: u8, next: usize, last: usize) -> Phase {
    Phase::Awaiting {
        command,
        next,
        last,
        differed: false,
    }
}

pub fn phases(part: &Part) -> [Phase; 6] {
    let (block, page) = (part.block_size(Area::Code), part.page_size());
    [
        Phase::ModeByte,
        Phase::Setup,
        Phase::Ready,
        awaiting(PROGRAM, page, block - 1),
        awaiting(VERIFY, block - page, block - 1),
        awaiting(SECURITY_SET, 0, 0),
    ]
}

/// 01's LEN of each command, one less and one more, and the frame's faults alone and in pairs.
fn every_command(sides: &mut Sides) -> Result<(), Difference> {
    for phase in phases(&sides.part) {
        for com in 0..=255 {
            for length in [1, 2, 3, 4, 5, 6, 7, 8, 9] {
                let body = [com, 0x00, 0x21, 0x00, 0xFF, 0x03, 0x00, 0x00, 0x00];
                let good = command_frame(&body[..length]);
                let size = good.len();
                let (mut bad_sum, mut bad_footer) = (good.clone(), good.clone());
                bad_sum[size - 2] ^= 0x01;
                bad_footer[size - 1] = MORE_FOOTER;
                let mut both = bad_sum.clone();
                both[size - 1] = MORE_FOOTER;
                for frame in [good, bad_sum, bad_footer, both] {
                    sides.hand_in(standing(sides, phase));
                    sides.bytes(&frame, 32)?;
                    sides.pause(Event::Gap, 33)?;
                }
            }
        }
        // LEN 00h is 256.
        for com in script::COMMANDS {
            let mut body = vec![0x00; 256];
            body[0] = com;
            sides.hand_in(standing(sides, phase));
            sides.bytes(&command_frame(&body), 32)?;
            sides.pause(Event::PowerOn, 32)?;
        }
    }
    Ok(())
}

/// Every pair of addresses at an edge, for each command with a range, and each of them for 22h.
fn edge_ranges(sides: &mut Sides) -> Result<(), Difference> {
    let part = &sides.part;
    let (block, past_boot, code) = (
        part.block_size(Area::Code),
        part.boot_size(),
        part.end(Area::Code),
    );
    let (data_block, data, past_data) = (
        part.block_size(Area::Data),
        part.start(Area::Data),
        part.end(Area::Data),
    );
    let edges = [
        0,
        block - 1,
        block,
        past_boot - 1,
        past_boot,
        code - block,
        code - 1,
        code,
        code + block - 1,
        data - data_block,
        data - 1,
        data,
        data + data_block - 1,
        past_data - 1,
        past_data,
        past_data + data_block - 1,
        0xFF_FC00,
        0xFF_FFFF,
    ];
    for start in edges {
        sides.hand_in(standing(sides, Phase::Ready));
        sides.bytes(&command_frame(&range_body(BLOCK_ERASE, start, 0)[..4]), 32)?;
        for end in edges {
            for command in [PROGRAM, VERIFY, CHECKSUM] {
                sides.hand_in(standing(sides, Phase::Ready));
                sides.bytes(&command_frame(&range_body(command, start, end)), 32)?;
            }
            for area in [0x00, 0x01, 0x02] {
                let mut body = range_body(BLANK_CHECK, start, end);
                body.push(area);
                sides.hand_in(standing(sides, Phase::Ready));
                sides.bytes(&command_frame(&body), 32)?;
            }
        }
    }
    Ok(())
}

/// Each page of each area, as a page of the whole area: written where all is blank, verified, and written again.
fn every_page(sides: &mut Sides, choice: &mut Generator) -> Result<(), Difference> {
    let part = sides.part.clone();
    let size = part.page_size();
    sides.hand_in_flash(
        script::flash(choice, 0, &part, Area::Code),
        script::flash(choice, 0, &part, Area::Data),
    );
    for area in [Area::Code, Area::Data] {
        let end = part.end(area);
        for next in (part.start(area)..end).step_by(size) {
            let footer = script::footer(&part, next, end - 1);
            let page: Vec<u8> = (0..size)
                .map(|at| (at * 7 + next / size * 31) as u8)
                .collect();
            for command in [PROGRAM, VERIFY, PROGRAM] {
                sides.hand_in(standing(sides, awaiting(command, next, end - 1)));
                sides.bytes(&data_frame(&page, footer), 32)?;
            }
        }
    }
    Ok(())
}

/// Flash that differs from blank, or from the page, in one byte: at each place of a page for 40h and 13h, at both ends of each block for 32h, B0h and A2h.
fn one_byte(sides: &mut Sides) -> Result<(), Difference> {
    let part = sides.part.clone();
    let size = part.page_size();
    let code = part.size(Area::Code);
    let blank = vec![ERASED; code + part.size(Area::Data)];
    let page: Vec<u8> = (0..size).map(|at| (at * 5 + 1) as u8).collect();
    let (next, last) = (2 * size, part.block_size(Area::Code) - 1);
    for at in 0..size {
        for command in [PROGRAM, VERIFY] {
            let mut flash = blank.clone();
            if command == VERIFY {
                flash[next..next + size].copy_from_slice(&page);
            }
            flash[next + at] ^= 0x80;
            sides.hand_in_flash(flash[..code].to_vec(), flash[code..].to_vec());
            sides.hand_in(standing(sides, awaiting(command, next, last)));
            sides.bytes(&data_frame(&page, MORE_FOOTER), 32)?;
        }
    }
    let blocks = [(Area::Code, 0), (Area::Data, code)].map(|(area, before)| {
        let block = part.block_size(area);
        let starts = (0..part.size(area)).step_by(block);
        starts.map(move |offset| (area, block, offset, before + offset))
    });
    for (area, block, offset, held) in blocks.into_iter().flatten() {
        let start = part.start(area) + offset;
        let end = start + block - 1;
        let mut check = range_body(BLANK_CHECK, start, end);
        check.push(0x00);
        for at in [0, block - 1] {
            let mut flash = blank.clone();
            flash[held + at] = 0xFE;
            sides.hand_in_flash(flash[..code].to_vec(), flash[code..].to_vec());
            for body in [
                &check,
                &range_body(CHECKSUM, start, end),
                &vec![SECURITY_RELEASE],
            ] {
                sides.hand_in(standing(sides, Phase::Ready));
                sides.bytes(&command_frame(body), 32)?;
            }
        }
    }
    Ok(())
}

/// A0h's data: every flag byte over every stored one, and every edge of the window.
fn options(sides: &mut Sides) -> Result<(), Difference> {
    let last = sides.part.code_blocks as u16 - 1;
    let send = |sides: &mut Sides, stored: u8, data: &[u8], footer: u8| {
        let mut chip = standing(sides, awaiting(SECURITY_SET, 0, 0));
        chip.options.flags = stored;
        sides.hand_in(chip);
        sides.bytes(&data_frame(data, footer), 32)
    };
    for stored in script::FREE_FLAGS {
        for flags in 0..=255 {
            let data = [flags, 3, 0, 0, last as u8, 0, 0xFF, 0xFF];
            send(sides, stored, &data, LAST_FOOTER)?;
        }
    }
    for start in [0, 1, last - 1, last, last + 1, 0x0100, 0xFFFF] {
        for end in [
            0,
            1,
            last - 1,
            last,
            last + 1,
            0x0100,
            0x0100 + last,
            0xFFFF,
        ] {
            for (boot, reserved) in [(3, 0xFF), (2, 0xFF), (3, 0x00)] {
                let ([a, b], [c, d]) = (start.to_le_bytes(), end.to_le_bytes());
                let data = [0xFF, boot, a, b, c, d, 0xFF, reserved];
                send(sides, 0xFF, &data, LAST_FOOTER)?;
                send(sides, 0xFF, &data, MORE_FOOTER)?;
            }
        }
    }
    for length in 1..=16 {
        send(sides, 0xFF, &[0xFF; 16][..length], LAST_FOOTER)?;
    }
    Ok(())
}

/// 22h, 40h and A2h under every flag byte that the chip accepts, on flash that is blank and that is not.
fn protection(sides: &mut Sides) -> Result<(), Difference> {
    let part = sides.part.clone();
    let past_boot = part.boot_size();
    let starts = [
        past_boot - part.block_size(Area::Code),
        past_boot,
        part.start(Area::Data),
    ];
    for filled in [0, 100] {
        for flags in script::FREE_FLAGS {
            let mut choice = Generator::new(flags.into());
            sides.hand_in_flash(
                script::flash(&mut choice, filled, &part, Area::Code),
                script::flash(&mut choice, filled, &part, Area::Data),
            );
            for start in starts {
                let area = if start < part.start(Area::Data) {
                    Area::Code
                } else {
                    Area::Data
                };
                let end = start + part.block_size(area) - 1;
                let erase = command_frame(&range_body(BLOCK_ERASE, start, 0)[..4]);
                let write = command_frame(&range_body(PROGRAM, start, end));
                let release = command_frame(&[SECURITY_RELEASE]);
                for frame in [release, write, erase] {
                    let mut chip = standing(sides, Phase::Ready);
                    chip.options.flags = flags;
                    chip.options.start = 1;
                    sides.hand_in(chip);
                    sides.bytes(&frame, 32)?;
                }
            }
        }
    }
    Ok(())
}

/// For each block, with right sums and with wrong ones: its sum said, alone, with the next block's and with the whole area's, left alone and renewed. Wrong
/// ones are handed in before every frame, so that one that should have been left alone shows.
fn kept_sums(sides: &mut Sides, choice: &mut Generator) -> Result<(), Difference> {
    let part = sides.part.clone();
    let size = part.page_size();
    sides.hand_in_flash(
        script::flash(choice, 100, &part, Area::Code),
        script::flash(choice, 100, &part, Area::Data),
    );
    for spoils in [false, true] {
        sides.work_out()?;
        for area in [Area::Code, Area::Data] {
            let (block, past) = (part.block_size(area), part.end(area));
            for start in (part.start(area)..past).step_by(block) {
                let end = start + block - 1;
                let page: Vec<u8> = (0..size).map(|_| choice.byte()).collect();
                let sum = |first: usize, last: usize| {
                    (
                        Phase::Ready,
                        command_frame(&range_body(CHECKSUM, first, last)),
                    )
                };
                let erase = |first: usize| {
                    let body = range_body(BLOCK_ERASE, first, 0);
                    (Phase::Ready, command_frame(&body[..4]))
                };
                let paged = |command: u8, next: usize, footer: u8| {
                    (awaiting(command, next, end), data_frame(&page, footer))
                };
                let last_page = end + 1 - size;
                for (phase, frame) in [
                    sum(start, end),
                    sum(start, (end + block).min(past - 1)),
                    sum(part.start(area), past - 1),
                    paged(PROGRAM, start, MORE_FOOTER),
                    erase(start + 1),
                    erase(start),
                    sum(start, end),
                    erase(start),
                    paged(PROGRAM, start, LAST_FOOTER),
                    paged(PROGRAM, start, MORE_FOOTER),
                    paged(PROGRAM, start, MORE_FOOTER),
                    paged(PROGRAM, last_page, LAST_FOOTER),
                    paged(VERIFY, last_page, LAST_FOOTER),
                    sum(start, end),
                    sum(start, (end + block).min(past - 1)),
                ] {
                    if spoils {
                        sides.spoil_sums(choice);
                    }
                    sides.hand_in(standing(sides, phase));
                    sides.bytes(&frame, 32)?;
                }
                for event in [Event::Gap, Event::PowerOn] {
                    sides.pause(event, 32)?;
                }
            }
        }
    }
    Ok(())
}

/// The sets of these faults, from the empty one on.
pub fn sets_of(faults: &[u8]) -> impl Iterator<Item = Vec<u8>> + '_ {
    (0..1 << faults.len()).map(move |set: usize| {
        let in_set = |(bit, _): &(usize, &u8)| set >> bit & 1 == 1;
        let faults = faults.iter().enumerate().filter(in_set);
        faults.map(|(_, number)| *number).collect()
    })
}

/// Every set of the five faults, so that each refusal is met alone and before each that comes after it; zc_sums with every set of its three.
fn every_refusal(sides: &mut Sides, choice: &mut Generator) -> Result<(), Difference> {
    for faults in sets_of(&ORDER).skip(1) {
        let of_sums = faults.iter().all(|number| *number <= 3);
        for _ in 0..40 {
            sides.refused_with(choice, &faults)?;
            if of_sums {
                sides.refused_sums(choice, &faults)?;
            }
        }
    }
    Ok(())
}
