//! What a chip hears next, drawn from where it stands, so that every phase is reached and left in every way (01 "Frames" to "Commands"): parts, flash, states
//! that the chip accepts, and frames, good and damaged.

use twin::chip::{
    Chip, Options, Phase, BLANK_CHECK, BLOCK_ERASE, CHECKSUM, ERASED, LAST_BOOT_BLOCK, PROGRAM,
    RATE_SET, RESET, SECURITY_GET, SECURITY_RELEASE, SECURITY_SET, SIGNATURE, VERIFY,
};
use twin::frame::{counted, LAST_FOOTER, LONGEST, MORE_FOOTER};
use twin::part::{Area, Part};
use twin::random::{command_frame, data_frame, range_body, Generator};

pub const COMMANDS: [u8; 11] = [
    RATE_SET,
    RESET,
    BLOCK_ERASE,
    BLANK_CHECK,
    PROGRAM,
    VERIFY,
    CHECKSUM,
    SIGNATURE,
    SECURITY_GET,
    SECURITY_SET,
    SECURITY_RELEASE,
];

/// The bits that 01 gives a meaning to; the others are 1.
pub const FREE_FLAGS: [u8; 8] = [0xFF, 0xFD, 0xFB, 0xF9, 0xEF, 0xED, 0xEB, 0xE9];

/// Every size and every clock of 01's numbers comes by turns.
pub fn part_by_turns(turn: u64, choice: &mut Generator) -> Part {
    let (code_blocks, data_blocks) = match turn % 4 {
        0 => choice.pick(&[(8, 0), (16, 4), (8, 8), (64, 0), (64, 8)]),
        _ => (8 + (turn % 57) as u32, (turn % 9) as u32),
    };
    Part {
        code_blocks,
        data_blocks,
        clock: 1 + (turn % 32) as u32,
        device: [0; 3].map(|_| choice.byte()),
        name: [0; 10].map(|_| choice.byte()),
        version: [0; 3].map(|_| choice.byte()),
    }
}

/// Blank, filled, or some blocks of each; a block may differ from blank in one byte.
pub fn flash(choice: &mut Generator, filled: usize, part: &Part, area: Area) -> Vec<u8> {
    let size = part.block_size(area);
    let mut flash = vec![ERASED; part.size(area)];
    for block in flash.chunks_mut(size) {
        if choice.chance(filled) {
            let at = choice.below(size);
            let end = choice.pick(&[at + 1, size]);
            block[at..end].fill_with(|| choice.byte() & 0xFE);
        }
    }
    flash
}

/// A state that no number bars, reached or not.
pub fn good_chip(choice: &mut Generator, part: &Part) -> Chip {
    let last_block = part.code_blocks as u16 - 1;
    let end = choice.between(0, last_block.into()) as u16;
    let end = choice.pick(&[last_block, last_block, end]);
    let start = choice.between(0, end.into()) as u16;
    let phase = good_phase(choice, part);
    let junk = choice.byte();
    let mut chip = Chip {
        options: Options {
            flags: choice.pick(&[0xFF, 0xFF, 0xFF, choice_of(&FREE_FLAGS, junk)]),
            boot: LAST_BOOT_BLOCK,
            start: choice.pick(&[0, 0, start]),
            end,
        },
        rate: choice.below(4) as u8,
        phase,
        collected: [junk; LONGEST],
        count: 0,
    };
    if choice.chance(50) {
        chip.collected.fill_with(|| choice.byte());
    }
    chip
}

fn choice_of(choices: &[u8], drawn: u8) -> u8 {
    choices[usize::from(drawn) % choices.len()]
}

fn good_phase(choice: &mut Generator, part: &Part) -> Phase {
    match choice.below(8) {
        0 => Phase::ModeByte,
        1 => Phase::Setup,
        2 | 3 => Phase::Ready,
        4 => {
            // A0h uses no address, so none is barred.
            let (next, last) = (choice.word() as usize, choice.word() as usize);
            let (next, last) = choice.pick(&[(0, 0), (next, last), (usize::MAX, 0)]);
            Phase::Awaiting {
                command: SECURITY_SET,
                next,
                last,
                differed: choice.chance(30),
            }
        }
        _ => {
            let (start, last) = good_range(choice, part);
            let size = part.page_size();
            let pages = (last + 1 - start) / size;
            let page = choice.below(pages);
            let page = choice.pick(&[0, page, pages - 1, pages.saturating_sub(2)]);
            Phase::Awaiting {
                command: choice.pick(&[PROGRAM, VERIFY]),
                next: start + page * size,
                last,
                differed: choice.chance(30),
            }
        }
    }
}

/// Puts the beginning of a frame into an empty collector, and hands back the rest of the frame.
pub fn begin(choice: &mut Generator, chip: &mut Chip, frame: &[u8]) -> Vec<u8> {
    let header = match chip.phase {
        Phase::ModeByte => return frame.to_vec(),
        Phase::Setup | Phase::Ready => 0x01,
        Phase::Awaiting { .. } => 0x02,
    };
    if frame.len() < 5 || frame[0] != header {
        return frame.to_vec();
    }
    let most = (counted(frame[1]) + 3).min(frame.len() - 1);
    let count = choice.between(1, most);
    let count = choice.pick(&[1, 2, count, count, most]);
    chip.collected[..count].copy_from_slice(&frame[..count]);
    chip.count = count;
    frame[count..].to_vec()
}

/// The whole next frame, or noise: mostly one that the phase awaits.
pub fn heard(
    choice: &mut Generator,
    part: &Part,
    chip: &Chip,
    code: &[u8],
    data: &[u8],
) -> Vec<u8> {
    if choice.chance(4) {
        return noise(choice);
    }
    let frame = match chip.phase {
        Phase::ModeByte => match choice.below(10) {
            0 => vec![choice.byte()],
            1 => any_command(choice, part),
            _ => return vec![choice.pick(&[0x3A, 0x00])],
        },
        Phase::Setup => match choice.below(10) {
            0 | 1 => any_command(choice, part),
            2 | 3 => bad_rate(choice),
            _ => good_rate(choice),
        },
        Phase::Ready => any_command(choice, part),
        Phase::Awaiting {
            command: SECURITY_SET,
            ..
        } => match choice.below(20) {
            0 => any_command(choice, part),
            _ => options_data(choice, part, chip),
        },
        Phase::Awaiting {
            command,
            next,
            last,
            ..
        } => match choice.below(40) {
            0 => any_command(choice, part),
            _ => page(choice, part, command, next, last, code, data),
        },
    };
    if choice.chance(12) {
        damaged(choice, frame)
    } else {
        frame
    }
}

fn good_rate(choice: &mut Generator) -> Vec<u8> {
    let any = choice.between(18, 55) as u8;
    let supply = choice.pick(&[18, 26, 27, 33, 55, any]);
    command_frame(&[RATE_SET, choice.below(4) as u8, supply])
}

fn bad_rate(choice: &mut Generator) -> Vec<u8> {
    let rate = choice.pick(&[0x00, 0x03, 0x04, 0xFF]);
    let supply = choice.pick(&[0, 17, 18, 55, 56, 255]);
    command_frame(&[RATE_SET, rate, supply])
}

fn any_command(choice: &mut Generator, part: &Part) -> Vec<u8> {
    let (start, end) = range(choice, part);
    let any = choice.byte();
    match choice.below(30) {
        0 => command_frame(&[RESET]),
        1 => command_frame(&[SIGNATURE]),
        2 => command_frame(&[SECURITY_GET]),
        3..=5 => command_frame(&[SECURITY_RELEASE]),
        6..=8 => command_frame(&[SECURITY_SET]),
        9..=11 => command_frame(&range_body(BLOCK_ERASE, start, 0)[..4]),
        12..=14 => {
            let mut body = range_body(BLANK_CHECK, start, end);
            body.push(choice.pick(&[0x00, 0x00, 0x01, 0x01, 0x02, any]));
            command_frame(&body)
        }
        15 | 16 => command_frame(&range_body(CHECKSUM, start, end)),
        17..=21 => command_frame(&range_body(PROGRAM, start, end)),
        22..=25 => command_frame(&range_body(VERIFY, start, end)),
        26 => good_rate(choice),
        27 => command_frame(&[any]),
        28 => {
            let mut body = vec![choice.pick(&COMMANDS)];
            let more = choice.pick(&[0, 1, 2, 3, 5, 6, 7, 8, 255]);
            body.extend((0..more).map(|_| choice.byte()));
            command_frame(&body)
        }
        // 01's example of a good Reset inside another frame.
        _ => command_frame(&[0xB0, 0x01, 0x01, 0x00, 0xFF, 0x03, 0x00]),
    }
}

fn options_data(choice: &mut Generator, part: &Part, chip: &Chip) -> Vec<u8> {
    let odd = choice.byte();
    let blocks = part.code_blocks as u16;
    let any = choice.below(blocks.into()) as u16;
    let start = choice.pick(&[0, 0, 0, any, blocks - 1]);
    let end = choice.pick(&[blocks - 1, blocks - 1, any, blocks, 0x0100 + any]);
    let flags = choice_of(&FREE_FLAGS, odd);
    let mut data = vec![
        choice.pick(&[
            0xFF,
            chip.options.flags,
            chip.options.flags & flags,
            flags,
            odd,
        ]),
        choice.pick(&[3, 3, 3, 3, 3, 3, 3, odd]),
        start as u8,
        (start >> 8) as u8,
        end as u8,
        (end >> 8) as u8,
        choice.pick(&[0xFF, 0xFF, 0xFF, 0xFF, 0xFF, 0xFF, 0xFF, odd]),
        choice.pick(&[0xFF, 0xFF, 0xFF, 0xFF, 0xFF, 0xFF, 0xFF, odd]),
    ];
    match choice.below(20) {
        0 => data.truncate(choice.between(1, 7)),
        1 => data.push(odd),
        _ => (),
    }
    let footer = if choice.chance(95) {
        LAST_FOOTER
    } else {
        MORE_FOOTER
    };
    data_frame(&data, footer)
}

/// The page of flash at this address.
pub fn held<'a>(part: &Part, next: usize, code: &'a [u8], data: &'a [u8]) -> &'a [u8] {
    let size = part.page_size();
    match next.checked_sub(part.start(Area::Data)) {
        Some(offset) => &data[offset..offset + size],
        None => &code[next..next + size],
    }
}

/// The footer of the page at this address, in a range that ends there.
pub fn footer(part: &Part, next: usize, last: usize) -> u8 {
    if next + part.page_size() - 1 == last {
        LAST_FOOTER
    } else {
        MORE_FOOTER
    }
}

fn one_bit_other(choice: &mut Generator, held: &[u8]) -> Vec<u8> {
    let mut page = held.to_vec();
    page[choice.below(held.len())] ^= 1 << choice.below(8);
    page
}

fn page(
    choice: &mut Generator,
    part: &Part,
    command: u8,
    next: usize,
    last: usize,
    code: &[u8],
    data: &[u8],
) -> Vec<u8> {
    let size = part.page_size();
    let held = held(part, next, code, data);
    let any = choice.byte();
    let mut page: Vec<u8> = match choice.below(10) {
        0 => vec![any; size],
        1 => vec![ERASED; size],
        2 => held.to_vec(),
        _ if command == VERIFY => held.to_vec(),
        // More 0 bits than flash has, and all of its bits but one.
        3 | 4 => held.iter().map(|byte| byte & choice.byte()).collect(),
        5 => one_bit_other(choice, held),
        _ => (0..size).map(|_| choice.byte()).collect(),
    };
    if command == VERIFY && choice.chance(10) {
        let at = choice.below(size);
        page[choice.pick(&[0, size - 1, at])] ^= choice.pick(&[0x01, 0x80, 0xFF]);
    }
    if choice.chance(3) {
        page.truncate(choice.pick(&[1, 8, 255]));
    }
    let expected = footer(part, next, last);
    let other = expected ^ LAST_FOOTER ^ MORE_FOOTER;
    let footer = if choice.chance(96) { expected } else { other };
    data_frame(&page, footer)
}

/// Mostly good; else bad in each of 01's ways.
fn range(choice: &mut Generator, part: &Part) -> (usize, usize) {
    let (start, end) = good_range(choice, part);
    let code = part.end(Area::Code);
    let (block, data_block) = (part.block_size(Area::Code), part.block_size(Area::Data));
    match choice.below(40) {
        0 => (end, start),
        1 => (start + 1, end),
        2 => (start, end - 1),
        3 => (start, end + part.page_size()),
        4 => (start, part.start(Area::Data) + data_block - 1),
        5 => (start, end + 64 * block),
        6 => (code, code + block - 1),
        7 => (start, 0xFF_FFFF),
        8 => {
            let past = part.end(Area::Data);
            (past, past + data_block - 1)
        }
        9 => (start + 0x0F_0000, end + 0x0F_0000),
        _ => (start, end),
    }
}

/// Mostly one block, and often the same, so that pages meet what was written before.
fn good_range(choice: &mut Generator, part: &Part) -> (usize, usize) {
    let in_data = part.data_blocks > 0 && choice.chance(35);
    let area = if in_data { Area::Data } else { Area::Code };
    let (blocks, size) = (part.blocks(area), part.block_size(area));
    let any = choice.below(blocks);
    let first = choice.pick(&[0, 0, 3, 4, any, blocks - 1]).min(blocks - 1);
    let (first, count) = match choice.below(20) {
        0 => (0, blocks),
        1 | 2 => (first, 2.min(blocks - first)),
        3 => (first, blocks - first),
        _ => (first, 1),
    };
    let start = part.start(area) + first * size;
    (start, start + count * size - 1)
}

pub fn noise(choice: &mut Generator) -> Vec<u8> {
    let any = choice.byte();
    let length = choice.pick(&[1, 2, 3, 5, 9, 20]);
    (0..length)
        .map(|_| {
            let byte = choice.byte();
            choice.pick(&[0x01, 0x02, 0x03, 0x17, 0x00, 0x3A, any, byte, byte])
        })
        .collect()
}

/// The frame with a fault that the line makes.
pub fn damaged(choice: &mut Generator, mut frame: Vec<u8>) -> Vec<u8> {
    let size = frame.len();
    if size < 5 {
        return frame;
    }
    let flip = choice.between(1, 255) as u8;
    match choice.below(9) {
        0 => frame[size - 1] ^= flip,
        1 => frame[size - 2] ^= flip,
        2 => frame[1] ^= flip,
        3 => frame.truncate(choice.between(1, size - 1)),
        4 => frame[choice.below(size)] ^= flip,
        5 => frame.insert(0, frame[0]),
        6 => frame[size - 1] ^= LAST_FOOTER ^ MORE_FOOTER,
        7 => drop(frame.remove(choice.below(size))),
        _ => frame.insert(choice.below(size), flip),
    }
    frame
}
