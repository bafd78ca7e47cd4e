//! The part, a job in its flash, and flash compared (01 "The part", "The dock's flow").

use trials::door;
pub use twin::chip::ERASED;
pub use twin::part::Area;
use twin::part::Part;
use twin::sums::{work_out, Sums, SUMS};

pub const MODE_BYTE: u8 = 0x3A;
/// Flags, last boot block, window start and end.
pub const OPTIONS: usize = 6;

// The replay's part (01 "Replay"); the names are the part's own.
pub const CODE_BLOCKS: u32 = 16;
pub const DATA_BLOCKS: u32 = 4;
pub const CLOCK: u32 = 32;
pub const NAMES: [u8; door::NAMES] = *b"\x10\x00\x06R5F100LE  \x01\x02\x03";
pub const RATE: u32 = 0;
pub const SUPPLY: u32 = 33;
pub const RETRIES: u32 = 3;

/// 9Ah, 00h, C0h (01 "The dock's flow").
pub const SETUP_FRAMES: usize = 3;

pub fn part() -> Part {
    Part {
        code_blocks: CODE_BLOCKS,
        data_blocks: DATA_BLOCKS,
        clock: CLOCK,
        device: NAMES[..3].try_into().unwrap(),
        name: NAMES[3..13].try_into().unwrap(),
        version: NAMES[13..].try_into().unwrap(),
    }
}

/// Whole blocks of one area, and what they are to hold.
pub struct Job {
    pub area: Area,
    pub first_block: usize,
    pub image: Vec<u8>,
}

impl Job {
    pub fn block_size(&self) -> usize {
        part().block_size(self.area)
    }

    pub fn blocks(&self) -> usize {
        self.image.len() / self.block_size()
    }

    /// Where the range starts in its area.
    pub fn offset(&self) -> usize {
        self.first_block * self.block_size()
    }

    pub fn start(&self) -> usize {
        part().start(self.area) + self.offset()
    }

    pub fn end(&self) -> usize {
        self.start() + self.image.len() - 1
    }

    /// For a block that is not blank 32h, 22h, 40h and its pages, 13h and its pages (01 "The dock's flow").
    pub fn block_frames(&self) -> usize {
        4 + 2 * part().pages_of_block(self.area)
    }

    /// Of the undamaged job, over flash that is not blank.
    pub fn frames(&self) -> usize {
        SETUP_FRAMES + self.block_frames() * self.blocks()
    }

    /// "for B blocks and R retries allowed, at most 3 + 12(B + R) frames"
    pub fn bound(&self) -> usize {
        3 + self.block_frames() * (self.blocks() + RETRIES as usize)
    }
}

#[derive(Clone, PartialEq, Eq)]
pub struct Flash {
    pub code: Vec<u8>,
    pub data: Vec<u8>,
}

impl Flash {
    /// Full of bytes of all values, no block of it blank.
    pub fn full() -> Flash {
        Flash {
            code: noise(7, part().size(Area::Code)),
            data: noise(8, part().size(Area::Data)),
        }
    }

    pub fn area(&self, area: Area) -> &[u8] {
        match area {
            Area::Code => &self.code,
            Area::Data => &self.data,
        }
    }

    /// Of each block, worked out afresh by the second implementation (02 §1); 0 in the slots of blocks that the part has not.
    pub fn sums(&self) -> Sums {
        let mut sums = [0; SUMS];
        work_out(&part(), &self.code, &self.data, &mut sums).expect("the flash fits the part");
        sums
    }

    pub fn range(&self, job: &Job) -> &[u8] {
        let first = job.offset();
        &self.area(job.area)[first..first + job.image.len()]
    }

    /// How many bytes outside the job's range are not the other's.
    pub fn changed_outside(&self, other: &Flash, job: &Job) -> u64 {
        let changed = |area: Area| {
            let (ours, theirs) = (self.area(area), other.area(area));
            let (first, end) = match job.area == area {
                true => (job.offset(), job.offset() + job.image.len()),
                false => (0, 0),
            };
            unequal(&ours[..first], &theirs[..first]) + unequal(&ours[end..], &theirs[end..])
        };
        changed(Area::Code) + changed(Area::Data)
    }
}

pub fn unequal(ours: &[u8], theirs: &[u8]) -> u64 {
    if ours == theirs {
        return 0;
    }
    ours.iter().zip(theirs).filter(|(a, b)| a != b).count() as u64
}

/// Bytes of all values in no order (xorshift, 32 bits).
pub fn noise(seed: u32, length: usize) -> Vec<u8> {
    let mut word = seed.wrapping_mul(0x9E37_79B9) | 1;
    let mut next = || {
        word ^= word << 13;
        word ^= word >> 17;
        word ^= word << 5;
        (word >> 11) as u8
    };
    (0..length).map(|_| next()).collect()
}
