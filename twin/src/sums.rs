//! The sums that are kept beside a chip's lasting record, one for each block (02 §1).

use crate::part::{Area, Part};

/// Places of the kept sums: 64 for code blocks and 8 for data blocks, the most that a part has of each.
pub const SUMS: usize = 72;
const CODE_PLACES: usize = 64;

/// The slots of blocks that a part has not are never written.
pub type Sums = [u16; SUMS];

/// Where a block's sum is kept.
pub fn slot_of(area: Area, block: usize) -> usize {
    match area {
        Area::Code => block,
        Area::Data => CODE_PLACES + block,
    }
}

/// 0000h less each byte, in 16 bits (000 3.8.1): what B0h gives.
pub fn sum_of(bytes: &[u8]) -> u16 {
    bytes
        .iter()
        .fold(0u16, |left, byte| left.wrapping_sub(u16::from(*byte)))
}

/// "One call works all sums out when a chip is taken up." Refused with 1, 2 or 3, and then no sum changes.
pub fn work_out(part: &Part, code: &[u8], data: &[u8], sums: &mut Sums) -> Result<(), u8> {
    part.takes(code, data)?;
    for (area, flash) in [(Area::Code, code), (Area::Data, data)] {
        for (block, bytes) in flash.chunks(part.block_size(area)).enumerate() {
            sums[slot_of(area, block)] = sum_of(bytes);
        }
    }
    Ok(())
}
