//! The description of a part, and its flash in areas, blocks and pages (01 "The part"). Sizes are asked of the part, and stand nowhere else.

/// The description of a part.
#[derive(Clone, Debug, PartialEq, Eq)]
pub struct Part {
    pub code_blocks: u32,
    pub data_blocks: u32,
    pub clock: u32,
    pub device: [u8; 3],
    pub name: [u8; 10],
    pub version: [u8; 3],
}

/// The two areas of flash.
#[derive(Clone, Copy, Debug, PartialEq, Eq)]
pub enum Area {
    Code,
    Data,
}

/// Where an address lies: its area, and how far from that area's first byte.
#[derive(Clone, Copy, Debug, PartialEq, Eq)]
pub struct Place {
    pub area: Area,
    pub offset: usize,
}

impl Part {
    /// Inside 01's numbers; else refusal 1.
    pub fn fits(&self) -> bool {
        (8..=64).contains(&self.code_blocks)
            && self.data_blocks <= 8
            && (1..=32).contains(&self.clock)
    }

    /// Refusals 1, 2, 3, in this order: the description, then the lengths of the flash that is lent with it.
    pub fn takes(&self, code: &[u8], data: &[u8]) -> Result<(), u8> {
        if !self.fits() {
            Err(1)
        } else if code.len() != self.size(Area::Code) {
            Err(2)
        } else if data.len() != self.size(Area::Data) {
            Err(3)
        } else {
            Ok(())
        }
    }

    pub fn blocks(&self, area: Area) -> usize {
        match area {
            Area::Code => self.code_blocks as usize,
            Area::Data => self.data_blocks as usize,
        }
    }

    /// "A block is 1,024 bytes", in both areas of every part.
    pub fn block_size(&self, area: Area) -> usize {
        match area {
            Area::Code | Area::Data => 1024,
        }
    }

    /// "a page 256".
    pub fn page_size(&self) -> usize {
        256
    }

    pub fn pages_of_block(&self, area: Area) -> usize {
        self.block_size(area) / self.page_size()
    }

    pub fn size(&self, area: Area) -> usize {
        self.blocks(area) * self.block_size(area)
    }

    /// "Code flash: .. from 00000h. Data flash: .. from F1000h."
    pub fn start(&self, area: Area) -> usize {
        match area {
            Area::Code => 0x00000,
            Area::Data => 0xF1000,
        }
    }

    /// The address after the area's last.
    pub fn end(&self, area: Area) -> usize {
        self.start(area) + self.size(area)
    }

    /// Nothing for an address outside flash.
    pub fn place(&self, address: usize) -> Option<Place> {
        if address < self.size(Area::Code) {
            return Some(Place {
                area: Area::Code,
                offset: address,
            });
        }
        let offset = address.checked_sub(self.start(Area::Data))?;
        (offset < self.size(Area::Data)).then_some(Place {
            area: Area::Data,
            offset,
        })
    }

    /// "Boot blocks are code blocks 0 to 3": how many bytes from the first of code flash.
    pub fn boot_size(&self) -> usize {
        4 * self.block_size(Area::Code)
    }
}
