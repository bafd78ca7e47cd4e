//! A proved chip with its flash, kept sums and reply room, and the twin's chip in the door's layout.

use crate::door::{self, Played, Told, NAMES, OUTPUT_FULL, ROOM, STATE, SUMS};
use twin::capture::Form;
use twin::chip::{Chip, Phase, ERASED};
use twin::frame::Fault;
use twin::part::{Area, Part};

pub struct Door {
    part: door::Part,
    pub state: [u8; STATE],
    pub code: Vec<u8>,
    pub data: Vec<u8>,
    pub sums: [u16; SUMS],
    pub room: [u8; ROOM],
}

impl Door {
    /// A fresh chip of a described part, with erased flash and the sums of its blocks.
    pub fn fresh(part: &Part) -> Door {
        let mut chip = Door {
            part: described(part),
            state: [0; STATE],
            code: vec![ERASED; part.size(Area::Code)],
            data: vec![ERASED; part.size(Area::Data)],
            sums: [0; SUMS],
            room: [0; ROOM],
        };
        let told = door::fresh(&chip.part, &mut chip.state);
        assert_eq!(told, 0);
        let told = door::sums(&chip.part, &chip.code, &chip.data, &mut chip.sums);
        assert_eq!(told, 0);
        chip
    }

    /// The bytes of the reply.
    #[inline]
    pub fn byte(&mut self, byte: u8) -> usize {
        accepted(door::byte(
            &self.part,
            &mut self.state,
            byte,
            &mut self.code,
            &mut self.data,
            &mut self.sums,
            &mut self.room,
        ))
    }

    #[inline]
    pub fn gap(&mut self) {
        accepted(door::gap(
            &self.part,
            &mut self.state,
            &mut self.code,
            &mut self.data,
            &mut self.sums,
            &mut self.room,
        ));
    }

    /// How many bytes were taken, and the bytes of the reply.
    pub fn feed(&mut self, fed: &[u8]) -> (usize, usize) {
        let (taken, told) = door::feed(
            &self.part,
            &mut self.state,
            fed,
            &mut self.code,
            &mut self.data,
            &mut self.sums,
            &mut self.room,
        );
        (taken as usize, accepted(told))
    }

    /// A whole stretch by the plain engine: the bytes of all replies, which lie in the room.
    pub fn engine(&mut self, stretch: &[u8], room: &mut [u8]) -> usize {
        let told = door::engine(
            &self.part,
            &mut self.state,
            stretch,
            &mut self.code,
            &mut self.data,
            &mut self.sums,
            room,
        );
        assert_eq!(told.refusal, 0);
        told.bytes as usize
    }

    /// How many records were played, and the bytes of their replies. The output may be too short for all of them.
    pub fn replay(&mut self, form: Form, capture: &[u8], output: &mut [u8]) -> (usize, usize) {
        let told = self.play(form, capture, output);
        assert!(told.refusal == 0 || told.refusal == OUTPUT_FULL);
        (told.records as usize, told.bytes as usize)
    }

    /// The same for records of any kind: what the call told.
    pub fn play(&mut self, form: Form, capture: &[u8], output: &mut [u8]) -> Played {
        let replay = match form {
            Form::Old => door::replay,
            Form::New => door::replay_new,
        };
        replay(
            &self.part,
            &mut self.state,
            capture,
            &mut self.code,
            &mut self.data,
            &mut self.sums,
            &mut self.room,
            output,
        )
    }
}

#[inline]
fn accepted(told: Told) -> usize {
    assert_eq!(told.refusal, 0);
    told.bytes as usize
}

/// A part as the door takes it.
pub fn described(part: &Part) -> door::Part {
    let mut names = [0; NAMES];
    names[..3].copy_from_slice(&part.device);
    names[3..13].copy_from_slice(&part.name);
    names[13..].copy_from_slice(&part.version);
    door::part(part.code_blocks, part.data_blocks, part.clock, &names)
}

/// A fault as the door has it: its number and its place, 0 and 0 for none.
pub fn fault_numbers(fault: Option<Fault>) -> (u8, u16) {
    fault.map_or((0, 0), |fault| (fault.number(), fault.place()))
}

/// The byte of a state that tells whether a difference was met (02 §2): 1 or 0 in phase 4, 0 in the others.
pub const DIFFERED: usize = 293;

/// The twin's chip in the door's layout.
pub fn layout(chip: &Chip) -> [u8; STATE] {
    let (phase, command, next, last, differed) = match chip.phase {
        Phase::ModeByte => (1, 0, 0, 0, false),
        Phase::Setup => (2, 0, 0, 0, false),
        Phase::Ready => (3, 0, 0, 0, false),
        Phase::Awaiting {
            command,
            next,
            last,
            differed,
        } => (4, command, next, last, differed),
    };
    let mut bytes = [0; STATE];
    bytes[0] = chip.options.flags;
    bytes[1] = chip.options.boot;
    bytes[2..4].copy_from_slice(&chip.options.start.to_le_bytes());
    bytes[4..6].copy_from_slice(&chip.options.end.to_le_bytes());
    bytes[6..9].copy_from_slice(&[chip.rate, phase, command]);
    bytes[9..17].copy_from_slice(&(next as u64).to_le_bytes());
    bytes[17..25].copy_from_slice(&(last as u64).to_le_bytes());
    bytes[25..33].copy_from_slice(&(chip.count as u64).to_le_bytes());
    bytes[33..DIFFERED].copy_from_slice(&chip.collected);
    bytes[DIFFERED] = differed.into();
    bytes
}
