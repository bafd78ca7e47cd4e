//! The plain engine: a whole stretch of bytes without gaps, split into frames where they lie, with no collecting state (02 §7). What a complete frame does is the
//! chip's own.

use crate::chip::{
    accept_all_but_room, awaited_header, hear_frame, hear_mode_byte, Chip, Flash, SMALLEST_ROOM,
};
use crate::frame::{Fault, Frame, Reply, LONGEST};
use crate::part::Part;
use crate::sums::Sums;

/// What is said to a stretch: the replies lie end to end at the start of the room, so many bytes and frames; and how many frames of the stretch were judged bad,
/// with the fault of the first (02 §4).
#[derive(Clone, Copy, Debug, Default, PartialEq, Eq)]
pub struct Said {
    pub bytes: usize,
    pub frames: usize,
    pub faults: usize,
    pub first: Option<Fault>,
}

/// All bytes of the stretch. A chip that holds the beginning of a frame goes on with it, and holds one again where the stretch ends within a frame; the collected
/// bytes past the count are never touched. A refused call changes nothing at all.
pub fn play(
    part: &Part,
    chip: &mut Chip,
    stretch: &[u8],
    code: &mut [u8],
    data: &mut [u8],
    sums: &mut Sums,
    room: &mut [u8],
) -> Result<Said, u8> {
    accept(part, chip, stretch, code, data, room)?;
    let mut line = Line {
        part,
        chip,
        flash: Flash { code, data, sums },
        reply: Reply::at_start(room),
        faults: 0,
        first: None,
    };
    let rest = line.finish_frame(stretch);
    line.hear_frames(rest);
    Ok(Said {
        bytes: line.reply.bytes,
        frames: line.reply.frames,
        faults: line.faults,
        first: line.first,
    })
}

/// "Refusals: 12 if the reply room is shorter than 32 bytes for each byte fed, in place of 4". By division, so that nothing can wrap.
fn accept(
    part: &Part,
    chip: &Chip,
    stretch: &[u8],
    code: &[u8],
    data: &[u8],
    room: &[u8],
) -> Result<(), u8> {
    accept_all_but_room(part, chip, code, data)?;
    if room.len() / SMALLEST_ROOM < stretch.len() {
        Err(12)
    } else {
        Ok(())
    }
}

struct Line<'a> {
    part: &'a Part,
    chip: &'a mut Chip,
    flash: Flash<'a>,
    reply: Reply<'a>,
    faults: usize,
    first: Option<Fault>,
}

impl Line<'_> {
    /// A frame that was begun before the stretch: held bytes and those of the stretch are joined, and no other frame is copied. Hands back what follows it.
    fn finish_frame<'s>(&mut self, stretch: &'s [u8]) -> &'s [u8] {
        let held = self.chip.count;
        if held == 0 {
            return stretch;
        }
        let more = stretch.len().min(LONGEST - held);
        let mut joined = [0; LONGEST];
        joined[..held].copy_from_slice(&self.chip.collected[..held]);
        joined[held..held + more].copy_from_slice(&stretch[..more]);
        match Frame::split_off(&joined[..held + more]) {
            Some((frame, _)) => {
                self.chip.count = 0;
                self.hear(frame);
                &stretch[frame.length() - held..]
            }
            // No frame is longer than the joined bytes have room for: these are all, and they are held.
            None => {
                self.hold(&joined[..held + more]);
                &[]
            }
        }
    }

    /// The other frames. What the chip seeks may change with each: the mode byte, 01h or 02h.
    fn hear_frames(&mut self, mut rest: &[u8]) {
        while let Some(byte) = rest.first() {
            match awaited_header(self.chip.phase) {
                None => {
                    hear_mode_byte(self.chip, *byte);
                    rest = &rest[1..];
                }
                Some(header) => {
                    let skipped = rest.iter().take_while(|byte| **byte != header).count();
                    let begun = &rest[skipped..];
                    match Frame::split_off(begun) {
                        Some((frame, after)) => {
                            self.hear(frame);
                            rest = after;
                        }
                        None => return self.hold(begun),
                    }
                }
            }
        }
    }

    fn hear(&mut self, frame: Frame) {
        let fault = hear_frame(
            self.part,
            self.chip,
            frame,
            &mut self.flash,
            &mut self.reply,
        );
        self.faults += usize::from(fault.is_some());
        self.first = self.first.or(fault);
    }

    /// The beginning of a frame, or nothing of one.
    fn hold(&mut self, begun: &[u8]) {
        self.chip.collected[..begun.len()].copy_from_slice(begun);
        self.chip.count = begun.len();
    }
}
