//! Frames as they travel: length, SUM, judgement, the writing of frames and the reading of reply frames (01 "Frames", 02 §4, 000 chapter 2).

pub const COMMAND_HEADER: u8 = 0x01;
pub const DATA_HEADER: u8 = 0x02;
/// ETX: every command frame, and the last data frame (000 table 2-1).
pub const LAST_FOOTER: u8 = 0x03;
/// ETB: every data frame but the last (000 table 2-1).
pub const MORE_FOOTER: u8 = 0x17;

/// The longest frame: header, LEN, 256 bytes, SUM, footer.
pub const LONGEST: usize = 260;

/// What LEN counts: 00h means 256 (000 table 2-1).
pub fn counted(len: u8) -> usize {
    match len {
        0 => 256,
        other => usize::from(other),
    }
}

/// LEN as it is written for 1 to 256 bytes; 256 becomes 00h.
pub fn len_byte(bytes: usize) -> u8 {
    (bytes % 256) as u8
}

/// SUM: 00h less LEN and less each byte after it, borrow dropped (000 table 2-1).
pub fn sum(len: u8, bytes: &[u8]) -> u8 {
    bytes
        .iter()
        .fold(0u8.wrapping_sub(len), |left, byte| left.wrapping_sub(*byte))
}

/// One frame at the start of the room, which must hold it; what lies past it stays. Hands back its length.
pub fn write(room: &mut [u8], header: u8, body: &[u8], footer: u8) -> usize {
    let len = len_byte(body.len());
    let end = 2 + body.len();
    room[0] = header;
    room[1] = len;
    room[2..end].copy_from_slice(body);
    room[end] = sum(len, body);
    room[end + 1] = footer;
    end + 2
}

/// What is wrong with a frame, and at which of its bytes, counted from its header (02 §4). LEN 00h is 256, so places reach 259.
#[derive(Clone, Copy, Debug, PartialEq, Eq)]
pub enum Fault {
    /// A wrong footer, at the footer's place.
    Footer(u16),
    /// A wrong SUM, at SUM's place.
    Sum(u16),
    /// An unfit LEN; in a reply also one that is missing, or whose frame is cut short or overlong.
    Len,
    /// Of a reply alone: its first byte is missing or not 02h.
    First,
}

impl Fault {
    /// Numbers of ours; 0 stands for none.
    pub fn number(self) -> u8 {
        match self {
            Fault::Footer(_) => 1,
            Fault::Sum(_) => 2,
            Fault::Len => 3,
            Fault::First => 4,
        }
    }

    pub fn place(self) -> u16 {
        match self {
            Fault::Footer(place) | Fault::Sum(place) => place,
            Fault::Len => 1,
            Fault::First => 0,
        }
    }

    /// The byte that is wrong.
    pub fn name(self) -> &'static str {
        match self {
            Fault::Footer(_) => "footer",
            Fault::Sum(_) => "SUM",
            Fault::Len => "LEN",
            Fault::First => "first byte",
        }
    }
}

/// The first two judgements of a frame whose LEN counts this body, in 01's order: footer, SUM.
fn judge_ends(len: u8, body: &[u8], ends: [u8; 2], footer: u8) -> Result<(), Fault> {
    let place = 2 + body.len() as u16;
    if ends[1] != footer {
        Err(Fault::Footer(place + 1))
    } else if ends[0] != sum(len, body) {
        Err(Fault::Sum(place))
    } else {
        Ok(())
    }
}

/// The data of the reply frame that begins these bytes, of which so many bytes are expected, and what follows it; else its fault. A reply is judged in an order
/// of its own: first byte, LEN, then footer and SUM (02 §4). Behind the last frame of an answer nothing may follow: what does makes it overlong.
pub fn read_reply(bytes: &[u8], expected: usize, last: bool) -> Result<(&[u8], &[u8]), Fault> {
    if bytes.first() != Some(&DATA_HEADER) {
        return Err(Fault::First);
    }
    let whole = expected + 4;
    let fits = bytes.get(1).is_some_and(|len| counted(*len) == expected)
        && bytes.len() >= whole
        && (!last || bytes.len() == whole);
    if !fits {
        return Err(Fault::Len);
    }
    let (frame, rest) = bytes.split_at(whole);
    let body = &frame[2..2 + expected];
    judge_ends(
        frame[1],
        body,
        [frame[whole - 2], frame[whole - 1]],
        LAST_FOOTER,
    )?;
    Ok((body, rest))
}

/// A whole frame, where it lies.
#[derive(Clone, Copy)]
pub struct Frame<'a> {
    bytes: &'a [u8],
}

impl<'a> Frame<'a> {
    /// The frame that begins these bytes, and what follows it; nothing if they end before it does, at LEN + 4 bytes (01 "Frames").
    pub fn split_off(bytes: &'a [u8]) -> Option<(Frame<'a>, &'a [u8])> {
        let whole = counted(*bytes.get(1)?) + 4;
        let (frame, rest) = bytes.split_at_checked(whole)?;
        Some((Frame { bytes: frame }, rest))
    }

    pub fn length(self) -> usize {
        self.bytes.len()
    }

    /// COM and information, or the data.
    pub fn body(self) -> &'a [u8] {
        &self.bytes[2..self.bytes.len() - 2]
    }

    /// Footer, then SUM: what every frame is judged by first (01 "Frames").
    pub fn judge(self, footer: u8) -> Result<(), Fault> {
        let (front, ends) = self.bytes.split_at(self.bytes.len() - 2);
        judge_ends(front[1], &front[2..], [ends[0], ends[1]], footer)
    }
}

/// Reply frames, written one behind the other from the start of the room.
pub struct Reply<'a> {
    room: &'a mut [u8],
    pub bytes: usize,
    pub frames: usize,
}

impl<'a> Reply<'a> {
    pub fn at_start(room: &'a mut [u8]) -> Reply<'a> {
        Reply {
            room,
            bytes: 0,
            frames: 0,
        }
    }

    /// Each reply frame ends in 03h: it is a last frame in itself (000 chapter 3, all figures).
    pub fn frame(&mut self, data: &[u8]) {
        let room = &mut self.room[self.bytes..];
        self.bytes += write(room, DATA_HEADER, data, LAST_FOOTER);
        self.frames += 1;
    }
}
