//! The software chip: one step over a byte, a gap or power-on (01 "The part" to "Refusal numbers"), with a sum kept for each block (02 §1), 13h's rule as 000
//! has it (02 §2), the fault of a bad frame told (02 §4), and pages written over what flash holds (02 §6).

use crate::frame::{
    counted, Fault, Frame, Reply, COMMAND_HEADER, DATA_HEADER, LAST_FOOTER, LONGEST, MORE_FOOTER,
};
use crate::part::{Area, Part};
use crate::sums::{slot_of, sum_of, Sums};

pub const LAST_BOOT_BLOCK: u8 = 0x03;
pub const ERASED: u8 = 0xFF;
pub const SMALLEST_ROOM: usize = 32;

const ONE_WIRE: u8 = 0x3A;
const TWO_WIRES: u8 = 0x00;

pub const RESET: u8 = 0x00;
pub const VERIFY: u8 = 0x13;
pub const BLOCK_ERASE: u8 = 0x22;
pub const BLANK_CHECK: u8 = 0x32;
pub const PROGRAM: u8 = 0x40;
pub const RATE_SET: u8 = 0x9A;
pub const SECURITY_SET: u8 = 0xA0;
pub const SECURITY_GET: u8 = 0xA1;
pub const SECURITY_RELEASE: u8 = 0xA2;
pub const CHECKSUM: u8 = 0xB0;
pub const SIGNATURE: u8 = 0xC0;

pub const UNKNOWN: u8 = 0x04;
pub const PARAMETER: u8 = 0x05;
pub const ACK: u8 = 0x06;
pub const BAD_SUM: u8 = 0x07;
pub const UNEQUAL: u8 = 0x0F;
pub const PROTECTED: u8 = 0x10;
pub const NACK: u8 = 0x15;
pub const NOT_BLANK: u8 = 0x1B;
pub const NOT_WRITTEN: u8 = 0x1C;

const FRESH_FLAGS: u8 = 0xFF;
const BOOT_ALLOWED: u8 = 1 << 1;
const ERASE_ALLOWED: u8 = 1 << 2;
const WRITE_ALLOWED: u8 = 1 << 4;
/// Bits 0, 3, 5, 6, 7 (000 table 3-3).
const FIXED_FLAGS: u8 = 0xE9;
const HIGHEST_RATE: u8 = 0x03;

/// The lasting options (01 "The part").
#[derive(Clone, Copy, Debug, PartialEq, Eq)]
pub struct Options {
    pub flags: u8,
    pub boot: u8,
    pub start: u16,
    pub end: u16,
}

/// The four phases, each with its own data (01 "Phases").
#[derive(Clone, Copy, Debug, PartialEq, Eq)]
pub enum Phase {
    ModeByte,
    Setup,
    Ready,
    Awaiting {
        command: u8,
        next: usize,
        last: usize,
        /// Whether a page of this 13h has differed (02 §2); 40h carries it on, and neither 40h nor A0h looks at it.
        differed: bool,
    },
}

/// The chip's state; flash and the kept sums are lent beside it.
#[derive(Clone, Debug, PartialEq, Eq)]
pub struct Chip {
    pub options: Options,
    pub rate: u8,
    pub phase: Phase,
    /// Only the first `count` bytes mean anything; the others are never touched.
    pub collected: [u8; LONGEST],
    pub count: usize,
}

#[derive(Clone, Copy, Debug, PartialEq, Eq)]
pub enum Event {
    Byte(u8),
    Gap,
    PowerOn,
}

#[derive(Clone, Copy, Debug, PartialEq, Eq)]
pub enum Answer {
    /// Length of the reply at the start of the room, how many frames it is, and the fault of the frame that the event completed, where it was judged bad.
    Replied {
        bytes: usize,
        frames: usize,
        fault: Option<Fault>,
    },
    /// 01 "Refusal numbers".
    Refused(u8),
}

impl Chip {
    /// A chip as it leaves the house, at power-on; refused with 1 for a part outside the numbers.
    pub fn fresh(part: &Part) -> Result<Chip, u8> {
        if !part.fits() {
            return Err(1);
        }
        Ok(Chip {
            options: fresh_options(part),
            rate: 0x00,
            phase: Phase::ModeByte,
            collected: [0; LONGEST],
            count: 0,
        })
    }
}

/// One event for the chip. A refused call changes nothing at all; wrong sums are no cause to refuse.
pub fn step(
    part: &Part,
    chip: &mut Chip,
    event: Event,
    code: &mut [u8],
    data: &mut [u8],
    sums: &mut Sums,
    room: &mut [u8],
) -> Answer {
    if let Err(number) = accept(part, chip, code, data, room) {
        return Answer::Refused(number);
    }
    let mut flash = Flash { code, data, sums };
    let mut reply = Reply::at_start(room);
    let mut fault = None;
    match event {
        Event::Byte(byte) => fault = hear(part, chip, byte, &mut flash, &mut reply),
        Event::Gap => chip.count = 0,
        Event::PowerOn => power_on(chip),
    }
    Answer::Replied {
        bytes: reply.bytes,
        frames: reply.frames,
        fault,
    }
}

/// power-on sets the rate code too; flash and options stay.
fn power_on(chip: &mut Chip) {
    chip.count = 0;
    chip.rate = 0x00;
    chip.phase = Phase::ModeByte;
}

// Refusals: 01 "Refusal numbers", order 1, 2, 3, 9, 4

fn accept(part: &Part, chip: &Chip, code: &[u8], data: &[u8], room: &[u8]) -> Result<(), u8> {
    accept_all_but_room(part, chip, code, data)?;
    if room.len() < SMALLEST_ROOM {
        Err(4)
    } else {
        Ok(())
    }
}

/// 1, 2, 3, 9: what is given before the room is looked at. Inlined with the next, else a step takes a tenth longer, and `trials/run speed` has it as its measure.
#[inline(always)]
pub(crate) fn accept_all_but_room(
    part: &Part,
    chip: &Chip,
    code: &[u8],
    data: &[u8],
) -> Result<(), u8> {
    part.takes(code, data)?;
    if state_fits(part, chip) {
        Ok(())
    } else {
        Err(9)
    }
}

#[inline(always)]
fn state_fits(part: &Part, chip: &Chip) -> bool {
    collector_fits(chip)
        && chip.rate <= HIGHEST_RATE
        && options_fit(part, &chip.options)
        && phase_fits(part, chip.phase)
}

fn collector_fits(chip: &Chip) -> bool {
    if chip.count == 0 {
        return true;
    }
    let Some(header) = awaited_header(chip.phase) else {
        return false;
    };
    chip.count < LONGEST
        && chip.collected[0] == header
        && (chip.count == 1 || chip.count < counted(chip.collected[1]) + 4)
}

fn phase_fits(part: &Part, phase: Phase) -> bool {
    match phase {
        Phase::ModeByte | Phase::Setup | Phase::Ready => true,
        // A0h uses no address, so none is barred; nor is a difference that is handed in, with any of the three.
        Phase::Awaiting {
            command: SECURITY_SET,
            ..
        } => true,
        Phase::Awaiting {
            command: PROGRAM | VERIFY,
            next,
            last,
            ..
        } => match (part.place(next), part.place(last)) {
            (Some(first), Some(end)) => {
                first.area == end.area
                    && first.offset.is_multiple_of(part.page_size())
                    && (end.offset + 1).is_multiple_of(part.block_size(end.area))
                    && next <= last
            }
            _ => false,
        },
        Phase::Awaiting { .. } => false,
    }
}

/// The 05h rule of A0h's data, which refusal 9 shares (01 "Commands"); reserved bytes apart.
fn options_fit(part: &Part, options: &Options) -> bool {
    options.flags & FIXED_FLAGS == FIXED_FLAGS
        && options.boot == LAST_BOOT_BLOCK
        && options.start <= options.end
        && u32::from(options.end) < part.code_blocks
}

// Flash: 01 "The part"

/// Whole blocks of one area: from the first offset up to, not including, the end offset.
#[derive(Clone, Copy)]
struct Range {
    area: Area,
    first: usize,
    end: usize,
}

/// Flash as it is lent, and the sums kept of its blocks.
pub(crate) struct Flash<'a> {
    pub(crate) code: &'a mut [u8],
    pub(crate) data: &'a mut [u8],
    pub(crate) sums: &'a mut Sums,
}

impl Flash<'_> {
    fn bytes(&self, range: Range) -> &[u8] {
        match range.area {
            Area::Code => &self.code[range.first..range.end],
            Area::Data => &self.data[range.first..range.end],
        }
    }

    fn bytes_mut(&mut self, range: Range) -> &mut [u8] {
        match range.area {
            Area::Code => &mut self.code[range.first..range.end],
            Area::Data => &mut self.data[range.first..range.end],
        }
    }

    fn is_blank(&self) -> bool {
        all_erased(self.code) && all_erased(self.data)
    }

    /// The block at this offset was touched: its sum is worked out afresh, and no other (02 §1).
    fn keep_sum(&mut self, part: &Part, area: Area, offset: usize) {
        let size = part.block_size(area);
        let block = offset / size;
        let touched = Range {
            area,
            first: block * size,
            end: (block + 1) * size,
        };
        self.sums[slot_of(area, block)] = sum_of(self.bytes(touched));
    }

    /// "B0h over one block gives the kept sum, right or wrong" (02 §1); over more, the sum of the bytes.
    fn sum(&self, part: &Part, range: Range) -> u16 {
        let size = part.block_size(range.area);
        if range.end - range.first == size {
            self.sums[slot_of(range.area, range.first / size)]
        } else {
            sum_of(self.bytes(range))
        }
    }
}

impl Range {
    /// Boot blocks are code blocks 0 to 3; the data blocks of those numbers are none.
    fn holds_boot_block(&self, part: &Part) -> bool {
        self.area == Area::Code && self.first < part.boot_size()
    }
}

fn all_erased(bytes: &[u8]) -> bool {
    bytes.iter().all(|byte| *byte == ERASED)
}

fn fresh_options(part: &Part) -> Options {
    Options {
        flags: FRESH_FLAGS,
        boot: LAST_BOOT_BLOCK,
        start: 0,
        end: last_code_block(part),
    }
}

fn last_code_block(part: &Part) -> u16 {
    (part.code_blocks - 1) as u16
}

/// The range from one address to another, or nothing if it is bad (01 "Commands").
fn whole_blocks(part: &Part, start: usize, end: usize) -> Option<Range> {
    let first = part.place(start)?;
    let last = part.place(end)?;
    let block = part.block_size(first.area);
    let whole = first.offset.is_multiple_of(block) && (last.offset + 1).is_multiple_of(block);
    (start <= end && first.area == last.area && whole).then_some(Range {
        area: first.area,
        first: first.offset,
        end: last.offset + 1,
    })
}

/// How many blocks a range holds, or nothing if it is bad.
pub(crate) fn blocks_of(part: &Part, start: usize, end: usize) -> Option<usize> {
    whole_blocks(part, start, end)
        .map(|range| (range.end - range.first) / part.block_size(range.area))
}

// Collecting: 01 "Frames" and "Phases"

/// Nothing while the mode byte is awaited.
pub(crate) fn awaited_header(phase: Phase) -> Option<u8> {
    match phase {
        Phase::ModeByte => None,
        Phase::Setup | Phase::Ready => Some(COMMAND_HEADER),
        Phase::Awaiting { .. } => Some(DATA_HEADER),
    }
}

/// The mode byte; any other is skipped without reply.
pub(crate) fn hear_mode_byte(chip: &mut Chip, byte: u8) {
    if byte == ONE_WIRE || byte == TWO_WIRES {
        chip.phase = Phase::Setup;
    }
}

/// One byte; hands back the fault of the frame that it completes, if that is judged bad.
fn hear(
    part: &Part,
    chip: &mut Chip,
    byte: u8,
    flash: &mut Flash,
    reply: &mut Reply,
) -> Option<Fault> {
    let Some(header) = awaited_header(chip.phase) else {
        hear_mode_byte(chip, byte);
        return None;
    };
    let whole = collect(chip, header, byte)?;
    let (frame, _) = Frame::split_off(&whole)?;
    hear_frame(part, chip, frame, flash, reply)
}

/// Takes one byte in; hands the frame's bytes out when it is complete at LEN + 4 bytes. What lies behind them means nothing.
fn collect(chip: &mut Chip, header: u8, byte: u8) -> Option<[u8; LONGEST]> {
    if chip.count == 0 && byte != header {
        return None;
    }
    let completes = chip.count >= 2 && chip.count + 1 == counted(chip.collected[1]) + 4;
    if completes {
        let mut whole = chip.collected;
        whole[chip.count] = byte;
        chip.count = 0;
        return Some(whole);
    }
    chip.collected[chip.count] = byte;
    chip.count += 1;
    None
}

/// All that a complete frame does where the chip stands, begun by the header that is awaited there; hands back its fault, if it is judged bad.
pub(crate) fn hear_frame(
    part: &Part,
    chip: &mut Chip,
    frame: Frame,
    flash: &mut Flash,
    reply: &mut Reply,
) -> Option<Fault> {
    match chip.phase {
        Phase::Awaiting {
            command: SECURITY_SET,
            ..
        } => hear_options(part, chip, frame, reply),
        Phase::Awaiting {
            command,
            next,
            last,
            differed,
        } => {
            let pages = Pages {
                command,
                next,
                last,
                differed,
            };
            hear_page(part, chip, pages, frame, flash, reply)
        }
        _ => hear_command(part, chip, frame, flash, reply),
    }
}

/// Why a frame is answered with a status other than that of its work.
enum Objection {
    /// For the frame itself.
    Faulty(Fault),
    /// For what a frame without fault asks for: unknown, not allowed, wrong or forbidden.
    Status(u8),
}

impl From<Fault> for Objection {
    fn from(fault: Fault) -> Objection {
        Objection::Faulty(fault)
    }
}

impl Objection {
    /// Answered with one status; hands back the fault.
    fn answer(self, reply: &mut Reply) -> Option<Fault> {
        let (status, fault) = match self {
            Objection::Faulty(fault) => (status_of(fault), Some(fault)),
            Objection::Status(status) => (status, None),
        };
        reply.frame(&[status]);
        fault
    }
}

/// "On the wire 15h hides two faults" (02 §4).
fn status_of(fault: Fault) -> u8 {
    match fault {
        Fault::Sum(_) => BAD_SUM,
        Fault::Footer(_) | Fault::Len | Fault::First => NACK,
    }
}

// Judgement and work of a command frame: 01 "Frames" and "Commands"

/// A command whose footer, SUM, phase, LEN and parameters have been judged right.
enum Command {
    SetRate { rate: u8, supply: u8 },
    Reset,
    Erase(Range),
    CheckBlank { range: Range, options_too: bool },
    Pages(Pages, Range),
    Checksum(Range),
    Signature,
    GetOptions,
    SetOptions,
    Release,
}

/// Phase 4's data for 40h and 13h.
#[derive(Clone, Copy)]
struct Pages {
    command: u8,
    next: usize,
    last: usize,
    differed: bool,
}

fn hear_command(
    part: &Part,
    chip: &mut Chip,
    frame: Frame,
    flash: &mut Flash,
    reply: &mut Reply,
) -> Option<Fault> {
    match judge_command(part, chip, frame) {
        Ok(command) => {
            work(part, chip, command, flash, reply);
            None
        }
        Err(objection) => objection.answer(reply),
    }
}

/// Footer 15h and SUM 07h, command and phase 04h, LEN 15h, parameters 05h, protection 10h.
fn judge_command(part: &Part, chip: &Chip, frame: Frame) -> Result<Command, Objection> {
    frame.judge(LAST_FOOTER)?;
    let body = frame.body();
    let allowed = (body[0] == RATE_SET) == (chip.phase == Phase::Setup);
    let len = len_of(body[0])
        .filter(|_| allowed)
        .ok_or(Objection::Status(UNKNOWN))?;
    if body.len() != len {
        return Err(Fault::Len.into());
    }
    let command = read_command(part, body).ok_or(Objection::Status(PARAMETER))?;
    if is_forbidden(part, &chip.options, &command) {
        return Err(Objection::Status(PROTECTED));
    }
    Ok(command)
}

/// 01's column LEN; nothing for an unknown command.
fn len_of(command: u8) -> Option<usize> {
    match command {
        RESET | SIGNATURE | SECURITY_SET | SECURITY_GET | SECURITY_RELEASE => Some(1),
        RATE_SET => Some(3),
        BLOCK_ERASE => Some(4),
        PROGRAM | VERIFY | CHECKSUM => Some(7),
        BLANK_CHECK => Some(8),
        _ => None,
    }
}

/// Reads a body of fitting length; nothing if its parameters are wrong.
fn read_command(part: &Part, body: &[u8]) -> Option<Command> {
    match body[0] {
        RATE_SET => read_rate(body[1], body[2]),
        RESET => Some(Command::Reset),
        BLOCK_ERASE => {
            let start = address(&body[1..4]);
            let block = part.block_size(part.place(start)?.area);
            whole_blocks(part, start, start + block - 1).map(Command::Erase)
        }
        BLANK_CHECK => {
            let (start, end) = addresses(body);
            let range = whole_blocks(part, start, end)?;
            let options_too = match body[7] {
                0x00 => false,
                0x01 => true,
                _ => return None,
            };
            Some(Command::CheckBlank { range, options_too })
        }
        PROGRAM | VERIFY => {
            let (next, last) = addresses(body);
            let range = whole_blocks(part, next, last)?;
            let pages = Pages {
                command: body[0],
                next,
                last,
                differed: false,
            };
            Some(Command::Pages(pages, range))
        }
        CHECKSUM => {
            let (start, end) = addresses(body);
            whole_blocks(part, start, end).map(Command::Checksum)
        }
        SIGNATURE => Some(Command::Signature),
        SECURITY_GET => Some(Command::GetOptions),
        SECURITY_SET => Some(Command::SetOptions),
        SECURITY_RELEASE => Some(Command::Release),
        _ => None,
    }
}

fn read_rate(rate: u8, supply: u8) -> Option<Command> {
    rate_fits(rate, supply).then_some(Command::SetRate { rate, supply })
}

/// What 9Ah takes; the supply counts 100 mV (01 "Commands").
pub(crate) fn rate_fits(rate: u8, supply: u8) -> bool {
    rate <= HIGHEST_RATE && (18..=55).contains(&supply)
}

/// The mode in 9Ah's reply (01 "Commands", *ours*).
pub fn mode_of(supply: u8) -> u8 {
    if supply >= 27 {
        0x00
    } else {
        0x01
    }
}

/// Addresses travel low, middle, high.
fn address(bytes: &[u8]) -> usize {
    usize::from(bytes[0]) | usize::from(bytes[1]) << 8 | usize::from(bytes[2]) << 16
}

fn addresses(body: &[u8]) -> (usize, usize) {
    (address(&body[1..4]), address(&body[4..7]))
}

/// Protection 10h (01 "Commands", 000 table 3-4). The write ban holds for data flash too.
fn is_forbidden(part: &Part, options: &Options, command: &Command) -> bool {
    let barred = |flag: u8| options.flags & flag == 0;
    match command {
        Command::Erase(range) => {
            barred(ERASE_ALLOWED) || range.holds_boot_block(part) && barred(BOOT_ALLOWED)
        }
        Command::Pages(pages, range) if pages.command == PROGRAM => {
            barred(WRITE_ALLOWED) || range.holds_boot_block(part) && barred(BOOT_ALLOWED)
        }
        Command::Release => barred(BOOT_ALLOWED) || barred(ERASE_ALLOWED),
        _ => false,
    }
}

fn work(part: &Part, chip: &mut Chip, command: Command, flash: &mut Flash, reply: &mut Reply) {
    match command {
        Command::SetRate { rate, supply } => {
            chip.rate = rate;
            chip.phase = Phase::Ready;
            reply.frame(&[ACK, part.clock as u8, mode_of(supply)]);
        }
        Command::Reset => reply.frame(&[ACK]),
        Command::Erase(block) => {
            flash.bytes_mut(block).fill(ERASED);
            flash.keep_sum(part, block.area, block.first);
            reply.frame(&[ACK]);
        }
        Command::CheckBlank { range, options_too } => {
            let blank = all_erased(flash.bytes(range))
                && (!options_too || options_are_fresh(part, &chip.options));
            reply.frame(&[if blank { ACK } else { NOT_BLANK }]);
        }
        Command::Pages(pages, _) => {
            chip.phase = pages.awaited();
            reply.frame(&[ACK]);
        }
        Command::Checksum(range) => {
            reply.frame(&[ACK]);
            reply.frame(&flash.sum(part, range).to_le_bytes());
        }
        Command::Signature => {
            reply.frame(&[ACK]);
            reply.frame(&signature(part));
        }
        Command::GetOptions => {
            reply.frame(&[ACK]);
            reply.frame(&options_data(&chip.options));
        }
        Command::SetOptions => {
            chip.phase = Phase::Awaiting {
                command: SECURITY_SET,
                next: 0,
                last: 0,
                differed: false,
            };
            reply.frame(&[ACK]);
        }
        Command::Release => release(part, chip, flash, reply),
    }
}

/// Flags and window; the last boot block has only one value.
fn options_are_fresh(part: &Part, options: &Options) -> bool {
    options.flags == FRESH_FLAGS && options.start == 0 && options.end == last_code_block(part)
}

/// Device code, name, last code address, last data address, version (000 3.7.3).
pub fn signature(part: &Part) -> [u8; 22] {
    let last_code = part.end(Area::Code) - 1;
    let last_data = match part.blocks(Area::Data) {
        0 => 0,
        _ => part.end(Area::Data) - 1,
    };
    let mut bytes = [0; 22];
    bytes[0..3].copy_from_slice(&part.device);
    bytes[3..13].copy_from_slice(&part.name);
    bytes[13..16].copy_from_slice(&last_code.to_le_bytes()[0..3]);
    bytes[16..19].copy_from_slice(&last_data.to_le_bytes()[0..3]);
    bytes[19..22].copy_from_slice(&part.version);
    bytes
}

/// A1h's eight bytes, in the order A0h reads them (000 3.10.3).
fn options_data(options: &Options) -> [u8; 8] {
    let start = options.start.to_le_bytes();
    let end = options.end.to_le_bytes();
    [
        options.flags,
        options.boot,
        start[0],
        start[1],
        end[0],
        end[1],
        0xFF,
        0xFF,
    ]
}

/// A2h after its protection: 1Bh unless all flash is blank (000 3.11.1).
fn release(part: &Part, chip: &mut Chip, flash: &Flash, reply: &mut Reply) {
    if !flash.is_blank() {
        reply.frame(&[NOT_BLANK]);
        return;
    }
    let fresh = fresh_options(part);
    chip.options.flags = fresh.flags;
    chip.options.start = fresh.start;
    chip.options.end = fresh.end;
    reply.frame(&[ACK]);
}

// The data frame of A0h: 01 "Commands"

/// Whatever the answer, the command is over.
fn hear_options(part: &Part, chip: &mut Chip, frame: Frame, reply: &mut Reply) -> Option<Fault> {
    chip.phase = Phase::Ready;
    match judge_options(part, &chip.options, frame) {
        Ok(options) => {
            chip.options = options;
            reply.frame(&[ACK]);
            None
        }
        Err(objection) => objection.answer(reply),
    }
}

fn judge_options(part: &Part, stored: &Options, frame: Frame) -> Result<Options, Objection> {
    frame.judge(LAST_FOOTER)?;
    let [flags, boot, start_low, start_high, end_low, end_high, reserved @ ..] = frame.body()
    else {
        return Err(Fault::Len.into());
    };
    if reserved.len() != 2 {
        return Err(Fault::Len.into());
    }
    let asked = Options {
        flags: *flags,
        boot: *boot,
        start: u16::from_le_bytes([*start_low, *start_high]),
        end: u16::from_le_bytes([*end_low, *end_high]),
    };
    if reserved != [0xFF, 0xFF] || !options_fit(part, &asked) {
        return Err(Objection::Status(PARAMETER));
    }
    let allowed_anew = asked.flags & !stored.flags;
    if allowed_anew != 0 {
        return Err(Objection::Status(PROTECTED));
    }
    Ok(asked)
}

// The pages of 40h and 13h: 01 "Commands"

impl Pages {
    fn awaited(self) -> Phase {
        Phase::Awaiting {
            command: self.command,
            next: self.next,
            last: self.last,
            differed: self.differed,
        }
    }

    /// The address tells the last page, never the frame's own footer.
    fn on_last(self, part: &Part) -> bool {
        self.next + (part.page_size() - 1) == self.last
    }

    fn footer(self, part: &Part) -> u8 {
        if self.on_last(part) {
            LAST_FOOTER
        } else {
            MORE_FOOTER
        }
    }

    fn after_this(self, part: &Part) -> Phase {
        if self.on_last(part) {
            Phase::Ready
        } else {
            Pages {
                next: self.next + part.page_size(),
                ..self
            }
            .awaited()
        }
    }
}

fn hear_page(
    part: &Part,
    chip: &mut Chip,
    pages: Pages,
    frame: Frame,
    flash: &mut Flash,
    reply: &mut Reply,
) -> Option<Fault> {
    chip.phase = Phase::Ready;
    if let Err(fault) = judge_page(part, pages, frame) {
        reply.frame(&[status_of(fault); 2]);
        return Some(fault);
    }
    // Refusal 9 has let through no next address outside flash.
    let here = part.place(pages.next)?;
    let range = Range {
        area: here.area,
        first: here.offset,
        end: here.offset + part.page_size(),
    };
    chip.phase = if pages.command == PROGRAM {
        store_page(part, pages, range, frame.body(), flash, reply)
    } else {
        compare_page(part, pages, flash.bytes(range), frame.body(), reply)
    };
    None
}

fn judge_page(part: &Part, pages: Pages, frame: Frame) -> Result<(), Fault> {
    frame.judge(pages.footer(part))?;
    if frame.body().len() == part.page_size() {
        Ok(())
    } else {
        Err(Fault::Len)
    }
}

/// "programming only clears bits, so each byte becomes old AND new. The second status is 06h if every byte then equals what was sent, .. else 1Ch, the mixed bytes
/// stay, and the command ends" (02 §6): nothing follows a 1Ch. Either way the page has touched its block. Hands back the next phase.
fn store_page(
    part: &Part,
    pages: Pages,
    range: Range,
    page: &[u8],
    flash: &mut Flash,
    reply: &mut Reply,
) -> Phase {
    let held = flash.bytes_mut(range);
    for (byte, sent) in held.iter_mut().zip(page) {
        *byte &= sent;
    }
    let as_sent = held == page;
    flash.keep_sum(part, range.area, range.first);
    if !as_sent {
        reply.frame(&[ACK, NOT_WRITTEN]);
        return Phase::Ready;
    }
    reply.frame(&[ACK, ACK]);
    if pages.on_last(part) {
        reply.frame(&[ACK]);
    }
    pages.after_this(part)
}

/// A page that differs is remembered, and only the last page tells: 0Fh if any has differed, itself included (000 3.5.3, 02 §2). Hands back the next phase.
fn compare_page(part: &Part, pages: Pages, held: &[u8], page: &[u8], reply: &mut Reply) -> Phase {
    let so_far = Pages {
        differed: pages.differed || held != page,
        ..pages
    };
    let second = if so_far.differed && so_far.on_last(part) {
        UNEQUAL
    } else {
        ACK
    };
    reply.frame(&[ACK, second]);
    so_far.after_this(part)
}
