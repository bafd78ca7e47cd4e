//! Random captures of both forms, the same for the same seed, and a count of the statuses they draw (01 "Replay", 02 §5).

use std::fmt;

use crate::capture::{Form, Record, BYTES, CARRIED, GAP};
use crate::chip::{
    BLANK_CHECK, BLOCK_ERASE, CHECKSUM, ERASED, PROGRAM, RATE_SET, RESET, SECURITY_GET,
    SECURITY_RELEASE, SECURITY_SET, SIGNATURE, VERIFY,
};
use crate::frame::{write, COMMAND_HEADER, DATA_HEADER, LAST_FOOTER, MORE_FOOTER};
use crate::part::Area;
use crate::replay::{replay_part, split_frames};

/// Splitmix64: small, without state beyond one word, and good enough to mix choices.
pub struct Generator(u64);

impl Generator {
    pub fn new(seed: u64) -> Generator {
        Generator(seed)
    }

    pub fn word(&mut self) -> u64 {
        self.0 = self.0.wrapping_add(0x9E37_79B9_7F4A_7C15);
        let mut mixed = self.0;
        mixed = (mixed ^ (mixed >> 30)).wrapping_mul(0xBF58_476D_1CE4_E5B9);
        mixed = (mixed ^ (mixed >> 27)).wrapping_mul(0x94D0_49BB_1331_11EB);
        mixed ^ (mixed >> 31)
    }

    /// A number under `bound`, which is at least 1.
    pub fn below(&mut self, bound: usize) -> usize {
        (self.word() % bound as u64) as usize
    }

    /// A number from `low` to `high`, both included.
    pub fn between(&mut self, low: usize, high: usize) -> usize {
        low + self.below(high - low + 1)
    }

    pub fn byte(&mut self) -> u8 {
        self.word() as u8
    }

    /// True in `percent` of 100 cases.
    pub fn chance(&mut self, percent: usize) -> bool {
        self.below(100) < percent
    }

    pub fn pick<T: Copy>(&mut self, choices: &[T]) -> T {
        choices[self.below(choices.len())]
    }
}

/// A command frame around COM and information.
pub fn command_frame(body: &[u8]) -> Vec<u8> {
    whole_frame(COMMAND_HEADER, body, LAST_FOOTER)
}

/// A data frame with the footer asked for.
pub fn data_frame(data: &[u8], footer: u8) -> Vec<u8> {
    whole_frame(DATA_HEADER, data, footer)
}

fn whole_frame(header: u8, body: &[u8], footer: u8) -> Vec<u8> {
    let mut frame = vec![0; body.len() + 4];
    write(&mut frame, header, body, footer);
    frame
}

/// COM with start and end address, each low, middle, high.
pub fn range_body(command: u8, start: usize, end: usize) -> Vec<u8> {
    let mut body = vec![command];
    body.extend_from_slice(&start.to_le_bytes()[0..3]);
    body.extend_from_slice(&end.to_le_bytes()[0..3]);
    body
}

/// A capture, the same for the same seed; a few end in a bad record or a short one.
pub fn random_capture(form: Form, seed: u64) -> Vec<u8> {
    let mut script = Script::new(seed);
    script.write();
    let records = match form {
        Form::Old => script.records(0, CARRIED),
        Form::New => new_records(&mut script, seed),
    };
    let mut capture: Vec<u8> = records
        .iter()
        .flat_map(|record| record.written(form))
        .collect();
    spoil_records(form, &mut script.choice, &mut capture);
    capture
}

/// Mostly two seats that know nothing of each other, their records in any order, with ticks; one capture in five is held by the old form.
fn new_records(script: &mut Script, seed: u64) -> Vec<Record> {
    let held_by_old = script.choice.chance(20);
    let fill = if held_by_old {
        CARRIED
    } else {
        Form::New.carried()
    };
    let first = script.records(0, fill);
    if held_by_old {
        return first;
    }
    let mut second = Vec::new();
    if script.choice.chance(80) {
        let mut other = Script::new(!seed);
        other.write();
        second = other.records(1, fill);
        second.truncate(first.len() + 20);
    }
    let mut records = shuffled(&mut script.choice, first, second);
    set_ticks(&mut script.choice, &mut records);
    records
}

/// The records of both in one list, those of each in their order.
fn shuffled(choice: &mut Generator, first: Vec<Record>, second: Vec<Record>) -> Vec<Record> {
    let often = choice.pick(&[5, 30, 50]);
    let (mut first, mut second) = (first.into_iter().peekable(), second.into_iter().peekable());
    let mut records = Vec::new();
    while first.peek().is_some() || second.peek().is_some() {
        let from_second = choice.chance(often);
        let next = if from_second {
            second.next().or_else(|| first.next())
        } else {
            first.next().or_else(|| second.next())
        };
        records.extend(next);
    }
    records
}

/// Ticks mostly rise, from anywhere, past the greatest too; no rule holds them to it.
fn set_ticks(choice: &mut Generator, records: &mut [Record]) {
    let start = choice.word() as u32;
    let mut tick = choice.pick(&[0, 0, start, u32::MAX - 5]);
    let most = choice.pick(&[0, 1, 300, 1 << 20]);
    for record in records {
        record.tick = tick;
        tick = match choice.below(100) {
            0 => choice.word() as u32,
            _ => tick.wrapping_add(choice.between(0, most) as u32),
        };
    }
}

/// What the line carries.
#[derive(Clone, Copy)]
enum Sound {
    Byte(u8),
    Gap,
}

/// A capture in the making.
struct Script {
    choice: Generator,
    /// Fixes what the pages of this capture hold, so that a later 13h can match an earlier 40h.
    salt: u64,
    sounds: Vec<Sound>,
    /// Percent of frames that are damaged; a quiet line is needed to get far into a command.
    damage: usize,
}

impl Script {
    fn new(seed: u64) -> Script {
        let mut choice = Generator::new(seed);
        let salt = choice.word();
        let damage = choice.pick(&[0, 2, 5, 15]);
        Script {
            choice,
            salt,
            sounds: Vec::new(),
            damage,
        }
    }

    fn write(&mut self) {
        if self.choice.chance(3) {
            return;
        }
        if self.choice.chance(4) {
            self.noise(200);
            return;
        }
        self.setup();
        for _ in 0..self.choice.between(3, 30) {
            self.action();
        }
    }

    /// Mode byte and 9Ah; now and then left out, refused first, or preceded by other commands.
    fn setup(&mut self) {
        if self.choice.chance(20) {
            let skipped = self.choice.pick(&[0x01, 0x02, 0x3B, 0xFF, 0x9A]);
            self.sounds.push(Sound::Byte(skipped));
        }
        if self.choice.chance(10) {
            self.send(command_frame(&[SIGNATURE]));
        }
        if !self.choice.chance(3) {
            let mode = self.choice.pick(&[0x3A, 0x00]);
            self.sounds.push(Sound::Byte(mode));
        }
        if self.choice.chance(15) {
            self.action();
        }
        if self.choice.chance(25) {
            self.bad_rate();
        }
        if !self.choice.chance(5) {
            let body = [RATE_SET, self.choice.below(4) as u8, self.supply()];
            self.send_whole(command_frame(&body));
        }
    }

    fn supply(&mut self) -> u8 {
        let any = self.choice.between(18, 55) as u8;
        self.choice.pick(&[18, 26, 27, 33, 55, any])
    }

    fn bad_rate(&mut self) {
        let rate = self.choice.pick(&[0x00, 0x03, 0x04, 0xFF]);
        let supply = self.choice.pick(&[0, 17, 18, 55, 56, 255]);
        self.send(command_frame(&[RATE_SET, rate, supply]));
    }

    fn action(&mut self) {
        match self.choice.below(25) {
            0 => self.send(command_frame(&[RESET])),
            1 => self.send(command_frame(&[SIGNATURE])),
            2 => self.send(command_frame(&[SECURITY_GET])),
            3 => self.send(command_frame(&[SECURITY_RELEASE])),
            4 => self.set_options(),
            5..=7 => self.erase(),
            8 | 9 => self.check_blank(),
            10 | 11 => self.checksum(),
            12..=15 => self.pages(PROGRAM),
            16 | 17 => self.pages(VERIFY),
            18 | 19 => self.write_and_verify(),
            20 => self.odd_command(),
            21 => self.noise(12),
            22 => self.erase_all_and_release(),
            23 => self.write_over(),
            _ => self.bad_rate(),
        }
    }

    fn set_options(&mut self) {
        self.send(command_frame(&[SECURITY_SET]));
        if self.choice.chance(8) {
            return;
        }
        let odd = self.choice.byte();
        let flags = self.choice.pick(&[
            0xFF, 0xFF, 0xFF, 0xFF, 0xEF, 0xEF, 0xFD, 0xFB, 0xE9, 0xED, 0xEB, 0xF9, 0x7F, odd,
        ]);
        let boot = if self.choice.chance(5) { odd } else { 0x03 };
        let start = self.choice.pick(&[0, 0, 0, 1, 7, 15]);
        let end = self.choice.pick(&[15, 15, 15, 15, 14, 7, 16]);
        let high = if self.choice.chance(4) { 0x01 } else { 0x00 };
        let reserved = if self.choice.chance(5) { odd } else { 0xFF };
        let mut data = vec![flags, boot, start, 0x00, end, high, 0xFF, reserved];
        if self.choice.chance(5) {
            data.truncate(self.choice.between(1, 7));
        } else if self.choice.chance(3) {
            data.push(odd);
        }
        let footer = self.footer(LAST_FOOTER);
        self.send(data_frame(&data, footer));
    }

    fn erase(&mut self) {
        let (start, _) = self.range();
        let mut body = range_body(BLOCK_ERASE, start, 0);
        body.truncate(4);
        self.send(command_frame(&body));
    }

    fn check_blank(&mut self) {
        let (start, end) = self.range();
        let mut body = range_body(BLANK_CHECK, start, end);
        let area = self.choice.pick(&[0x00, 0x00, 0x01, 0x01, 0x02]);
        body.push(area);
        self.send(command_frame(&body));
    }

    fn checksum(&mut self) {
        let (start, end) = self.range();
        self.send(command_frame(&range_body(CHECKSUM, start, end)));
    }

    fn pages(&mut self, command: u8) {
        let (start, end) = self.range();
        self.pages_over(command, start, end);
    }

    fn write_and_verify(&mut self) {
        let (start, end) = self.good_range();
        let part = replay_part();
        let Some(place) = part.place(start) else {
            return;
        };
        for at in (start..end).step_by(part.block_size(place.area)) {
            let mut body = range_body(BLOCK_ERASE, at, 0);
            body.truncate(4);
            self.send(command_frame(&body));
        }
        self.pages_over(PROGRAM, start, end);
        self.pages_over(VERIFY, start, end);
    }

    /// Without an erase before or between.
    fn write_over(&mut self) {
        let (start, end) = self.good_range();
        for command in [PROGRAM, PROGRAM, VERIFY] {
            self.pages_over(command, start, end);
        }
    }

    /// The command and its pages; sometimes too few or too many, sometimes one of wrong length or content. A 13h goes on after a page that differs (02 §2), and a
    /// 40h writes over what an earlier one has written (02 §6), so in some of them any page may be another than usual.
    fn pages_over(&mut self, command: u8, start: usize, end: usize) {
        self.send(command_frame(&range_body(command, start, end)));
        let size = replay_part().page_size();
        let needed = (end.saturating_sub(start) / size + 1).min(64);
        let sent = match self.choice.below(10) {
            0 => self.choice.below(needed + 1),
            1 => needed + 1,
            _ => needed,
        };
        let differing = self.choice.pick(&[0, 0, 10, 40]);
        for index in 0..sent {
            let expected = if index + 1 == needed {
                LAST_FOOTER
            } else {
                MORE_FOOTER
            };
            let footer = self.footer(expected);
            let mut page = self.page(start + index * size);
            if self.choice.chance(differing) {
                self.alter(command, &mut page);
            }
            self.send(data_frame(&page, footer));
        }
        // A bad page ends a command cut short, else all that follows would be skipped.
        if sent < needed && self.choice.chance(60) {
            self.send_whole(data_frame(&[0x00], 0xFF));
        }
    }

    /// One bit of the page; for a 40h, which other pages met there before, also fewer 1 bits, more of them, or other bytes throughout.
    fn alter(&mut self, command: u8, page: &mut [u8]) {
        let at = self.choice.below(page.len());
        let way = match command {
            PROGRAM => self.choice.below(4),
            _ => 0,
        };
        match way {
            0 => page[at] ^= 1 << self.choice.below(8),
            1 => page.iter_mut().for_each(|byte| *byte &= self.choice.byte()),
            2 => page.iter_mut().for_each(|byte| *byte |= self.choice.byte()),
            _ => page.fill_with(|| self.choice.byte()),
        }
    }

    fn footer(&mut self, expected: u8) -> u8 {
        if self.choice.chance(97) {
            return expected;
        }
        let any = self.choice.byte();
        self.choice.pick(&[LAST_FOOTER, MORE_FOOTER, 0xFF, any])
    }

    fn page(&mut self, address: usize) -> Vec<u8> {
        let size = replay_part().page_size();
        match self.choice.below(100) {
            0 => vec![self.choice.byte(); size],
            1 => (0..=255).collect(),
            2 => vec![ERASED; size],
            3 => vec![self.choice.byte(); self.choice.between(1, size - 1)],
            4 => {
                let mut page = self.usual_page(address);
                let at = self.choice.below(size);
                page[at] = self.choice.byte();
                page
            }
            _ => self.usual_page(address),
        }
    }

    fn usual_page(&self, address: usize) -> Vec<u8> {
        let mut bytes = Generator::new(self.salt ^ address as u64);
        (0..replay_part().page_size())
            .map(|_| bytes.byte())
            .collect()
    }

    /// A range for 32h, 40h, 13h, B0h: mostly good, else bad in each of 01's ways.
    fn range(&mut self) -> (usize, usize) {
        let (start, end) = self.good_range();
        let part = replay_part();
        let data = part.start(Area::Data);
        let past = part.end(Area::Code);
        match self.choice.below(40) {
            0 => (end, start),
            1 => (start + 1, end),
            2 => (start, end - 1),
            3 => (start, end + part.page_size()),
            4 => (start, data + part.block_size(Area::Data) - 1),
            5 => (start, end + past),
            6 => (start + past, end + past),
            7 => (start, 0xFF_FFFF),
            _ => (start, end),
        }
    }

    /// Few blocks, so that pages meet what was written before.
    fn good_range(&mut self) -> (usize, usize) {
        let part = replay_part();
        let area = if self.choice.chance(70) {
            Area::Code
        } else {
            Area::Data
        };
        let (blocks, size) = (part.blocks(area), part.block_size(area));
        let (first, count) = match self.choice.below(50) {
            0 => (0, blocks),
            1 => (blocks - 1, 1),
            2 => (self.choice.below(blocks), 1),
            3..=12 => (self.choice.below(3), 2),
            13 => (0, 3),
            _ => (
                self.choice.below(2) + self.choice.below(2) * (blocks / 2),
                1,
            ),
        };
        let start = part.start(area) + first.min(blocks - count) * size;
        (start, start + count * size - 1)
    }

    /// Unknown commands, known ones with an unfit LEN, LEN 00h, and a frame with a good frame inside it.
    fn odd_command(&mut self) {
        let known = self.choice.pick(&[
            RESET,
            VERIFY,
            BLOCK_ERASE,
            BLANK_CHECK,
            PROGRAM,
            RATE_SET,
            SECURITY_SET,
            SECURITY_GET,
            SECURITY_RELEASE,
            CHECKSUM,
            SIGNATURE,
        ]);
        let any = self.choice.byte();
        match self.choice.below(5) {
            0 => self.send(command_frame(&[any])),
            1 => {
                let mut body = vec![known];
                let more = self.choice.below(10);
                body.extend((0..more).map(|_| self.choice.byte()));
                self.send(command_frame(&body));
            }
            2 => {
                let mut body = vec![0x00; 256];
                body[0] = known;
                self.send(command_frame(&body));
            }
            3 => self.send(command_frame(&[0xB0, 0x01, 0x01, 0x00, 0xFF, 0x03, 0x00])),
            _ => {
                let mut frame = command_frame(&[0xB0, 0x01, 0x01, 0x00, 0xFF, 0x03, 0x00]);
                frame[0] = 0x11;
                self.send(frame);
            }
        }
    }

    fn erase_all_and_release(&mut self) {
        let part = replay_part();
        let starts = |area: Area| (part.start(area)..part.end(area)).step_by(part.block_size(area));
        for start in starts(Area::Code).chain(starts(Area::Data)) {
            let mut body = range_body(BLOCK_ERASE, start, 0);
            body.truncate(4);
            self.send(command_frame(&body));
        }
        self.send(command_frame(&[SECURITY_RELEASE]));
    }

    fn noise(&mut self, most: usize) {
        for _ in 0..self.choice.between(1, most) {
            let any = self.choice.byte();
            let byte = self
                .choice
                .pick(&[0x01, 0x02, 0x03, 0x17, 0x00, any, any, any]);
            self.sounds.push(Sound::Byte(byte));
            if self.choice.chance(5) {
                self.sounds.push(Sound::Gap);
            }
        }
    }

    /// A frame on the line, mostly after a gap, sometimes damaged.
    fn send(&mut self, frame: Vec<u8>) {
        let damaged = self.choice.chance(self.damage);
        if damaged {
            self.lead_in();
            self.send_damaged(frame);
        } else {
            self.send_whole(frame);
        }
    }

    fn send_whole(&mut self, frame: Vec<u8>) {
        self.lead_in();
        self.sounds.extend(frame.into_iter().map(Sound::Byte));
    }

    fn lead_in(&mut self) {
        if self.damage > 0 && self.choice.chance(4) {
            self.noise(6);
        }
        if self.choice.chance(80) {
            self.sounds.push(Sound::Gap);
        }
    }

    fn send_damaged(&mut self, mut frame: Vec<u8>) {
        let size = frame.len();
        let flip = self.choice.between(1, 255) as u8;
        match self.choice.below(8) {
            0 => frame[size - 1] ^= flip,
            1 => frame[size - 2] ^= flip,
            2 => frame[1] ^= flip,
            3 => frame.truncate(self.choice.between(1, size - 1)),
            4 => frame[self.choice.below(size)] ^= flip,
            5 => frame.insert(0, frame[0]),
            6 => frame[size - 1] ^= LAST_FOOTER ^ MORE_FOOTER,
            _ => {
                let at = self.choice.between(1, size - 1);
                let tail = frame.split_off(at);
                self.sounds.extend(frame.into_iter().map(Sound::Byte));
                self.sounds.push(Sound::Gap);
                frame = tail;
            }
        }
        self.sounds.extend(frame.into_iter().map(Sound::Byte));
    }

    /// The sounds packed into records of this seat and tick 0, of any fill from 1 byte to the most.
    fn records(&mut self, seat: u8, most: usize) -> Vec<Record> {
        let mut records = Vec::new();
        let mut carried: Vec<u8> = Vec::new();
        let mut fill = most;
        for index in 0..self.sounds.len() {
            match self.sounds[index] {
                Sound::Byte(byte) => carried.push(byte),
                Sound::Gap => {
                    push_bytes(&mut records, seat, &mut carried);
                    records.push(Record::carrying(seat, 0, &[]));
                }
            }
            if carried.len() >= fill {
                push_bytes(&mut records, seat, &mut carried);
                fill = if self.choice.chance(80) {
                    most
                } else {
                    self.choice.between(1, most)
                };
            }
        }
        push_bytes(&mut records, seat, &mut carried);
        records
    }
}

fn push_bytes(records: &mut Vec<Record>, seat: u8, carried: &mut Vec<u8>) {
    if carried.is_empty() {
        return;
    }
    records.push(Record::carrying(seat, 0, carried));
    carried.clear();
}

/// One capture in ten gets a bad record somewhere, one in twenty a short tail.
fn spoil_records(form: Form, choice: &mut Generator, capture: &mut Vec<u8>) {
    if choice.chance(10) {
        let at = choice.below(capture.len() / form.record() + 1) * form.record();
        capture.splice(at..at, any_bad_record(form, choice));
    }
    if choice.chance(5) {
        capture.extend(short_tail(form, choice));
    }
}

/// A record that is cut off.
pub fn short_tail(form: Form, choice: &mut Generator) -> Vec<u8> {
    let short = choice.between(1, form.record() - 1);
    let any = choice.byte();
    (0..short)
        .map(|_| choice.pick(&[0x00, 0x01, any]))
        .collect()
}

/// How a record can be bad; the last two in the new form alone.
const BAD_WAYS: [&str; 8] = [
    "kind",
    "gap with a count",
    "gap with a byte",
    "no bytes",
    "count over the most",
    "unused byte",
    "seat",
    "byte 3",
];

pub fn bad_ways(form: Form) -> &'static [&'static str] {
    match form {
        Form::Old => &BAD_WAYS[..6],
        Form::New => &BAD_WAYS,
    }
}

fn any_bad_record(form: Form, choice: &mut Generator) -> Vec<u8> {
    let any = choice.between(1, 255) as u8;
    let way = choice.below(bad_ways(form).len());
    bad_record(form, way, any, choice)
}

/// A record that is bad in one way, and in no other; `any` is not 0. In the new form it is of either seat and has any tick.
pub fn bad_record(form: Form, way: usize, any: u8, choice: &mut Generator) -> Vec<u8> {
    let size = form.record();
    let head = size - form.carried();
    let mut record = vec![0; size];
    if form == Form::New {
        record[2] = choice.below(2) as u8;
        let tick = choice.word() as u32;
        record[4..8].copy_from_slice(&choice.pick(&[0, tick]).to_le_bytes());
    }
    match bad_ways(form)[way] {
        "kind" => record[0] = from(form, choice, 2),
        "gap with a count" => record[1] = any,
        "gap with a byte" => record[choice.between(head, size - 1)] = any,
        "no bytes" => record[0] = BYTES,
        "count over the most" => {
            record[head..].fill(any);
            record[0] = BYTES;
            record[1] = from(form, choice, form.carried() + 1);
        }
        "unused byte" => {
            put_reset(&mut record, head);
            // the sixth byte of the old form; in the new one also those that follow it
            let unused = size - head - 5;
            let place = if unused > 1 { choice.below(unused) } else { 0 };
            record[head + 5 + place] = any;
        }
        "seat" => {
            put_any(choice, &mut record, head);
            record[2] = from(form, choice, 2);
        }
        _ => {
            put_any(choice, &mut record, head);
            record[3] = any;
        }
    }
    record
}

/// A byte from this number on; in the new form half of the time the number itself.
fn from(form: Form, choice: &mut Generator, least: usize) -> u8 {
    let any = choice.between(least, 255);
    let byte = match form {
        Form::Old => any,
        Form::New => choice.pick(&[least, any]),
    };
    byte as u8
}

/// A good Reset.
fn put_reset(record: &mut [u8], head: usize) {
    record[..2].copy_from_slice(&[BYTES, 5]);
    record[head..head + 5].copy_from_slice(&[0x01, 0x01, 0x00, 0xFF, 0x03]);
}

/// A gap or a good Reset.
fn put_any(choice: &mut Generator, record: &mut [u8], head: usize) {
    if choice.chance(70) {
        put_reset(record, head);
    } else {
        record[0] = GAP;
    }
}

/// Why the old form cannot hold a good record of the new one.
pub const NOT_HELD_WAYS: [&str; 7] = [
    "seat 1",
    "tick, low",
    "tick, 2nd",
    "tick, 3rd",
    "tick, high",
    "7 bytes",
    "8 bytes",
];

/// A good record of the new form that the old one cannot hold for this reason alone.
pub fn not_held_record(way: usize, choice: &mut Generator) -> Vec<u8> {
    let any = choice.between(1, 255) as u8;
    let count = choice.between(0, 6);
    let (seat, tick, count) = match way {
        0 => (1, 0, count),
        1..=4 => (0, u32::from(any) << (8 * (way - 1)), count),
        _ => (0, 0, way + 2),
    };
    let carried: Vec<u8> = (0..count).map(|_| choice.byte()).collect();
    Record::carrying(seat, tick, &carried).written(Form::New)
}

/// How often each status byte came in replies.
pub struct Tally([u64; 256]);

impl Default for Tally {
    fn default() -> Tally {
        Tally::new()
    }
}

impl Tally {
    pub fn new() -> Tally {
        Tally([0; 256])
    }

    pub fn hear(&mut self, answer: &[u8]) {
        for status in statuses(answer) {
            self.0[usize::from(status)] += 1;
        }
    }

    pub fn of(&self, status: u8) -> u64 {
        self.0[usize::from(status)]
    }

    pub fn add(&mut self, other: &Tally) {
        for (count, more) in self.0.iter_mut().zip(other.0) {
            *count += more;
        }
    }
}

impl fmt::Display for Tally {
    fn fmt(&self, output: &mut fmt::Formatter) -> fmt::Result {
        for (status, count) in self.0.iter().enumerate().filter(|(_, count)| **count > 0) {
            writeln!(output, "{status:02X}h {count}")?;
        }
        Ok(())
    }
}

/// The status bytes of one whole answer. Its first frame is a status, two page statuses, or 9Ah's three bytes;
/// its second a status only after 40h's last page, else data.
pub fn statuses(answer: &[u8]) -> Vec<u8> {
    let mut found = Vec::new();
    for (index, frame) in split_frames(answer).into_iter().enumerate() {
        match (index, frame[1]) {
            (_, 1) => found.push(frame[2]),
            (0, 2) => found.extend_from_slice(&frame[2..4]),
            (0, 3) => found.push(frame[2]),
            _ => (),
        }
    }
    found
}
