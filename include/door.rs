//! The proved library for programs in Rust: the calls of door.h, declared here and nowhere else, each behind a safe function of arrays and slices. A program
//! takes this file as a module, `#[path = "../include/door.rs"] mod door;`, and links target/native/libdoor.a. What each call does, door.h says.
#![allow(dead_code)]

pub const PART: usize = 19;
pub const NAMES: usize = 16;
pub const JOB: usize = 11;
pub const STATE: usize = 294;
pub const SUMS: usize = 72;
pub const DATA_SUMS: usize = 64;
pub const DOCK: usize = 26;
pub const ROOM: usize = 32;
pub const FRAME_ROOM: usize = 260;
pub const ANSWER: usize = 31;
pub const RECORD: usize = 8;
pub const RECORD_NEW: usize = 16;
pub const OUTPUT: usize = 192;
pub const OUTPUT_NEW: usize = 256;
pub const BAD_RECORD: u32 = 10;
pub const NOT_HELD: u32 = 11;
pub const SHORT_OUTPUT: u32 = 12;
pub const OUTPUT_FULL: u32 = 17;

/// What is wrong with a frame, as the chip's events tell it and a failed dock names it; door.h has the place of each.
pub const FAULT_NONE: u64 = 0;
pub const FAULT_FOOTER: u64 = 1;
pub const FAULT_SUM: u64 = 2;
pub const FAULT_LEN: u64 = 3;
pub const FAULT_FIRST: u64 = 4;

/// A part as its bytes: three numbers, and device code (3), name (10), firmware version (3).
pub type Part = [u8; PART];

/// A job as its bytes, the part it is for, and its image, which are lent to every call.
#[derive(Clone, Copy, Debug)]
pub struct Job<'a> {
    pub part: Part,
    pub work: [u8; JOB],
    pub image: &'a [u8],
}

/// A part's bytes. No number of the document's reaches 255, so a greater one stays outside them.
#[inline]
pub fn part(code_blocks: u32, data_blocks: u32, clock: u32, names: &[u8; NAMES]) -> Part {
    let mut bytes = [0; PART];
    bytes[0] = low(code_blocks);
    bytes[1] = low(data_blocks);
    bytes[2] = low(clock);
    bytes[3..].copy_from_slice(names);
    bytes
}

/// A job's bytes: the first and the last address of its range, rate code, supply in 100 mV, retries allowed.
#[inline]
pub fn work(first: u32, last: u32, rate: u32, supply: u32, retries: u32) -> [u8; JOB] {
    let mut bytes = [0; JOB];
    bytes[..4].copy_from_slice(&first.to_le_bytes());
    bytes[4..8].copy_from_slice(&last.to_le_bytes());
    bytes[8..].copy_from_slice(&[low(rate), low(supply), low(retries)]);
    bytes
}

#[inline]
fn low(number: u32) -> u8 {
    number.min(255) as u8
}

/// What an event of the chip tells: 0 or the refusal's number, the reply's bytes and frames, and the fault of the frame that it completed, with its place.
#[derive(Clone, Copy, Debug, PartialEq, Eq)]
pub struct Told {
    pub refusal: u32,
    pub bytes: u64,
    pub frames: u64,
    pub fault: u64,
    pub place: u64,
}

/// What zc_engine tells of a stretch: 0 or the refusal's number, the bytes and frames of all replies, how many frames of the stretch were judged bad, and the
/// fault of the first of them, with its place.
#[derive(Clone, Copy, Debug, PartialEq, Eq)]
pub struct Stretch {
    pub refusal: u32,
    pub bytes: u64,
    pub frames: u64,
    pub faults: u64,
    pub fault: u64,
    pub place: u64,
}

/// What zc_replay and zc_replay_new tell: 0, the refusal's number, BAD_RECORD or OUTPUT_FULL, the records played, and the bytes and frames of their replies.
#[derive(Clone, Copy, Debug, PartialEq, Eq)]
pub struct Played {
    pub refusal: u32,
    pub records: u64,
    pub bytes: u64,
    pub frames: u64,
}

/// What zc_to_new and zc_to_old tell: 0 or the refusal's number, the bytes written at the start of the output, and the record that BAD_RECORD or NOT_HELD names.
#[derive(Clone, Copy, Debug, PartialEq, Eq)]
pub struct Converted {
    pub refusal: u32,
    pub bytes: u64,
    pub record: u64,
}

/// What zc_answer and zc_timeout tell.
#[derive(Clone, Copy, Debug, PartialEq, Eq)]
pub struct Report {
    pub refusal: u32,
    pub ended: u64,
    pub frames_used: u64,
    pub retries_used: u64,
}

/// The numbers told begin as what no call tells: a refused call leaves them, and one left untold would show.
pub const UNTOLD: u64 = u64::MAX;

// In each function below a pointer goes with its own slice's length, and what is lent to be changed is borrowed mutably, so that nothing overlaps it.

#[inline]
pub fn fresh(part: &Part, state: &mut [u8; STATE]) -> u32 {
    unsafe { zc_fresh(part, state) }
}

#[inline]
pub fn sums(part: &Part, code: &[u8], data: &[u8], sums: &mut [u16; SUMS]) -> u32 {
    unsafe {
        zc_sums(
            part,
            code.as_ptr(),
            code.len() as u64,
            data.as_ptr(),
            data.len() as u64,
            sums,
        )
    }
}

#[inline]
pub fn byte(
    part: &Part,
    state: &mut [u8; STATE],
    byte: u8,
    code: &mut [u8],
    data: &mut [u8],
    sums: &mut [u16; SUMS],
    room: &mut [u8],
) -> Told {
    let mut told = [UNTOLD; 4];
    let refusal = unsafe {
        zc_byte(
            part,
            state,
            byte,
            code.as_mut_ptr(),
            code.len() as u64,
            data.as_mut_ptr(),
            data.len() as u64,
            sums,
            room.as_mut_ptr(),
            room.len() as u64,
            &mut told,
        )
    };
    answered(refusal, told)
}

#[inline]
pub fn gap(
    part: &Part,
    state: &mut [u8; STATE],
    code: &mut [u8],
    data: &mut [u8],
    sums: &mut [u16; SUMS],
    room: &mut [u8],
) -> Told {
    let mut told = [UNTOLD; 4];
    let refusal = unsafe {
        zc_gap(
            part,
            state,
            code.as_mut_ptr(),
            code.len() as u64,
            data.as_mut_ptr(),
            data.len() as u64,
            sums,
            room.as_mut_ptr(),
            room.len() as u64,
            &mut told,
        )
    };
    answered(refusal, told)
}

#[inline]
pub fn power_on(
    part: &Part,
    state: &mut [u8; STATE],
    code: &mut [u8],
    data: &mut [u8],
    sums: &mut [u16; SUMS],
    room: &mut [u8],
) -> Told {
    let mut told = [UNTOLD; 4];
    let refusal = unsafe {
        zc_power_on(
            part,
            state,
            code.as_mut_ptr(),
            code.len() as u64,
            data.as_mut_ptr(),
            data.len() as u64,
            sums,
            room.as_mut_ptr(),
            room.len() as u64,
            &mut told,
        )
    };
    answered(refusal, told)
}

/// How many bytes were taken, and what the call told.
#[inline]
pub fn feed(
    part: &Part,
    state: &mut [u8; STATE],
    fed: &[u8],
    code: &mut [u8],
    data: &mut [u8],
    sums: &mut [u16; SUMS],
    room: &mut [u8],
) -> (u64, Told) {
    let mut told = [UNTOLD; 5];
    let refusal = unsafe {
        zc_feed(
            part,
            state,
            fed.as_ptr(),
            fed.len() as u64,
            code.as_mut_ptr(),
            code.len() as u64,
            data.as_mut_ptr(),
            data.len() as u64,
            sums,
            room.as_mut_ptr(),
            room.len() as u64,
            &mut told,
        )
    };
    let [taken, told @ ..] = told;
    (taken, answered(refusal, told))
}

#[inline]
pub fn engine(
    part: &Part,
    state: &mut [u8; STATE],
    fed: &[u8],
    code: &mut [u8],
    data: &mut [u8],
    sums: &mut [u16; SUMS],
    room: &mut [u8],
) -> Stretch {
    let mut told = [UNTOLD; 5];
    let refusal = unsafe {
        zc_engine(
            part,
            state,
            fed.as_ptr(),
            fed.len() as u64,
            code.as_mut_ptr(),
            code.len() as u64,
            data.as_mut_ptr(),
            data.len() as u64,
            sums,
            room.as_mut_ptr(),
            room.len() as u64,
            &mut told,
        )
    };
    let [bytes, frames, faults, fault, place] = told;
    Stretch {
        refusal,
        bytes,
        frames,
        faults,
        fault,
        place,
    }
}

#[inline]
pub fn replay(
    part: &Part,
    state: &mut [u8; STATE],
    capture: &[u8],
    code: &mut [u8],
    data: &mut [u8],
    sums: &mut [u16; SUMS],
    room: &mut [u8],
    output: &mut [u8],
) -> Played {
    replay_by(
        zc_replay, part, state, capture, code, data, sums, room, output,
    )
}

#[inline]
pub fn replay_new(
    part: &Part,
    state: &mut [u8; STATE],
    capture: &[u8],
    code: &mut [u8],
    data: &mut [u8],
    sums: &mut [u16; SUMS],
    room: &mut [u8],
    output: &mut [u8],
) -> Played {
    replay_by(
        zc_replay_new,
        part,
        state,
        capture,
        code,
        data,
        sums,
        room,
        output,
    )
}

type Replay = unsafe extern "C" fn(
    *const [u8; PART],
    *mut [u8; STATE],
    *const u8,
    u64,
    *mut u8,
    u64,
    *mut u8,
    u64,
    *mut [u16; SUMS],
    *mut u8,
    u64,
    *mut u8,
    u64,
    *mut [u64; 3],
) -> u32;

#[inline]
fn replay_by(
    call: Replay,
    part: &Part,
    state: &mut [u8; STATE],
    capture: &[u8],
    code: &mut [u8],
    data: &mut [u8],
    sums: &mut [u16; SUMS],
    room: &mut [u8],
    output: &mut [u8],
) -> Played {
    let mut told = [UNTOLD; 3];
    let refusal = unsafe {
        call(
            part,
            state,
            capture.as_ptr(),
            capture.len() as u64,
            code.as_mut_ptr(),
            code.len() as u64,
            data.as_mut_ptr(),
            data.len() as u64,
            sums,
            room.as_mut_ptr(),
            room.len() as u64,
            output.as_mut_ptr(),
            output.len() as u64,
            &mut told,
        )
    };
    let [records, bytes, frames] = told;
    Played {
        refusal,
        records,
        bytes,
        frames,
    }
}

#[inline]
pub fn to_new(capture: &[u8], output: &mut [u8]) -> Converted {
    convert_by(zc_to_new, capture, output)
}

#[inline]
pub fn to_old(capture: &[u8], output: &mut [u8]) -> Converted {
    convert_by(zc_to_old, capture, output)
}

type Convert = unsafe extern "C" fn(*const u8, u64, *mut u8, u64, *mut [u64; 2]) -> u32;

#[inline]
fn convert_by(call: Convert, capture: &[u8], output: &mut [u8]) -> Converted {
    let mut told = [UNTOLD; 2];
    let refusal = unsafe {
        call(
            capture.as_ptr(),
            capture.len() as u64,
            output.as_mut_ptr(),
            output.len() as u64,
            &mut told,
        )
    };
    let [bytes, record] = told;
    Converted {
        refusal,
        bytes,
        record,
    }
}

#[inline]
fn answered(refusal: u32, [bytes, frames, fault, place]: [u64; 4]) -> Told {
    Told {
        refusal,
        bytes,
        frames,
        fault,
        place,
    }
}

#[inline]
pub fn start(job: &Job, dock: &mut [u8; DOCK]) -> u32 {
    unsafe {
        zc_start(
            &job.part,
            &job.work,
            job.image.as_ptr(),
            job.image.len() as u64,
            dock,
        )
    }
}

/// 0 or the refusal's number, and the length of the frame at the start of the room.
#[inline]
pub fn ask(job: &Job, dock: &mut [u8; DOCK], room: &mut [u8]) -> (u32, u64) {
    let mut told = [UNTOLD];
    let refusal = unsafe {
        zc_ask(
            &job.part,
            &job.work,
            job.image.as_ptr(),
            job.image.len() as u64,
            dock,
            room.as_mut_ptr(),
            room.len() as u64,
            &mut told,
        )
    };
    (refusal, told[0])
}

#[inline]
pub fn answer(job: &Job, dock: &mut [u8; DOCK], answer: &[u8]) -> Report {
    let mut told = [UNTOLD; 3];
    let refusal = unsafe {
        zc_answer(
            &job.part,
            &job.work,
            job.image.as_ptr(),
            job.image.len() as u64,
            dock,
            answer.as_ptr(),
            answer.len() as u64,
            &mut told,
        )
    };
    reported(refusal, told)
}

/// How many bytes are still wanted of the answer; 0: hand it in.
#[inline]
pub fn wants(job: &Job, dock: &[u8; DOCK], answer: &[u8]) -> u64 {
    unsafe {
        zc_wants(
            &job.part,
            &job.work,
            job.image.as_ptr(),
            job.image.len() as u64,
            dock,
            answer.as_ptr(),
            answer.len() as u64,
        )
    }
}

#[inline]
pub fn timeout(job: &Job, dock: &mut [u8; DOCK]) -> Report {
    let mut told = [UNTOLD; 3];
    let refusal = unsafe {
        zc_timeout(
            &job.part,
            &job.work,
            job.image.as_ptr(),
            job.image.len() as u64,
            dock,
            &mut told,
        )
    };
    reported(refusal, told)
}

/// The fault of the answer that could not be read, as an event would tell it.
#[inline]
pub fn dock_fault(dock: &[u8; DOCK]) -> u64 {
    dock[23].into()
}

/// That fault's place in its frame.
#[inline]
pub fn dock_place(dock: &[u8; DOCK]) -> u64 {
    u16::from_le_bytes([dock[24], dock[25]]).into()
}

#[inline]
fn reported(refusal: u32, [ended, frames_used, retries_used]: [u64; 3]) -> Report {
    Report {
        refusal,
        ended,
        frames_used,
        retries_used,
    }
}

#[link(name = "door", kind = "static")]
extern "C" {
    fn zc_fresh(part: *const [u8; PART], state: *mut [u8; STATE]) -> u32;
    fn zc_sums(
        part: *const [u8; PART],
        code: *const u8,
        code_len: u64,
        data: *const u8,
        data_len: u64,
        sums: *mut [u16; SUMS],
    ) -> u32;
    fn zc_byte(
        part: *const [u8; PART],
        state: *mut [u8; STATE],
        byte: u8,
        code: *mut u8,
        code_len: u64,
        data: *mut u8,
        data_len: u64,
        sums: *mut [u16; SUMS],
        room: *mut u8,
        room_len: u64,
        told: *mut [u64; 4],
    ) -> u32;
    fn zc_gap(
        part: *const [u8; PART],
        state: *mut [u8; STATE],
        code: *mut u8,
        code_len: u64,
        data: *mut u8,
        data_len: u64,
        sums: *mut [u16; SUMS],
        room: *mut u8,
        room_len: u64,
        told: *mut [u64; 4],
    ) -> u32;
    fn zc_power_on(
        part: *const [u8; PART],
        state: *mut [u8; STATE],
        code: *mut u8,
        code_len: u64,
        data: *mut u8,
        data_len: u64,
        sums: *mut [u16; SUMS],
        room: *mut u8,
        room_len: u64,
        told: *mut [u64; 4],
    ) -> u32;
    fn zc_feed(
        part: *const [u8; PART],
        state: *mut [u8; STATE],
        fed: *const u8,
        fed_len: u64,
        code: *mut u8,
        code_len: u64,
        data: *mut u8,
        data_len: u64,
        sums: *mut [u16; SUMS],
        room: *mut u8,
        room_len: u64,
        told: *mut [u64; 5],
    ) -> u32;
    fn zc_engine(
        part: *const [u8; PART],
        state: *mut [u8; STATE],
        fed: *const u8,
        fed_len: u64,
        code: *mut u8,
        code_len: u64,
        data: *mut u8,
        data_len: u64,
        sums: *mut [u16; SUMS],
        room: *mut u8,
        room_len: u64,
        told: *mut [u64; 5],
    ) -> u32;
    fn zc_replay(
        part: *const [u8; PART],
        state: *mut [u8; STATE],
        capture: *const u8,
        capture_len: u64,
        code: *mut u8,
        code_len: u64,
        data: *mut u8,
        data_len: u64,
        sums: *mut [u16; SUMS],
        room: *mut u8,
        room_len: u64,
        output: *mut u8,
        output_len: u64,
        told: *mut [u64; 3],
    ) -> u32;
    fn zc_replay_new(
        part: *const [u8; PART],
        state: *mut [u8; STATE],
        capture: *const u8,
        capture_len: u64,
        code: *mut u8,
        code_len: u64,
        data: *mut u8,
        data_len: u64,
        sums: *mut [u16; SUMS],
        room: *mut u8,
        room_len: u64,
        output: *mut u8,
        output_len: u64,
        told: *mut [u64; 3],
    ) -> u32;
    fn zc_to_new(
        capture: *const u8,
        capture_len: u64,
        output: *mut u8,
        output_len: u64,
        told: *mut [u64; 2],
    ) -> u32;
    fn zc_to_old(
        capture: *const u8,
        capture_len: u64,
        output: *mut u8,
        output_len: u64,
        told: *mut [u64; 2],
    ) -> u32;
    fn zc_start(
        part: *const [u8; PART],
        job: *const [u8; JOB],
        image: *const u8,
        image_len: u64,
        dock: *mut [u8; DOCK],
    ) -> u32;
    fn zc_ask(
        part: *const [u8; PART],
        job: *const [u8; JOB],
        image: *const u8,
        image_len: u64,
        dock: *mut [u8; DOCK],
        room: *mut u8,
        room_len: u64,
        told: *mut [u64; 1],
    ) -> u32;
    fn zc_answer(
        part: *const [u8; PART],
        job: *const [u8; JOB],
        image: *const u8,
        image_len: u64,
        dock: *mut [u8; DOCK],
        answer: *const u8,
        answer_len: u64,
        told: *mut [u64; 3],
    ) -> u32;
    fn zc_wants(
        part: *const [u8; PART],
        job: *const [u8; JOB],
        image: *const u8,
        image_len: u64,
        dock: *const [u8; DOCK],
        answer: *const u8,
        answer_len: u64,
    ) -> u64;
    fn zc_timeout(
        part: *const [u8; PART],
        job: *const [u8; JOB],
        image: *const u8,
        image_len: u64,
        dock: *mut [u8; DOCK],
        told: *mut [u64; 3],
    ) -> u32;
}
