//! The dock: one job against a chip, a frame handed out and its whole answer handed in by turns (01 "The dock's flow").

use crate::chip::{
    blocks_of, mode_of, rate_fits, signature, ACK, BAD_SUM, BLANK_CHECK, BLOCK_ERASE, NACK,
    NOT_BLANK, PROGRAM, RATE_SET, RESET, SIGNATURE, VERIFY,
};
use crate::frame::{
    read_reply, write, Fault, COMMAND_HEADER, DATA_HEADER, LAST_FOOTER, LONGEST, MORE_FOOTER,
};
use crate::part::{Area, Part};

pub const SMALLEST_ROOM: usize = LONGEST;
pub const MOST_RETRIES: u64 = 15;

/// The status named where none was read (01 "The dock's flow").
const NO_STATUS: u8 = 0x00;

/// What C0h's second frame holds (01 "Commands").
const SIGNATURE_BYTES: usize = 22;

/// A job but for its image, which is lent to each call. The numbers are wide, so that none is judged after wrapping.
#[derive(Clone, Debug, PartialEq, Eq)]
pub struct Job {
    pub part: Part,
    pub start: u64,
    pub end: u64,
    pub rate: u64,
    pub supply: u64,
    pub retries: u64,
}

impl Job {
    /// Where the range starts. Refusal 5 bars a start outside flash; what such a job is asked it answers as if for code flash.
    pub fn area(&self) -> Area {
        let start = usize::try_from(self.start).ok();
        let place = start.and_then(|start| self.part.place(start));
        place.map_or(Area::Code, |place| place.area)
    }

    pub fn block_size(&self) -> usize {
        self.part.block_size(self.area())
    }

    pub fn pages_of_block(&self) -> u64 {
        self.part.pages_of_block(self.area()) as u64
    }

    fn last_page(&self) -> u64 {
        self.pages_of_block() - 1
    }

    /// "for B blocks and R retries allowed, at most 3 + 12(B + R) frames": 32h, 22h, 40h and 13h for a block, and each page twice.
    pub fn bound(&self, blocks: u64) -> u64 {
        3 + (4 + 2 * self.pages_of_block()) * (blocks + self.retries)
    }
}

/// Which frame is due or has been handed out; blocks count from the job's first, pages from their block's.
#[derive(Clone, Copy, Debug, PartialEq, Eq)]
pub enum Stage {
    Rate,
    Reset,
    Signature,
    Blank { block: u64 },
    Erase { block: u64 },
    Program { block: u64 },
    ProgramPage { block: u64, page: u64 },
    Verify { block: u64 },
    VerifyPage { block: u64, page: u64 },
    Finished,
    Failed(Failure),
}

/// What a failed job names: cause, frame, status and block (01 "The dock's flow"), and the fault of an unreadable answer (02 §4).
#[derive(Clone, Copy, Debug, PartialEq, Eq)]
pub struct Failure {
    pub cause: Cause,
    pub command: u8,
    pub page: Option<u64>,
    pub status: u8,
    /// None in setup.
    pub block: Option<u64>,
    /// That of the answer's first faulty frame; none beside another cause.
    pub fault: Option<Fault>,
}

#[derive(Clone, Copy, Debug, PartialEq, Eq)]
pub enum Cause {
    Status,
    Mismatch,
    Unreadable,
    Timeout,
}

#[derive(Clone, Copy, Debug, PartialEq, Eq)]
pub struct State {
    pub stage: Stage,
    /// The stage's frame has been handed out and its answer has not come.
    pub awaited: bool,
    pub retries: u64,
    pub frames: u64,
}

/// How the job stands after an answer or a timeout.
#[derive(Clone, Copy, Debug, PartialEq, Eq)]
pub enum Report {
    /// Another frame is due.
    GoesOn,
    Finished {
        frames: u64,
        retries: u64,
    },
    Failed {
        failure: Failure,
        frames: u64,
        retries: u64,
    },
}

/// A job's first state, or the number of the refusal.
pub fn start(job: &Job, image: &[u8]) -> Result<State, u8> {
    judge_job(job, image)?;
    Ok(State {
        stage: Stage::Rate,
        awaited: false,
        retries: 0,
        frames: 0,
    })
}

/// Writes the frame that is due to the start of the room and hands back its length; the frame counts from then on.
pub fn ask(job: &Job, image: &[u8], state: &mut State, room: &mut [u8]) -> Result<usize, u8> {
    let blocks = judge_job(job, image)?;
    judge_state(job, blocks, state)?;
    // One frame more would be over the bound, which no state may be.
    if frame_is_due(state) && state.frames == job.bound(blocks) {
        return Err(9);
    }
    if room.len() < SMALLEST_ROOM {
        return Err(4);
    }
    let Some(sent) = sent(state.stage).filter(|_| !state.awaited) else {
        return Err(8);
    };
    state.awaited = true;
    state.frames += 1;
    Ok(write_sent(job, image, &sent, room))
}

/// Takes the whole answer to the frame handed out last.
pub fn answer(job: &Job, image: &[u8], state: &mut State, answer: &[u8]) -> Result<Report, u8> {
    let (blocks, sent) = judge_heard(job, image, state)?;
    state.awaited = false;
    match verdict(job, &sent, answer) {
        Verdict::Expected { not_blank } => state.stage = after(job, state.stage, blocks, not_blank),
        Verdict::Again(_) if state.retries < job.retries => {
            state.retries += 1;
            state.stage = again(state.stage);
        }
        Verdict::Again(status) => state.stage = failed(&sent, Cause::Status, status, None),
        Verdict::Ended(cause, status) => state.stage = failed(&sent, cause, status, None),
        Verdict::Unreadable(fault) => {
            state.stage = failed(&sent, Cause::Unreadable, NO_STATUS, Some(fault))
        }
    }
    Ok(report(state))
}

/// The line's word that no answer came to the frame handed out last.
pub fn timeout(job: &Job, image: &[u8], state: &mut State) -> Result<Report, u8> {
    let (_, sent) = judge_heard(job, image, state)?;
    state.awaited = false;
    state.stage = failed(&sent, Cause::Timeout, NO_STATUS, None);
    Ok(report(state))
}

fn report(state: &State) -> Report {
    let State {
        frames, retries, ..
    } = *state;
    match state.stage {
        Stage::Finished => Report::Finished { frames, retries },
        Stage::Failed(failure) => Report::Failed {
            failure,
            frames,
            retries,
        },
        _ => Report::GoesOn,
    }
}

// Refusals: 01 "Refusal numbers", order 1, 5, 6, 7, 9, 4, 8

/// Refusals 1, 5, 6, 7; hands back how many blocks the job has.
fn judge_job(job: &Job, image: &[u8]) -> Result<u64, u8> {
    if !job.part.fits() || rate_and_supply(job).is_none() {
        return Err(1);
    }
    let blocks = range_blocks(job).ok_or(5)?;
    if image.len() != blocks * job.block_size() {
        return Err(6);
    }
    if job.retries > MOST_RETRIES {
        return Err(7);
    }
    Ok(blocks as u64)
}

fn rate_and_supply(job: &Job) -> Option<(u8, u8)> {
    let rate = u8::try_from(job.rate).ok()?;
    let supply = u8::try_from(job.supply).ok()?;
    rate_fits(rate, supply).then_some((rate, supply))
}

fn range_blocks(job: &Job) -> Option<usize> {
    let start = usize::try_from(job.start).ok()?;
    let end = usize::try_from(job.end).ok()?;
    blocks_of(&job.part, start, end)
}

/// Refusal 9, for a job that is over too: the block and page its failure names are the state's.
fn judge_state(job: &Job, blocks: u64, state: &State) -> Result<(), u8> {
    let (block, page) = named(state.stage);
    let fits = block.is_none_or(|block| block < blocks)
        && page.is_none_or(|page| page < job.pages_of_block())
        && state.retries <= job.retries
        && state.frames <= job.bound(blocks);
    if fits {
        Ok(())
    } else {
        Err(9)
    }
}

fn named(stage: Stage) -> (Option<u64>, Option<u64>) {
    match (stage, sent(stage)) {
        (_, Some(sent)) => (sent.block, sent.page),
        (Stage::Failed(failure), None) => (failure.block, failure.page),
        (_, None) => (None, None),
    }
}

fn frame_is_due(state: &State) -> bool {
    sent(state.stage).is_some() && !state.awaited
}

/// The refusals of an answer and of a timeout; hands back the job's blocks and the frame heard about.
fn judge_heard(job: &Job, image: &[u8], state: &State) -> Result<(u64, Sent), u8> {
    let blocks = judge_job(job, image)?;
    judge_state(job, blocks, state)?;
    match sent(state.stage) {
        Some(sent) if state.awaited => Ok((blocks, sent)),
        _ => Err(8),
    }
}

// The frames: 01 "The dock's flow" and "Commands"

/// A frame of the flow, as a failure names it: command, page if it is one, block or none in setup.
struct Sent {
    command: u8,
    page: Option<u64>,
    block: Option<u64>,
}

/// The frame of a stage; none once the job is over.
fn sent(stage: Stage) -> Option<Sent> {
    let (command, block, page) = match stage {
        Stage::Rate => (RATE_SET, None, None),
        Stage::Reset => (RESET, None, None),
        Stage::Signature => (SIGNATURE, None, None),
        Stage::Blank { block } => (BLANK_CHECK, Some(block), None),
        Stage::Erase { block } => (BLOCK_ERASE, Some(block), None),
        Stage::Program { block } => (PROGRAM, Some(block), None),
        Stage::ProgramPage { block, page } => (PROGRAM, Some(block), Some(page)),
        Stage::Verify { block } => (VERIFY, Some(block), None),
        Stage::VerifyPage { block, page } => (VERIFY, Some(block), Some(page)),
        Stage::Finished | Stage::Failed(_) => return None,
    };
    Some(Sent {
        command,
        page,
        block,
    })
}

fn write_sent(job: &Job, image: &[u8], sent: &Sent, room: &mut [u8]) -> usize {
    if let (Some(block), Some(page)) = (sent.block, sent.page) {
        let footer = if page == job.last_page() {
            LAST_FOOTER
        } else {
            MORE_FOOTER
        };
        let size = job.part.page_size();
        let first = block as usize * job.block_size() + page as usize * size;
        return write(room, DATA_HEADER, &image[first..first + size], footer);
    }
    let mut body = vec![sent.command];
    if let Some(block) = sent.block {
        let size = job.block_size() as u64;
        let start = job.start + block * size;
        body.extend(address(start));
        if sent.command != BLOCK_ERASE {
            body.extend(address(start + size - 1));
        }
    }
    if sent.command == BLANK_CHECK {
        // D01 00h asks for flash alone; 01h would ask for the options too.
        body.push(0x00);
    }
    if sent.command == RATE_SET {
        // Refusal 1 has let through no wider number.
        body.extend([job.rate as u8, job.supply as u8]);
    }
    write(room, COMMAND_HEADER, &body, LAST_FOOTER)
}

/// Addresses travel low, middle, high.
fn address(address: u64) -> [u8; 3] {
    let [low, middle, high, ..] = address.to_le_bytes();
    [low, middle, high]
}

// The answers: 01 "The dock's flow"

/// What an answer means to the job.
enum Verdict {
    Expected {
        not_blank: bool,
    },
    /// A status 07h or 15h.
    Again(u8),
    Ended(Cause, u8),
    Unreadable(Fault),
}

/// A readable answer taken apart: its statuses in order, and what else it holds.
struct Reading<'a> {
    statuses: Vec<u8>,
    content: &'a [u8],
}

/// Readable comes first, then the first unexpected status, then what the reply must hold.
fn verdict(job: &Job, sent: &Sent, answer: &[u8]) -> Verdict {
    let reading = match read(job, sent, answer) {
        Ok(reading) => reading,
        Err(fault) => return Verdict::Unreadable(fault),
    };
    let not_blank_is_expected = sent.command == BLANK_CHECK;
    let expected = |status: u8| status == ACK || status == NOT_BLANK && not_blank_is_expected;
    let unexpected = reading.statuses.iter().find(|status| !expected(**status));
    match unexpected {
        Some(status @ &(BAD_SUM | NACK)) => Verdict::Again(*status),
        Some(status) => Verdict::Ended(Cause::Status, *status),
        None if !content_matches(job, sent, reading.content) => {
            Verdict::Ended(Cause::Mismatch, ACK)
        }
        None => Verdict::Expected {
            not_blank: reading.statuses.contains(&NOT_BLANK),
        },
    }
}

/// How many bytes each frame of the answer has to hold. The statuses that decide it are read where they lie, whatever else is wrong with the answer.
fn expected(job: &Job, sent: &Sent, answer: &[u8]) -> &'static [usize] {
    let says = |statuses: &[u8]| answer.get(2..2 + statuses.len()) == Some(statuses);
    match (sent.command, sent.page) {
        (PROGRAM, Some(page)) if page == job.last_page() && says(&[ACK, ACK]) => &[2, 1],
        (_, Some(_)) => &[2],
        (RATE_SET, None) if says(&[ACK]) => &[3],
        (SIGNATURE, None) if says(&[ACK]) => &[1, SIGNATURE_BYTES],
        (_, None) => &[1],
    }
}

/// "it is readable if it is exactly these frames": nothing is missing and nothing follows. Else the fault of the first of them that has one.
fn read<'a>(job: &Job, sent: &Sent, answer: &'a [u8]) -> Result<Reading<'a>, Fault> {
    let expected = expected(job, sent, answer);
    let mut held: [&[u8]; 2] = [&[]; 2];
    let mut rest = answer;
    for (at, bytes) in expected.iter().enumerate() {
        let last = at + 1 == expected.len();
        (held[at], rest) = read_reply(rest, *bytes, last)?;
    }
    let [first, second] = held;
    Ok(match (sent.command, sent.page) {
        (_, Some(_)) => Reading {
            statuses: held.concat(),
            content: &[],
        },
        (RATE_SET, None) => Reading {
            statuses: vec![first[0]],
            content: &first[1..],
        },
        (_, None) => Reading {
            statuses: vec![first[0]],
            content: second,
        },
    })
}

/// "the reply must hold the part's clock and the supply's mode"; C0h's "must match the part".
fn content_matches(job: &Job, sent: &Sent, content: &[u8]) -> bool {
    match sent.command {
        RATE_SET => content == [job.part.clock as u8, mode_of(job.supply as u8)],
        SIGNATURE => content == signature(&job.part),
        _ => true,
    }
}

// The order: 01 "The dock's flow"

/// The stage after an answer as expected: blocks ascending, 22h only where 32h said 1Bh.
fn after(job: &Job, stage: Stage, blocks: u64, not_blank: bool) -> Stage {
    match stage {
        Stage::Rate => Stage::Reset,
        Stage::Reset => Stage::Signature,
        Stage::Signature => Stage::Blank { block: 0 },
        Stage::Blank { block } if not_blank => Stage::Erase { block },
        Stage::Blank { block } | Stage::Erase { block } => Stage::Program { block },
        Stage::Program { block } => Stage::ProgramPage { block, page: 0 },
        Stage::ProgramPage { block, page } if page < job.last_page() => Stage::ProgramPage {
            block,
            page: page + 1,
        },
        Stage::ProgramPage { block, .. } => Stage::Verify { block },
        Stage::Verify { block } => Stage::VerifyPage { block, page: 0 },
        Stage::VerifyPage { block, page } if page < job.last_page() => Stage::VerifyPage {
            block,
            page: page + 1,
        },
        Stage::VerifyPage { block, .. } if block + 1 < blocks => Stage::Blank { block: block + 1 },
        Stage::VerifyPage { .. } => Stage::Finished,
        Stage::Finished | Stage::Failed(_) => stage,
    }
}

/// A retry "restarts the block (or the setup command)".
fn again(stage: Stage) -> Stage {
    match sent(stage).and_then(|sent| sent.block) {
        Some(block) => Stage::Blank { block },
        None => stage,
    }
}

fn failed(sent: &Sent, cause: Cause, status: u8, fault: Option<Fault>) -> Stage {
    Stage::Failed(Failure {
        cause,
        command: sent.command,
        page: sent.page,
        status,
        block: sent.block,
        fault,
    })
}
