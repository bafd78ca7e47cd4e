//! Random jobs and random histories of answers for a dock, the same for the same seed (01 "The dock's flow").
//! All numbers stay within 32 bits, so that a dock of narrower numbers can be given them too.

use std::fmt;
use std::rc::Rc;

use crate::chip::{mode_of, signature, Chip, Event, Phase, ACK, BAD_SUM, ERASED, NACK, NOT_BLANK};
use crate::dock::{Cause, Failure, Job, Stage, State, MOST_RETRIES};
use crate::frame::{Fault, COMMAND_HEADER, LAST_FOOTER, LONGEST, MORE_FOOTER};
use crate::part::{Area, Part};
use crate::random::{data_frame, Generator};
use crate::replay::Player;
use crate::transcript::{call_line, cause_text, job_line, Action, Call, Outcome, Reply};

/// A history that was played.
pub struct History {
    /// One for each call, and one before the calls of another job.
    pub lines: Vec<String>,
    pub ending: Ending,
}

#[derive(Clone, Copy, Debug, PartialEq, Eq)]
pub enum Ending {
    Finished,
    Failed(Cause),
    /// The call that was to carry the history on was refused.
    Refused(u8),
    /// More calls than the bound on frames leaves room for; no right dock gets here.
    Endless,
}

impl fmt::Display for Ending {
    fn fmt(&self, output: &mut fmt::Formatter) -> fmt::Result {
        match self {
            Ending::Finished => write!(output, "finished"),
            Ending::Failed(cause) => write!(output, "failed {}", cause_text(*cause)),
            Ending::Refused(number) => write!(output, "refused {number}"),
            Ending::Endless => write!(output, "endless"),
        }
    }
}

/// Plays the history of that seed with this dock. What comes next depends on what the dock hands back, so two docks
/// are told apart by the first line that differs.
pub fn play(seed: u64, dock: impl FnMut(&Call) -> Outcome) -> History {
    let mut choice = Generator::new(seed);
    let work = random_work(&mut choice);
    let mut play = Play {
        fault: choice.pick(&[0, 1, 3, 8, 25]),
        aside: choice.pick(&[0, 10, 50]),
        only_retries: choice.chance(25),
        not_blank: choice.pick(&[0, 50, 100]),
        blocks: (work.image.len() / work.job.block_size()) as u64,
        choice,
        dock,
        work: Rc::new(work),
        shown: None,
        lines: Vec::new(),
    };
    let ending = play.run();
    History {
        lines: play.lines,
        ending,
    }
}

/// A job and its image.
#[derive(Clone, PartialEq, Eq)]
struct Work {
    job: Job,
    image: Vec<u8>,
}

/// Whose move it is in a state.
#[derive(Clone, Copy, PartialEq, Eq)]
enum Turn {
    Due,
    Awaited,
    Over,
}

/// Where the answers come from.
enum Line {
    /// From the flow's expectation of the stage.
    MadeUp,
    Chip(Box<Far>),
}

/// A chip at the far end, and what it said to the last frame.
struct Far {
    chip: Player,
    said: Vec<u8>,
}

struct Play<D> {
    choice: Generator,
    dock: D,
    work: Rc<Work>,
    blocks: u64,
    /// Percent of answers that are not right.
    fault: usize,
    /// Answers that are not right say 07h or 15h, so that a history gets far and spends its allowance.
    only_retries: bool,
    /// Percent of steps with a call made aside.
    aside: usize,
    /// Percent of right answers to 32h that say 1Bh.
    not_blank: usize,
    shown: Option<Rc<Work>>,
    lines: Vec<String>,
}

impl<D: FnMut(&Call) -> Outcome> Play<D> {
    fn run(&mut self) -> Ending {
        if self.choice.chance(8) {
            return self.run_bad_job();
        }
        let work = self.work.clone();
        let started = self.call(&work, Action::Start, &[], true, "start");
        let Some(mut state) = started.state else {
            return refused(&started);
        };
        let mut line = self.random_line();
        if self.choice.chance(20) {
            let turn = self.choice.pick(&[Turn::Due, Turn::Awaited]);
            state = self.random_state(turn);
            if self.choice.chance(15) {
                state.frames = self.bound();
            }
            line = Line::MadeUp;
        }
        for _ in 0..2 * self.bound() + 2 {
            if self.choice.chance(self.aside) {
                self.call_aside(Some(state));
            }
            let outcome = match turn_of(&state) {
                Turn::Due => self.ask(state, &mut line),
                Turn::Awaited => self.hear(state, &mut line),
                Turn::Over => return self.run_over(state),
            };
            match outcome.state {
                Some(after) if !matches!(outcome.reply, Reply::Refused(_)) => state = after,
                _ => return refused(&outcome),
            }
        }
        match turn_of(&state) {
            Turn::Over => self.run_over(state),
            Turn::Due | Turn::Awaited => Ending::Endless,
        }
    }

    fn run_bad_job(&mut self) -> Ending {
        let faults = self.some_of(&[1, 5, 6, 7], &[0, 65, 35]);
        let work = self.spoiled_work(&faults);
        let outcome = self.call(&work, Action::Start, &faults, true, "start of a bad job");
        for _ in 0..self.choice.between(1, 4) {
            self.call_aside_with(&work, &faults, None);
        }
        refused(&outcome)
    }

    /// A job that is over refuses whatever comes.
    fn run_over(&mut self, state: State) -> Ending {
        for _ in 0..self.choice.below(3) {
            self.call_aside(Some(state));
        }
        match state.stage {
            Stage::Failed(failure) => Ending::Failed(failure.cause),
            _ => Ending::Finished,
        }
    }

    fn ask(&mut self, state: State, line: &mut Line) -> Outcome {
        let at_bound = state.frames == self.bound();
        let faults: &[u8] = if at_bound { &[9] } else { &[] };
        let room = LONGEST + self.choice.pick(&[0, 0, 0, 1, 40]);
        let work = self.work.clone();
        let action = Action::Ask { state, room };
        let outcome = self.call(&work, action, faults, true, "ask");
        if let (Line::Chip(far), Reply::Frame(length)) = (line, outcome.reply) {
            self.send(far, outcome.room.get(..length).unwrap_or(&[]));
        }
        outcome
    }

    /// The answer or timeout to the frame handed out last.
    fn hear(&mut self, state: State, line: &mut Line) -> Outcome {
        let (heard, manner) = match line {
            Line::MadeUp => self.made_up(state.stage, self.fault, self.only_retries),
            Line::Chip(far) => self.said_by(far),
        };
        let work = self.work.clone();
        let action = match &heard {
            Some(bytes) => Action::Answer { state, bytes },
            None => Action::Timeout { state },
        };
        self.call(&work, action, &[], true, manner)
    }

    fn call(
        &mut self,
        work: &Rc<Work>,
        action: Action,
        faults: &[u8],
        kept: bool,
        manner: &'static str,
    ) -> Outcome {
        let call = Call {
            job: &work.job,
            image: &work.image,
            action,
            faults,
            kept,
            manner,
        };
        let outcome = (self.dock)(&call);
        if self.shown.as_ref() != Some(work) {
            self.lines.push(job_line(&work.job, &work.image));
            self.shown = Some(work.clone());
        }
        self.lines.push(call_line(&call, &outcome));
        outcome
    }

    fn bound(&self) -> u64 {
        self.work.job.bound(self.blocks)
    }
}

// The chip at the far end

impl<D: FnMut(&Call) -> Outcome> Play<D> {
    fn random_line(&mut self) -> Line {
        if self.choice.chance(50) {
            return Line::MadeUp;
        }
        let choice = &mut self.choice;
        let mut part = self.work.job.part.clone();
        match choice.below(40) {
            0 => part.clock = part.clock % 32 + 1,
            1 => part.version[2] ^= 1,
            2 => part.data_blocks = (part.data_blocks + 1) % 9,
            _ => (),
        }
        // Only a part outside 01's numbers is refused, and this one is inside.
        let Ok(mut chip) = Chip::fresh(&part) else {
            return Line::MadeUp;
        };
        chip.phase = match choice.below(40) {
            0 => Phase::ModeByte,
            1 => Phase::Ready,
            _ => Phase::Setup,
        };
        chip.options.flags = choice.pick(&[0xFF, 0xFF, 0xFF, 0xFF, 0xFF, 0xEF, 0xFB, 0xFD]);
        let code = random_flash(choice, &part, Area::Code);
        let data = random_flash(choice, &part, Area::Data);
        let chip = Player::taken_up(part, chip, code, data);
        Line::Chip(Box::new(Far {
            chip,
            said: Vec::new(),
        }))
    }

    /// "a gap precedes every frame"; the line may spoil the frame behind it.
    fn send(&mut self, far: &mut Far, frame: &[u8]) {
        let mut frame = frame.to_vec();
        if self.choice.chance(self.fault) {
            let at = self.choice.below(frame.len().max(1));
            let kinds = if self.only_retries { 2 } else { 6 };
            match self.choice.below(kinds) {
                // SUM and footer: the chip answers at once, 07h or 15h.
                0 | 1 => {
                    let back = self.choice.between(1, 2);
                    flip(&mut self.choice, &mut frame, |size| {
                        size.saturating_sub(back)
                    });
                }
                2 => frame.truncate(at),
                3 if at < frame.len() => drop(frame.remove(at)),
                4 => frame.insert(at, self.choice.byte()),
                _ => flip(&mut self.choice, &mut frame, |_| at),
            }
        }
        far.chip.hear(Event::Gap);
        far.said = frame
            .into_iter()
            .flat_map(|byte| far.chip.hear(Event::Byte(byte)).bytes)
            .collect();
    }

    fn said_by(&mut self, far: &Far) -> (Option<Vec<u8>>, &'static str) {
        if far.said.is_empty() {
            return (None, "chip silent");
        }
        let mut bytes = far.said.clone();
        if self.only_retries || !self.choice.chance(self.fault) || self.choice.chance(50) {
            return (Some(bytes), "chip");
        }
        match self.choice.below(4) {
            0 => (None, "chip unheard"),
            1 => {
                shorten(&mut self.choice, &mut bytes);
                (Some(bytes), "chip short")
            }
            2 => {
                lengthen(&mut self.choice, &mut bytes);
                (Some(bytes), "chip overlong")
            }
            _ => {
                damage(&mut self.choice, &mut bytes);
                (Some(bytes), "chip damaged")
            }
        }
    }
}

/// Blank, filled, or some blocks of each.
fn random_flash(choice: &mut Generator, part: &Part, area: Area) -> Vec<u8> {
    let filled = choice.pick(&[0, 50, 100]);
    let mut flash = Vec::new();
    let size = part.block_size(area);
    for _ in 0..part.blocks(area) {
        let mut block = vec![ERASED; size];
        if choice.chance(filled) {
            let at = choice.below(size);
            let end = choice.pick(&[at + 1, size]);
            block[at..end].fill_with(|| choice.byte() & 0xFE);
        }
        flash.extend(block);
    }
    flash
}

// Answers made up from the flow's expectation

impl<D: FnMut(&Call) -> Outcome> Play<D> {
    fn made_up(
        &mut self,
        stage: Stage,
        fault: usize,
        only_retries: bool,
    ) -> (Option<Vec<u8>>, &'static str) {
        let right = self.right_answer(stage);
        if !self.choice.chance(fault) {
            return (Some(in_frames(&right)), "right");
        }
        let choice = &mut self.choice;
        let mut bytes = in_frames(&right);
        let kinds = if only_retries { 5 } else { 18 };
        match choice.below(kinds) {
            0..=4 => {
                let status = choice.pick(&[BAD_SUM, NACK]);
                (Some(with_status(choice, right, status)), "retry status")
            }
            5 | 6 => {
                let any = choice.byte();
                let status =
                    choice.pick(&[0x04, 0x05, 0x0F, 0x10, 0x1A, 0x1B, 0x1C, 0x00, 0xFF, any]);
                (Some(with_status(choice, right, status)), "other status")
            }
            7 => match stage {
                Stage::Rate | Stage::Signature => {
                    (Some(with_other_content(choice, right)), "mismatch")
                }
                _ => (None, "timeout"),
            },
            8 => {
                shorten(choice, &mut bytes);
                (Some(bytes), "short")
            }
            9 | 10 => {
                lengthen(choice, &mut bytes);
                (Some(bytes), "overlong")
            }
            11 | 12 => {
                damage(choice, &mut bytes);
                (Some(bytes), "damaged")
            }
            13..=15 => (Some(of_other_shape(choice, right)), "other shape"),
            16 => (Some(noise(choice)), "noise"),
            _ => (None, "timeout"),
        }
    }

    /// The data of each frame of the answer that carries the flow on.
    fn right_answer(&mut self, stage: Stage) -> Vec<Vec<u8>> {
        let job = &self.work.job;
        let ack = vec![ACK];
        match stage {
            Stage::Rate => {
                let mode = mode_of(job.supply as u8);
                vec![vec![ACK, job.part.clock as u8, mode]]
            }
            Stage::Signature => vec![ack, signature(&job.part).to_vec()],
            Stage::Blank { .. } if self.choice.chance(self.not_blank) => vec![vec![NOT_BLANK]],
            Stage::ProgramPage { page, .. } if page + 1 == job.pages_of_block() => {
                vec![vec![ACK, ACK], ack]
            }
            Stage::ProgramPage { .. } | Stage::VerifyPage { .. } => vec![vec![ACK, ACK]],
            _ => vec![ack],
        }
    }
}

fn in_frames(parts: &[Vec<u8>]) -> Vec<u8> {
    parts
        .iter()
        .flat_map(|data| data_frame(data, LAST_FOOTER))
        .collect()
}

/// A readable answer, mostly, with this status in one of its places.
fn with_status(choice: &mut Generator, right: Vec<Vec<u8>>, status: u8) -> Vec<u8> {
    let other = choice.pick(&[BAD_SUM, NACK, 0x0F, 0x1B, 0x1C, 0x10, ACK]);
    let is_page = right[0].len() == 2;
    let parts = match (is_page, right.len(), choice.below(5)) {
        (true, 2, 0 | 1) => vec![vec![ACK, ACK], vec![status]],
        (true, _, 2) => vec![vec![status, other]],
        (true, _, 3) => vec![vec![ACK, status]],
        (true, _, _) => vec![vec![status, status]],
        (false, _, _) => vec![vec![status]],
    };
    in_frames(&parts)
}

/// 9Ah's or C0h's reply with another byte behind its 06h; SUM is right.
fn with_other_content(choice: &mut Generator, mut right: Vec<Vec<u8>>) -> Vec<u8> {
    let from = if right.len() == 1 { 1 } else { 0 };
    if let Some(content) = right.last_mut() {
        flip(choice, &mut content[from..], |_| usize::MAX);
    }
    in_frames(&right)
}

/// Frames that are good in themselves, but not those of this answer.
fn of_other_shape(choice: &mut Generator, mut right: Vec<Vec<u8>>) -> Vec<u8> {
    let any = choice.byte();
    let last = right.len() - 1;
    match choice.below(8) {
        0 => right.push(vec![ACK]),
        1 if last > 0 => drop(right.pop()),
        1 if right[0].len() > 1 => right[0].truncate(1),
        2 => right[last].push(any),
        3 => right[0].push(any),
        4 if right[last].len() > 1 => drop(right[last].pop()),
        4 => right[0] = vec![ACK; choice.pick(&[2, 3, 22, 256])],
        5 => right[0][0] = choice.pick(&[0x05, BAD_SUM, NACK]),
        6 => {
            let mut bytes = in_frames(&right[1..]);
            bytes.splice(0..0, data_frame(&right[0], MORE_FOOTER));
            return bytes;
        }
        _ => {
            let mut bytes = in_frames(&right);
            bytes[0] = COMMAND_HEADER;
            return bytes;
        }
    }
    in_frames(&right)
}

fn noise(choice: &mut Generator) -> Vec<u8> {
    let length = choice.pick(&[0, 1, 2, 5, 6, 7, 31, 300]);
    let mut bytes: Vec<u8> = (0..length).map(|_| choice.byte()).collect();
    if choice.chance(70) {
        for (byte, begun) in bytes.iter_mut().zip([0x02, 0x01, ACK]) {
            *byte = begun;
        }
    }
    bytes
}

fn shorten(choice: &mut Generator, bytes: &mut Vec<u8>) {
    let end = bytes.len().saturating_sub(1);
    let kept = choice.below(bytes.len().max(1));
    bytes.truncate(choice.pick(&[0, kept, kept, end]));
}

fn lengthen(choice: &mut Generator, bytes: &mut Vec<u8>) {
    let any = choice.byte();
    match choice.below(4) {
        0 => bytes.push(any),
        1 => bytes.insert(0, any),
        2 => bytes.extend(data_frame(&[ACK], LAST_FOOTER)),
        _ => bytes.extend((0..300).map(|_| any)),
    }
}

fn damage(choice: &mut Generator, bytes: &mut [u8]) {
    match choice.below(3) {
        0 => flip(choice, bytes, |size| size.saturating_sub(1)),
        1 => flip(choice, bytes, |size| size.saturating_sub(2)),
        _ => flip(choice, bytes, |_| usize::MAX),
    }
}

/// Changes the byte at that place, or any byte where the place lies outside.
fn flip(choice: &mut Generator, bytes: &mut [u8], at: impl Fn(usize) -> usize) {
    if bytes.is_empty() {
        return;
    }
    let any = choice.below(bytes.len());
    let at = Some(at(bytes.len())).filter(|at| *at < bytes.len());
    bytes[at.unwrap_or(any)] ^= choice.between(1, 255) as u8;
}

// Calls made aside: handed-in states, good and bad, and up to four faults at once

impl<D: FnMut(&Call) -> Outcome> Play<D> {
    fn call_aside(&mut self, present: Option<State>) {
        let faults = self.some_of(&[1, 5, 6, 7], &[60, 25, 15]);
        let work = self.spoiled_work(&faults);
        self.call_aside_with(&work, &faults, present);
    }

    fn call_aside_with(&mut self, work: &Rc<Work>, job_faults: &[u8], present: Option<State>) {
        let kind = self.choice.below(10);
        if kind == 0 {
            self.call(work, Action::Start, job_faults, false, "aside");
            return;
        }
        let asks = kind <= 4;
        let possible: &[u8] = if asks { &[9, 4, 8] } else { &[9, 8] };
        let own = self.some_of(possible, &[50, 30, 20]);
        let turn = match (asks, own.contains(&8)) {
            (true, false) => Turn::Due,
            (false, false) => Turn::Awaited,
            (true, true) => self.choice.pick(&[Turn::Awaited, Turn::Over]),
            (false, true) => self.choice.pick(&[Turn::Due, Turn::Over]),
        };
        let in_turn = present.filter(|state| turn_of(state) == turn && state.frames < self.bound());
        let mut state = match in_turn {
            Some(state) if self.choice.chance(50) => state,
            _ => self.random_state(turn),
        };
        if own.contains(&9) {
            self.spoil_state(&mut state, asks);
        }
        let faults = [job_faults, &own].concat();
        if asks {
            let short = self.choice.pick(&[0, 5, 32, LONGEST - 1]);
            let room = if own.contains(&4) { short } else { LONGEST };
            let action = Action::Ask { state, room };
            self.call(work, action, &faults, false, "aside");
        } else {
            // No history ends by what is said aside, so that it may be wrong more often.
            let (heard, _) = self.made_up(state.stage, 70, false);
            let action = match &heard {
                Some(bytes) if kind < 9 => Action::Answer { state, bytes },
                _ => Action::Timeout { state },
            };
            self.call(work, action, &faults, false, "aside");
        }
    }

    /// None, one or two of these, with that percentage each.
    fn some_of(&mut self, numbers: &[u8], percent: &[usize; 3]) -> Vec<u8> {
        let drawn = self.choice.below(100);
        let first = self.choice.pick(numbers);
        let second = self.choice.pick(numbers);
        match drawn {
            none if none < percent[0] => Vec::new(),
            two if two >= percent[0] + percent[1] && first != second => vec![first, second],
            _ => vec![first],
        }
    }

    /// A state that no number bars, reached by the job or not.
    fn random_state(&mut self, turn: Turn) -> State {
        let block = self.choice.below(self.blocks as usize) as u64;
        let pages = self.work.job.pages_of_block();
        let page = self.choice.below(pages as usize) as u64;
        let stage = match turn {
            Turn::Over => self.random_end(block, page),
            Turn::Due | Turn::Awaited => self.choice.pick(&[
                Stage::Rate,
                Stage::Rate,
                Stage::Reset,
                Stage::Signature,
                Stage::Signature,
                Stage::Blank { block },
                Stage::Erase { block },
                Stage::Program { block },
                Stage::ProgramPage { block, page },
                Stage::ProgramPage { block, page },
                Stage::ProgramPage {
                    block,
                    page: pages - 1,
                },
                Stage::Verify { block },
                Stage::VerifyPage { block, page },
                Stage::VerifyPage { block, page },
            ]),
        };
        let most = self.bound() - u64::from(turn == Turn::Due);
        let any = self.choice.below(most as usize + 1) as u64;
        let allowed = self.work.job.retries;
        let used = self.choice.below(allowed as usize + 1) as u64;
        State {
            stage,
            awaited: match turn {
                Turn::Due => false,
                Turn::Awaited => true,
                Turn::Over => self.choice.chance(30),
            },
            retries: self.choice.pick(&[0, used, used, allowed]),
            frames: self.choice.pick(&[0, any, any, most]),
        }
    }

    /// Finished or failed; what a failure names need not fit together.
    fn random_end(&mut self, block: u64, page: u64) -> Stage {
        let choice = &mut self.choice;
        if choice.chance(30) {
            return Stage::Finished;
        }
        let any = choice.byte();
        let place = choice.word() as u16;
        Stage::Failed(Failure {
            cause: choice.pick(&[
                Cause::Status,
                Cause::Mismatch,
                Cause::Unreadable,
                Cause::Timeout,
            ]),
            command: choice.pick(&[0x9A, 0x00, 0xC0, 0x32, 0x22, 0x40, 0x13, any]),
            page: choice.pick(&[None, Some(page)]),
            status: choice.pick(&[0x00, 0x06, 0x07, 0x15, 0x1C, any]),
            block: choice.pick(&[None, Some(block)]),
            fault: choice.pick(&[
                None,
                Some(Fault::Footer(place)),
                Some(Fault::Sum(place)),
                Some(Fault::Len),
                Some(Fault::First),
            ]),
        })
    }

    /// Gives cause for refusal 9 in one of its ways; whose turn it is stays.
    fn spoil_state(&mut self, state: &mut State, asks: bool) {
        let bound = self.bound();
        let blocks = self.blocks;
        let pages = self.work.job.pages_of_block();
        let allowed = self.work.job.retries;
        let choice = &mut self.choice;
        let block = choice.pick(&[blocks, blocks + 1, 256, u64::from(u32::MAX)]);
        let page = choice.pick(&[pages, pages + 1, 256, u64::from(u32::MAX)]);
        let inside = choice.below(blocks as usize) as u64;
        let is_over = turn_of(state) == Turn::Over;
        let past_bound_next = asks && turn_of(state) == Turn::Due;
        match choice.below(5) {
            0 => {
                let page = choice.below(pages as usize) as u64;
                state.stage = if is_over {
                    failed_at(choice.pick(&[None, Some(page)]), Some(block))
                } else {
                    choice.pick(&[
                        Stage::Blank { block },
                        Stage::Erase { block },
                        Stage::Program { block },
                        Stage::ProgramPage { block, page },
                        Stage::Verify { block },
                        Stage::VerifyPage { block, page },
                    ])
                };
            }
            1 => {
                state.stage = if is_over {
                    failed_at(Some(page), choice.pick(&[None, Some(inside)]))
                } else {
                    choice.pick(&[
                        Stage::ProgramPage {
                            block: inside,
                            page,
                        },
                        Stage::VerifyPage {
                            block: inside,
                            page,
                        },
                    ])
                };
            }
            2 => state.retries = allowed + choice.pick(&[1, 2, 256, 1 << 24]),
            // No state over the bound, but the frame asked for would be.
            3 if past_bound_next => state.frames = bound,
            _ => state.frames = bound + choice.pick(&[1, 2, 256, 1 << 24]),
        }
    }

    /// The history's job with these faults.
    fn spoiled_work(&mut self, faults: &[u8]) -> Rc<Work> {
        if faults.is_empty() {
            return self.work.clone();
        }
        let mut work = Work::clone(&self.work);
        for fault in faults {
            match fault {
                1 => spoil_numbers(&mut self.choice, &mut work.job),
                5 => spoil_range(&mut self.choice, &mut work.job),
                6 => spoil_image(&mut self.choice, &mut work),
                _ => {
                    let over = self.choice.pick(&[0, 1, 15, 239, 240, 1 << 24]);
                    work.job.retries = MOST_RETRIES + 1 + over;
                }
            }
        }
        Rc::new(work)
    }
}

fn refused(outcome: &Outcome) -> Ending {
    match outcome.reply {
        Reply::Refused(number) => Ending::Refused(number),
        _ => Ending::Endless,
    }
}

fn turn_of(state: &State) -> Turn {
    match state.stage {
        Stage::Finished | Stage::Failed(_) => Turn::Over,
        _ if state.awaited => Turn::Awaited,
        _ => Turn::Due,
    }
}

fn failed_at(page: Option<u64>, block: Option<u64>) -> Stage {
    Stage::Failed(Failure {
        cause: Cause::Status,
        command: 0x40,
        page,
        status: 0x1C,
        block,
        fault: None,
    })
}

// Jobs

fn random_work(choice: &mut Generator) -> Work {
    let part = random_part(choice);
    let in_data = part.data_blocks > 0 && choice.chance(40);
    let area = if in_data { Area::Data } else { Area::Code };
    let (blocks, size) = (part.blocks(area), part.block_size(area));
    let count = match choice.below(50) {
        0 => blocks,
        1..=5 => choice.between(3, 8).min(blocks),
        6..=25 => 2.min(blocks),
        _ => 1,
    };
    let first = choice.between(0, blocks - count);
    let first = choice.pick(&[0, first, first, blocks - count]);
    let start = part.start(area) + first * size;
    let any_supply = choice.between(18, 55) as u64;
    let any_retries = choice.between(0, 15) as u64;
    let job = Job {
        part,
        start: start as u64,
        end: (start + count * size - 1) as u64,
        rate: choice.below(4) as u64,
        supply: choice.pick(&[18, 26, 27, 55, any_supply, any_supply]),
        retries: choice.pick(&[0, 1, 1, 2, 3, 15, any_retries]),
    };
    let image = random_image(choice, &job, count);
    Work { job, image }
}

fn random_part(choice: &mut Generator) -> Part {
    let any_code = choice.between(8, 64) as u32;
    let any_data = choice.between(0, 8) as u32;
    let any_clock = choice.between(1, 32) as u32;
    Part {
        code_blocks: choice.pick(&[8, 16, 64, any_code, any_code]),
        data_blocks: choice.pick(&[0, 4, 8, any_data, any_data]),
        clock: choice.pick(&[1, 32, any_clock, any_clock]),
        device: [0; 3].map(|_| choice.byte()),
        name: [0; 10].map(|_| choice.byte()),
        version: [0; 3].map(|_| choice.byte()),
    }
}

fn random_image(choice: &mut Generator, job: &Job, blocks: usize) -> Vec<u8> {
    let mut image = Vec::new();
    let size = job.part.page_size();
    for _ in 0..blocks as u64 * job.pages_of_block() {
        match choice.below(10) {
            0 => image.extend(vec![ERASED; size]),
            1 => image.extend(vec![choice.byte(); size]),
            _ => image.extend((0..size).map(|_| choice.byte())),
        }
    }
    image
}

/// Refusal 1: part, rate or supply outside.
fn spoil_numbers(choice: &mut Generator, job: &mut Job) {
    match choice.below(5) {
        0 => job.part.code_blocks = choice.pick(&[0, 7, 65, 256 + 16, u32::MAX]),
        1 => job.part.data_blocks = choice.pick(&[9, 255, 256, 256 + 4, u32::MAX]),
        2 => job.part.clock = choice.pick(&[0, 33, 255, 256 + 32, u32::MAX]),
        3 => job.rate = choice.pick(&[4, 5, 255, 256, 1 << 24]),
        _ => job.supply = choice.pick(&[0, 17, 56, 255, 256 + 33]),
    }
}

/// Refusal 5: each way in which a range is bad.
fn spoil_range(choice: &mut Generator, job: &mut Job) {
    let part = &job.part;
    let block = part.block_size(Area::Code) as u64;
    let data_block = part.block_size(Area::Data) as u64;
    let data_flash = part.start(Area::Data) as u64;
    // A part that is spoiled already may have any number of blocks; the addresses stay within 32 bits.
    let past_code = u64::from(job.part.code_blocks.min(64)) * block;
    let past_data = data_flash + u64::from(job.part.data_blocks.min(8)) * data_block;
    let (start, end) = (job.start, job.end);
    (job.start, job.end) = match choice.below(10) {
        0 => (end, start),
        1 => (end + 1, end),
        2 => (start + 1, end),
        3 => (start, end - 1),
        4 => (start, end + part.page_size() as u64),
        5 => (start, end.max(past_code) / block * block + 64 * block - 1),
        6 => (past_code, past_code + block - 1),
        7 => (past_data, past_data + data_block - 1),
        8 => (0, data_flash + data_block - 1),
        _ => (start + (1 << 24), end + (1 << 24)),
    };
}

/// Refusal 6: another length.
fn spoil_image(choice: &mut Generator, work: &mut Work) {
    let Work { job, image } = work;
    let (page, block) = (job.part.page_size(), job.block_size());
    let length = image.len();
    let other = choice.pick(&[
        0,
        1,
        length - 1,
        length + 1,
        length - page,
        length + page,
        length.saturating_sub(block),
        length + block,
    ]);
    image.resize(other, 0x00);
}
