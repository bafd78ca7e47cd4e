//! A job interrupted at every place, and what is left each time.

use twin::chip::{UNEQUAL, VERIFY};

use crate::ends::{go_on, heard, Cause, Ends, Named, Stand};
use crate::job::*;

/// A moment of the undamaged job at which bytes go to the chip: the mode byte, or a frame that has been handed out and whose gap is past.
struct Moment<E> {
    before: E,
    sent: Vec<u8>,
    said: Vec<u8>,
    /// Frames asked for by then.
    asked: usize,
    /// The block of the job that it is about; none in setup.
    reached: Option<usize>,
}

struct Trial<'a, E> {
    job: &'a Job,
    old: Flash,
    options: [u8; OPTIONS],
    moments: Vec<Moment<E>>,
}

impl<'a, E: Ends<'a>> Trial<'a, E> {
    /// The job on an undamaged line. Which block a frame is about is counted here, not asked of the dock.
    fn new(job: &'a Job, old: Flash) -> Result<Self, String> {
        let mut ends = E::with(job, &old);
        ends.start();
        let mut moments = vec![Moment {
            before: ends.clone(),
            sent: vec![MODE_BYTE],
            said: Vec::new(),
            asked: 0,
            reached: None,
        }];
        let options = ends.options();
        ends.hear(&[MODE_BYTE], &mut Vec::new());
        for asked in 1..=job.frames() {
            let sent = ends.ask();
            ends.gap();
            let before = ends.clone();
            let mut said = Vec::new();
            ends.hear(&sent, &mut said);
            match (heard(&mut ends, &said), asked == job.frames()) {
                (Stand::GoesOn, false) | (Stand::Finished { .. }, true) => {}
                _ => {
                    return Err(format!(
                        "the undamaged job, which has {} frames, goes another way at frame {asked}",
                        job.frames()
                    ))
                }
            }
            moments.push(Moment {
                before,
                sent,
                said,
                asked,
                reached: (asked - 1)
                    .checked_sub(SETUP_FRAMES)
                    .map(|after| after / job.block_frames()),
            });
        }
        if ends.flash().range(job) != job.image {
            return Err(
                "the undamaged job ends, and the range does not hold the image".to_string(),
            );
        }
        Ok(Trial {
            job,
            old,
            options,
            moments,
        })
    }

    /// The cable is pulled after so many bytes, and the chip gets power-on.
    fn pull(&self, moment: &Moment<E>, bytes: usize, tally: &mut Tally) {
        let mut ends = moment.before.clone();
        ends.hear(&moment.sent[..bytes], &mut Vec::new());
        ends.power_on();
        tally.tried += 1;
        self.judge_left(&ends, moment.reached, tally);
        self.again(ends, tally);
    }

    /// Other bytes than those sent reach the chip, and the dock goes on by itself.
    fn send(&self, moment: &Moment<E>, bytes: &[u8], tally: &mut Tally) {
        let mut ends = moment.before.clone();
        let mut said = Vec::new();
        ends.hear(bytes, &mut said);
        // The mode byte is no frame, and nobody awaits an answer to it.
        let stand = match moment.asked {
            0 => Stand::GoesOn,
            _ => heard(&mut ends, &said),
        };
        self.end(ends, moment, stand, tally);
    }

    /// Another answer than the one given reaches the dock, and the dock goes on by itself.
    fn mishear(&self, moment: &Moment<E>, said: &[u8], tally: &mut Tally) {
        let mut ends = moment.before.clone();
        ends.hear(&moment.sent, &mut Vec::new());
        let stand = heard(&mut ends, said);
        self.end(ends, moment, stand, tally);
    }

    fn end(&self, mut ends: E, moment: &Moment<E>, stand: Stand, tally: &mut Tally) {
        let mut asked = moment.asked;
        let stand = match stand {
            Stand::GoesOn => go_on(&mut ends, self.job, &mut asked),
            over => over,
        };
        tally.tried += 1;
        match stand {
            Stand::Finished { frames, retries } => {
                match retries {
                    0 => tally.finished += 1,
                    _ => tally.finished_retried += 1,
                }
                self.judge_counts(asked, frames, retries, tally);
                self.judge_around(&ends, tally);
                tally.finished_wrong += u64::from(ends.flash().range(self.job) != self.job.image);
            }
            Stand::Failed {
                named,
                frames,
                retries,
            } => {
                tally.failed[named.cause as usize] += 1;
                if let Some(fault) = named.fault {
                    tally.faults[fault as usize] += 1;
                }
                self.judge_counts(asked, frames, retries, tally);
                tally.named_wrong += u64::from(named.block != moment.reached);
                let unreadable = named.cause == Cause::Unreadable;
                tally.fault_wrong += u64::from(named.fault.is_some() != unreadable);
                tally.told_wrong += u64::from(named.cause == Cause::Status && !self.late(named));
                self.judge_left(&ends, moment.reached, tally);
                self.again(ends, tally);
            }
            Stand::GoesOn | Stand::Endless => tally.counts_wrong += 1,
        }
    }

    /// A difference that 13h met: told with the last page of its block (02 §2).
    fn late(&self, named: Named) -> bool {
        let last = self.job.block_size() / part().page_size() - 1;
        (named.command, named.page, named.status) == (VERIFY, Some(last), UNEQUAL)
    }

    /// Frames are counted here too; retries are as the dock told them.
    fn judge_counts(&self, asked: usize, frames: usize, retries: usize, tally: &mut Tally) {
        let wrong = frames != asked || frames > self.job.bound() || retries > RETRIES as usize;
        tally.counts_wrong += u64::from(wrong);
        tally.most_frames = tally.most_frames.max(frames);
        tally.most_retries = tally.most_retries.max(retries);
    }

    fn judge_around(&self, ends: &E, tally: &mut Tally) {
        tally.outside += ends.flash().changed_outside(&self.old, self.job);
        tally.options += u64::from(ends.options() != self.options);
        tally.sums_wrong += u64::from(*ends.sums() != ends.flash().sums());
    }

    /// What a job that did not finish left: the image in the blocks before the one reached, the old bytes in those after it, and that one in between.
    fn judge_left(&self, ends: &E, reached: Option<usize>, tally: &mut Tally) {
        self.judge_around(ends, tally);
        let size = self.job.block_size();
        let blocks = ends.flash().range(self.job).chunks(size);
        let (image, old) = (
            self.job.image.chunks(size),
            self.old.range(self.job).chunks(size),
        );
        for (block, (found, (new, old))) in blocks.zip(image.zip(old)).enumerate() {
            match reached {
                Some(reached) if block < reached => tally.before += u64::from(found != new),
                Some(reached) if block == reached => {
                    tally.reached[Left::of(found, new, old) as usize] += 1;
                }
                _ => tally.after += u64::from(found != old),
            }
        }
    }

    /// The whole job again.
    fn again(&self, mut ends: E, tally: &mut Tally) {
        let finished = from_power_on(&mut ends, self.job);
        let all_else = ends.flash().changed_outside(&self.old, self.job) == 0
            && ends.options() == self.options;
        tally.again += 1;
        tally.again_right += u64::from(finished && all_else);
        tally.sums_wrong += u64::from(*ends.sums() != ends.flash().sums());
    }
}

/// The whole job from power-on and the mode byte, with a new dock: whether it finishes without a retry, and the range holds the image.
fn from_power_on<'a>(ends: &mut impl Ends<'a>, job: &Job) -> bool {
    ends.power_on();
    ends.start();
    ends.hear(&[MODE_BYTE], &mut Vec::new());
    let stand = go_on(ends, job, &mut 0);
    matches!(stand, Stand::Finished { retries: 0, .. }) && ends.flash().range(job) == job.image
}

/// What the block that the job had reached holds.
#[derive(Clone, Copy)]
pub enum Left {
    Old,
    Erased,
    SomePages,
    AllPages,
    /// All new pages but for two bytes.
    TwoWrong,
    Other,
}

impl Left {
    fn of(found: &[u8], new: &[u8], old: &[u8]) -> Left {
        let blank = |bytes: &[u8]| bytes.iter().all(|byte| *byte == ERASED);
        let page = part().page_size();
        let begins = |pages: usize| {
            let (written, behind) = found.split_at(pages * page);
            *written == new[..written.len()] && blank(behind)
        };
        match () {
            _ if found == old => Left::Old,
            _ if found == new => Left::AllPages,
            _ if blank(found) => Left::Erased,
            _ if (1..found.len() / page).any(begins) => Left::SomePages,
            _ if unequal(found, new) == 2 => Left::TwoWrong,
            _ => Left::Other,
        }
    }
}

/// What came of one kind of interruption, over all places.
#[derive(Default)]
pub struct Tally {
    pub tried: u64,
    pub finished: u64,
    pub finished_retried: u64,
    /// By cause.
    pub failed: [u64; 4],
    /// Those that were unreadable, by fault.
    pub faults: [u64; 4],
    /// By what is left.
    pub reached: [u64; 6],
    outside: u64,
    options: u64,
    before: u64,
    after: u64,
    finished_wrong: u64,
    named_wrong: u64,
    told_wrong: u64,
    fault_wrong: u64,
    counts_wrong: u64,
    /// Runs that left a kept sum other than the one worked out afresh (02 §1), and runs of the whole job again that did. It must be 0 and has no row.
    pub sums_wrong: u64,
    pub again: u64,
    pub again_right: u64,
    pub most_frames: usize,
    pub most_retries: usize,
}

pub const MUST_BE_0: [&str; 10] = [
    "bytes of flash changed outside the job's range",
    "options changed",
    "blocks before the one reached that do not hold the image",
    "blocks after the one reached that do not hold their old bytes",
    "anything else in the block reached",
    "finished, and the range does not hold the image",
    "failed, and another block is named than the one reached",
    "failed by a status, and it is another than 0Fh on the last page of 13h",
    "unreadable and no fault named, or a fault named beside another cause",
    "frames or retries past what is allowed, or frames miscounted",
];

impl Tally {
    pub fn must_be_0(&self) -> [u64; MUST_BE_0.len()] {
        [
            self.outside,
            self.options,
            self.before,
            self.after,
            self.reached[Left::Other as usize],
            self.finished_wrong,
            self.named_wrong,
            self.told_wrong,
            self.fault_wrong,
            self.counts_wrong,
        ]
    }

    pub fn is_right(&self) -> bool {
        self.tried > 0 && self.must_be_0() == [0; MUST_BE_0.len()] && self.again == self.again_right
    }
}

/// Values for a byte that is added: headers, footers, and the first and the last of all.
const ADDED: [u8; 6] = [0x00, 0x01, 0x02, 0x03, 0x17, 0xFF];

/// The bytes with one of them changed, by each difference for its place.
fn each_change(bytes: &[u8], differences: impl Fn(usize) -> Vec<u8>, mut with: impl FnMut(&[u8])) {
    let mut changed = bytes.to_vec();
    for place in 0..bytes.len() {
        for difference in differences(place) {
            changed[place] = bytes[place] ^ difference;
            with(&changed);
        }
        changed[place] = bytes[place];
    }
}

/// Three differences; for header, LEN, COM, SUM, footer and the mode byte all of them.
fn differences(sent: &[u8], place: usize) -> Vec<u8> {
    let is_command = sent[0] == 0x01;
    match place < 2 || place == 2 && is_command || place + 2 >= sent.len() {
        true => (0x01..=0xFF).collect(),
        false => few_differences(place),
    }
}

fn few_differences(_: usize) -> Vec<u8> {
    vec![0x01, 0x80, 0xFF]
}

fn each_loss(bytes: &[u8], mut with: impl FnMut(&[u8])) {
    for place in 0..bytes.len() {
        with(&[&bytes[..place], &bytes[place + 1..]].concat());
    }
}

fn each_addition(bytes: &[u8], mut with: impl FnMut(&[u8])) {
    for place in 0..=bytes.len() {
        for added in ADDED {
            with(&[&bytes[..place], &[added], &bytes[place..]].concat());
        }
    }
}

/// A page with two neighbours changed, one up and one down, so that its SUM still fits.
fn each_pair(page: &[u8], mut with: impl FnMut(&[u8])) {
    for place in 2..page.len() - 3 {
        let mut changed = page.to_vec();
        changed[place] = page[place].wrapping_add(1);
        changed[place + 1] = page[place + 1].wrapping_sub(1);
        with(&changed);
    }
}

pub const KINDS: [&str; 6] = [
    "cable pulled",
    "byte changed",
    "byte lost",
    "byte added",
    "reply damaged",
    "two bytes of a page, SUM fits",
];

/// Every kind of interruption at every place of the job.
pub fn interrupt<'a, E: Ends<'a>>(
    job: &'a Job,
    old: Flash,
) -> Result<[Tally; KINDS.len()], String> {
    let trial = Trial::<E>::new(job, old)?;
    let [mut pulled, mut changed, mut lost, mut added, mut reply, mut pairs] =
        <[Tally; KINDS.len()]>::default();
    for moment in &trial.moments {
        let sent = &moment.sent[..];
        (0..=sent.len()).for_each(|bytes| trial.pull(moment, bytes, &mut pulled));
        each_change(
            sent,
            |place| differences(sent, place),
            |bytes| trial.send(moment, bytes, &mut changed),
        );
        each_loss(sent, |bytes| trial.send(moment, bytes, &mut lost));
        each_addition(sent, |bytes| trial.send(moment, bytes, &mut added));
        if sent[0] == 0x02 {
            each_pair(sent, |bytes| trial.send(moment, bytes, &mut pairs));
        }
        if !moment.said.is_empty() {
            let mut mishear = |said: &[u8]| trial.mishear(moment, said, &mut reply);
            each_change(&moment.said, few_differences, &mut mishear);
            each_loss(&moment.said, &mut mishear);
            each_addition(&moment.said, &mut mishear);
        }
    }
    // A page with two wrong bytes may lie in flash only where two were changed.
    for tally in [&mut pulled, &mut changed, &mut lost, &mut added, &mut reply] {
        tally.reached[Left::Other as usize] +=
            std::mem::take(&mut tally.reached[Left::TwoWrong as usize]);
    }
    Ok([pulled, changed, lost, added, reply, pairs])
}

/// A whole right command for an image to hold: the erase of code block 2.
pub const PLANTED: [u8; 8] = [0x01, 0x04, 0x22, 0x00, 0x08, 0x00, 0xD2, 0x03];
const PLANTED_BLOCK: usize = 2;
/// 128 bytes into the second page of a block that holds no other 01h or 02h.
pub fn planted_at() -> usize {
    part().page_size() + 128
}

/// By hand: a page whose LEN was changed to n is bad and over after n + 4 bytes, and the rest of it is heard as commands. The planted one begins 130 bytes into
/// the frame, so it is heard whole for n from 1 to 126. Where LEN is lost, the first byte of the page, 55h, stands for it, and it is heard whole too. This in the
/// page of 40h and in that of 13h. The dock then hears two replies to one page, which is unreadable.
pub const PLANTED_HEARD: u64 = 2 * (126 + 1);

/// How often a LEN byte was changed or lost in a job whose image holds the planted command, and how often that erased its block. The job fails then, and run
/// again it finishes, but that block stays erased.
pub fn planted<'a, E: Ends<'a>>(job: &'a Job, old: Flash) -> Result<(u64, u64), String> {
    let trial = Trial::<E>::new(job, old)?;
    let mut erased = trial.old.clone();
    let size = part().block_size(Area::Code);
    erased.code[PLANTED_BLOCK * size..][..size].fill(ERASED);
    let (mut tried, mut heard_whole) = (0, 0);
    for moment in &trial.moments[1..] {
        let (header, len, rest) = (&moment.sent[..1], moment.sent[1], &moment.sent[2..]);
        let changed = (0x01..=0xFF).map(|difference| [header, &[len ^ difference], rest].concat());
        for sent in changed.chain([[header, rest].concat()]) {
            let mut ends = moment.before.clone();
            let mut said = Vec::new();
            ends.hear(&sent, &mut said);
            tried += 1;
            if ends.flash().changed_outside(&trial.old, job) == 0 {
                continue;
            }
            heard_whole += 1;
            let stand = heard(&mut ends, &said);
            let finished = from_power_on(&mut ends, job);
            if !stand.failed_by(Cause::Unreadable)
                || !finished
                || *ends.sums() != ends.flash().sums()
                || ends.flash().changed_outside(&erased, job) > 0
            {
                return Err("the planted command did something else than erase its block and fail the job, which run again finishes".to_string());
            }
        }
    }
    Ok((tried, heard_whole))
}
