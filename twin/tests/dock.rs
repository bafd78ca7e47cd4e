//! The dock: each sentence of the flow, its refusals, and whole jobs against the twin's own chip (01 "The dock's flow").

mod common;

use common::flow::{fault_of, flow, signature_of, End, Heard};
use common::*;
use twin::chip::{Event, Phase};
use twin::dock::{answer, ask, start, timeout};
use twin::dock::{Cause, Failure, Job, Report, Stage, State};
use twin::frame::Fault;
use twin::part::Part;
use twin::replay::replay_part;

/// Two blocks from 0400h of the part of 01's examples.
fn small_job() -> Job {
    Job {
        part: replay_part(),
        start: 0x400,
        end: 0xBFF,
        rate: 0,
        supply: 33,
        retries: 1,
    }
}

fn image_for(job: &Job) -> Vec<u8> {
    let pages = (job.end - job.start + 1) / 256;
    (0..pages as usize).flat_map(mixed).collect()
}

#[derive(Clone, Debug)]
struct Desk {
    job: Job,
    image: Vec<u8>,
    state: State,
}

impl Desk {
    fn new(job: Job) -> Desk {
        let image = image_for(&job);
        let state = start(&job, &image).unwrap();
        Desk { job, image, state }
    }

    fn at(job: Job, stage: Stage) -> Desk {
        let mut desk = Desk::new(job);
        desk.state.stage = stage;
        desk
    }

    /// At a stage of the small job, its frame handed out.
    fn awaiting(stage: Stage) -> Desk {
        let mut desk = Desk::at(small_job(), stage);
        desk.ask();
        desk
    }

    fn ask(&mut self) -> Vec<u8> {
        let mut room = [FILLER; 300];
        let length = ask(&self.job, &self.image, &mut self.state, &mut room).unwrap();
        assert!(room[length..].iter().all(|byte| *byte == FILLER));
        room[..length].to_vec()
    }

    fn hear(&mut self, heard: &Heard) -> Report {
        match heard {
            Some(bytes) => answer(&self.job, &self.image, &mut self.state, bytes),
            None => timeout(&self.job, &self.image, &mut self.state),
        }
        .unwrap()
    }

    fn hear_statuses(&mut self, statuses: &[u8]) -> Report {
        self.hear(&Some(reply(statuses)))
    }

    /// Asks and hears one status after the other, each to its own frame; the frames handed out.
    fn run(&mut self, answers: &[&[u8]]) -> Vec<Vec<u8>> {
        answers
            .iter()
            .map(|statuses| {
                let sent = self.ask();
                self.hear_statuses(statuses);
                sent
            })
            .collect()
    }

    fn failure(&self) -> Failure {
        match self.state.stage {
            Stage::Failed(failure) => failure,
            other => panic!("{other:?}"),
        }
    }
}

fn reply(data: &[u8]) -> Vec<u8> {
    frame(0x02, data, 0x03)
}

fn replies(parts: &[&[u8]]) -> Vec<u8> {
    parts.iter().flat_map(|data| reply(data)).collect()
}

/// Every stage of the small job that sends a frame.
fn stages() -> Vec<Stage> {
    let mut all = vec![Stage::Rate, Stage::Reset, Stage::Signature];
    for block in 0..2 {
        all.extend([
            Stage::Blank { block },
            Stage::Erase { block },
            Stage::Program { block },
            Stage::Verify { block },
        ]);
        for page in 0..4 {
            all.push(Stage::ProgramPage { block, page });
            all.push(Stage::VerifyPage { block, page });
        }
    }
    all
}

fn place(stage: Stage) -> (u8, Option<u64>, Option<u64>) {
    match stage {
        Stage::Rate => (0x9A, None, None),
        Stage::Reset => (0x00, None, None),
        Stage::Signature => (0xC0, None, None),
        Stage::Blank { block } => (0x32, None, Some(block)),
        Stage::Erase { block } => (0x22, None, Some(block)),
        Stage::Program { block } => (0x40, None, Some(block)),
        Stage::ProgramPage { block, page } => (0x40, Some(page), Some(block)),
        Stage::Verify { block } => (0x13, None, Some(block)),
        Stage::VerifyPage { block, page } => (0x13, Some(page), Some(block)),
        Stage::Finished | Stage::Failed(_) => panic!("no frame"),
    }
}

fn named(stage: Stage, cause: Cause, status: u8) -> Failure {
    let (command, page, block) = place(stage);
    Failure {
        cause,
        command,
        page,
        status,
        block,
        fault: None,
    }
}

fn unreadable(stage: Stage, fault: Fault) -> Failure {
    Failure {
        fault: Some(fault),
        ..named(stage, Cause::Unreadable, 0x00)
    }
}

fn restarted(stage: Stage) -> Stage {
    match place(stage).2 {
        Some(block) => Stage::Blank { block },
        None => stage,
    }
}

/// The answer a chip with nothing to object gives at this stage of the job.
fn right_answer(job: &Job, stage: Stage) -> Vec<u8> {
    match place(stage) {
        (0x9A, ..) => reply(&[0x06, job.part.clock as u8, u8::from(job.supply < 27)]),
        (0xC0, ..) => replies(&[&[0x06], &signature_of(job)]),
        (0x40, Some(3), _) => replies(&[&[0x06, 0x06], &[0x06]]),
        (_, Some(_), _) => reply(&[0x06, 0x06]),
        _ => reply(&[0x06]),
    }
}

/// Plays a job to its end over answers made at each stage; frames handed out and what was heard.
fn play(desk: &mut Desk, mut heard_at: impl FnMut(&Desk) -> Heard) -> (Vec<Vec<u8>>, Vec<Heard>) {
    let mut frames = Vec::new();
    let mut history = Vec::new();
    loop {
        frames.push(desk.ask());
        let heard = heard_at(desk);
        history.push(heard.clone());
        if desk.hear(&heard) != Report::GoesOn {
            return (frames, history);
        }
    }
}

#[test]
fn the_frames_of_a_job_in_order() {
    let mut desk = Desk::new(small_job());
    // Block 0 is not blank, block 1 is.
    let (frames, _) = play(&mut desk, |desk| match desk.state.stage {
        Stage::Blank { block: 0 } => Some(reply(&[0x1B])),
        stage => Some(right_answer(&desk.job, stage)),
    });
    let image = desk.image.clone();
    let pages = |block: usize| {
        (0..4).map(move |number| {
            let footer = [0x17, 0x17, 0x17, 0x03][number];
            page(&mixed(4 * block + number), footer)
        })
    };
    let mut expected = vec![
        hex("01 03 9A 00 21 42 03"),
        hex("01 01 00 FF 03"),
        hex("01 01 C0 3F 03"),
        hex("01 08 32 00 04 00 FF 07 00 00 BC 03"),
        hex("01 04 22 00 04 00 D6 03"),
        hex("01 07 40 00 04 00 FF 07 00 AF 03"),
    ];
    expected.extend(pages(0));
    expected.push(hex("01 07 13 00 04 00 FF 07 00 DC 03"));
    expected.extend(pages(0));
    expected.push(command("32 00 08 00 FF 0B 00 00"));
    expected.push(command("40 00 08 00 FF 0B 00"));
    expected.extend(pages(1));
    expected.push(command("13 00 08 00 FF 0B 00"));
    expected.extend(pages(1));
    assert_eq!(frames, expected);
    assert_eq!(image, desk.image);
    let done = State {
        stage: Stage::Finished,
        awaited: false,
        retries: 0,
        frames: 26,
    };
    assert_eq!(desk.state, done);
}

#[test]
fn a_job_starts_at_the_rate_with_nothing_used() {
    let state = Desk::new(small_job()).state;
    let first = State {
        stage: Stage::Rate,
        awaited: false,
        retries: 0,
        frames: 0,
    };
    assert_eq!(state, first);
}

#[test]
fn rate_and_supply_are_sent_as_the_job_has_them() {
    for rate in 0..=3 {
        for supply in 18..=55 {
            let mut desk = Desk::new(Job {
                rate,
                supply,
                ..small_job()
            });
            let sent = frame(0x01, &[0x9A, rate as u8, supply as u8], 0x03);
            assert_eq!(desk.ask(), sent);
        }
    }
}

#[test]
fn addresses_in_data_flash() {
    let job = Job {
        start: 0xF1400,
        end: 0xF1FFF,
        ..small_job()
    };
    let block = 2;
    for (stage, sent) in [
        (Stage::Blank { block }, "32 00 1C 0F FF 1F 0F 00"),
        (Stage::Erase { block }, "22 00 1C 0F"),
        (Stage::Program { block }, "40 00 1C 0F FF 1F 0F"),
        (Stage::Verify { block }, "13 00 1C 0F FF 1F 0F"),
    ] {
        assert_eq!(Desk::at(job.clone(), stage).ask(), command(sent));
    }
    let mut last = Desk::at(job, Stage::VerifyPage { block, page: 3 });
    assert_eq!(last.ask(), page(&mixed(11), 0x03));
}

#[test]
fn the_rate_reply_must_hold_clock_and_mode() {
    for supply in 18..=55u64 {
        let mode = if supply < 27 { 0x01 } else { 0x00 };
        for clock in 0..=255 {
            for said in [0x00, 0x01, 0x02, 0xFF] {
                let mut desk = Desk::new(Job {
                    supply,
                    ..small_job()
                });
                desk.ask();
                desk.hear_statuses(&[0x06, clock, said]);
                if (clock, said) == (32, mode) {
                    assert_eq!(desk.state.stage, Stage::Reset);
                } else {
                    assert_eq!(desk.failure(), named(Stage::Rate, Cause::Mismatch, 0x06));
                }
            }
        }
    }
}

#[test]
fn the_signature_must_match_in_every_byte() {
    for (code_blocks, data_blocks) in [(8, 0), (16, 4), (64, 8), (9, 1)] {
        let job = Job {
            part: part_of(code_blocks, data_blocks, 20),
            ..small_job()
        };
        let right = signature_of(&job);
        let mut desk = Desk::at(job.clone(), Stage::Signature);
        desk.ask();
        desk.hear(&Some(replies(&[&[0x06], &right])));
        assert_eq!(desk.state.stage, Stage::Blank { block: 0 });
        for at in 0..22 {
            let mut other = right.clone();
            other[at] ^= 0x40;
            let mut desk = Desk::at(job.clone(), Stage::Signature);
            desk.ask();
            desk.hear(&Some(replies(&[&[0x06], &other])));
            let failure = named(Stage::Signature, Cause::Mismatch, 0x06);
            assert_eq!(desk.failure(), failure);
            assert_eq!(desk.state.retries, 0);
        }
    }
    // 000 prints 001FFFh in one table; 01 decides for 0F1FFFh.
    let mut misprinted = signature_of(&small_job());
    assert_eq!(misprinted[16..19], [0xFF, 0x1F, 0x0F]);
    misprinted[18] = 0x00;
    let mut desk = Desk::awaiting(Stage::Signature);
    desk.hear(&Some(replies(&[&[0x06], &misprinted])));
    assert_eq!(desk.failure().cause, Cause::Mismatch);
}

/// Every status at every place: 06h goes on, 1Bh only leads 32h to 22h, 07h and 15h restart, all others fail.
#[test]
fn one_status_of_every_value() {
    let commands = stages()
        .into_iter()
        .filter(|stage| place(*stage).1.is_none());
    for stage in commands {
        for status in 0..=255u8 {
            let mut desk = Desk::awaiting(stage);
            let report = desk.hear_statuses(&[status]);
            let expected = match (status, stage) {
                // 9Ah's 06h brings three bytes in its frame, C0h's a second frame.
                (0x06, Stage::Rate) => Stage::Failed(unreadable(stage, Fault::Len)),
                (0x06, Stage::Signature) => Stage::Failed(unreadable(stage, Fault::First)),
                (0x06, Stage::Reset) => Stage::Signature,
                (0x06, Stage::Blank { block }) => Stage::Program { block },
                (0x1B, Stage::Blank { block }) => Stage::Erase { block },
                (0x06, Stage::Erase { block }) => Stage::Program { block },
                (0x06, Stage::Program { block }) => Stage::ProgramPage { block, page: 0 },
                (0x06, Stage::Verify { block }) => Stage::VerifyPage { block, page: 0 },
                (0x07 | 0x15, _) => restarted(stage),
                _ => Stage::Failed(named(stage, Cause::Status, status)),
            };
            let retried = u64::from(matches!(status, 0x07 | 0x15));
            let state = State {
                stage: expected,
                awaited: false,
                retries: retried,
                frames: 1,
            };
            assert_eq!(desk.state, state, "{stage:?} {status:02X}");
            assert_eq!(report, told(&state));
        }
    }
}

fn told(state: &State) -> Report {
    let (frames, retries) = (state.frames, state.retries);
    match state.stage {
        Stage::Finished => Report::Finished { frames, retries },
        Stage::Failed(failure) => Report::Failed {
            failure,
            frames,
            retries,
        },
        _ => Report::GoesOn,
    }
}

fn after_page(stage: Stage) -> Stage {
    match stage {
        Stage::ProgramPage { block, page: 3 } => Stage::Verify { block },
        Stage::ProgramPage { block, page } => Stage::ProgramPage {
            block,
            page: page + 1,
        },
        Stage::VerifyPage { block: 0, page: 3 } => Stage::Blank { block: 1 },
        Stage::VerifyPage { page: 3, .. } => Stage::Finished,
        Stage::VerifyPage { block, page } => Stage::VerifyPage {
            block,
            page: page + 1,
        },
        other => panic!("{other:?}"),
    }
}

fn after_statuses(stage: Stage, statuses: &[u8]) -> Stage {
    match statuses.iter().find(|status| **status != 0x06) {
        None => after_page(stage),
        Some(0x07 | 0x15) => restarted(stage),
        Some(status) => Stage::Failed(named(stage, Cause::Status, *status)),
    }
}

/// "The first unexpected status in an answer decides and is the one named."
#[test]
fn two_statuses_of_every_value() {
    let pages = stages()
        .into_iter()
        .filter(|stage| place(*stage).1.is_some());
    for stage in pages {
        let asked = Desk::awaiting(stage);
        let last_of_program = matches!(stage, Stage::ProgramPage { page: 3, .. });
        for first in 0..=255u8 {
            for second in 0..=255u8 {
                let mut state = asked.state;
                let heard = reply(&[first, second]);
                answer(&asked.job, &asked.image, &mut state, &heard).unwrap();
                let expected = if last_of_program && (first, second) == (0x06, 0x06) {
                    Stage::Failed(unreadable(stage, Fault::First))
                } else {
                    after_statuses(stage, &[first, second])
                };
                assert_eq!(state.stage, expected, "{stage:?} {first:02X} {second:02X}");
            }
        }
    }
}

#[test]
fn the_third_status_after_the_last_page() {
    for block in 0..2 {
        let stage = Stage::ProgramPage { block, page: 3 };
        for third in 0..=255u8 {
            let mut desk = Desk::awaiting(stage);
            desk.hear(&Some(replies(&[&[0x06, 0x06], &[third]])));
            let expected = after_statuses(stage, &[0x06, 0x06, third]);
            assert_eq!(desk.state.stage, expected);
        }
    }
}

#[test]
fn a_pair_names_its_first_fault() {
    let stage = Stage::ProgramPage { block: 1, page: 2 };
    for (statuses, expected) in [
        ([0x06, 0x07], Stage::Blank { block: 1 }),
        ([0x07, 0x1C], Stage::Blank { block: 1 }),
        ([0x15, 0x15], Stage::Blank { block: 1 }),
        (
            [0x1C, 0x07],
            Stage::Failed(named(stage, Cause::Status, 0x1C)),
        ),
        (
            [0x06, 0x1C],
            Stage::Failed(named(stage, Cause::Status, 0x1C)),
        ),
        (
            [0x1B, 0x06],
            Stage::Failed(named(stage, Cause::Status, 0x1B)),
        ),
    ] {
        let mut desk = Desk::awaiting(stage);
        desk.hear_statuses(&statuses);
        assert_eq!(desk.state.stage, expected, "{statuses:02X?}");
    }
}

/// How many bytes the frames of the answer hold: 01 says it by the statuses.
fn lengths(stage: Stage, heard: &[u8]) -> &'static [usize] {
    let acknowledged = heard.get(2) == Some(&0x06);
    match stage {
        Stage::Rate if acknowledged => &[3],
        Stage::Signature if acknowledged => &[1, 22],
        Stage::ProgramPage { page: 3, .. } if acknowledged && heard.get(3) == Some(&0x06) => {
            &[2, 1]
        }
        Stage::ProgramPage { .. } | Stage::VerifyPage { .. } => &[2],
        _ => &[1],
    }
}

/// "exactly these frames, each with 02h, fitting LEN, right SUM and 03h"
#[test]
fn answers_of_another_shape_are_unreadable() {
    for stage in stages() {
        let right = right_answer(&small_job(), stage);
        let mut bad = vec![Vec::new(), vec![0x06], vec![0x02], vec![0x02, 0x00]];
        // One byte changed: whatever it turns into, SUM, LEN, header or footer no longer fit.
        for at in 0..right.len() {
            for flip in [0x01, 0x14, 0x80, 0xFF] {
                let mut other = right.clone();
                other[at] ^= flip;
                bad.push(other);
            }
            bad.push(right[..at].to_vec());
        }
        for more in [&[0x00][..], &[0x02], &reply(&[0x06]), &right] {
            bad.push([&right, more].concat());
            bad.push([more, &right].concat());
        }
        // Right SUM, but the other footer, or the header of a command.
        let body = &right[2..2 + usize::from(right[1])];
        let rest = &right[4 + body.len()..];
        bad.push([&frame(0x02, body, 0x17), rest].concat());
        bad.push([&frame(0x01, body, 0x03), rest].concat());
        // Right in every way but the count of bytes.
        for length in [1, 2, 3, 4, 22, 23, 255, 256] {
            if length != body.len() {
                bad.push([&reply(&vec![0x06; length]), rest].concat());
                bad.push(reply(&vec![0x06; length]));
            }
        }
        bad.push(reply(&[0x07, 0x20, 0x00]));
        bad.push(replies(&[&[0x05], &[0x05]]));
        bad.push(replies(&[&[0x05], &signature_of(&small_job())]));
        bad.push(replies(&[&[0x06, 0x07], &[0x06]]));
        bad.push(replies(&[&[0x06, 0x06], &[0x06, 0x06]]));
        bad.push(replies(&[&[0x06, 0x06], &[0x06], &[0x06]]));
        // The second frame, where there is one, has its own count of bytes.
        for length in [1, 2, 21, 23, 256] {
            if length + 4 != rest.len() {
                bad.push([&reply(body), &reply(&vec![0x06; length])[..]].concat());
            }
        }
        for heard in bad {
            let mut desk = Desk::awaiting(stage);
            desk.hear(&Some(heard.clone()));
            let fault = fault_of(&heard, lengths(stage, &heard));
            let expected = State {
                stage: Stage::Failed(unreadable(stage, fault)),
                awaited: false,
                retries: 0,
                frames: 1,
            };
            assert_eq!(desk.state, expected, "{stage:?} {heard:02X?}");
        }
    }
}

#[test]
fn shapes_by_status() {
    let job = small_job();
    let signature = signature_of(&job);
    for (stage, heard, readable) in [
        (Stage::Rate, reply(&[0x06]), false),
        (Stage::Rate, reply(&[0x05]), true),
        (Stage::Rate, reply(&[0x05, 0x20, 0x00]), false),
        (Stage::Rate, reply(&[0x06, 0x20]), false),
        (Stage::Rate, reply(&[0x06, 0x20, 0x00]), true),
        (Stage::Signature, reply(&[0x06]), false),
        (Stage::Signature, reply(&[0x04]), true),
        (Stage::Signature, replies(&[&[0x04], &signature]), false),
        (Stage::Signature, replies(&[&[0x06], &signature]), true),
        (
            Stage::Signature,
            replies(&[&[0x06], &signature[..21]]),
            false,
        ),
        (Stage::Signature, reply(&signature), false),
        (Stage::Reset, replies(&[&[0x06], &[0x06]]), false),
    ] {
        let mut desk = Desk::awaiting(stage);
        desk.hear(&Some(heard.clone()));
        let unreadable = matches!(
            desk.state.stage,
            Stage::Failed(failure) if failure.cause == Cause::Unreadable
        );
        assert_eq!(!unreadable, readable, "{stage:?} {heard:02X?}");
    }
    for page in 0..4 {
        for (stage, third) in [
            (Stage::ProgramPage { block: 0, page }, page == 3),
            (Stage::VerifyPage { block: 0, page }, false),
        ] {
            for (heard, with_third) in [
                (reply(&[0x06, 0x06]), false),
                (replies(&[&[0x06, 0x06], &[0x06]]), true),
            ] {
                let mut desk = Desk::awaiting(stage);
                desk.hear(&Some(heard));
                let failed = matches!(desk.state.stage, Stage::Failed(_));
                assert_eq!(failed, third != with_third, "{stage:?}");
            }
        }
    }
}

#[test]
fn a_timeout_fails_at_every_frame_and_spends_no_retry() {
    for stage in stages() {
        let mut desk = Desk::awaiting(stage);
        let report = desk.hear(&None);
        let failure = named(stage, Cause::Timeout, 0x00);
        assert_eq!(
            report,
            Report::Failed {
                failure,
                frames: 1,
                retries: 0
            }
        );
        assert_eq!(desk.failure(), failure);
    }
}

#[test]
fn with_no_retry_left_the_status_fails_the_job() {
    for stage in stages() {
        for status in [0x07, 0x15] {
            for allowed in [0, 1, 15] {
                let mut desk = Desk::awaiting(stage);
                desk.job.retries = allowed;
                desk.state.retries = allowed;
                let statuses = match place(stage).1 {
                    Some(_) => vec![status, status],
                    None => vec![status],
                };
                desk.hear_statuses(&statuses);
                assert_eq!(desk.failure(), named(stage, Cause::Status, status));
                assert_eq!(desk.state.retries, allowed);
            }
        }
    }
}

#[test]
fn a_setup_retry_sends_only_that_command_again() {
    let mut desk = Desk::new(Job {
        retries: 3,
        ..small_job()
    });
    let rate = hex("01 03 9A 00 21 42 03");
    let reset = hex("01 01 00 FF 03");
    let sent = desk.run(&[
        &[0x07],
        &[0x15],
        &[0x06, 0x20, 0x00],
        &[0x07],
        &[0x06],
        &[0x07],
    ]);
    let signature = hex("01 01 C0 3F 03");
    assert_eq!(
        sent,
        [&rate, &rate, &rate, &reset, &reset, &signature].map(Vec::clone)
    );
    let failure = named(Stage::Signature, Cause::Status, 0x07);
    assert_eq!(desk.failure(), failure);
    assert_eq!((desk.state.retries, desk.state.frames), (3, 6));
}

/// The block begins again at 32h, page 0, and the allowance is the job's, not the block's.
#[test]
fn a_block_retry_begins_the_block_again() {
    let mut desk = Desk::at(
        Job {
            retries: 2,
            ..small_job()
        },
        Stage::Blank { block: 0 },
    );
    let ack: &[u8] = &[0x06];
    let both: &[u8] = &[0x06, 0x06];
    let first = desk.run(&[ack, ack, both, &[0x06, 0x07]]);
    let again = desk.run(&[&[0x1B], ack, ack, both, both, both]);
    assert_eq!(first[0], again[0]);
    assert_eq!(again[1], command("22 00 04 00"));
    assert_eq!(first[1..3], again[2..4]);
    desk.ask();
    desk.hear(&Some(replies(&[both, ack])));
    desk.run(&[ack, both, both, both, both]);
    assert_eq!(desk.state.stage, Stage::Blank { block: 1 });
    let second = desk.run(&[ack, &[0x15], ack]);
    assert_eq!(second[0], second[2]);
    assert_eq!(desk.state.retries, 2);
    desk.run(&[&[0x15]]);
    let failure = named(Stage::Program { block: 1 }, Cause::Status, 0x15);
    assert_eq!(desk.failure(), failure);
    assert_eq!(desk.state.frames, 4 + 7 + 5 + 4);
}

/// B = 2, R = 1: 3 + 12(2 + 1) = 39 frames, with either ending.
#[test]
fn the_bound_is_reached() {
    assert_eq!(small_job().bound(2), 39);
    for fails in [false, true] {
        let mut desk = Desk::new(small_job());
        let (frames, history) = play(&mut desk, |desk| {
            let at_end = desk.state.stage == Stage::VerifyPage { block: 1, page: 3 };
            let again = at_end && (fails || desk.state.retries == 0);
            match desk.state.stage {
                Stage::Blank { .. } => Some(reply(&[0x1B])),
                _ if again => Some(reply(&[0x06, 0x15])),
                stage => Some(right_answer(&desk.job, stage)),
            }
        });
        assert_eq!(frames.len(), 39);
        assert_eq!((desk.state.frames, desk.state.retries), (39, 1));
        let end = if fails {
            End::Failed(named(
                Stage::VerifyPage { block: 1, page: 3 },
                Cause::Status,
                0x15,
            ))
        } else {
            End::Finished
        };
        let told = flow(&desk.job, &desk.image, &history);
        assert_eq!((told.frames, told.retries, told.end), (frames, 1, end));
    }
}

#[test]
fn the_bound_is_reached_for_every_allowance() {
    for (blocks, retries) in [(1, 0), (1, 15), (3, 4), (16, 15)] {
        let job = Job {
            start: 0,
            end: blocks * small_job().block_size() as u64 - 1,
            retries,
            ..small_job()
        };
        let mut desk = Desk::new(job);
        play(&mut desk, |desk| match desk.state.stage {
            Stage::Blank { .. } => Some(reply(&[0x1B])),
            Stage::VerifyPage { page: 3, .. } if desk.state.retries < retries => {
                Some(reply(&[0x07, 0x07]))
            }
            stage => Some(right_answer(&desk.job, stage)),
        });
        assert_eq!(desk.state.stage, Stage::Finished);
        assert_eq!(desk.state.frames, 3 + 12 * (blocks + retries));
    }
}

// Refusals

#[derive(Clone, Copy, Debug, PartialEq)]
enum Call {
    Ask(usize),
    Answer,
    Timeout,
}

const CALLS: [Call; 3] = [Call::Ask(260), Call::Answer, Call::Timeout];

/// The number a call is refused with, or none; a refused call must have changed nothing.
fn tried(desk: &Desk, call: Call) -> Option<u8> {
    let mut state = desk.state;
    let mut room = vec![FILLER; 260];
    let refused = match call {
        Call::Ask(length) => {
            room.resize(length, FILLER);
            ask(&desk.job, &desk.image, &mut state, &mut room).err()
        }
        Call::Answer => answer(&desk.job, &desk.image, &mut state, &reply(&[0x06])).err(),
        Call::Timeout => timeout(&desk.job, &desk.image, &mut state).err(),
    };
    if refused.is_some() {
        assert_eq!(state, desk.state);
        assert!(room.iter().all(|byte| *byte == FILLER));
    }
    refused
}

fn started(desk: &Desk) -> Option<u8> {
    start(&desk.job, &desk.image).err()
}

/// In turn for the call: a frame due for an ask, an answer awaited for the others.
fn in_turn(call: Call) -> Desk {
    let mut desk = Desk::new(small_job());
    desk.state.stage = Stage::VerifyPage { block: 1, page: 2 };
    desk.state.awaited = !matches!(call, Call::Ask(_));
    desk
}

/// Every call, start too, is refused with that number when the job has this fault.
fn job_refused(number: u8, fault: impl Fn(&mut Desk)) {
    for call in CALLS {
        let mut desk = in_turn(call);
        assert_eq!(tried(&desk, call), None);
        fault(&mut desk);
        assert_eq!(tried(&desk, call), Some(number), "{call:?} {:?}", desk.job);
        assert_eq!(started(&desk), Some(number));
    }
}

#[test]
fn refusal_1() {
    for (code_blocks, data_blocks, clock) in [
        (7, 4, 32),
        (65, 4, 32),
        (256 + 16, 4, 32),
        (16, 9, 32),
        (16, 256, 32),
        (16, 4, 0),
        (16, 4, 33),
        (16, 4, 256 + 32),
    ] {
        job_refused(1, |desk| {
            desk.job.part = part_of(code_blocks, data_blocks, clock)
        });
    }
    for rate in [4, 255, 256, 1 << 32, u64::MAX] {
        job_refused(1, |desk| desk.job.rate = rate);
    }
    for supply in [0, 17, 56, 255, 256 + 33, (1 << 32) + 33, u64::MAX] {
        job_refused(1, |desk| desk.job.supply = supply);
    }
    for (rate, supply) in [(0, 18), (3, 55), (1, 26), (2, 27)] {
        let job = Job {
            rate,
            supply,
            ..small_job()
        };
        assert!(start(&job, &image_for(&job)).is_ok());
    }
}

#[test]
fn refusal_5() {
    for (start, end) in [
        (0xC00, 0xBFF),
        (0x400, 0x3FF),
        (0xBFF, 0x400),
        (0x401, 0xBFF),
        (0x400, 0xBFE),
        (0x400, 0xC00),
        (0x500, 0xCFF),
        (0x400, 0xAFF),
        (0x400, 0x43FF),
        (0x3C00, 0x43FF),
        (0x4000, 0x43FF),
        (0x400, 0xF13FF),
        (0xF0C00, 0xF13FF),
        (0xF1000, 0xF23FF),
        (0xF2000, 0xF23FF),
        ((1 << 24) + 0x400, (1 << 24) + 0xBFF),
        (0x400, (1 << 24) + 0xBFF),
        ((1 << 32) + 0x400, (1 << 32) + 0xBFF),
        (0, u64::MAX),
        (u64::MAX - 1023, u64::MAX),
        (u64::MAX, 0),
    ] {
        job_refused(5, |desk| {
            desk.job.start = start;
            desk.job.end = end;
        });
    }
    // Without data flash its addresses are outside.
    job_refused(5, |desk| {
        desk.job.part.data_blocks = 0;
        desk.job.start = 0xF1000;
        desk.job.end = 0xF17FF;
    });
    for (first, last) in [
        (0, 0x3FF),
        (0, 0x3FFF),
        (0x3C00, 0x3FFF),
        (0xF1000, 0xF13FF),
        (0xF1C00, 0xF1FFF),
        (0xF1000, 0xF1FFF),
    ] {
        let job = Job {
            start: first,
            end: last,
            ..small_job()
        };
        assert!(start(&job, &image_for(&job)).is_ok());
    }
}

#[test]
fn refusal_6() {
    for length in [0, 1, 1024, 2047, 2049, 2048 + 256, 4096] {
        job_refused(6, |desk| desk.image.resize(length, 0));
    }
}

#[test]
fn refusal_7() {
    for retries in [16, 255, 256, 1 << 32, u64::MAX] {
        job_refused(7, |desk| desk.job.retries = retries);
    }
    for retries in 0..=15 {
        let job = Job {
            retries,
            ..small_job()
        };
        assert!(start(&job, &image_for(&job)).is_ok());
    }
}

fn failed(page: Option<u64>, block: Option<u64>) -> Stage {
    Stage::Failed(Failure {
        cause: Cause::Status,
        command: 0x40,
        page,
        status: 0x1C,
        block,
        fault: None,
    })
}

fn state_refused(number: u8, fault: impl Fn(&mut State)) {
    for call in CALLS {
        let mut desk = in_turn(call);
        fault(&mut desk.state);
        assert_eq!(
            tried(&desk, call),
            Some(number),
            "{call:?} {:?}",
            desk.state
        );
        // The state is no matter of start's.
        assert_eq!(started(&desk), None);
    }
}

#[test]
fn refusal_9() {
    for block in [2, 3, 256, 1 << 32, u64::MAX] {
        for stage in [
            Stage::Blank { block },
            Stage::Erase { block },
            Stage::Program { block },
            Stage::ProgramPage { block, page: 0 },
            Stage::Verify { block },
            Stage::VerifyPage { block, page: 3 },
            failed(None, Some(block)),
            failed(Some(0), Some(block)),
        ] {
            state_refused(9, |state| state.stage = stage);
        }
    }
    let block = 1;
    for page in [4, 5, 256, 1 << 32, u64::MAX] {
        for stage in [
            Stage::ProgramPage { block, page },
            Stage::VerifyPage { block, page },
            failed(Some(page), Some(block)),
            failed(Some(page), None),
        ] {
            state_refused(9, |state| state.stage = stage);
        }
    }
    for retries in [2, 15, 257, u64::MAX] {
        state_refused(9, |state| state.retries = retries);
        state_refused(9, |state| {
            state.retries = retries;
            state.stage = Stage::Finished;
        });
    }
    for frames in [40, 256, (1 << 32) + 1, u64::MAX] {
        state_refused(9, |state| state.frames = frames);
        state_refused(9, |state| {
            state.frames = frames;
            state.stage = Stage::Finished;
        });
        state_refused(9, |state| {
            state.frames = frames;
            state.awaited = !state.awaited;
        });
    }
}

/// "at most 3 + 12(B + R) frames": none is handed out past the bound, though the state itself is not over it.
#[test]
fn no_frame_past_the_bound() {
    for stage in stages() {
        let mut desk = Desk::at(small_job(), stage);
        desk.state.frames = 39;
        for room in [0, 259, 260] {
            assert_eq!(tried(&desk, Call::Ask(room)), Some(9));
        }
        assert_eq!(tried(&desk, Call::Answer), Some(8));
        assert_eq!(tried(&desk, Call::Timeout), Some(8));
        desk.state.awaited = true;
        assert_eq!(tried(&desk, Call::Ask(259)), Some(4));
        assert_eq!(tried(&desk, Call::Ask(260)), Some(8));
        assert_eq!(tried(&desk, Call::Answer), None);
        assert_eq!(tried(&desk, Call::Timeout), None);
        desk.state.awaited = false;
        desk.state.frames = 38;
        desk.ask();
        assert_eq!(desk.state.frames, 39);
    }
    for stage in [Stage::Finished, failed(None, None)] {
        let mut desk = Desk::at(small_job(), stage);
        desk.state.frames = 39;
        assert_eq!(tried(&desk, Call::Ask(0)), Some(4));
        assert_eq!(tried(&desk, Call::Ask(260)), Some(8));
    }
}

#[test]
fn refusals_4_and_8() {
    for stage in stages() {
        let mut desk = Desk::at(small_job(), stage);
        for room in [0, 5, 32, 259] {
            assert_eq!(tried(&desk, Call::Ask(room)), Some(4));
        }
        assert_eq!(tried(&desk, Call::Ask(260)), None);
        assert_eq!(tried(&desk, Call::Ask(261)), None);
        assert_eq!(tried(&desk, Call::Answer), Some(8));
        assert_eq!(tried(&desk, Call::Timeout), Some(8));
        desk.state.awaited = true;
        assert_eq!(tried(&desk, Call::Ask(259)), Some(4));
        assert_eq!(tried(&desk, Call::Ask(260)), Some(8));
        assert_eq!(tried(&desk, Call::Answer), None);
        assert_eq!(tried(&desk, Call::Timeout), None);
    }
    for stage in [
        Stage::Finished,
        failed(None, None),
        failed(Some(3), Some(1)),
        // Such a record comes from no job, yet no number of 01 bars it.
        failed(Some(3), None),
    ] {
        for awaited in [false, true] {
            let mut desk = Desk::at(small_job(), stage);
            desk.state.awaited = awaited;
            for call in CALLS {
                assert_eq!(tried(&desk, call), Some(8));
            }
            assert_eq!(tried(&desk, Call::Ask(259)), Some(4));
        }
    }
}

/// Handed-in states that 01's ninth number does not name are taken as they are.
#[test]
fn states_that_no_number_bars() {
    for stage in stages() {
        for (retries, frames) in [(0, 0), (1, 0), (1, 38), (0, 20)] {
            let mut desk = Desk::at(small_job(), stage);
            desk.state.retries = retries;
            desk.state.frames = frames;
            assert_eq!(tried(&desk, Call::Ask(260)), None);
            desk.state.awaited = true;
            assert_eq!(tried(&desk, Call::Answer), None);
            assert_eq!(tried(&desk, Call::Timeout), None);
        }
    }
}

/// Order 1, 5, 6, 7, 9, 4, 8: of two faults the earlier in it is named.
#[test]
fn order_with_two_faults() {
    type Fault = (u8, fn(&mut Desk));
    let faults: [Fault; 6] = [
        (1, |desk| desk.job.supply = 17),
        (5, |desk| desk.job.start += 1),
        (6, |desk| desk.image.push(0)),
        (7, |desk| desk.job.retries = 16),
        (9, |desk| {
            desk.state.stage = Stage::ProgramPage { block: 0, page: 4 }
        }),
        (8, |desk| desk.state.awaited = !desk.state.awaited),
    ];
    for call in CALLS {
        for (index, (first, apply_first)) in faults.iter().enumerate() {
            let mut alone = in_turn(call);
            apply_first(&mut alone);
            assert_eq!(tried(&alone, call), Some(*first));
            for (_, apply_second) in &faults[index + 1..] {
                let mut both = alone.clone();
                apply_second(&mut both);
                assert_eq!(tried(&both, call), Some(*first), "{call:?}");
            }
            if call == Call::Ask(260) {
                let expected = if *first == 8 { 4 } else { *first };
                assert_eq!(tried(&alone, Call::Ask(259)), Some(expected));
            }
        }
        let mut all = in_turn(call);
        faults.iter().for_each(|(_, apply)| apply(&mut all));
        assert_eq!(tried(&all, call), Some(1));
    }
}

// Whole jobs against the twin's own chip, on an undamaged line

/// A chip that has its mode byte.
fn chip_for(part: &Part) -> Bench {
    let mut bench = Bench::fresh(part.clone());
    bench.event(Event::Byte(0x3A));
    bench
}

/// A gap precedes every frame; the chip's whole answer is handed in at once.
fn rehearse(desk: &mut Desk, bench: &mut Bench) -> (Vec<Vec<u8>>, Vec<Heard>) {
    let mut frames = Vec::new();
    let mut history = Vec::new();
    loop {
        let sent = desk.ask();
        bench.gap();
        let heard = bench.say(&sent).concat();
        let heard = Some(heard).filter(|bytes| !bytes.is_empty());
        frames.push(sent);
        history.push(heard.clone());
        if desk.hear(&heard) != Report::GoesOn {
            let told = flow(&desk.job, &desk.image, &history);
            assert_eq!(told.frames, frames);
            assert_eq!(told.retries, desk.state.retries);
            return (frames, history);
        }
    }
}

fn flash_range(bench: &Bench, job: &Job) -> (bool, usize, usize) {
    let data = job.start >= 0xF1000;
    let base = if data { 0xF1000 } else { 0 };
    let first = (job.start - base) as usize;
    let end = (job.end - base) as usize + 1;
    assert!(
        end <= if data {
            bench.data.len()
        } else {
            bench.code.len()
        }
    );
    (data, first, end)
}

#[test]
fn whole_jobs_leave_the_image_in_place() {
    for (code_blocks, data_blocks, first, last) in [
        (8, 0, 0, 0x3FF),
        (8, 0, 0, 0x1FFF),
        (16, 4, 0x400, 0xBFF),
        (16, 4, 0x3C00, 0x3FFF),
        (16, 4, 0xF1000, 0xF1FFF),
        (64, 8, 0xF2C00, 0xF2FFF),
        (64, 8, 0, 0xFFFF),
        (9, 1, 0xF1000, 0xF13FF),
    ] {
        for filled in [false, true] {
            let job = Job {
                part: part_of(code_blocks, data_blocks, 20),
                start: first,
                end: last,
                rate: 3,
                supply: 26,
                retries: 0,
            };
            let mut bench = chip_for(&job.part);
            if filled {
                bench.code.fill(0x5A);
                bench.data.fill(0x00);
            }
            let before = bench.clone();
            let mut desk = Desk::new(job.clone());
            rehearse(&mut desk, &mut bench);
            let blocks = (last - first + 1) / job.block_size() as u64;
            let done = State {
                stage: Stage::Finished,
                awaited: false,
                retries: 0,
                frames: 3 + blocks * if filled { 12 } else { 11 },
            };
            assert_eq!(desk.state, done);
            assert_eq!(bench.chip.phase, Phase::Ready);
            assert_eq!(bench.chip.rate, 0x03);
            assert_eq!(bench.chip.options, before.chip.options);
            let (data, from, to) = flash_range(&bench, &job);
            let mut expected = before;
            if data {
                expected.data[from..to].copy_from_slice(&desk.image);
            } else {
                expected.code[from..to].copy_from_slice(&desk.image);
            }
            assert_eq!((bench.code, bench.data), (expected.code, expected.data));
        }
    }
}

/// One block of the range is not blank by a single byte; only that one is erased.
#[test]
fn only_a_block_that_is_not_blank_is_erased() {
    let mut bench = chip_for(&replay_part());
    bench.code[0xBFF] = 0xFE;
    let mut desk = Desk::new(small_job());
    let (frames, _) = rehearse(&mut desk, &mut bench);
    let erased: Vec<&Vec<u8>> = frames.iter().filter(|sent| sent[2] == 0x22).collect();
    assert_eq!(erased, [&command("22 00 08 00")]);
    assert_eq!(desk.state.stage, Stage::Finished);
    assert_eq!(desk.state.frames, 3 + 11 + 12);
}

#[test]
fn protected_chips_fail_the_job_where_they_should() {
    let block = 0;
    for (flags, filled, first, last, failing) in [
        // Writing forbidden: data flash too.
        (0xEF, false, 0x1000, 0x13FF, Stage::Program { block }),
        (0xEF, false, 0xF1000, 0xF13FF, Stage::Program { block }),
        (0xEF, true, 0x1000, 0x13FF, Stage::Program { block }),
        // Block erase forbidden: seen only where something is to be erased.
        (0xFB, true, 0x1000, 0x13FF, Stage::Erase { block }),
        (0xFB, true, 0xF1000, 0xF13FF, Stage::Erase { block }),
        (0xFB, false, 0x1000, 0x13FF, Stage::Finished),
        // Boot rewriting forbidden: code blocks 0 to 3 alone.
        (0xFD, false, 0xC00, 0x13FF, Stage::Program { block }),
        (0xFD, true, 0x000, 0x3FF, Stage::Erase { block }),
        (0xFD, true, 0x1000, 0x17FF, Stage::Finished),
        (0xFD, true, 0xF1000, 0xF17FF, Stage::Finished),
    ] {
        let job = Job {
            start: first,
            end: last,
            retries: 15,
            ..small_job()
        };
        let mut bench = chip_for(&job.part);
        bench.chip.options.flags = flags;
        if filled {
            bench.code.fill(0x00);
            bench.data.fill(0x00);
        }
        let mut desk = Desk::new(job);
        rehearse(&mut desk, &mut bench);
        let expected = match failing {
            Stage::Finished => Stage::Finished,
            stage => Stage::Failed(named(stage, Cause::Status, 0x10)),
        };
        assert_eq!(desk.state.stage, expected, "{flags:02X} {first:X}");
        assert_eq!(desk.state.retries, 0);
    }
}

#[test]
fn a_chip_of_another_part_is_a_mismatch() {
    let job = small_job();
    for (part, failing) in [
        (part_of(16, 4, 20), Stage::Rate),
        (part_of(17, 4, 32), Stage::Signature),
        (part_of(16, 3, 32), Stage::Signature),
        (
            Part {
                version: [1, 2, 4],
                ..replay_part()
            },
            Stage::Signature,
        ),
    ] {
        let mut desk = Desk::new(job.clone());
        rehearse(&mut desk, &mut chip_for(&part));
        assert_eq!(desk.failure(), named(failing, Cause::Mismatch, 0x06));
    }
}

#[test]
fn a_chip_without_its_mode_byte_times_out() {
    let mut bench = Bench::fresh(replay_part());
    let mut desk = Desk::new(Job {
        rate: 1,
        ..small_job()
    });
    rehearse(&mut desk, &mut bench);
    assert_eq!(desk.failure(), named(Stage::Rate, Cause::Timeout, 0x00));
}

/// A page spoiled on the way costs one retry: the block is erased and written anew, and the image is in place.
#[test]
fn a_spoiled_page_costs_one_retry() {
    let job = small_job();
    for spoiled in 0..26 {
        let mut bench = chip_for(&job.part);
        bench.code.fill(0x33);
        let mut desk = Desk::new(job.clone());
        let mut number = 0;
        let mut sent = desk.ask();
        loop {
            let at = sent.len() - 2;
            sent[at] ^= u8::from(number == spoiled);
            number += 1;
            bench.gap();
            let heard = bench.say(&sent).concat();
            if desk.hear(&Some(heard)) != Report::GoesOn {
                break;
            }
            sent = desk.ask();
        }
        assert_eq!(desk.state.stage, Stage::Finished);
        assert_eq!(desk.state.retries, 1);
        assert_eq!(bench.code[0x400..0xC00], desk.image);
        assert!(desk.state.frames <= desk.job.bound(2));
    }
}

/// Two bytes of a page changed on the way, so that its SUM still fits: the last page of the block tells, and no retry is spent (02 §2).
#[test]
fn a_difference_fails_the_job_on_the_last_page_of_its_block() {
    let job = small_job();
    // 32h, 22h, 40h and its pages, 13h and its pages, for each of the two blocks.
    for (block, spoiled) in [3, 4, 5, 6, 8, 9, 10, 11]
        .into_iter()
        .flat_map(|number| [(0, 3 + number), (1, 3 + 12 + number)])
    {
        let mut bench = chip_for(&job.part);
        bench.code.fill(0x33);
        let mut desk = Desk::new(job.clone());
        let mut number = 0;
        loop {
            let mut sent = desk.ask();
            if number == spoiled {
                assert_eq!(sent.len(), 260);
                sent[100] = sent[100].wrapping_add(1);
                sent[101] = sent[101].wrapping_sub(1);
            }
            number += 1;
            bench.gap();
            if desk.hear(&Some(bench.say(&sent).concat())) != Report::GoesOn {
                break;
            }
        }
        let told = named(Stage::VerifyPage { block, page: 3 }, Cause::Status, 0x0F);
        assert_eq!(desk.failure(), told, "frame {spoiled}");
        assert_eq!(desk.state.retries, 0);
        assert_eq!(desk.state.frames, 3 + 12 * (block + 1));
        assert_eq!(bench.chip.phase, Phase::Ready);
    }
}
