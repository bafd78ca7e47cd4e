//! Random captures of both forms through zc_replay and zc_replay_new, and through the twin: each call ends before the same record, for the same reason, and has
//! said the same bytes and frames; after it room, state, flash and kept sums are the same (01 "Replay", 02 §5). The sums are wrong at the start of half of the
//! captures (02 §1), some calls end within a 13h that has met a difference (02 §2), and many have little output, or less than a record needs.

use trials::chip::{described, layout, DIFFERED};
use trials::door::{self, Played, BAD_RECORD, OUTPUT, OUTPUT_FULL, OUTPUT_NEW, ROOM, STATE, SUMS};
use twin::capture::{judge_record, Form, PLAYED_SEAT};
use twin::chip::{step, Answer, ACK, NOT_WRITTEN};
use twin::random::{random_capture, statuses, Generator};
use twin::replay::{events, hex_line, Player};
use twin::sums::Sums;

use crate::chip::Difference;
use crate::coverage::{row, Coverage};
use crate::sums::spoiled;

type Replay = fn(
    &door::Part,
    &mut [u8; STATE],
    &[u8],
    &mut [u8],
    &mut [u8],
    &mut [u16; SUMS],
    &mut [u8],
    &mut [u8],
) -> Played;

/// The form's call, with its name, and the output that it needs before each good record.
pub fn call(form: Form) -> (Replay, &'static str, usize) {
    match form {
        Form::Old => (door::replay, "zc_replay", OUTPUT),
        Form::New => (door::replay_new, "zc_replay_new", OUTPUT_NEW),
    }
}

/// A chip of the replay's part through the door.
pub struct Proved {
    part: door::Part,
    pub state: [u8; STATE],
    pub code: Vec<u8>,
    pub data: Vec<u8>,
    pub sums: Sums,
    pub room: [u8; ROOM],
}

impl Proved {
    pub fn fresh(fill: u8) -> Result<Proved, Difference> {
        let Player {
            part,
            code,
            data,
            sums: by_twin,
            ..
        } = Player::fresh();
        let mut proved = Proved {
            part: described(&part),
            state: [0; STATE],
            code,
            data,
            sums: [0; SUMS],
            room: [fill; ROOM],
        };
        if door::fresh(&proved.part, &mut proved.state) != 0 {
            return Err("zc_fresh refuses the part of the replay".to_string());
        }
        let told = door::sums(&proved.part, &proved.code, &proved.data, &mut proved.sums);
        if (told, proved.sums) != (0, by_twin) {
            return Err(format!(
                "zc_sums on fresh flash told {told}, sums {:04X?}",
                proved.sums
            ));
        }
        Ok(proved)
    }

    pub fn play(&mut self, form: Form, capture: &[u8], output: &mut [u8]) -> Played {
        call(form).0(
            &self.part,
            &mut self.state,
            capture,
            &mut self.code,
            &mut self.data,
            &mut self.sums,
            &mut self.room,
            output,
        )
    }
}

/// The twin's player with its reply room, and how many records it has played.
struct Twin {
    player: Player,
    room: [u8; ROOM],
    records: usize,
}

impl Twin {
    /// What a call that begins here must tell, and what it must say, with so much output.
    fn play(
        &mut self,
        form: Form,
        capture: &[u8],
        size: usize,
        coverage: &mut Coverage,
    ) -> (Played, Vec<u8>) {
        let (name, least) = (call(form).1, call(form).2);
        let (began, mut said, mut frames) = (self.records, Vec::new(), 0);
        let refusal = loop {
            let rest = &capture[self.records * form.record()..];
            if rest.is_empty() {
                coverage.count(&format!("{name}, to the end"));
                break 0;
            }
            let bytes = &rest[..rest.len().min(form.record())];
            let room_left = size - said.len();
            let Some(record) = judge_record(form, bytes) else {
                coverage.count(&format!("{name}, bad record"));
                if room_left < least {
                    coverage.count(&format!("{name}, bad record and too little output"));
                }
                if bytes.len() < form.record() {
                    coverage.count(&format!("{name}, short record"));
                } else if form == Form::New && bytes[2] == 1 {
                    coverage.count("seat 1, bad record");
                }
                break BAD_RECORD;
            };
            if room_left < least {
                coverage.count(&format!("{name}, output full"));
                if self.records == began {
                    coverage.count(&format!("{name}, output full before any record"));
                }
                if record.seat != PLAYED_SEAT {
                    coverage.count("seat 1, output full before it");
                }
                break OUTPUT_FULL;
            }
            if record.seat != PLAYED_SEAT {
                let within = self.player.chip.count > 0;
                let what = match (record.carried, within) {
                    (None, true) => "gap within a frame of seat 0",
                    (Some(_), true) => "bytes within a frame of seat 0",
                    (_, false) => "between frames of seat 0",
                };
                coverage.count(&format!("seat 1, {what}"));
            }
            for event in events(&record) {
                let player = &mut self.player;
                let answer = step(
                    &player.part,
                    &mut player.chip,
                    event,
                    &mut player.code,
                    &mut player.data,
                    &mut player.sums,
                    &mut self.room,
                );
                if let Answer::Replied {
                    bytes,
                    frames: more,
                    ..
                } = answer
                {
                    if more > 0 && statuses(&self.room[..bytes]) == [ACK, NOT_WRITTEN] {
                        coverage.count(&format!("{name}, page answered 1Ch"));
                    }
                    said.extend_from_slice(&self.room[..bytes]);
                    frames += more as u64;
                }
            }
            self.records += 1;
        };
        let told = Played {
            refusal,
            records: (self.records - began) as u64,
            bytes: said.len() as u64,
            frames,
        };
        (told, said)
    }
}

/// One capture, call after call to its end or a bad record; hands back how many records were played.
pub fn capture(form: Form, seed: u64, coverage: &mut Coverage) -> Result<u64, Difference> {
    let capture = random_capture(form, seed);
    let (_, name, least) = call(form);
    let fill = seed as u8;
    let mut choice = Generator::new(seed);
    let mut proved = Proved::fresh(fill)?;
    let how = choice.pick(&["right", "wrong"]);
    if how == "wrong" {
        proved.sums = spoiled(&mut choice, &proved.sums);
    }
    coverage.count(&format!("captures by sums, {how}"));
    let mut twin = Twin {
        player: Player::fresh(),
        room: [fill; ROOM],
        records: 0,
    };
    twin.player.sums = proved.sums;
    // Little output is enough for few records at a time.
    let little = choice.between(least, 3 * least);
    let usual = choice.pick(&[little, little, 1 << 16]);
    let mut met_bad = false;
    loop {
        let any = choice.below(least);
        let short = choice.pick(&[0, least - 1, any]);
        let size = match choice.below(20) {
            _ if met_bad => short,
            0 => short,
            _ => usual,
        };
        let began = twin.records * form.record();
        let (must, said) = twin.play(form, &capture, size, coverage);
        let mut output = vec![!fill; size];
        let told = proved.play(form, &capture[began..], &mut output);
        let mut due = vec![!fill; size];
        due[..said.len()].copy_from_slice(&said);
        let player = &twin.player;
        let alike = [
            ("what is told", told == must),
            ("output", output == due),
            ("room", proved.room == twin.room),
            ("state", proved.state == layout(&player.chip)),
            ("code flash", proved.code == player.code),
            ("data flash", proved.data == player.data),
            ("kept sums", proved.sums == player.sums),
        ];
        if let Some((what, _)) = alike.iter().find(|(_, alike)| !alike) {
            return Err(format!(
                "{name} from record {} with output {size}: {what} not the twin's; told {told:?}, the twin {must:?}; the capture is {}",
                began / form.record(),
                hex_line(&capture)
            ));
        }
        match told.refusal {
            OUTPUT_FULL if proved.state[DIFFERED] == 1 => {
                coverage.count(&format!("{name}, output full after a difference"));
            }
            OUTPUT_FULL => (),
            // A bad record is met once more, with too little output for a good one.
            BAD_RECORD if !met_bad => met_bad = true,
            _ => return Ok(twin.records as u64),
        }
    }
}

/// An old capture up to its first bad record, written in the new form by zc_to_new: it plays as before, at once. Hands back how many records were played.
pub fn widened(seed: u64, coverage: &mut Coverage) -> Result<u64, Difference> {
    let old = random_capture(Form::Old, seed);
    let size = Form::Old.record();
    let good = old
        .chunks(size)
        .take_while(|record| judge_record(Form::Old, record).is_some())
        .count();
    let old = &old[..good * size];
    let mut new = vec![0; good * Form::New.record()];
    let told = door::to_new(old, &mut new);
    if told.refusal != 0 {
        return Err(format!("zc_to_new told {told:?} of good records"));
    }
    let mut left = Vec::new();
    for (form, capture) in [(Form::Old, old), (Form::New, &new)] {
        let mut proved = Proved::fresh(seed as u8)?;
        let mut output = vec![0; good * 62 + OUTPUT_NEW];
        let told = proved.play(form, capture, &mut output);
        if (told.refusal, told.records) != (0, good as u64) {
            return Err(format!(
                "{} told {told:?} of {good} good records",
                call(form).1
            ));
        }
        let Proved {
            state,
            code,
            data,
            sums,
            room,
            ..
        } = proved;
        left.push((told, output, state, code, data, sums, room));
    }
    if left[0] != left[1] {
        return Err(format!(
            "zc_replay_new does not play the new form as zc_replay plays the old; the capture is {}",
            hex_line(old)
        ));
    }
    coverage.count("captures, old played as new");
    Ok(good as u64)
}

pub fn table(coverage: &Coverage) -> Vec<String> {
    let ends = [
        "to the end",
        "bad record",
        "bad record and too little output",
        "short record",
        "output full",
        "output full before any record",
        "output full after a difference",
        "page answered 1Ch",
    ];
    let rows = [
        row("zc_replay", &ends),
        row("zc_replay_new", &ends),
        row(
            "seat 1",
            &[
                "between frames of seat 0",
                "bytes within a frame of seat 0",
                "gap within a frame of seat 0",
                "bad record",
                "output full before it",
            ],
        ),
        row("captures", &["old played as new"]),
        row("captures by sums", &["right", "wrong"]),
    ];
    coverage.table("captures", &rows)
}
