//! The chip: the twin, the proved chip by single events, the proved chip by zc_feed and the plain engine by stretches cut at random, given the same; after every
//! event the answer, the fault told and its place, the whole room, the 294 bytes of state with the options among them, all code and data flash and the 72 kept sums
//! are compared (01 "Frames" to "Refusal numbers", 02 §1, §2, §4, §6), and after every stretch the engine's (02 §7).

use trials::chip::{described, fault_numbers, layout, DIFFERED};
use trials::door::{self, Told, ROOM, STATE, UNTOLD};
use twin::capture::Form;
use twin::chip::{step, Answer, Chip, Event, Phase, PROGRAM};
use twin::frame::{counted, LONGEST};
use twin::part::{Area, Part};
use twin::random::{statuses, Generator};
use twin::replay::hex_line;
use twin::sums::{Sums, SUMS};

use crate::captures;
use crate::coverage::Coverage;
use crate::engine::Heard;
use crate::script;
use crate::sums;
use crate::verify;

/// What differs, as text, with the call that it came from.
pub type Difference = String;

/// A chip with its flash and kept sums; the state is the twin's record or the door's bytes.
#[derive(Clone)]
pub struct Side<S> {
    pub state: S,
    pub code: Vec<u8>,
    pub data: Vec<u8>,
    pub sums: Sums,
}

pub struct Sides<'a> {
    pub part: Part,
    pub described: door::Part,
    pub twin: Side<Chip>,
    pub stepped: Side<[u8; STATE]>,
    pub fed: Side<[u8; STATE]>,
    /// By zc_engine; its collected bytes past the count are its own.
    pub engine: Side<[u8; STATE]>,
    pub coverage: &'a mut Coverage,
    pub events: u64,
    pub calls_refused: u64,
    /// Whether the last event was answered 1Ch.
    pub after_1c: bool,
    /// Where stretches are cut.
    pub cuts: Generator,
    phases: [u64; 6],
    pub fill: u8,
}

/// The longest room that is lent.
const LONG_ROOM: usize = 64;

impl<'a> Sides<'a> {
    /// A fresh chip with this flash on all sides, its sums worked out.
    pub fn fresh(
        part: &Part,
        code: Vec<u8>,
        data: Vec<u8>,
        coverage: &'a mut Coverage,
    ) -> Result<Sides<'a>, Difference> {
        let chip = Chip::fresh(part)
            .map_err(|number| format!("the twin refuses {part:?} with {number}"))?;
        let mut state = [0xEE; STATE];
        let described = described(part);
        let told = door::fresh(&described, &mut state);
        if told != 0 || state != layout(&chip) {
            return Err(format!(
                "zc_fresh of {part:?} told {told}, state {}",
                hex_line(&state)
            ));
        }
        let side = Side {
            state,
            code,
            data,
            sums: [0xEEEE; SUMS],
        };
        let mut sides = Sides {
            part: part.clone(),
            described,
            twin: Side {
                state: chip,
                code: side.code.clone(),
                data: side.data.clone(),
                sums: side.sums,
            },
            stepped: side.clone(),
            fed: side.clone(),
            engine: side,
            coverage,
            events: 0,
            calls_refused: 0,
            after_1c: false,
            cuts: Generator::new(part.code_blocks.into()),
            phases: [0; 6],
            fill: 0xA5,
        };
        sides.work_out()?;
        Ok(sides)
    }

    /// Another state on all sides.
    pub fn hand_in(&mut self, chip: Chip) {
        self.stepped.state = layout(&chip);
        self.fed.state = self.stepped.state;
        self.engine.state = self.stepped.state;
        self.twin.state = chip;
        self.after_1c = false;
    }

    /// Another flash on all sides; the sums stay as they are.
    pub fn hand_in_flash(&mut self, code: Vec<u8>, data: Vec<u8>) {
        for side in [&mut self.stepped, &mut self.fed, &mut self.engine] {
            side.code.copy_from_slice(&code);
            side.data.copy_from_slice(&data);
        }
        self.twin.code = code;
        self.twin.data = data;
    }

    /// Bytes: each by its own call to the twin and to the stepped chip, the longest silent stretches at once to the fed one, and then all to the engine.
    pub fn bytes(&mut self, bytes: &[u8], room: usize) -> Result<(), Difference> {
        let mut rest = bytes;
        let mut heard = Heard::default();
        while !rest.is_empty() {
            self.fill = self.fill.wrapping_add(1);
            let before = self.fed.state;
            let mut fed_room = [self.fill; LONG_ROOM];
            let (taken, fed_told) = door::feed(
                &self.described,
                &mut self.fed.state,
                rest,
                &mut self.fed.code,
                &mut self.fed.data,
                &mut self.fed.sums,
                &mut fed_room[..room],
            );
            let mut steps = 0;
            let (mut told, mut last_room) = (None, [self.fill; LONG_ROOM]);
            for byte in rest {
                let (one, one_room) = self.event(Event::Byte(*byte), room)?;
                heard.add(&one, &one_room);
                steps += 1;
                (told, last_room) = (Some(one), one_room);
                if one.frames > 0 {
                    break;
                }
            }
            let what = if taken != steps as u64 {
                Some(format!(
                    "{taken} bytes taken, {steps} heard until an answer"
                ))
            } else if Some(fed_told) != told {
                Some(format!("told {fed_told:?}, by single bytes {told:?}"))
            } else if fed_room != last_room {
                Some(format!(
                    "room {}, by single bytes {}",
                    hex_line(&fed_room),
                    hex_line(&last_room)
                ))
            } else {
                unlike(&self.twin, &self.fed)
            };
            if let Some(what) = what {
                return Err(format!(
                    "zc_feed {} with room {room}\n  {}\n  state before {}",
                    hex_line(rest),
                    what,
                    hex_line(&before)
                ));
            }
            self.coverage.count("zc_feed, calls");
            self.coverage.add("zc_feed, bytes", taken);
            rest = &rest[steps..];
        }
        self.cut_stretches(bytes, &heard)
    }

    /// A stretch without a byte: nothing is taken, said or told, whatever was told before, and nothing changes.
    pub fn no_byte(&mut self) -> Result<(), Difference> {
        let mut room = [self.fill; ROOM];
        let (taken, told) = door::feed(
            &self.described,
            &mut self.fed.state,
            &[],
            &mut self.fed.code,
            &mut self.fed.data,
            &mut self.fed.sums,
            &mut room,
        );
        let nothing = Told {
            refusal: 0,
            bytes: 0,
            frames: 0,
            fault: 0,
            place: 0,
        };
        if (taken, told, room) != (0, nothing, [self.fill; ROOM]) {
            return Err(format!("zc_feed of no byte took {taken} and told {told:?}"));
        }
        self.coverage.count("zc_feed, calls without a byte");
        match unlike(&self.twin, &self.fed) {
            Some(what) => Err(format!("zc_feed of no byte: {what}")),
            None => Ok(()),
        }
    }

    /// A gap or power-on, on all sides.
    pub fn pause(&mut self, event: Event, room: usize) -> Result<(), Difference> {
        self.fill = self.fill.wrapping_add(1);
        self.event(event, room)?;
        self.fed.state = self.stepped.state;
        self.engine.state = self.stepped.state;
        Ok(())
    }

    /// One event to the twin and to the stepped chip, and everything compared.
    fn event(&mut self, event: Event, room: usize) -> Result<(Told, [u8; LONG_ROOM]), Difference> {
        let before = self.stepped.state;
        let phase = self.twin.state.phase;
        let wrong = self.may_answer(event).then(|| self.wrong_sums());
        let old = match phase {
            Phase::Awaiting {
                command: PROGRAM,
                next,
                ..
            } if wrong.is_some() => {
                script::held(&self.part, next, &self.twin.code, &self.twin.data).to_vec()
            }
            _ => Vec::new(),
        };
        let mut room_twin = [self.fill; LONG_ROOM];
        let mut room_proved = room_twin;
        let answer = step(
            &self.part,
            &mut self.twin.state,
            event,
            &mut self.twin.code,
            &mut self.twin.data,
            &mut self.twin.sums,
            &mut room_twin[..room],
        );
        let part = self.described;
        let Side {
            state,
            code,
            data,
            sums,
        } = &mut self.stepped;
        let lent = &mut room_proved[..room];
        let told = match event {
            Event::Byte(byte) => door::byte(&part, state, byte, code, data, sums, lent),
            Event::Gap => door::gap(&part, state, code, data, sums, lent),
            Event::PowerOn => door::power_on(&part, state, code, data, sums, lent),
        };
        self.events += 1;
        self.phases[phase_index(phase)] += 1;
        let expected = in_numbers(answer);
        let what = if told != expected {
            Some(format!("told {told:?}, the twin {expected:?}"))
        } else if room_proved != room_twin {
            Some(format!(
                "room {}, the twin's {}",
                hex_line(&room_proved),
                hex_line(&room_twin)
            ))
        } else if room_proved[told.bytes as usize..]
            .iter()
            .any(|byte| *byte != self.fill)
        {
            Some(format!(
                "room past the reply changed: {}",
                hex_line(&room_proved)
            ))
        } else {
            unlike(&self.twin, &self.stepped)
        };
        if let Some(what) = what {
            return Err(format!(
                "{} with room {room} on {:?}\n  {what}\n  state before {}",
                text_of(event),
                self.part,
                hex_line(&before)
            ));
        }
        let said = statuses(&room_twin[..told.bytes as usize]);
        if told.frames > 0 {
            self.count_answer(phase, &before, &said);
            self.count_fault(phase, &said, told.fault, told.place);
        }
        if let Some(wrong) = wrong {
            let Sides { part, coverage, .. } = self;
            sums::count(coverage, part, &wrong, event, phase, &before, &said);
            self.count_page(phase, &old, &wrong, &before, &said);
        }
        self.count_next(event, &said);
        self.count_difference(event, phase, &before, &said);
        Ok((told, room_proved))
    }

    /// A gap, power-on, or the byte that completes a frame: only there can a sum be said, or touched.
    fn may_answer(&self, event: Event) -> bool {
        let Chip {
            collected, count, ..
        } = &self.twin.state;
        match event {
            Event::Byte(_) => *count >= 2 && *count + 1 == counted(collected[1]) + 4,
            Event::Gap | Event::PowerOn => true,
        }
    }

    /// Which frame was answered, and what was said.
    fn count_answer(&mut self, phase: Phase, before: &[u8; STATE], said: &[u8]) {
        let name = match phase {
            Phase::Awaiting { command: 0xA0, .. } => "data of A0h".to_string(),
            Phase::Awaiting { command, .. } => format!("page of {command:02X}h"),
            _ if script::COMMANDS.contains(&before[35]) => format!("{:02X}h", before[35]),
            _ => "another COM".to_string(),
        };
        self.coverage.count(&format!("{name}, {}", said_text(said)));
        for status in said {
            self.coverage.count(&format!("status, {status:02X}h"));
        }
    }

    /// Events by phase, kept apart from the names so that an event costs no look-up.
    pub fn finish(self) -> (u64, u64) {
        for (name, count) in PHASES.iter().zip(self.phases) {
            self.coverage.add(&format!("events, {name}"), count);
        }
        (self.events, self.calls_refused)
    }
}

pub const PHASES: [&str; 6] = [
    "phase 1",
    "phase 2",
    "phase 3",
    "phase 4 of 40h",
    "phase 4 of 13h",
    "phase 4 of A0h",
];

pub fn phase_index(phase: Phase) -> usize {
    match phase {
        Phase::ModeByte => 0,
        Phase::Setup => 1,
        Phase::Ready => 2,
        Phase::Awaiting { command: 0x40, .. } => 3,
        Phase::Awaiting { command: 0x13, .. } => 4,
        Phase::Awaiting { .. } => 5,
    }
}

/// The statuses of an answer, as a table has them.
pub fn said_text(said: &[u8]) -> String {
    let texts: Vec<String> = said.iter().map(|status| format!("{status:02X}h")).collect();
    texts.join(" ")
}

fn text_of(event: Event) -> String {
    match event {
        Event::Byte(byte) => format!("zc_byte {byte:02X}"),
        Event::Gap => "zc_gap".to_string(),
        Event::PowerOn => "zc_power_on".to_string(),
    }
}

fn in_numbers(answer: Answer) -> Told {
    match answer {
        Answer::Replied {
            bytes,
            frames,
            fault,
        } => {
            let (fault, place) = fault_numbers(fault);
            Told {
                refusal: 0,
                bytes: bytes as u64,
                frames: frames as u64,
                fault: fault.into(),
                place: place.into(),
            }
        }
        Answer::Refused(number) => refused(number),
    }
}

/// A refused call leaves the numbers told as they were.
fn refused(number: u8) -> Told {
    Told {
        refusal: number.into(),
        bytes: UNTOLD,
        frames: UNTOLD,
        fault: UNTOLD,
        place: UNTOLD,
    }
}

pub fn unlike(twin: &Side<Chip>, proved: &Side<[u8; STATE]>) -> Option<String> {
    let expected = layout(&twin.state);
    if proved.state != expected {
        Some(format!(
            "state {}, the twin's {}",
            hex_line(&proved.state),
            hex_line(&expected)
        ))
    } else if proved.code != twin.code {
        Some(format!(
            "code flash differs at {:05X}h",
            first(&proved.code, &twin.code)
        ))
    } else if proved.data != twin.data {
        Some(format!(
            "data flash differs at offset {:04X}h",
            first(&proved.data, &twin.data)
        ))
    } else if proved.sums != twin.sums {
        let slot = first(&proved.sums, &twin.sums);
        Some(format!(
            "the sum in slot {slot} is {:04X}h, the twin's {:04X}h",
            proved.sums[slot], twin.sums[slot]
        ))
    } else {
        None
    }
}

fn first<T: PartialEq>(left: &[T], right: &[T]) -> usize {
    left.iter().zip(right).take_while(|(a, b)| a == b).count()
}

// Calls that are refused: 01 "Refusal numbers", order 1, 2, 3, 9, 4

pub const ORDER: [u8; 5] = [1, 2, 3, 9, 4];

/// How refusal 1 and refusal 9 are provoked; the last four of 9 are bytes that are no state, which the twin's types cannot hold.
pub const BAD_PARTS: [&str; 3] = ["code blocks", "data blocks", "clock"];
pub const BAD_STATES: [&str; 18] = [
    "collected in phase 1",
    "another header",
    "as many as the frame needs",
    "260 or more",
    "rate",
    "flags",
    "last boot block",
    "window reversed",
    "window past the code blocks",
    "command of phase 4",
    "next no page start",
    "last no block end",
    "next past last",
    "not both in one area",
    "phase byte",
    "awaited in phases 1 to 3",
    "byte 293 over 1",
    "byte 293 in phases 1 to 3",
];
pub const NO_STATE: usize = 14;
const OVER_1: usize = 16;
const OUTSIDE_PHASE_4: usize = 17;

/// Which call is refused.
pub const CALLS: [&str; 6] = [
    "zc_byte",
    "zc_gap",
    "zc_power_on",
    "zc_feed",
    "zc_replay",
    "zc_replay_new",
];

impl Sides<'_> {
    /// A call with one to three of the faults, on copies; nothing may change.
    pub fn refused_call(&mut self, choice: &mut Generator) -> Result<(), Difference> {
        let count = choice.pick(&[1, 1, 2, 2, 2, 3]);
        let mut faults = Vec::new();
        while faults.len() < count {
            let fault = choice.pick(&ORDER);
            if !faults.contains(&fault) {
                faults.push(fault);
            }
        }
        self.refused_with(choice, &faults)
    }

    pub fn refused_with(
        &mut self,
        choice: &mut Generator,
        faults: &[u8],
    ) -> Result<(), Difference> {
        let mut chip = self.twin.state.clone();
        if choice.chance(30) {
            chip = script::good_chip(choice, &self.part);
        }
        let mut way = 0;
        if faults.contains(&9) {
            way = choice.below(BAD_STATES.len());
            spoil_chip(choice, &self.part, &mut chip, way);
        }
        let mut state = layout(&chip);
        if faults.contains(&9) && way >= NO_STATE {
            spoil_bytes(choice, &mut state, way);
        }
        self.refused_as(choice, faults, &chip, state, way)
    }

    /// A call with these faults, and with the chip's bytes but for a number in byte 293 that is refused with 9.
    pub fn refused_byte_293(
        &mut self,
        choice: &mut Generator,
        faults: &[u8],
        chip: &Chip,
        held: u8,
    ) -> Result<(), Difference> {
        let way = if held > 1 { OVER_1 } else { OUTSIDE_PHASE_4 };
        let mut state = layout(chip);
        state[DIFFERED] = held;
        self.refused_as(choice, &[faults, &[9]].concat(), chip, state, way)
    }

    /// A call with these faults on these bytes, which give cause for 9 by that way; where they are a state, it is the chip's.
    fn refused_as(
        &mut self,
        choice: &mut Generator,
        faults: &[u8],
        chip: &Chip,
        mut state: [u8; STATE],
        way: usize,
    ) -> Result<(), Difference> {
        let (part, bad_part, mut code, mut data) = self.lent(choice, faults);
        let any = choice.below(32);
        let short = choice.pick(&[0, 31, any]);
        let room = if faults.contains(&4) { short } else { ROOM };
        let mut room = vec![self.fill; room];

        let event = match choice.below(4) {
            0 => Event::Gap,
            1 => Event::PowerOn,
            _ => Event::Byte(choice.pick(&[0x01, 0x02, 0x3A, 0x00])),
        };
        // A stretch or a capture is refused before its first event, and so where there is none, or the first record is bad, or there is no output.
        let bytes = [choice.byte(), choice.byte(), choice.byte()];
        let stretch = &bytes[..choice.below(bytes.len() + 1)];
        let form = choice.pick(&Form::BOTH);
        let (replay, _, least) = captures::call(form);
        let (gap, bad) = (vec![0; form.record()], vec![2; form.record()]);
        let capture: &[u8] = choice.pick(&[&[][..], &gap, &bad, &gap[..3]]);
        let mut output = vec![self.fill; choice.pick(&[0, least - 1, least])];
        let many = choice.chance(50);
        let expected = self.expected(&part, chip, event, (&code, &data, &room), way, faults)?;

        let described = described(&part);
        let mut sums = sums::spoiled(choice, &self.twin.sums);
        let kept = (state, code.clone(), data.clone(), sums, room.clone());
        let mut untaken = true;
        let (call, told) = match event {
            Event::Byte(_) if many => {
                let (taken, told) = door::feed(
                    &described, &mut state, stretch, &mut code, &mut data, &mut sums, &mut room,
                );
                untaken = taken == UNTOLD;
                (3, told)
            }
            Event::Gap if many => {
                let played = replay(
                    &described,
                    &mut state,
                    capture,
                    &mut code,
                    &mut data,
                    &mut sums,
                    &mut room,
                    &mut output,
                );
                untaken = [played.records, played.bytes, played.frames] == [UNTOLD; 3]
                    && output.iter().all(|byte| *byte == self.fill);
                let told = Told {
                    refusal: played.refusal,
                    ..refused(0)
                };
                (if form == Form::Old { 4 } else { 5 }, told)
            }
            Event::Byte(byte) => (
                0,
                door::byte(
                    &described, &mut state, byte, &mut code, &mut data, &mut sums, &mut room,
                ),
            ),
            Event::Gap => (
                1,
                door::gap(
                    &described, &mut state, &mut code, &mut data, &mut sums, &mut room,
                ),
            ),
            Event::PowerOn => (
                2,
                door::power_on(
                    &described, &mut state, &mut code, &mut data, &mut sums, &mut room,
                ),
            ),
        };
        let what = if told != refused(expected) {
            Some(format!("told {told:?}, expected refusal {expected}"))
        } else if kept != (state, code, data, sums, room) || !untaken {
            Some("lent bytes or sums changed, or something was taken".to_string())
        } else {
            None
        };
        if let Some(what) = what {
            let (state, code, data, _, room) = kept;
            return Err(format!(
                "{} with faults {faults:?} (for 1 {}, for 9 {})\n  {what}\n  {part:?}, code {}, data {}, room {}, state {}",
                CALLS[call],
                BAD_PARTS[bad_part],
                BAD_STATES[way],
                code.len(),
                data.len(),
                room.len(),
                hex_line(&state)
            ));
        }
        self.calls_refused += 1;
        self.coverage.count(&format!("{}, {expected}", CALLS[call]));
        let alone = if faults.len() == 1 {
            "alone"
        } else {
            "with more faults"
        };
        self.coverage.count(&format!("refusal {expected}, {alone}"));
        if expected == 1 {
            self.coverage
                .count(&format!("refusal 1 by, {}", BAD_PARTS[bad_part]));
        }
        if expected == 9 {
            self.coverage
                .count(&format!("refusal 9 by, {}", BAD_STATES[way]));
        }
        if expected == 9 && way >= OVER_1 {
            verify::count_refused(self.coverage, &kept.0, CALLS[call]);
        }
        Ok(())
    }

    /// A part and its flash with those of the faults 1, 2, 3 that are asked for, and which number of the part is bad.
    pub fn lent(&self, choice: &mut Generator, faults: &[u8]) -> (Part, usize, Vec<u8>, Vec<u8>) {
        let mut part = self.part.clone();
        let mut bad_part = 0;
        if faults.contains(&1) {
            bad_part = choice.below(BAD_PARTS.len());
            spoil_part(choice, &mut part, bad_part);
        }
        // What the part asks for, as far as that can be lent, so that a bad part is the only fault where it is meant to be.
        let fitting = |area: Area, held: &[u8]| {
            let mut lent = held.to_vec();
            if part.blocks(area) < 1000 {
                lent.resize(part.size(area), 0x5A);
            }
            lent
        };
        let mut code = fitting(Area::Code, &self.twin.code);
        let mut data = fitting(Area::Data, &self.twin.data);
        if faults.contains(&2) {
            spoil_length(choice, &part, Area::Code, &mut code);
        }
        if faults.contains(&3) {
            spoil_length(choice, &part, Area::Data, &mut data);
        }
        (part, bad_part, code, data)
    }

    /// The number by the order of the faults, by the twin where its types can hold what is lent, and both must agree.
    #[allow(clippy::too_many_arguments)]
    fn expected(
        &self,
        part: &Part,
        chip: &Chip,
        event: Event,
        (code, data, room): (&[u8], &[u8], &[u8]),
        way: usize,
        faults: &[u8],
    ) -> Result<u8, Difference> {
        let by_order = ORDER.into_iter().find(|number| faults.contains(number));
        let (mut twin_code, mut twin_data, mut twin_room) =
            (code.to_vec(), data.to_vec(), room.to_vec());
        let (mut twin_chip, mut twin_sums) = (chip.clone(), self.twin.sums);
        let answer = step(
            part,
            &mut twin_chip,
            event,
            &mut twin_code,
            &mut twin_data,
            &mut twin_sums,
            &mut twin_room,
        );
        let by_twin = match answer {
            Answer::Refused(number @ 1..=3) => number,
            // Bytes that are no state come before the room.
            _ if faults.contains(&9) && way >= NO_STATE => 9,
            Answer::Refused(number) => number,
            Answer::Replied { .. } => 0,
        };
        let unchanged = twin_chip == *chip
            && twin_code == code
            && twin_data == data
            && twin_sums == self.twin.sums
            && twin_room == room;
        match answer {
            Answer::Refused(_) if !unchanged => Err(format!(
                "the twin changed something though it refused {faults:?}"
            )),
            _ if by_order != Some(by_twin) => Err(format!(
                "the twin says {by_twin} to faults {faults:?} ({}): {chip:?} {part:?}",
                BAD_STATES[way]
            )),
            _ => Ok(by_twin),
        }
    }

    /// zc_fresh refused: 1 for a bad part.
    pub fn refused_fresh(&mut self, choice: &mut Generator) -> Result<(), Difference> {
        let mut part = self.part.clone();
        let way = choice.below(BAD_PARTS.len());
        spoil_part(choice, &mut part, way);
        let mut state = [self.fill; STATE];
        let told = door::fresh(&described(&part), &mut state);
        let by_twin = Chip::fresh(&part).err();
        if told != 1 || by_twin != Some(1) || state != [self.fill; STATE] {
            return Err(format!(
                "zc_fresh of {part:?} told {told}, the twin {by_twin:?}"
            ));
        }
        self.calls_refused += 1;
        self.coverage.count("zc_fresh, 1");
        Ok(())
    }
}

fn spoil_part(choice: &mut Generator, part: &mut Part, way: usize) {
    match way {
        0 => part.code_blocks = choice.pick(&[0, 7, 65, 256 + 16, u32::MAX]),
        1 => part.data_blocks = choice.pick(&[9, 255, 256, 256 + 4, u32::MAX]),
        _ => part.clock = choice.pick(&[0, 33, 255, 256 + 32, u32::MAX]),
    }
}

fn spoil_length(choice: &mut Generator, part: &Part, area: Area, flash: &mut Vec<u8>) {
    let block = part.block_size(area);
    let length = flash.len();
    let other = if length == 0 {
        choice.pick(&[1, part.page_size(), block])
    } else {
        choice.pick(&[
            0,
            1,
            length - 1,
            length + 1,
            length - block.min(length),
            length + block,
        ])
    };
    flash.resize(other, 0x5A);
}

/// Gives cause for refusal 9 in that way; the ways of bytes that are no state leave the chip good.
pub fn spoil_chip(choice: &mut Generator, part: &Part, chip: &mut Chip, way: usize) {
    let (code, block, page) = (
        part.end(Area::Code),
        part.block_size(Area::Code),
        part.page_size(),
    );
    let differed = choice.chance(30);
    let awaiting = |command: u8, next: usize, last: usize| Phase::Awaiting {
        command,
        next,
        last,
        differed,
    };
    let command = choice.pick(&[0x40, 0x13]);
    // A phase of this kind is good with an empty collector.
    if (9..=13).contains(&way) {
        chip.count = 0;
    }
    match way {
        0 => {
            chip.phase = Phase::ModeByte;
            chip.count = choice.pick(&[1, 2, 4, 259]);
            chip.collected[0] = choice.pick(&[0x01, 0x02, 0x3A]);
        }
        1 => {
            let (phase, header) = choice.pick(&[
                (Phase::Setup, 0x02),
                (Phase::Ready, 0x02),
                (Phase::Ready, 0x00),
                (awaiting(command, 0, block - 1), 0x01),
                (awaiting(0xA0, 0, 0), 0x01),
            ]);
            chip.phase = phase;
            chip.collected[..2].copy_from_slice(&[header, 0x07]);
            chip.count = choice.pick(&[1, 2, 5, 10]);
        }
        2 => {
            let (phase, header) = choice.pick(&[
                (Phase::Setup, 0x01),
                (Phase::Ready, 0x01),
                (awaiting(command, 0, block - 1), 0x02),
                (awaiting(0xA0, 0, 0), 0x02),
            ]);
            let len = choice.pick(&[0x01, 0x03, 0x08, 0xFE, 0xFF]);
            chip.phase = phase;
            chip.collected[..2].copy_from_slice(&[header, len]);
            let needed = usize::from(len) + 4;
            chip.count = choice.pick(&[needed, (needed + 1).min(LONGEST - 1)]);
        }
        3 => {
            let (phase, header) = choice.pick(&[
                (Phase::Ready, 0x01),
                (awaiting(command, 0, block - 1), 0x02),
            ]);
            chip.phase = phase;
            chip.collected[..2].copy_from_slice(&[header, 0x00]);
            let any = choice.word() as usize;
            chip.count = choice.pick(&[260, 261, 512, 1 << 32, usize::MAX, any.max(260)]);
        }
        4 => chip.rate = choice.pick(&[0x04, 0x05, 0x80, 0xFF]),
        5 => chip.options.flags &= !choice.pick(&[0x01, 0x08, 0x20, 0x40, 0x80, 0xE9]),
        6 => chip.options.boot = choice.pick(&[0x00, 0x02, 0x04, 0xFF]),
        7 => {
            chip.options.end = choice.below(part.code_blocks as usize - 1) as u16;
            chip.options.start = chip.options.end + 1;
        }
        8 => {
            chip.options.start = choice.pick(&[0, 1]);
            chip.options.end = choice.pick(&[part.code_blocks as u16, 0x0100, 0xFFFF]);
        }
        9 => {
            let any = choice.byte();
            let other = if [0x40, 0x13, 0xA0].contains(&any) {
                0x22
            } else {
                any
            };
            chip.phase = awaiting(choice.pick(&[0x00, 0x9A, 0xB0, 0x32, other]), 0, block - 1);
        }
        10 => chip.phase = awaiting(command, choice.pick(&[1, 0x80, 0xFF, 0x3FF]), block - 1),
        11 => {
            let last = choice.pick(&[block, block - 2, page - 1, block + page - 1, 2 * block]);
            chip.phase = awaiting(command, 0, last);
        }
        12 => {
            let (next, last) = choice.pick(&[(block, block - 1), (code - page, block - 1)]);
            chip.phase = awaiting(command, next, last);
        }
        13 => {
            let (data, past) = (part.start(Area::Data), part.end(Area::Data));
            let data_block = part.block_size(Area::Data);
            let (next, last) = choice.pick(&[
                (0, data + data_block - 1),
                (data, block - 1),
                (0, code + block - 1),
                (code, code + block - 1),
                (past, past + data_block - 1),
                (data - data_block, data - 1),
                (0, usize::MAX),
                (usize::MAX - (page - 1), usize::MAX),
                (1 << 32, (1 << 32) + block - 1),
            ]);
            chip.phase = awaiting(command, next, last);
        }
        _ => (),
    }
}

/// Bytes that are no state, by that way alone.
pub fn spoil_bytes(choice: &mut Generator, state: &mut [u8; STATE], way: usize) {
    match way {
        NO_STATE => state[7] = choice.pick(&[0, 5, 6, 0x80, 0xFF]),
        OVER_1 => state[DIFFERED] = choice.pick(&[2, 3, 0x80, 0xFF]),
        OUTSIDE_PHASE_4 => {
            in_no_phase_4(choice, state);
            state[DIFFERED] = 1;
        }
        _ => {
            in_no_phase_4(choice, state);
            let at = choice.between(8, 24);
            state[choice.pick(&[8, at, 24])] = choice.pick(&[0x01, 0x40, 0xFF]);
        }
    }
}

/// One of phases 1 to 3, with nothing awaited and nothing collected.
fn in_no_phase_4(choice: &mut Generator, state: &mut [u8; STATE]) {
    state[7] = choice.pick(&[1, 2, 3]);
    state[8..33].fill(0);
    state[DIFFERED] = 0;
}
