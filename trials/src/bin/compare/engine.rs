//! The plain engine (02 §7): traffic without gaps in stretches that are cut at random, or at every place, given to the twin's engine, to zc_engine and, byte by
//! byte, to zc_byte. After each stretch what is told, the whole room, the 294 bytes of state, all flash and the 72 kept sums are compared; the room past the replies
//! and the collected bytes past the count must be as they were handed in. And zc_engine refused, with every set of its faults, in their order.

use trials::chip::{described, fault_numbers};
use trials::door::{self, Stretch, Told, ROOM, STATE, UNTOLD};
use twin::chip::{
    step, Answer, Chip, Event, Phase, ACK, BLOCK_ERASE, CHECKSUM, ERASED, NOT_WRITTEN, PROGRAM,
    RATE_SET, RESET, SECURITY_GET, SECURITY_SET, VERIFY,
};
use twin::engine::{play, Said};
use twin::frame::{counted, Frame, COMMAND_HEADER, LAST_FOOTER, MORE_FOOTER};
use twin::part::{Area, Part};
use twin::random::{command_frame, data_frame, range_body, statuses, Generator};
use twin::replay::hex_line;
use twin::sums::{slot_of, Sums};

use crate::chip::{
    phase_index, spoil_bytes, spoil_chip, unlike, Difference, Sides, BAD_PARTS, BAD_STATES,
    NO_STATE, PHASES,
};
use crate::coverage::{row, Coverage};
use crate::directed::{parts, standing};
use crate::script;
use crate::sums::spoiled;

/// How much was given to the engine.
#[derive(Default)]
pub struct Counts {
    pub stretches: u64,
    pub bytes: u64,
    pub refused: u64,
}

/// Where a state has its collected bytes, and how many they are.
const COLLECTED: usize = 33;
const SPARE_END: usize = 293;

fn count_in(state: &[u8; STATE]) -> usize {
    let count = state[25..COLLECTED].iter().rev();
    let count = count.fold(0, |count, byte| count << 8 | usize::from(*byte));
    count.min(SPARE_END - COLLECTED)
}

fn spare(state: &[u8; STATE]) -> &[u8] {
    &state[COLLECTED + count_in(state)..SPARE_END]
}

/// How much of a frame is held, as a table has it.
const HELD: [&str; 5] = [
    "nothing",
    "1 byte",
    "header and LEN",
    "more",
    "all but the last",
];

fn held_text(state: &[u8; STATE]) -> &'static str {
    let needs = counted(state[COLLECTED + 1]) + 4;
    HELD[match count_in(state) {
        0 => 0,
        1 => 1,
        count if count + 1 == needs => 4,
        2 => 2,
        _ => 3,
    }]
}

/// What a frame or byte within a stretch makes the chip await next, so that another header is sought from there on.
const TURNS: [&str; 10] = [
    "mode byte",
    "9Ah",
    "40h",
    "13h",
    "A0h",
    "last page of 40h",
    "last page of 13h",
    "bad page",
    "page answered 1Ch",
    "data of A0h",
];

fn turn_text(before: &[u8; STATE], after: &[u8; STATE], faulty: bool, said: &[u8]) -> usize {
    match (before[7], after[7], after[8]) {
        (1, ..) => 0,
        (2, ..) => 1,
        (3, _, PROGRAM) => 2,
        (3, _, VERIFY) => 3,
        (3, ..) => 4,
        _ if before[8] == SECURITY_SET => 9,
        _ if faulty => 7,
        _ if said == [ACK, NOT_WRITTEN] => 8,
        _ if before[8] == PROGRAM => 5,
        _ => 6,
    }
}

/// A good command frame within these bytes, somewhere behind the first.
fn holds_good_frame(frame: &[u8]) -> bool {
    (1..frame.len()).any(|at| {
        frame[at] == COMMAND_HEADER
            && Frame::split_off(&frame[at..])
                .is_some_and(|(inner, _)| inner.judge(LAST_FOOTER).is_ok())
    })
}

/// What zc_byte said and told of the bytes of a stretch, one after the other.
#[derive(Default)]
pub struct Heard {
    said: Vec<u8>,
    frames: u64,
    /// The number and the place of each fault.
    faults: Vec<(u64, u64)>,
}

impl Heard {
    pub fn add(&mut self, told: &Told, room: &[u8]) {
        self.said.extend_from_slice(&room[..told.bytes as usize]);
        self.frames += told.frames;
        if told.fault > 0 {
            self.faults.push((told.fault, told.place));
        }
    }

    /// What the engine must tell of all of it.
    fn due(&self) -> Stretch {
        let (fault, place) = self.faults.first().copied().unwrap_or((0, 0));
        Stretch {
            refusal: 0,
            bytes: self.said.len() as u64,
            frames: self.frames,
            faults: self.faults.len() as u64,
            fault,
            place,
        }
    }
}

impl Sides<'_> {
    /// A stretch by zc_engine, with so much more room than it needs: what is told, and the whole room. What lies behind the replies stays, and so do the collected
    /// bytes past the count.
    fn engine_hears(&mut self, fed: &[u8], more: usize) -> Result<(Stretch, Vec<u8>), Difference> {
        self.fill = self.fill.wrapping_add(1);
        let before = self.engine.state;
        let mut room = vec![self.fill; ROOM * fed.len() + more];
        let told = door::engine(
            &self.described,
            &mut self.engine.state,
            fed,
            &mut self.engine.code,
            &mut self.engine.data,
            &mut self.engine.sums,
            &mut room,
        );
        let spare = spare(&self.engine.state);
        let past = (told.bytes as usize).min(room.len());
        let what = if told.refusal != 0 {
            Some(format!("refused with {}", told.refusal))
        } else if room[past..].iter().any(|byte| *byte != self.fill) {
            Some(format!("room past {past} bytes changed"))
        } else if spare != &before[SPARE_END - spare.len()..SPARE_END] {
            Some("collected bytes past the count changed".to_string())
        } else {
            None
        };
        match what {
            Some(what) => Err(self.in_words(fed, more, &before, &what)),
            None => Ok((told, room)),
        }
    }

    fn in_words(&self, fed: &[u8], more: usize, before: &[u8; STATE], what: &str) -> Difference {
        format!(
            "zc_engine {} with {more} more room on {:?}\n  {what}\n  state before {}\n  state after  {}\n  by zc_byte   {}",
            hex_line(fed),
            self.part,
            hex_line(before),
            hex_line(&self.engine.state),
            hex_line(&self.stepped.state)
        )
    }

    /// Bytes that zc_byte has heard, in stretches cut at random: all together they come to the same.
    pub fn cut_stretches(&mut self, bytes: &[u8], heard: &Heard) -> Result<(), Difference> {
        let before = self.engine.state;
        let (mut rest, mut said) = (bytes, Vec::new());
        let (mut frames, mut faults, mut first) = (0, 0, (0, 0));
        loop {
            let cut = self.cuts.below(rest.len() + 1);
            let (fed, after) = rest.split_at(self.cuts.pick(&[rest.len(), cut]));
            let (told, room) = self.engine_hears(fed, 0)?;
            said.extend_from_slice(&room[..told.bytes as usize]);
            if faults == 0 {
                first = (told.fault, told.place);
            }
            (frames, faults) = (frames + told.frames, faults + told.faults);
            self.coverage.count("every stretch cut at random, calls");
            rest = after;
            if rest.is_empty() {
                break;
            }
        }
        let all = Stretch {
            refusal: 0,
            bytes: said.len() as u64,
            frames,
            faults,
            fault: first.0,
            place: first.1,
        };
        let what = if all != heard.due() || said != heard.said {
            Some(format!(
                "said {} and told {all:?}, by single bytes {} and {:?}",
                hex_line(&said),
                hex_line(&heard.said),
                heard.due()
            ))
        } else {
            self.unlike_bytes()
        };
        self.coverage
            .add("every stretch cut at random, bytes", bytes.len() as u64);
        match what {
            Some(what) => Err(self.in_words(bytes, 0, &before, &what)),
            None => Ok(()),
        }
    }

    /// A stretch to the twin's engine, to zc_engine and, byte by byte, to zc_byte, with so much more room than it needs.
    fn stretch(&mut self, fed: &[u8], more: usize) -> Result<(), Difference> {
        let before = self.engine.state;
        let (told, room) = self.engine_hears(fed, more)?;
        let mut twin_room = vec![self.fill; room.len()];
        let by_twin = play(
            &self.part,
            &mut self.twin.state,
            fed,
            &mut self.twin.code,
            &mut self.twin.data,
            &mut self.twin.sums,
            &mut twin_room,
        );
        let heard = self.by_bytes(fed);
        let what = if told != in_numbers(by_twin) {
            Some(format!("told {told:?}, the twin {by_twin:?}"))
        } else if told != heard.due() {
            Some(format!("told {told:?}, by single bytes {:?}", heard.due()))
        } else if room != twin_room {
            Some("room not the twin's".to_string())
        } else if room[..heard.said.len()] != heard.said {
            Some("room not the replies to single bytes".to_string())
        } else {
            unlike(&self.twin, &self.engine).or_else(|| self.unlike_bytes())
        };
        if let Some(what) = what {
            return Err(self.in_words(fed, more, &before, &what));
        }
        self.count_stretch(fed, more, &before, &heard);
        Ok(())
    }

    /// What differs from the chip that took the bytes one by one, whose spare bytes are its own.
    fn unlike_bytes(&self) -> Option<String> {
        let mut stepped = self.stepped.state;
        let spare = spare(&self.engine.state);
        stepped[SPARE_END - spare.len()..SPARE_END].copy_from_slice(spare);
        let alike = [
            ("state", stepped == self.engine.state),
            ("code flash", self.stepped.code == self.engine.code),
            ("data flash", self.stepped.data == self.engine.data),
            ("sums", self.stepped.sums == self.engine.sums),
        ];
        let unlike = alike.iter().find(|(_, alike)| !alike);
        unlike.map(|(what, _)| format!("{what} not as by single bytes"))
    }

    /// The bytes by zc_byte, one after the other. What it tells of them is compared with the twin elsewhere; a refusal would show here too, in the state.
    fn by_bytes(&mut self, fed: &[u8]) -> Heard {
        let mut heard = Heard::default();
        let at_start = self.stepped.sums;
        for (at, byte) in fed.iter().enumerate() {
            let before = self.stepped.state;
            let mut room = [0; ROOM];
            let told = door::byte(
                &self.described,
                &mut self.stepped.state,
                *byte,
                &mut self.stepped.code,
                &mut self.stepped.data,
                &mut self.stepped.sums,
                &mut room,
            );
            if told.frames == 0 && before[7] == self.stepped.state[7] {
                continue;
            }
            heard.add(&told, &room);
            if at + 1 < fed.len() {
                let reply = &room[..told.bytes as usize];
                self.count_within(&before, *byte, told.fault > 0, reply, &at_start);
            }
        }
        heard
    }

    /// A frame that was answered, or a mode byte, with more bytes of the stretch behind it.
    fn count_within(
        &mut self,
        before: &[u8; STATE],
        byte: u8,
        faulty: bool,
        reply: &[u8],
        at_start: &Sums,
    ) {
        let after = &self.stepped.state;
        let mut frame = before[COLLECTED..COLLECTED + count_in(before)].to_vec();
        frame.push(byte);
        if before[7] != after[7] {
            let turn = turn_text(before, after, faulty, &statuses(reply));
            self.coverage
                .count(&format!("another sought after, {}", TURNS[turn]));
        }
        if faulty && holds_good_frame(&frame) {
            let what = ["a command", "a page"][usize::from(before[7] == 4)];
            self.coverage
                .count(&format!("bad frame with a good one inside, {what}"));
        }
        if before[7] == 3 && frame[2] == CHECKSUM && frame.len() == 11 && reply.len() == 11 {
            let start =
                usize::from(frame[3]) | usize::from(frame[4]) << 8 | usize::from(frame[5]) << 16;
            let Some(place) = self.part.place(start) else {
                return;
            };
            let block = place.offset / self.part.block_size(place.area);
            let slot = slot_of(place.area, block);
            if self.stepped.sums[slot] != at_start[slot] {
                self.coverage
                    .count("B0h, of a block changed in the stretch");
            }
        }
    }

    fn count_stretch(&mut self, fed: &[u8], more: usize, before: &[u8; STATE], heard: &Heard) {
        self.events += fed.len() as u64;
        let length = ["of no byte", "of 1 byte", "longer"][fed.len().min(2)];
        let several = |number: u64| ["none", "one", "more"][number.min(2) as usize];
        let room = if more == 0 {
            "32 for each byte"
        } else {
            "more"
        };
        let names = [
            format!("stretches, {length}"),
            format!("held at the start, {}", held_text(before)),
            format!("held at the end, {}", held_text(&self.engine.state)),
            format!("reply frames to a stretch, {}", several(heard.frames)),
            format!(
                "faults of a stretch, {}",
                several(heard.faults.len() as u64)
            ),
            format!("room, {room}"),
            format!(
                "stretches end in, {}",
                PHASES[phase_index(self.twin.state.phase)]
            ),
        ];
        for name in names {
            self.coverage.count(&name);
        }
        if heard.faults.first() != heard.faults.last() {
            self.coverage.count("faults of a stretch, the last another");
        }
        if fed.is_empty() && more < ROOM {
            self.coverage.count("stretches of no byte, room under 32");
        }
    }

    /// A gap between two stretches.
    fn gap_between(&mut self) -> Result<(), Difference> {
        let mut room = [self.fill; ROOM];
        step(
            &self.part,
            &mut self.twin.state,
            Event::Gap,
            &mut self.twin.code,
            &mut self.twin.data,
            &mut self.twin.sums,
            &mut room,
        );
        for side in [&mut self.stepped, &mut self.engine] {
            door::gap(
                &self.described,
                &mut side.state,
                &mut side.code,
                &mut side.data,
                &mut side.sums,
                &mut room,
            );
        }
        match unlike(&self.twin, &self.engine).or_else(|| self.unlike_bytes()) {
            Some(what) => Err(format!("a gap between two stretches: {what}")),
            None => Ok(()),
        }
    }

    /// A call with these of the faults 1, 2, 3, 9, 12, on copies: refused with the first in this order, and nothing changes, the numbers told included.
    fn refused_engine(&mut self, choice: &mut Generator, faults: &[u8]) -> Result<(), Difference> {
        let mut chip = self.twin.state.clone();
        if choice.chance(50) {
            chip = script::good_chip(choice, &self.part);
        }
        let mut way = 0;
        if faults.contains(&9) {
            way = choice.below(BAD_STATES.len());
            spoil_chip(choice, &self.part, &mut chip, way);
        }
        let mut state = trials::chip::layout(&chip);
        if faults.contains(&9) && way >= NO_STATE {
            spoil_bytes(choice, &mut state, way);
        }
        let (part, bad_part, mut code, mut data) = self.lent(choice, faults);
        let bytes = choice.pick(&[1, 1, 2, 5, 100]);
        let is_short = faults.contains(&12);
        let bytes = if is_short {
            bytes
        } else {
            choice.pick(&[0, bytes])
        };
        let fed: Vec<u8> = (0..bytes)
            .map(|_| choice.pick(&[0x3A, 0x00, 0x01, 0x01, 0x02, 0x03]))
            .collect();
        let needed = ROOM * bytes;
        let size = if is_short {
            let any = choice.below(needed);
            choice.pick(&[needed - 1, needed - 1, needed - ROOM, 0, any])
        } else {
            needed + choice.pick(&[0, 0, 1, 31, 32])
        };
        let mut room = vec![self.fill; size];
        let mut sums = spoiled(choice, &self.twin.sums);
        let kept = (state, code.clone(), data.clone(), sums, room.clone());

        let by_order = [1, 2, 3, 9, 12].into_iter().find(|it| faults.contains(it));
        let by_twin =
            self.refused_by_twin(&part, &chip, &fed, (&code, &data, &room), faults, way)?;
        if by_order != Some(by_twin) {
            return Err(format!(
                "the twin's engine says {by_twin} to faults {faults:?} ({}): {chip:?} {part:?}",
                BAD_STATES[way]
            ));
        }
        let told = door::engine(
            &described(&part),
            &mut state,
            &fed,
            &mut code,
            &mut data,
            &mut sums,
            &mut room,
        );
        let unchanged = kept == (state, code, data, sums, room);
        if told != refused(by_twin) || !unchanged {
            return Err(format!(
                "zc_engine with faults {faults:?} (for 1 {}, for 9 {}) told {told:?}, expected refusal {by_twin}; lent bytes and sums {}\n  {bytes} bytes fed, room {size}, {part:?}, state {}",
                BAD_PARTS[bad_part],
                BAD_STATES[way],
                if unchanged { "as they were" } else { "changed" },
                hex_line(&kept.0)
            ));
        }
        self.calls_refused += 1;
        self.count_refused(faults, by_twin, bytes, size, way);
        Ok(())
    }

    /// The twin's number, and 9 for bytes that its types cannot hold; it may change nothing.
    fn refused_by_twin(
        &self,
        part: &Part,
        chip: &Chip,
        fed: &[u8],
        (code, data, room): (&[u8], &[u8], &[u8]),
        faults: &[u8],
        way: usize,
    ) -> Result<u8, Difference> {
        let (mut own_chip, mut own_sums) = (chip.clone(), self.twin.sums);
        let (mut own_code, mut own_data, mut own_room) =
            (code.to_vec(), data.to_vec(), room.to_vec());
        let answer = play(
            part,
            &mut own_chip,
            fed,
            &mut own_code,
            &mut own_data,
            &mut own_sums,
            &mut own_room,
        );
        let unchanged = own_chip == *chip
            && own_code == code
            && own_data == data
            && own_sums == self.twin.sums
            && own_room == room;
        match answer {
            Err(_) if !unchanged => Err(format!(
                "the twin's engine changed something though it refused {faults:?}"
            )),
            Err(number @ 1..=3) => Ok(number),
            _ if faults.contains(&9) && way >= NO_STATE => Ok(9),
            Err(number) => Ok(number),
            Ok(_) => Ok(0),
        }
    }

    fn count_refused(&mut self, faults: &[u8], number: u8, bytes: usize, room: usize, way: usize) {
        self.coverage.count(&format!("zc_engine refused, {number}"));
        if bytes == 0 {
            self.coverage
                .count(&format!("zc_engine refused with no byte, {number}"));
        }
        if number != 12 && faults.contains(&12) {
            self.coverage
                .count(&format!("zc_engine refused before 12, {number}"));
        }
        if number == 9 {
            self.coverage
                .count(&format!("zc_engine refused with 9 by, {}", BAD_STATES[way]));
        }
        if number == 12 {
            let how = match room {
                0 => "no room",
                _ if room + 1 == ROOM * bytes => "a byte too little",
                _ => "less",
            };
            self.coverage
                .count(&format!("zc_engine refused with 12 for, {how}"));
        }
    }
}

fn in_numbers(answer: Result<Said, u8>) -> Stretch {
    match answer {
        Ok(said) => {
            let (fault, place) = fault_numbers(said.first);
            Stretch {
                refusal: 0,
                bytes: said.bytes as u64,
                frames: said.frames as u64,
                faults: said.faults as u64,
                fault: fault.into(),
                place: place.into(),
            }
        }
        Err(number) => refused(number),
    }
}

fn refused(number: u8) -> Stretch {
    Stretch {
        refusal: number.into(),
        bytes: UNTOLD,
        frames: UNTOLD,
        faults: UNTOLD,
        fault: UNTOLD,
        place: UNTOLD,
    }
}

/// All of it: directed, and so many courses.
pub fn run(courses: u64, coverage: &mut Coverage) -> Result<Counts, Difference> {
    let mut counts = Counts::default();
    for part in parts() {
        directed(&part, &mut counts, coverage)
            .map_err(|difference| format!("directed: {difference}"))?;
    }
    for seed in 0..courses {
        course(seed, &mut counts, coverage)
            .map_err(|difference| format!("seed {seed}: {difference}"))?;
    }
    Ok(counts)
}

impl Counts {
    fn stretch(&mut self, sides: &mut Sides, fed: &[u8], more: usize) -> Result<(), Difference> {
        self.stretches += 1;
        self.bytes += fed.len() as u64;
        sides.stretch(fed, more)
    }
}

// Directed

/// Traffic that turns to another header as often as it can, with bad frames that hold good ones, and sums asked for after their blocks were changed.
fn traffic(part: &Part) -> Vec<Vec<u8>> {
    let (size, page) = (part.block_size(Area::Code), part.page_size());
    let (start, end) = (4 * size, 5 * size - 1);
    let on_block = |command: u8| command_frame(&range_body(command, start, end));
    let erase = command_frame(&range_body(BLOCK_ERASE, start, end)[..4]);
    let reset = command_frame(&[RESET]);
    let get = command_frame(&[SECURITY_GET]);
    let options = data_frame(
        &[0xFF, 0x03, 0x00, 0x00, 0x07, 0x00, 0xFF, 0xFF],
        LAST_FOOTER,
    );
    let first_page = data_frame(&vec![0x5A; page], MORE_FOOTER);
    let bad_page = data_frame(&reset.repeat(3), MORE_FOOTER);
    let mut bad_command = command_frame(&reset);
    bad_command[7] ^= 0x01;
    let mut long_command = command_frame(&get.repeat(52)[..256]);
    long_command[259] = MORE_FOOTER;
    let short = [
        &[0xFF, 0x01, 0x3A][..],
        &reset,
        &command_frame(&[RATE_SET, 0x00, 0x21]),
        &bad_command,
        &on_block(PROGRAM),
        &[0x01],
        &bad_page,
        &command_frame(&[SECURITY_SET]),
        &options,
        &on_block(CHECKSUM),
        &erase,
        &on_block(CHECKSUM),
        &on_block(VERIFY),
        &data_frame(&[0x02, 0x02], LAST_FOOTER),
        &get,
    ];
    let long = [
        &[0x3A][..],
        &command_frame(&[RATE_SET, 0x00, 0x21]),
        &erase,
        &on_block(PROGRAM),
        &first_page,
        &first_page[..260 - 1],
        &[LAST_FOOTER],
        &on_block(CHECKSUM),
        &on_block(PROGRAM),
        &data_frame(&vec![ERASED; page], MORE_FOOTER),
        &on_block(CHECKSUM),
        &long_command,
        &get,
    ];
    vec![short.concat(), long.concat()]
}

/// A fresh chip hears the traffic at once, in two stretches cut at every place, and byte by byte; and every set of faults.
fn directed(part: &Part, counts: &mut Counts, coverage: &mut Coverage) -> Result<(), Difference> {
    let mut choice = Generator::new(part.code_blocks.into());
    let code = script::flash(&mut choice, 50, part, Area::Code);
    let data = script::flash(&mut choice, 50, part, Area::Data);
    let mut sides = Sides::fresh(part, code.clone(), data.clone(), coverage)?;
    for fed in traffic(part) {
        for cut in 0..=fed.len() {
            let mut chip = standing(&sides, Phase::ModeByte);
            chip.collected.fill_with(|| choice.byte());
            sides.hand_in(chip);
            sides.hand_in_flash(code.clone(), data.clone());
            for stretch in [&fed[..cut], &fed[cut..]] {
                let more = choice.pick(&[0, 0, 1, 31, 32, 100]);
                counts.stretch(&mut sides, stretch, more)?;
            }
        }
        sides.hand_in(standing(&sides, Phase::ModeByte));
        for byte in &fed {
            counts.stretch(&mut sides, &[*byte], 0)?;
            counts.stretch(&mut sides, &[], 0)?;
        }
    }
    for set in 1..32 {
        let faults: Vec<u8> = [1, 2, 3, 9, 12]
            .into_iter()
            .enumerate()
            .filter(|(at, _)| set >> at & 1 == 1)
            .map(|(_, fault)| fault)
            .collect();
        for _ in 0..40 {
            sides.refused_engine(&mut choice, &faults)?;
        }
    }
    counts.refused += sides.finish().1;
    Ok(())
}

// Random

/// Traffic drawn from where a chip stands, frame after frame without a gap, cut at random; then a gap, and traffic again.
fn course(seed: u64, counts: &mut Counts, coverage: &mut Coverage) -> Result<(), Difference> {
    let mut choice = Generator::new(seed);
    let part = script::part_by_turns(seed, &mut choice);
    let filled = choice.pick(&[0, 5, 50]);
    let code = script::flash(&mut choice, filled, &part, Area::Code);
    let data = script::flash(&mut choice, filled, &part, Area::Data);
    let mut sides = Sides::fresh(&part, code, data, coverage)?;
    if choice.chance(40) {
        sides.spoil_sums(&mut choice);
    }
    let mut begun = Vec::new();
    if choice.chance(80) {
        let mut chip = script::good_chip(&mut choice, &part);
        let frame = script::heard(
            &mut choice,
            &part,
            &chip,
            &sides.twin.code,
            &sides.twin.data,
        );
        begun = script::begin(&mut choice, &mut chip, &frame);
        sides.hand_in(chip);
    }
    for _ in 0..choice.between(1, 4) {
        let bytes = ahead(&mut choice, &sides, begun);
        begun = Vec::new();
        let mut rest = &bytes[..];
        loop {
            let some = choice.below(rest.len().min(700) + 1);
            let length = choice.pick(&[0, 1, 2, 3, some, some, some, rest.len()]);
            let (stretch, after) = rest.split_at(length.min(rest.len()));
            let more = choice.pick(&[0, 0, 0, 1, 31, 32, 64]);
            counts.stretch(&mut sides, stretch, more)?;
            if choice.chance(5) {
                let count = choice.pick(&[1, 1, 2, 3]);
                let faults: Vec<u8> = (0..count).map(|_| choice.pick(&[1, 2, 3, 9, 12])).collect();
                sides.refused_engine(&mut choice, &faults)?;
            }
            if after.is_empty() {
                break;
            }
            rest = after;
        }
        if choice.chance(80) {
            sides.gap_between()?;
        }
    }
    counts.refused += sides.finish().1;
    Ok(())
}

/// These bytes, and frames after them, each drawn from where the twin's chip stands when it has heard what comes before.
fn ahead(choice: &mut Generator, sides: &Sides, begun: Vec<u8>) -> Vec<u8> {
    let mut guide = sides.twin.clone();
    let (mut bytes, mut next) = (Vec::new(), begun);
    for _ in 0..=choice.between(1, 16) {
        for byte in &next {
            let answer = step(
                &sides.part,
                &mut guide.state,
                Event::Byte(*byte),
                &mut guide.code,
                &mut guide.data,
                &mut guide.sums,
                &mut [0; ROOM],
            );
            debug_assert!(!matches!(answer, Answer::Refused(_)));
        }
        bytes.append(&mut next);
        next = script::heard(choice, &sides.part, &guide.state, &guide.code, &guide.data);
    }
    bytes
}

pub fn table(coverage: &Coverage) -> Vec<String> {
    let rows = [
        row("every stretch cut at random", &["calls", "bytes"]),
        row("stretches", &["of no byte", "of 1 byte", "longer"]),
        row("stretches of no byte", &["room under 32"]),
        row("stretches end in", &PHASES),
        row("held at the start", &HELD),
        row("held at the end", &HELD),
        row("reply frames to a stretch", &["none", "one", "more"]),
        row(
            "faults of a stretch",
            &["none", "one", "more", "the last another"],
        ),
        row("room", &["32 for each byte", "more"]),
        row("another sought after", &TURNS),
        row("bad frame with a good one inside", &["a command", "a page"]),
        row("B0h", &["of a block changed in the stretch"]),
        row("zc_engine refused", &["1", "2", "3", "9", "12"]),
        row("zc_engine refused with no byte", &["1", "2", "3", "9"]),
        row("zc_engine refused before 12", &["1", "2", "3", "9"]),
        row("zc_engine refused with 9 by", &BAD_STATES),
        row(
            "zc_engine refused with 12 for",
            &["a byte too little", "less", "no room"],
        ),
    ];
    coverage.table("the plain engine", &rows)
}
