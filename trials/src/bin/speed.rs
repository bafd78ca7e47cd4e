//! The proved chip, dock and conversions against the twin, in one process and on the same bytes: ratios of the least of several runs each. Replay is also set
//! beside a control, which works the SUM of what it has collected out anew at every byte (02 §3), and the new form of its records beside the old (02 §5). Pages are
//! stored over blank flash, sent again, and written over what makes them 1Ch (02 §6). The plain engine takes whole stretches, beside the twin's engine of the same
//! shape, zc_feed and zc_byte (02 §7). After every turn all have said the same bytes and hold the same flash, kept sums and state.

use std::hint::black_box;
use std::iter;
use std::time::Instant;

use trials::chip::{layout, Door};
use trials::dock::work;
use trials::door::{self, DOCK, FRAME_ROOM, ROOM};
use trials::traffic::{
    capture, carried_bytes, in_new_form, of_two_seats, opening, page, page_frames, traffic,
};
use twin::capture::{convert, judge_record, Form, CARRIED, PLAYED_SEAT};
use twin::chip::{step, Answer, Chip, Event, ACK, ERASED, NACK, NOT_WRITTEN, PROGRAM, RESET};
use twin::dock;
use twin::engine;
use twin::frame::{sum, LAST_FOOTER, MORE_FOOTER};
use twin::part::{Area, Part};
use twin::random::{command_frame, data_frame, range_body};
use twin::replay::{replay_part, Player};
use twin::sums::Sums;

const RUNS: usize = 15;
/// A run of a million records is long enough to be broken in upon; the least of three often was.
const LONG_RUNS: usize = 9;

/// A 40h over all code flash, and its pages.
fn pages() -> Vec<u8> {
    let part = replay_part();
    let (size, last) = (part.page_size(), part.end(Area::Code) - 1);
    let per_block = part.pages_of_block(Area::Code);
    let mut bytes = command_frame(&range_body(PROGRAM, 0, last));
    for next in (0..last).step_by(size) {
        let footer = if next + size > last {
            LAST_FOOTER
        } else {
            MORE_FOOTER
        };
        let (block, number) = (next / size / per_block, next / size % per_block);
        bytes.extend(data_frame(&page(0, block, number), footer));
    }
    bytes
}

/// How often all those pages are stored in one run.
const STORES: usize = 10;

struct Said {
    bytes: Vec<u8>,
    state: Vec<u8>,
    code: Vec<u8>,
    data: Vec<u8>,
    sums: Vec<u16>,
}

fn from_door(door: Door, bytes: Vec<u8>) -> Said {
    Said {
        bytes,
        state: door.state.to_vec(),
        code: door.code,
        data: door.data,
        sums: door.sums.to_vec(),
    }
}

fn from_twin(player: Player, bytes: Vec<u8>) -> Said {
    Said {
        bytes,
        state: layout(&player.chip).to_vec(),
        code: player.code,
        data: player.data,
        sums: player.sums.to_vec(),
    }
}

fn hear(player: &mut Player, event: Event, room: &mut [u8; 32]) -> usize {
    match step(
        &player.part,
        &mut player.chip,
        event,
        &mut player.code,
        &mut player.data,
        &mut player.sums,
        room,
    ) {
        Answer::Replied { bytes, .. } => bytes,
        Answer::Refused(number) => unreachable!("refused with {number}"),
    }
}

/// The twin in the proved chip's form: a chip goes in by value and comes back by value.
#[inline(never)]
fn step_by_value(
    part: &Part,
    mut chip: Chip,
    event: Event,
    code: &mut [u8],
    data: &mut [u8],
    sums: &mut Sums,
    room: &mut [u8],
) -> (Answer, Chip) {
    let answer = step(part, &mut chip, event, code, data, sums, room);
    (answer, chip)
}

fn twin_hears(player: &mut Player, fed: &[u8], said: &mut Vec<u8>) {
    let mut room = [0; 32];
    for &byte in fed {
        let bytes = hear(player, Event::Byte(byte), &mut room);
        said.extend_from_slice(&room[..bytes]);
    }
}

fn twin_bytes(fed: &[u8]) -> Said {
    let (mut player, mut said) = (Player::fresh(), Vec::new());
    twin_hears(&mut player, fed, &mut said);
    from_twin(player, said)
}

/// A fresh chip through all the bytes, each handed in and back by value, with nothing kept of what is said but by `hear`.
fn twin_values(fed: &[u8], mut hear: impl FnMut(&[u8])) -> Player {
    let Player {
        part,
        mut chip,
        mut code,
        mut data,
        mut sums,
    } = Player::fresh();
    let mut room = [0; 32];
    for &byte in fed {
        let event = Event::Byte(byte);
        let (answer, next) = step_by_value(
            &part, chip, event, &mut code, &mut data, &mut sums, &mut room,
        );
        chip = next;
        if let Answer::Replied { bytes, .. } = answer {
            hear(&room[..bytes]);
        }
    }
    Player {
        part,
        chip,
        code,
        data,
        sums,
    }
}

fn twin_by_value(fed: &[u8]) -> Said {
    let mut said = Vec::new();
    let player = twin_values(fed, |bytes| said.extend_from_slice(bytes));
    from_twin(player, said)
}

#[link(name = "pace", kind = "static")]
extern "C" {
    fn zp_steps(
        part: *const door::Part,
        bytes: *const u8,
        bytes_len: usize,
        code: *mut u8,
        code_len: usize,
        data: *mut u8,
        data_len: usize,
        sums: *mut Sums,
        room: *mut u8,
        room_len: usize,
    ) -> usize;
}

/// The proved step in a loop of its own, without the door. Of the chip it tells the count of collected bytes alone.
fn pace_steps(fed: &[u8]) -> Said {
    let part = trials::chip::described(&replay_part());
    let Player {
        mut code,
        mut data,
        mut sums,
        ..
    } = Player::fresh();
    let mut room = [0; 32];
    let count = unsafe {
        zp_steps(
            &part,
            fed.as_ptr(),
            fed.len(),
            code.as_mut_ptr(),
            code.len(),
            data.as_mut_ptr(),
            data.len(),
            &mut sums,
            room.as_mut_ptr(),
            room.len(),
        )
    };
    counted(count, code, data, sums)
}

fn twin_steps(fed: &[u8]) -> Said {
    let player = twin_values(fed, |_| ());
    counted(player.chip.count, player.code, player.data, player.sums)
}

fn counted(count: usize, code: Vec<u8>, data: Vec<u8>, sums: Sums) -> Said {
    Said {
        bytes: count.to_le_bytes().to_vec(),
        state: Vec::new(),
        code,
        data,
        sums: sums.to_vec(),
    }
}

fn door_bytes(fed: &[u8]) -> Said {
    let (mut door, mut said) = (Door::fresh(&replay_part()), Vec::new());
    for &byte in fed {
        let bytes = door.byte(byte);
        said.extend_from_slice(&door.room[..bytes]);
    }
    from_door(door, said)
}

/// One gap for each byte: what the door itself and the refusals cost, with nothing heard.
fn door_gaps(fed: &[u8]) -> Said {
    let mut door = Door::fresh(&replay_part());
    for _ in fed {
        door.gap();
    }
    from_door(door, Vec::new())
}

fn twin_gaps(fed: &[u8]) -> Said {
    let (mut player, mut room) = (Player::fresh(), [0; 32]);
    for _ in fed {
        hear(&mut player, Event::Gap, &mut room);
    }
    from_twin(player, Vec::new())
}

fn feed(door: &mut Door, fed: &[u8], said: &mut Vec<u8>) {
    let mut at = 0;
    while at < fed.len() {
        let (taken, bytes) = door.feed(&fed[at..]);
        at += taken;
        said.extend_from_slice(&door.room[..bytes]);
    }
}

fn door_feed(fed: &[u8]) -> Said {
    let (mut door, mut said) = (Door::fresh(&replay_part()), Vec::new());
    feed(&mut door, fed, &mut said);
    from_door(door, said)
}

/// What lies in code flash before the pages of each round, put there by the caller, so that no 22h is timed.
type Lay<'a> = &'a dyn Fn(&mut [u8]);

/// The pages, written again and again.
fn door_pages(lay: Lay, pages: &[u8]) -> Said {
    let (mut door, mut said) = (Door::fresh(&replay_part()), Vec::new());
    feed(&mut door, &opening(), &mut said);
    for _ in 0..STORES {
        lay(&mut door.code);
        feed(&mut door, pages, &mut said);
    }
    from_door(door, said)
}

fn twin_pages(lay: Lay, pages: &[u8]) -> Said {
    let (mut player, mut said) = (Player::fresh(), Vec::new());
    twin_hears(&mut player, &opening(), &mut said);
    for _ in 0..STORES {
        lay(&mut player.code);
        twin_hears(&mut player, pages, &mut said);
    }
    from_twin(player, said)
}

fn door_plays(form: Form, capture: &[u8]) -> Said {
    let (mut door, mut said, mut output) =
        (Door::fresh(&replay_part()), Vec::new(), vec![0; 1 << 16]);
    let mut at = 0;
    while at < capture.len() {
        let (played, bytes) = door.replay(form, &capture[at..], &mut output);
        at += played * form.record();
        said.extend_from_slice(&output[..bytes]);
    }
    from_door(door, said)
}

fn door_replay(capture: &[u8]) -> Said {
    door_plays(Form::Old, capture)
}

fn door_replay_new(capture: &[u8]) -> Said {
    door_plays(Form::New, capture)
}

/// The twin's chip through a capture; it is shown to `after` at every byte it has heard.
fn twin_plays(form: Form, capture: &[u8], after: impl Fn(&Chip)) -> Said {
    let (mut player, mut room, mut said) = (Player::fresh(), [0; 32], Vec::new());
    for record in capture.chunks_exact(form.record()) {
        let record = judge_record(form, record).expect("a good record");
        match record.carried {
            _ if record.seat != PLAYED_SEAT => (),
            None => {
                hear(&mut player, Event::Gap, &mut room);
            }
            Some(carried) => {
                for &byte in carried.bytes() {
                    let n = hear(&mut player, Event::Byte(byte), &mut room);
                    said.extend_from_slice(&room[..n]);
                    after(&player.chip);
                }
            }
        }
    }
    from_twin(player, said)
}

fn twin_replay(capture: &[u8]) -> Said {
    twin_plays(Form::Old, capture, |_| ())
}

fn twin_replay_new(capture: &[u8]) -> Said {
    twin_plays(Form::New, capture, |_| ())
}

/// What 02 §3 saw: "The frame SUM is worked out anew for every byte collected", from LEN to the newest.
fn control_replay(capture: &[u8]) -> Said {
    twin_plays(Form::Old, capture, |chip| {
        if let [_, len, rest @ ..] = &chip.collected[..chip.count] {
            black_box(sum(*len, black_box(rest)));
        }
    })
}

/// How often a capture is converted in one run.
const CONVERSIONS: usize = 20;

/// A capture into the other form, again and again into the same output.
fn converted_by(from: Form, capture: &[u8], each: impl Fn(&[u8], &mut [u8]) -> usize) -> Said {
    let mut output = vec![0; capture.len() / from.record() * from.other().record()];
    for _ in 0..CONVERSIONS {
        let bytes = each(black_box(capture), black_box(&mut output));
        assert_eq!(bytes, output.len());
    }
    without_flash(output, &[])
}

fn door_to_new(capture: &[u8]) -> Said {
    converted_by(Form::Old, capture, |capture, output| {
        door::to_new(capture, output).bytes as usize
    })
}

fn door_to_old(capture: &[u8]) -> Said {
    converted_by(Form::New, capture, |capture, output| {
        door::to_old(capture, output).bytes as usize
    })
}

fn twin_to_new(capture: &[u8]) -> Said {
    converted_by(Form::Old, capture, |capture, output| {
        convert(Form::Old, capture, output).expect("good records")
    })
}

fn twin_to_old(capture: &[u8]) -> Said {
    converted_by(Form::New, capture, |capture, output| {
        convert(Form::New, capture, output).expect("records that the old form holds")
    })
}

/// A job over every code block, and what a chip that holds something else answers to its frames.
struct Rehearsal {
    job: dock::Job,
    image: Vec<u8>,
    answers: Vec<Vec<u8>>,
}

/// How often the job is done in one run.
const JOBS: usize = 20;

impl Rehearsal {
    fn new() -> Rehearsal {
        let Player {
            part,
            chip,
            mut code,
            data,
            ..
        } = Player::fresh();
        code.fill(0x5A);
        let mut player = Player::taken_up(part, chip, code, data);
        hear(&mut player, Event::Byte(0x3A), &mut [0; 32]);
        let pages = player.part.pages_of_block(Area::Code);
        let mut rehearsal = Rehearsal {
            job: dock::Job {
                part: player.part.clone(),
                start: 0,
                end: player.part.end(Area::Code) as u64 - 1,
                rate: 0,
                supply: 33,
                retries: 0,
            },
            image: (0..player.part.blocks(Area::Code) * pages)
                .flat_map(|at| page(0, at / pages, at % pages))
                .collect(),
            answers: Vec::new(),
        };
        let (job, image) = (&rehearsal.job, &rehearsal.image);
        let mut state = dock::start(job, image).expect("a good job");
        let mut room = [0; FRAME_ROOM];
        while !matches!(state.stage, dock::Stage::Finished) {
            let length = dock::ask(job, image, &mut state, &mut room).expect("a frame is due");
            hear(&mut player, Event::Gap, &mut [0; 32]);
            let answer: Vec<u8> = room[..length]
                .iter()
                .flat_map(|byte| player.hear(Event::Byte(*byte)).bytes)
                .collect();
            dock::answer(job, image, &mut state, &answer).expect("the answer is awaited");
            rehearsal.answers.push(answer);
        }
        rehearsal
    }

    /// A frame asked for and its answer handed in, by turns.
    fn by_twin(&self) -> Said {
        let (mut frames, mut room, mut after) = (Vec::new(), [0; FRAME_ROOM], None);
        for _ in 0..JOBS {
            let mut state = dock::start(&self.job, &self.image).expect("a good job");
            for answer in &self.answers {
                let length = dock::ask(&self.job, &self.image, &mut state, &mut room)
                    .expect("a frame is due");
                frames.extend_from_slice(&room[..length]);
                dock::answer(&self.job, &self.image, &mut state, answer)
                    .expect("the answer is awaited");
            }
            after = Some(state);
        }
        without_flash(
            frames,
            &trials::dock::layout(&after.expect("one job at least")),
        )
    }

    fn by_door(&self) -> Said {
        let job = work(&self.job, &self.image);
        let (mut frames, mut room, mut state) = (Vec::new(), [0; FRAME_ROOM], [0; DOCK]);
        for _ in 0..JOBS {
            assert_eq!(door::start(&job, &mut state), 0);
            for answer in &self.answers {
                let (told, length) = door::ask(&job, &mut state, &mut room);
                assert_eq!(told, 0);
                frames.extend_from_slice(&room[..length as usize]);
                assert_eq!(door::answer(&job, &mut state, answer).refusal, 0);
            }
        }
        without_flash(frames, &state)
    }
}

/// Bytes that are no chip's, and a state that goes with them.
fn without_flash(bytes: Vec<u8>, state: &[u8]) -> Said {
    Said {
        bytes,
        state: state.to_vec(),
        code: Vec::new(),
        data: Vec::new(),
        sums: Vec::new(),
    }
}

type Run<'a> = &'a dyn Fn(&[u8]) -> Said;

/// Nanoseconds of the quickest of so many runs of each, all taking turns; they must have done the same.
fn quickest<const N: usize>(name: &str, each: [Run; N], input: &[u8], runs: usize) -> [f64; N] {
    let timed = each.map(|run| {
        move || {
            let start = Instant::now();
            let said = black_box(run(black_box(input)));
            (start.elapsed().as_nanos() as f64, said)
        }
    });
    quickest_of(name, timed.each_ref().map(|each| each as Timed), runs)
}

/// A run that tells its own nanoseconds, without what it has made ready before them.
type Timed<'a> = &'a dyn Fn() -> (f64, Said);

fn quickest_of<const N: usize>(name: &str, each: [Timed; N], runs: usize) -> [f64; N] {
    let mut quick = [f64::MAX; N];
    for _ in 0..runs {
        let turn = each.map(|run| run());
        for (quick, (time, said)) in quick.iter_mut().zip(&turn) {
            *quick = quick.min(*time);
            same(name, &turn[0].1, said);
        }
    }
    quick
}

fn same(name: &str, a: &Said, b: &Said) {
    assert!(
        a.bytes == b.bytes && a.code == b.code && a.data == b.data,
        "{name}: not the same"
    );
    assert!(a.state == b.state, "{name}: not the same state");
    assert!(a.sums == b.sums, "{name}: not the same sums");
}

fn listed(numbers: impl IntoIterator<Item = f64>) -> String {
    let each: Vec<String> = numbers.into_iter().map(|it| format!("{it:.2}")).collect();
    let (last, others) = each.split_last().expect("one number at least");
    format!("{} and {last}", others.join(", "))
}

/// What so many units took, as a time for each.
fn a_unit(times: &[f64], units: usize, unit: &str) -> String {
    let each = times.iter().map(|time| time / units as f64);
    format!("{} ns a {unit}", listed(each))
}

/// A row: proved over twin, and the times.
fn print_row(name: &str, times: &[f64], told: &str) {
    println!("{name:60} {:8.2}   ({told})", times[0] / times[1]);
}

fn row(
    name: &str,
    (units, unit): (usize, &str),
    each: [Run; 2],
    input: &[u8],
    runs: usize,
) -> [f64; 2] {
    let times = quickest(name, each, input, runs);
    print_row(name, &times, &a_unit(&times, units, unit));
    times
}

const RECORDS: usize = 10_000;

/// What a capture is of: page traffic, or Resets alone, of so many bytes of payload, and the one status that each is answered.
#[derive(Clone, Copy)]
enum Traffic {
    Pages,
    Resets { payload: usize, status: u8 },
}

/// Resets cost a chip least beside the collecting: one status is said, and nothing else is done. LEN is judged after the SUM, so a Reset of LEN 00h is read as
/// whole as one of LEN 01h, and then unfit: 15h (01 "Frames").
const TRAFFICS: [(&str, Traffic); 3] = [
    ("page traffic", Traffic::Pages),
    (
        "LEN 00h frames",
        Traffic::Resets {
            payload: 256,
            status: NACK,
        },
    ),
    (
        "5-byte frames",
        Traffic::Resets {
            payload: 1,
            status: ACK,
        },
    ),
];

fn reset(payload: usize) -> Vec<u8> {
    let mut body: Vec<u8> = (0..payload).map(|at| at as u8).collect();
    body[0] = RESET;
    command_frame(&body)
}

impl Traffic {
    fn recorded(self, carried: usize) -> Vec<u8> {
        match self {
            Traffic::Pages => capture(page_frames(), carried, RECORDS),
            Traffic::Resets { payload, .. } => {
                capture(iter::repeat(reset(payload)), carried, RECORDS)
            }
        }
    }

    /// Each whole Reset has had its answer, and nothing else has been said after the 9Ah's.
    fn check_replies(self, capture: &[u8], said: &[u8]) {
        let Traffic::Resets { payload, status } = self else {
            return;
        };
        let resets = (carried_bytes(capture) - opening().len()) / reset(payload).len();
        let mut due = data_frame(&[ACK, replay_part().clock as u8, 0x00], LAST_FOOTER);
        due.extend(data_frame(&[status], LAST_FOOTER).repeat(resets));
        assert!(said == due, "a Reset of {payload} bytes: another answer");
    }
}

/// What proved, twin and control took for a capture that carries so many bytes.
struct Took {
    times: [f64; 3],
    bytes: usize,
}

impl Took {
    fn a_byte(&self, which: usize) -> f64 {
        self.times[which] / self.bytes as f64
    }
}

fn replay_row(name: &str, traffic: Traffic, carried: usize) -> Took {
    let capture = traffic.recorded(carried);
    let name = format!("replay of 10,000 records, {}: {name}", at_most(carried));
    let each: [Run; 3] = [&door_replay, &twin_replay, &control_replay];
    let times = quickest(&name, each, &capture, RUNS);
    traffic.check_replies(&capture, &door_replay(&capture).bytes);
    let bytes = carried_bytes(&capture);
    let a_record = a_unit(&times, RECORDS, "record");
    let a_byte = a_unit(&times, bytes, "byte");
    print_row(&name, &times, &format!("{a_record}; {a_byte}"));
    Took { times, bytes }
}

fn at_most(carried: usize) -> String {
    match carried {
        1 => "1 byte each".to_string(),
        more => format!("up to {more} bytes each"),
    }
}

/// All rows of 10,000 records, and whether a byte costs more in a longer frame; hands back the first row's times.
fn replay_rows() -> [f64; 3] {
    println!("replay (zc_replay): proved over twin, then proved, twin and control; the control works the SUM out anew at every byte");
    let sizes = [CARRIED, 1];
    let took =
        sizes.map(|carried| TRAFFICS.map(|(name, traffic)| replay_row(name, traffic, carried)));
    for (carried, [_, long, short]) in sizes.iter().zip(&took) {
        let name = format!(
            "a byte of LEN 00h over one of 5-byte frames, {}",
            at_most(*carried)
        );
        let grown = (0..3).map(|which| long.a_byte(which) / short.a_byte(which));
        let sums = [long, short].map(|took| took.a_byte(2) - took.a_byte(1));
        println!(
            "{name:63}   proved, twin and control {}; control less twin {} ns a byte",
            listed(grown),
            listed(sums)
        );
    }
    took[0][0].times
}

/// The new form beside the old on the same traffic, alone and with a record of seat 1 after each; and captures converted.
fn form_rows() {
    let old = Traffic::Pages.recorded(CARRIED);
    let new = in_new_form(&old);
    let both = of_two_seats(&new);
    let each: [Run; 2] = [&door_replay_new, &twin_replay_new];
    let name = "replay of 10,000 records of the new form (zc_replay_new)";
    let alone = row(name, (RECORDS, "record"), each, &new, RUNS);
    let name = "and 10,000 of seat 1 between them";
    let with_other = row(name, (2 * RECORDS, "record"), each, &both, RUNS);
    let name = "the old form's again (zc_replay)";
    let before = row(
        name,
        (RECORDS, "record"),
        [&door_replay, &twin_replay],
        &old,
        RUNS,
    );
    println!(
        "a record of the new form over one of the old, proved {:15.2}   (twin {:.2})",
        alone[0] / before[0],
        alone[1] / before[1]
    );
    println!(
        "a record of seat 1, skipped, proved and twin {}",
        a_unit(
            &[with_other[0] - alone[0], with_other[1] - alone[1]],
            RECORDS,
            "record"
        )
    );
    let units = (RECORDS * CONVERSIONS, "record");
    let each: [Run; 2] = [&door_to_new, &twin_to_new];
    row("old to new (zc_to_new)", units, each, &old, RUNS);
    let each: [Run; 2] = [&door_to_old, &twin_to_old];
    row("new to old (zc_to_old)", units, each, &new, RUNS);
}

/// So many pages over code flash that is laid so. Each round is answered with what is due, and nothing else is said after the 9Ah's answer.
fn page_row(name: &str, lay: Lay, pages: usize, sent: &[u8], due: &[u8]) {
    let rate = data_frame(&[ACK, replay_part().clock as u8, 0x00], LAST_FOOTER);
    let expected = [rate, due.repeat(STORES)].concat();
    assert!(
        door_pages(lay, sent).bytes == expected,
        "{name}: another answer"
    );
    let each: [Run; 2] = [&|sent| door_pages(lay, sent), &|sent| twin_pages(lay, sent)];
    row(name, (STORES * pages, "page"), each, sent, RUNS);
}

/// All code flash written with the pages: each is answered 06h 06h, and the last has its further 06h.
fn stored_row(name: &str, lay: Lay) {
    let pages_of_all = replay_part().size(Area::Code) / replay_part().page_size();
    let status = |statuses: &[u8]| data_frame(statuses, LAST_FOOTER);
    let (one, pair) = (status(&[ACK]), status(&[ACK, ACK]).repeat(pages_of_all));
    let due = [&one[..], &pair, &one].concat();
    page_row(name, lay, pages_of_all, &pages(), &due);
}

/// Pages over pages: the first page of each block, with a 40h of its own, 1Ch with mixed bytes; and the same pages again, 06h. The 1Ch comes first, since it is the
/// answer also where 40h asks for blank flash, as document 01 had it; there the other row ends the program.
fn write_over_rows() {
    let part = replay_part();
    let (blocks, size) = (part.blocks(Area::Code), part.block_size(Area::Code));
    let answers = [&[ACK][..], &[ACK, NOT_WRITTEN]].map(|said| data_frame(said, LAST_FOOTER));
    let sent: Vec<u8> = (0..blocks)
        .flat_map(|block| {
            let range = range_body(PROGRAM, block * size, part.end(Area::Code) - 1);
            let first = data_frame(&page(0, block, 0), MORE_FOOTER);
            [command_frame(&range), first].concat()
        })
        .collect();
    // Each of the pages has 1 bits where 5Ah has none.
    page_row(
        "a 40h and a page answered 1Ch (zc_feed)",
        &|code| code.fill(0x5A),
        blocks,
        &sent,
        &answers.concat().repeat(blocks),
    );
    let per_block = part.pages_of_block(Area::Code);
    let held: Vec<u8> = (0..blocks * per_block)
        .flat_map(|at| page(0, at / per_block, at % per_block))
        .collect();
    stored_row("the same page again (zc_feed)", &|code| {
        code.copy_from_slice(&held)
    });
}

/// All stretches of the traffic, one after the other. Chip, room and a place for what is said lie ready before the clock starts.
fn timed_door(
    traffic: &[u8],
    size: usize,
    each: impl Fn(&mut Door, &[u8], &mut [u8], &mut Vec<u8>),
) -> (f64, Said) {
    let (mut door, mut room) = (Door::fresh(&replay_part()), vec![0xA5; ROOM * size]);
    let mut said = Vec::with_capacity(traffic.len());
    let start = Instant::now();
    for stretch in black_box(traffic).chunks(size) {
        each(&mut door, stretch, &mut room, &mut said);
    }
    let time = start.elapsed().as_nanos() as f64;
    // The engine leaves the collected bytes past the count as they were, and the others do not.
    let held = usize::from(u16::from_le_bytes([door.state[25], door.state[26]]));
    door.state[33 + held..293].fill(0);
    (time, from_door(door, said))
}

fn timed_twin(traffic: &[u8], size: usize) -> (f64, Said) {
    let (mut player, mut room) = (Player::fresh(), vec![0xA5; ROOM * size]);
    let mut said = Vec::with_capacity(traffic.len());
    let start = Instant::now();
    for stretch in black_box(traffic).chunks(size) {
        let told = engine::play(
            &player.part,
            &mut player.chip,
            stretch,
            &mut player.code,
            &mut player.data,
            &mut player.sums,
            &mut room,
        )
        .expect("room for each byte");
        said.extend_from_slice(&room[..told.bytes]);
    }
    let time = start.elapsed().as_nanos() as f64;
    player.chip.collected[player.chip.count..].fill(0);
    (time, from_twin(player, said))
}

fn engine_row(name: &str, traffic: &[u8], size: usize) {
    let by_engine = || {
        timed_door(traffic, size, |door, stretch, room, said| {
            let bytes = door.engine(stretch, room);
            said.extend_from_slice(&room[..bytes]);
        })
    };
    let by_feed = || {
        timed_door(traffic, size, |door, stretch, _, said| {
            feed(door, stretch, said)
        })
    };
    let by_bytes = || {
        timed_door(traffic, size, |door, stretch, _, said| {
            for &byte in stretch {
                let bytes = door.byte(byte);
                said.extend_from_slice(&door.room[..bytes]);
            }
        })
    };
    let by_twin = || timed_twin(traffic, size);
    let each: [Timed; 4] = [&by_engine, &by_twin, &by_feed, &by_bytes];
    let name = format!("{name}, stretches of {} KiB (zc_engine)", size >> 10);
    let times = quickest_of(&name, each, RUNS);
    print_row(&name, &times, &a_unit(&times, traffic.len(), "byte"));
    println!(
        "the same by zc_feed and by zc_byte, over zc_engine {:17}{}",
        "",
        listed([times[2] / times[0], times[3] / times[0]])
    );
}

/// Stretches cut anywhere in the traffic, so that most begin and end within a frame.
fn engine_rows(pages: &[u8]) {
    println!("the plain engine: proved over the twin's engine, then zc_engine, the twin's engine, zc_feed and zc_byte");
    for kibibytes in [4, 16, 64] {
        engine_row("page traffic", pages, kibibytes << 10);
    }
    let resets = [opening(), reset(1).repeat(60_000)].concat();
    engine_row("5-byte frames", &resets, 4 << 10);
}

fn main() {
    let bytes = traffic(10);
    let n = bytes.len();
    println!(
        "proved over twin, {n} bytes of page traffic, least of {RUNS} runs{:14} ratio",
        ""
    );
    let rows: [(&str, &str, [Run; 2]); 5] = [
        (
            "the step itself (zp_steps), twin by value",
            "byte",
            [&pace_steps, &twin_steps],
        ),
        (
            "a byte at a time (zc_byte), twin by value",
            "byte",
            [&door_bytes, &twin_by_value],
        ),
        (
            "a byte at a time, twin by reference",
            "byte",
            [&door_bytes, &twin_bytes],
        ),
        (
            "a gap at a time: the door and the refusals alone",
            "call",
            [&door_gaps, &twin_gaps],
        ),
        (
            "stretches (zc_feed), twin a byte at a time by reference",
            "byte",
            [&door_feed, &twin_bytes],
        ),
    ];
    for (name, unit, each) in rows {
        row(name, (n, unit), each, &bytes, RUNS);
    }
    stored_row("a page stored (zc_feed), twin a byte at a time", &|code| {
        code.fill(ERASED)
    });
    engine_rows(&bytes);
    let few = replay_rows();
    form_rows();
    let large = capture(page_frames(), CARRIED, 1_000_000);
    let many = row(
        "replay of 1,000,000 records: page traffic",
        (1_000_000, "record"),
        [&door_replay, &twin_replay],
        &large,
        LONG_RUNS,
    );
    println!(
        "1,000,000 records over 100 times 10,000 records, proved {:13.3}   (twin {:.3})",
        many[0] / (100.0 * few[0]),
        many[1] / (100.0 * few[1])
    );
    let rehearsal = Rehearsal::new();
    row(
        "the dock: a frame asked for and its answer handed in",
        (JOBS * rehearsal.answers.len(), "frame"),
        [&|_| rehearsal.by_door(), &|_| rehearsal.by_twin()],
        &[],
        RUNS,
    );
    write_over_rows();
}
