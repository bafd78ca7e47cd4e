//! A job rehearsed by this dock and this chip, with a map of the blocks after every frame, drawn from the kept sums alone (02 §1): what examples/map.c and
//! examples/map.rs must print where they print to no terminal.

use crate::chip::{Chip, Event, ERASED};
use crate::dock::{answer, ask, start, Job, Report, Stage, State, SMALLEST_ROOM};
use crate::part::{Area, Part};
use crate::replay::{replay_part, Player};
use crate::sums::{slot_of, sum_of, work_out, Sums, SUMS};

/// The job writes code blocks 6 to 9.
const START: usize = 0x1800;
const END: usize = 0x27FF;

/// What the blocks hold that are not blank at the start.
const OLD: u8 = 0x5A;
const ONE_WIRE: u8 = 0x3A;

/// Everything that the rehearsal prints. `heard` is shown the chip after each frame.
pub fn map(mut heard: impl FnMut(&Player)) -> String {
    let part = replay_part();
    let chip = Chip::fresh(&part).expect("the replay part is inside 01's numbers");
    let (code, data) = (half_old(&part, Area::Code), half_old(&part, Area::Data));
    let mut player = Player::taken_up(part.clone(), chip, code, data);
    player.hear(Event::Byte(ONE_WIRE));

    let job = Job {
        part,
        start: START as u64,
        end: END as u64,
        rate: 0,
        supply: 33,
        retries: 3,
    };
    let image: Vec<u8> = (0..END + 1 - START)
        .map(|at| (at * at / 5 + at / 256) as u8)
        .collect();
    let mut dock = start(&job, &image).expect("the job is good");

    let screen = Screen {
        at_start: player.sums,
        image: &image,
    };
    let mut lines = vec![
        "by its sum alone a block is: . blank, o as at the start, w being written, # as the image has it".to_string(),
        screen.drawn(&player, "taken up"),
    ];
    let (frames, retries) = loop {
        let mut room = [0; SMALLEST_ROOM];
        let length = ask(&job, &image, &mut dock, &mut room).expect("a frame is due");
        let mut said = player.hear(Event::Gap).bytes;
        for byte in &room[..length] {
            said.extend(player.hear(Event::Byte(*byte)).bytes);
        }
        heard(&player);
        lines.push(screen.drawn(&player, &named(&job, &dock)));
        match answer(&job, &image, &mut dock, &said).expect("an answer is awaited") {
            Report::GoesOn => (),
            Report::Finished { frames, retries } => break (frames, retries),
            failed => panic!("{failed:?}"),
        }
    };

    lines.push(format!("finished, {frames} frames, {retries} retries"));
    let holds = player.code[START..=END] == image;
    let verb = if holds { "holds" } else { "does not hold" };
    lines.push(format!("{START:05X}h to {END:05X}h {verb} the image"));
    let right = if player.sums == afresh(&player) {
        "those"
    } else {
        "not those"
    };
    lines.push(format!("the kept sums are {right} worked out afresh\n"));
    lines.join("\n")
}

/// Old bytes in the lower half of the area.
fn half_old(part: &Part, area: Area) -> Vec<u8> {
    let mut bytes = vec![ERASED; part.size(area)];
    bytes[..part.size(area) / 2].fill(OLD);
    bytes
}

/// The sums of the player's flash, whatever it has kept.
pub fn afresh(player: &Player) -> Sums {
    let mut sums = [0; SUMS];
    work_out(&player.part, &player.code, &player.data, &mut sums).expect("flash fits its part");
    sums
}

/// The frame that was handed out last.
fn named(job: &Job, dock: &State) -> String {
    let (command, block, page) = match dock.stage {
        Stage::Rate => ("9Ah", None, None),
        Stage::Reset => ("00h", None, None),
        Stage::Signature => ("C0h", None, None),
        Stage::Blank { block } => ("32h", Some(block), None),
        Stage::Erase { block } => ("22h", Some(block), None),
        Stage::Program { block } => ("40h", Some(block), None),
        Stage::ProgramPage { block, page } => ("40h", Some(block), Some(page)),
        Stage::Verify { block } => ("13h", Some(block), None),
        Stage::VerifyPage { block, page } => ("13h", Some(block), Some(page)),
        Stage::Finished | Stage::Failed(_) => unreachable!("a frame was handed out"),
    };
    let first = (START / job.block_size()) as u64;
    let block = block.map_or(String::new(), |block| format!(", block {}", first + block));
    let page = page.map_or(String::new(), |page| format!(", page {page}"));
    format!("frame {:2}, {command}{block}{page}", dock.frames)
}

/// What a kept sum is compared with.
struct Screen<'a> {
    at_start: Sums,
    image: &'a [u8],
}

impl Screen<'_> {
    fn drawn(&self, player: &Player, after: &str) -> String {
        let marks = |area: Area| -> String {
            let blocks = 0..player.part.blocks(area);
            blocks.map(|block| self.mark(player, area, block)).collect()
        };
        format!(
            "code {}  data {}  {after}",
            marks(Area::Code),
            marks(Area::Data)
        )
    }

    fn mark(&self, player: &Player, area: Area, block: usize) -> char {
        let slot = slot_of(area, block);
        let size = player.part.block_size(area);
        let first = player.part.start(area) + block * size;
        let wanted = (START..=END)
            .contains(&first)
            .then(|| sum_of(&self.image[first - START..first - START + size]));
        let kept = player.sums[slot];
        if wanted == Some(kept) {
            '#'
        } else if kept == sum_of(&vec![ERASED; size]) {
            '.'
        } else if kept == self.at_start[slot] {
            'o'
        } else {
            'w'
        }
    }
}
