//! The map of blocks that examples/map.c and examples/map.rs draw: written down here from 01's flow, and as this dock and this chip draw it from their sums
//! (02 §1). Both say what examples/map.stdout expects of the proved library.

use twin::map::{afresh, map};

const EXPECTED: &str = concat!(env!("CARGO_MANIFEST_DIR"), "/../examples/map.stdout");

/// What each frame of a block leaves in the map: blank from 22h on, or from the start; written with the first page; the image with the last.
const OLD_BLOCK: [(&str, char); 12] = [
    ("32h", 'o'),
    ("22h", '.'),
    ("40h", '.'),
    ("40h, page 0", 'w'),
    ("40h, page 1", 'w'),
    ("40h, page 2", 'w'),
    ("40h, page 3", '#'),
    ("13h", '#'),
    ("13h, page 0", '#'),
    ("13h, page 1", '#'),
    ("13h, page 2", '#'),
    ("13h, page 3", '#'),
];

/// The whole text by hand: blocks 6 and 7 are old and are erased first, 8 and 9 are blank and are not.
fn by_hand() -> String {
    let mut text = "by its sum alone a block is: . blank, o as at the start, w being written, # as the image has it\n".to_string();
    let mut code: Vec<char> = "oooooooo........".chars().collect();
    let mut frames = 0;
    let mut line = |code: &[char], after: String| {
        let code: String = code.iter().collect();
        let frame = match frames {
            0 => "taken up".to_string(),
            frame => format!("frame {frame:2}, {after}"),
        };
        text += &format!("code {code}  data oo..  {frame}\n");
        frames += 1;
    };
    line(&code, String::new());
    for command in ["9Ah", "00h", "C0h"] {
        line(&code, command.to_string());
    }
    for block in 6..10 {
        let is_old = code[block] == 'o';
        for (frame, mark) in OLD_BLOCK {
            if frame == "22h" && !is_old {
                continue;
            }
            if frame != "32h" {
                code[block] = mark;
            }
            let (command, page) = frame.split_at(3);
            line(&code, format!("{command}, block {block}{page}"));
        }
    }
    // 3 of the setup, 12 for each of the old blocks and 11 for each of the others.
    text += "finished, 49 frames, 0 retries\n";
    text += "01800h to 027FFh holds the image\n";
    text + "the kept sums are those worked out afresh\n"
}

#[test]
fn the_map_is_the_one_written_down() {
    let text = map(|player| assert_eq!(player.sums, afresh(player)));
    assert_eq!(text, by_hand());
    assert_eq!(std::fs::read_to_string(EXPECTED).unwrap(), text);
}
