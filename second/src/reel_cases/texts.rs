//! Random texts for `reel make`: good lines, and lines that are wrong in one way or in several.

use crate::random::Random;
use crate::text_faults::{spoil_text, TEXT_FAULTS};
use crate::word::ALL_ONES;

/// Lines that are nearly marks, or nearly words.
const NEARLY: [&str; 16] = [
    "mark",
    "Mark",
    "MARK ",
    " MARK",
    "MARKMARK",
    "MARK0000000001",
    "0000000001MARK",
    "MAR",
    "0000000001 0000000002",
    "0000000001,0000000002",
    "000000000a",
    "0x00000001",
    "-000000001",
    "000000001",
    "00000000001",
    "end, 4 bytes",
];

/// The smallest number that is no word, others of 40 bits, and the largest.
const TOO_LARGE: [u64; 5] = [1 << 36, (1 << 36) + 1, 1 << 37, 1 << 39, (1 << 40) - 1];

/// Draws a text: good lines, often with a wrong one among them, seldom with a fault of the whole text.
pub fn draw(random: &mut Random) -> Vec<u8> {
    let count = random.pick(&[0, 1, 2, 3, 5, 10]);
    let mut lines: Vec<String> = (0..count).map(|_| good(random)).collect();
    if random.chance(1, 2) {
        let at = random.below(lines.len() as u64 + 1) as usize;
        lines.insert(at, wrong(random));
    }
    let mut text: Vec<u8> = lines.iter().flat_map(|line| format!("{line}\n").into_bytes()).collect();
    if random.chance(1, 6) {
        let fault = random.pick(&TEXT_FAULTS);
        spoil_text(random, &mut text, fault);
    } else if random.chance(1, 5) {
        text.pop();
    }
    text
}

fn good(random: &mut Random) -> String {
    if random.chance(1, 4) {
        return "MARK".to_string();
    }
    let short = random.between(1, 8);
    let count = if random.chance(1, 12) { random.pick(&[1_023, 1_024]) } else { short };
    words(random, count)
}

/// So many words, now and then the smallest or the largest.
pub fn words(random: &mut Random, count: u64) -> String {
    let word = |random: &mut Random| {
        let any = random.word();
        random.pick(&[any, any, any, 0, 1, ALL_ONES])
    };
    (0..count).map(|_| format!("{:010X}", word(random))).collect()
}

/// A line that is refused; the lowest number of several wins.
pub fn wrong(random: &mut Random) -> String {
    let count = random.pick(&[1, 1, 2, 5, 1_024, 1_025, 1_025, 1_026, 3_000]);
    let mut line = words(random, count);
    match random.below(7) {
        0 => return random.pick(&NEARLY).to_string(),
        1 => return String::new(),
        2 | 3 => {
            let at = 10 * random.below(count) as usize;
            line.replace_range(at..at + 10, &format!("{:010X}", random.pick(&TOO_LARGE)));
        }
        4 => {
            line = words(random, 1_025);
        }
        5 => {
            let at = random.pick(&[0, line.len() - 1, line.len() / 2]);
            line.replace_range(at..at + 1, random.pick(&["g", "G", "f", " ", "\r", "\0", "/", ":", "@"]));
        }
        _ => {
            let left = line.len() - random.between(1, 9) as usize;
            line.truncate(left);
        }
    }
    line
}
