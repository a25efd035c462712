//! Random cases of `reel write` and `reel read`: sizes, a text of records and an image, each often wrong in some way.
//! They are few and long: a reel has many blocks, and several of them are damaged.

use super::{images, texts};
use crate::random::Random;
use crate::reel::{read_image, Record};
use crate::reel_job::{write_reel, Sizes};
use crate::reel_make::{bytes_of, Parity};

/// One case: what is given to both tasks, a text to write and an image to read.
#[derive(Clone, Debug, PartialEq, Eq)]
pub struct Job {
    pub sizes: Sizes,
    pub text: Vec<u8>,
    pub image: Vec<u8>,
}

/// About so many words a text and a reel have at most.
const MOST_WORDS: u64 = 3_000;

/// Draws a case. Its number says what is wrong with it, so that a few cases in a row have some of everything.
pub fn draw(random: &mut Random, number: u64) -> Job {
    let fitting = fitting_sizes(random);
    let sizes = if number % 8 == 7 { wrong_sizes(random) } else { fitting };
    let mut lines = records(random, fitting);
    if number % 8 < 5 {
        let at = random.below(lines.len() as u64 + 1) as usize;
        lines.insert(at, wrong_line(random, fitting, number % 8));
    }
    let mut text = lines.join("\n").into_bytes();
    text.extend(random.pick(&[None, Some(b'\n'), Some(b'\n')]));
    Job { sizes, text, image: posted(random, fitting, number % 2 == 0) }
}

/// The options as they are given.
pub fn options_of(sizes: Sizes) -> String {
    let chosen = |option: &'static str, chosen: bool| if chosen { option } else { "" };
    let (sequence, check) = (chosen(" --sequence", sizes.sequence), chosen(" --check", sizes.check));
    format!("--block {} --record {}{sequence}{check}\n", sizes.block, sizes.record)
}

fn fitting_sizes(random: &mut Random) -> Sizes {
    // Both options in half of the cases, neither in an eighth.
    let [sequence, check] =
        random.pick(&[[true, true], [true, true], [true, true], [true, true], [true, false], [false, true]]);
    let neither = random.chance(1, 8);
    let (sequence, check) = (sequence && !neither, check && !neither);
    let most = 1_024 - u64::from(sequence || check);
    let (small, any) = (random.between(1, 12), random.between(1, most));
    let block = random.pick(&[small, small, small, small, any, most]);
    let (few, any) = (random.between(1, block.min(3)), random.between(1, block));
    Sizes { block, record: random.pick(&[few, few, any, block]), sequence, check }
}

fn wrong_sizes(random: &mut Random) -> Sizes {
    let (block, record) = random.pick(&[(0, 0), (4, 0), (4, 5), (1_025, 1), (65_535, 65_535), (1_024, 1)]);
    // With a check word 1,024 words are too many.
    Sizes { block, record, sequence: random.chance(1, 2), check: block == 1_024 || random.chance(1, 2) }
}

/// The lines of a good text.
fn records(random: &mut Random, sizes: Sizes) -> Vec<String> {
    let most = (MOST_WORDS / sizes.record).min(150);
    let marks = random.pick(&[0, 1, 4]);
    let line = |random: &mut Random| {
        if random.chance(marks, 24) {
            "MARK".to_string()
        } else {
            texts::words(random, sizes.record)
        }
    };
    (0..random.between(most / 2, most)).map(|_| line(random)).collect()
}

/// A line that is refused, mostly: with too many or too few words, about as long as lines may be, with a number that
/// is no word, or one that `reel make` refuses.
fn wrong_line(random: &mut Random, sizes: Sizes, sort: u64) -> String {
    match sort {
        0 => texts::words(random, sizes.record + 1),
        1 => texts::words(random, sizes.record - 1),
        2 => {
            let character = random.pick(&["x", "0", "F", "MARK"]);
            let mut line = character.repeat(10_256);
            line.truncate(random.between(10_236, 10_244) as usize);
            line
        }
        3 => {
            let at = 10 * random.below(sizes.record) as usize;
            let mut line = texts::words(random, sizes.record);
            line.replace_range(at..at + 1, random.pick(&["1", "8", "F"]));
            line
        }
        _ => texts::wrong(random),
    }
}

/// An image: a reel of these sizes, or seldom of others, with damaged blocks and perhaps a damaged record.
fn posted(random: &mut Random, sizes: Sizes, faulty: bool) -> Vec<u8> {
    let written = if random.chance(1, 6) { fitting_sizes(random) } else { sizes };
    let text = records(random, written).join("\n");
    let parity = random.pick(&[Parity::Odd, Parity::Even]);
    let mut records = read_image(&write_reel(text.as_bytes(), written, parity).output).records;
    for _ in 0..random.pick(&[0, 1, 3, 8]) {
        damage(random, &mut records, sizes);
    }
    let mut parts: Vec<Vec<u8>> = records.iter().map(|record| bytes_of(record, parity)).collect();
    if faulty {
        // In the second half, so that something is read before it.
        let half = parts.len() / 2;
        let at = half + random.below((parts.len() - half) as u64 + 1) as usize;
        parts.insert(at, images::damaged(random));
    }
    let mut image = parts.concat();
    if random.chance(1, 4) && !image.is_empty() {
        let half = image.len() / 2;
        let at = half + random.below((image.len() - half) as u64) as usize;
        if random.chance(1, 2) {
            image.truncate(at);
        } else {
            image[at] ^= 1 << random.below(8);
        }
    }
    image
}

/// A record lost, doubled or in another's place, a block of another size, or bits of a word that are changed.
fn damage(random: &mut Random, records: &mut Vec<Record>, sizes: Sizes) {
    if records.is_empty() {
        return;
    }
    let at = random.below(records.len() as u64) as usize;
    let other = random.below(records.len() as u64) as usize;
    match random.below(8) {
        0 => {
            records.remove(at);
        }
        1 => records.insert(at, records[other].clone()),
        2 => records.swap(at, other),
        3 => {
            let count = random.between(1, (sizes.block + 3).min(1_024));
            records.insert(at, Record::Block((0..count).map(|_| random.word()).collect()));
        }
        _ => {
            if let Record::Block(words) = &mut records[at] {
                let word = random.below(words.len() as u64) as usize;
                let last = words.len() - 1;
                words[random.pick(&[word, word, last])] ^= 1 << random.below(36);
            }
        }
    }
}
