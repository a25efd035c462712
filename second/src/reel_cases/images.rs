//! Random tape images: good ones, and ones that are damaged in one place or in several.

use crate::random::Random;
use crate::reel::{Record, MOST_LENGTH};
use crate::reel_make::{bytes_of, Parity};

/// A record as it is written: two lengths that may be wrong, and data that may be too short.
struct Drawn {
    first: u32,
    data: Vec<u8>,
    second: u32,
}

/// Lengths that no block has, or that stand for something else on a SIMH tape.
const OTHER_LENGTHS: [u32; 14] = [
    6_145,
    6_146,
    6_150,
    6_156,
    12_288,
    65_536,
    0x0001_0006,
    0x0100_0006,
    0x7FFF_FFFF,
    0x8000_0000,
    0x8000_0006,
    0xFFFE_FFFF,
    0xFFFF_FFFE,
    0xFFFF_FFFF,
];

/// Lengths that are no multiple of six.
const UNEVEN_LENGTHS: [u32; 16] = [1, 2, 3, 4, 5, 7, 8, 9, 10, 11, 13, 20, 6_137, 6_139, 6_142, 6_143];

/// A block of one word, a mark, a block of two words, a mark and a mark.
pub fn small() -> Vec<u8> {
    let records =
        [Record::Block(vec![0o123456]), Record::Mark, Record::Block(vec![1, 2]), Record::Mark, Record::Mark];
    records.iter().flat_map(|record| bytes_of(record, Parity::Odd)).collect()
}

/// Draws an image: good records, often with a damaged one among them, often damaged as bytes.
pub fn draw(random: &mut Random) -> Vec<u8> {
    let count = random.pick(&[0, 1, 2, 3, 4, 6, 12]);
    let parity = random.pick(&[Some(Parity::Odd), Some(Parity::Even), None]);
    let mut records: Vec<Vec<u8>> = (0..count).map(|_| good(random, parity)).collect();
    if random.chance(1, 2) {
        let at = random.below(records.len() as u64 + 1) as usize;
        records.insert(at, damaged(random));
    }
    let mut image = records.concat();
    if random.chance(1, 4) {
        damage_bytes(random, &mut image);
    }
    image
}

/// A good record; without a parity the two high bits of its data are any.
fn good(random: &mut Random, parity: Option<Parity>) -> Vec<u8> {
    if random.chance(1, 3) {
        return vec![0; 4];
    }
    let short = random.between(1, 20);
    let words = if random.chance(1, 15) { random.pick(&[1_022, 1_023, 1_024]) } else { short };
    let words: Vec<u64> = (0..words).map(|_| random.word()).collect();
    let mut bytes = bytes_of(&Record::Block(words), parity.unwrap_or(Parity::Odd));
    if parity.is_none() {
        let end = bytes.len() - 4;
        bytes[4..end].iter_mut().for_each(|byte| *byte ^= random.pick(&[0, 0x40, 0x80, 0xC0]));
    }
    bytes
}

/// A record with one fault or several.
pub fn damaged(random: &mut Random) -> Vec<u8> {
    let length = 6 * random.between(1, 4) as u32;
    let large = random.pick(&[6_138, MOST_LENGTH as u32]);
    let uneven = random.pick(&UNEVEN_LENGTHS);
    let other = random.pick(&OTHER_LENGTHS);
    let first = random.pick(&[length, length, large, uneven, uneven, other, other]);
    let drawn = Drawn { first, data: data_of(random, first), second: second_of(random, first) };
    let mut bytes = [&drawn.first.to_le_bytes()[..], &drawn.data, &drawn.second.to_le_bytes()].concat();
    if random.chance(1, 4) {
        bytes.truncate(random.below(bytes.len() as u64) as usize);
    }
    bytes
}

/// Mostly as many bytes as a length asks for, with the padding; a few fewer or more.
fn data_of(random: &mut Random, length: u32) -> Vec<u8> {
    let padded = if length <= 12_288 { length + length % 2 } else { random.pick(&[0, 6]) };
    let count = random.pick(&[padded, padded, padded, padded, length.min(padded), padded + 1, padded + 2]);
    (0..count).map(|_| random.below(256) as u8).collect()
}

/// The same length again, or one that differs in one bit, in the order of its bytes, or by a little.
fn second_of(random: &mut Random, first: u32) -> u32 {
    let bit = 1 << random.below(32);
    random.pick(&[
        first,
        first,
        first ^ bit,
        first.swap_bytes(),
        first.wrapping_add(1),
        first.wrapping_sub(6),
        first.wrapping_add(first % 2),
        0,
        u32::MAX,
    ])
}

/// A cut, bytes more or fewer or others, anywhere in the image.
fn damage_bytes(random: &mut Random, image: &mut Vec<u8>) {
    let at = random.below(image.len() as u64 + 1) as usize;
    match random.below(5) {
        0 | 1 => image.truncate(at),
        2 => image.insert(at, random.below(256) as u8),
        3 if at < image.len() => image[at] ^= 1 << random.below(8),
        _ => {
            let more = random.between(1, 9);
            image.extend((0..more).map(|_| random.pick(&[0, 0, 6, 255])));
        }
    }
}
