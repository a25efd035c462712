//! Sealing and checking ten thousand blocks of 1,024 words, the check word among them, with both fields chosen: the proved functions of the crate
//! `block`, linked in, against `second::blocks`.

use crate::{clock, row};
use second::blocks;
use second::random::Random;

extern "C" {
    fn block_seal(block: *mut u64, length: usize, n: usize, fields: u8, number: u16) -> u8;
    fn block_judge(block: *const u64, length: usize, fields: u8, number: u16) -> u16;
}

const BLOCKS: usize = 10_000;
const WORDS: usize = 1_024;
const BOTH: u8 = 3;

fn our_seal(block: &mut [u64], number: u16) -> u8 {
    // A slice passes as where it begins and how long it is; the function writes within it alone.
    unsafe { block_seal(block.as_mut_ptr(), block.len(), block.len() - 1, BOTH, number) }
}

fn our_judge(block: &[u64], number: u16) -> u16 {
    // The function only reads.
    unsafe { block_judge(block.as_ptr(), block.len(), BOTH, number) }
}

fn their_seal(block: &mut [u64], number: u16) -> u8 {
    let n = block.len() - 1;
    blocks::seal(block, n, u64::from(number), true, true).err().unwrap_or(0)
}

fn their_judge(block: &[u64], number: u16) -> u16 {
    match blocks::judge(block, u64::from(number), true, true) {
        Ok(judged) => u16::from(judged.error),
        Err(refusal) => u16::from(refusal) * 256,
    }
}

/// Block numbers, one after the other as a file has them.
fn number_of(i: usize) -> u16 {
    (i % 32_768) as u16
}

/// Prints a row each for sealing and checking, over blocks in the cache (one block again and again) and streamed from memory (all in a row).
pub fn measure(runs: usize) -> Result<(), String> {
    let mut random = Random::new(108);
    let first: Vec<u64> = (0..BLOCKS * WORDS).map(|_| random.word()).collect();
    let (mut ours, mut theirs) = (first.clone(), first);
    for (name, stride) in [("in cache", 0), ("streamed from memory", WORDS)] {
        let at = |i: usize| i * stride..i * stride + WORDS;
        let (our_time, their_time) = best(
            runs,
            || (0..BLOCKS).map(|i| u64::from(our_seal(&mut ours[at(i)], number_of(i)))).sum(),
            || (0..BLOCKS).map(|i| u64::from(their_seal(&mut theirs[at(i)], number_of(i)))).sum(),
        )?;
        row(&format!("sealing, {name}"), our_time, their_time);
        if ours != theirs {
            return Err("the sealed blocks differ".to_string());
        }
        let (our_time, their_time) = best(
            runs,
            || (0..BLOCKS).map(|i| u64::from(our_judge(&ours[at(i)], number_of(i)))).sum(),
            || (0..BLOCKS).map(|i| u64::from(their_judge(&theirs[at(i)], number_of(i)))).sum(),
        )?;
        row(&format!("checking, {name}"), our_time, their_time);
    }
    Ok(())
}

/// The best times of both, run by turns; what they come to must be the same in every run.
fn best(
    runs: usize,
    mut ours: impl FnMut() -> u64,
    mut theirs: impl FnMut() -> u64,
) -> Result<(f64, f64), String> {
    let (mut our_best, mut their_best) = (f64::MAX, f64::MAX);
    for _ in 0..runs {
        let begun = clock::own();
        let our_sum = ours();
        let between = clock::own();
        let their_sum = theirs();
        let ended = clock::own();
        if our_sum != their_sum {
            return Err(format!("the results differ: {our_sum} and {their_sum}"));
        }
        our_best = our_best.min(between - begun);
        their_best = their_best.min(ended - between);
    }
    Ok((our_best, their_best))
}
