//! The subcommand `word-cases`: a fixed list of cases for `words`.
//!
//! A case is a line of decimal numbers of 64 bits, the first its kind, and has one line of numbers for an
//! answer. `sequence` and `check` are 0 or 1.
//!
//! - `1 n word ..`: n words. Answer: `small sum fold`; small is 1 if all are below 2^36, else the three are 0.
//! - `2 sequence check number sum`: a check word. Answer: `checkword sumfield numberfield next`, the next
//!   being the block number after this one.
//! - `3 len n sequence check number word ..`: seals the n data words at the front of the len words that
//!   follow. Answer: `refusal word ..`, the refusal or 0 and the len words afterwards.
//! - `4 sequence check number len word ..`: checks a block of len words. Answer (M-102): `refusal error sum
//!   number sumread numberread`, the error and directly after it the worked-out folded sum, the block
//!   number, and the two fields read; all five are 0 after a refusal.

use crate::random::Random;
use crate::word::{check_word, logical_sum, ones, Chosen, ALL_ONES, HALF_BITS, LAST_NUMBER, NUMBER_BITS};

const SEED: u64 = 7090;
const ALTERNATING: u64 = 0x5_5555_5555;
/// The smallest and the largest number that are no words.
const TOO_LARGE: [u64; 2] = [1 << 36, u64::MAX];
/// Numbers that are no block numbers.
const NO_NUMBERS: [u64; 2] = [32_768, 65_535];

const NEITHER: Chosen = Chosen { sequence: false, check: false };
const SEQUENCE: Chosen = Chosen { sequence: true, check: false };
const CHECK: Chosen = Chosen { sequence: false, check: true };
const BOTH: Chosen = Chosen { sequence: true, check: true };
const CHOICES: [Chosen; 4] = [NEITHER, SEQUENCE, CHECK, BOTH];

/// What the words of a case look like.
#[derive(Clone, Copy)]
enum Pattern {
    Ones,
    Zeros,
    Alternating,
    Opposite,
    Random,
}

const PATTERNS: [Pattern; 5] =
    [Pattern::Ones, Pattern::Zeros, Pattern::Alternating, Pattern::Opposite, Pattern::Random];

/// All cases, the four kinds in their order.
pub fn word_cases() -> Vec<Vec<u64>> {
    let mut random = Random::new(SEED);
    let mut cases = sum_cases(&mut random);
    cases.extend(check_word_cases(&mut random));
    cases.extend(seal_cases(&mut random));
    cases.extend(delivered_cases(&mut random));
    cases
}

/// `length` words of a pattern. Alternating bits also alternate from word to word.
fn words(random: &mut Random, pattern: Pattern, length: u64) -> Vec<u64> {
    let word = |place: u64| match pattern {
        Pattern::Ones => ALL_ONES,
        Pattern::Zeros => 0,
        Pattern::Alternating => ALTERNATING << (place % 2),
        Pattern::Opposite => (ALL_ONES - ALTERNATING) >> (place % 2),
        Pattern::Random => random.word(),
    };
    (0..length).map(word).collect()
}

/// Random words with a number that is no word at one place.
fn spoilt(random: &mut Random, length: usize, place: usize, value: u64) -> Vec<u64> {
    let mut words = words(random, Pattern::Random, length as u64);
    words[place] = value;
    words
}

/// Both numbers that are no words, each with the first, a middle and the last place of five.
fn spoilt_places() -> Vec<(u64, usize)> {
    TOO_LARGE.iter().flat_map(|&value| [0, 2, 4].map(|place| (value, place))).collect()
}

/// Kind 1: `1 n w1..wn`.
fn sum_case(words: &[u64]) -> Vec<u64> {
    [&[1, words.len() as u64], words].concat()
}

/// Kind 2: `2 sequence check number sum`.
fn check_word_case(chosen: Chosen, number: u64, sum: u64) -> Vec<u64> {
    vec![2, u64::from(chosen.sequence), u64::from(chosen.check), number, sum]
}

/// Kind 3: `3 len n sequence check number w1..wlen`.
fn seal_case(words: &[u64], data_words: usize, chosen: Chosen, number: u64) -> Vec<u64> {
    let (sequence, check) = (u64::from(chosen.sequence), u64::from(chosen.check));
    [&[3, words.len() as u64, data_words as u64, sequence, check, number], words].concat()
}

/// Kind 4: `4 sequence check number len w1..wlen`.
fn delivered_case(block: &[u64], chosen: Chosen, number: u64) -> Vec<u64> {
    let (sequence, check) = (u64::from(chosen.sequence), u64::from(chosen.check));
    [&[4, sequence, check, number, block.len() as u64], block].concat()
}

fn sum_cases(random: &mut Random) -> Vec<Vec<u64>> {
    let mut cases = vec![
        sum_case(&[]),
        sum_case(&[1, 2]),
        sum_case(&[ALL_ONES, 1]),
        sum_case(&[1, ALL_ONES]),
        sum_case(&[262_144]),
    ];
    for pattern in PATTERNS {
        for length in [1, 2, 3, random.between(4, 40)] {
            cases.push(sum_case(&words(random, pattern, length)));
        }
    }
    for (value, place) in spoilt_places() {
        cases.push(sum_case(&spoilt(random, 5, place, value)));
    }
    cases.extend(TOO_LARGE.map(|value| sum_case(&[value])));
    cases.push(sum_case(&words(random, Pattern::Ones, 1_024)));
    cases.push(sum_case(&words(random, Pattern::Random, 1_024)));
    cases
}

fn check_word_cases(random: &mut Random) -> Vec<Vec<u64>> {
    let mut cases = Vec::new();
    for chosen in CHOICES {
        for (number, sum) in [(0, 0), (1, 3), (1, 262_144), (0, ALTERNATING), (LAST_NUMBER, ALL_ONES)] {
            cases.push(check_word_case(chosen, number, sum));
        }
        for _ in 0..2 {
            cases.push(check_word_case(chosen, random.between(0, LAST_NUMBER), random.word()));
        }
    }
    cases
}

fn seal_cases(random: &mut Random) -> Vec<Vec<u64>> {
    let mut cases = Vec::new();
    cases.extend(seal_room_cases(random));
    cases.extend(seal_number_cases(random));
    cases.extend(seal_spoilt_cases(random));
    cases.extend(seal_long_cases(random));
    cases
}

/// Exact room, more room and no room for the block and its check word.
fn seal_room_cases(random: &mut Random) -> Vec<Vec<u64>> {
    let mut cases = Vec::new();
    for chosen in CHOICES {
        for (data_words, number) in [(0, 0), (1, 1), (2, 2), (3, LAST_NUMBER)] {
            let pattern = random.pick(&PATTERNS);
            let part = words(random, pattern, (data_words + chosen.e()) as u64);
            cases.push(seal_case(&part, data_words, chosen, number));
        }
        let data_words = random.between(4, 40) as usize;
        let number = random.between(0, LAST_NUMBER);
        let more = words(random, Pattern::Random, data_words as u64 + 4);
        cases.push(seal_case(&more, data_words, chosen, number));
        let none = words(random, Pattern::Random, (data_words + chosen.e() - 1) as u64);
        cases.push(seal_case(&none, data_words, chosen, number));
    }
    cases.push(seal_case(&[], 1_024, NEITHER, 1));
    cases
}

/// Numbers that are no block numbers, alone and with other faults.
fn seal_number_cases(random: &mut Random) -> Vec<Vec<u64>> {
    let mut cases = Vec::new();
    for number in NO_NUMBERS {
        cases.push(seal_case(&words(random, Pattern::Random, 4), 3, BOTH, number));
        cases.push(seal_case(&words(random, Pattern::Random, 4), 3, NEITHER, number));
        cases.push(seal_case(&spoilt(random, 4, 1, 1 << 36), 3, CHECK, number));
    }
    cases
}

/// A number that is no word among the data, behind them, and with no room.
fn seal_spoilt_cases(random: &mut Random) -> Vec<Vec<u64>> {
    let mut cases = Vec::new();
    for (value, place) in spoilt_places() {
        let part = spoilt(random, 6, place, value);
        for chosen in [BOTH, CHECK, SEQUENCE, NEITHER] {
            if chosen.check || place == 2 {
                cases.push(seal_case(&part, 5, chosen, 9));
            }
        }
    }
    cases.push(seal_case(&spoilt(random, 6, 5, u64::MAX), 5, BOTH, 10));
    cases.push(seal_case(&spoilt(random, 7, 6, 1 << 36), 5, CHECK, 11));
    cases.push(seal_case(&spoilt(random, 5, 4, 1 << 36), 5, CHECK, 12));
    cases
}

fn seal_long_cases(random: &mut Random) -> Vec<Vec<u64>> {
    vec![
        seal_case(&words(random, Pattern::Random, 1_025), 1_024, BOTH, 32_766),
        seal_case(&words(random, Pattern::Ones, 1_024), 1_024, NEITHER, 1),
    ]
}

/// A block that is right for its choice and number, check word last.
fn good_block(data: &[u64], chosen: Chosen, number: u64) -> Vec<u64> {
    let mut block = data.to_vec();
    if chosen.e() == 1 {
        block.push(check_word(chosen, number, logical_sum(data)));
    }
    block
}

fn delivered_cases(random: &mut Random) -> Vec<Vec<u64>> {
    let mut cases = Vec::new();
    cases.extend(good_cases(random));
    cases.extend(field_cases(random));
    cases.extend(not_chosen_cases(random));
    cases.extend(data_cases(random));
    cases.extend(refused_cases(random));
    cases.extend(delivered_long_cases(random));
    cases
}

/// Good blocks of each choice and several lengths and numbers.
fn good_cases(random: &mut Random) -> Vec<Vec<u64>> {
    let mut cases = Vec::new();
    for chosen in CHOICES {
        for length in [1, 2, 3, random.between(4, 40)] {
            let number = random.between(0, LAST_NUMBER);
            let pattern = random.pick(&PATTERNS);
            let data = words(random, pattern, length);
            cases.push(delivered_case(&good_block(&data, chosen, number), chosen, number));
        }
    }
    for number in [0, 1, LAST_NUMBER] {
        let data = words(random, Pattern::Random, 4);
        cases.push(delivered_case(&good_block(&data, BOTH, number), BOTH, number));
    }
    cases
}

/// Damage in the number field, the bits between the fields and the sum field, for each choice.
fn field_cases(random: &mut Random) -> Vec<Vec<u64>> {
    let number_bit = 1 << random.below(NUMBER_BITS.into());
    let sum_bit = 1 << random.between(HALF_BITS.into(), 35);
    let between = ones(HALF_BITS) - ones(NUMBER_BITS);
    let mut cases = Vec::new();
    for chosen in [SEQUENCE, CHECK, BOTH] {
        for damage in [number_bit, between, sum_bit, number_bit + sum_bit] {
            let number = random.between(0, LAST_NUMBER);
            let length = random.between(1, 6);
            let mut block = good_block(&words(random, Pattern::Random, length), chosen, number);
            let check_word_place = block.len() - 1;
            block[check_word_place] ^= damage;
            cases.push(delivered_case(&block, chosen, number));
        }
    }
    // The two forms of nothing in a carry-back sum, 0 and all ones, are not the same.
    cases.push(delivered_case(&[ALL_ONES, 0], CHECK, 1));
    cases.push(delivered_case(&[0, ones(HALF_BITS) << HALF_BITS], CHECK, 1));
    cases
}

/// Fields that are not chosen hold something, and blocks without a check word end with what could be one.
fn not_chosen_cases(random: &mut Random) -> Vec<Vec<u64>> {
    let mut cases = Vec::new();
    for chosen in [SEQUENCE, CHECK, NEITHER] {
        for damage in [0, 1] {
            let number = random.between(1, LAST_NUMBER);
            let data = words(random, Pattern::Random, 3);
            let mut block = good_block(&data, BOTH, number);
            block[3] ^= damage * (random.between(1, 7) << NUMBER_BITS);
            cases.push(delivered_case(&block, chosen, number));
            cases.push(delivered_case(&block, chosen, number - damage));
        }
        cases.push(delivered_case(&[5, ALL_ONES], chosen, LAST_NUMBER));
    }
    cases
}

/// Data words changed or swapped behind a check word that was right, and another number expected.
fn data_cases(random: &mut Random) -> Vec<Vec<u64>> {
    let mut cases = Vec::new();
    for chosen in CHOICES {
        let number = random.between(1, LAST_NUMBER);
        let block = good_block(&words(random, Pattern::Random, 5), chosen, number);
        let mut changed = block.clone();
        changed[3] ^= 1 << random.below(36);
        cases.push(delivered_case(&changed, chosen, number));
        cases.push(delivered_case(&changed, chosen, number - 1));
        let mut swapped = block.clone();
        swapped.swap(0, 4);
        cases.push(delivered_case(&swapped, chosen, number));
    }
    cases
}

/// Words that are no words, wrong numbers and blocks that are too short.
fn refused_cases(random: &mut Random) -> Vec<Vec<u64>> {
    let mut cases = Vec::new();
    for (value, place) in spoilt_places() {
        cases.push(delivered_case(&spoilt(random, 5, place, value), BOTH, 1));
    }
    cases.push(delivered_case(&spoilt(random, 5, 4, 1 << 36), NEITHER, 1));
    cases.push(delivered_case(&[1 << 36], SEQUENCE, 1));
    for number in NO_NUMBERS {
        cases.push(delivered_case(&words(random, Pattern::Random, 3), SEQUENCE, number));
        cases.push(delivered_case(&spoilt(random, 2, 0, u64::MAX), NEITHER, number));
    }
    cases.push(delivered_case(&[], BOTH, 32_768));
    for chosen in CHOICES {
        cases.push(delivered_case(&[], chosen, 1));
        cases.push(delivered_case(&good_block(&[], chosen, 1), chosen, 1));
    }
    cases
}

fn delivered_long_cases(random: &mut Random) -> Vec<Vec<u64>> {
    let good = good_block(&words(random, Pattern::Random, 1_024), BOTH, LAST_NUMBER);
    let mut damaged = good_block(&words(random, Pattern::Opposite, 1_023), CHECK, 0);
    damaged[1_022] ^= 1;
    vec![delivered_case(&good, BOTH, LAST_NUMBER), delivered_case(&damaged, CHECK, 0)]
}

#[cfg(test)]
mod tests {
    use super::*;
    use crate::text::lines_of;
    use crate::words::answer_case;

    fn answers_of_kind(kind: u64) -> Vec<Vec<u64>> {
        let cases = word_cases().into_iter().filter(|case| case[0] == kind);
        cases.map(|case| answer_case(&case).expect("a case")).collect()
    }

    #[test]
    fn the_list_keeps_its_size() {
        let cases = word_cases();
        assert!((140..=210).contains(&cases.len()), "{} cases", cases.len());
        assert!(lines_of(&cases).len() < 120_000);
        assert!((2..=8).contains(&cases.iter().filter(|case| case.len() > 500).count()));
        assert!(cases.iter().all(|case| case.len() < 1_100));
        assert!(cases.iter().all(|case| answer_case(case).is_some()));
    }

    #[test]
    fn sums_of_words_and_of_other_numbers_come_up() {
        let answers = answers_of_kind(1);
        assert!(answers.iter().filter(|answer| answer[0] == 1).count() >= 20);
        assert!(answers.iter().filter(|answer| answer[0] == 0).count() >= 6);
    }

    #[test]
    fn each_refusal_and_each_error_comes_up() {
        let sealed = answers_of_kind(3);
        for refusal in [0, 1, 2] {
            assert!(sealed.iter().filter(|answer| answer[0] == refusal).count() >= 6, "{refusal}");
        }
        let judged = answers_of_kind(4);
        for (refusal, error) in [(0, 0), (0, 1), (0, 2), (0, 3), (1, 0), (2, 0), (13, 0)] {
            let count = judged.iter().filter(|answer| answer[..2] == [refusal, error]).count();
            assert!(count >= 2, "{refusal} {error}: {count}");
        }
    }

    /// Each field that is found differs from the other of its pair, and is equal to it, with and without
    /// an error.
    #[test]
    fn fields_of_every_sort_come_up() {
        let cases = word_cases().into_iter().filter(|case| case[0] == 4);
        let judged: Vec<(Vec<u64>, Vec<u64>)> =
            cases.map(|case| (case[1..3].to_vec(), answer_case(&case).expect("a case"))).collect();
        let count = |sequence, check, wanted: fn(&[u64]) -> bool| {
            let of_choice =
                judged.iter().filter(|(chosen, answer)| *chosen == [sequence, check] && answer[0] == 0);
            of_choice.filter(|(_, answer)| wanted(answer)).count()
        };
        for (sequence, check) in [(0, 1), (1, 0), (1, 1)] {
            assert!(count(sequence, check, |answer| answer[2] == answer[4]) >= 2);
            assert!(count(sequence, check, |answer| answer[2] != answer[4] && answer[4] > 0) >= 2);
            assert!(count(sequence, check, |answer| answer[3] == answer[5]) >= 2);
            assert!(count(sequence, check, |answer| answer[3] != answer[5]) >= 2);
        }
        assert!(count(0, 0, |answer| answer[2] > 0 && answer[3] > 0 && answer[4..] == [0, 0]) >= 5);
    }

    #[test]
    fn swapped_data_words_are_still_good() {
        let mut random = Random::new(1);
        let swapped: Vec<Vec<u64>> = data_cases(&mut random).into_iter().skip(2).step_by(3).collect();
        assert_eq!(swapped.len(), 4);
        assert!(swapped.iter().all(|case| answer_case(case).expect("a case")[..2] == [0, 0]));
    }

    #[test]
    fn alternating_words_alternate() {
        let mut random = Random::new(1);
        let opposite = ALL_ONES - ALTERNATING;
        assert_eq!(words(&mut random, Pattern::Alternating, 3), [ALTERNATING, opposite, ALTERNATING]);
        assert_eq!(words(&mut random, Pattern::Opposite, 3), [opposite, ALTERNATING, opposite]);
    }
}
