//! Sealing and checking a block as fast as plain Rust goes (document 02, M-108): the program that another
//! one is measured against. Every word is looked at once; the sum is a plain one of 64 bits, and the
//! carries are put back at its end.
//!
//! A block has at most 1,024 words, so that a sum stays far below 2^64; it is right up to 2^28 words.

use crate::word::{ones, Fields, Judged, ALL_ONES, HALF_BITS, LAST_NUMBER, NUMBER_BITS, WORD_BITS};

/// The bits of a block number in a check word.
const NUMBER_ONES: u64 = ones(NUMBER_BITS);

/// Seals the block of the first `n` words: its check word, if sequence or check sums are chosen, is put
/// behind them. Refused 1 if the block number is above 32,767 or there is no room for the block and
/// its check word; 2 if check sums are chosen and a data word is 2^36 or more. A refusal changes nothing.
pub fn seal(words: &mut [u64], n: usize, number: u64, sequence: bool, check: bool) -> Result<(), u8> {
    let has_check_word = sequence | check;
    if number > LAST_NUMBER || n.saturating_add(usize::from(has_check_word)) > words.len() {
        return Err(1);
    }
    let (data, rest) = words.split_at_mut(n);
    let mut made = 0;
    if check {
        let totals = totals_of(data);
        if totals.any_too_large() {
            return Err(2);
        }
        made = totals.folded() << HALF_BITS;
    }
    if sequence {
        made |= number;
    }
    if let (true, Some(place)) = (has_check_word, rest.first_mut()) {
        *place = made;
    }
    Ok(())
}

/// Judges a block as delivered, check word last: its check error, 1 sequence, 2 check sum, 3 both, and the
/// sum and number that were worked out and read (M-102).
/// Refused 1 if the block number is above 32,767; 2 if any word is 2^36 or more; 13 if the block has
/// fewer than 1 + e words.
pub fn judge(words: &[u64], number: u64, sequence: bool, check: bool) -> Result<Judged, u8> {
    if number > LAST_NUMBER {
        return Err(1);
    }
    let has_check_word = sequence | check;
    let (data, found) = match words.split_last() {
        Some((&last, data)) if has_check_word => (data, last),
        _ => (words, 0),
    };
    let totals = totals_of(data);
    if totals.any_too_large() || found > ALL_ONES {
        return Err(2);
    }
    if data.is_empty() {
        return Err(13);
    }
    let fields = Fields {
        sum: totals.folded(),
        number,
        sum_read: found >> HALF_BITS,
        number_read: found & NUMBER_ONES,
    };
    let sequence_error = sequence && fields.number_read != number;
    let sum_error = check && fields.sum_read != fields.sum;
    Ok(Judged { error: u8::from(sequence_error) | u8::from(sum_error) << 1, fields })
}

/// What one pass over a block finds.
#[derive(Clone, Copy, Debug, PartialEq, Eq)]
struct Totals {
    /// The plain sum.
    sum: u64,
    /// Every bit that some word has.
    bits: u64,
}

/// The one pass: no test and no carry inside it, so that several words can be taken at a time.
#[inline]
fn totals_of(words: &[u64]) -> Totals {
    let start = Totals { sum: 0, bits: 0 };
    words
        .iter()
        .fold(start, |totals, &word| Totals { sum: totals.sum.wrapping_add(word), bits: totals.bits | word })
}

impl Totals {
    fn any_too_large(self) -> bool {
        self.bits > ALL_ONES
    }

    /// The logical sum with its halves added. What `carried` gives differs from what it takes by a
    /// multiple of all ones, and is 0 only for 0; so does, and is, what one carry after the other gives.
    fn folded(self) -> u64 {
        let sum = carried(carried(self.sum, WORD_BITS), WORD_BITS);
        carried(carried(sum, HALF_BITS), HALF_BITS)
    }
}

/// What is above `bits` bits is added at the bottom. That may carry once more, so it is done twice.
#[inline]
fn carried(sum: u64, bits: u32) -> u64 {
    (sum & ones(bits)) + (sum >> bits)
}

#[cfg(test)]
mod tests {
    use super::*;
    use crate::random::Random;
    use crate::word::{self, Chosen};

    const CHOICES: [Chosen; 4] = [
        Chosen { sequence: false, check: false },
        Chosen { sequence: true, check: false },
        Chosen { sequence: false, check: true },
        Chosen { sequence: true, check: true },
    ];

    /// Blocks with sums that carry not at all, once, and as often as there are words.
    fn block(random: &mut Random) -> Vec<u64> {
        let count = random.pick(&[0, 1, 2, 3, 4, 7, 8, 15, 16, 17, 63, 1_022, 1_023, 1_024, 1_025]);
        let sort = random.below(5);
        let word = |random: &mut Random| match sort {
            0 => random.word(),
            1 => ALL_ONES,
            2 => ALL_ONES - random.below(2),
            3 => random.below(3),
            _ => random.pick(&[0, 1, 262_143, 262_144, ALL_ONES]),
        };
        let mut words: Vec<u64> = (0..count).map(|_| word(random)).collect();
        if count > 0 && random.chance(1, 5) {
            let at = random.pick(&[0, count - 1, count / 2]) as usize;
            words[at] = random.pick(&[1 << 36, (1 << 36) + 5, 1 << 63, u64::MAX]);
        }
        words
    }

    fn number(random: &mut Random) -> u64 {
        random.pick(&[0, 1, 2, 32_766, 32_767, 32_768, u64::MAX])
    }

    /// Sealed like the plain one, word for word, with every count of data words that may be right.
    #[test]
    fn seals_like_the_plain_one() {
        let mut random = Random::new(108);
        let mut met = [0; 3];
        for _ in 0..4_000 {
            let words = block(&mut random);
            let number = number(&mut random);
            for chosen in CHOICES {
                for n in [words.len(), words.len().wrapping_sub(1), words.len() / 2, usize::MAX] {
                    let (mut fast, mut plain) = (words.clone(), words.clone());
                    let answer = seal(&mut fast, n, number, chosen.sequence, chosen.check);
                    assert_eq!(answer, word::seal(&mut plain, n, chosen, number));
                    assert_eq!(fast, plain);
                    assert!(answer.is_ok() || fast == words);
                    met[answer.err().unwrap_or(0) as usize] += 1;
                }
            }
        }
        assert!(met.iter().all(|&count| count >= 500), "{met:?}");
    }

    /// Judged like the plain one, blocks of any words and blocks that are right but for one field.
    #[test]
    fn judges_like_the_plain_one() {
        let mut random = Random::new(109);
        let (mut refused, mut errors) = ([0; 14], [0; 4]);
        for _ in 0..4_000 {
            let mut words = block(&mut random);
            let number = number(&mut random);
            for chosen in CHOICES {
                let sealed = words.len().saturating_sub(1);
                if random.chance(2, 3) {
                    let sealing = number.wrapping_sub(random.below(2)) & NUMBER_ONES;
                    _ = word::seal(&mut words, sealed, chosen, sealing);
                    words.first_mut().into_iter().for_each(|word| *word ^= random.below(2));
                }
                let answer = judge(&words, number, chosen.sequence, chosen.check);
                assert_eq!(answer, word::check(&words, chosen, number));
                match answer {
                    Ok(judged) => errors[usize::from(judged.error)] += 1,
                    Err(refusal) => refused[usize::from(refusal)] += 1,
                }
            }
        }
        assert!(errors.iter().all(|&count| count >= 200), "{errors:?}");
        assert!([1, 2, 13].iter().all(|&number| refused[number] >= 200), "{refused:?}");
    }

    /// The marked examples P1 to P5.
    #[test]
    fn marked_examples() {
        for (words, folded) in
            [(&[1, 2][..], 3), (&[ALL_ONES, 1], 1), (&[ALL_ONES; 2], 262_143), (&[0], 0), (&[262_144], 1)]
        {
            assert_eq!(totals_of(words).folded(), folded);
        }
        let mut words = [1, 2, 9, 9];
        assert_eq!(seal(&mut words, 2, 1, true, true), Ok(()));
        assert_eq!(words, [1, 2, 786_433, 9]);
        let fields = Fields::of([3, 1, 3, 1]);
        assert_eq!(judge(&words[..3], 1, true, true), Ok(Judged { error: 0, fields }));
    }

    /// A sum that is not 0 folds to what it is modulo 2^18 - 1, and to that number instead of 0; also sums
    /// of more words than a block has, in which a carry carries once more.
    #[test]
    fn sums_of_up_to_2_to_28_words() {
        let folded = |sum| Totals { sum, bits: 0 }.folded();
        let mut random = Random::new(110);
        for high in [0, 1, 1_023, 1 << 18, (1 << 18) + 1, (1 << 28) - 1] {
            for low in [0, 1, 262_143, 262_144, ALL_ONES - 1, ALL_ONES, random.word()] {
                let sum: u64 = high << WORD_BITS | low;
                let expected = if sum == 0 { 0 } else { (sum - 1) % ones(HALF_BITS) + 1 };
                assert_eq!(folded(sum), expected, "{high} {low}");
            }
        }
    }

    /// As many carries as 1,024 words can have, and sums near every power of two that a sum can meet.
    #[test]
    fn carries_are_put_back() {
        for count in [1, 2, 3, 1_023, 1_024] {
            let all_ones = vec![ALL_ONES; count];
            assert_eq!(totals_of(&all_ones).folded(), word::fold(word::logical_sum(&all_ones)));
            for bit in 0..36 {
                let near = [vec![ALL_ONES; count - 1], vec![1 << bit]].concat();
                assert_eq!(totals_of(&near).folded(), word::fold(word::logical_sum(&near)));
            }
        }
    }
}
