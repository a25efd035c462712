//! The 36-bit word, its sums and the check word (document 01, "The check word").

/// "Bit S is the highest of 36."
pub const WORD_BITS: u32 = 36;
/// "The two 18-bit halves of the sum".
pub const HALF_BITS: u32 = 18;
/// "the address portion, the low 15 bits".
pub const NUMBER_BITS: u32 = 15;
/// A word with all 36 bits set.
pub const ALL_ONES: u64 = ones(WORD_BITS);
/// "pass from 32,767 to 0": the last block number.
pub const LAST_NUMBER: u64 = 32_767;

/// What a file's open chose for its check word.
#[derive(Clone, Copy, Debug, PartialEq, Eq)]
pub struct Chosen {
    pub sequence: bool,
    pub check: bool,
}

impl Chosen {
    /// "Let e be 1 if sequence or check is chosen, else 0": the count of check words in a block.
    pub fn e(self) -> usize {
        usize::from(self.sequence || self.check)
    }
}

/// The number whose `width` bits are all ones.
pub const fn ones(width: u32) -> u64 {
    (1 << width) - 1
}

/// Refusal 2 is for a word that "is 2^36 or more"; every other number is a word.
pub fn is_word(value: u64) -> bool {
    value < 1 << WORD_BITS
}

/// Adds two numbers of `width` bits; "a carry out of the top is added back at the bottom".
pub fn carry_back_add(left: u64, right: u64, width: u32) -> u64 {
    let plain = left + right;
    let carry = plain >> width;
    (plain & ones(width)) + carry
}

/// "The logical sum starts at 0 and adds each data word".
pub fn logical_sum(data: &[u64]) -> u64 {
    let mut sum = 0;
    for &word in data {
        sum = carry_back_add(sum, word, WORD_BITS);
    }
    sum
}

/// "The two 18-bit halves of the sum are added the same way."
pub fn fold(sum: u64) -> u64 {
    carry_back_add(sum >> HALF_BITS, sum & ones(HALF_BITS), HALF_BITS)
}

/// "That folded sum fills the first 18 bits if check sums are chosen; the block number fills the
/// address portion, the low 15 bits, if sequence is chosen. All else is zero."
pub fn check_word(chosen: Chosen, number: u64, sum: u64) -> u64 {
    let sum_bits = if chosen.check { fold(sum) } else { 0 };
    let number_bits = if chosen.sequence { number } else { 0 };
    sum_bits << HALF_BITS | number_bits
}

/// The first 18 bits of a check word: the folded sum.
pub fn sum_field(check_word: u64) -> u64 {
    check_word >> HALF_BITS
}

/// The low 15 bits of a check word: the block number.
pub fn number_field(check_word: u64) -> u64 {
    check_word & ones(NUMBER_BITS)
}

/// "block numbers ... go up by one for every block sealed or delivered, and pass from 32,767 to 0".
pub fn next_number(number: u64) -> u64 {
    if number == LAST_NUMBER {
        0
    } else {
        number + 1
    }
}

/// What the check of a block found (document 02, M-102): "the folded sum and the block number it worked
/// out, and the two fields it read".
#[derive(Clone, Copy, Debug, Default, PartialEq, Eq)]
pub struct Fields {
    pub sum: u64,
    pub number: u64,
    pub sum_read: u64,
    pub number_read: u64,
}

/// The check error of a block, and what its check found.
#[derive(Clone, Copy, Debug, Default, PartialEq, Eq)]
pub struct Judged {
    pub error: u8,
    pub fields: Fields,
}

impl Fields {
    /// "only the chosen fields are compared. Error 1 is sequence, 2 check sum, 3 both."
    pub fn error(self, chosen: Chosen) -> u8 {
        let sequence_error = chosen.sequence && self.number_read != self.number;
        let sum_error = chosen.check && self.sum_read != self.sum;
        u8::from(sequence_error) + 2 * u8::from(sum_error)
    }

    /// "worked-out sum and number first, then those read".
    pub fn in_order(self) -> [u64; 4] {
        [self.sum, self.number, self.sum_read, self.number_read]
    }

    pub fn of([sum, number, sum_read, number_read]: [u64; 4]) -> Fields {
        Fields { sum, number, sum_read, number_read }
    }
}

/// Judges a block, check word last. "With no check word the fields read are zero; fields not chosen are
/// still worked out."
pub fn judge(block: &[u64], chosen: Chosen, number: u64) -> Judged {
    let (data, check_words) = block.split_at(block.len() - chosen.e());
    let [sum_read, number_read] =
        check_words.first().map_or([0, 0], |&word| [sum_field(word), number_field(word)]);
    let fields = Fields { sum: fold(logical_sum(data)), number, sum_read, number_read };
    Judged { error: fields.error(chosen), fields }
}

/// Seals the block of `data_words` words at the start of `part`: its check word, if it has one, is
/// put behind them. A refusal number comes back with nothing changed.
pub fn seal(part: &mut [u64], data_words: usize, chosen: Chosen, number: u64) -> Result<(), u8> {
    // 1: no block number, or no room for the block and its check word.
    if number > LAST_NUMBER || data_words.saturating_add(chosen.e()) > part.len() {
        return Err(1);
    }
    // 2: "a buffer word that the call sums ... is 2^36 or more"; only chosen check sums are summed.
    let data = &part[..data_words];
    if chosen.check && !data.iter().all(|&word| is_word(word)) {
        return Err(2);
    }
    if chosen.e() == 1 {
        let sum = if chosen.check { logical_sum(data) } else { 0 };
        part[data_words] = check_word(chosen, number, sum);
    }
    Ok(())
}

/// Judges a block as delivered, check word last, or gives a refusal number.
pub fn check(block: &[u64], chosen: Chosen, number: u64) -> Result<Judged, u8> {
    // 1: no block number.
    if number > LAST_NUMBER {
        return Err(1);
    }
    // 2: "a given word ... is 2^36 or more".
    if !block.iter().all(|&word| is_word(word)) {
        return Err(2);
    }
    // 13: "A delivered block has 1 + e to B + e words".
    if block.len() < 1 + chosen.e() {
        return Err(13);
    }
    Ok(judge(block, chosen, number))
}

#[cfg(test)]
mod tests {
    use super::*;

    const NEITHER: Chosen = Chosen { sequence: false, check: false };
    const SEQUENCE: Chosen = Chosen { sequence: true, check: false };
    const CHECK: Chosen = Chosen { sequence: false, check: true };
    const BOTH: Chosen = Chosen { sequence: true, check: true };

    #[test]
    fn p1_words_1_2_fold_to_3_and_make_786433_with_block_1() {
        let sum = logical_sum(&[1, 2]);
        assert_eq!(fold(sum), 3);
        assert_eq!(check_word(BOTH, 1, sum), 786_433);
    }

    #[test]
    fn p2_all_ones_then_1_folds_to_1() {
        assert_eq!(fold(logical_sum(&[ALL_ONES, 1])), 1);
    }

    #[test]
    fn p3_two_words_of_all_ones_fold_to_262143() {
        assert_eq!(fold(logical_sum(&[ALL_ONES, ALL_ONES])), 262_143);
    }

    #[test]
    fn p4_the_word_0_folds_to_0() {
        assert_eq!(fold(logical_sum(&[0])), 0);
    }

    #[test]
    fn p5_the_word_262144_folds_to_1() {
        assert_eq!(fold(logical_sum(&[262_144])), 1);
    }

    #[test]
    fn p6_after_block_32767_comes_0() {
        assert_eq!(next_number(32_767), 0);
        assert_eq!(next_number(32_766), 32_767);
        assert_eq!(next_number(0), 1);
    }

    /// Every pair of 4-bit numbers, against the rule that the sum is the same modulo 15
    /// and is 0 only for two zeros.
    #[test]
    fn carry_back_addition_at_a_small_width() {
        for left in 0..16 {
            for right in 0..16 {
                let sum = carry_back_add(left, right, 4);
                assert!(sum < 16);
                assert_eq!(sum % 15, (left + right) % 15);
                assert_eq!(sum == 0, left == 0 && right == 0);
            }
        }
    }

    #[test]
    fn an_empty_block_sums_to_0() {
        assert_eq!(logical_sum(&[]), 0);
    }

    #[test]
    fn is_word_ends_at_2_to_36() {
        assert!(is_word(ALL_ONES));
        assert!(!is_word(1 << 36));
        assert!(!is_word(u64::MAX));
    }

    #[test]
    fn fields_not_chosen_are_zero_and_so_are_the_bits_between() {
        let sum = logical_sum(&[ALL_ONES]);
        assert_eq!(check_word(NEITHER, 32_767, sum), 0);
        assert_eq!(check_word(SEQUENCE, 32_767, sum), 32_767);
        assert_eq!(check_word(CHECK, 32_767, sum), 262_143 << 18);
        assert_eq!(check_word(BOTH, 32_767, sum), (262_143 << 18) + 32_767);
        assert_eq!(sum_field(check_word(BOTH, 5, 77)), 77);
        assert_eq!(number_field(check_word(BOTH, 5, 77)), 5);
    }

    #[test]
    fn seal_puts_the_check_word_behind_the_data_and_changes_nothing_else() {
        let mut part = [1, 2, 9, 9];
        assert_eq!(seal(&mut part, 2, BOTH, 1), Ok(()));
        assert_eq!(part, [1, 2, 786_433, 9]);
        assert_eq!(seal(&mut part, 4, NEITHER, 1), Ok(()));
        assert_eq!(part, [1, 2, 786_433, 9]);
    }

    #[test]
    fn seal_refuses_1_for_room_and_number() {
        let mut part = [1, 2];
        assert_eq!(seal(&mut part, 2, SEQUENCE, 1), Err(1));
        assert_eq!(seal(&mut part, 3, NEITHER, 1), Err(1));
        assert_eq!(seal(&mut part, usize::MAX, SEQUENCE, 1), Err(1));
        assert_eq!(seal(&mut part, 1, BOTH, 32_768), Err(1));
        assert_eq!(part, [1, 2]);
    }

    /// Reading A23: only chosen check sums are summed, so only they meet a spoilt word.
    #[test]
    fn a23_seal_refuses_2_only_if_it_sums() {
        let spoilt = [1, 1 << 36, 7];
        for (chosen, refused) in [(NEITHER, false), (SEQUENCE, false), (CHECK, true), (BOTH, true)] {
            let mut part = spoilt;
            assert_eq!(seal(&mut part, 2, chosen, 4).is_err(), refused);
            assert_eq!(part[..2], spoilt[..2]);
            if refused {
                assert_eq!(part, spoilt);
            }
        }
        let mut part = [1, 7, 1 << 36];
        assert_eq!(seal(&mut part, 1, CHECK, 4), Ok(()));
    }

    /// The error, and the fields in their order.
    fn judged(error: u8, fields: [u64; 4]) -> Result<Judged, u8> {
        Ok(Judged { error, fields: Fields::of(fields) })
    }

    #[test]
    fn check_tells_each_error_and_what_was_found() {
        assert_eq!(check(&[1, 2, 786_433], BOTH, 1), judged(0, [3, 1, 3, 1]));
        assert_eq!(check(&[1, 2, 786_433], BOTH, 2), judged(1, [3, 2, 3, 1]));
        assert_eq!(check(&[1, 3, 786_433], BOTH, 1), judged(2, [4, 1, 3, 1]));
        assert_eq!(check(&[1, 3, 786_433], BOTH, 2), judged(3, [4, 2, 3, 1]));
        assert_eq!(check(&[ALL_ONES, ALL_ONES], BOTH, 0), judged(1, [262_143, 0, 262_143, 32_767]));
    }

    /// Readings H3 and H5: without a check word sum and number are worked out all the same, and the last
    /// data word is not taken for one.
    #[test]
    fn h5_without_a_check_word_nothing_is_read() {
        assert_eq!(check(&[5], NEITHER, 1), judged(0, [5, 1, 0, 0]));
        assert_eq!(check(&[1, 2, 786_433], NEITHER, 32_767), judged(0, [7, 32_767, 0, 0]));
        assert_eq!(check(&[0], NEITHER, 0), judged(0, [0; 4]));
    }

    /// Readings H3, H4 and H6: a field that is not chosen is worked out, and read as it stands; the bits
    /// between the fields show nowhere.
    #[test]
    fn h4_fields_that_are_not_chosen() {
        let word = (9 << 18) + (5 << 15) + 7;
        assert_eq!(check(&[1, 2, word], SEQUENCE, 7), judged(0, [3, 7, 9, 7]));
        assert_eq!(check(&[1, 2, word], SEQUENCE, 6), judged(1, [3, 6, 9, 7]));
        assert_eq!(check(&[4, 5, word], CHECK, 6), judged(0, [9, 6, 9, 7]));
        assert_eq!(check(&[4, 6, word], CHECK, 7), judged(2, [10, 7, 9, 7]));
        assert_eq!(check(&[4, 6, 0], SEQUENCE, 0), judged(0, [10, 0, 0, 0]));
    }

    /// Reading C11: bits between the fields and fields not chosen may hold anything.
    #[test]
    fn c11_only_chosen_fields_are_compared() {
        let between = 7 << 15;
        let error = |block: &[u64], chosen, number| judge(block, chosen, number).error;
        assert_eq!(error(&[1, 2, 786_433 + between], BOTH, 1), 0);
        assert_eq!(error(&[1, 2, ALL_ONES - 32_767 + 1], SEQUENCE, 1), 0);
        assert_eq!(error(&[1, 2, 786_433 + between + 500], CHECK, 1), 0);
    }

    #[test]
    fn check_refuses_the_lowest_number() {
        assert_eq!(check(&[1 << 36], BOTH, 32_768), Err(1));
        assert_eq!(check(&[1 << 36], BOTH, 1), Err(2));
        assert_eq!(check(&[1, 1 << 36], SEQUENCE, 1), Err(2));
        assert_eq!(check(&[1], BOTH, 1), Err(13));
        assert_eq!(check(&[], NEITHER, 1), Err(13));
    }
}
