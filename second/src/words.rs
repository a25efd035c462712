//! The subcommand `words`: answers cases about sums, check words, sealing and checking.

use crate::text::answer_lines;
use crate::word::{
    check, check_word, fold, is_word, logical_sum, next_number, number_field, seal, sum_field, Chosen,
    Judged, LAST_NUMBER,
};

/// Answers every case of `input`, one a line.
pub fn answer_cases(input: &str) -> Result<String, String> {
    answer_lines(input, answer_case)
}

/// Answers one case; the first number is its kind.
pub fn answer_case(case: &[u64]) -> Option<Vec<u64>> {
    match case {
        [1, n, words @ ..] => (words.len() as u64 == *n).then(|| answer_sum(words)),
        [2, sequence, check, number, sum] => {
            let chosen = chosen_of(*sequence, *check)?;
            (*number <= LAST_NUMBER && is_word(*sum)).then(|| answer_check_word(chosen, *number, *sum))
        }
        [3, len, n, sequence, check, number, words @ ..] => {
            let chosen = chosen_of(*sequence, *check)?;
            let data_words = usize::try_from(*n).ok()?;
            (words.len() as u64 == *len).then(|| answer_seal(words, data_words, chosen, *number))
        }
        [4, sequence, check, number, len, words @ ..] => {
            let chosen = chosen_of(*sequence, *check)?;
            (words.len() as u64 == *len).then(|| answer_check(words, chosen, *number))
        }
        _ => None,
    }
}

/// The choice that two numbers 0 or 1 give.
fn chosen_of(sequence: u64, check: u64) -> Option<Chosen> {
    let both = sequence <= 1 && check <= 1;
    both.then_some(Chosen { sequence: sequence == 1, check: check == 1 })
}

/// `small sum fold`; the sum of words that are not all small is given as 0.
fn answer_sum(words: &[u64]) -> Vec<u64> {
    let small = words.iter().all(|&word| is_word(word));
    let sum = if small { logical_sum(words) } else { 0 };
    vec![u64::from(small), sum, fold(sum)]
}

/// `checkword sumfield numberfield next`.
fn answer_check_word(chosen: Chosen, number: u64, sum: u64) -> Vec<u64> {
    let word = check_word(chosen, number, sum);
    vec![word, sum_field(word), number_field(word), next_number(number)]
}

/// The refusal, then the words afterwards.
fn answer_seal(words: &[u64], data_words: usize, chosen: Chosen, number: u64) -> Vec<u64> {
    let mut part = words.to_vec();
    let refusal = seal(&mut part, data_words, chosen, number).err().unwrap_or(0);
    let mut answer = vec![u64::from(refusal)];
    answer.extend(part);
    answer
}

/// `refusal error sum number sumread numberread`; a refused block has zeros.
fn answer_check(words: &[u64], chosen: Chosen, number: u64) -> Vec<u64> {
    let (refusal, judged) = match check(words, chosen, number) {
        Ok(judged) => (0, judged),
        Err(refusal) => (refusal, Judged::default()),
    };
    [&[u64::from(refusal), u64::from(judged.error)][..], &judged.fields.in_order()].concat()
}

#[cfg(test)]
mod tests {
    use super::*;

    fn answers(input: &str, output: &str) {
        assert_eq!(answer_cases(input).as_deref(), Ok(output), "{input}");
    }

    #[test]
    fn sums() {
        answers("1 0\n", "1 0 0\n");
        answers("1 2 1 2\n", "1 3 3\n");
        answers("1 2 68719476735 1\n", "1 1 1\n");
        answers("1 2 68719476735 68719476735\n", "1 68719476735 262143\n");
        answers("1 1 262144\n", "1 262144 1\n");
        answers("1 2 1 68719476736\n", "0 0 0\n");
    }

    #[test]
    fn check_words() {
        answers("2 1 1 1 3\n", "786433 3 1 2\n");
        answers("2 0 1 32767 3\n", "786432 3 0 0\n");
        answers("2 1 0 32767 3\n", "32767 0 32767 0\n");
        answers("2 0 0 7 3\n", "0 0 0 8\n");
    }

    #[test]
    fn sealing() {
        answers("3 3 2 1 1 1 1 2 9\n", "0 1 2 786433\n");
        answers("3 2 2 1 1 1 1 2\n", "1 1 2\n");
        answers("3 2 2 0 0 1 1 2\n", "0 1 2\n");
        answers("3 2 1 0 1 1 68719476736 2\n", "2 68719476736 2\n");
        answers("3 2 1 0 1 32768 68719476736 2\n", "1 68719476736 2\n");
        answers("3 1 0 1 0 5 9\n", "0 5\n");
        answers("3 0 0 0 0 5\n", "0\n");
    }

    #[test]
    fn checking() {
        answers("4 1 1 1 3 1 2 786433\n", "0 0 3 1 3 1\n");
        answers("4 1 1 2 3 1 2 786433\n", "0 1 3 2 3 1\n");
        answers("4 1 1 2 3 1 1 786433\n", "0 3 2 2 3 1\n");
        answers("4 0 1 2 3 1 1 786433\n", "0 2 2 2 3 1\n");
        answers("4 0 0 2 3 1 1 786433\n", "0 0 6 2 0 0\n");
        answers("4 0 0 2 0\n", "13 0 0 0 0 0\n");
        answers("4 1 0 2 1 2\n", "13 0 0 0 0 0\n");
        answers("4 1 0 65535 1 68719476736\n", "1 0 0 0 0 0\n");
        answers("4 1 0 6 1 68719476736\n", "2 0 0 0 0 0\n");
    }

    #[test]
    fn lines_that_are_no_case() {
        for line in ["", "0", "5 1", "1 2 7", "2 2 0 1 1", "2 1 1 32768 3", "3 1 0 0 0 1", "4 0 0 1 2 7"] {
            let input = line.to_string() + "\n";
            assert_eq!(answer_cases(&input), Err("line 1 is not understood".to_string()), "{line}");
        }
    }
}
