//! The subcommand `reel make` (document 02, M-100): a tape image made of the lines that `reel words`
//! writes.

use crate::reel::{Record, Written, CHARACTER_BITS, LENGTH_BYTES, WORD_CHARACTERS};
use crate::text::byte_lines;
use crate::word::is_word;

/// "blocks have 1 to 1,024 words".
const MOST_WORDS: usize = 1_024;
/// "ten upper-case hexadecimal digits each".
const WORD_DIGITS: usize = 10;

/// "odd for binary, even for BCD".
#[derive(Clone, Copy, Debug, PartialEq, Eq)]
pub enum Parity {
    Odd,
    Even,
}

/// Makes the image of a text, up to the first line that is refused. A last line without a line feed
/// counts.
pub fn make_image(text: &[u8], parity: Parity) -> Written {
    let mut output = Vec::new();
    for (index, line) in byte_lines(text).into_iter().enumerate() {
        match record_of(line) {
            Ok(record) => output.extend(bytes_of(&record, parity)),
            Err(number) => return Written { output, refusal: Some(refusal_text(number, index + 1)) },
        }
    }
    Written { output, refusal: None }
}

/// The record of a line, or a refusal. Choice: `MARK` is a mark in just these four characters; with
/// anything around it, it has characters that no words have.
fn record_of(line: &[u8]) -> Result<Record, u64> {
    if line == b"MARK" {
        return Ok(Record::Mark);
    }
    let words = words_of_line(line).ok_or(1_u64)?;
    if !words.iter().all(|&word| is_word(word)) {
        return Err(2);
    }
    if !(1..=MOST_WORDS).contains(&words.len()) {
        return Err(13);
    }
    Ok(Record::Block(words))
}

/// The words of a line, each of ten digits and so perhaps too large; nothing if other characters stand there or the
/// digits are no multiple of ten.
pub fn words_of_line(line: &[u8]) -> Option<Vec<u64>> {
    let digits: Option<Vec<u64>> = line.iter().map(|&byte| digit_of(byte)).collect();
    let digits = digits.filter(|digits| digits.len() % WORD_DIGITS == 0)?;
    let word = |digits: &[u64]| digits.iter().fold(0, |word, digit| word << 4 | digit);
    Some(digits.chunks_exact(WORD_DIGITS).map(word).collect())
}

/// The value of an upper-case hexadecimal digit.
fn digit_of(byte: u8) -> Option<u64> {
    match byte {
        b'0'..=b'9' => Some(u64::from(byte - b'0')),
        b'A'..=b'F' => Some(u64::from(byte - b'A') + 10),
        _ => None,
    }
}

/// The bytes of a record. Six bytes a word are an even count: no block needs padding.
pub fn bytes_of(record: &Record, parity: Parity) -> Vec<u8> {
    let Record::Block(words) = record else {
        return vec![0; LENGTH_BYTES];
    };
    let data: Vec<u8> = words.iter().flat_map(|&word| characters_of(word, parity)).collect();
    let length = (data.len() as u32).to_le_bytes();
    [&length[..], &data, &length].concat()
}

/// The six characters of a word, leftmost first, each with its parity.
fn characters_of(word: u64, parity: Parity) -> [u8; WORD_CHARACTERS] {
    std::array::from_fn(|place| {
        let shift = CHARACTER_BITS as usize * (WORD_CHARACTERS - 1 - place);
        with_parity((word >> shift & 0o77) as u8, parity)
    })
}

/// "Parity goes in the next bit": it makes the ones of the low seven bits odd or even.
fn with_parity(character: u8, parity: Parity) -> u8 {
    let is_odd = character.count_ones() % 2 == 1;
    if is_odd == (parity == Parity::Odd) {
        character
    } else {
        character | 1 << CHARACTER_BITS
    }
}

fn refusal_text(number: u64, line: usize) -> String {
    let sentence = match number {
        1 => "this is no line of words",
        2 => "a word is 2^36 or more",
        _ => "a block has 1 to 1,024 words",
    };
    format!("refused {number} at line {line}: {sentence}")
}

#[cfg(test)]
mod tests {
    use super::*;
    use crate::random::Random;
    use crate::reel::{read_image, show_image, Form};

    const ONE: &str = "0000000001";

    #[test]
    fn bytes_of_blocks_and_marks() {
        let made = |parity| make_image(b"00000000010FFFFFFFFF\nMARK\n00420C4146", parity);
        let odd = [
            12, 0, 0, 0, 64, 64, 64, 64, 64, 1, 127, 127, 127, 127, 127, 127, 12, 0, 0, 0, // a block
            0, 0, 0, 0, // a mark
            6, 0, 0, 0, 1, 2, 67, 4, 69, 70, 6, 0, 0, 0, // a block
        ];
        assert_eq!(made(Parity::Odd), Written { output: odd.to_vec(), refusal: None });
        let even = [
            12, 0, 0, 0, 0, 0, 0, 0, 0, 65, 63, 63, 63, 63, 63, 63, 12, 0, 0, 0, // a block
            0, 0, 0, 0, // a mark
            6, 0, 0, 0, 65, 66, 3, 68, 5, 6, 6, 0, 0, 0, // a block
        ];
        assert_eq!(made(Parity::Even), Written { output: even.to_vec(), refusal: None });
    }

    #[test]
    fn parity_of_every_character() {
        for character in 0..64 {
            for (parity, rest) in [(Parity::Odd, 1), (Parity::Even, 0)] {
                let byte = with_parity(character, parity);
                assert_eq!((byte & 0o77, byte >> 7), (character, 0));
                assert_eq!(byte.count_ones() % 2, rest);
            }
        }
    }

    /// The line after a good one is refused; what was made of the good one stands.
    fn refuses(line: &str, number: u64) {
        let text = format!("{ONE}\n{line}\nMARK\n");
        let written = make_image(text.as_bytes(), Parity::Odd);
        let refusal = written.refusal.unwrap_or_default();
        assert!(refusal.starts_with(&format!("refused {number} at line 2: ")), "{line:?}: {refusal}");
        assert_eq!(written.output.len(), 14);
    }

    #[test]
    fn refused_lines() {
        let long = ONE.repeat(1_025);
        let large = format!("{long}1000000000");
        for (line, number) in [
            ("", 13),
            (long.as_str(), 13),
            (large.as_str(), 2),
            ("1000000000", 2),
            ("FFFFFFFFFF", 2),
            ("00000000011000000000", 2),
            ("0", 1),
            ("000000001", 1),
            ("00000000001", 1),
            ("100000000", 1),
            ("00000000a1", 1),
            ("000000000G", 1),
            ("mark", 1),
            ("Mark", 1),
            ("MARK ", 1),
            (" MARK", 1),
            ("MARKMARK", 1),
            ("MARK\r", 1),
            ("0000000001\r", 1),
            ("0000000001 0000000001", 1),
            ("end, 4 bytes", 1),
            ("-000000001", 1),
            ("0x00000001", 1),
        ] {
            refuses(line, number);
        }
        refuses(&format!("{large}x"), 1);
        refuses(&format!("{large}0"), 1);
    }

    #[test]
    fn refusals_as_they_are_told() {
        let told = |text: &str| make_image(text.as_bytes(), Parity::Odd).refusal;
        assert_eq!(told("x").as_deref(), Some("refused 1 at line 1: this is no line of words"));
        assert_eq!(told("MARK\nF000000000").as_deref(), Some("refused 2 at line 2: a word is 2^36 or more"));
        assert_eq!(told("MARK\n\n").as_deref(), Some("refused 13 at line 2: a block has 1 to 1,024 words"));
        assert_eq!(told("MARK\n"), None);
        assert_eq!(make_image(b"", Parity::Odd), Written { output: vec![], refusal: None });
    }

    /// "What we write, we read back as the same blocks and marks", in both modes.
    #[test]
    fn what_is_made_is_read_back() {
        let mut random = Random::new(709);
        for _ in 0..300 {
            let record = |random: &mut Random| {
                if random.chance(1, 4) {
                    return Record::Mark;
                }
                let count = random.pick(&[1, 2, 3, 17, 1_023, 1_024]);
                Record::Block((0..count).map(|_| random.word()).collect())
            };
            let count = random.between(0, 4);
            let records: Vec<Record> = (0..count).map(|_| record(&mut random)).collect();
            for parity in [Parity::Odd, Parity::Even] {
                let image: Vec<u8> = records.iter().flat_map(|record| bytes_of(record, parity)).collect();
                let reel = read_image(&image);
                assert_eq!((&reel.records, reel.fault), (&records, None));
                let words = show_image(&image, Form::Words).output;
                assert_eq!(make_image(&words, parity), Written { output: image, refusal: None });
            }
        }
    }
}
