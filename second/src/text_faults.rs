//! Faults of texts, for random cases: what people and other programs write that is not quite right.

use crate::random::Random;
use crate::text::byte_lines;

/// What can be done to a text. Some of it leaves the text right.
#[derive(Clone, Copy, Debug, PartialEq, Eq)]
pub enum TextFault {
    LeadingZero,
    TwoBlanks,
    BlankAround,
    MissingWord,
    ExtraWord,
    EmptyLine,
    CarriageReturn,
    CarriageReturns,
    HugeNumber,
    OtherCase,
    StrangeByte,
    MissingByte,
    NoLineFeed,
    MissingLine,
    DoubledLine,
    SwappedLines,
    NoText,
}

pub const TEXT_FAULTS: [TextFault; 17] = [
    TextFault::LeadingZero,
    TextFault::TwoBlanks,
    TextFault::BlankAround,
    TextFault::MissingWord,
    TextFault::ExtraWord,
    TextFault::EmptyLine,
    TextFault::CarriageReturn,
    TextFault::CarriageReturns,
    TextFault::HugeNumber,
    TextFault::OtherCase,
    TextFault::StrangeByte,
    TextFault::MissingByte,
    TextFault::NoLineFeed,
    TextFault::MissingLine,
    TextFault::DoubledLine,
    TextFault::SwappedLines,
    TextFault::NoText,
];

/// Bytes that stand in no right text, or in other places.
const STRANGE: [u8; 14] = [0, 9, 11, 13, b' ', b'+', b'-', b',', b'.', b'0', b'x', 0x7F, 0xC3, 0xFF];

/// What is added to a number so that a program with too few bits takes it for the right one.
const WRAPS: [u128; 5] = [1 << 8, 1 << 16, 1 << 32, 1 << 64, 10_u128.pow(30)];

/// Does it to a text, at a place that chance picks.
pub fn spoil_text(random: &mut Random, text: &mut Vec<u8>, fault: TextFault) {
    let mut lines: Vec<Vec<u8>> = byte_lines(text).into_iter().map(<[u8]>::to_vec).collect();
    if lines.is_empty() || fault == TextFault::NoText {
        text.clear();
        return;
    }
    let at = random.below(lines.len() as u64) as usize;
    match fault {
        TextFault::EmptyLine => lines.insert(random.below(lines.len() as u64 + 1) as usize, Vec::new()),
        TextFault::CarriageReturns => lines.iter_mut().for_each(|line| line.push(b'\r')),
        TextFault::MissingLine => _ = lines.remove(at),
        TextFault::DoubledLine => lines.insert(at, lines[at].clone()),
        TextFault::SwappedLines => {
            let other = random.below(lines.len() as u64) as usize;
            lines.swap(at, other);
        }
        _ => spoil_line(random, &mut lines[at], fault),
    }
    *text = lines.join(&b'\n');
    if fault != TextFault::NoLineFeed {
        text.push(b'\n');
    }
}

/// The faults of one line.
fn spoil_line(random: &mut Random, line: &mut Vec<u8>, fault: TextFault) {
    let mut words: Vec<Vec<u8>> = line.split(|&byte| byte == b' ').map(<[u8]>::to_vec).collect();
    let at = random.below(words.len() as u64) as usize;
    match fault {
        TextFault::LeadingZero => {
            let number = number_at(&words, at);
            words[number].insert(0, b'0');
        }
        TextFault::TwoBlanks => words.insert(at, Vec::new()),
        TextFault::BlankAround => words.insert(random.pick(&[0, words.len()]), Vec::new()),
        TextFault::MissingWord => _ = words.remove(at),
        TextFault::ExtraWord => words.insert(at, words[at].clone()),
        TextFault::HugeNumber => {
            let number = number_at(&words, at);
            words[number] = huge_number(random, &words[number]);
        }
        TextFault::OtherCase => words[at] = other_case(&words[at]),
        TextFault::CarriageReturn => words[at].push(b'\r'),
        TextFault::StrangeByte | TextFault::MissingByte => spoil_byte(random, &mut words[at], fault),
        _ => {}
    }
    *line = words.join(&b' ');
}

/// A place of a number, from `at` on and round; `at` itself if there is none.
fn number_at(words: &[Vec<u8>], at: usize) -> usize {
    let mut places = (at..words.len()).chain(0..at);
    places.find(|&place| words[place].first().is_some_and(u8::is_ascii_digit)).unwrap_or(at)
}

/// The same number but for high bits, or just many digits.
fn huge_number(random: &mut Random, digits: &[u8]) -> Vec<u8> {
    let number: Option<u128> = std::str::from_utf8(digits).ok().and_then(|digits| digits.parse().ok());
    let more = random.pick(&WRAPS);
    match number.and_then(|number| number.checked_add(more)) {
        Some(number) => number.to_string().into_bytes(),
        None => vec![b'9'; 40],
    }
}

/// Small letters for capital ones and capital ones for small.
fn other_case(word: &[u8]) -> Vec<u8> {
    let other = |byte: &u8| {
        if byte.is_ascii_lowercase() {
            byte.to_ascii_uppercase()
        } else {
            byte.to_ascii_lowercase()
        }
    };
    word.iter().map(other).collect()
}

/// A byte more, another one, or one less.
fn spoil_byte(random: &mut Random, word: &mut Vec<u8>, fault: TextFault) {
    let strange = random.pick(&STRANGE);
    let at = random.below(word.len() as u64 + 1) as usize;
    match (fault, at < word.len()) {
        (TextFault::MissingByte, true) => _ = word.remove(at),
        (TextFault::MissingByte, false) => _ = word.pop(),
        (_, true) if random.chance(1, 2) => word[at] = strange,
        _ => word.insert(at, strange),
    }
}

#[cfg(test)]
mod tests {
    use super::*;
    use std::collections::BTreeSet;

    /// Everything that a fault makes of a text in many tries.
    fn spoilt(text: &str, fault: TextFault) -> BTreeSet<String> {
        let made = |seed| {
            let mut text = text.as_bytes().to_vec();
            spoil_text(&mut Random::new(seed), &mut text, fault);
            String::from_utf8_lossy(&text).into_owned()
        };
        (0..300).map(made).collect()
    }

    fn makes(text: &str, fault: TextFault, expected: &[&str]) {
        let expected: BTreeSet<String> = expected.iter().map(|text| text.to_string()).collect();
        assert_eq!(spoilt(text, fault), expected, "{fault:?}");
    }

    #[test]
    fn what_each_fault_does() {
        let text = "5 a\n7\n";
        makes(text, TextFault::LeadingZero, &["05 a\n7\n", "5 a\n07\n"]);
        makes(text, TextFault::TwoBlanks, &[" 5 a\n7\n", "5  a\n7\n", "5 a\n 7\n"]);
        makes(text, TextFault::BlankAround, &[" 5 a\n7\n", "5 a \n7\n", "5 a\n 7\n", "5 a\n7 \n"]);
        makes(text, TextFault::MissingWord, &["a\n7\n", "5\n7\n", "5 a\n\n"]);
        makes(text, TextFault::ExtraWord, &["5 5 a\n7\n", "5 a a\n7\n", "5 a\n7 7\n"]);
        makes(text, TextFault::EmptyLine, &["\n5 a\n7\n", "5 a\n\n7\n", "5 a\n7\n\n"]);
        makes(text, TextFault::CarriageReturn, &["5\r a\n7\n", "5 a\r\n7\n", "5 a\n7\r\n"]);
        makes(text, TextFault::CarriageReturns, &["5 a\r\n7\r\n"]);
        makes(text, TextFault::OtherCase, &["5 A\n7\n", text]);
        makes(text, TextFault::MissingByte, &[" a\n7\n", "5 \n7\n", "5 a\n\n"]);
        makes(text, TextFault::NoLineFeed, &["5 a\n7"]);
        makes(text, TextFault::MissingLine, &["5 a\n", "7\n"]);
        makes(text, TextFault::DoubledLine, &["5 a\n5 a\n7\n", "5 a\n7\n7\n"]);
        makes(text, TextFault::SwappedLines, &["7\n5 a\n", text]);
        makes(text, TextFault::NoText, &[""]);
    }

    #[test]
    fn numbers_that_wrap_round_and_strange_bytes() {
        let huge = spoilt("5\n", TextFault::HugeNumber);
        for number in ["261\n", "65541\n", "4294967301\n", "18446744073709551621\n"] {
            assert!(huge.contains(number), "{number}");
        }
        assert_eq!(huge.len(), WRAPS.len());
        let strange = spoilt("5\n", TextFault::StrangeByte);
        for text in ["\t\n", "5\0\n", "05\n", "5 \n", "+5\n"] {
            assert!(strange.contains(text), "{text:?}");
        }
    }

    #[test]
    fn an_empty_text_stays_empty() {
        for fault in TEXT_FAULTS {
            makes("", fault, &[""]);
        }
    }
}
