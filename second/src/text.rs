//! Texts: lines of decimal numbers, the form of the stored cases and events, and the lines, words and
//! numbers of texts that may hold any bytes.

/// The numbers of a line, or nothing if something else stands on it.
pub fn numbers_of(line: &str) -> Option<Vec<u64>> {
    line.split_ascii_whitespace().map(|number| number.parse().ok()).collect()
}

/// A line of numbers, one blank between them, with its line feed.
pub fn line_of(numbers: &[u64]) -> String {
    let numbers: Vec<String> = numbers.iter().map(u64::to_string).collect();
    numbers.join(" ") + "\n"
}

/// All lines of a list.
pub fn lines_of(list: &[Vec<u64>]) -> String {
    list.iter().map(|numbers| line_of(numbers)).collect()
}

/// Answers every line of `input` by `answer`; names the first line that has no answer.
pub fn answer_lines(
    input: &str,
    mut answer: impl FnMut(&[u64]) -> Option<Vec<u64>>,
) -> Result<String, String> {
    let mut output = String::new();
    for (index, line) in input.lines().enumerate() {
        let answered = numbers_of(line).and_then(|numbers| answer(&numbers));
        let answered = answered.ok_or(format!("line {} is not understood", index + 1))?;
        output += &line_of(&answered);
    }
    Ok(output)
}

/// The lines of a text of any bytes, without their line feeds. A last line without a line feed counts;
/// nothing after the last line feed is no line, so that an empty text has none.
pub fn byte_lines(text: &[u8]) -> Vec<&[u8]> {
    let mut lines: Vec<&[u8]> = text.split(|&byte| byte == b'\n').collect();
    if lines.last().is_some_and(|line| line.is_empty()) {
        lines.pop();
    }
    lines
}

/// What stands on a line between single blanks; two blanks have an empty word between them.
pub fn blank_words(line: &[u8]) -> Vec<&[u8]> {
    line.split(|&byte| byte == b' ').collect()
}

/// A decimal number: digits alone and no leading zeros. One that 64 bits cannot hold is read as the
/// largest that they can.
pub fn decimal(digits: &[u8]) -> Option<u64> {
    let (first, others) = digits.split_first()?;
    if !digits.iter().all(u8::is_ascii_digit) || (*first == b'0' && !others.is_empty()) {
        return None;
    }
    let next = |number: u64, digit: &u8| number.saturating_mul(10).saturating_add(u64::from(digit - b'0'));
    Some(digits.iter().fold(0, next))
}

#[cfg(test)]
mod tests {
    use super::*;

    #[test]
    fn lines_of_any_bytes() {
        let cases: [(&[u8], &[&[u8]]); 6] = [
            (b"", &[]),
            (b"\n", &[b""]),
            (b"a", &[b"a"]),
            (b"a\n", &[b"a"]),
            (b"a\n\n", &[b"a", b""]),
            (b"\xFF\r\n\0", &[b"\xFF\r", b"\0"]),
        ];
        for (text, lines) in cases {
            assert_eq!(byte_lines(text), lines);
        }
    }

    #[test]
    fn words_between_single_blanks() {
        assert_eq!(blank_words(b"a bc"), [&b"a"[..], b"bc"]);
        assert_eq!(blank_words(b"a  b "), [&b"a"[..], b"", b"b", b""]);
        assert_eq!(blank_words(b""), [b""]);
    }

    #[test]
    fn decimal_numbers() {
        for (digits, number) in [("0", 0), ("7", 7), ("10", 10), ("18446744073709551615", u64::MAX)] {
            assert_eq!(decimal(digits.as_bytes()), Some(number));
        }
        for huge in ["18446744073709551616", "18446744073709551617", "99999999999999999999999999999999"] {
            assert_eq!(decimal(huge.as_bytes()), Some(u64::MAX));
        }
        for wrong in ["", "00", "01", "-1", "+1", "1 ", "1x", "x", "1\r", "0x1", "1.0", "1,000"] {
            assert_eq!(decimal(wrong.as_bytes()), None, "{wrong}");
        }
    }

    #[test]
    fn numbers_and_lines() {
        assert_eq!(numbers_of("1 22  18446744073709551615"), Some(vec![1, 22, u64::MAX]));
        assert_eq!(numbers_of(""), Some(vec![]));
        assert_eq!(numbers_of("1 x"), None);
        assert_eq!(numbers_of("18446744073709551616"), None);
        assert_eq!(lines_of(&[vec![1, 2], vec![], vec![3]]), "1 2\n\n3\n");
    }

    #[test]
    fn the_first_line_without_an_answer_is_named() {
        let twice = |numbers: &[u64]| Some(vec![numbers.first()? * 2]);
        assert_eq!(answer_lines("1\n2\n", twice), Ok("2\n4\n".to_string()));
        assert_eq!(answer_lines("1\n\n2\n", twice), Err("line 2 is not understood".to_string()));
    }
}
