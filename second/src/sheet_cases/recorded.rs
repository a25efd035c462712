//! Recorded answers for sheets: the right ones, and what becomes of them.

use crate::compare::{session_text, Ending};
use crate::random::Random;
use crate::session::answers_to;
use crate::text::byte_lines;
use crate::text_faults::{spoil_text, TEXT_FAULTS};

/// What is done to the right answers.
#[derive(Clone, Copy, Debug, PartialEq, Eq)]
enum Change {
    None,
    /// One byte is another one.
    Byte,
    /// A line is missing, and all later ones stand too early.
    MissingLine,
    /// No line is left from some place on.
    MissingEnd,
    /// A line more, and all later ones stand too late.
    ExtraLine,
    /// Lines after the last one.
    ExtraEnd,
    /// What was accepted is recorded as refused, and what was refused as accepted.
    OtherVerdict,
    /// A fault of texts.
    Text,
}

const CHANGES: [Change; 10] = [
    Change::None,
    Change::None,
    Change::Byte,
    Change::Byte,
    Change::MissingLine,
    Change::MissingEnd,
    Change::ExtraLine,
    Change::ExtraEnd,
    Change::OtherVerdict,
    Change::Text,
];

/// Bytes that may stand for another one; a line feed makes two lines of one.
const BYTES: &[u8] = b"0123456789ABCDEFacf \n\r\t\0\x7F\xFF";

/// What was recorded for a session; one record in four has no line feed at its end.
pub fn draw(random: &mut Random, session: &[u8]) -> Vec<u8> {
    let mut right = answers_to(session);
    let change = random.pick(&CHANGES);
    if change == Change::Text {
        let fault = random.pick(&TEXT_FAULTS);
        spoil_text(random, &mut right, fault);
        return right;
    }
    let mut lines: Vec<Vec<u8>> = byte_lines(&right).into_iter().map(<[u8]>::to_vec).collect();
    if change == Change::ExtraEnd {
        let extra = (0..random.between(1, 3)).map(|_| some_answer(random)).collect::<Vec<_>>();
        lines.extend(extra);
    } else if !lines.is_empty() {
        change_lines(random, session, &mut lines, change);
    }
    let ending = random.pick(&[Ending::LineFeed, Ending::LineFeed, Ending::LineFeed, Ending::NoLineFeed]);
    session_text(&lines, ending)
}

/// Changes answers that are not none.
fn change_lines(random: &mut Random, session: &[u8], lines: &mut Vec<Vec<u8>>, change: Change) {
    let places: Vec<usize> = (0..lines.len()).collect();
    let at = some_place(random, &places);
    match change {
        Change::Byte => change_byte(random, &mut lines[at]),
        Change::MissingLine => _ = lines.remove(at),
        Change::MissingEnd => lines.truncate(at),
        Change::ExtraLine => lines.insert(at, some_answer(random)),
        Change::OtherVerdict => {
            let at = some_place(random, &deciding_frames(session));
            if let Some(line) = lines.get_mut(at) {
                *line = other_verdict(random, line);
            }
        }
        Change::None | Change::ExtraEnd | Change::Text => {}
    }
}

/// Any of the places, often one of the last; 0 if there is none.
fn some_place(random: &mut Random, places: &[usize]) -> usize {
    match places {
        [] => 0,
        [.., last] if random.chance(1, 6) => *last,
        _ if random.chance(1, 6) => random.pick(&places[places.len() - places.len().div_ceil(10)..]),
        _ => random.pick(places),
    }
}

/// The places of the fresh starts, asks and reports of a session, on which its requests depend.
fn deciding_frames(session: &[u8]) -> Vec<usize> {
    let decides = |line: &[u8]| [b"00", b"03", b"04"].iter().any(|start| line.starts_with(*start));
    let lines = byte_lines(session);
    (0..lines.len()).filter(|&place| decides(lines[place])).collect()
}

fn other_verdict(random: &mut Random, answer: &[u8]) -> Vec<u8> {
    let others: [&[u8]; 4] = if answer.starts_with(b"00") {
        [b"01", b"08", b"0B", b"0C"]
    } else {
        [b"00", b"0000", b"00010000", b"000100FF"]
    };
    random.pick(&others).to_vec()
}

fn some_answer(random: &mut Random) -> Vec<u8> {
    random.pick(&[&b""[..], b"00", b"01", b"0B", b"0000", b"000100FF", b"0"]).to_vec()
}

fn change_byte(random: &mut Random, line: &mut [u8]) {
    let at = random.below(line.len() as u64) as usize;
    let other: Vec<u8> = BYTES.iter().copied().filter(|&byte| byte != line[at]).collect();
    line[at] = random.pick(&other);
}

#[cfg(test)]
mod tests {
    use super::*;
    use std::collections::BTreeSet;

    const SESSION: &[u8] = b"09\n00\n0A\n";

    /// Everything that a change makes of the answers 00, 01 and 00 in many tries.
    fn made(change: Change) -> BTreeSet<String> {
        let text = |seed| {
            let mut lines: Vec<Vec<u8>> =
                byte_lines(&answers_to(SESSION)).into_iter().map(<[u8]>::to_vec).collect();
            change_lines(&mut Random::new(seed), SESSION, &mut lines, change);
            String::from_utf8_lossy(&lines.join(&b' ')).into_owned()
        };
        (0..400).map(text).collect()
    }

    fn makes(change: Change, expected: &[&str]) {
        let expected: BTreeSet<String> = expected.iter().map(|text| text.to_string()).collect();
        assert_eq!(made(change), expected, "{change:?}");
    }

    #[test]
    fn what_each_change_does() {
        makes(Change::None, &["00 01 00"]);
        makes(Change::MissingLine, &["01 00", "00 00", "00 01"]);
        makes(Change::MissingEnd, &["", "00", "00 01"]);
        makes(Change::OtherVerdict, &["00 00 00", "00 0000 00", "00 00010000 00", "00 000100FF 00"]);
        let bytes = made(Change::Byte);
        assert!(!bytes.contains("00 01 00") && bytes.iter().all(|text| text.chars().count() == 8));
        assert!(["10 01 00", "00 0\n 00", "00 01 0 "].iter().all(|text| bytes.contains(*text)), "{bytes:?}");
        let extra = made(Change::ExtraLine);
        assert!(["0B 00 01 00", "00  01 00", "00 01 000100FF 00"].iter().all(|text| extra.contains(*text)));
    }

    #[test]
    fn a_session_of_nothing_has_nothing_or_extra_answers() {
        let drawn: BTreeSet<Vec<u8>> = (0..400).map(|seed| draw(&mut Random::new(seed), b"")).collect();
        let unterminated = |text: &Vec<u8>| text.contains(&b'\n') && !text.ends_with(b"\n");
        assert!(drawn.contains(&b""[..]) && drawn.contains(&b"00\n"[..]) && drawn.iter().any(unterminated));
    }
}
