//! Cuts a session into parts.

use crate::random::Random;

/// Where a session is cut.
#[derive(Clone, Copy, Debug, PartialEq, Eq)]
pub enum Cut {
    /// After every line feed.
    Lines,
    /// After every byte.
    Bytes,
    /// Anywhere, by a seed; some parts are empty.
    Random(u64),
}

/// The parts of a session; together they are the session.
pub fn parts_of(session: &[u8], cut: Cut) -> Vec<&[u8]> {
    match cut {
        Cut::Lines => session.split_inclusive(|&character| character == b'\n').collect(),
        Cut::Bytes => session.chunks(1).collect(),
        Cut::Random(seed) => random_parts(session, &mut Random::new(seed)),
    }
}

fn random_parts<'a>(session: &'a [u8], random: &mut Random) -> Vec<&'a [u8]> {
    let mut parts = Vec::new();
    let mut rest = session;
    while !rest.is_empty() {
        let length = random_length(rest, random);
        let (part, left) = rest.split_at(length.min(rest.len()));
        parts.push(part);
        rest = left;
    }
    parts
}

/// Some cuts are just before or after a line feed that is near, some parts have many lines, and most
/// parts have some bytes.
fn random_length(rest: &[u8], random: &mut Random) -> usize {
    const NEAR: usize = 200;
    let line_feed = rest.iter().take(NEAR).position(|&character| character == b'\n');
    match (random.below(40), line_feed) {
        (0..=5, Some(place)) => place,
        (6..=11, Some(place)) => place + 1,
        (12, _) => random.between(0, 4_000) as usize,
        (13..=15, _) => random.between(0, 400) as usize,
        _ => random.between(0, 9) as usize,
    }
}

#[cfg(test)]
mod tests {
    use super::*;

    #[test]
    fn the_parts_are_the_session() {
        let session = b"09\n\n0A\n0".repeat(500);
        for cut in [Cut::Lines, Cut::Bytes, Cut::Random(1), Cut::Random(2)] {
            assert_eq!(parts_of(&session, cut).concat(), session, "{cut:?}");
            assert!(parts_of(b"", cut).is_empty(), "{cut:?}");
        }
    }

    #[test]
    fn cuts_are_where_they_are_said_to_be() {
        let words = |cut| parts_of(b"09\n\n0A", cut);
        assert_eq!(words(Cut::Lines), [&b"09\n"[..], b"\n", b"0A"]);
        assert_eq!(words(Cut::Bytes), [b"0", b"9", b"\n", b"\n", b"0", b"A"]);
    }

    #[test]
    fn random_parts_begin_and_end_at_line_feeds_and_inside_pairs() {
        let session = b"0102030405\n".repeat(200);
        let parts = parts_of(&session, Cut::Random(1));
        assert!(parts.iter().filter(|part| part.starts_with(b"\n")).count() > 10);
        assert!(parts.iter().filter(|part| part.ends_with(b"\n")).count() > 10);
        assert!(parts.iter().filter(|part| part.ends_with(b"0")).count() > 10);
    }

    #[test]
    fn random_parts_are_of_many_lengths_and_of_their_seed() {
        let session = [b'0'; 100_000];
        let parts = parts_of(&session, Cut::Random(1));
        for length in 0..10 {
            assert!(parts.iter().any(|part| part.len() == length), "{length}");
        }
        assert!(parts.iter().any(|part| part.len() > 1_000));
        assert_eq!(parts, parts_of(&session, Cut::Random(1)));
        assert_ne!(parts, parts_of(&session, Cut::Random(2)));
    }
}
