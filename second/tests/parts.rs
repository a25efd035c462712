//! Sessions in parts (document 02, M-105): wherever a session is cut, its answers and its end state
//! are those of the session given in one.

use second::compare::{session_text, Ending};
use second::cuts::{parts_of, Cut};
use second::frame::LONGEST_LINE;
use second::generate::session_of;
use second::profile::{Profile, PROFILES};
use second::session::{Session, ENDED};

const WHOLE_SESSION: &str = "0001000400010000000000000000\n010000000000020001\n03000000\n\
                             040000000000000005\n0500\n0500\n040000000000000005\n";
const WHOLE_OUTPUT: &str = "00\n00\n0000\n000100000000050001000000000000FF\n00000000000005\n0001\n0B\n";

/// Plays the parts and ends the input: the answers and the session at its end.
fn played(parts: &[&[u8]]) -> (Vec<u8>, Session) {
    let mut session = Session::default();
    let mut answers = Vec::new();
    for part in parts {
        assert_eq!(session.part(part, &mut answers), Ok(()));
    }
    assert_eq!(session.end(&mut answers), Ok(()));
    (answers, session)
}

/// The parts between the places; the first begins at the start and the last ends at the end.
fn cut_at<'a>(session: &'a [u8], places: &[usize]) -> Vec<&'a [u8]> {
    let begins = std::iter::once(0).chain(places.iter().copied());
    let ends = places.iter().copied().chain([session.len()]);
    begins.zip(ends).map(|(begin, end)| &session[begin..end]).collect()
}

/// Inside pairs of digits: an odd count of characters stands before the cut in its line.
fn inside_pairs(session: &[u8]) -> Vec<usize> {
    let mut begun = 0;
    let mut places = Vec::new();
    for (place, &character) in session.iter().enumerate() {
        if character == b'\n' {
            begun = 0;
        } else {
            if begun % 2 == 1 {
                places.push(place);
            }
            begun += 1;
        }
    }
    places
}

fn before_line_feeds(session: &[u8]) -> Vec<usize> {
    (0..session.len()).filter(|&place| session[place] == b'\n').collect()
}

fn after_line_feeds(session: &[u8]) -> Vec<usize> {
    before_line_feeds(session).iter().map(|place| place + 1).collect()
}

/// Every part with empty parts around it.
fn with_empty_parts<'a>(parts: &[&'a [u8]]) -> Vec<&'a [u8]> {
    let empty: &[u8] = b"";
    parts.iter().flat_map(|&part| [empty, part, empty]).collect()
}

/// All ways of cutting a session that are tried, each with its name.
fn ways(session: &[u8]) -> Vec<(String, Vec<&[u8]>)> {
    let mut around = [before_line_feeds(session), after_line_feeds(session)].concat();
    around.sort_unstable();
    let mut ways = vec![
        ("bytes".to_string(), parts_of(session, Cut::Bytes)),
        ("lines".to_string(), parts_of(session, Cut::Lines)),
        ("pairs".to_string(), cut_at(session, &inside_pairs(session))),
        ("before line feeds".to_string(), cut_at(session, &before_line_feeds(session))),
        ("after line feeds".to_string(), cut_at(session, &after_line_feeds(session))),
        ("around line feeds".to_string(), cut_at(session, &around)),
    ];
    ways.extend((1..=8).map(|seed| (format!("seed {seed}"), parts_of(session, Cut::Random(seed)))));
    let wide = ways.iter().map(|(name, parts)| (format!("{name}, empty parts"), with_empty_parts(parts)));
    let wide: Vec<_> = wide.collect();
    ways.extend(wide);
    ways
}

/// However the session is cut, it ends as in one part. Its lines have an answer line each.
fn is_the_same_in_all_parts(name: &str, session: &[u8]) {
    let (answers, end) = played(&[session]);
    let line_feeds = |text: &[u8]| text.iter().filter(|&&character| character == b'\n').count();
    let unterminated = !session.is_empty() && !session.ends_with(b"\n");
    assert_eq!(line_feeds(&answers), line_feeds(session) + usize::from(unterminated), "{name}");
    for (way, parts) in ways(session) {
        assert_eq!(parts.concat(), session, "{name}, {way}");
        let (in_parts, end_in_parts) = played(&parts);
        assert!(in_parts == answers, "{name}, {way}: other answers");
        assert!(end_in_parts.pack() == end.pack(), "{name}, {way}: another end state");
        assert!(end_in_parts == end, "{name}, {way}: another end");
    }
}

#[test]
fn the_whole_session_of_document_01_in_parts() {
    assert_eq!(played(&[WHOLE_SESSION.as_bytes()]).0, WHOLE_OUTPUT.as_bytes());
    is_the_same_in_all_parts("document 01", WHOLE_SESSION.as_bytes());
    is_the_same_in_all_parts("no line feed", WHOLE_SESSION.trim_end().as_bytes());
}

#[test]
fn the_whole_session_of_document_01_cut_in_three_anywhere() {
    let session = WHOLE_SESSION.trim_end().as_bytes();
    let (answers, end) = played(&[session]);
    for second in 0..=session.len() {
        for first in 0..=second {
            let (in_parts, end_in_parts) = played(&cut_at(session, &[first, second]));
            assert!(in_parts == answers && end_in_parts == end, "cut at {first} and {second}");
        }
    }
}

#[test]
fn random_sessions_in_parts() {
    for (name, profile) in PROFILES {
        for seed in 1..=4 {
            let lines = session_of(profile, seed, 400);
            is_the_same_in_all_parts(name, &session_text(&lines, Ending::LineFeed));
            is_the_same_in_all_parts(name, &session_text(&lines, Ending::NoLineFeed));
        }
    }
}

#[test]
fn sessions_of_few_characters_in_parts() {
    for session in ["", "\n", "\n\n", "0", "09", "0\n", "09\n", "\n0", "\n09", "09\n\n\n0A", "0\n9\n"] {
        is_the_same_in_all_parts(session, session.as_bytes());
    }
}

/// The malformed sessions hold carriage returns, bytes of every kind and overlong lines.
#[test]
fn malformed_sessions_have_what_they_should_have() {
    let lines: Vec<Vec<u8>> = (1..=4).flat_map(|seed| session_of(Profile::Malformed, seed, 400)).collect();
    assert!(lines.iter().any(|line| line.len() > LONGEST_LINE));
    assert!(lines.iter().any(|line| line.len() % 2 == 1));
    assert!(lines.iter().any(|line| line.is_empty()));
}

/// "Overlong lines still give a single 01": with lines before and after, cut anywhere.
#[test]
fn an_overlong_line_gives_a_single_01_wherever_it_is_cut() {
    for length in [LONGEST_LINE + 1, LONGEST_LINE + 2, 2 * LONGEST_LINE, 2 * LONGEST_LINE + 1, 50_000] {
        let session = [b"09\n", "0".repeat(length).as_bytes(), b"\n0A\n"].concat();
        let (answers, end) = played(&[&session]);
        assert_eq!(answers, b"00\n01\n00\n", "{length}");
        for place in (0..=session.len()).filter(|place| place % 13 == 0 || place.abs_diff(LONGEST_LINE) < 20)
        {
            let (in_parts, end_in_parts) = played(&cut_at(&session, &[place]));
            assert!(in_parts == answers && end_in_parts == end, "{length} characters cut at {place}");
        }
        is_the_same_in_all_parts("overlong", &session);
        // Without its line feed it waits for the end.
        let unterminated = &session[..session.len() - 4];
        let (answers, _) = played(&parts_of(unterminated, Cut::Bytes));
        assert_eq!(answers, b"00\n01\n", "{length}");
    }
}

/// The longest good line, a report of 1,024 words with their number to an idle channel, is refused 11 and not 1.
#[test]
fn the_longest_line_is_whole_wherever_it_is_cut() {
    let session = format!("040000010400{}\n", "0".repeat(LONGEST_LINE - 12)).into_bytes();
    assert_eq!(session.len(), LONGEST_LINE + 1);
    for place in (0..=session.len()).filter(|place| place % 101 < 2 || place.abs_diff(LONGEST_LINE) < 20) {
        assert_eq!(played(&cut_at(&session, &[place])).0, b"0B\n", "cut at {place}");
    }
    assert_eq!(played(&parts_of(&session, Cut::Bytes)).0, b"0B\n");
    assert_eq!(played(&parts_of(session.trim_ascii_end(), Cut::Bytes)).0, b"0B\n");
}

/// "after it any further part or end is refused 17", and nothing changes.
#[test]
fn after_the_end_every_part_and_end_is_refused_17() {
    assert_eq!(ENDED, 17);
    for given in ["", "\n", "09", "09\n", WHOLE_SESSION] {
        let (mut answers, mut session) = played(&[given.as_bytes()]);
        let (answers_before, before) = (answers.clone(), session.clone());
        for part in ["", "\n", "0A", "0A\n", "0001000400010000000000000000\n"] {
            assert_eq!(session.part(part.as_bytes(), &mut answers), Err(17), "{part:?} after {given:?}");
            assert_eq!(session.end(&mut answers), Err(17), "{part:?} after {given:?}");
            assert_eq!((&session, &answers), (&before, &answers_before), "{part:?} after {given:?}");
        }
    }
}
