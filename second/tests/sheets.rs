//! Sheets of random sessions against what their frames and answers say, request by request, and the
//! subcommands on sheets as a user runs them.

use std::collections::BTreeMap;
use std::fs;
use std::path::PathBuf;
use std::process::{Command, Output, Stdio};

use second::frame::{frame_of, Frame};
use second::session::answers_to;
use second::sheet::sheet_texts;
use second::sheet_cases::sheet_case;

/// What a frame means for requests, if it was accepted.
enum Event {
    FreshStart,
    Request {
        file: u64,
        channel: u64,
        unit: u64,
    },
    /// Answers unless its result is 00 or 07.
    Report {
        channel: u64,
        unit: u64,
        answers: bool,
    },
    Other,
}

/// The lines of a text with or without a last line feed.
fn lines(text: &[u8]) -> Vec<&[u8]> {
    text.split_inclusive(|&byte| byte == b'\n').map(|line| line.strip_suffix(b"\n").unwrap_or(line)).collect()
}

/// The history of a session, by its frames and their right answers alone; the units of its files are those
/// of their last opening.
fn history(session: &[u8], answers: &[u8]) -> Vec<Event> {
    let mut units = BTreeMap::new();
    let mut event = |(line, answer): (&&[u8], &[u8])| {
        let frame = frame_of(line).filter(|_| answer.starts_with(b"00"));
        match frame {
            Some(Frame::Fresh { .. }) => Event::FreshStart,
            Some(Frame::Open(opening)) => {
                units.insert(opening.file, (opening.channel, opening.unit));
                Event::Other
            }
            Some(Frame::Ask { file, .. }) => {
                let (channel, unit) = units[&file];
                Event::Request { file, channel, unit }
            }
            Some(Frame::Report { channel, unit, .. }) => {
                Event::Report { channel, unit, answers: !matches!(&answer[2..4], b"00" | b"07") }
            }
            _ => Event::Other,
        }
    };
    lines(session).iter().zip(lines(answers)).map(&mut event).collect()
}

/// The frame of the answer, or 0, and the reports of the channel, in what follows a request.
fn fate(later: &[Event], own_channel: u64, own_unit: u64) -> (usize, u64) {
    let mut reports = 0;
    for (place, event) in later.iter().enumerate() {
        match event {
            Event::FreshStart => break,
            Event::Report { channel, unit, answers } if *channel == own_channel => {
                reports += 1;
                if *unit == own_unit && *answers {
                    return (place + 1, reports);
                }
            }
            _ => {}
        }
    }
    (0, reports)
}

/// The lines of a sheet after its first one, each request looked up in the history by itself.
fn expected_requests(history: &[Event]) -> Vec<String> {
    let mut rows = Vec::new();
    for (place, event) in history.iter().enumerate() {
        if let Event::Request { file, channel, unit } = event {
            let (after, reports) = fate(&history[place + 1..], *channel, *unit);
            let accepted = place + 1;
            let answered = if after == 0 { 0 } else { accepted + after };
            rows.push(format!("{file} {unit} {accepted} {answered} {reports}"));
        }
    }
    if rows.len() > 512 {
        rows.truncate(512);
        rows.push("MORE".to_string());
    }
    rows
}

/// The first line in which two texts differ, or 0.
fn expected_difference(right: &[u8], recorded: &[u8]) -> usize {
    let (right, recorded) = (lines(right), lines(recorded));
    let same = right.iter().zip(&recorded).take_while(|(right, recorded)| right == recorded).count();
    if same == right.len() && same == recorded.len() {
        0
    } else {
        same + 1
    }
}

#[test]
fn sheets_say_what_frames_and_answers_say() {
    for number in 1..=800 {
        let case = sheet_case(11, number);
        let right = answers_to(&case.session);
        let first = expected_difference(&right, &case.answers).to_string();
        let rows = expected_requests(&history(&case.session, &right));
        let expected: String = std::iter::once(first).chain(rows).map(|line| line + "\n").collect();
        assert_eq!(case.sheet, expected, "case {number}");
        assert_eq!(sheet_texts(&case.session, &case.answers).well, expected.starts_with("0\n"));
    }
}

/// A folder of its own for a test.
fn folder(name: &str) -> PathBuf {
    let folder = PathBuf::from(env!("CARGO_TARGET_TMPDIR")).join(name);
    fs::create_dir_all(&folder).expect("a folder");
    folder
}

fn second(arguments: &[&str]) -> Output {
    let program = env!("CARGO_BIN_EXE_second");
    Command::new(program).args(arguments).stdin(Stdio::null()).output().expect("the program starts")
}

#[test]
fn sheet_cases_are_written_and_answered() {
    let folder = folder("sheet-cases");
    let place = folder.to_str().expect("a name");
    assert!(second(&["sheet-cases", place, "5", "25"]).status.success());
    for number in 1..=25 {
        let name = |end: &str| folder.join(format!("{number}.{end}")).to_str().expect("a name").to_string();
        let [session, answers, sheet] = ["session", "answers", "sheet"].map(name);
        let case = sheet_case(5, number);
        let written = [&session, &answers, &sheet].map(|name| fs::read(name).expect("a file"));
        assert_eq!(written, [case.session, case.answers, case.sheet.clone().into_bytes()]);
        let output = second(&["sheet", &session, &answers]);
        assert_eq!(String::from_utf8(output.stdout).expect("text"), case.sheet);
        assert_eq!(output.status.code(), Some(i32::from(!case.sheet.starts_with("0\n"))));
        assert!(output.stderr.is_empty());
    }
    assert!(second(&["sheet-cases", place, "--seed", "5", "--count", "2"]).status.success());
}

#[test]
fn a_file_that_cannot_be_read_is_named() {
    let folder = folder("sheet-files");
    let there = folder.join("empty").to_str().expect("a name").to_string();
    fs::write(&there, "").expect("written");
    assert_eq!(second(&["sheet", &there, &there]).stdout, b"0\n");
    let place = folder.to_str().expect("a name");
    for (session, answers, unread) in [
        ("no such session", "no such answers", "no such session"),
        (&there, "no such answers", "no such answers"),
        (&there, place, place),
    ] {
        let output = second(&["sheet", session, answers]);
        assert_eq!(output.status.code(), Some(1), "{unread}");
        assert!(output.stdout.is_empty(), "{unread}");
        assert!(String::from_utf8_lossy(&output.stderr).contains(unread));
    }
}

#[test]
fn other_arguments_are_complaints() {
    for arguments in [
        &["sheet"][..],
        &["sheet", "a"],
        &["sheet", "a", "b", "c"],
        &["sheet", "--words", "a"],
        &["sheet", "a", "-h"],
        &["sheet-cases", "a"],
        &["sheet-cases", "a", "x", "1"],
        &["sheet-cases", "no such folder", "1", "1"],
    ] {
        let output = second(arguments);
        assert_eq!(output.status.code(), Some(2), "{arguments:?}");
        assert!(output.stdout.is_empty() && !output.stderr.is_empty(), "{arguments:?}");
    }
}
