//! `talk` with good players and with bad ones.
#![cfg(unix)]

use std::time::Duration;

use second::cuts::Cut;
use second::generate::session_of;
use second::profile::Profile;
use second::session::answers_to;
use second::talk::{talk, Options, Talked};

const SESSION: &[u8] = b"0001000400010000000000000000\n010000000000020001\n03000000\n\
                         040000000000000005\n0500\n\n0500\n040000000000000005\n";

fn program() -> String {
    env!("CARGO_BIN_EXE_second").to_string()
}

fn good() -> Vec<String> {
    vec![program(), "play".to_string()]
}

/// A player in the shell's language; `$0` is the program. What it says when it is cut off is not shown.
fn player(script: &str) -> Vec<String> {
    vec!["sh".to_string(), "-c".to_string(), format!("exec 2>/dev/null; {script}"), program()]
}

fn over(terminal: bool, cut: Cut) -> Options {
    Options { terminal, cut, ..Options::default() }
}

/// Pipes and a terminal, with so many seconds for an answer.
fn both(seconds: u64) -> [Options; 2] {
    let limit = Duration::from_secs(seconds);
    [false, true].map(|terminal| Options { terminal, cut: Cut::Lines, limit })
}

fn answers_well(options: &Options, command: &[String], session: &[u8]) {
    let expected = Talked { answers: answers_to(session), complaint: None };
    let talked = talk(options, command, session).expect("a talk");
    assert!(talked == expected, "{options:?}: {talked:?}");
}

fn complains(options: &Options, command: &[String], session: &[u8], complaint: &str) {
    let talked = talk(options, command, session).expect("a talk");
    assert_eq!(talked.complaint.as_deref(), Some(complaint), "{options:?}, {command:?}");
}

#[test]
fn play_answers_line_by_line_over_pipes_and_a_terminal() {
    for terminal in [false, true] {
        for session in [SESSION, SESSION.trim_ascii_end(), b"", b"\n", b"09", b"\n0"] {
            answers_well(&over(terminal, Cut::Lines), &good(), session);
        }
    }
}

#[test]
fn play_answers_in_parts() {
    for cut in [Cut::Bytes, Cut::Random(1), Cut::Random(2)] {
        answers_well(&over(false, cut), &good(), SESSION);
        answers_well(&over(true, cut), &good(), SESSION.trim_ascii_end());
    }
}

#[test]
fn play_answers_random_sessions() {
    let lines = session_of(Profile::Malformed, 1, 300);
    answers_well(&over(false, Cut::Lines), &good(), &lines.join(&b'\n'));
    answers_well(&over(false, Cut::Random(3)), &good(), &lines.join(&b'\n'));
    let typed = |line: &Vec<u8>| line.len() <= 4_000 && line.iter().all(u8::is_ascii_graphic);
    let lines: Vec<Vec<u8>> = lines.into_iter().filter(typed).collect();
    answers_well(&over(true, Cut::Lines), &good(), &lines.join(&b'\n'));
}

#[test]
fn a_player_that_reads_everything_first_is_told() {
    let command = player("input=$(cat); printf '%s\\n' \"$input\" | \"$0\" play");
    for options in both(1) {
        complains(&options, &command, SESSION, "line 1 was not answered in 1 seconds");
    }
}

/// Its output goes through a program that gathers it.
#[test]
fn a_player_that_writes_late_is_told() {
    let command = player("\"$0\" play | { input=$(cat); printf '%s\\n' \"$input\"; }");
    for options in both(1) {
        complains(&options, &command, SESSION, "line 1 was not answered in 1 seconds");
    }
}

#[test]
fn a_player_that_is_always_a_line_behind_is_told() {
    let command = player("read first; while read next; do echo 00; done; echo 00");
    for options in both(1) {
        complains(&options, &command, b"09\n0A\n", "line 1 was not answered in 1 seconds");
    }
}

#[test]
fn a_player_that_gathers_after_some_lines_is_told() {
    let command = player("read one; echo 00; read two; echo 00; cat >/dev/null");
    for options in both(20) {
        complains(&options, &command, b"09\n0A\n09\n", "line 3 was not answered in 20 seconds");
    }
}

#[test]
fn a_player_that_ends_early_or_badly_is_told() {
    for options in both(20) {
        let complaint = "the program ended before it answered line 2";
        complains(&options, &player("read one; echo 00"), b"09\n0A\n", complaint);
        let complaint = "the program ended badly: exit status: 3";
        complains(&options, &player("\"$0\" play; exit 3"), b"09\n0A\n", complaint);
    }
}

#[test]
fn a_player_that_does_not_end_is_told() {
    for options in both(20) {
        let complaint = "the output did not end in 20 seconds after the input";
        complains(&options, &player("\"$0\" play; exec sleep 60"), b"09\n0A\n", complaint);
    }
}

#[test]
fn a_player_that_answers_before_a_line_has_ended_is_told() {
    let command = player("echo 00; exec cat 3>&1 >/dev/null");
    let complaint = "line 1 was answered before it ended";
    complains(&over(false, Cut::Bytes), &command, &[b'0'; 5_000], complaint);
}

/// It neither reads nor answers, whether the session is more than its pipe can hold or not.
#[test]
fn a_player_that_does_not_read_is_told() {
    let options = Options { limit: Duration::from_secs(1), ..Options::default() };
    for session in [&[b'0'; 1_000_000][..], b"09\n", b"09"] {
        complains(&options, &player("exec sleep 60"), session, "line 1 was not answered in 1 seconds");
    }
}

/// Whatever comes is handed on, to be compared.
#[test]
fn other_answers_are_handed_on() {
    for options in both(20) {
        let command = player("while read line; do echo 0F; done; printf 00");
        let talked = talk(&options, &command, b"09\n0A\n").expect("a talk");
        assert_eq!(talked, Talked { answers: b"0F\n0F\n00".to_vec(), complaint: None });
    }
}

#[test]
fn what_cannot_be_typed_is_a_complaint() {
    assert!(talk(&over(true, Cut::Lines), &good(), b"09\r\n").is_err());
    assert!(talk(&over(true, Cut::Lines), &["./no such program".to_string()], b"09\n").is_err());
    assert!(talk(&over(false, Cut::Lines), &["./no such program".to_string()], b"09\n").is_err());
    assert!(talk(&over(false, Cut::Lines), &[], b"09\n").is_err());
}
