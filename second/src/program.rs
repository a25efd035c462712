//! Runs another program that reads a session on standard input and writes the answers on standard
//! output.

use std::io::{ErrorKind, Read, Write};
use std::process::{Command, Stdio};
use std::thread;

/// What a program made of a session.
#[derive(Clone, Debug, PartialEq, Eq)]
pub struct Played {
    pub answers: Vec<u8>,
    /// The program ended by itself and without complaint.
    pub ended_well: bool,
}

/// Plays a session with the program and its arguments.
pub fn play_with(command: &[String], session: &[u8]) -> Result<Played, String> {
    let complaint = |what: &str, error: std::io::Error| format!("{what} `{}`: {error}", command.join(" "));
    let (program, arguments) = command.split_first().ok_or("no program is named")?;
    let mut child = Command::new(program)
        .args(arguments)
        .stdin(Stdio::piped())
        .stdout(Stdio::piped())
        .spawn()
        .map_err(|error| complaint("cannot start", error))?;
    let mut input = child.stdin.take().ok_or("no standard input")?;
    let mut output = child.stdout.take().ok_or("no standard output")?;
    let mut answers = Vec::new();
    // The session is written while the answers are read, so that neither waits for the other.
    let (written, read) = thread::scope(|scope| {
        let writer = scope.spawn(move || input.write_all(session));
        let read = output.read_to_end(&mut answers);
        (writer.join().expect("the writer does not panic"), read)
    });
    read.map_err(|error| complaint("cannot read from", error))?;
    let status = child.wait().map_err(|error| complaint("cannot wait for", error))?;
    match written {
        // A program may end before it has read everything.
        Err(error) if error.kind() != ErrorKind::BrokenPipe => Err(complaint("cannot write to", error)),
        _ => Ok(Played { answers, ended_well: status.success() }),
    }
}

#[cfg(all(test, unix))]
mod tests {
    use super::*;

    fn command(words: &[&str]) -> Vec<String> {
        words.iter().map(|word| word.to_string()).collect()
    }

    #[test]
    fn a_program_gets_the_session_and_gives_the_answers() {
        let session = b"09\n".repeat(100_000);
        let played = play_with(&command(&["cat"]), &session);
        assert_eq!(played, Ok(Played { answers: session, ended_well: true }));
    }

    #[test]
    fn a_program_that_ends_early_or_badly_is_told() {
        let session = b"09\n".repeat(100_000);
        let played = play_with(&command(&["sh", "-c", "echo 00; exit 3"]), &session);
        assert_eq!(played, Ok(Played { answers: b"00\n".to_vec(), ended_well: false }));
    }

    #[test]
    fn a_program_that_is_not_there_is_a_complaint() {
        assert!(play_with(&command(&["./no such program"]), b"").is_err());
        assert!(play_with(&[], b"").is_err());
    }
}
