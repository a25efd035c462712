//! The subcommand `talk`: gives a session to a program part by part, as a person or a slow line
//! does, and waits for the answer to each line before it goes on.

use std::io::Read;
use std::process::{Child, Command, Stdio};
use std::sync::mpsc::{Receiver, Sender};
use std::thread;
use std::time::{Duration, Instant};

use crate::cuts::{parts_of, Cut};
use crate::talk_threads::{start_threads, Event, Input};
use crate::terminal::{open_terminal, Terminal};

/// So often is looked whether the program has ended.
const LOOK: Duration = Duration::from_millis(2);
/// A day; nobody waits longer.
const LONGEST_LIMIT: u64 = 86_400;
/// Longer lines do not fit the line buffer of a terminal.
const LONGEST_TYPED: usize = 4_000;

/// How is talked.
#[derive(Clone, Debug, PartialEq, Eq)]
pub struct Options {
    /// Over a pseudo terminal and not over pipes.
    pub terminal: bool,
    pub cut: Cut,
    /// So long may the program take over an answer.
    pub limit: Duration,
}

impl Default for Options {
    fn default() -> Options {
        Options { terminal: false, cut: Cut::Lines, limit: Duration::from_secs(20) }
    }
}

/// The answers that came, and what was wrong with the program, if anything.
#[derive(Clone, Debug, PartialEq, Eq)]
pub struct Talked {
    pub answers: Vec<u8>,
    pub complaint: Option<String>,
}

/// The options, and the command of the program that follows them.
pub fn talk_options(arguments: &[String]) -> Result<(Options, &[String]), String> {
    let mut options = Options::default();
    let mut rest = arguments;
    loop {
        let value = || {
            let text = rest.get(1).map(String::as_str).unwrap_or_default();
            text.parse::<u64>().map_err(|_| format!("`{text}` is no number"))
        };
        let taken = match rest.first().map(String::as_str) {
            Some("--terminal") => {
                options.terminal = true;
                1
            }
            Some("--bytes") => {
                options.cut = Cut::Bytes;
                1
            }
            Some("--parts") => {
                options.cut = Cut::Random(value()?);
                2
            }
            Some("--seconds") => {
                options.limit = Duration::from_secs(value()?.min(LONGEST_LIMIT));
                2
            }
            Some(option) if option.starts_with("--") => return Err(format!("no option `{option}`")),
            Some(_) => return Ok((options, rest)),
            None => return Err("which program? See `second help`".to_string()),
        };
        rest = &rest[taken..];
    }
}

/// Gives the session to the program and gathers its answers, up to the first thing that is wrong.
pub fn talk(options: &Options, command: &[String], session: &[u8]) -> Result<Talked, String> {
    if options.terminal {
        check_typed(session)?;
    }
    let mut talk = start(options, command)?;
    let complaint = talk.converse(&parts_of(session, options.cut)).err();
    if complaint.is_some() {
        // The program may have ended by itself.
        let _ = talk.child.kill();
        let _ = talk.child.wait();
    }
    Ok(Talked { answers: talk.answers, complaint })
}

/// A terminal takes some characters for orders.
fn check_typed(session: &[u8]) -> Result<(), String> {
    for (index, line) in session.split(|&character| character == b'\n').enumerate() {
        let is_typed = |&character: &u8| (b' '..=b'~').contains(&character);
        if line.len() > LONGEST_TYPED || !line.iter().all(is_typed) {
            return Err(format!("line {} cannot be typed at a terminal", index + 1));
        }
    }
    Ok(())
}

/// A talk that goes on.
struct Talk {
    child: Child,
    /// What is sent here goes to the program; dropped, the program's input ends.
    parts: Option<Sender<Vec<u8>>>,
    events: Receiver<Event>,
    limit: Duration,
    taken: usize,
    answers: Vec<u8>,
    answered: usize,
    /// The program's output has ended.
    over: bool,
}

/// Starts the program at a terminal or between two pipes.
fn start(options: &Options, command: &[String]) -> Result<Talk, String> {
    let (program, arguments) = command.split_first().ok_or("no program is named")?;
    let complaint = |error: std::io::Error| format!("cannot start `{}`: {error}", command.join(" "));
    let mut started = Command::new(program);
    started.args(arguments);
    let (child, input, output) = if options.terminal {
        let Terminal { keyboard, line } = open_terminal()?;
        started.stdin(line.try_clone().map_err(complaint)?).stdout(line);
        let child = started.spawn().map_err(complaint)?;
        let output: Box<dyn Read + Send> = Box::new(keyboard.try_clone().map_err(complaint)?);
        (child, Input::Keyboard(keyboard), output)
    } else {
        let mut child = started.stdin(Stdio::piped()).stdout(Stdio::piped()).spawn().map_err(complaint)?;
        let input = child.stdin.take().ok_or("no standard input")?;
        let output: Box<dyn Read + Send> = Box::new(child.stdout.take().ok_or("no standard output")?);
        (child, Input::Pipe(input), output)
    };
    // The talk gives up before its thread does.
    let (parts, events) = start_threads(input, output, 2 * options.limit);
    Ok(Talk {
        child,
        parts: Some(parts),
        events,
        limit: options.limit,
        taken: 0,
        answers: Vec::new(),
        answered: 0,
        over: false,
    })
}

impl Talk {
    /// Sends every part after the answers to all lines before it, ends the input, and waits for the
    /// last answer and the end of the program.
    fn converse(&mut self, parts: &[&[u8]]) -> Result<(), String> {
        let mut lines = 0;
        for (index, part) in parts.iter().enumerate() {
            lines += part.iter().filter(|&&character| character == b'\n').count();
            if let Some(sender) = &self.parts {
                // The sending thread is there until this end is dropped.
                let _ = sender.send(part.to_vec());
            }
            self.wait_until(|talk| talk.taken > index && talk.answered >= lines)?;
            if self.answered > lines {
                return Err(format!("line {} was answered before it ended", self.answered));
            }
        }
        self.parts = None;
        self.wait_until(|talk| talk.over)?;
        self.wait_for_the_end()
    }

    fn wait_until(&mut self, done: impl Fn(&Talk) -> bool) -> Result<(), String> {
        let deadline = Instant::now() + self.limit;
        while !done(self) {
            if self.over {
                return Err(format!("the program ended before it answered line {}", self.answered + 1));
            }
            let left = deadline.saturating_duration_since(Instant::now());
            match self.events.recv_timeout(left) {
                Ok(Event::Taken) => self.taken += 1,
                Ok(Event::Answered(answer)) => {
                    self.answered += 1;
                    self.answers.extend(answer);
                }
                Ok(Event::Ended(rest)) => {
                    self.over = true;
                    self.answers.extend(rest);
                }
                Err(_) => return Err(self.late()),
            }
        }
        Ok(())
    }

    /// The input has not ended while there are more parts to come.
    fn late(&self) -> String {
        let seconds = self.limit.as_secs();
        match self.parts {
            Some(_) => format!("line {} was not answered in {seconds} seconds", self.answered + 1),
            None => format!("the output did not end in {seconds} seconds after the input"),
        }
    }

    fn wait_for_the_end(&mut self) -> Result<(), String> {
        let deadline = Instant::now() + self.limit;
        while Instant::now() < deadline {
            match self.child.try_wait() {
                Ok(Some(status)) if status.success() => return Ok(()),
                Ok(Some(status)) => return Err(format!("the program ended badly: {status}")),
                Ok(None) => thread::sleep(LOOK),
                Err(error) => return Err(format!("cannot wait for the program: {error}")),
            }
        }
        Err("the program did not end".to_string())
    }
}

#[cfg(test)]
mod tests {
    use super::*;

    fn strings(words: &str) -> Vec<String> {
        words.split_terminator(' ').map(str::to_string).collect()
    }

    #[test]
    fn options_come_before_the_program() {
        let arguments = strings("--terminal --parts 7 --seconds 3 other --bytes");
        let expected = Options { terminal: true, cut: Cut::Random(7), limit: Duration::from_secs(3) };
        assert_eq!(talk_options(&arguments), Ok((expected, &strings("other --bytes")[..])));
        let arguments = strings("--bytes other");
        let expected = Options { cut: Cut::Bytes, ..Options::default() };
        assert_eq!(talk_options(&arguments), Ok((expected, &strings("other")[..])));
    }

    #[test]
    fn wrong_options_are_complaints() {
        for given in ["", "--bytes", "--parts other", "--seconds -1 other", "--speed other", "--seconds"] {
            assert!(talk_options(&strings(given)).is_err(), "{given}");
        }
    }

    #[test]
    fn what_a_terminal_takes_for_orders_is_not_typed() {
        assert_eq!(check_typed(b""), Ok(()));
        assert_eq!(check_typed(b"09\n\n0 z~"), Ok(()));
        assert_eq!(check_typed(&[b'0'; LONGEST_TYPED]), Ok(()));
        for line in [&b"09\r"[..], b"\x04", b"\x00", b"\x7F", b"\xC3", &[b'0'; LONGEST_TYPED + 1]] {
            let session = [b"09\n", line].concat();
            assert_eq!(check_typed(&session), Err("line 2 cannot be typed at a terminal".to_string()));
        }
    }
}
