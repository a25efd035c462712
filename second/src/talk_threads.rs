//! The two threads of a talk: one writes to the program, one reads from it. Neither can hold up
//! the talk, which waits for what they tell, and for no longer than it wants.

use std::fs::File;
use std::io::{self, BufRead, BufReader, Read, Write};
use std::process::ChildStdin;
use std::sync::mpsc::{channel, Receiver, Sender};
use std::thread;
use std::time::{Duration, Instant};

use crate::unread::unread;

/// So often is looked whether a part was read.
const LOOK: Duration = Duration::from_micros(20);
/// Where nobody can tell whether a part was read, so long is waited instead.
const PAUSE: Duration = Duration::from_micros(500);
/// The character that ends the input at a terminal.
const END_OF_INPUT: u8 = 4;

/// What the threads tell.
pub enum Event {
    /// A part was taken: the next one will be read by itself.
    Taken,
    /// An answer came, with its line feed.
    Answered(Vec<u8>),
    /// The output has ended, with these bytes after the last line feed.
    Ended(Vec<u8>),
}

/// The input of a program.
pub enum Input {
    Pipe(ChildStdin),
    Keyboard(File),
}

impl Input {
    fn write(&mut self, part: &[u8]) -> io::Result<()> {
        match self {
            Input::Pipe(pipe) => pipe.write_all(part).and_then(|()| pipe.flush()),
            Input::Keyboard(keyboard) => keyboard.write_all(part).and_then(|()| keyboard.flush()),
        }
    }

    /// Waits until the program has read what was written, but no longer than the limit. A terminal
    /// joins parts to lines; there is nothing to wait for.
    fn wait_until_read(&self, limit: Duration) {
        let Input::Pipe(pipe) = self else { return };
        let deadline = Instant::now() + limit;
        loop {
            match unread(pipe) {
                Some(0) => return,
                Some(_) if Instant::now() < deadline => thread::sleep(LOOK),
                Some(_) => return,
                None => return thread::sleep(PAUSE),
            }
        }
    }

    /// Ends the input. At a terminal the character that does it also gives a line that is not
    /// complete to the program, and then has to be typed once more.
    fn end(mut self, in_a_line: bool) {
        if matches!(self, Input::Keyboard(_)) {
            let times = if in_a_line { 2 } else { 1 };
            let _ = self.write(&[END_OF_INPUT].repeat(times));
        }
    }
}

/// Starts both threads: gives where the parts go in and where the events come out. Dropping the
/// former ends the program's input.
pub fn start_threads(
    input: Input,
    output: Box<dyn Read + Send>,
    limit: Duration,
) -> (Sender<Vec<u8>>, Receiver<Event>) {
    let (parts, to_write) = channel();
    let (events, told) = channel();
    let answers = events.clone();
    thread::spawn(move || write_parts(input, limit, &to_write, &events));
    thread::spawn(move || read_answers(output, &answers));
    (parts, told)
}

/// Writes the parts until no more can come. A program that takes no input any more is told by the
/// end of its output and by the answers that are missing.
fn write_parts(mut input: Input, limit: Duration, parts: &Receiver<Vec<u8>>, events: &Sender<Event>) {
    let mut in_a_line = false;
    for part in parts {
        if let Some(&last) = part.last() {
            in_a_line = last != b'\n';
        }
        if input.write(&part).is_ok() {
            input.wait_until_read(limit);
        }
        let _ = events.send(Event::Taken);
    }
    input.end(in_a_line);
}

/// Reads the answers until the output ends; a terminal that nobody has open any more cannot be read.
fn read_answers(output: Box<dyn Read + Send>, events: &Sender<Event>) {
    let mut output = BufReader::new(output);
    loop {
        let mut answer = Vec::new();
        let failed = output.read_until(b'\n', &mut answer).is_err();
        let over = failed || !answer.ends_with(b"\n");
        let _ = events.send(if over { Event::Ended(answer) } else { Event::Answered(answer) });
        if over {
            return;
        }
    }
}
