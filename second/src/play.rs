//! The subcommand `play`: a session from a reader to a writer.

use std::io::{self, BufRead, ErrorKind, Write};

use crate::session::Session;

/// Plays a whole session. What was read is answered, and the answers sent on, before more is read:
/// whoever waits for an answer before going on gets it.
pub fn play(reader: &mut impl BufRead, writer: &mut impl Write) -> io::Result<()> {
    let mut session = Session::default();
    let mut answers = Vec::new();
    loop {
        let part = match reader.fill_buf() {
            Ok(part) => part,
            Err(error) if error.kind() == ErrorKind::Interrupted => continue,
            Err(error) => return Err(error),
        };
        let length = part.len();
        let at_end = length == 0;
        let taken = if at_end { session.end(&mut answers) } else { session.part(part, &mut answers) };
        taken.map_err(|refusal| io::Error::other(format!("refused {refusal}")))?;
        reader.consume(length);
        writer.write_all(&answers)?;
        writer.flush()?;
        answers.clear();
        if at_end {
            return Ok(());
        }
    }
}

#[cfg(test)]
mod tests {
    use super::*;
    use crate::session::answers_to;
    use std::cell::RefCell;
    use std::io::{BufReader, Read};

    /// The same character many times over, without the memory for them.
    struct Endless {
        character: u8,
        left: usize,
    }

    impl Read for Endless {
        fn read(&mut self, buffer: &mut [u8]) -> io::Result<usize> {
            let count = buffer.len().min(self.left);
            buffer[..count].fill(self.character);
            self.left -= count;
            Ok(count)
        }
    }

    #[test]
    fn a_hundred_million_characters_without_line_feed_give_one_answer() {
        let endless = Endless { character: b'0', left: 100_000_000 };
        let mut answers = Vec::new();
        play(&mut BufReader::new(endless), &mut answers).expect("a session");
        assert_eq!(answers, b"01\n");
    }

    #[test]
    fn small_reads_give_the_same_answers() {
        let session = b"09\n0Z\n\n0A\n0001000400010000000000000000\n09";
        for capacity in 1..session.len() {
            let mut answers = Vec::new();
            play(&mut BufReader::with_capacity(capacity, &session[..]), &mut answers).expect("a session");
            assert_eq!(answers, answers_to(session), "{capacity}");
        }
    }

    /// Gives a line only after the answers to all lines before it were flushed.
    struct Person<'a> {
        lines: Vec<&'a str>,
        given: usize,
        flushed: &'a RefCell<Vec<u8>>,
    }

    impl Read for Person<'_> {
        fn read(&mut self, buffer: &mut [u8]) -> io::Result<usize> {
            let answered = self.flushed.borrow().iter().filter(|&&character| character == b'\n').count();
            assert_eq!(answered, self.given, "answers before the next line is asked for");
            let line = self.lines.get(self.given).map_or("", |line| line);
            buffer[..line.len()].copy_from_slice(line.as_bytes());
            self.given += 1;
            Ok(line.len())
        }
    }

    /// Keeps what is written, and hands it over when it is flushed.
    struct Desk<'a> {
        written: Vec<u8>,
        flushed: &'a RefCell<Vec<u8>>,
    }

    impl Write for Desk<'_> {
        fn write(&mut self, bytes: &[u8]) -> io::Result<usize> {
            self.written.extend(bytes);
            Ok(bytes.len())
        }

        fn flush(&mut self) -> io::Result<()> {
            self.flushed.borrow_mut().append(&mut self.written);
            Ok(())
        }
    }

    #[test]
    fn each_line_is_answered_before_the_next_is_read() {
        let flushed = RefCell::new(Vec::new());
        let person = Person { lines: vec!["09\n", "\n", "0A\n", "0B\n"], given: 0, flushed: &flushed };
        let mut desk = Desk { written: Vec::new(), flushed: &flushed };
        play(&mut BufReader::new(person), &mut desk).expect("a session");
        assert_eq!(*flushed.borrow(), b"00\n01\n00\n12\n");
    }
}
