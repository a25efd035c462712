//! A session as a value that takes its characters in parts cut anywhere, in constant memory
//! (document 01, "The session program"; document 02, M-105).

use crate::frame::{answer_line, LONGEST_LINE};
use crate::pack::Pack;

/// "The program also refuses 1 if m×W is over 4,096": the words of the area that it lends.
pub const AREA_WORDS: usize = 4_096;
/// "after it any further part or end is refused 17".
pub const ENDED: u64 = 17;

/// A session, up to the last character that it was given. Sessions that were given the same
/// characters are equal, wherever these were cut.
#[derive(Clone, Debug, PartialEq, Eq)]
pub struct Session {
    pack: Pack,
    /// The line that has no line feed yet. Of a line that is too long only as many characters are
    /// kept as make it so.
    pending: Vec<u8>,
    ended: bool,
}

impl Default for Session {
    /// A session before its first part.
    fn default() -> Session {
        Session { pack: new_pack(), pending: Vec::new(), ended: false }
    }
}

impl Session {
    /// Takes a part, an empty one too, and adds the answer line of each line that ends in it to the
    /// answers so far: "Each line, an empty one too, gives one answer line."
    pub fn part(&mut self, part: &[u8], answers: &mut Vec<u8>) -> Result<(), u64> {
        self.judge()?;
        for piece in part.split_inclusive(|&character| character == b'\n') {
            match piece.strip_suffix(b"\n") {
                Some(last) => {
                    self.keep(last);
                    self.answer(answers);
                }
                None => self.keep(piece),
            }
        }
        Ok(())
    }

    /// Ends the input: "A call that ends the input gives the last unterminated line its answer".
    /// Nothing after the last line feed is no line.
    pub fn end(&mut self, answers: &mut Vec<u8>) -> Result<(), u64> {
        self.judge()?;
        if !self.pending.is_empty() {
            self.answer(answers);
        }
        self.ended = true;
        Ok(())
    }

    /// The state that the lines so far have led to; at the end, the end state.
    pub fn pack(&self) -> &Pack {
        &self.pack
    }

    fn judge(&self) -> Result<(), u64> {
        if self.ended {
            Err(ENDED)
        } else {
            Ok(())
        }
    }

    /// Adds to the pending line, up to the first character that makes it too long.
    fn keep(&mut self, piece: &[u8]) {
        let room = LONGEST_LINE + 1 - self.pending.len();
        self.pending.extend_from_slice(&piece[..piece.len().min(room)]);
    }

    /// Answers the pending line; the next one begins empty.
    fn answer(&mut self, answers: &mut Vec<u8>) {
        answers.extend(answer_line(&mut self.pack, &self.pending));
        answers.push(b'\n');
        self.pending.clear();
    }
}

/// A pack as the program has it before the first frame.
pub fn new_pack() -> Pack {
    Pack::new(AREA_WORDS)
}

/// The answers to a session that is given in one part.
pub fn answers_to(session: &[u8]) -> Vec<u8> {
    let mut answers = Vec::new();
    let mut value = Session::default();
    let played = value.part(session, &mut answers).and_then(|()| value.end(&mut answers));
    played.expect("the session has not ended before");
    answers
}

#[cfg(test)]
mod tests {
    use super::*;

    fn plays(session: &str, answers: &str) {
        assert_eq!(String::from_utf8(answers_to(session.as_bytes())).as_deref(), Ok(answers), "{session:?}");
    }

    #[test]
    fn the_whole_session_of_document_01() {
        plays(
            "0001000400010000000000000000\n010000000000020001\n03000000\n040000000000000005\n0500\n0500\n\
             040000000000000005\n",
            "00\n00\n0000\n000100000000050001000000000000FF\n00000000000005\n0001\n0B\n",
        );
    }

    /// Reading B4.
    #[test]
    fn b4_a_last_line_without_line_feed_counts() {
        plays("", "");
        plays("\n", "01\n");
        plays("\n\n", "01\n01\n");
        plays("09", "00\n");
        plays("09\n0A", "00\n00\n");
        plays("09\n0A\n", "00\n00\n");
        plays("09\n\n0A", "00\n01\n00\n");
    }

    #[test]
    fn a_session_goes_on_after_a_line_that_is_too_long() {
        let session = format!("09\n{}\n0A\n", "9".repeat(20_000));
        plays(&session, "00\n01\n00\n");
    }

    #[test]
    fn of_a_line_that_is_too_long_no_more_is_kept() {
        let mut session = Session::default();
        let mut answers = Vec::new();
        for _ in 0..3 {
            session.part(&[b'0'; LONGEST_LINE], &mut answers).expect("a part");
        }
        assert_eq!(session.pending.len(), LONGEST_LINE + 1);
        assert!(answers.is_empty());
    }

    #[test]
    fn a_line_is_answered_by_the_part_that_has_its_line_feed() {
        let mut session = Session::default();
        let mut answers = Vec::new();
        for (part, so_far) in [("0", ""), ("9", ""), ("", ""), ("\n0", "00\n"), ("A\n\n", "00\n00\n01\n")] {
            session.part(part.as_bytes(), &mut answers).expect("a part");
            assert_eq!(answers, so_far.as_bytes(), "{part:?}");
        }
    }

    #[test]
    fn the_state_is_that_of_the_lines_so_far() {
        let mut session = Session::default();
        let mut answers = Vec::new();
        session.part(b"09\n0A", &mut answers).expect("a part");
        assert!(session.pack().channels[0].frozen);
        session.end(&mut answers).expect("the end");
        assert_eq!(*session.pack(), new_pack());
    }
}
