//! The subcommand `sheet`: takes a recorded session and its answers, plays the session afresh, names the
//! first frame whose answer differs and lists the accepted requests (document 02, M-113).

use crate::frame::{answer_line, frame_of, Frame};
use crate::pack::Pack;
use crate::plan::Answer;
use crate::session::new_pack;
use crate::text::{byte_lines, line_of};

/// "At most 512 are listed, in order of acceptance".
pub const MOST_LISTED: usize = 512;

/// An accepted request: "file, unit, frame of acceptance, frame of the answer or 0, and the reports its
/// channel accepted since, the answering one included".
#[derive(Clone, Debug, PartialEq, Eq)]
pub struct Listed {
    pub file: u64,
    pub unit: u64,
    pub accepted: u64,
    pub answered: u64,
    pub reports: u64,
}

/// What a session and its recorded answers give. "Frames count from 1."
#[derive(Clone, Debug, PartialEq, Eq)]
pub struct Sheet {
    /// "The first line is the differing frame or 0".
    pub differing: u64,
    pub requests: Vec<Listed>,
    /// More requests were accepted than are listed.
    pub more: bool,
}

/// The sheet as a text; all is well if no answer differs.
pub fn sheet_texts(session: &[u8], answers: &[u8]) -> Answer {
    let sheet = sheet_of(session, answers);
    Answer { text: sheet.text(), well: sheet.differing == 0 }
}

/// Plays the session afresh. What it accepts is told by its own answers, never by the recorded ones.
pub fn sheet_of(session: &[u8], answers: &[u8]) -> Sheet {
    let mut afresh = Afresh::new();
    let lines = byte_lines(session).into_iter();
    let played: Vec<Vec<u8>> = (1..).zip(lines).map(|(number, line)| afresh.play(number, line)).collect();
    let differing = differing_frame(&played, &byte_lines(answers));
    Sheet { differing, requests: afresh.requests, more: afresh.more }
}

/// The first frame whose answer differs, or 0: "a missing or extra answer line differs at its number".
fn differing_frame(played: &[Vec<u8>], recorded: &[&[u8]]) -> u64 {
    let differs = |place: &usize| played.get(*place).map(Vec::as_slice) != recorded.get(*place).copied();
    let first = (0..played.len().max(recorded.len())).find(differs);
    first.map_or(0, |place| place as u64 + 1)
}

impl Sheet {
    /// "Each request is a line of five decimal numbers one space apart"; "a longer session ends with the
    /// line MORE".
    fn text(&self) -> String {
        let row = |listed: &Listed| {
            line_of(&[listed.file, listed.unit, listed.accepted, listed.answered, listed.reports])
        };
        let mut text = line_of(&[self.differing]);
        text.extend(self.requests.iter().map(row));
        if self.more {
            text += "MORE\n";
        }
        text
    }
}

/// A session that is played afresh, and its accepted requests so far.
struct Afresh {
    pack: Pack,
    requests: Vec<Listed>,
    more: bool,
    /// Of each listed request that is neither answered nor dropped: its channel and its place in the list.
    open: Vec<(u64, usize)>,
}

impl Afresh {
    fn new() -> Afresh {
        Afresh { pack: new_pack(), requests: Vec::new(), more: false, open: Vec::new() }
    }

    /// Plays the line of a number, and gives its answer. A refused frame changes nothing.
    fn play(&mut self, number: u64, line: &[u8]) -> Vec<u8> {
        let answer = answer_line(&mut self.pack, line);
        // "First byte 00 or the refusal."
        let accepted = frame_of(line).filter(|_| answer.starts_with(b"00"));
        match accepted {
            Some(Frame::Fresh { .. }) => self.open.clear(),
            Some(Frame::Ask { file, .. }) => self.list(number, file),
            Some(Frame::Report { channel, unit, .. }) => self.count(number, channel, unit),
            _ => {}
        }
        answer
    }

    /// Lists the request that a file's unit has now.
    fn list(&mut self, number: u64, file: u64) {
        if self.requests.len() == MOST_LISTED {
            self.more = true;
            return;
        }
        let opened = self.pack.file(file).expect("the file of an accepted request");
        let unit = opened.unit as u64;
        self.open.push((opened.channel as u64, self.requests.len()));
        self.requests.push(Listed { file, unit, accepted: number, answered: 0, reports: 0 });
    }

    /// Counts an accepted report for every open request of its channel. It answers its own unit's request
    /// if the unit has none any more.
    fn count(&mut self, number: u64, channel: u64, unit: u64) {
        let answers = self.pack.channels[channel as usize].request(unit).is_none();
        for (_, place) in self.open.iter().filter(|(asked_of, _)| *asked_of == channel) {
            let request = &mut self.requests[*place];
            request.reports += 1;
            if answers && request.unit == unit {
                request.answered = number;
            }
        }
        self.open.retain(|(_, place)| self.requests[*place].answered == 0);
    }
}

#[cfg(test)]
mod tests {
    use super::*;
    use crate::session::answers_to;

    /// The sheet of a session and of what was recorded for it.
    fn gives(session: &str, answers: &str, sheet: &str) {
        let expected = Answer { text: sheet.to_string(), well: sheet.starts_with("0\n") };
        assert_eq!(sheet_texts(session.as_bytes(), answers.as_bytes()), expected, "{session:?} {answers:?}");
    }

    /// Frame 4 delivers the block that frame 3 asks for; the last report is refused and counts nowhere.
    #[test]
    fn the_whole_session_of_document_01() {
        let session = "0001000400010000000000000000\n010000000000020001\n03000000\n\
                       040000000000000005\n0500\n0500\n040000000000000005\n";
        let answers = "00\n00\n0000\n000100000000050001000000000000FF\n00000000000005\n0001\n0B\n";
        gives(session, answers, "0\n0 0 3 4 1\n");
        // The same as recorded before M-102.
        let older = "00\n00\n0000\n000100FF\n00000000000005\n0001\n0B\n";
        gives(session, older, "4\n0 0 3 4 1\n");
    }

    /// Files 5 and 9 are on units 0 and 1 of channel 0, file 3 on unit 0 of channel 1. The priority request
    /// of file 9 displaces that of file 5 at frame 9; then a report for unit 0 is refused.
    #[test]
    fn reports_of_the_channel_count_whatever_their_unit() {
        let session = "0003000400030001000000000000\n010500000100020001\n010900010100020001\n\
                       010301000100020001\n03050200\n\n03090201\n03030200\n04000001\n04000000\n04010001\n\
                       04000100\n04000000\n04010000\n";
        let answers = "00\n00\n00\n00\n0000\n01\n0000\n0000\n00000001\n0B\n00000000\n00010000\n000100FF\n\
                       000100FF\n";
        // Of file 5: frames 9, 12, 13; of file 9: 9 and 12; of file 3: 11 and 14.
        gives(session, answers, "0\n5 0 5 13 3\n9 1 7 12 2\n3 0 8 14 2\n");
        // The report for unit 0 was booked, though the channel worked for unit 1: the sheet lists what is right.
        let wrong = answers.replacen("0B", "00010001", 1);
        gives(session, &wrong, "10\n5 0 5 13 3\n9 1 7 12 2\n3 0 8 14 2\n");
    }

    /// Frame 7 is a fresh start without buffers and drops nothing; frame 9 drops the request of file 9. The
    /// last frame has no line feed, and its request stays open.
    #[test]
    fn a_fresh_start_drops_if_it_is_accepted() {
        let session = "0002000400030000000000000000\n010500000100020001\n010900010100020001\n03050200\n\
                       03090200\n04000001\n0000000400030000000000000000\n04000000\n\
                       0002000400030000000000000000\n010500010100020001\n03050200\n04000101\n04000101";
        let answers = "00\n00\n00\n0000\n0000\n00000000\n01\n00010001\n00\n00\n0001\n00000001\n00000001\n";
        let requests = "5 0 4 8 2\n9 1 5 0 2\n5 1 11 0 2\n";
        gives(session, answers, &format!("0\n{requests}"));
        // A record that says the first was accepted and the second refused moves the first line alone.
        gives(session, &answers.replacen("\n01\n", "\n00\n", 1), &format!("7\n{requests}"));
        gives(session, &answers.replacen("1\n00\n00\n", "1\n01\n00\n", 1), &format!("9\n{requests}"));
    }

    /// An ask that names a routine is listed as any other; returns and what runs are no events, and an ask that is
    /// refused for a waiting routine is not listed.
    #[test]
    fn routines_are_no_events() {
        let session =
            "0001000400010000000000000000\n010000000100010001\n030002000904\n04000000\n0C\n030002010900\n\
                       04000000\n03000200\n0B\n0B\n0B\n03000200\n";
        let answers =
            "00\n00\n0000\n000100FF\n00000009\n0000\n000100FF\n08\n0001000009\n0000FFFFFF\n12\n0000\n";
        gives(session, answers, "0\n0 0 3 4 1\n0 0 6 7 1\n0 0 12 0 0\n");
        gives(session, &answers.replacen("\n12\n", "\n01\n", 1), "11\n0 0 3 4 1\n0 0 6 7 1\n0 0 12 0 0\n");
    }

    /// A result 07 leaves its request unanswered, and a noise record too; both reports count.
    #[test]
    fn backspace_three_is_no_answer() {
        let record = "03000000\n040000000000000005\n0800\n";
        let failure = "04000001\n";
        let opening = "0001000400010000000000000000\n010000000000020001\n";
        let session = format!(
            "{opening}{}03000000\n{}040000010001\n040000000000000005\n0800\n03000000\n{}",
            record.repeat(3),
            failure.repeat(11),
            failure.repeat(11),
        );
        let good = |number| format!("000100000000050{number:03X}000000000000FF\n");
        let answers = format!(
            "00\n00\n0000\n{}00\n0000\n{}00\n0000\n{}00\n0000\n{}00070000\n00000000\n{}00\n0000\n{}",
            good(1),
            good(2),
            good(3),
            "00000000\n".repeat(10),
            good(4),
            "00000000\n".repeat(11),
        );
        gives(&session, &answers, "0\n0 0 3 4 1\n0 0 6 7 1\n0 0 9 10 1\n0 0 12 25 13\n0 0 27 0 11\n");
    }

    /// The session has three lines and its answers are 00, 01 and 00.
    #[test]
    fn the_first_line_that_differs() {
        for (answers, differing) in [
            ("00\n01\n00\n", 0),
            ("00\n01\n00", 0),
            ("", 1),
            ("\n", 1),
            ("00\n", 2),
            ("00\n01", 3),
            ("00\n01\n", 3),
            ("00\n01\n\n", 3),
            ("00\n01\n0", 3),
            ("00\n01\n00\n\n", 4),
            ("00\n01\n00\n00", 4),
            ("00\n01\n00\r", 3),
            ("00\n01\n00\r\n", 3),
            ("00 \n01\n00\n", 1),
            ("01\n00\n", 1),
            ("00\n00\n", 2),
            ("00\n\n01\n00\n", 2),
            ("00\n02\n03\n", 2),
        ] {
            gives("09\n\n0A\n", answers, &format!("{differing}\n"));
            gives("09\n\n0A", answers, &format!("{differing}\n"));
        }
        gives("", "", "0\n");
        gives("", "\n", "1\n");
        gives("", "00", "1\n");
        gives("\n", "", "1\n");
        gives("\n", "01", "0\n");
    }

    /// A file on unit 0 asks for a mark so many times: after the opening, two frames for each.
    fn marks(count: usize) -> String {
        let opening = "0001000400010000000000000000\n010000000100010001\n";
        format!("{opening}{}", "03000200\n04000000\n".repeat(count))
    }

    #[test]
    fn a_longer_list_ends_with_more() {
        for (count, last) in [
            (511, "0 0 1023 1024 1"),
            (512, "0 0 1025 1026 1"),
            (513, "0 0 1025 1026 1\nMORE"),
            (700, "0 0 1025 1026 1\nMORE"),
        ] {
            let session = marks(count);
            let mut answers = answers_to(session.as_bytes());
            let sheet = sheet_texts(session.as_bytes(), &answers);
            assert!(sheet.well && sheet.text.starts_with("0\n0 0 3 4 1\n0 0 5 6 1\n"), "{count}");
            assert!(sheet.text.ends_with(&format!("\n{last}\n")), "{count}");
            assert_eq!(sheet.text.lines().count(), 1 + count.min(513));
            // The last answer is wrong, however many requests come before it.
            answers.extend(b"00\n");
            let longer = sheet_texts(session.as_bytes(), &answers);
            assert!(!longer.well && longer.text.starts_with(&format!("{}\n0 0 3 4 1\n", 2 * count + 3)));
            assert!(longer.text.ends_with(&format!("\n{last}\n")), "{count}");
        }
    }

    /// The 512th request is answered after the 513th was asked, and by a report that counts for both.
    #[test]
    fn what_is_listed_is_followed_past_the_end_of_the_list() {
        let opening = "0002000400030000000000000000\n010000000100010001\n010100010100010001\n";
        let marks = "03000200\n04000000\n".repeat(511);
        let session = format!("{opening}{marks}03000200\n03010200\n04000001\n04000000\n");
        let sheet = sheet_of(session.as_bytes(), &answers_to(session.as_bytes()));
        assert_eq!((sheet.differing, sheet.more, sheet.requests.len()), (0, true, 512));
        let last = Listed { file: 0, unit: 0, accepted: 1_026, answered: 1_029, reports: 2 };
        assert_eq!(sheet.requests.last(), Some(&last));
    }
}
