//! The subcommand `sheet-cases`: random sessions with recorded answers, right and wrong in every way, and
//! their sheets, written to files.

mod recorded;
mod sessions;

use std::path::Path;

use crate::folder::write_file;
use crate::random::Random;
use crate::sheet::sheet_texts;

/// So often a session has about as many requests as a sheet lists, or more.
const LONG_ONE_IN: u64 = 12;

/// A session, what was recorded as its answers, and the sheet of both.
#[derive(Clone, Debug, PartialEq, Eq)]
pub struct SheetCase {
    pub session: Vec<u8>,
    pub answers: Vec<u8>,
    pub sheet: String,
}

/// Writes `N.session`, `N.answers` and `N.sheet` into a folder, N from 1 to `count`.
pub fn write_sheet_cases(folder: &Path, seed: u64, count: u64) -> Result<(), String> {
    for number in 1..=count {
        let case = sheet_case(seed, number);
        write_file(folder, &format!("{number}.session"), &case.session)?;
        write_file(folder, &format!("{number}.answers"), &case.answers)?;
        write_file(folder, &format!("{number}.sheet"), case.sheet.as_bytes())?;
    }
    Ok(())
}

/// A case of a seed.
pub fn sheet_case(seed: u64, number: u64) -> SheetCase {
    let mut random = Random::of(seed, number);
    let session = if number.is_multiple_of(LONG_ONE_IN) {
        sessions::draw_long(&mut random)
    } else {
        sessions::draw(&mut random)
    };
    let answers = recorded::draw(&mut random, &session);
    let sheet = sheet_texts(&session, &answers).text;
    SheetCase { session, answers, sheet }
}

#[cfg(test)]
mod tests {
    use super::*;
    use crate::frame::{frame_of, Frame};
    use crate::session::answers_to;
    use crate::sheet::{sheet_of, Sheet, MOST_LISTED};
    use crate::text::byte_lines;
    use std::collections::BTreeMap;

    const CASES: u64 = 600;

    /// Counts what each case is.
    #[derive(Default)]
    struct Met(BTreeMap<&'static str, u64>);

    impl Met {
        fn when(&mut self, name: &'static str, is_so: bool) {
            *self.0.entry(name).or_default() += u64::from(is_so);
        }

        /// The first line of the sheet, and how both texts end.
        fn differing(&mut self, case: &SheetCase, sheet: &Sheet) {
            let (frames, lines) = (byte_lines(&case.session).len(), byte_lines(&case.answers).len());
            let differing = sheet.differing as usize;
            self.when("no difference", differing == 0);
            self.when("the first frame", differing == 1);
            self.when("a frame in the middle", (2..frames).contains(&differing) && lines == frames);
            self.when("the last frame", differing == frames && differing > 0);
            self.when("answers are missing at the end", differing > lines);
            self.when("an answer is missing in the middle", lines + 1 == frames && differing < lines);
            self.when("extra answers at the end", differing > frames);
            self.when("an extra answer in the middle", lines == frames + 1 && differing < frames);
            self.when("no answers", lines == 0);
            let unterminated = |text: &[u8]| !text.is_empty() && !text.ends_with(b"\n");
            self.when("an unterminated session", unterminated(&case.session));
            self.when("unterminated answers", unterminated(&case.answers));
            self.when("unterminated and right", unterminated(&case.answers) && differing == 0);
        }

        /// What became of the requests.
        fn requests(&mut self, sheet: &Sheet) {
            let any = |fit: fn(&crate::sheet::Listed) -> bool| sheet.requests.iter().any(fit);
            self.when("no request", sheet.requests.is_empty());
            self.when(
                "answered by its first report",
                any(|listed| listed.answered > 0 && listed.reports == 1),
            );
            self.when("answered after many reports", any(|listed| listed.answered > 0 && listed.reports > 9));
            self.when("open after many reports", any(|listed| listed.answered == 0 && listed.reports > 4));
            self.when("open without a report", any(|listed| listed.answered == 0 && listed.reports == 0));
            self.when("a full list", !sheet.more && sheet.requests.len() == MOST_LISTED);
            self.when("a list one short", !sheet.more && sheet.requests.len() + 1 == MOST_LISTED);
            let last = sheet.requests.last().map_or(0, |listed| listed.accepted);
            self.when("MORE, no difference", sheet.more && sheet.differing == 0);
            self.when("MORE, a difference before", sheet.more && (1..last).contains(&sheet.differing));
            self.when("MORE, a difference after", sheet.more && sheet.differing > last);
        }

        /// What the session holds, by its right answers.
        fn session(&mut self, case: &SheetCase, sheet: &Sheet) {
            let right = answers_to(&case.session);
            let mut dropped = false;
            for ((line, answer), number) in byte_lines(&case.session).iter().zip(byte_lines(&right)).zip(1..)
            {
                let waits = sheet.requests.iter().any(|listed| {
                    listed.accepted < number && (listed.answered > number || listed.answered == 0)
                });
                let frame = frame_of(line);
                let accepted = answer.starts_with(b"00");
                let fresh = matches!(frame, Some(Frame::Fresh { .. })) && waits;
                dropped |= fresh && accepted;
                self.when("a fresh start refused while a request waits", fresh && !accepted && !dropped);
                self.when("priority", matches!(frame, Some(Frame::Ask { priority: 1, .. })) && accepted);
                self.when("malformed", frame.is_none() && !line.is_empty());
                self.when("empty", line.is_empty());
            }
            self.when("a fresh start drops a request", dropped);
        }
    }

    #[test]
    fn every_sort_of_case_is_met_often() {
        let mut met = Met::default();
        for case in (1..=CASES).map(|number| sheet_case(1, number)) {
            let sheet = sheet_of(&case.session, &case.answers);
            met.differing(&case, &sheet);
            met.requests(&sheet);
            met.session(&case, &sheet);
        }
        assert!(met.0.values().all(|&count| count >= CASES / 150), "{:?}", met.0);
    }

    #[test]
    fn most_sessions_are_short() {
        let lengths: Vec<usize> =
            (1..=120).map(|number| byte_lines(&sheet_case(2, number).session).len()).collect();
        let short = lengths.iter().filter(|&&frames| frames <= sessions::MOST_FRAMES).count();
        assert!(short >= 108, "{short}");
        assert!(lengths.iter().all(|&frames| frames <= 6_000), "{lengths:?}");
    }

    #[test]
    fn cases_follow_the_seed() {
        assert_eq!(sheet_case(3, 7), sheet_case(3, 7));
        assert!((1..9).any(|number| sheet_case(3, number) != sheet_case(4, number)));
        assert!((1..9).any(|number| sheet_case(3, number) != sheet_case(3, number + 1)));
    }
}
