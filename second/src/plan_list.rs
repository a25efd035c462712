//! The list that a planner reads (document 02, M-111): a limit, then openings and closings. An opening
//! is kept with the span of time for which its file is open.

use crate::text::{blank_words, byte_lines, decimal};

/// "From a limit of 1 to 64".
pub const MOST_LIMIT: u64 = 64;
/// "a list of at most 64 openings".
pub const MOST_OPENINGS: usize = 64;
/// "Files in a list are numbers 0 to 63."
pub const LAST_FILE: u64 = 63;

/// A list that is not refused 1.
#[derive(Clone, Debug, PartialEq, Eq)]
pub struct List {
    pub limit: u64,
    /// In the order of the list.
    pub openings: Vec<Opening>,
}

/// An opening. Times are line numbers of the list.
#[derive(Clone, Debug, PartialEq, Eq)]
pub struct Opening {
    pub file: u64,
    pub double: bool,
    pub opened: usize,
    /// `NEVER` if the file stays open.
    pub closed: usize,
}

/// A time after every line.
pub const NEVER: usize = usize::MAX;

impl Opening {
    /// How many buffers it asks for.
    pub fn count(&self) -> usize {
        if self.double {
            2
        } else {
            1
        }
    }

    /// Whether its file is open just after the line of that number.
    pub fn is_open_at(&self, time: usize) -> bool {
        (self.opened..self.closed).contains(&time)
    }
}

/// What a line after the first says.
#[derive(Clone, Copy, Debug, PartialEq, Eq)]
enum Step {
    Open { file: u64, double: bool },
    Close { file: u64 },
}

/// Reads a list, or gives the number of the first line at fault. Choices: lines end with a line feed
/// and a last one without it counts; an empty line is at fault wherever it stands; a text without
/// lines is at fault at line 1, where the limit is missing; a carriage return, a tab or a second blank
/// is a character that no line has.
pub fn read_list(text: &[u8]) -> Result<List, usize> {
    let lines = byte_lines(text);
    let limit = lines.first().and_then(|line| decimal(line)).filter(|limit| (1..=MOST_LIMIT).contains(limit));
    let mut list = List { limit: limit.ok_or(1_usize)?, openings: Vec::new() };
    for (index, line) in lines.iter().enumerate().skip(1) {
        let time = index + 1;
        step_of(line).and_then(|step| list.take(step, time)).ok_or(time)?;
    }
    Ok(list)
}

impl List {
    /// Takes a step into the list; nothing comes back if it cannot be taken there.
    fn take(&mut self, step: Step, time: usize) -> Option<()> {
        match step {
            Step::Open { file, double } => {
                let room = self.openings.len() < MOST_OPENINGS;
                if !room || file > LAST_FILE || self.open_now(file).is_some() {
                    return None;
                }
                self.openings.push(Opening { file, double, opened: time, closed: NEVER });
            }
            Step::Close { file } => self.open_now(file)?.closed = time,
        }
        Some(())
    }

    /// The opening of a file that has not been closed.
    fn open_now(&mut self, file: u64) -> Option<&mut Opening> {
        self.openings.iter_mut().find(|opening| opening.file == file && opening.closed == NEVER)
    }
}

/// `open F single`, `open F double` or `close F`.
fn step_of(line: &[u8]) -> Option<Step> {
    match blank_words(line)[..] {
        [b"open", file, b"single"] => Some(Step::Open { file: decimal(file)?, double: false }),
        [b"open", file, b"double"] => Some(Step::Open { file: decimal(file)?, double: true }),
        [b"close", file] => Some(Step::Close { file: decimal(file)? }),
        _ => None,
    }
}

#[cfg(test)]
mod tests {
    use super::*;

    fn fault(text: &str) -> Option<usize> {
        read_list(text.as_bytes()).err()
    }

    #[test]
    fn a_list_with_its_spans() {
        let list = read_list(b"7\nopen 3 double\nopen 0 single\nclose 3\nopen 3 single").expect("a list");
        let opening = |file, double, opened, closed| Opening { file, double, opened, closed };
        let openings = vec![opening(3, true, 2, 4), opening(0, false, 3, NEVER), opening(3, false, 5, NEVER)];
        assert_eq!(list, List { limit: 7, openings });
        assert_eq!(list.openings.iter().map(Opening::count).collect::<Vec<usize>>(), [2, 1, 1]);
        let open: Vec<bool> = (1..6).map(|time| list.openings[0].is_open_at(time)).collect();
        assert_eq!(open, [false, true, true, false, false]);
    }

    #[test]
    fn limits() {
        for limit in ["1", "64", "1\n", "64\n"] {
            assert_eq!(fault(limit), None, "{limit}");
        }
        for limit in
            ["", "\n", "0", "65", "01", " 1", "1 ", "1\r\n", "-1", "x", "18446744073709551617", "\n1"]
        {
            assert_eq!(fault(limit), Some(1), "{limit}");
        }
    }

    #[test]
    fn texts_that_no_line_has() {
        for line in [
            "",
            "open",
            "open 1",
            "open 1 ",
            "open 1 triple",
            "open 1 Single",
            "open  1 single",
            "open 1  single",
            " open 1 single",
            "open 1 single ",
            "open 1 single\r",
            "open\t1 single",
            "open 01 single",
            "open 64 single",
            "open 18446744073709551617 single",
            "open -1 single",
            "open single 1",
            "OPEN 1 single",
            "close",
            "close 5",
            "close 00",
            "close 0 single",
            "7",
        ] {
            assert_eq!(fault(&format!("9\nopen 0 double\n{line}\nopen 2 single\n")), Some(3), "{line}");
        }
    }

    #[test]
    fn files_that_are_open_or_not() {
        assert_eq!(fault("9\nopen 0 single\nclose 0\nclose 0\n"), Some(4));
        assert_eq!(fault("9\nopen 0 single\nopen 1 single\nopen 0 single\n"), Some(4));
        assert_eq!(fault("9\nopen 0 single\nclose 0\nopen 0 double\nclose 0\n"), None);
        assert_eq!(fault("9\nclose 0\n"), Some(2));
        assert_eq!(fault("9\nopen 63 single\nopen 64 single\n"), Some(3));
    }

    #[test]
    fn a_65th_opening() {
        let openings: String = (0..64).map(|_| "open 5 single\nclose 5\n").collect();
        assert_eq!(fault(&format!("9\n{openings}")), None);
        assert_eq!(fault(&format!("9\n{openings}open 5 single\n")), Some(130));
    }
}
