//! The subcommand `plan-check` (document 02, M-111): whether a proposal, whoever made it, is accepted
//! for a list. It shares with the planner how a list is read, and nothing else.

use crate::plan::{refused_list, Answer};
use crate::plan_list::{read_list, List};
use crate::text::{blank_words, byte_lines, decimal};

/// Why a line of a proposal is at fault.
#[derive(Clone, Copy, Debug, PartialEq, Eq, PartialOrd, Ord)]
pub enum Why {
    Size,
    Openings,
    NoLine,
    WrongCount,
    Outside,
    Twice,
    ServesTwo,
}

/// All reasons; at one line the first that applies is given.
pub const REASONS: [Why; 7] =
    [Why::Size, Why::Openings, Why::NoLine, Why::WrongCount, Why::Outside, Why::Twice, Why::ServesTwo];

impl Why {
    pub fn text(self) -> &'static str {
        match self {
            Why::Size => "size",
            Why::Openings => "count of openings",
            Why::NoLine => "no line of this opening",
            Why::WrongCount => "wrong count of buffers",
            Why::Outside => "a buffer outside the size",
            Why::Twice => "the same buffer twice",
            Why::ServesTwo => "a buffer that serves two open files",
        }
    }
}

/// A line of a proposal that is at fault, counted from 1.
#[derive(Clone, Copy, Debug, PartialEq, Eq)]
pub struct Fault {
    pub line: usize,
    pub why: Why,
}

/// Checks the text of a proposal against the text of a list. Choice: only a list that is refused 1 is
/// answered as the planner does. 19 tells that there is no proposal to make; here one was made, and
/// the answer names its first line at fault.
pub fn check_texts(list: &[u8], proposal: &[u8]) -> Answer {
    let list = match read_list(list) {
        Err(line) => return refused_list(line),
        Ok(list) => list,
    };
    match check_proposal(&list, proposal) {
        Ok(()) => Answer { text: "accepted\n".to_string(), well: true },
        Err(Fault { line, why }) => {
            Answer { text: format!("not accepted: {} at line {line}\n", why.text()), well: false }
        }
    }
}

/// Judges the lines in their order. Choices: a first line that is no `size N` has no size; a line past
/// the last opening is at fault whatever it says; a number may be of any size.
pub fn check_proposal(list: &List, proposal: &[u8]) -> Result<(), Fault> {
    let lines = byte_lines(proposal);
    let size = lines.first().and_then(|line| size_of(line)).filter(|size| (1..=list.limit).contains(size));
    let size = size.ok_or(Fault { line: 1, why: Why::Size })?;
    let mut given: Vec<Vec<u64>> = Vec::new();
    for (index, line) in lines.iter().enumerate().skip(1) {
        given.push(judge(list, size, &given, line).map_err(|why| Fault { line: index + 1, why })?);
    }
    if given.len() < list.openings.len() {
        return Err(Fault { line: given.len() + 2, why: Why::Openings });
    }
    Ok(())
}

/// Judges the next line by the size and the buffers of the lines before it, and gives its buffers.
fn judge(list: &List, size: u64, given: &[Vec<u64>], line: &[u8]) -> Result<Vec<u64>, Why> {
    let opening = list.openings.get(given.len()).ok_or(Why::Openings)?;
    let words = blank_words(line);
    let buffers = buffers_of(opening.file, &words).ok_or(Why::NoLine)?;
    let held = |buffer: &u64| {
        let mut earlier = list.openings.iter().zip(given);
        earlier.any(|(other, held)| other.is_open_at(opening.opened) && held.contains(buffer))
    };
    if words.len() != 1 + opening.count() {
        Err(Why::WrongCount)
    } else if buffers.iter().any(|&buffer| buffer >= size) {
        Err(Why::Outside)
    } else if buffers.len() == 2 && buffers[0] == buffers[1] {
        Err(Why::Twice)
    } else if buffers.iter().any(held) {
        Err(Why::ServesTwo)
    } else {
        Ok(buffers)
    }
}

/// The buffers that a line of this file names, two at most. Choice: none if one of its first three words is
/// no number, or the first is another file; a fourth word makes the count wrong, whatever it is.
fn buffers_of(file: u64, words: &[&[u8]]) -> Option<Vec<u64>> {
    let numbers: Option<Vec<u64>> = words.iter().take(3).map(|word| decimal(word)).collect();
    match numbers?.split_first() {
        Some((&first, buffers)) if first == file => Some(buffers.to_vec()),
        _ => None,
    }
}

/// The size that `size N` names.
fn size_of(line: &[u8]) -> Option<u64> {
    match blank_words(line)[..] {
        [b"size", size] => decimal(size),
        _ => None,
    }
}

#[cfg(test)]
mod tests {
    use super::*;
    use crate::plan::plan_text;

    /// Files 4, 5, 6; 4 is closed and opened again as a double one.
    const LIST: &str = "5\nopen 4 single\nopen 5 double\nopen 6 single\nclose 4\nopen 4 double\n";

    fn says(list: &str, proposal: &str, text: &str) {
        let answer = check_texts(list.as_bytes(), proposal.as_bytes());
        assert_eq!(answer.text, format!("{text}\n"), "{proposal}");
        assert_eq!(answer.well, text == "accepted");
    }

    fn at_fault(proposal: &str, line: usize, why: Why) {
        says(LIST, proposal, &format!("not accepted: {} at line {line}", why.text()));
    }

    #[test]
    fn accepted_proposals() {
        for proposal in [
            "size 5\n4 0\n5 1 2\n6 3\n4 0 4\n",
            "size 5\n4 0\n5 1 2\n6 3\n4 0 4",
            "size 5\n4 4\n5 3 1\n6 0\n4 4 2\n",
            "size 5\n4 4\n5 1 3\n6 0\n4 2 4\n",
        ] {
            says(LIST, proposal, "accepted");
        }
        says("64", "size 1", "accepted");
        says("64", "size 64\n", "accepted");
        says("64\nopen 0 single\nclose 0\nopen 0 single\n", "size 9\n0 8\n0 8\n", "accepted");
    }

    #[test]
    fn sizes() {
        for proposal in ["size 0\n", "size 6\n", "size 18446744073709551617\n4 0\n", "size 6\nx\n"] {
            at_fault(proposal, 1, Why::Size);
        }
        for proposal in ["", "\n", "size\n", "size x\n", "size 05\n", "size  5\n", "Size 5\n", "size 5 \n"] {
            at_fault(proposal, 1, Why::Size);
        }
        for proposal in ["5\n", "4 0\n", "size 5 5\n", "size 5\r\n", "size +5\n", "size -1\n", " size 5\n"] {
            at_fault(proposal, 1, Why::Size);
        }
    }

    #[test]
    fn counts_of_lines() {
        at_fault("size 5\n", 2, Why::Openings);
        at_fault("size 5", 2, Why::Openings);
        at_fault("size 5\n4 0\n5 1 2\n6 3\n", 5, Why::Openings);
        at_fault("size 5\n4 0\n5 1 2\n6 3\n4 0 4\n4 0 4\n", 6, Why::Openings);
        at_fault("size 5\n4 0\n5 1 2\n6 3\n4 0 4\n99 99 99\n\n", 6, Why::Openings);
        at_fault("size 5\n4 0\n5 1 2\n6 3\n4 0 4\n\n", 6, Why::Openings);
        at_fault("size 5\n4 0\n5 1 2\n6 3\n4 0 4\n4\n", 6, Why::Openings);
    }

    #[test]
    fn lines_that_are_none() {
        for line in
            ["", "5  1", "5 1 ", " 5 1 2", "5 01 2", "5 1 x", "5 1 2\r", "size 5", "5\t1 2"]
        {
            at_fault(&format!("size 5\n4 0\n{line}\n6 3\n4 0 4\n"), 3, Why::NoLine);
        }
    }

    #[test]
    fn faults_of_a_line_in_their_order() {
        for (line, why) in [
            ("4 1 2", Why::NoLine),
            ("64 9", Why::NoLine),
            ("18446744073709551621 1 2", Why::NoLine),
            ("5", Why::WrongCount),
            ("5 1 2 3", Why::WrongCount),
            ("5 1 2 ", Why::WrongCount),
            ("5 1", Why::WrongCount),
            ("5 99", Why::WrongCount),
            ("5 5 1", Why::Outside),
            ("5 5 5", Why::Outside),
            ("5 0 5", Why::Outside),
            ("5 18446744073709551617 1", Why::Outside),
            ("5 0 0", Why::Twice),
            ("5 0 1", Why::ServesTwo),
            ("5 1 0", Why::ServesTwo),
        ] {
            at_fault(&format!("size 5\n4 0\n{line}\n6 3\n4 0 4\n"), 3, why);
        }
        at_fault("size 5\n4 0 1\n", 2, Why::WrongCount);
        at_fault("size 4\n4 0\n5 1 2\n6 3\n4 0 4\n", 5, Why::Outside);
        at_fault("size 5\n4 0\n5 1 2\n6 3\n4 2 4\n", 5, Why::ServesTwo);
    }

    /// A list that is refused 1 is answered as the planner does; with too small a limit, every
    /// proposal has a line at fault.
    #[test]
    fn refused_lists() {
        for list in ["", "65\n", "5\nclose 0\n", "5\nopen 0 single\nopen 0 single\n"] {
            says(list, "size 1\n", plan_text(list.as_bytes()).text.trim_end());
        }
        says("1\nopen 0 double\n", "size 2\n0 0 1\n", "not accepted: size at line 1");
        says("1\nopen 0 double\n", "size 1\n0 0 1\n", "not accepted: a buffer outside the size at line 2");
    }

    #[test]
    fn reasons_have_texts_of_their_own() {
        let texts: std::collections::BTreeSet<&str> = REASONS.iter().map(|why| why.text()).collect();
        assert_eq!(texts.len(), REASONS.len());
        assert!(REASONS.is_sorted());
    }
}
