//! The subcommand `plan` (document 02, M-111): how many buffers a list needs, and which ones each of
//! its openings gets.

use crate::plan_list::{read_list, List, Opening};

/// What is said of a list or of a proposal, and whether that is good news.
#[derive(Clone, Debug, PartialEq, Eq)]
pub struct Answer {
    pub text: String,
    pub well: bool,
}

/// A pool size, and the buffers of each opening.
#[derive(Clone, Debug, PartialEq, Eq)]
pub struct Proposal {
    pub size: u64,
    pub buffers: Vec<Vec<u64>>,
}

/// Plans a list. "1 wins": the whole list is read before its size is judged.
pub fn plan_text(text: &[u8]) -> Answer {
    match read_list(text) {
        Err(line) => refused_list(line),
        Ok(list) => match plan(&list) {
            None => Answer { text: "refused 19\n".to_string(), well: false },
            Some(proposal) => Answer { text: proposal_text(&list.openings, &proposal), well: true },
        },
    }
}

/// What is said of a list with a line at fault.
pub fn refused_list(line: usize) -> Answer {
    Answer { text: format!("refused 1 at line {line}\n"), well: false }
}

/// The planner's own proposal, unless the limit is too small for any.
pub fn plan(list: &List) -> Option<Proposal> {
    let proposal = propose(&list.openings);
    (proposal.size <= list.limit).then_some(proposal)
}

/// The smallest proposal there is, whatever the limit.
pub fn propose(openings: &[Opening]) -> Proposal {
    Proposal { size: smallest_size(openings), buffers: lowest_buffers(openings) }
}

/// The largest overlap of the spans: at each opening, the buffers of all files that are open then.
/// "The size is at least 1, also for a list without openings."
fn smallest_size(openings: &[Opening]) -> u64 {
    let open_together = |time: usize| -> usize {
        openings.iter().filter(|opening| opening.is_open_at(time)).map(Opening::count).sum()
    };
    let largest = openings.iter().map(|opening| open_together(opening.opened)).max();
    largest.unwrap_or(0).max(1) as u64
}

/// Each opening gets the lowest buffers that no file holds which is open then, lower one first.
fn lowest_buffers(openings: &[Opening]) -> Vec<Vec<u64>> {
    let mut given: Vec<Vec<u64>> = Vec::new();
    for opening in openings {
        let earlier = openings.iter().zip(&given);
        let open = earlier.filter(|(other, _)| other.is_open_at(opening.opened));
        let held: Vec<u64> = open.flat_map(|(_, buffers)| buffers.clone()).collect();
        given.push((0..).filter(|buffer| !held.contains(buffer)).take(opening.count()).collect());
    }
    given
}

/// `size N`, then for each opening `F B` or `F B C`.
pub fn proposal_text(openings: &[Opening], proposal: &Proposal) -> String {
    let mut text = format!("size {}\n", proposal.size);
    for (opening, buffers) in openings.iter().zip(&proposal.buffers) {
        text += &opening.file.to_string();
        for buffer in buffers {
            text += &format!(" {buffer}");
        }
        text.push('\n');
    }
    text
}

#[cfg(test)]
mod tests {
    use super::*;

    fn says(list: &str, text: &str) {
        assert_eq!(plan_text(list.as_bytes()).text, text, "{list}");
    }

    #[test]
    fn sizes_and_buffers() {
        says("64\n", "size 1\n");
        says("64", "size 1\n");
        says("1\nopen 63 single\n", "size 1\n63 0\n");
        says("2\nopen 0 double\nclose 0\nopen 1 double\n", "size 2\n0 0 1\n1 0 1\n");
        says(
            "5\nopen 4 single\nopen 5 double\nopen 6 single\nclose 4\nclose 6\nopen 7 double\nopen 4 single\n",
            "size 5\n4 0\n5 1 2\n6 3\n7 0 3\n4 4\n",
        );
    }

    #[test]
    fn refusals() {
        says("1\nopen 0 double\n", "refused 19\n");
        says("3\nopen 0 double\nopen 1 double\nclose 0\nclose 1\n", "refused 19\n");
        says("1\nopen 0 double\nclose 1\n", "refused 1 at line 3\n");
        says("", "refused 1 at line 1\n");
        says("65\nclose 1\n", "refused 1 at line 1\n");
        assert!(!plan_text(b"1\nopen 0 double\n").well && !plan_text(b"").well && plan_text(b"1").well);
    }

    /// 64 doubles at once need 128 buffers, 64 singles just 64.
    #[test]
    fn the_largest_lists() {
        let list = |sort: &str| -> String { (0..64).map(|file| format!("open {file} {sort}\n")).collect() };
        says(&format!("64\n{}", list("double")), "refused 19\n");
        let answer = plan_text(format!("64\n{}", list("single")).as_bytes());
        assert!(answer.text.starts_with("size 64\n0 0\n1 1\n") && answer.text.ends_with("\n63 63\n"));
    }
}
