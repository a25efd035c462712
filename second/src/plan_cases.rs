//! The subcommand `plan-cases`: random lists for `plan` and proposals for `plan-check`, right and wrong
//! in every way, written to files.

mod lists;
mod proposals;

use std::path::Path;

use crate::folder::write_file;
use crate::plan_list::Opening;
use crate::random::Random;
use crate::text_faults::{spoil_text, TEXT_FAULTS};

/// The text of a list and the text of a proposal for it.
#[derive(Clone, Debug, PartialEq, Eq)]
pub struct PlanCase {
    pub list: Vec<u8>,
    pub proposal: Vec<u8>,
}

/// Writes `N.list` and `N.proposal` into a folder, N from 1 to `count`.
pub fn write_plan_cases(folder: &Path, seed: u64, count: u64) -> Result<(), String> {
    for number in 1..=count {
        let case = plan_case(seed, number);
        write_file(folder, &format!("{number}.list"), &case.list)?;
        write_file(folder, &format!("{number}.proposal"), &case.proposal)?;
    }
    Ok(())
}

/// A case of a seed. Half the lists are right, and so are half the proposals for the right ones.
pub fn plan_case(seed: u64, number: u64) -> PlanCase {
    let mut random = Random::of(seed, number);
    let drawn = lists::draw(&mut random);
    let mut list = drawn.text(drawn.limit(&mut random));
    let openings = drawn.openings();
    let proposal = proposals::draw(&mut random, &openings);
    if random.chance(1, 4) {
        list = drawn.spoilt_text(&mut random);
    } else if random.chance(1, 3) {
        let fault = random.pick(&TEXT_FAULTS);
        spoil_text(&mut random, &mut list, fault);
    }
    PlanCase { list, proposal }
}

/// The largest number of buffers that the openings need at once.
fn needed(openings: &[Opening]) -> u64 {
    crate::plan::propose(openings).size
}

#[cfg(test)]
mod tests {
    use super::*;
    use crate::plan::plan_text;
    use crate::plan_check::{check_proposal, check_texts, Why, REASONS};
    use crate::plan_list::read_list;
    use std::collections::{BTreeMap, BTreeSet};

    const CASES: u64 = 4_000;

    fn cases() -> impl Iterator<Item = PlanCase> {
        (1..=CASES).map(|number| plan_case(1, number))
    }

    #[test]
    fn every_answer_of_the_planner_is_met_often() {
        let mut met = BTreeMap::<&str, u64>::new();
        let mut lines = BTreeSet::new();
        for case in cases() {
            let text = plan_text(&case.list).text;
            let sort = if text.starts_with("size 1\n") {
                "size 1"
            } else if text.starts_with("size ") {
                "size"
            } else {
                text.split(" at line ")
                    .next()
                    .map_or("", |start| if start == "refused 1" { "1" } else { "19" })
            };
            *met.entry(sort).or_default() += 1;
            lines.extend(read_list(&case.list).err());
        }
        assert!(met.keys().copied().eq(["1", "19", "size", "size 1"]), "{met:?}");
        assert!(met.values().all(|&count| count >= CASES / 60), "{met:?}");
        assert!((1..40).all(|line| lines.contains(&line)), "{lines:?}");
    }

    #[test]
    fn every_reason_of_the_check_is_met_often() {
        let mut met = BTreeMap::<Option<Why>, u64>::new();
        for case in cases() {
            if let Ok(list) = read_list(&case.list) {
                *met.entry(check_proposal(&list, &case.proposal).err().map(|fault| fault.why))
                    .or_default() += 1;
            }
        }
        assert!(met.keys().copied().eq(std::iter::once(None).chain(REASONS.map(Some))), "{met:?}");
        assert!(met.values().all(|&count| count >= CASES / 150), "{met:?}");
    }

    /// The right plan and other proposals with more room are both among those that are accepted.
    #[test]
    fn other_proposals_than_the_planners_are_accepted() {
        let accepted = cases().filter(|case| check_texts(&case.list, &case.proposal).well);
        let (own, other): (Vec<_>, Vec<_>) =
            accepted.partition(|case| plan_text(&case.list).text.as_bytes() == case.proposal);
        assert!(own.len() as u64 >= CASES / 20 && other.len() as u64 >= CASES / 40);
    }

    #[test]
    fn limits_and_counts_of_openings() {
        let (mut limits, mut most, mut sizes) = (BTreeSet::new(), 0, BTreeSet::new());
        for case in cases() {
            let text = String::from_utf8_lossy(&case.list).into_owned();
            limits.extend(text.lines().next().and_then(|line| line.parse::<u64>().ok()));
            most = most.max(text.matches("open").count());
            sizes.extend(plan_text(&case.list).text.lines().next().map(str::to_string));
        }
        assert!((0..=65).all(|limit| limits.contains(&limit)), "{limits:?}");
        assert!(most >= 70);
        let sizes = sizes.iter().filter(|line| line.starts_with("size ")).count();
        assert!(sizes >= 50, "{sizes}");
    }

    #[test]
    fn cases_follow_the_seed() {
        assert_eq!(plan_case(3, 7), plan_case(3, 7));
        assert!((1..20).any(|number| plan_case(3, number) != plan_case(4, number)));
        assert!((1..20).any(|number| plan_case(3, number) != plan_case(3, number + 1)));
    }
}
