//! Shortens a list that fails to a short one that still fails (delta debugging).

/// What one trial costs besides its things, as starting a program is slow.
const TRIAL_COST: u64 = 1_000;

/// Leaves out parts of a failing list, halves first and single things last, until nothing more can
/// be left out or `budget` is used up. `fails` gives the place of a list's first failure.
pub fn shorten<T: Clone>(
    mut list: Vec<T>,
    mut budget: u64,
    mut fails: impl FnMut(&[T]) -> Option<usize>,
) -> Vec<T> {
    let mut size = list.len().div_ceil(2);
    while size > 0 {
        let mut shorter = false;
        let mut start = 0;
        while start < list.len() {
            let end = list.len().min(start + size);
            let mut rest = [&list[..start], &list[end..]].concat();
            let cost = rest.len() as u64 + TRIAL_COST;
            if cost > budget {
                return list;
            }
            budget -= cost;
            if let Some(place) = fails(&rest) {
                // What comes after the failure is not needed.
                rest.truncate(place + 1);
                list = rest;
                shorter = true;
            } else {
                start = end;
            }
        }
        // Single things are tried again as long as one of them could be left out.
        if !shorter || size > 1 {
            size /= 2;
        }
    }
    list
}

#[cfg(test)]
mod tests {
    use super::*;

    const PLENTY: u64 = 100_000_000;

    /// A list fails at its first 7 that has a 3 somewhere before it.
    fn a_3_and_then_a_7(list: &[u64]) -> Option<usize> {
        let three = list.iter().position(|&thing| thing == 3)?;
        list[three..].iter().position(|&thing| thing == 7).map(|place| three + place)
    }

    #[test]
    fn only_what_is_needed_is_left() {
        let list: Vec<u64> = (0..1_000).map(|number| number * 13 % 100).collect();
        assert_eq!(shorten(list, PLENTY, a_3_and_then_a_7), [3, 7]);
    }

    #[test]
    fn the_list_still_fails_when_the_budget_ends() {
        let list: Vec<u64> = (0..1_000).map(|number| number * 13 % 100).collect();
        let mut trials = 0;
        let shorter = shorten(list, 5_000, |list| {
            trials += 1;
            a_3_and_then_a_7(list)
        });
        assert!(a_3_and_then_a_7(&shorter).is_some());
        assert!((1..=5).contains(&trials), "{trials}");
    }

    #[test]
    fn a_list_in_which_all_is_needed_stays() {
        let all = |list: &[u64]| (list.len() == 9).then_some(8);
        assert_eq!(shorten((0..9).collect(), PLENTY, all), (0..9).collect::<Vec<u64>>());
    }

    #[test]
    fn single_things_are_tried_again() {
        // The 1 can be left out only after the 2 is gone.
        let fails = |list: &[u64]| {
            let needed = list.contains(&9) && (!list.contains(&2) || list.contains(&1));
            needed.then(|| list.len() - 1)
        };
        assert_eq!(shorten(vec![1, 2, 9], PLENTY, fails), [9]);
    }
}
