//! The choice among refusal numbers that apply at once.

/// The highest refusal of a call: "refused 18 with none running" (document 02, M-110).
const LAST_REFUSAL: usize = 18;

/// The refusal numbers that apply to a call.
#[derive(Clone, Debug, Default, PartialEq, Eq)]
pub struct Refusals {
    applying: [bool; LAST_REFUSAL + 1],
}

impl Refusals {
    pub fn new() -> Refusals {
        Refusals::default()
    }

    /// Notes a refusal number if its condition applies. "A condition that cannot be judged (a file
    /// not open has no unit) does not apply": it is given as false or not at all.
    pub fn when(&mut self, number: usize, applies: bool) {
        self.applying[number] |= applies;
    }

    /// All numbers that apply, the lowest first.
    pub fn applying(&self) -> impl Iterator<Item = usize> + '_ {
        (0..self.applying.len()).filter(|&number| self.applying[number])
    }

    /// "If several apply, the lowest number is given."
    pub fn judge(&self) -> Result<(), u64> {
        self.applying().next().map_or(Ok(()), |lowest| Err(lowest as u64))
    }
}

#[cfg(test)]
mod tests {
    use super::*;

    fn refusals(applying: &[usize]) -> Refusals {
        let mut refusals = Refusals::new();
        for number in [13, 5, 2, 9, 1, 15] {
            refusals.when(number, applying.contains(&number));
            refusals.when(number, false);
        }
        refusals
    }

    #[test]
    fn the_lowest_that_applies_is_given() {
        assert_eq!(refusals(&[]).judge(), Ok(()));
        assert_eq!(refusals(&[13]).judge(), Err(13));
        assert_eq!(refusals(&[13, 9]).judge(), Err(9));
        assert_eq!(refusals(&[13, 9, 2, 5]).judge(), Err(2));
        assert_eq!(refusals(&[1, 2]).judge(), Err(1));
        assert_eq!(refusals(&[15]).judge(), Err(15));
    }

    #[test]
    fn all_that_apply_are_told() {
        assert_eq!(refusals(&[13, 2, 5]).applying().collect::<Vec<usize>>(), [2, 5, 13]);
        assert_eq!(refusals(&[]).applying().count(), 0);
    }
}
