//! A generator of numbers from a fixed seed, so that every run of the same seed gives the same cases.

use crate::word::ALL_ONES;

/// The splitmix64 generator: one 64-bit state, stepped by a fixed odd number and then mixed.
#[derive(Clone, Debug)]
pub struct Random {
    state: u64,
}

impl Random {
    pub fn new(seed: u64) -> Random {
        Random { state: seed }
    }

    /// The generator of one of many cases of a seed, unlike that of every other case.
    pub fn of(seed: u64, case: u64) -> Random {
        let of_seed = Random::new(seed).number();
        Random::new(Random::new(of_seed.wrapping_add(case)).number())
    }

    /// The next number, 0 to 2^64 - 1.
    pub fn number(&mut self) -> u64 {
        self.state = self.state.wrapping_add(0x9E37_79B9_7F4A_7C15);
        let mut mixed = self.state;
        mixed = (mixed ^ (mixed >> 30)).wrapping_mul(0xBF58_476D_1CE4_E5B9);
        mixed = (mixed ^ (mixed >> 27)).wrapping_mul(0x94D0_49BB_1331_11EB);
        mixed ^ (mixed >> 31)
    }

    /// A number from 0 up to, but not including, `end`; `end` is at least 1.
    pub fn below(&mut self, end: u64) -> u64 {
        self.number() % end
    }

    /// A number from `first` to `last`, both included.
    pub fn between(&mut self, first: u64, last: u64) -> u64 {
        first + self.below(last - first + 1)
    }

    /// True in `parts` of `whole` cases.
    pub fn chance(&mut self, parts: u64, whole: u64) -> bool {
        self.below(whole) < parts
    }

    /// One of the given things.
    pub fn pick<T: Copy>(&mut self, things: &[T]) -> T {
        things[self.below(things.len() as u64) as usize]
    }

    /// A word of 36 random bits.
    pub fn word(&mut self) -> u64 {
        self.number() & ALL_ONES
    }
}

#[cfg(test)]
mod tests {
    use super::*;
    use crate::word::is_word;

    #[test]
    fn the_same_seed_gives_the_same_numbers() {
        let (mut one, mut two, mut other) = (Random::new(7), Random::new(7), Random::new(8));
        let numbers: Vec<u64> = (0..20).map(|_| one.number()).collect();
        let again: Vec<u64> = (0..20).map(|_| two.number()).collect();
        let others: Vec<u64> = (0..20).map(|_| other.number()).collect();
        assert_eq!(numbers, again);
        assert_ne!(numbers, others);
    }

    #[test]
    fn cases_of_a_seed_have_numbers_of_their_own() {
        let first = |seed, case| Random::of(seed, case).number();
        assert_eq!(first(1, 2), first(1, 2));
        let others = [first(1, 1), first(1, 2), first(2, 1), first(2, 2)];
        assert!((0..4).all(|at| !others[..at].contains(&others[at])));
    }

    #[test]
    fn ranges_are_kept_and_their_ends_are_met() {
        let mut random = Random::new(1);
        let drawn: Vec<u64> = (0..200).map(|_| random.between(3, 6)).collect();
        assert!(drawn.iter().all(|n| (3..=6).contains(n)));
        assert!((3..=6).all(|n| drawn.contains(&n)));
        assert!((0..200).all(|_| is_word(random.word())));
        assert!((0..50).all(|_| random.chance(1, 1) && !random.chance(0, 5)));
        assert!((0..50).all(|_| [4, 9].contains(&random.pick(&[4, 9]))));
    }
}
