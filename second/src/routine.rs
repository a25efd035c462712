//! Special routines by priority (document 02, M-110; the manual's "Special Routines" and "Program
//! Scheduling"): what runs, and the push-down list of what was interrupted.

/// "a priority 0 to 4", of which "4 is highest".
pub const HIGHEST_LEVEL: u64 = 4;
/// The routine's number is one byte.
pub const LAST_ROUTINE: u64 = 255;
/// "With a full list, depth four here, nothing is interrupted".
pub const DEEPEST: usize = 4;

/// A routine that an ask names: its number and its priority.
#[derive(Clone, Copy, Debug, PartialEq, Eq)]
pub struct Routine {
    pub number: u64,
    pub level: u64,
}

/// A routine that was entered, with the unit whose request named it.
#[derive(Clone, Copy, Debug, PartialEq, Eq)]
pub struct Entered {
    pub channel: usize,
    pub unit: usize,
    pub routine: Routine,
}

/// What runs or was interrupted: "the main program has none", no priority at all.
#[derive(Clone, Copy, Debug, Default, PartialEq, Eq)]
pub enum Program {
    #[default]
    Main,
    Special(Entered),
}

/// What runs, and the push-down list, the program last pushed at its end.
#[derive(Clone, Debug, Default, PartialEq, Eq)]
pub struct Schedule {
    pub runs: Program,
    pub pushed: Vec<Program>,
}

/// What a return gives: whether a waiting routine was entered, and what runs now.
#[derive(Clone, Copy, Debug, PartialEq, Eq)]
pub struct Returned {
    pub entered: bool,
    pub runs: Program,
}

impl Routine {
    /// The ranges of both numbers.
    pub fn is_in_range(&self) -> bool {
        self.level <= HIGHEST_LEVEL && self.number <= LAST_ROUTINE
    }
}

impl Program {
    /// The priority; the main program has none.
    pub fn level(&self) -> Option<u64> {
        match self {
            Program::Main => None,
            Program::Special(entered) => Some(entered.routine.level),
        }
    }

    /// "of higher priority than": the main program is below every routine.
    pub fn is_above(&self, other: &Program) -> bool {
        match (self.level(), other.level()) {
            (Some(level), Some(below)) => level > below,
            (level, below) => level.is_some() && below.is_none(),
        }
    }
}

impl Schedule {
    /// The list has no room for one program more.
    pub fn is_full(&self) -> bool {
        self.pushed.len() >= DEEPEST
    }

    /// Whether a waiting routine is entered in place of what runs: "a due routine of higher priority than
    /// the one in progress is entered", "with a full list ... nothing is interrupted".
    pub fn is_interrupted_by(&self, waiting: &Program) -> bool {
        waiting.is_above(&self.runs) && !self.is_full()
    }

    /// "the interrupted one goes on a push-down list".
    pub fn interrupt(&mut self, waiting: Program) {
        self.pushed.push(self.runs);
        self.runs = waiting;
    }

    /// Whether a routine that waits is entered when the one that runs returns: "the highest waiting routine is
    /// entered if it is above the program last pushed".
    pub fn is_followed_by(&self, waiting: &Program) -> bool {
        self.pushed.last().is_some_and(|last| waiting.is_above(last))
    }

    /// "otherwise that program resumes".
    pub fn resume(&mut self) {
        self.runs = self.pushed.pop().unwrap_or_default();
    }
}

#[cfg(test)]
mod tests {
    use super::*;

    fn special(level: u64) -> Program {
        Program::Special(Entered { channel: 1, unit: 2, routine: Routine { number: 7, level } })
    }

    /// What runs and what is on the list, by levels; the main program is not named.
    fn schedule(levels: &[u64]) -> Schedule {
        let mut schedule = Schedule::default();
        levels.iter().for_each(|&level| schedule.interrupt(special(level)));
        schedule
    }

    /// Reading R1: the main program "has no priority and is below 0".
    #[test]
    fn r1_the_main_program_is_below_all() {
        for level in 0..=HIGHEST_LEVEL {
            assert!(special(level).is_above(&Program::Main));
            assert!(!Program::Main.is_above(&special(level)));
            for other in 0..=HIGHEST_LEVEL {
                assert_eq!(special(level).is_above(&special(other)), level > other);
            }
        }
        assert!(!Program::Main.is_above(&Program::Main));
    }

    #[test]
    fn levels_and_numbers_have_their_ranges() {
        let in_range = |number, level| Routine { number, level }.is_in_range();
        assert!(in_range(0, 0) && in_range(255, 4));
        assert!(!in_range(0, 5) && !in_range(256, 0) && !in_range(0, 255));
    }

    /// Reading R2: what runs is interrupted by what is above it, until four programs are on the list.
    #[test]
    fn r2_a_full_list_is_not_interrupted() {
        assert!(schedule(&[0, 1, 2]).is_interrupted_by(&special(3)));
        assert!(!schedule(&[0, 1, 2]).is_interrupted_by(&special(2)));
        assert!(!schedule(&[0, 1, 2, 3]).is_interrupted_by(&special(4)));
        assert!(!schedule(&[1, 2, 3, 4]).is_interrupted_by(&special(4)));
        assert_eq!(schedule(&[0, 1, 2, 3]).pushed.len(), DEEPEST);
    }

    /// Reading R3: a return goes by the program last pushed, and a full list does not keep a routine out.
    #[test]
    fn r3_a_return_goes_by_the_program_last_pushed() {
        assert!(schedule(&[0, 1, 2, 3]).is_followed_by(&special(4)));
        assert!(schedule(&[0, 1, 2, 3]).is_followed_by(&special(3)));
        assert!(!schedule(&[0, 1, 2, 3]).is_followed_by(&special(2)));
        assert!(schedule(&[4]).is_followed_by(&special(0)));
        let mut two = schedule(&[0, 3]);
        two.resume();
        assert_eq!(two, schedule(&[0]));
        two.resume();
        assert_eq!(two, Schedule::default());
    }
}
