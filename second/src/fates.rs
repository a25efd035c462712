//! What becomes of the reads in random sessions of the profile `reel`: runs of failures and of noise records
//! (document 02, M-106) that are planned when a read begins, so that they reach as far as they are meant to.

use crate::channel::{Position, Request};
use crate::generate::Generator;
use crate::pack::NO_LENGTH;

/// A read of a unit from this one on may have noise before each of its ends; on the others it is rare, so that
/// they go on without any.
const NOISY_FROM: u64 = 7;

/// The plan for a read.
#[derive(Clone, Copy, Debug, PartialEq, Eq)]
pub struct Fate {
    /// So many attempts fail; the next one ends.
    failures: u64,
    /// The failure that is an incomplete word, 0 for none.
    incomplete_at: u64,
    /// So many noise records come when this attempt is due.
    noise: u64,
    noise_at: u64,
    /// The outcome of the end.
    end: u64,
}

/// A report as the plan has it: its outcome, its length, and whether it is to bring words.
pub struct Planned {
    pub outcome: u64,
    pub length: u64,
    pub brings: bool,
}

impl Generator {
    /// The next report of a read on a unit; a read that has no plan yet gets one.
    pub(crate) fn planned_report(&mut self, channel: u64, unit: u64, request: &Request) -> Planned {
        let known = self.fates.remove(&(channel, unit));
        let begins = request.attempt == 1 && request.noise == 0;
        let mut fate = match known.filter(|_| !begins) {
            Some(fate) => fate,
            None => {
                let position = self.pack.channels[channel as usize].positions[unit as usize];
                self.new_fate(unit, position)
            }
        };
        let planned = if request.attempt >= fate.noise_at && fate.noise > 0 {
            fate.noise -= 1;
            Planned { outcome: 1, length: self.random.below(3), brings: self.random.chance(1, 4) }
        } else if request.attempt == fate.incomplete_at && request.attempt <= fate.failures {
            Planned { outcome: 2, length: NO_LENGTH, brings: self.random.chance(1, 6) }
        } else if request.attempt <= fate.failures {
            let any = self.random.between(3, 65_535);
            let length = self.random.pick(&[NO_LENGTH, NO_LENGTH, 3, 4, 1_024, 65_535, any]);
            Planned { outcome: 1, length, brings: self.random.chance(1, 4) }
        } else {
            Planned { outcome: fate.end, length: NO_LENGTH, brings: fate.end == 0 }
        };
        self.fates.insert((channel, unit), fate);
        planned
    }

    /// The first records are read without trouble; with two or three behind it a read may fail long.
    fn new_fate(&mut self, unit: u64, position: Position) -> Fate {
        let fails = match position.records {
            0 | 1 => 10,
            2 => 35,
            _ => 60,
        };
        let failures = if self.random.chance(fails, 100) {
            self.random.pick(&[2, 10, 11, 12, 21, 32, 45, 60, 75, 90, 91, 92, 100, 101, 101])
        } else {
            self.random.pick(&[0, 0, 0, 3])
        };
        let any = self.random.between(1, 101);
        let incomplete_at = if self.random.chance(1, 4) { self.random.pick(&[any, 11, 21]) } else { 0 };
        let noisy = if unit >= NOISY_FROM { 60 } else { 3 };
        let noise = if self.random.chance(noisy, 100) {
            self.random.pick(&[1, 2, 5, 40, 99, 100, 101, 102, 110, 205])
        } else {
            0
        };
        let last = (failures + 1).min(101);
        let noise_at = self.random.pick(&[1, 2, 4, 11, 12, last, last]).min(last);
        let end = if self.random.chance(1, 8) { 3 } else { 0 };
        Fate { failures, incomplete_at, noise, noise_at, end }
    }
}
