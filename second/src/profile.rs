//! The profiles of random sessions and their habits.

/// What a session is about.
#[derive(Clone, Copy, Debug, PartialEq, Eq)]
pub enum Profile {
    Mixed,
    /// Many failures of few requests.
    Retries,
    /// Priority and freeze, many units of few channels.
    Turns,
    /// Blocks with check words, damaged ones too.
    Blocks,
    /// Malformed lines of every kind.
    Malformed,
    /// Every refusal and pairs of refusals.
    Refusals,
    /// Reads that fail for good, with words and without.
    Kept,
    /// Where the reels stand: long runs of failures and of noise records.
    Reel,
    /// Special routines: all priorities, ties, full lists, freezes and returns.
    Routines,
    /// Block numbers that pass 32,767.
    Wrap,
}

pub const PROFILES: [(&str, Profile); 10] = [
    ("mixed", Profile::Mixed),
    ("retries", Profile::Retries),
    ("turns", Profile::Turns),
    ("blocks", Profile::Blocks),
    ("malformed", Profile::Malformed),
    ("refusals", Profile::Refusals),
    ("kept", Profile::Kept),
    ("reel", Profile::Reel),
    ("routines", Profile::Routines),
    ("wrap", Profile::Wrap),
];

/// One thing that the next line may do.
#[derive(Clone, Copy, Debug)]
pub enum Action {
    Fresh,
    Open,
    Close,
    Ask,
    Report,
    Get,
    Put,
    Seal,
    Skip,
    Freeze,
    Thaw,
    Return,
    Running,
    /// A frame with numbers or at a time that may well be refused.
    Faulty,
    Malformed,
}

/// How a profile likes its sessions.
pub struct Habits {
    /// How often each action is tried, against the others.
    pub weights: [(Action, u64); 15],
    pub buffers: (u64, u64),
    /// Widths up to this one; now and then the widest buffers of all.
    pub width: u64,
    /// How many channels are used, and how many files are open at most.
    pub channels: u64,
    pub files: usize,
    /// In parts of a hundred: asks with priority, asks that name a routine, failures, marks and ends of medium among
    /// reports, files with check words, damaged blocks among those delivered, failed reads with words,
    /// redundancies of reads with a length, and files for output.
    pub priority: u64,
    pub routines: u64,
    pub redundancies: u64,
    pub incomplete_words: u64,
    pub marks: u64,
    pub ends_of_medium: u64,
    pub chosen: u64,
    pub damaged: u64,
    pub failed_words: u64,
    pub lengths: u64,
    pub outputs: u64,
}

impl Profile {
    pub fn of(name: &str) -> Option<Profile> {
        PROFILES.iter().find(|(known, _)| *known == name).map(|(_, profile)| *profile)
    }

    pub fn habits(self) -> Habits {
        let mixed = Habits {
            // Fresh, open, close, ask, report, get, put, seal, skip, freeze, thaw, return, running, faulty, malformed.
            weights: weights([1, 60, 10, 250, 300, 120, 120, 15, 15, 8, 20, 12, 4, 30, 6]),
            buffers: (8, 32),
            width: 12,
            channels: 5,
            files: 14,
            priority: 20,
            routines: 6,
            redundancies: 15,
            incomplete_words: 4,
            marks: 3,
            ends_of_medium: 5,
            chosen: 60,
            damaged: 10,
            failed_words: 25,
            lengths: 20,
            outputs: 50,
        };
        match self {
            Profile::Mixed => mixed,
            Profile::Wrap => Habits { damaged: 1, ..mixed },
            Profile::Retries => Habits {
                weights: weights([1, 60, 3, 150, 900, 60, 60, 5, 5, 4, 20, 6, 2, 10, 1]),
                channels: 3,
                files: 6,
                redundancies: 98,
                incomplete_words: 1,
                lengths: 10,
                ..mixed
            },
            Profile::Turns => Habits {
                weights: weights([1, 90, 3, 400, 400, 80, 80, 5, 40, 25, 60, 6, 2, 10, 1]),
                buffers: (20, 32),
                width: 4,
                channels: 2,
                files: 16,
                priority: 45,
                redundancies: 45,
                ..mixed
            },
            Profile::Blocks => Habits {
                weights: weights([1, 40, 15, 200, 250, 300, 250, 40, 20, 2, 20, 6, 2, 15, 1]),
                width: 40,
                files: 10,
                redundancies: 3,
                incomplete_words: 1,
                marks: 1,
                chosen: 90,
                damaged: 40,
                ..mixed
            },
            Profile::Malformed => Habits {
                weights: weights([1, 60, 10, 150, 200, 80, 80, 10, 10, 8, 20, 6, 2, 40, 400]),
                ..mixed
            },
            Profile::Refusals => Habits {
                weights: weights([1, 60, 20, 150, 200, 60, 90, 10, 10, 8, 20, 6, 2, 800, 20]),
                buffers: (1, 6),
                width: 6,
                channels: 2,
                files: 4,
                marks: 15,
                routines: 25,
                ..mixed
            },
            Profile::Kept => Habits {
                weights: weights([1, 60, 8, 250, 400, 250, 40, 5, 25, 8, 20, 6, 2, 25, 1]),
                files: 8,
                redundancies: 25,
                incomplete_words: 50,
                marks: 2,
                chosen: 75,
                damaged: 40,
                failed_words: 70,
                outputs: 10,
                ..mixed
            },
            Profile::Reel => Habits {
                weights: weights([1, 60, 2, 300, 1200, 120, 30, 5, 60, 12, 30, 6, 2, 25, 1]),
                channels: 2,
                files: 7,
                priority: 20,
                chosen: 40,
                outputs: 20,
                ..mixed
            },
            Profile::Routines => Habits {
                weights: weights([1, 60, 12, 400, 420, 60, 60, 5, 25, 22, 45, 90, 50, 30, 1]),
                buffers: (16, 32),
                width: 4,
                files: 12,
                priority: 25,
                routines: 85,
                redundancies: 8,
                marks: 4,
                outputs: 70,
                ..mixed
            },
        }
    }
}

/// The weights of the actions, in the order of their names.
fn weights(numbers: [u64; 15]) -> [(Action, u64); 15] {
    use Action::*;
    let actions = [
        Fresh, Open, Close, Ask, Report, Get, Put, Seal, Skip, Freeze, Thaw, Return, Running, Faulty,
        Malformed,
    ];
    std::array::from_fn(|index| (actions[index], numbers[index]))
}

#[cfg(test)]
mod tests {
    use super::*;

    #[test]
    fn every_profile_has_its_name() {
        for (name, profile) in PROFILES {
            assert_eq!(Profile::of(name), Some(profile));
        }
        assert_eq!(Profile::of("none"), None);
    }

    #[test]
    fn every_action_is_tried_by_every_profile() {
        for (name, profile) in PROFILES {
            let habits = profile.habits();
            assert!(habits.weights.iter().all(|(_, weight)| *weight > 0), "{name}");
            assert!(habits.redundancies + habits.incomplete_words <= 100, "{name}");
        }
    }
}
