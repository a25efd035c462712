//! A script of pack cases in the making. Every command is played as it is added, so that a case can
//! go by what came of the commands before it.

use crate::channel::UNITS;
use crate::pack::{CHANNELS, FILES, NO_LENGTH};
use crate::pack_player::{self as player, Player};
use crate::state::{ProgramState, ProgramsState, RoutineState, State, UnitState};
use crate::state_fields::{
    file_fields, places, pool_fields, post_fields, program_fields, unit_fields, AT, ATTEMPTS, ERROR,
    FILE_FIELDS, FOUND_SUM, FREE, FULL, INCOMPLETE, NOISE, NUMBER_READ, OPERATION, ORDINARY_MARK,
    PART_FILLED, POOL_FIELDS, POST_FIELDS, PRIORITY, PRIORITY_MARK, PROGRAM_FIELDS, SLOT_KIND, SUM_READ,
    TURN_KIND, UNIT_FIELDS, WORDS,
};

pub const READ: u64 = 0;
pub const WRITE: u64 = 1;
pub const MARK: u64 = 2;

pub const GOOD: u64 = 0;
pub const REDUNDANCY: u64 = 1;
pub const INCOMPLETE_WORD: u64 = 2;
pub const FILE_MARK: u64 = 3;
pub const END_OF_MEDIUM: u64 = 4;

/// The largest word, the smallest number that is none, and the largest number.
pub const LARGEST: u64 = (1 << 36) - 1;
pub const SPOILT: u64 = 1 << 36;
pub const HUGE: u64 = u64::MAX;

#[derive(Default)]
pub struct Script {
    pub commands: Vec<Vec<u64>>,
    pub player: Player,
}

impl Script {
    /// Adds a command and gives its answer; a change has none.
    pub fn add(&mut self, command: &[u64]) -> Vec<u64> {
        let answer = self.player.play(command).unwrap_or_else(|complaint| panic!("{command:?}: {complaint}"));
        self.commands.push(command.to_vec());
        answer.unwrap_or_default()
    }

    /// Adds a call that must be accepted for the case to be what it is meant to be.
    pub fn accepted(&mut self, call: &[u64]) {
        assert_eq!(self.add(call).first(), Some(&0), "{call:?}");
    }

    pub fn start_over(&mut self) {
        self.add(&[player::START_OVER]);
    }

    pub fn fresh(&mut self, buffers: u64, width: u64, masks: [u64; CHANNELS]) {
        self.add(&[&[player::FRESH, buffers, width][..], &masks].concat());
    }

    /// Starts over with a pool and the same units on the first two channels.
    pub fn begin(&mut self, buffers: u64, width: u64, mask: u64) {
        self.start_over();
        self.accepted(&[player::FRESH, buffers, width, mask, mask, 0, 0, 0]);
    }

    /// Opens a file on channel 0, on the unit of the same number.
    pub fn open(&mut self, file: u64, flags: u64, size: u64, record: u64) {
        self.open_on(file, 0, file, flags, size, record);
    }

    pub fn open_on(&mut self, file: u64, channel: u64, unit: u64, flags: u64, size: u64, record: u64) {
        self.accepted(&[player::OPEN, file, channel, unit, flags, size, record]);
    }

    /// The same of an open that may be refused.
    pub fn try_open(&mut self, file: u64, flags: u64, size: u64, record: u64) {
        self.try_open_on(file, 0, file, flags, size, record);
    }

    pub fn try_open_on(&mut self, file: u64, channel: u64, unit: u64, flags: u64, size: u64, record: u64) {
        self.add(&[player::OPEN, file, channel, unit, flags, size, record]);
    }

    pub fn close(&mut self, file: u64) {
        self.add(&[player::CLOSE, file]);
    }

    /// An ordinary request.
    pub fn ask(&mut self, file: u64, operation: u64) {
        self.add(&[player::ASK, file, operation, 0]);
    }

    /// An ordinary request that names a routine and a priority.
    pub fn ask_naming(&mut self, file: u64, operation: u64, routine: u64, level: u64) {
        self.add(&[player::ASK_NAMING, file, operation, 0, 1, routine, level]);
    }

    /// The routine that runs returns.
    pub fn give_back(&mut self) {
        self.add(&[player::RETURN]);
    }

    /// What runs.
    pub fn running(&mut self) {
        self.add(&[player::RUNNING]);
    }

    /// A report of a channel without words.
    pub fn report_on(&mut self, channel: u64, unit: u64, outcome: u64) {
        self.add(&[player::REPORT, channel, unit, outcome, NO_LENGTH, 0]);
    }

    /// A report of channel 0 with words.
    pub fn deliver(&mut self, unit: u64, words: &[u64]) {
        self.end_with(unit, GOOD, words);
    }

    /// A report of channel 0 with an outcome and words.
    pub fn end_with(&mut self, unit: u64, outcome: u64, words: &[u64]) {
        self.end_with_length(unit, outcome, NO_LENGTH, words);
    }

    /// The same with a length; `NO_LENGTH` is none.
    pub fn end_with_length(&mut self, unit: u64, outcome: u64, length: u64, words: &[u64]) {
        self.add(&[&[player::REPORT, 0, unit, outcome, length, words.len() as u64], words].concat());
    }

    /// A redundancy on channel 0 with a length.
    pub fn report_length(&mut self, unit: u64, length: u64, words: &[u64]) {
        self.end_with_length(unit, REDUNDANCY, length, words);
    }

    /// A report of channel 0 without words.
    pub fn report(&mut self, unit: u64, outcome: u64) {
        self.add(&[player::REPORT, 0, unit, outcome, NO_LENGTH, 0]);
    }

    /// A read on channel 0 that delivers the words.
    pub fn read(&mut self, file: u64, words: &[u64]) {
        self.accepted(&[player::ASK, file, READ, 0]);
        self.accepted(&[&[player::REPORT, 0, file, GOOD, NO_LENGTH, words.len() as u64], words].concat());
    }

    pub fn get(&mut self, file: u64) {
        self.add(&[player::GET, file]);
    }

    pub fn put(&mut self, file: u64, words: &[u64]) {
        self.add(&[&[player::PUT, file, words.len() as u64], words].concat());
    }

    pub fn seal(&mut self, file: u64) {
        self.add(&[player::SEAL, file]);
    }

    pub fn skip(&mut self, file: u64) {
        self.add(&[player::SKIP, file]);
    }

    pub fn freeze(&mut self) {
        self.add(&[player::FREEZE]);
    }

    pub fn thaw(&mut self) {
        self.add(&[player::THAW]);
    }

    pub fn length(&mut self, length: u64) {
        self.add(&[player::LENGTH, length]);
    }

    pub fn word(&mut self, place: u64, value: u64) {
        self.add(&[player::WORD, place, value]);
    }

    pub fn file(&mut self, file: u64, field: u64, value: u64) {
        self.add(&[player::FILE, file, field, value]);
    }

    pub fn unit(&mut self, channel: u64, unit: u64, field: u64, value: u64) {
        self.add(&[player::UNIT, channel, unit, field, value]);
    }

    /// The mark of the scan for ordinary requests.
    pub fn scan_mark(&mut self, channel: u64, value: u64) {
        self.add(&[player::SCAN_MARK, channel, ORDINARY_MARK, value]);
    }

    /// The mark of the scan for priority requests.
    pub fn priority_mark(&mut self, channel: u64, value: u64) {
        self.add(&[player::SCAN_MARK, channel, PRIORITY_MARK, value]);
    }

    pub fn pool(&mut self, field: u64, value: u64) {
        self.add(&[player::POOL, field, value]);
    }

    /// How many programs are on the push-down list, by hand.
    pub fn depth(&mut self, depth: u64) {
        self.add(&[player::DEPTH, depth]);
    }

    /// A field of a program; place 0 is what runs, then comes the list from the bottom up.
    pub fn program(&mut self, place: u64, field: u64, value: u64) {
        self.add(&[player::PROGRAM, place, field, value]);
    }

    /// A field of what stands with a unit.
    pub fn post(&mut self, channel: u64, unit: u64, field: u64, value: u64) {
        self.add(&[player::POST, channel, unit, field, value]);
    }

    /// The routine that a unit's request names, by its rank and number.
    pub fn named(&mut self, channel: u64, unit: u64, rank: u64, routine: u64) {
        let post = RoutineState { rank, routine };
        self.set_post(channel, unit, |unit| unit.named = post);
    }

    /// The routine that waits at a unit.
    pub fn waiting(&mut self, channel: u64, unit: u64, rank: u64, routine: u64) {
        let post = RoutineState { rank, routine };
        self.set_post(channel, unit, |unit| unit.waiting = post);
    }

    /// The changes that make what stands with a unit what is wanted.
    fn set_post(&mut self, channel: u64, unit: u64, change: impl Fn(&mut UnitState)) {
        let now = &self.player.state.channels[channel as usize].units[unit as usize];
        let mut wanted = now.clone();
        change(&mut wanted);
        let (now, wanted) = (post_fields(now), post_fields(&wanted));
        for field in 0..POST_FIELDS {
            if now[field as usize] != wanted[field as usize] {
                self.post(channel, unit, field, wanted[field as usize]);
            }
        }
    }

    /// The changes that make what runs and the list what they are to be.
    pub fn set_programs(&mut self, target: &ProgramsState) {
        if self.player.state.programs.depth != target.depth {
            self.depth(target.depth);
        }
        let wanted: Vec<ProgramState> = places(target).copied().collect();
        let now: Vec<ProgramState> = places(&self.player.state.programs).copied().collect();
        for (place, (now, wanted)) in (0..).zip(now.iter().zip(&wanted)) {
            for field in 0..PROGRAM_FIELDS {
                let value = program_fields(wanted)[field as usize];
                if program_fields(now)[field as usize] != value {
                    self.program(place, field, value);
                }
            }
        }
    }

    /// Sets the mask of the free buffers by hand.
    pub fn free(&mut self, mask: u64) {
        self.pool(FREE, mask);
    }

    /// Puts the mask of the free buffers right, if it is wrong.
    pub fn right_mask(&mut self) {
        let right = self.player.state.free_mask();
        if self.player.state.free != right {
            self.free(u64::from(right));
        }
    }

    pub fn print_room(&mut self) {
        self.add(&[player::PRINT_ROOM]);
    }

    pub fn print_state(&mut self) {
        self.add(&[player::PRINT_STATE]);
    }

    pub fn print_sound(&mut self) {
        self.add(&[player::PRINT_SOUND]);
    }

    /// What the low or the high buffer of a file holds, by its kind; `side` is its first field.
    pub fn slot(&mut self, file: u64, side: u64, kind: u64) {
        self.file(file, side + SLOT_KIND, kind);
    }

    pub fn part_filled(&mut self, file: u64, side: u64, words: u64) {
        self.slot(file, side, PART_FILLED);
        self.file(file, side + WORDS, words);
    }

    /// A full block. If it has an error, what was read differs from the zeros that were worked out.
    pub fn full(&mut self, file: u64, side: u64, [words, at, error]: [u64; 3]) {
        self.slot(file, side, FULL);
        self.file(file, side + WORDS, words);
        self.file(file, side + AT, at);
        self.file(file, side + ERROR, error);
        for (bit, field) in [(1, NUMBER_READ), (2, SUM_READ)] {
            if error & bit != 0 {
                self.file(file, side + field, 1);
            }
        }
    }

    /// What the check of a full block found.
    pub fn found(&mut self, file: u64, side: u64, fields: [u64; 4]) {
        for (field, value) in (FOUND_SUM..=NUMBER_READ).zip(fields) {
            self.file(file, side + field, value);
        }
    }

    /// An ordinary request of a unit, with its turn and its attempt.
    pub fn request(&mut self, channel: u64, unit: u64, turn: u64, operation: u64, attempt: u64) {
        self.unit(channel, unit, TURN_KIND, turn);
        self.unit(channel, unit, OPERATION, operation);
        self.unit(channel, unit, PRIORITY, 0);
        self.unit(channel, unit, ATTEMPTS, attempt);
        self.unit(channel, unit, INCOMPLETE, 0);
        let now = &self.player.state.channels[channel as usize].units[unit as usize];
        if unit_fields(now)[NOISE as usize] != 0 {
            self.unit(channel, unit, NOISE, 0);
        }
    }

    /// Every place of the room gets a word of its own.
    pub fn fill_room(&mut self) {
        for place in 0..player::ROOM as u64 {
            self.word(place, 900 + place);
        }
    }

    /// The changes that make the state what it was.
    pub fn set_state(&mut self, target: &State) {
        for field in 0..POOL_FIELDS {
            let value = pool_fields(target)[field as usize];
            if pool_fields(&self.player.state)[field as usize] != value {
                self.pool(field, value);
            }
        }
        for channel in 0..CHANNELS {
            self.set_channel(target, channel);
        }
        for file in 0..FILES {
            for field in 0..FILE_FIELDS {
                let value = file_fields(&target.files[file])[field as usize];
                if file_fields(&self.player.state.files[file])[field as usize] != value {
                    self.file(file as u64, field, value);
                }
            }
        }
        self.set_programs(&target.programs);
    }

    fn set_channel(&mut self, target: &State, channel: usize) {
        let wanted = &target.channels[channel];
        let now = &self.player.state.channels[channel];
        let (mark, priority_mark) = (now.mark, now.priority_mark);
        if mark != wanted.mark {
            self.scan_mark(channel as u64, wanted.mark);
        }
        if priority_mark != wanted.priority_mark {
            self.priority_mark(channel as u64, wanted.priority_mark);
        }
        for unit in 0..UNITS {
            for field in 0..UNIT_FIELDS {
                let value = unit_fields(&wanted.units[unit])[field as usize];
                let now = &self.player.state.channels[channel].units[unit];
                if unit_fields(now)[field as usize] != value {
                    self.unit(channel as u64, unit as u64, field, value);
                }
            }
            let RoutineState { rank, routine } = wanted.units[unit].named;
            self.named(channel as u64, unit as u64, rank, routine);
            let RoutineState { rank, routine } = wanted.units[unit].waiting;
            self.waiting(channel as u64, unit as u64, rank, routine);
        }
    }
}
