//! Random calls and changes over small pools, from a fixed seed: most of them sensible, so that much
//! comes about, and some of any kind.

use super::script::{Script, GOOD, HUGE, INCOMPLETE_WORD, MARK, READ, REDUNDANCY, SPOILT, WRITE};
use crate::channel::Turn;
use crate::pack::NO_LENGTH;
use crate::pack_player as player;
use crate::random::Random;
use crate::state::{FileState, Slot, State};
use crate::word::{check_word, logical_sum, Chosen};

const SEED: u64 = 7044;
/// The pools, and the steps on each.
const POOLS: usize = 12;
const STEPS: usize = 110;

/// The files, channels and units that come most often, counted from 0.
const FILES: u64 = 4;
pub const USED_CHANNELS: u64 = 2;
pub const UNITS: u64 = 3;
pub const MASK: u64 = 7;

/// How often, against one another, the steps come. The first eleven are calls.
const WEIGHTS: [(Step, u64); 13] = [
    (Step::Fresh, 1),
    (Step::Open, 10),
    (Step::Close, 3),
    (Step::Ask, 18),
    (Step::Report, 26),
    (Step::Get, 22),
    (Step::Put, 14),
    (Step::Seal, 5),
    (Step::Skip, 4),
    (Step::Freeze, 2),
    (Step::Thaw, 3),
    (Step::Change, 16),
    (Step::Words, 5),
];

const CALLS: usize = 11;

/// The steps that are calls of one file.
const FILE_STEPS: [Step; 6] = [Step::Close, Step::Ask, Step::Get, Step::Put, Step::Seal, Step::Skip];

#[derive(Clone, Copy, PartialEq, Eq)]
pub enum Step {
    Fresh,
    Open,
    Close,
    Ask,
    Report,
    Get,
    Put,
    Seal,
    Skip,
    Freeze,
    Thaw,
    Change,
    Words,
}

pub fn add_cases(script: &mut Script) {
    add_steps(script, SEED);
}

/// The steps of a seed.
pub fn add_steps(script: &mut Script, seed: u64) {
    let mut steps = Steps { script, random: Random::new(seed) };
    for _ in 0..POOLS {
        steps.begin();
        for _ in 0..STEPS {
            let step = steps.random_step();
            steps.play(step);
        }
        steps.script.print_room();
        steps.script.print_state();
    }
}

pub struct Steps<'a> {
    pub script: &'a mut Script,
    pub random: Random,
}

impl Steps<'_> {
    /// A small pool with up to three files.
    fn begin(&mut self) {
        let [buffers, width] = self.pool();
        self.script.begin(buffers, width, MASK);
        for _ in 0..3 {
            self.play(Step::Open);
        }
    }

    /// The sizes of a small pool.
    pub fn pool(&mut self) -> [u64; 2] {
        [self.random.between(2, 5), self.random.between(3, 8)]
    }

    /// A call of any kind.
    pub fn random_call(&mut self) -> Vec<u64> {
        let (step, _) = self.random.pick(&WEIGHTS[..CALLS]);
        self.call(step)
    }

    /// A step by the weights; a report seldom comes while no channel works, and a step that suits no
    /// file seldom at all.
    fn random_step(&mut self) -> Step {
        let steps: Vec<Step> =
            WEIGHTS.iter().flat_map(|&(step, weight)| vec![step; weight as usize]).collect();
        loop {
            let step = self.random.pick(&steps);
            let vain = match step {
                Step::Report => self.units_at_work().is_empty(),
                Step::Open => self.state().open_files().count() > 2,
                _ => FILE_STEPS.contains(&step) && self.suited(step).is_empty(),
            };
            if !vain || self.random.chance(1, 8) {
                return step;
            }
        }
    }

    /// Adds a step; now and then the state, the room or soundness is printed after it.
    fn play(&mut self, step: Step) {
        if step == Step::Change {
            self.change();
        } else if step == Step::Words {
            self.change_words();
        } else {
            let call = self.call(step);
            self.script.add(&call);
        }
        if self.random.chance(1, 12) {
            self.script.print_state();
        }
        if self.random.chance(1, 30) {
            self.script.print_sound();
            self.script.print_room();
        }
    }

    pub fn state(&self) -> &State {
        &self.script.player.state
    }

    pub fn call(&mut self, step: Step) -> Vec<u64> {
        let file = self.any_file(step);
        match step {
            Step::Fresh => self.fresh(),
            Step::Open => self.open(),
            Step::Close => vec![player::CLOSE, file],
            Step::Ask => self.ask(file),
            Step::Report => self.report(),
            Step::Get => vec![player::GET, file],
            Step::Put => self.put(file),
            Step::Seal => vec![player::SEAL, file],
            Step::Skip => vec![player::SKIP, file],
            Step::Freeze => vec![player::FREEZE],
            _ => vec![player::THAW],
        }
    }

    /// The open files of which a call is likely to be accepted.
    fn suited(&self, step: Step) -> Vec<u64> {
        let suits = |file: &FileState| {
            let idle = self.state().request_of(file).is_none();
            let [full, part_filled] = [Slot::is_full, Slot::is_part_filled].map(|kind| file.count(kind) > 0);
            let empty = file.count(|slot| *slot == Slot::Empty) > 0;
            match step {
                Step::Close => idle && !(file.output && (full || part_filled)),
                Step::Ask if file.output => idle && (full || !part_filled),
                Step::Ask => idle && empty && !file.marked,
                Step::Get => !file.output && full,
                Step::Put => file.output && (empty || part_filled),
                Step::Seal => part_filled,
                Step::Skip => !file.output && full,
                _ => true,
            }
        };
        let files = self.state().files.iter().enumerate();
        files.filter(|(_, file)| file.opened && suits(file)).map(|(number, _)| number as u64).collect()
    }

    /// Mostly a file that suits the step, else one that is open, or any number.
    pub fn any_file(&mut self, step: Step) -> u64 {
        let suited = self.suited(step);
        let open = self.suited(Step::Change);
        if !suited.is_empty() && self.random.chance(7, 8) {
            self.random.pick(&suited)
        } else if !open.is_empty() && self.random.chance(5, 6) {
            self.random.pick(&open)
        } else {
            self.random.pick(&[0, 1, 2, 3, 15, 16, 255])
        }
    }

    /// The channel and unit of every request at work.
    fn units_at_work(&self) -> Vec<[u64; 2]> {
        let at_work = self.state().requests().filter(|(_, _, request)| request.turn == Turn::Working);
        at_work.map(|(channel, unit, _)| [channel, unit]).collect()
    }

    /// A file as it is; a closed one for a number that is none.
    pub fn file_at(&self, file: u64) -> FileState {
        self.state().files.get(file as usize).cloned().unwrap_or_default()
    }

    /// Mostly a file that is closed and a unit that is not bound, else any.
    fn closed_file_and_free_unit(&mut self) -> (u64, [u64; 2]) {
        loop {
            let file = self.random.below(FILES);
            let [channel, unit] = [self.random.below(USED_CHANNELS), self.random.below(UNITS)];
            let free = self.state().files_of(channel, unit).count() == 0;
            if (free && !self.file_at(file).opened) || self.random.chance(1, 10) {
                return (file, [channel, unit]);
            }
        }
    }

    /// Mostly of a small pool and all units that are used.
    fn fresh(&mut self) -> Vec<u64> {
        let [buffers, width] = self.pool();
        let mut call = vec![player::FRESH, buffers, width, MASK, MASK, 0, 0, 0];
        if self.random.chance(1, 4) {
            let place = self.random.between(1, 7) as usize;
            call[place] = self.random.pick(&[0, 33, 255]);
        }
        call
    }

    fn open(&mut self) -> Vec<u64> {
        let width = self.state().width.max(1);
        let (file, [channel, unit]) = self.closed_file_and_free_unit();
        let flags = self.random.below(16);
        let most = width.saturating_sub(u64::from(flags > 3)).clamp(1, 64);
        let size = self.random.between(1, most);
        let record = self.random.between(1, size).min(self.random.between(1, size));
        let mut call = vec![player::OPEN, file, channel, unit, flags, size, record];
        if self.random.chance(1, 8) {
            let place = self.random.between(1, 6) as usize;
            call[place] = self.random.pick(&[0, width, 5, 16, 255]);
        }
        call
    }

    /// Mostly of an operation that fits the file.
    fn ask(&mut self, file: u64) -> Vec<u64> {
        let asked = self.file_at(file);
        let fitting = match (asked.output, asked.count(Slot::is_full) > 0) {
            (false, _) => READ,
            (true, true) => WRITE,
            (true, false) => MARK,
        };
        let operation = if self.random.chance(1, 12) { self.random.below(4) } else { fitting };
        let priority = if self.random.chance(1, 20) { 2 } else { u64::from(self.random.chance(1, 4)) };
        vec![player::ASK, file, operation, priority]
    }

    /// Mostly of a unit that its channel works for.
    fn report(&mut self) -> Vec<u64> {
        let at_work = self.units_at_work();
        let any = [self.random.below(USED_CHANNELS), self.random.below(UNITS)];
        let [channel, unit] =
            if at_work.is_empty() || self.random.chance(1, 20) { any } else { self.random.pick(&at_work) };
        let outcome = self.random.pick(&[0, 0, 0, 0, 0, 0, 1, 1, 1, 2, 3, 4]);
        let bound = self.state().files_of(channel, unit).next().cloned().unwrap_or_default();
        let of_ten = match outcome {
            GOOD if !bound.output => 10,
            REDUNDANCY | INCOMPLETE_WORD if !bound.output => 6,
            _ => 1,
        };
        let brings = self.random.chance(of_ten, 10);
        let words = if brings { self.block(&bound) } else { vec![] };
        let count = words.len() as u64;
        let length = if self.random.chance(if outcome == REDUNDANCY { 12 } else { 1 }, 24) {
            self.random.pick(&[count, count, 0, 2, 3, 65_535])
        } else {
            NO_LENGTH
        };
        [vec![player::REPORT, channel, unit, outcome, length, count], words].concat()
    }

    /// A block for a file: mostly of a right size, and often with a right check word.
    fn block(&mut self, file: &FileState) -> Vec<u64> {
        let size = file.block_size.clamp(1, 8);
        let count =
            if self.random.chance(1, 12) { self.random.below(9) } else { self.random.between(1, size) };
        let mut words: Vec<u64> = (0..count).map(|_| self.random.below(100)).collect();
        if file.e() == 1 {
            let chosen = Chosen { sequence: file.sequence, check: file.check };
            let right = check_word(chosen, file.number % 32_768, logical_sum(&words));
            words.push(if self.random.chance(2, 3) { right } else { self.random.word() });
        }
        self.spoil(&mut words);
        words
    }

    /// Mostly r words for an output file.
    fn put(&mut self, file: u64) -> Vec<u64> {
        let record = self.file_at(file).record_length.min(64);
        let count = if self.random.chance(1, 12) { self.random.below(6) } else { record };
        let mut words: Vec<u64> = (0..count).map(|_| self.random.below(100)).collect();
        self.spoil(&mut words);
        [vec![player::PUT, file, words.len() as u64], words].concat()
    }

    /// Now and then one of the words is too large.
    fn spoil(&mut self, words: &mut [u64]) {
        if !words.is_empty() && self.random.chance(1, 25) {
            let place = self.random.below(words.len() as u64) as usize;
            words[place] = self.random.pick(&[SPOILT, HUGE]);
        }
    }
}
