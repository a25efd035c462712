//! The subcommand `file-walks`: a fixed list of events for `files`: opens of all sorts, and after
//! each a random walk of events that are allowed where they stand.
//!
//! An event is a line of decimal numbers, the first its kind, and has one line of numbers for an answer: the
//! numbers that are named here, then the dump of the file.
//!
//! - `1 W output double sequence check B r low high`: an open. A single file has the buffer `low` alone.
//! - `2`: a read is accepted. Answer: `start`, where the taken buffer begins in the area.
//! - `3 words error readerror sum number sumread numberread`: the read delivers a block of so many data words,
//!   with this check error, this read error (M-101: 0 after a good end, 4 or 10 after a permanent error with
//!   words) and what the check found (M-102). Answer: nothing.
//! - `4`, `5`: a permanent error of the read without words; a file mark. Answer: nothing.
//! - `6`: get. Answer: `answer start count error sum number sumread numberread`; the answers are those of
//!   the session program, an error is the read error, then the check error, and what does not belong to the
//!   answer is 0.
//! - `7`: skip. Answer: nothing.
//! - `8`: a put of r words. Answer: `start count sealed`: where they go, the data words of the block then, and
//!   whether it is sealed at once. `9`: a seal. Answer: `start count` of the block's data words.
//! - `10`: what a write sends. Answer: `start count`, check word too. `11`, `12`: the write ended well; with
//!   a permanent error. Answer: nothing.
//!
//! The dump: the count of full blocks; for each, the oldest first, `buffer words place error readerror sum
//! number sumread numberread`, each error being 0 once it was told, the last four as found at delivery and 0
//! in an output file; the taken buffer, 255 for none; the part-filled buffer, 255 for none, and its words; the next
//! block number; whether a mark was read.

use crate::file_player::{
    answer_walk_event, OpenFile, GET, OPEN, PUT, READ, READ_ERROR, READ_GOOD, READ_MARK, SEAL, SKIP,
    TO_WRITE, WRITE_ERROR, WRITTEN,
};
use crate::random::Random;

const SEED: u64 = 7097;

/// The fewest and the most events of a walk, its open not counted.
const WALK: [u64; 2] = [10, 40];
/// Walks of each direction, single or double, choice of check word and shape.
const DIRECTIONS: u64 = 2;
const BUFFERS: u64 = 2;
const CHOICES: u64 = 4;

/// The lower and the higher buffer: neighbours, apart, and at both ends of the pool.
const BUFFER_PAIRS: [[u64; 2]; 6] = [[0, 1], [3, 7], [30, 31], [0, 31], [14, 15], [1, 29]];

/// How the buffer's words, the block size B and the record length r stand to one another.
#[derive(Clone, Copy, PartialEq, Eq)]
enum Shape {
    /// B = W - e.
    Fitting,
    /// B = r.
    OneRecord,
    /// r = 1.
    OneWord,
    /// r does not divide B.
    Uneven,
    /// B + e < W.
    Roomy,
    /// W = 1 + e or W = 1,024.
    Extreme,
}

const SHAPES: [Shape; 6] =
    [Shape::Fitting, Shape::OneRecord, Shape::OneWord, Shape::Uneven, Shape::Roomy, Shape::Extreme];

/// How often, against one another, the events of a walk come.
struct Habit {
    weights: &'static [(u64, u64)],
}

/// Reads ahead of the gets; gets ahead of the reads; both alike; and blocks that are skipped.
const INPUT_HABITS: [Habit; 4] = [
    Habit { weights: &[(READ, 9), (READ_GOOD, 9), (READ_ERROR, 1), (READ_MARK, 4), (GET, 5), (SKIP, 1)] },
    Habit { weights: &[(READ, 4), (READ_GOOD, 6), (READ_ERROR, 1), (READ_MARK, 4), (GET, 9), (SKIP, 1)] },
    Habit { weights: &[(READ, 7), (READ_GOOD, 8), (READ_ERROR, 1), (READ_MARK, 4), (GET, 8), (SKIP, 1)] },
    Habit { weights: &[(READ, 9), (READ_GOOD, 15), (READ_ERROR, 1), (READ_MARK, 0), (GET, 3), (SKIP, 6)] },
];

/// Puts ahead of the writes; writes ahead of the puts; early seals; and write errors.
const OUTPUT_HABITS: [Habit; 4] = [
    Habit { weights: &[(PUT, 9), (SEAL, 1), (TO_WRITE, 1), (WRITTEN, 2), (WRITE_ERROR, 1)] },
    Habit { weights: &[(PUT, 6), (SEAL, 1), (TO_WRITE, 2), (WRITTEN, 9), (WRITE_ERROR, 1)] },
    Habit { weights: &[(PUT, 6), (SEAL, 5), (TO_WRITE, 2), (WRITTEN, 4), (WRITE_ERROR, 1)] },
    Habit { weights: &[(PUT, 7), (SEAL, 1), (TO_WRITE, 4), (WRITTEN, 3), (WRITE_ERROR, 3)] },
];

/// The events so far, with a file on which they are played to choose only allowed ones.
struct Script {
    events: Vec<Vec<u64>>,
    opened: Option<OpenFile>,
    random: Random,
}

/// All events: a walk for every direction, single or double, choice and shape.
pub fn file_walks() -> Vec<Vec<u64>> {
    let mut script = Script { events: Vec::new(), opened: None, random: Random::new(SEED) };
    for shape in SHAPES {
        for choice in 0..CHOICES {
            for double in 0..BUFFERS {
                for output in 0..DIRECTIONS {
                    script.open(shape, output, double, choice);
                    script.walk();
                }
            }
        }
    }
    script.events
}

impl Script {
    /// Adds an event and plays it.
    fn play(&mut self, event: Vec<u64>) {
        answer_walk_event(&mut self.opened, &event).expect("an allowed event");
        self.events.push(event);
    }

    /// `choice` has bit 0 for sequence and bit 1 for check sum.
    fn open(&mut self, shape: Shape, output: u64, double: u64, choice: u64) {
        let [width, size, record] = self.sizes(shape, u64::from(choice != 0));
        let [low, high] = self.random.pick(&BUFFER_PAIRS);
        self.play(vec![OPEN, width, output, double, choice & 1, choice >> 1, size, record, low, high]);
    }

    /// W, B and r of a shape with e check words. Most blocks hold few records, so that a walk comes
    /// to their ends.
    fn sizes(&mut self, shape: Shape, e: u64) -> [u64; 3] {
        let size =
            if self.random.chance(2, 3) { self.random.between(3, 9) } else { self.random.between(10, 900) };
        let record = (size / self.random.between(1, 5)).max(1);
        let spare = self.random.between(1, 100);
        match shape {
            Shape::Fitting => [size + e, size, record],
            Shape::OneRecord => [size + e + spare * self.random.below(2), size, size],
            Shape::OneWord => {
                let size = self.random.between(1, 5);
                [size + e + spare * self.random.below(2), size, 1]
            }
            Shape::Uneven => {
                let record = self.random.between(2, 40);
                let size = record * self.random.between(1, 4) + self.random.between(1, record - 1);
                [size + e + spare * self.random.below(2), size, record]
            }
            Shape::Roomy => [size + e + spare, size, record],
            Shape::Extreme if self.random.chance(3 - e, 4) => [1 + e, 1, 1],
            Shape::Extreme => {
                let size = self.random.pick(&[1_024 - e, 1_023 - e, 512]);
                [1_024, size, self.random.pick(&[size, size / 2, size / 2 + 1, 300])]
            }
        }
    }

    /// A random walk; a file mark comes in its last third only, since it ends all reading.
    fn walk(&mut self) {
        let habit = self.random.below(INPUT_HABITS.len() as u64) as usize;
        let any = self.random.between(WALK[0], WALK[1]);
        let length = if self.random.chance(1, 15) { WALK[1] } else { any };
        for step in 0..length {
            let event = self.random_event(habit, step * 3 >= length * 2);
            self.play(event);
        }
    }

    /// One of the allowed events, by the weights of the direction's habit; seldom a get that finds no
    /// full block.
    fn random_event(&mut self, habit: usize, may_mark: bool) -> Vec<u64> {
        let opened = self.opened.as_ref().expect("an open file");
        let input = opened.allows(GET);
        let habit = if input { &INPUT_HABITS[habit] } else { &OUTPUT_HABITS[habit] };
        let may_come = |kind: u64| opened.allows(kind) && (kind != READ_MARK || may_mark);
        let vain = |kind: u64| kind == GET && opened.file.full.is_empty();
        let kinds: Vec<u64> = habit
            .weights
            .iter()
            .filter(|(kind, _)| may_come(*kind))
            .flat_map(|&(kind, weight)| vec![kind; if vain(kind) { 1 } else { weight as usize }])
            .collect();
        let kind = self.random.pick(&kinds);
        if kind == READ_GOOD {
            self.good_end()
        } else {
            vec![kind]
        }
    }

    /// A block of any size, often a whole one, with an error only of the chosen fields.
    fn good_end(&mut self) -> Vec<u64> {
        let file = &self.opened.as_ref().expect("an open file").file;
        let (size, record, chosen) = (file.block_size as u64, file.record_length as u64, file.chosen);
        let words = match self.random.below(5) {
            0 => self.random.between(1, size),
            1 => self.random.between(1, record),
            2 => record,
            _ => size,
        };
        let fields = u64::from(chosen.sequence) | u64::from(chosen.check) << 1;
        let error = if self.random.chance(1, 2) { self.random.below(4) & fields } else { 0 };
        // Every fourth block or so is one that is kept after a permanent error.
        let read_error = if self.random.chance(1, 4) { self.random.pick(&[4, 10]) } else { 0 };
        [&[READ_GOOD, words, error, read_error][..], &self.found(error)].concat()
    }

    /// What the check of the next block finds, with this error. The words of a walk are never all zero, so
    /// that no sum is 0. A field that is not chosen is read as anything, and without a check word as zero.
    fn found(&mut self, error: u64) -> [u64; 4] {
        let file = &self.opened.as_ref().expect("an open file").file;
        let (chosen, number) = (file.chosen, file.number);
        let any_sum = self.random.between(1, 262_143);
        let sum = self.random.pick(&[1, 262_143, any_sum, any_sum, any_sum]);
        let other_sum = self.random.below(262_144);
        let other_number = self.random.below(32_768);
        let differing = |right: u64, other: u64| if other == right { right ^ 1 } else { other };
        let sum_read = match (chosen.check, error & 2) {
            (true, 0) => sum,
            (true, _) => differing(sum, other_sum),
            (false, _) => other_sum,
        };
        let number_read = match (chosen.sequence, error & 1) {
            (true, 0) => number,
            (true, _) => differing(number, other_number),
            (false, _) => other_number,
        };
        if chosen.e() == 1 {
            [sum, number, sum_read, number_read]
        } else {
            [sum, number, 0, 0]
        }
    }
}

#[cfg(test)]
mod tests {
    use super::*;
    use crate::file::{Block, Direction, File};
    use crate::file_player::answer_walks;
    use crate::text::lines_of;
    use std::collections::{BTreeMap, BTreeSet};

    /// How often a thing comes about at least.
    const FEWEST: u64 = 2;

    /// What came about while the events were played.
    #[derive(Default)]
    struct Seen {
        counts: BTreeMap<&'static str, u64>,
        /// The errors that get told.
        errors: BTreeSet<u64>,
        /// The oldest block's write ended with a permanent error; then it was sent again.
        write_failed: bool,
        sent_again: bool,
        /// The last event was a get that told an error, or one that found the end.
        error_told: bool,
        end_found: bool,
    }

    fn oldest_is_used_up(file: &File) -> bool {
        file.full.front().is_some_and(Block::used_up)
    }

    impl Seen {
        fn count(&mut self, what: &'static str, came_about: bool) {
            *self.counts.entry(what).or_default() += u64::from(came_about);
        }

        fn see_open(&mut self, opened: &OpenFile) {
            let file = &opened.file;
            let (size, record, e) = (file.block_size, file.record_length, file.chosen.e());
            self.count("single", file.buffers.len() == 1);
            self.count("double", file.buffers.len() == 2);
            self.count("input", file.direction == Direction::Input);
            self.count("output", file.direction == Direction::Output);
            self.count("no check word", e == 0);
            self.count("sequence alone", file.chosen.sequence && !file.chosen.check);
            self.count("check sum alone", !file.chosen.sequence && file.chosen.check);
            self.count("sequence and check sum", file.chosen.sequence && file.chosen.check);
            self.count("B = W - e", size + e == opened.width);
            self.count("B + e < W", size + e < opened.width);
            self.count("B = r", size == record);
            self.count("r = 1", record == 1 && size > 1);
            self.count("r does not divide B", size % record != 0);
            self.count("W = 1,024", opened.width == 1_024);
            self.count("W = 1", opened.width == 1);
            for (what, pair) in [("0 1", [0, 1]), ("3 7", [3, 7]), ("30 31", [30, 31])] {
                self.count(what, file.buffers == pair);
            }
            self.write_failed = false;
            self.sent_again = false;
        }

        fn see(&mut self, before: &OpenFile, event: &[u64], answer: &[u64], after: &OpenFile) {
            let (before, after) = (&before.file, &after.file);
            match event[0] {
                READ_GOOD => self.see_good_end(before, event),
                READ_ERROR => self.count("permanent read error", true),
                READ_MARK => self.count("mark behind a full block", !before.full.is_empty()),
                GET => self.see_get(before, answer, after),
                SKIP => self.see_skip(before, after),
                PUT => self.see_put(before, answer),
                SEAL => self.count("early seal", true),
                TO_WRITE | WRITTEN | WRITE_ERROR => self.see_write(event[0]),
                _ => {}
            }
            self.error_told = event[0] == GET && answer[0] == 3;
            self.end_found = event[0] == GET && answer[0] == 2;
            self.see_full(before.direction, after);
        }

        fn see_full(&mut self, direction: Direction, after: &File) {
            let two = (after.full.len() == 2).then(|| after.full[0].buffer < after.full[1].buffer);
            let whats = match direction {
                Direction::Input => ["input: lower older", "input: higher older", "input: number past 10"],
                Direction::Output => {
                    ["output: lower older", "output: higher older", "output: number past 10"]
                }
            };
            self.count(whats[0], two == Some(true));
            self.count(whats[1], two == Some(false));
            self.count(whats[2], after.number > 10);
        }

        fn see_good_end(&mut self, before: &File, event: &[u64]) {
            self.count("block shorter than r", event[1] < before.record_length as u64);
            self.count("block of B words", event[1] == before.block_size as u64);
            self.count(
                "block in error shorter than r",
                event[2] > 0 && event[1] < before.record_length as u64,
            );
            self.count("kept block, redundancy", event[3] == 4);
            self.count("kept block, incomplete word", event[3] == 10);
            self.count("kept block with a check error", event[3] != 0 && event[2] != 0);
            self.count("kept block behind another block", event[3] != 0 && !before.full.is_empty());
            self.count("delivered behind a used-up block", oldest_is_used_up(before));
        }

        fn see_get(&mut self, before: &File, answer: &[u64], after: &File) {
            let emptied = after.full.len() < before.full.len();
            self.count("used-up block emptied by the next get", emptied);
            self.count("next block after a used-up one", emptied && [0, 4].contains(&answer[0]));
            self.count("error of the next block after a used-up one", emptied && answer[0] == 3);
            self.count("end after a used-up block", emptied && answer[0] == 2);
            self.count("nothing yet after a used-up block", emptied && answer[0] == 1);
            self.count("used-up block that is not emptied", oldest_is_used_up(before) && !emptied);
            self.count("record", answer[0] == 0);
            self.count("record that uses up its block", answer[0] == 0 && oldest_is_used_up(after));
            self.count("nothing yet", answer[0] == 1);
            self.count("nothing yet while a read is unanswered", answer[0] == 1 && before.taken.is_some());
            self.count("end", answer[0] == 2);
            self.count("end again", answer[0] == 2 && self.end_found);
            self.count("error told", answer[0] == 3);
            self.count("words right after an error told", self.error_told && [0, 4].contains(&answer[0]));
            self.count("check error right after a read error", self.error_told && answer[0] == 3);
            self.count(
                "anything else right after an error told",
                self.error_told && [1, 2].contains(&answer[0]),
            );
            let read_error = answer[0] == 3 && answer[3] > 3;
            self.count("read error of the next block after a used-up one", emptied && read_error);
            self.count("leftover", answer[0] == 4);
            self.count(
                "leftover behind records",
                answer[0] == 4 && answer[2] < after.full[0].data_words as u64,
            );
            if answer[0] == 3 {
                self.errors.insert(answer[3]);
            }
        }

        fn see_skip(&mut self, before: &File, after: &File) {
            let fresh = after.full.front().is_some_and(|block| block.place == 0);
            self.count("skip of a used-up block, a fresh one behind it", oldest_is_used_up(before) && fresh);
            self.count("skip of a block not used up", !oldest_is_used_up(before));
            self.count("skip of an error not told", before.full[0].error != 0);
            self.count("skip of a read error not told", before.full[0].read_error != 0);
        }

        fn see_put(&mut self, before: &File, answer: &[u64]) {
            let sealed = answer[2] == 1;
            let remains = before.block_size as u64 - answer[1];
            self.count("put that seals by exact fit", sealed && remains == 0);
            self.count("put that seals with less than r left", sealed && remains > 0);
            self.count("put that does not seal", !sealed);
            self.count("put beside a full block", !before.full.is_empty());
        }

        /// A block written again: an error, what is sent, then a good end.
        fn see_write(&mut self, kind: u64) {
            match kind {
                WRITE_ERROR => {
                    self.count("permanent write error", true);
                    self.count("permanent write error again", self.write_failed);
                    self.write_failed = true;
                }
                WRITTEN => {
                    self.count("written", true);
                    self.count("written again after an error", self.sent_again);
                    self.write_failed = false;
                    self.sent_again = false;
                }
                _ => self.sent_again = self.write_failed,
            }
        }
    }

    /// Plays the list once more and counts.
    fn seen() -> Seen {
        let mut seen = Seen::default();
        let mut opened: Option<OpenFile> = None;
        for event in file_walks() {
            let before = opened.clone();
            let answer = answer_walk_event(&mut opened, &event).expect("an event");
            let after = opened.as_ref().expect("an open file");
            match before {
                Some(before) if event[0] != OPEN => seen.see(&before, &event, &answer, after),
                _ => seen.see_open(after),
            }
        }
        seen
    }

    #[test]
    fn the_list_keeps_its_size() {
        let events = file_walks();
        assert!((2_300..=2_700).contains(&events.len()), "{} events", events.len());
        let input = lines_of(&events);
        assert!(input.len() < 40_000);
        assert!(answer_walks(&input).expect("events").len() < 200_000);
    }

    #[test]
    fn walks_keep_their_length() {
        let events = file_walks();
        let walks: Vec<usize> = events.split(|event| event[0] == OPEN).map(<[Vec<u64>]>::len).collect();
        assert_eq!(walks[0], 0);
        assert!(walks[1..].iter().all(|&length| (10..=40).contains(&length)), "{walks:?}");
        assert_eq!(walks.len() - 1, 96);
    }

    #[test]
    fn everything_comes_about() {
        let seen = seen();
        let never = ["used-up block that is not emptied", "anything else right after an error told"];
        for what in never {
            assert_eq!(seen.counts[what], 0, "came about: {what}");
        }
        let too_seldom = |(what, count): &(&&str, &u64)| !never.contains(what) && **count < FEWEST;
        let seldom: Vec<(&&str, &u64)> = seen.counts.iter().filter(too_seldom).collect();
        assert!(seldom.is_empty(), "came about too seldom: {seldom:?} of {:?}", seen.counts);
        assert!(seen.errors.iter().copied().eq([1, 2, 3, 4, 10]));
        for often in
            ["input: lower older", "input: higher older", "output: lower older", "output: higher older"]
        {
            assert!(seen.counts[often] >= 10, "{often}: {}", seen.counts[often]);
        }
    }
}
