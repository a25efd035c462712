//! An open file with its buffers (document 01, "Files and buffers").

use std::collections::VecDeque;

use crate::word::{next_number, Chosen, Fields, Judged};

#[derive(Clone, Copy, Debug, PartialEq, Eq)]
pub enum Direction {
    Input,
    Output,
}

/// A full block: "A block lies from the first word of its buffer, check word last."
#[derive(Clone, Debug, PartialEq, Eq)]
pub struct Block {
    pub buffer: usize,
    pub data_words: usize,
    /// How many of its data words get has given.
    pub place: usize,
    /// The check error that get has not told yet, 0 for none.
    pub error: u8,
    /// The error of the read that get has not told yet (document 02, M-101): 4 or 10, 0 for none.
    pub read_error: u8,
    /// What the check found at delivery; zeros of a block that was sealed.
    pub found: Fields,
}

/// The buffer that put adds to.
#[derive(Clone, Debug, PartialEq, Eq)]
pub struct PartFilled {
    pub buffer: usize,
    pub data_words: usize,
}

/// An open file. A buffer of it that is not taken, part-filled or full is empty.
#[derive(Clone, Debug, PartialEq, Eq)]
pub struct File {
    pub channel: usize,
    pub unit: usize,
    pub direction: Direction,
    pub chosen: Chosen,
    /// The block size B and the record length r.
    pub block_size: usize,
    pub record_length: usize,
    /// Its one or two buffers, the lowest first.
    pub buffers: Vec<usize>,
    /// The number of the next block that is sealed or delivered.
    pub number: u64,
    /// A file mark has been read since the open.
    pub mark_read: bool,
    /// The buffer that an unanswered read has taken.
    pub taken: Option<usize>,
    pub part_filled: Option<PartFilled>,
    /// The full blocks, the oldest first.
    pub full: VecDeque<Block>,
}

/// Words of a buffer: `words` of them, the first at `place`.
#[derive(Clone, Debug, PartialEq, Eq)]
pub struct Part {
    pub buffer: usize,
    pub place: usize,
    pub words: usize,
}

/// The answers of get: "a record ...; a short leftover ...; the block's check error ...; end ...;
/// nothing yet". M-101: "get reports error 4 or 10, once, before any check error", as it reports that.
#[derive(Clone, Debug, PartialEq, Eq)]
pub enum Found {
    Record(Part),
    NothingYet,
    End,
    Error(Judged),
    Leftover(Part),
}

impl Block {
    /// All its data words were given by earlier gets.
    pub fn used_up(&self) -> bool {
        self.place == self.data_words
    }
}

impl File {
    /// "The lowest-numbered ... start empty": the lowest of the file's empty buffers.
    pub fn lowest_empty(&self) -> Option<usize> {
        self.buffers.iter().copied().find(|&buffer| self.is_empty(buffer))
    }

    fn is_empty(&self, buffer: usize) -> bool {
        let part_filled = self.part_filled.as_ref().map(|part| part.buffer);
        let full = self.full.iter().any(|block| block.buffer == buffer);
        self.taken != Some(buffer) && part_filled != Some(buffer) && !full
    }

    /// 15: "an output buffer is part-filled or full".
    pub fn has_unwritten_output(&self) -> bool {
        self.direction == Direction::Output && (self.part_filled.is_some() || !self.full.is_empty())
    }

    /// The buffer that put adds to: "the part-filled buffer, or ... the lowest empty one".
    pub fn room_for_put(&self) -> Option<PartFilled> {
        let empty = self.lowest_empty().map(|buffer| PartFilled { buffer, data_words: 0 });
        self.part_filled.clone().or(empty)
    }

    /// "If less than r then remains of B, the block is sealed at once": after a put to `part`.
    pub fn put_seals(&self, part: &PartFilled) -> bool {
        self.block_size - (part.data_words + self.record_length) < self.record_length
    }

    /// Books a block that was sealed or delivered: it is full and the newest; "block numbers ... go
    /// up by one for every block sealed or delivered".
    pub fn add_full(&mut self, buffer: usize, data_words: usize, judged: Judged, read_error: u8) {
        let Judged { error, fields: found } = judged;
        self.full.push_back(Block { buffer, data_words, place: 0, error, read_error, found });
        self.number = next_number(self.number);
    }

    /// "A delivered block has 1 + e to B + e words".
    pub fn fits(&self, words: usize) -> bool {
        let e = self.chosen.e();
        (1 + e..=self.block_size + e).contains(&words)
    }

    /// All words of a block, check word last.
    pub fn whole_block(&self, block: &Block) -> Part {
        Part { buffer: block.buffer, place: 0, words: block.data_words + self.chosen.e() }
    }

    /// What get finds, with nothing changed: "If that block was used up by an earlier get, it first
    /// becomes empty and the next oldest is looked at."
    pub fn look(&self) -> Found {
        let Some(block) = self.full.iter().find(|block| !block.used_up()) else {
            return if self.mark_read { Found::End } else { Found::NothingYet };
        };
        let untold = [block.read_error, block.error].into_iter().find(|&error| error != 0);
        if let Some(error) = untold {
            return Found::Error(Judged { error, fields: block.found });
        }
        let remaining = block.data_words - block.place;
        let part = |words| Part { buffer: block.buffer, place: block.place, words };
        if remaining < self.record_length {
            Found::Leftover(part(remaining))
        } else {
            Found::Record(part(self.record_length))
        }
    }

    /// Gets what look finds: used-up blocks become empty, the place moves on, an error is told.
    pub fn get(&mut self) -> Found {
        let found = self.look();
        while self.full.front().is_some_and(Block::used_up) {
            self.full.pop_front();
        }
        if let Some(block) = self.full.front_mut() {
            match &found {
                Found::Record(part) | Found::Leftover(part) => block.place += part.words,
                // "the block's check error, once, before its first record"; before it the error of the read.
                Found::Error(_) if block.read_error != 0 => block.read_error = 0,
                Found::Error(_) => block.error = 0,
                Found::End | Found::NothingYet => {}
            }
        }
        found
    }
}

#[cfg(test)]
mod tests {
    use super::*;

    /// A block in which nothing is wrong, and one in error, with fields that tell it from others.
    const GOOD: Judged =
        Judged { error: 0, fields: Fields { sum: 7, number: 1, sum_read: 7, number_read: 1 } };

    fn in_error(error: u8) -> Judged {
        Judged { error, fields: Fields::of([error.into(), 100, 200, 300]) }
    }

    /// A full block by hand.
    fn block(buffer: usize, data_words: usize, place: usize) -> Block {
        Block { buffer, data_words, place, error: 0, read_error: 0, found: GOOD.fields }
    }

    /// An input file with buffers 3 and 5, blocks of up to 5 words and records of 2.
    fn input() -> File {
        File {
            channel: 0,
            unit: 0,
            direction: Direction::Input,
            chosen: Chosen { sequence: true, check: true },
            block_size: 5,
            record_length: 2,
            buffers: vec![3, 5],
            number: 1,
            mark_read: false,
            taken: None,
            part_filled: None,
            full: VecDeque::new(),
        }
    }

    fn output() -> File {
        File { direction: Direction::Output, ..input() }
    }

    fn part(buffer: usize, place: usize, words: usize) -> Part {
        Part { buffer, place, words }
    }

    #[test]
    fn buffers_in_use_are_not_empty() {
        let mut file = input();
        assert_eq!(file.lowest_empty(), Some(3));
        file.taken = Some(3);
        assert_eq!(file.lowest_empty(), Some(5));
        file.add_full(5, 1, GOOD, 0);
        assert_eq!(file.lowest_empty(), None);
        file.taken = None;
        assert_eq!(file.lowest_empty(), Some(3));
        let mut file = output();
        file.part_filled = Some(PartFilled { buffer: 3, data_words: 2 });
        assert_eq!(file.lowest_empty(), Some(5));
    }

    #[test]
    fn records_then_a_leftover_then_the_next_block() {
        let mut file = input();
        file.add_full(5, 5, GOOD, 0);
        file.add_full(3, 2, GOOD, 0);
        assert_eq!(file.get(), Found::Record(part(5, 0, 2)));
        assert_eq!(file.get(), Found::Record(part(5, 2, 2)));
        assert_eq!(file.get(), Found::Leftover(part(5, 4, 1)));
        assert_eq!(file.lowest_empty(), None);
        assert_eq!(file.get(), Found::Record(part(3, 0, 2)));
        assert_eq!(file.lowest_empty(), Some(5));
        assert_eq!(file.get(), Found::NothingYet);
        assert_eq!(file.lowest_empty(), Some(3));
        file.mark_read = true;
        assert_eq!(file.get(), Found::End);
        assert_eq!(file.get(), Found::End);
    }

    #[test]
    fn a_check_error_is_told_once_before_the_first_record() {
        let mut file = input();
        file.add_full(3, 1, in_error(3), 0);
        file.add_full(5, 2, in_error(1), 0);
        assert_eq!(file.get(), Found::Error(in_error(3)));
        assert_eq!(file.get(), Found::Leftover(part(3, 0, 1)));
        assert_eq!(file.get(), Found::Error(in_error(1)));
        assert_eq!(file.lowest_empty(), Some(3));
        assert_eq!(file.get(), Found::Record(part(5, 0, 2)));
    }

    /// Readings G4 to G6 and H8: the error of the read, then the check error, then the records; each is told
    /// by a get of its own, with the same fields.
    #[test]
    fn g6_the_error_of_the_read_is_told_before_the_check_error() {
        let mut file = input();
        file.add_full(3, 3, in_error(2), 10);
        file.add_full(5, 2, GOOD, 4);
        let told = |error, judged: Judged| Found::Error(Judged { error, ..judged });
        assert_eq!(file.look(), told(10, in_error(2)));
        assert_eq!(file.get(), told(10, in_error(2)));
        assert_eq!((file.full[0].read_error, file.full[0].error), (0, 2));
        assert_eq!(file.get(), Found::Error(in_error(2)));
        assert_eq!(file.get(), Found::Record(part(3, 0, 2)));
        assert_eq!(file.get(), Found::Leftover(part(3, 2, 1)));
        assert_eq!(file.lowest_empty(), None);
        assert_eq!(file.get(), told(4, GOOD));
        assert_eq!(file.lowest_empty(), Some(3));
        assert_eq!(file.get(), Found::Record(part(5, 0, 2)));
        assert_eq!((file.get(), file.number), (Found::NothingYet, 3));
    }

    /// Reading H9: what was found stays with the block after it was told, and while others come.
    #[test]
    fn h9_what_was_found_stays_with_the_block() {
        let mut file = input();
        file.add_full(5, 2, in_error(2), 0);
        file.add_full(3, 2, GOOD, 0);
        file.number = 9;
        assert_eq!(file.look(), Found::Error(in_error(2)));
        assert_eq!(file.get(), Found::Error(in_error(2)));
        assert_eq!((file.full[0].error, file.full[0].found), (0, in_error(2).fields));
        assert_eq!(file.full[1].found, GOOD.fields);
    }

    /// Reading F1: no calls lead here, but two used-up blocks both become empty.
    #[test]
    fn f1_two_used_up_blocks_both_become_empty() {
        let mut file = input();
        for buffer in [5, 3] {
            file.full.push_back(block(buffer, 2, 2));
        }
        assert_eq!(file.get(), Found::NothingYet);
        assert!(file.full.is_empty());
    }

    #[test]
    fn looking_changes_nothing() {
        let mut file = input();
        file.full.push_back(block(5, 2, 2));
        file.add_full(3, 4, GOOD, 0);
        let before = file.clone();
        assert_eq!(file.look(), Found::Record(part(3, 0, 2)));
        assert_eq!(file, before);
    }

    #[test]
    fn put_goes_to_the_part_filled_buffer_or_the_lowest_empty_one() {
        let mut file = output();
        assert_eq!(file.room_for_put(), Some(PartFilled { buffer: 3, data_words: 0 }));
        file.part_filled = Some(PartFilled { buffer: 5, data_words: 2 });
        assert_eq!(file.room_for_put(), file.part_filled);
        file.part_filled = None;
        file.add_full(3, 4, GOOD, 0);
        file.add_full(5, 4, GOOD, 0);
        assert_eq!(file.room_for_put(), None);
    }

    /// Reading C14: B = 5 and r = 2 hold two records; the block is sealed by the second put.
    #[test]
    fn a_block_is_sealed_if_less_than_a_record_remains() {
        let mut file = output();
        let part = |data_words| PartFilled { buffer: 3, data_words };
        assert!(!file.put_seals(&part(0)));
        assert!(file.put_seals(&part(2)));
        file.block_size = 6;
        assert!(!file.put_seals(&part(2)));
        assert!(file.put_seals(&part(4)));
        file.record_length = 6;
        assert!(file.put_seals(&part(0)));
    }

    #[test]
    fn unwritten_output_is_part_filled_or_full() {
        let mut file = output();
        assert!(!file.has_unwritten_output());
        file.part_filled = Some(PartFilled { buffer: 3, data_words: 2 });
        assert!(file.has_unwritten_output());
        file.part_filled = None;
        file.add_full(3, 2, GOOD, 0);
        assert!(file.has_unwritten_output());
        file.direction = Direction::Input;
        assert!(!file.has_unwritten_output());
    }

    #[test]
    fn block_numbers_go_up_and_pass_32767() {
        let mut file = input();
        file.number = 32_766;
        file.add_full(3, 1, GOOD, 0);
        assert_eq!(file.number, 32_767);
        file.add_full(5, 1, in_error(2), 0);
        assert_eq!(file.number, 0);
    }

    #[test]
    fn the_whole_block_has_its_check_word_last() {
        let mut file = output();
        file.add_full(5, 4, GOOD, 0);
        assert_eq!(file.whole_block(&file.full[0]), part(5, 0, 5));
        file.chosen = Chosen { sequence: false, check: false };
        assert_eq!(file.whole_block(&file.full[0]), part(5, 0, 4));
    }
}
