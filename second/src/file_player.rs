//! The subcommand `files`: plays events, one a line, on one file with its one or two buffers and
//! answers each. Only numbers are kept: where words lie and how many they are.

use std::collections::VecDeque;

use crate::file::{Direction, File, Found, Part};
use crate::pack::{MOST_BUFFERS, MOST_WIDTH};
use crate::text::answer_lines;
use crate::word::{ones, Chosen, Fields, Judged, HALF_BITS, LAST_NUMBER};

/// A buffer's number if there is none.
pub const NO_BUFFER: u64 = 255;

/// The kinds of events.
pub const OPEN: u64 = 1;
pub const READ: u64 = 2;
pub const READ_GOOD: u64 = 3;
pub const READ_ERROR: u64 = 4;
pub const READ_MARK: u64 = 5;
pub const GET: u64 = 6;
pub const SKIP: u64 = 7;
pub const PUT: u64 = 8;
pub const SEAL: u64 = 9;
pub const TO_WRITE: u64 = 10;
pub const WRITTEN: u64 = 11;
pub const WRITE_ERROR: u64 = 12;

/// "Error 1 is sequence, 2 check sum, 3 both."
const LAST_ERROR: u64 = 3;
/// M-101: "error 4 or 10", 0 for none.
const READ_ERRORS: [u64; 3] = [0, 4, 10];

/// An open file and the words W of each buffer.
#[derive(Clone, Debug, PartialEq, Eq)]
pub struct OpenFile {
    pub width: usize,
    pub file: File,
}

/// Plays every event of `input`. No file is open before the first open.
pub fn answer_walks(input: &str) -> Result<String, String> {
    let mut opened = None;
    answer_lines(input, |event| answer_walk_event(&mut opened, event))
}

/// Plays one event; the first number is its kind. An event that is not allowed where it stands has
/// no answer.
pub fn answer_walk_event(opened: &mut Option<OpenFile>, event: &[u64]) -> Option<Vec<u64>> {
    let mut answer = Vec::new();
    if event.first() == Some(&OPEN) {
        *opened = Some(OpenFile::open(event)?);
    } else {
        answer = opened.as_mut()?.play(event)?;
    }
    answer.extend(opened.as_ref()?.dump());
    Some(answer)
}

impl OpenFile {
    /// `1 w output double sequence check size rlen low high`. A single file has no second buffer.
    fn open(event: &[u64]) -> Option<OpenFile> {
        let &[_, width, output, double, sequence, check, size, record, low, high] = event else {
            return None;
        };
        let flags = [output, double, sequence, check].iter().all(|&flag| flag <= 1);
        let pool = (1..=MOST_WIDTH).contains(&width) && low < MOST_BUFFERS;
        let second = double == 0 || (low < high && high < MOST_BUFFERS);
        let chosen = Chosen { sequence: sequence == 1, check: check == 1 };
        // "Size 13 unless r is 1 to B and B + e is at most W."
        let fits = (1..=size).contains(&record) && size.saturating_add(chosen.e() as u64) <= width;
        if !(flags && pool && second && fits) {
            return None;
        }
        let mut buffers = vec![low as usize];
        if double == 1 {
            buffers.push(high as usize);
        }
        let file = File {
            channel: 0,
            unit: 0,
            direction: if output == 1 { Direction::Output } else { Direction::Input },
            chosen,
            block_size: size as usize,
            record_length: record as usize,
            buffers,
            number: 1,
            mark_read: false,
            taken: None,
            part_filled: None,
            full: VecDeque::new(),
        };
        Some(OpenFile { width: width as usize, file })
    }

    /// Whether an event of this kind, other than an open, may come now.
    pub fn allows(&self, kind: u64) -> bool {
        let file = &self.file;
        let input = file.direction == Direction::Input;
        match kind {
            READ => input && file.taken.is_none() && file.lowest_empty().is_some() && !file.mark_read,
            READ_GOOD | READ_ERROR | READ_MARK => file.taken.is_some(),
            GET => input,
            SKIP => input && !file.full.is_empty(),
            PUT => !input && file.room_for_put().is_some(),
            SEAL => file.part_filled.is_some(),
            TO_WRITE | WRITTEN | WRITE_ERROR => !input && !file.full.is_empty(),
            _ => false,
        }
    }

    /// Plays an event other than an open; gives the numbers that come before the dump.
    fn play(&mut self, event: &[u64]) -> Option<Vec<u64>> {
        if !self.allows(*event.first()?) {
            return None;
        }
        match *event {
            [READ] => {
                // "An accepted read takes the lowest empty buffer."
                self.file.taken = self.file.lowest_empty();
                let start = self.file.taken? * self.width;
                Some(vec![start as u64])
            }
            [READ_GOOD, words, error, read_error, sum, number, sum_read, number_read] => {
                let in_range = (1..=self.file.block_size as u64).contains(&words)
                    && error <= LAST_ERROR
                    && READ_ERRORS.contains(&read_error);
                let sums = [sum, sum_read].iter().all(|&sum| sum <= ones(HALF_BITS));
                let numbers = [number, number_read].iter().all(|&number| number <= LAST_NUMBER);
                let fields = Fields { sum, number, sum_read, number_read };
                let judged = Judged { error: error as u8, fields };
                (in_range && sums && numbers).then(|| self.deliver(words as usize, judged, read_error as u8))
            }
            // "A read that ends with a mark or a permanent error gives its buffer back as empty." M-101: only
            // if the error brings no words.
            [READ_ERROR] => {
                self.file.taken = None;
                Some(vec![])
            }
            [READ_MARK] => {
                self.file.taken = None;
                self.file.mark_read = true;
                Some(vec![])
            }
            [GET] => Some(self.get()),
            // "Skip drops the oldest full block, used up or not."
            [SKIP] => self.file.full.pop_front().map(|_| vec![]),
            [PUT] => self.put(),
            [SEAL] => self.seal(),
            [TO_WRITE] => {
                let [start, count] = self.place_and_count(&self.file.whole_block(self.file.full.front()?));
                Some(vec![start, count])
            }
            // "After a good end or end of medium ... its buffer is empty".
            [WRITTEN] => self.file.full.pop_front().map(|_| vec![]),
            // "after a permanent error it is full still"
            [WRITE_ERROR] => Some(vec![]),
            _ => None,
        }
    }

    /// "A good end makes it full"; so does a permanent error with words.
    fn deliver(&mut self, words: usize, judged: Judged, read_error: u8) -> Vec<u64> {
        let buffer = self.file.taken.take().expect("the buffer of a read");
        self.file.add_full(buffer, words, judged, read_error);
        vec![]
    }

    /// `answer start count error sum number sumread numberread`.
    fn get(&mut self) -> Vec<u64> {
        let found = self.file.get();
        let nothing = Judged::default();
        let (answer, [start, count], judged) = match &found {
            Found::Record(part) => (0, self.place_and_count(part), nothing),
            Found::NothingYet => (1, [0, 0], nothing),
            Found::End => (2, [0, 0], nothing),
            Found::Error(judged) => (3, [0, 0], *judged),
            Found::Leftover(part) => (4, self.place_and_count(part), nothing),
        };
        [&[answer, start, count, judged.error.into()][..], &judged.fields.in_order()].concat()
    }

    /// `start count sealed`: where the r words go, the words of the block then, and whether it is
    /// sealed at once.
    fn put(&mut self) -> Option<Vec<u64>> {
        let mut part = self.file.room_for_put()?;
        let seals = self.file.put_seals(&part);
        let start = part.buffer * self.width + part.data_words;
        part.data_words += self.file.record_length;
        let count = part.data_words;
        self.file.part_filled = Some(part);
        if seals {
            self.seal()?;
        }
        Some(vec![start as u64, count as u64, u64::from(seals)])
    }

    /// `start count`: where the block begins and its data words. It is full then.
    fn seal(&mut self) -> Option<Vec<u64>> {
        let part = self.file.part_filled.take()?;
        self.file.add_full(part.buffer, part.data_words, Judged::default(), 0);
        Some(vec![(part.buffer * self.width) as u64, part.data_words as u64])
    }

    /// Where a part lies in the area, and its words.
    fn place_and_count(&self, part: &Part) -> [u64; 2] {
        [(part.buffer * self.width + part.place) as u64, part.words as u64]
    }

    /// The count of full blocks; `buffer words place error readerror sum number sumread numberread` of each,
    /// the oldest first; the taken buffer; the part-filled buffer and its words; the next block number;
    /// whether a mark was read.
    fn dump(&self) -> Vec<u64> {
        let file = &self.file;
        let mut numbers = vec![file.full.len() as u64];
        for block in &file.full {
            let [buffer, words, place] = [block.buffer, block.data_words, block.place].map(|n| n as u64);
            numbers.extend([buffer, words, place, u64::from(block.error), u64::from(block.read_error)]);
            numbers.extend(block.found.in_order());
        }
        numbers.push(file.taken.map_or(NO_BUFFER, |buffer| buffer as u64));
        let part_filled = file.part_filled.as_ref();
        numbers
            .extend(part_filled.map_or([NO_BUFFER, 0], |part| [part.buffer as u64, part.data_words as u64]));
        numbers.extend([file.number, u64::from(file.mark_read)]);
        numbers
    }
}

#[cfg(test)]
mod tests {
    use super::*;

    /// Plays events written with semicolons between them, and compares each answer.
    fn answers(events: &str, expected: &[&str]) {
        let given = answer_walks(&events.replace("; ", "\n")).expect("events");
        assert_eq!(given.lines().collect::<Vec<&str>>(), expected, "{events}");
    }

    #[test]
    fn an_open_file_is_empty() {
        answers("1 8 0 0 0 0 8 3 5 6", &["0 255 255 0 1 0"]);
        answers("1 8 0 0 0 0 8 3 31 0", &["0 255 255 0 1 0"]);
        answers(
            "1 8 0 1 0 0 8 3 5 6; 2; 5; 1 8 1 1 1 1 7 7 5 6",
            &["0 255 255 0 1 0", "40 0 5 255 0 1 0", "0 255 255 0 1 1", "0 255 255 0 1 0"],
        );
    }

    /// C1, C2, C5, C8: a used-up block stays full until the next get or skip; the oldest is the one
    /// that was delivered first, whatever its buffer.
    #[test]
    fn two_input_buffers_in_turn() {
        answers(
            "1 10 0 1 0 0 5 2 3 7; 2; 3 4 0 0 11 1 11 1; 2; 3 5 0 0 12 2 12 2; 6; 6; 6; 2; \
             3 1 0 0 13 3 0 0; 6; 6; 7; 6; 6; 6",
            &[
                "0 255 255 0 1 0",
                "30 0 3 255 0 1 0",
                "1 3 4 0 0 0 11 1 11 1 255 255 0 2 0",
                "70 1 3 4 0 0 0 11 1 11 1 7 255 0 2 0",
                "2 3 4 0 0 0 11 1 11 1 7 5 0 0 0 12 2 12 2 255 255 0 3 0",
                "0 30 2 0 0 0 0 0 2 3 4 2 0 0 11 1 11 1 7 5 0 0 0 12 2 12 2 255 255 0 3 0",
                "0 32 2 0 0 0 0 0 2 3 4 4 0 0 11 1 11 1 7 5 0 0 0 12 2 12 2 255 255 0 3 0",
                "0 70 2 0 0 0 0 0 1 7 5 2 0 0 12 2 12 2 255 255 0 3 0",
                "30 1 7 5 2 0 0 12 2 12 2 3 255 0 3 0",
                "2 7 5 2 0 0 12 2 12 2 3 1 0 0 0 13 3 0 0 255 255 0 4 0",
                "0 72 2 0 0 0 0 0 2 7 5 4 0 0 12 2 12 2 3 1 0 0 0 13 3 0 0 255 255 0 4 0",
                "4 74 1 0 0 0 0 0 2 7 5 5 0 0 12 2 12 2 3 1 0 0 0 13 3 0 0 255 255 0 4 0",
                "1 3 1 0 0 0 13 3 0 0 255 255 0 4 0",
                "4 30 1 0 0 0 0 0 1 3 1 1 0 0 13 3 0 0 255 255 0 4 0",
                "1 0 0 0 0 0 0 0 0 255 255 0 4 0",
                "1 0 0 0 0 0 0 0 0 255 255 0 4 0",
            ],
        );
    }

    /// C3, C6, E3: an error is told once; a permanent error and a mark use no block number; end
    /// comes again each time.
    #[test]
    fn errors_and_the_end() {
        answers(
            "1 4 0 0 1 1 3 3 2 9; 2; 4; 2; 3 3 2 0 14 1 15 1; 6; 6; 6; 2; 5; 6; 6",
            &[
                "0 255 255 0 1 0",
                "8 0 2 255 0 1 0",
                "0 255 255 0 1 0",
                "8 0 2 255 0 1 0",
                "1 2 3 0 2 0 14 1 15 1 255 255 0 2 0",
                "3 0 0 2 14 1 15 1 1 2 3 0 0 0 14 1 15 1 255 255 0 2 0",
                "0 8 3 0 0 0 0 0 1 2 3 3 0 0 14 1 15 1 255 255 0 2 0",
                "1 0 0 0 0 0 0 0 0 255 255 0 2 0",
                "8 0 2 255 0 2 0",
                "0 255 255 0 2 1",
                "2 0 0 0 0 0 0 0 0 255 255 0 2 1",
                "2 0 0 0 0 0 0 0 0 255 255 0 2 1",
            ],
        );
    }

    /// G6, G8, G9: a block that was kept has its number, its read error is told before its check error, and
    /// a skip drops both.
    #[test]
    fn kept_blocks() {
        answers(
            "1 4 0 1 1 1 3 3 2 9; 2; 3 3 2 10 14 1 15 1; 2; 3 1 0 4 5 2 5 2; 6; 6; 6; 6; 7; 2; 3 2 3 4 6 3 7 9; 7",
            &[
                "0 255 255 0 1 0",
                "8 0 2 255 0 1 0",
                "1 2 3 0 2 10 14 1 15 1 255 255 0 2 0",
                "36 1 2 3 0 2 10 14 1 15 1 9 255 0 2 0",
                "2 2 3 0 2 10 14 1 15 1 9 1 0 0 4 5 2 5 2 255 255 0 3 0",
                "3 0 0 10 14 1 15 1 2 2 3 0 2 0 14 1 15 1 9 1 0 0 4 5 2 5 2 255 255 0 3 0",
                "3 0 0 2 14 1 15 1 2 2 3 0 0 0 14 1 15 1 9 1 0 0 4 5 2 5 2 255 255 0 3 0",
                "0 8 3 0 0 0 0 0 2 2 3 3 0 0 14 1 15 1 9 1 0 0 4 5 2 5 2 255 255 0 3 0",
                "3 0 0 4 5 2 5 2 1 9 1 0 0 0 5 2 5 2 255 255 0 3 0",
                "0 255 255 0 3 0",
                "8 0 2 255 0 3 0",
                "1 2 2 0 3 4 6 3 7 9 255 255 0 4 0",
                "0 255 255 0 4 0",
            ],
        );
    }

    /// C10, C14, C16: a block is sealed if less than r remains of B, or early; what a write sends
    /// counts the check word; a permanent error leaves the block full.
    #[test]
    fn two_output_buffers_in_turn() {
        answers(
            "1 10 1 1 0 1 5 2 0 1; 8; 8; 8; 9; 10; 12; 10; 11; 8; 10; 11; 9; 10",
            &[
                "0 255 255 0 1 0",
                "0 2 0 0 255 0 2 1 0",
                "2 4 1 1 0 4 0 0 0 0 0 0 0 255 255 0 2 0",
                "10 2 0 1 0 4 0 0 0 0 0 0 0 255 1 2 2 0",
                "10 2 2 0 4 0 0 0 0 0 0 0 1 2 0 0 0 0 0 0 0 255 255 0 3 0",
                "0 5 2 0 4 0 0 0 0 0 0 0 1 2 0 0 0 0 0 0 0 255 255 0 3 0",
                "2 0 4 0 0 0 0 0 0 0 1 2 0 0 0 0 0 0 0 255 255 0 3 0",
                "0 5 2 0 4 0 0 0 0 0 0 0 1 2 0 0 0 0 0 0 0 255 255 0 3 0",
                "1 1 2 0 0 0 0 0 0 0 255 255 0 3 0",
                "0 2 0 1 1 2 0 0 0 0 0 0 0 255 0 2 3 0",
                "10 3 1 1 2 0 0 0 0 0 0 0 255 0 2 3 0",
                "0 255 0 2 3 0",
                "0 2 1 0 2 0 0 0 0 0 0 0 255 255 0 4 0",
                "0 3 1 0 2 0 0 0 0 0 0 0 255 255 0 4 0",
            ],
        );
    }

    /// The last line of `events` has no answer; the lines before it have.
    fn stops(events: &str) {
        let lines = events.split("; ").count();
        let complaint = format!("line {lines} is not understood");
        assert_eq!(answer_walks(&events.replace("; ", "\n")), Err(complaint), "{events}");
    }

    #[test]
    fn events_before_an_open_or_of_no_kind() {
        for event in ["2", "6", "8"] {
            stops(event);
        }
        for event in ["0", "13", "2 1", "6 0", "7 1", "x"] {
            stops(&format!("1 8 0 1 0 0 8 3 5 6; {event}"));
        }
    }

    #[test]
    fn opens_that_do_not_fit() {
        for open in [
            "1 8 0 1 0 0 8 3 5",
            "1 0 0 0 0 0 0 0 5 6",
            "1 1025 0 0 0 0 8 3 5 6",
            "1 8 2 0 0 0 8 3 5 6",
            "1 8 0 0 1 0 8 3 5 6",
            "1 8 0 0 0 0 9 3 5 6",
            "1 8 0 0 0 0 8 0 5 6",
            "1 8 0 0 0 0 3 4 5 6",
            "1 8 0 0 0 0 8 3 32 33",
            "1 8 0 1 0 0 8 3 6 6",
            "1 8 0 1 0 0 8 3 6 32",
        ] {
            stops(open);
        }
    }

    #[test]
    fn events_that_are_not_allowed_where_they_stand() {
        for event in ["3 1 0 0 0 0 0 0", "4", "5", "7", "8", "9", "10", "11", "12"] {
            stops(&format!("1 8 0 1 0 0 6 3 5 6; {event}"));
        }
        for event in [
            "2",
            "3 0 0 0 0 0 0 0",
            "3 7 0 0 0 0 0 0",
            "3 1 4 0 0 0 0 0",
            "3 1 0 0 262144 0 0 0",
            "3 1 0 0 0 32768 0 0",
            "3 1 0 0 0 0 262144 0",
            "3 1 0 0 0 0 0 32768",
            "3 1 0 0 0 0",
            "3 1 0",
            "3 1 0 0 0 0 0",
            "3 1 0 1 0 0 0 0",
            "3 1 0 3 0 0 0 0",
            "3 1 0 5 0 0 0 0",
            "3 1 0 11 0 0 0 0",
        ] {
            stops(&format!("1 8 0 1 0 0 6 3 5 6; 2; {event}"));
        }
        stops("1 8 0 1 0 0 6 3 5 6; 2; 5; 2");
        stops("1 8 0 0 0 0 6 3 5 6; 2; 3 1 0 0 1 1 0 0; 6; 2");
        for event in ["2", "3 1 0 0 0 0 0 0", "4", "5", "6", "7", "9", "10", "11", "12"] {
            stops(&format!("1 8 1 1 0 0 6 3 5 6; {event}"));
        }
        stops("1 8 1 0 0 0 6 6 5 6; 8; 8");
        stops("1 8 1 0 0 0 6 6 5 6; 8; 9");
        stops("1 8 1 0 0 0 6 6 5 6; 8; 7");
    }
}
