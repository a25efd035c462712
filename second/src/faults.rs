//! Frames that may well be refused and lines that are malformed, for random sessions.

use crate::channel::{Operation, UNITS};
use crate::file::Direction;
use crate::frame::{line_of, Frame, LONGEST_LINE};
use crate::generate::Generator;
use crate::pack::{Opening, CHANNELS, FILES, NO_LENGTH};
use crate::profile::Action;
use crate::routine::{Routine, LAST_ROUTINE};

impl Generator {
    /// A frame that may well be refused: a good one, or any one, with up to two numbers changed.
    pub(crate) fn faulty_frame(&mut self) -> Frame {
        let action = self.random_action();
        let good = if self.random.chance(1, 2) { self.good_frame(action) } else { None };
        let changes = if good.is_some() { self.random.between(1, 2) } else { self.random.below(3) };
        let mut frame = good.unwrap_or_else(|| self.any_frame());
        for _ in 0..changes {
            self.change(&mut frame);
        }
        frame
    }

    /// A good frame of the action; a faulty one has no good form.
    fn good_frame(&mut self, action: Action) -> Option<Frame> {
        match action {
            Action::Faulty | Action::Malformed => None,
            _ => self.frame_for(action),
        }
    }

    /// Any call for any file or unit, with numbers in their ranges but little regard to the state.
    fn any_frame(&mut self) -> Frame {
        let file = self.some_file();
        match self.random.below(14) {
            0 | 1 => Frame::Open(self.any_opening(file)),
            2 => Frame::Close { file },
            3 | 4 => self.any_ask(file),
            5..=7 => self.any_report(),
            8 => Frame::Get { file },
            9 | 10 => Frame::Put { file, words: self.some_words() },
            11 => Frame::Seal { file },
            12 if self.random.chance(1, 2) => Frame::Return,
            12 => Frame::Running,
            _ => Frame::Skip { file },
        }
    }

    /// An open of some file or of one that is not open, of any unit or of one that is free.
    fn any_opening(&mut self, file: u64) -> Opening {
        let closed = (0..FILES as u64).find(|&file| self.pack.file(file).is_none());
        let file = closed.filter(|_| self.random.chance(1, 2)).unwrap_or(file);
        let free = self.free_unit().filter(|_| self.random.chance(1, 2));
        let (channel, unit) = free.unwrap_or_else(|| self.some_unit());
        let width = self.pack.width as u64;
        let block_size = self.random.below(width + 2);
        let record_length = match self.random.below(3) {
            0 => self.random.below(width + 2),
            _ => block_size.min(1),
        };
        Opening { file, channel, unit, flags: self.random.below(16), block_size, record_length }
    }

    /// An ask of any operation, mostly one of the file's direction.
    fn any_ask(&mut self, file: u64) -> Frame {
        let input = self.pack.file(file).is_some_and(|opened| opened.direction == Direction::Input);
        let operation = match self.random.below(6) {
            0 | 1 => self.random.below(3),
            _ if input => Operation::Read.number(),
            _ => self.random.between(1, 2),
        };
        let names = self.random.chance(1, 4).then(|| self.some_routine());
        Frame::Ask { file, operation, priority: self.random.below(2), names }
    }

    /// A report of any outcome for some unit or for one that works, now and then with words.
    fn any_report(&mut self) -> Frame {
        let working = self.some_working_unit().filter(|_| self.random.chance(1, 2));
        let (channel, unit) = working.unwrap_or_else(|| self.some_unit());
        let outcome = if self.random.chance(1, 3) { 0 } else { self.random.below(5) };
        let words = if self.random.chance(2, 5) { self.some_words() } else { Vec::new() };
        let length = if self.random.chance(1, 4) { self.some_length(words.len()) } else { NO_LENGTH };
        Frame::Report { channel, unit, outcome, length, words }
    }

    /// A length: mostly the number of the words, or close to it.
    fn some_length(&mut self, words: usize) -> u64 {
        let words = words as u64;
        self.random.pick(&[words, words, words + 1, words.saturating_sub(1), 0, 2, 3, 65_535])
    }

    /// The number of a file, mostly of an open one.
    fn some_file(&mut self) -> u64 {
        let any = self.random.below(FILES as u64);
        let open = self.any_file(|_, _| true);
        open.filter(|_| self.random.chance(4, 5)).unwrap_or(any)
    }

    /// A channel and a unit, mostly of an open file.
    fn some_unit(&mut self) -> (u64, u64) {
        let any = (self.random.below(CHANNELS as u64), self.random.below(UNITS as u64));
        let open = self.any_file(|_, _| true).filter(|_| self.random.chance(4, 5));
        open.map_or(any, |file| (self.opened(file).channel as u64, self.opened(file).unit as u64))
    }

    /// Up to a few words more than a buffer holds.
    fn some_words(&mut self) -> Vec<u64> {
        let most = (self.pack.width as u64).min(12) + 2;
        (0..self.random.between(0, most)).map(|_| self.random_word()).collect()
    }

    /// Changes one number or the words of a frame.
    fn change(&mut self, frame: &mut Frame) {
        match frame {
            Frame::Fresh { buffers, width, masks } => match self.random.below(3) {
                0 => *buffers = self.random.pick(&[0, 33, 255]),
                1 => *width = self.random.pick(&[0, 1_024, 1_025, 65_535]),
                _ => masks[self.random.below(5) as usize] |= 1 << self.random.between(10, 15),
            },
            Frame::Open(opening) => self.change_opening(opening),
            Frame::Close { file } | Frame::Get { file } | Frame::Seal { file } | Frame::Skip { file } => {
                *file = self.other_file();
            }
            Frame::Ask { file, operation, priority, names } => match self.random.below(4) {
                0 => *file = self.other_file(),
                1 => *operation = self.random.below(4),
                2 => *priority = self.random.pick(&[0, 1, 2, 255]),
                _ => {
                    let level = self.random.pick(&[0, 4, 5, 6, 255]);
                    *names = Some(Routine { number: self.random.below(LAST_ROUTINE + 1), level });
                }
            },
            Frame::Report { channel, unit, outcome, length, words } => match self.random.below(7) {
                0 => *channel = self.random.below(6),
                1 => *unit = self.random.below(11),
                2 => *outcome = self.random.below(6),
                3 => *length = self.some_length(words.len()),
                4 => (*outcome, *length) = (1, self.some_length(words.len())),
                _ => self.change_words(words),
            },
            Frame::Put { file, words } => match self.random.below(3) {
                0 => *file = self.other_file(),
                _ => self.change_words(words),
            },
            Frame::Freeze | Frame::Thaw | Frame::Return | Frame::Running => {}
        }
    }

    fn change_opening(&mut self, opening: &mut Opening) {
        let width = self.pack.width as u64;
        match self.random.below(6) {
            0 => opening.file = self.other_file(),
            1 => opening.channel = self.random.below(6),
            2 => opening.unit = self.random.below(11),
            3 => opening.flags = self.random.pick(&[1, 2, 3, 7, 10, 15, 16, 255]),
            4 => opening.block_size = self.random.pick(&[0, 1, width, width + 1, 1_024, 65_535]),
            _ => {
                let above = (opening.block_size + 1).min(65_535);
                opening.record_length = self.random.pick(&[0, opening.block_size, above, 65_535]);
            }
        }
    }

    fn other_file(&mut self) -> u64 {
        match self.random.below(6) {
            0 => self.random.pick(&[16, 17, 255]),
            _ => self.some_file(),
        }
    }

    /// One word more, one less, none, very many, or a number that is no word.
    fn change_words(&mut self, words: &mut Vec<u64>) {
        let too_large = self.random.pick(&[1 << 36, (1 << 40) - 1, (1 << 36) + 5]);
        let place = self.random.below(words.len().max(1) as u64) as usize;
        match self.random.below(40) {
            0 => *words = vec![1; 1_024],
            1..=9 => words.push(self.random_word()),
            10..=19 => drop(words.pop()),
            20..=25 => words.clear(),
            _ if words.is_empty() => words.push(too_large),
            _ => words[place] = too_large,
        }
    }

    /// A line that is no frame, made from one that is.
    pub(crate) fn malformed_line(&mut self) -> Vec<u8> {
        let mut line = line_of(&self.frame_to_spoil());
        let place = self.random.below(line.len() as u64) as usize;
        match self.random.below(120) {
            0 => return self.line_of_some_length(),
            1..=9 => line.clear(),
            10..=24 => drop(line.pop()),
            25..=39 => line.truncate(line.len() - 2),
            40..=49 => line.extend(b"00"),
            50..=54 => line.extend(self.random.pick(&[b"0000", b"0001", b"0002", b"FFFF"])),
            55..=69 => line.insert(place, self.random.pick(b" \t\r\0gGxF.-+\x7F\x80\xFF")),
            70..=84 => line[place] = self.random.pick(b" \t\r\0gGxz/:@`\x7F\x80\xFF"),
            85..=94 => line[..2]
                .copy_from_slice(self.random.pick(&[b"0B", b"0C", b"0D", b"0E", b"10", b"80", b"FF", b"A0"])),
            95..=104 => line.push(b'\r'),
            _ => line.make_ascii_lowercase(),
        }
        line
    }

    /// A frame of any kind at all.
    fn frame_to_spoil(&mut self) -> Frame {
        match self.random.below(20) {
            0 | 1 => self.fresh_frame(),
            2 => Frame::Freeze,
            3 => Frame::Thaw,
            4 => Frame::Return,
            5 => Frame::Running,
            _ => self.any_frame(),
        }
    }

    /// A long line of digits: the longest that is well formed, one more, or far more.
    fn line_of_some_length(&mut self) -> Vec<u8> {
        let longest = LONGEST_LINE;
        let length = self.random.pick(&[
            longest - 4,
            longest - 2,
            longest - 1,
            longest,
            longest,
            longest + 1,
            longest + 2,
            30_000,
        ]);
        let (outcome, measured) = self.random.pick(&[(0, NO_LENGTH), (1, 1_024), (1, 1_023)]);
        let words = vec![1; 3_000];
        let mut line = line_of(&Frame::Report { channel: 0, unit: 0, outcome, length: measured, words });
        line.truncate(length);
        line
    }
}

#[cfg(test)]
mod tests {
    use super::*;
    use crate::frame::frame_of;
    use crate::generate::session_of;
    use crate::profile::Profile;
    use crate::reach::Reach;

    const FRAMES: usize = 20_000;

    fn has(lines: &[Vec<u8>], wanted: impl Fn(&[u8]) -> bool) -> bool {
        lines.iter().any(|line| wanted(line))
    }

    #[test]
    fn lines_are_malformed_in_every_way() {
        let lines = session_of(Profile::Malformed, 1, FRAMES);
        let digits = |line: &[u8]| line.iter().all(|digit| matches!(digit, b'0'..=b'9' | b'A'..=b'F'));
        let hex = |line: &[u8]| line.iter().all(u8::is_ascii_hexdigit);
        assert!(has(&lines, <[u8]>::is_empty));
        assert!(has(&lines, |line| digits(line) && line.len() % 2 == 1));
        assert!(has(&lines, |line| hex(line) && !digits(line) && line.len().is_multiple_of(2)));
        for character in b" \t\r\0G\x80\xFF" {
            assert!(has(&lines, |line| line.contains(character)), "{character}");
        }
        let even = |line: &[u8]| digits(line) && line.len().is_multiple_of(2) && frame_of(line).is_none();
        for kind in [
            b"00", b"01", b"02", b"03", b"04", b"05", b"06", b"07", b"08", b"09", b"0A", b"0B", b"0C", b"0D",
            b"FF",
        ] {
            assert!(has(&lines, |line| even(line) && line.starts_with(kind)), "{kind:?}");
        }
        for length in [LONGEST_LINE, LONGEST_LINE + 1, LONGEST_LINE + 2, 30_000] {
            assert!(has(&lines, |line| line.len() == length), "{length}");
        }
        assert!(has(&lines, |line| line.len() == LONGEST_LINE && frame_of(line).is_some()));
        // An ask with a routine and no priority, and with a byte too many.
        assert!(has(&lines, |line| even(line) && line.starts_with(b"03") && line.len() == 10));
        assert!(has(&lines, |line| even(line) && line.starts_with(b"03") && line.len() == 14));
    }

    /// Every pair that a session can bring about.
    #[test]
    fn pairs_of_refusals_come_about() {
        let mut reach = Reach::default();
        for seed in 1..4 {
            reach.play(&session_of(Profile::Refusals, seed, FRAMES));
        }
        let pairs: [(usize, &[usize]); 8] = [
            (1, &[2, 3, 4, 5, 6, 7, 8, 9, 10, 11, 12, 13, 15]),
            (2, &[5, 6, 9, 11, 12, 13]),
            (3, &[4, 7, 13]),
            (4, &[7, 13]),
            (6, &[8, 9, 13]),
            (7, &[13]),
            (8, &[9, 10, 15]),
            (9, &[13]),
        ];
        for (low, highs) in pairs {
            for &high in highs {
                assert!(reach.has_pair(low, high), "{low} {high}");
            }
        }
    }
}
