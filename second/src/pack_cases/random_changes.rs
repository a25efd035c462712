//! The random changes among the random steps: of words, of the area's length and of the state.

use super::random_steps::{Step, Steps, MASK, UNITS, USED_CHANNELS};
use super::script::{HUGE, SPOILT};
use crate::sound::is_sound;
use crate::state_fields::{
    AT, ATTEMPTS, BLOCK_SIZE, BUFFERS, BUFFER_NUMBER, CHANNEL, CHECK, DECLARED, DOUBLE, ERROR, FOUND_NUMBER,
    FOUND_SUM, FROZEN, HIGH, INCOMPLETE, LOW, MARKED, MARKS, NOISE, NOISE_MET, NUMBER, NUMBER_READ, OPENED,
    OPERATION, OUTPUT, PRIORITY, READ_ERROR, RECORDS, RECORD_LENGTH, SEQUENCE, SLOT_KIND, SUM_READ, TURNED,
    TURN_KIND, UNIT, WIDTH, WORDS,
};

impl Steps<'_> {
    /// A word of the room, spoilt or not; or a call with the shortest area, or a shorter one.
    pub fn change_words(&mut self) {
        let pool = (self.state().buffers * self.state().width).clamp(1, 64);
        if self.random.chance(2, 3) {
            let place = self.random.below(pool);
            let value = self.random.pick(&[SPOILT, HUGE, 1, 2, 3]);
            self.script.word(place, value);
        } else {
            let length = self.random.pick(&[pool, pool - 1]);
            self.script.length(length);
            let step = self.random.pick(&[Step::Report, Step::Get, Step::Put, Step::Seal, Step::Skip]);
            let call = self.call(step);
            self.script.add(&call);
            self.script.length(64);
        }
    }

    /// A change of the state, with the mask that goes with it. If it is unsound then, a few calls meet it; then it is taken back, or
    /// the caller begins anew.
    pub fn change(&mut self) {
        let before = self.state().clone();
        for _ in 0..self.random.between(1, 2) {
            self.change_one();
        }
        self.script.right_mask();
        self.script.print_sound();
        if is_sound(self.state()) {
            return;
        }
        for _ in 0..self.random.between(1, 2) {
            let call = self.random_call();
            self.script.add(&call);
        }
        if self.random.chance(1, 12) {
            let [buffers, width] = self.pool();
            self.script.begin(buffers, width, MASK);
        } else {
            self.script.set_state(&before);
        }
    }

    fn change_one(&mut self) {
        let file = self.any_file(Step::Change).min(15);
        match self.random.below(10) {
            0..=3 => self.change_buffer(file),
            4..=5 => self.change_file(file),
            6..=7 => self.change_unit(),
            8 => {
                let value = self.random.between(0, 10);
                let channel = self.random.below(USED_CHANNELS);
                if self.random.chance(1, 2) {
                    self.script.priority_mark(channel, value);
                } else {
                    self.script.scan_mark(channel, value);
                }
            }
            _ => {
                let field = self.random.pick(&[BUFFERS, WIDTH, FROZEN, FROZEN]);
                let value = self.random.between(0, 6);
                self.script.pool(field, if field == FROZEN { value % 2 } else { value });
            }
        }
    }

    /// What a buffer holds: a full block by hand, or one of its numbers.
    fn change_buffer(&mut self, file: u64) {
        let side = self.random.pick(&[LOW, HIGH]);
        let size = self.file_at(file).block_size.min(64);
        match self.random.below(4) {
            0..=1 => {
                let words = self.random.between(1, size + 1);
                let at = if self.file_at(file).output { 0 } else { self.random.between(0, words) };
                let mut error = self.random.pick(&[0, 0, 1, 2, 3]) * u64::from(at < words);
                if self.random.chance(7, 8) {
                    let opened = self.file_at(file);
                    error &= u64::from(opened.sequence) | u64::from(opened.check) << 1;
                }
                self.script.full(file, side, [words, at, error]);
                if !self.file_at(file).output && (at == 0 || self.random.chance(1, 8)) {
                    let read_error = self.random.pick(&[0, 0, 4, 10, 5]);
                    self.script.file(file, side + READ_ERROR, read_error);
                }
            }
            2 => {
                let field =
                    self.random.pick(&[WORDS, AT, ERROR, FOUND_SUM, FOUND_NUMBER, SUM_READ, NUMBER_READ]);
                let value = self.random.between(0, size);
                self.script.file(file, side + field, value);
            }
            _ => {
                let field = self.random.pick(&[BUFFER_NUMBER, SLOT_KIND]);
                let value = self.random.between(0, 5);
                self.script.file(file, side + field, value);
            }
        }
    }

    fn change_file(&mut self, file: u64) {
        let field = self.random.pick(&[
            NUMBER,
            NUMBER,
            NUMBER,
            MARKED,
            MARKED,
            TURNED,
            TURNED,
            OPENED,
            CHANNEL,
            UNIT,
            OUTPUT,
            DOUBLE,
            SEQUENCE,
            CHECK,
            BLOCK_SIZE,
            RECORD_LENGTH,
        ]);
        let value = match field {
            NUMBER => self.random.pick(&[0, 1, 32_766, 32_767, 32_768]),
            CHANNEL | UNIT | BLOCK_SIZE | RECORD_LENGTH => self.random.between(0, 5),
            _ => self.random.between(0, 1),
        };
        self.script.file(file, field, value);
    }

    fn change_unit(&mut self) {
        let busy: Vec<[u64; 2]> = self.state().requests().map(|(channel, unit, _)| [channel, unit]).collect();
        let any = [self.random.below(USED_CHANNELS), self.random.below(UNITS)];
        let [channel, unit] =
            if busy.is_empty() || self.random.chance(1, 4) { any } else { self.random.pick(&busy) };
        let field = self.random.pick(&[
            ATTEMPTS, ATTEMPTS, ATTEMPTS, PRIORITY, INCOMPLETE, TURN_KIND, OPERATION, DECLARED, NOISE, MARKS,
            RECORDS, RECORDS, NOISE_MET,
        ]);
        let value = match field {
            ATTEMPTS => self.random.pick(&[1, 2, 3, 4, 11, 26, 27, 28, 91, 100, 101]),
            NOISE => self.random.pick(&[0, 1, 99, 100, 101]),
            MARKS => self.random.pick(&[0, 32_766, 32_767, 32_768]),
            RECORDS => self.random.pick(&[0, 2, 3, 4, 32_766, 32_767, 32_768]),
            TURN_KIND => self.random.between(0, 4),
            OPERATION => self.random.between(0, 2),
            _ => self.random.between(0, 1),
        };
        self.script.unit(channel, unit, field, value);
    }
}
