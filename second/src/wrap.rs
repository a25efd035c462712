//! Random sessions in which block numbers pass 32,767.

use crate::channel::Operation;
use crate::file::Direction;
use crate::frame::Frame;
use crate::generate::{Generator, ALL_UNITS};
use crate::pack::{Opening, CHANNELS, CHECK, DOUBLE, NO_LENGTH, OUTPUT, SEQUENCE};
use crate::word::LAST_NUMBER;

/// So many frames let the profile `wrap` pass block number 32,767 on input and on output.
pub const WRAP_FRAMES: usize = 205_000;

impl Generator {
    /// The next frame of a session that sends one block after the other through file 0: first an
    /// input file until its block number has passed 32,767, then an output file, then again.
    pub(crate) fn wrap_frame(&mut self) -> Frame {
        if self.pack.buffers == 0 {
            return Frame::Fresh { buffers: 2, width: 2, masks: [ALL_UNITS; CHANNELS] };
        }
        let Some(file) = self.pack.file(0) else {
            return self.wrap_opening();
        };
        let direction = file.direction;
        let asked = self.pack.request_of(file).is_some();
        if self.blocks_left == 0 && !asked && !file.has_unwritten_output() {
            return Frame::Close { file: 0 };
        }
        if self.is_frozen() && self.random.chance(1, 2) {
            return Frame::Thaw;
        }
        if self.random.chance(1, 800) {
            return Frame::Freeze;
        }
        match direction {
            _ if asked => self.wrap_report(direction),
            Direction::Input => self.wrap_input(),
            Direction::Output => self.wrap_output(),
        }
    }

    fn wrap_opening(&mut self) -> Frame {
        let direction = if self.wrap_outputs { OUTPUT } else { 0 };
        self.wrap_outputs = !self.wrap_outputs;
        self.blocks_left = LAST_NUMBER + 50;
        let flags = direction + DOUBLE + SEQUENCE + CHECK;
        Frame::Open(Opening { file: 0, channel: 0, unit: 0, flags, block_size: 1, record_length: 1 })
    }

    fn wrap_report(&mut self, direction: Direction) -> Frame {
        let (channel, unit) = (0, 0);
        let outcome = u64::from(self.random.chance(1, 800));
        let delivered = outcome == 0 && direction == Direction::Input;
        let words = if delivered { self.delivered_block(0) } else { Vec::new() };
        self.blocks_left = self.blocks_left.saturating_sub(u64::from(delivered));
        Frame::Report { channel, unit, outcome, length: NO_LENGTH, words }
    }

    fn wrap_input(&mut self) -> Frame {
        let file = self.opened(0);
        let unread = file.full.iter().any(|block| !block.used_up());
        if unread || file.lowest_empty().is_none() {
            Frame::Get { file: 0 }
        } else {
            Frame::Ask { file: 0, operation: Operation::Read.number(), priority: 0, names: None }
        }
    }

    fn wrap_output(&mut self) -> Frame {
        if self.opened(0).full.is_empty() {
            self.blocks_left = self.blocks_left.saturating_sub(1);
            Frame::Put { file: 0, words: vec![self.random_word()] }
        } else {
            Frame::Ask { file: 0, operation: Operation::Write.number(), priority: 0, names: None }
        }
    }
}

#[cfg(test)]
mod tests {
    use super::*;
    use crate::generate::session_of;
    use crate::profile::Profile;
    use crate::reach::Reach;

    #[test]
    fn wrap_passes_the_last_block_number_both_ways() {
        let mut reach = Reach::default();
        reach.play(&session_of(Profile::Wrap, 1, WRAP_FRAMES));
        assert!(!reach.missing().iter().any(|name| name.starts_with("block number")));
    }
}
