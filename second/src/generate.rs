//! The subcommand `generate`: random sessions of several profiles. The generator plays every line
//! on a pack of its own, so that most frames it chooses are accepted and lead to deep states.

use std::collections::BTreeMap;

use crate::channel::{Booked, Operation, Outcome, Position, Request, NOISE_BELOW, UNITS};
use crate::fates::{Fate, Planned};
use crate::file::{Direction, File};
use crate::frame::{answer_line, line_of, Frame};
use crate::pack::{Opening, Pack, CHANNELS, CHECK, DOUBLE, FILES, NO_LENGTH, OUTPUT, SEQUENCE};
use crate::profile::{Action, Habits, Profile};
use crate::random::Random;
use crate::routine::{Program, Routine, HIGHEST_LEVEL, LAST_ROUTINE};
use crate::session::new_pack;
use crate::word::{check_word, logical_sum, Chosen, ALL_ONES, HALF_BITS, NUMBER_BITS};

/// A mask that declares all units.
pub const ALL_UNITS: u64 = 1_023;

/// Gives the lines of a random session, one after the other.
pub struct Generator {
    profile: Profile,
    habits: Habits,
    pub(crate) random: Random,
    pub(crate) pack: Pack,
    /// For the profile `wrap`: blocks until the next close, and whether the next open is for output.
    pub(crate) blocks_left: u64,
    pub(crate) wrap_outputs: bool,
    /// For the profile `reel`: what is planned for the read of a channel's unit.
    pub(crate) fates: BTreeMap<(u64, u64), Fate>,
}

/// The lines of a session, without line feeds.
pub fn session_of(profile: Profile, seed: u64, frames: usize) -> Vec<Vec<u8>> {
    let mut generator = Generator::new(profile, seed);
    (0..frames).map(|_| generator.next_line()).collect()
}

impl Generator {
    pub fn new(profile: Profile, seed: u64) -> Generator {
        Generator {
            profile,
            habits: profile.habits(),
            random: Random::new(seed),
            pack: new_pack(),
            blocks_left: 0,
            wrap_outputs: false,
            fates: BTreeMap::new(),
        }
    }

    /// The next line, without its line feed.
    pub fn next_line(&mut self) -> Vec<u8> {
        let line = match self.profile {
            Profile::Wrap => line_of(&self.wrap_frame()),
            _ => self.random_line(),
        };
        answer_line(&mut self.pack, &line);
        line
    }

    /// A line of an action drawn by its weight; an action that cannot be done now is drawn again.
    fn random_line(&mut self) -> Vec<u8> {
        loop {
            let action = self.random_action();
            let line = match action {
                Action::Malformed => Some(self.malformed_line()),
                _ => self.frame_for(action).map(|frame| line_of(&frame)),
            };
            if let Some(line) = line {
                return line;
            }
        }
    }

    pub(crate) fn random_action(&mut self) -> Action {
        if self.pack.buffers == 0 && self.random.chance(1, 3) {
            return Action::Fresh;
        }
        let whole = self.habits.weights.iter().map(|(_, weight)| weight).sum();
        let mut left = self.random.below(whole);
        for (action, weight) in self.habits.weights {
            if left < weight {
                return action;
            }
            left -= weight;
        }
        Action::Faulty
    }

    /// A frame of the action, if it can be done now.
    pub(crate) fn frame_for(&mut self, action: Action) -> Option<Frame> {
        match action {
            Action::Fresh => Some(self.fresh_frame()),
            Action::Open => self.open_frame(),
            Action::Close => self.close_frame(),
            Action::Ask => self.ask_frame(),
            Action::Report => self.report_frame(),
            Action::Get => self.get_frame(),
            Action::Put => self.put_frame(),
            Action::Seal => {
                self.any_file(|_, file| file.part_filled.is_some()).map(|file| Frame::Seal { file })
            }
            Action::Skip => self.any_file(is_full_input).map(|file| Frame::Skip { file }),
            Action::Freeze => (!self.is_frozen() || self.random.chance(1, 9)).then_some(Frame::Freeze),
            Action::Thaw => (self.is_frozen() || self.random.chance(1, 9)).then_some(Frame::Thaw),
            Action::Return => {
                let runs = self.pack.running() != Program::Main;
                (runs || self.random.chance(1, 9)).then_some(Frame::Return)
            }
            Action::Running => Some(Frame::Running),
            Action::Faulty => Some(self.faulty_frame()),
            Action::Malformed => None,
        }
    }

    pub(crate) fn is_frozen(&self) -> bool {
        self.pack.channels[0].frozen
    }

    /// The number of an open file that is fit, any of them.
    pub(crate) fn any_file(&mut self, fit: impl Fn(&Pack, &File) -> bool) -> Option<u64> {
        let is_fit =
            |file: &usize| self.pack.files[*file].as_ref().is_some_and(|opened| fit(&self.pack, opened));
        let fit: Vec<usize> = (0..FILES).filter(is_fit).collect();
        (!fit.is_empty()).then(|| self.random.pick(&fit) as u64)
    }

    pub(crate) fn opened(&self, file: u64) -> &File {
        self.pack.file(file).expect("an open file")
    }

    pub(crate) fn fresh_frame(&mut self) -> Frame {
        let (fewest, most) = self.habits.buffers;
        let width = self.random.between(1, self.habits.width);
        let (buffers, width) = match self.random.below(40) {
            0 => (4, 1_024),
            1 => (32, 128),
            2 | 3 => (self.random.between(1, 32), width),
            _ => (self.random.between(fewest, most), width),
        };
        let masks = std::array::from_fn(|_| match self.random.below(4) {
            0 => self.random.below(ALL_UNITS + 1),
            _ => ALL_UNITS,
        });
        Frame::Fresh { buffers, width, masks }
    }

    /// Opens a file that is not open on a unit that is free, with sizes that fit.
    fn open_frame(&mut self) -> Option<Frame> {
        let open = self.pack.files.iter().flatten().count();
        let free = self.pack.free_buffers().len();
        if open >= self.habits.files || free == 0 {
            return None;
        }
        let (channel, unit) = self.free_unit()?;
        let closed: Vec<u64> = (0..FILES as u64).filter(|&file| self.pack.file(file).is_none()).collect();
        let mut flags = if self.random.chance(self.habits.outputs, 100) { OUTPUT } else { 0 };
        if free >= 2 && self.random.chance(1, 2) {
            flags += DOUBLE;
        }
        if self.pack.width >= 2 && self.random.chance(self.habits.chosen, 100) {
            flags += self.random.pick(&[SEQUENCE, CHECK, SEQUENCE + CHECK]);
        }
        let e = u64::from(flags & (SEQUENCE + CHECK) != 0);
        let block_size = self.block_size(self.pack.width as u64 - e);
        let record_length = match self.random.below(4) {
            0 => block_size,
            1 => 1,
            _ => self.random.between(1, block_size),
        };
        Some(Frame::Open(Opening {
            file: self.random.pick(&closed),
            channel,
            unit,
            flags,
            block_size,
            record_length,
        }))
    }

    /// A block size up to `most`; in wide buffers mostly a small one, so that sessions stay short.
    fn block_size(&mut self, most: u64) -> u64 {
        let end = if most > 40 && self.random.chance(9, 10) { 12 } else { most };
        match self.random.below(5) {
            0 => end,
            _ => self.random.between(1, end),
        }
    }

    /// A declared unit without an open file.
    pub(crate) fn free_unit(&mut self) -> Option<(u64, u64)> {
        let channel = self.random.below(self.habits.channels);
        let declared = self.pack.channels[channel as usize].declared;
        let is_free =
            |unit: &u64| declared[*unit as usize] && self.pack.file_of_unit(channel, *unit).is_none();
        let mut free: Vec<u64> = (0..UNITS as u64).filter(is_free).collect();
        let waits = |unit: &u64| self.pack.channels[channel as usize].waiting_routine(*unit).is_some();
        if free.iter().any(waits) && self.profile == Profile::Routines && self.random.chance(1, 3) {
            free.retain(waits);
        }
        (!free.is_empty()).then(|| (channel, self.random.pick(&free)))
    }

    /// Closes a file that can be closed; one that holds something only now and then.
    fn close_frame(&mut self) -> Option<Frame> {
        let full_too = self.random.chance(1, 4);
        let can_close = |pack: &Pack, file: &File| {
            pack.request_of(file).is_none()
                && !file.has_unwritten_output()
                && (full_too || file.full.is_empty())
        };
        self.any_file(can_close).map(|file| Frame::Close { file })
    }

    /// Asks for what the file is ready for.
    fn ask_frame(&mut self) -> Option<Frame> {
        let waiting_too = self.profile == Profile::Routines && self.random.chance(1, 30);
        let fit = |pack: &Pack, file: &File| is_ready(pack, file) && (waiting_too || !waits_at(pack, file));
        let file = self.any_file(fit)?;
        let opened = self.opened(file);
        let operation = match opened.direction {
            Direction::Input => Operation::Read,
            Direction::Output if opened.full.is_empty() => Operation::Mark,
            Direction::Output => Operation::Write,
        };
        let marks = if self.profile == Profile::Routines { 9 } else { 1 };
        if operation == Operation::Mark && !self.random.chance(marks, 10) {
            return None;
        }
        let priority = u64::from(self.random.chance(self.habits.priority, 100));
        let named = self.random.chance(self.habits.routines, 100);
        let names = named.then(|| self.some_routine());
        Some(Frame::Ask { file, operation: operation.number(), priority, names })
    }

    /// A routine of any priority; often of the one above what runs, so that lists grow to their end.
    pub(crate) fn some_routine(&mut self) -> Routine {
        let above = self.pack.running().level().map_or(0, |level| level + 1);
        let any = self.random.below(HIGHEST_LEVEL + 1);
        let level = self.random.pick(&[any, above.min(HIGHEST_LEVEL)]);
        Routine { number: self.random.below(LAST_ROUTINE + 1), level }
    }

    /// A channel that works, and its unit.
    pub(crate) fn some_working_unit(&mut self) -> Option<(u64, u64)> {
        let working_unit = |channel: usize| self.pack.channels[channel].working_unit();
        let working: Vec<usize> = (0..CHANNELS).filter(|&channel| working_unit(channel).is_some()).collect();
        if working.is_empty() {
            return None;
        }
        let channel = self.random.pick(&working);
        Some((channel as u64, self.pack.channels[channel].working_unit()? as u64))
    }

    /// Reports an outcome for the working unit of a channel.
    fn report_frame(&mut self) -> Option<Frame> {
        let (channel, unit) = self.some_working_unit()?;
        let request = self.pack.channels[channel as usize].working_request(unit)?;
        let request = request.clone();
        let operation = request.operation;
        let planned = match (self.profile, operation) {
            (Profile::Reel, Operation::Read) => self.planned_report(channel, unit, &request),
            _ => self.random_report(&request, unit),
        };
        let Planned { outcome, mut length, brings } = planned;
        let file = self.pack.file_of_unit(channel, unit)? as u64;
        let mut words = if brings { self.delivered_block(file) } else { Vec::new() };
        // "if words follow it must be their number": a noise record stays one, and no other becomes one.
        if length != NO_LENGTH && !words.is_empty() {
            match (length < NOISE_BELOW, (words.len() as u64) < NOISE_BELOW) {
                (true, false) => words.clear(),
                (false, true) => length = NO_LENGTH,
                _ => length = words.len() as u64,
            }
        }
        Some(Frame::Report { channel, unit, outcome, length, words })
    }

    /// An outcome of a request, with words and a length where it may have them.
    fn random_report(&mut self, request: &Request, unit: u64) -> Planned {
        let operation = request.operation;
        let outcome = self.random_outcome(request, unit);
        let result =
            Outcome::of(outcome).map(|outcome| request.result_of(outcome, None, Position::default()));
        let permanent = matches!(result, Some(Booked::PermanentRedundancy | Booked::PermanentIncompleteWord));
        let brings = match (operation, outcome) {
            (Operation::Read, 0) => true,
            // M-101: of the failures that are permanent as many bring words as not.
            (Operation::Read, 1 | 2) if permanent => self.random.chance(1, 2),
            (Operation::Read, 1 | 2) => self.random.chance(self.habits.failed_words, 100),
            _ => false,
        };
        let measured = operation == Operation::Read && outcome == 1;
        let length = if measured && self.random.chance(self.habits.lengths, 100) {
            self.random.pick(&[0, 1, 2, 3, 4, 5, 1_024, 65_535])
        } else {
            NO_LENGTH
        };
        Planned { outcome, length, brings }
    }

    /// An allowed outcome. A priority operation mostly ends soon, so that displaced ones go on; the last
    /// attempt of a read ends in each way. In `kept` every other unit has redundancies up to the last attempt.
    fn random_outcome(&mut self, request: &Request, unit: u64) -> u64 {
        let operation = request.operation;
        let part = self.random.below(100);
        let to_the_last = self.profile == Profile::Kept && unit.is_multiple_of(2);
        let redundancies = if to_the_last { 99 } else { self.habits.redundancies };
        if request.priority && self.profile == Profile::Turns && self.random.chance(1, 2) {
            0
        } else if operation == Operation::Read && request.attempt == operation.last_attempt() {
            self.random.pick(&[0, 1, 1, 1, 1, 2, 2, 3])
        } else if part < redundancies {
            1
        } else if part < redundancies + self.habits.incomplete_words && operation != Operation::Mark {
            2
        } else if operation == Operation::Read {
            3 * u64::from(self.random.chance(self.habits.marks, 100))
        } else {
            4 * u64::from(self.random.chance(self.habits.ends_of_medium, 100))
        }
    }

    /// A block for a good read of the file, right or damaged.
    pub(crate) fn delivered_block(&mut self, file: u64) -> Vec<u64> {
        let opened = self.opened(file);
        let (chosen, number, most) = (opened.chosen, opened.number, opened.block_size as u64);
        let data_words = if self.random.chance(1, 3) { most } else { self.random.between(1, most) };
        let mut block: Vec<u64> = (0..data_words).map(|_| self.random_word()).collect();
        if chosen.e() == 1 {
            // Now and then the field that is not chosen is right too, or the one that is chosen stands alone.
            let written =
                if self.random.chance(1, 4) { Chosen { sequence: true, check: true } } else { chosen };
            block.push(check_word(written, number, logical_sum(&block)));
            if self.random.chance(self.habits.damaged, 100) {
                self.damage(&mut block, chosen);
            }
        }
        block
    }

    /// Changes bits of one field of the check word, of both, between them, or of a data word.
    fn damage(&mut self, block: &mut [u64], chosen: Chosen) {
        let last = block.len() - 1;
        let number_bit = 1 << self.random.below(NUMBER_BITS.into());
        let sum_bit = 1 << self.random.between(HALF_BITS.into(), 35);
        match self.random.below(6) {
            0 => block[last] ^= number_bit,
            1 => block[last] ^= sum_bit,
            2 => block[last] ^= number_bit + sum_bit,
            3 => block[last] ^= 1 << self.random.between(NUMBER_BITS.into(), u64::from(HALF_BITS) - 1),
            4 => block[self.random.below(last as u64) as usize] ^= 1 << self.random.below(36),
            // A word that is right but for the number, as when a block is lost.
            _ => block[last] = check_word(chosen, self.random.below(32_768), logical_sum(&block[..last])),
        }
    }

    /// A word: random bits, or one at an end of the range.
    pub(crate) fn random_word(&mut self) -> u64 {
        match self.random.below(8) {
            0 => ALL_ONES,
            1 => 0,
            2 => 1 << self.random.below(36),
            _ => self.random.word(),
        }
    }

    fn get_frame(&mut self) -> Option<Frame> {
        let empty_too = self.random.chance(1, 8);
        let fit = |_: &Pack, file: &File| {
            file.direction == Direction::Input && (empty_too || !file.full.is_empty())
        };
        self.any_file(fit).map(|file| Frame::Get { file })
    }

    fn put_frame(&mut self) -> Option<Frame> {
        let has_room =
            |_: &Pack, file: &File| file.direction == Direction::Output && file.room_for_put().is_some();
        let file = self.any_file(has_room)?;
        let words = (0..self.opened(file).record_length).map(|_| self.random_word()).collect();
        Some(Frame::Put { file, words })
    }
}

/// An input file with a full block, used up or not.
fn is_full_input(_: &Pack, file: &File) -> bool {
    file.direction == Direction::Input && !file.full.is_empty()
}

/// A file without a request that can read, write or mark.
fn is_ready(pack: &Pack, file: &File) -> bool {
    let ready = match file.direction {
        Direction::Input => !file.mark_read && file.lowest_empty().is_some(),
        Direction::Output => !file.full.is_empty() || file.part_filled.is_none(),
    };
    ready && pack.request_of(file).is_none()
}

/// A routine waits at the file's unit, and an ask would be refused for it.
fn waits_at(pack: &Pack, file: &File) -> bool {
    pack.channels[file.channel].waiting_routine(file.unit as u64).is_some()
}

#[cfg(test)]
mod tests {
    use super::*;
    use crate::profile::PROFILES;
    use crate::reach::Reach;

    const FRAMES: usize = 20_000;

    /// The answers to a session with their first bytes.
    fn answers(profile: Profile, seed: u64) -> Vec<Vec<u8>> {
        Reach::default().play(&session_of(profile, seed, FRAMES))
    }

    /// How many of a hundred frames are accepted.
    fn accepted(profile: Profile) -> usize {
        let accepted = answers(profile, 1).iter().filter(|answer| answer.starts_with(b"00")).count();
        accepted * 100 / FRAMES
    }

    fn has(lines: &[Vec<u8>], wanted: impl Fn(&[u8]) -> bool) -> bool {
        lines.iter().any(|line| wanted(line))
    }

    #[test]
    fn the_same_seed_gives_the_same_session() {
        for (name, profile) in PROFILES {
            assert_eq!(session_of(profile, 5, 300), session_of(profile, 5, 300), "{name}");
            assert_eq!(session_of(profile, 5, 300)[..200], session_of(profile, 5, 200));
            assert_ne!(session_of(profile, 5, 300), session_of(profile, 6, 300));
        }
    }

    #[test]
    fn most_frames_are_accepted() {
        for profile in [
            Profile::Mixed,
            Profile::Retries,
            Profile::Turns,
            Profile::Blocks,
            Profile::Kept,
            Profile::Reel,
            Profile::Routines,
            Profile::Wrap,
        ] {
            assert!(accepted(profile) >= 90, "{profile:?}: {}", accepted(profile));
        }
        assert!((30..=70).contains(&accepted(Profile::Malformed)));
        assert!((15..=50).contains(&accepted(Profile::Refusals)));
    }

    /// Reading A20; and no line has a line feed inside.
    #[test]
    fn a20_there_is_no_refusal_14() {
        for (_, profile) in PROFILES {
            for seed in 1..4 {
                assert!(!has(&answers(profile, seed), |answer| answer.starts_with(b"0E")));
                assert!(!has(&session_of(profile, seed, FRAMES), |line| line.contains(&b'\n')));
            }
        }
    }

    #[test]
    fn retries_reach_the_last_attempts() {
        let mut pack = new_pack();
        let mut deepest = [0; 3];
        for line in session_of(Profile::Retries, 1, FRAMES) {
            answer_line(&mut pack, &line);
            for request in pack.channels.iter().flat_map(|channel| channel.requests.iter().flatten()) {
                let deepest = &mut deepest[request.operation.number() as usize];
                *deepest = request.attempt.max(*deepest);
            }
        }
        assert_eq!(deepest, [101, 27, 27]);
    }

    /// Reading F2: "an idle channel of a thawed pack has no request"; and no buffer has two uses.
    #[test]
    fn f2_no_channel_stands_still() {
        let mut pack = new_pack();
        for line in session_of(Profile::Turns, 2, FRAMES) {
            answer_line(&mut pack, &line);
            for channel in &pack.channels {
                let asked = channel.requests.iter().any(Option::is_some);
                assert!(channel.frozen || channel.working_unit().is_some() || !asked);
            }
            for file in pack.files.iter().flatten() {
                let part_filled = file.part_filled.iter().map(|part| part.buffer);
                let full = file.full.iter().map(|block| block.buffer);
                let mut used: Vec<usize> = file.taken.into_iter().chain(part_filled).chain(full).collect();
                used.sort_unstable();
                assert!(used.windows(2).all(|two| two[0] != two[1]));
                assert!(used.iter().all(|buffer| file.buffers.contains(buffer)));
            }
        }
    }
}
