//! The pack: five channels, sixteen files, a pool of buffers, special routines, and the thirteen calls. Every
//! call takes any numbers, judges them all first, and after a refusal has changed nothing.

use crate::channel::{Booked, Channel, Operation, Outcome, Request, UNITS};
use crate::file::{Direction, File, Found, Part, PartFilled};
use crate::refusals::Refusals;
use crate::routine::{Entered, Program, Returned, Routine, Schedule};
use crate::word::{is_word, judge, seal, Chosen, Fields, Judged};

/// "Channels 0 to 4 (the manual's A to E)."
pub const CHANNELS: usize = 5;
/// "Files 0 to 15."
pub const FILES: usize = 16;
/// "m from 1 to 32".
pub const MOST_BUFFERS: u64 = 32;
/// "W from 1 to 1,024".
pub const MOST_WIDTH: u64 = 1_024;

/// "flag 1 output, 2 double, 4 sequence, 8 check".
pub const OUTPUT: u64 = 1;
pub const DOUBLE: u64 = 2;
pub const SEQUENCE: u64 = 4;
pub const CHECK: u64 = 8;
pub const ALL_FLAGS: u64 = OUTPUT + DOUBLE + SEQUENCE + CHECK;

/// The manual's error types 4, "An unrecoverable read error", and 10, "Incomplete word read" (M-101).
pub const UNRECOVERABLE_READ: u8 = 4;
pub const INCOMPLETE_WORD_READ: u8 = 10;

/// A report's length is "two bytes" (M-106); as a number that a caller gives, the next one stands for none.
pub const NO_LENGTH: u64 = 65_536;

/// The state of the pack with the area it was lent.
#[derive(Clone, Debug, PartialEq, Eq)]
pub struct Pack {
    pub channels: [Channel; CHANNELS],
    pub files: [Option<File>; FILES],
    /// What runs, and what was interrupted (document 02, M-110); what waits stands with its unit.
    pub schedule: Schedule,
    /// The pool has `buffers` buffers (m) of `width` words (W).
    pub buffers: usize,
    pub width: usize,
    pub area: Vec<u64>,
}

/// "Open gives file, channel, unit, direction, single or double, sequence yes/no, check sum yes/no,
/// block size B and record length r."
#[derive(Clone, Debug, PartialEq, Eq)]
pub struct Opening {
    pub file: u64,
    pub channel: u64,
    pub unit: u64,
    pub flags: u64,
    pub block_size: u64,
    pub record_length: u64,
}

/// What get gives.
#[derive(Clone, Debug, PartialEq, Eq)]
pub enum Got<'a> {
    Record(&'a [u64]),
    NothingYet,
    End,
    /// The error of the read or the check error, and what was found at delivery.
    Error(Judged),
    Leftover(&'a [u64]),
}

/// What a report gives; `found` is there if the report delivers a block, and `block` is empty unless it
/// ends a write well.
#[derive(Clone, Debug, PartialEq, Eq)]
pub struct Reported<'a> {
    pub result: Booked,
    pub check_error: u8,
    pub found: Option<Fields>,
    pub working_unit: Option<usize>,
    pub block: &'a [u64],
}

impl Opening {
    fn direction(&self) -> Direction {
        if self.flags & OUTPUT == 0 {
            Direction::Input
        } else {
            Direction::Output
        }
    }

    /// "the one or two asked for".
    fn buffers(&self) -> usize {
        if self.flags & DOUBLE == 0 {
            1
        } else {
            2
        }
    }

    fn chosen(&self) -> Chosen {
        Chosen { sequence: self.flags & SEQUENCE != 0, check: self.flags & CHECK != 0 }
    }

    /// "Size 13 unless r is 1 to B and B + e is at most W."
    fn fits(&self, width: usize) -> bool {
        let record_fits = (1..=self.block_size).contains(&self.record_length);
        let block_words = self.block_size.saturating_add(self.chosen().e() as u64);
        record_fits && block_words <= width as u64
    }
}

impl Pack {
    /// "Before the first fresh start: no buffers (m and W are 0), no units".
    pub fn new(area_words: usize) -> Pack {
        Pack {
            channels: std::array::from_fn(|_| Channel::fresh([false; UNITS])),
            files: Default::default(),
            schedule: Schedule::default(),
            buffers: 0,
            width: 0,
            area: vec![0; area_words],
        }
    }

    /// "A fresh start closes everything, drops all requests, thaws and resets the scans." It drops waiting
    /// routines and the push-down list, and the main program runs.
    pub fn fresh(&mut self, buffers: u64, width: u64, masks: [u64; CHANNELS]) -> Result<(), u64> {
        self.fresh_refusals(buffers, width, masks).judge()?;
        self.channels = masks.map(|mask| Channel::fresh(std::array::from_fn(|unit| mask >> unit & 1 == 1)));
        self.files = Default::default();
        self.schedule = Schedule::default();
        self.buffers = buffers as usize;
        self.width = width as usize;
        Ok(())
    }

    /// 1: "an argument is outside its range, the area is short".
    pub fn fresh_refusals(&self, buffers: u64, width: u64, masks: [u64; CHANNELS]) -> Refusals {
        let mut refusals = Refusals::new();
        refusals.when(1, !(1..=MOST_BUFFERS).contains(&buffers) || !(1..=MOST_WIDTH).contains(&width));
        refusals.when(1, masks.iter().any(|mask| mask >> UNITS != 0));
        // "An area under m×W is refused 1."
        refusals.when(1, buffers.saturating_mul(width) > self.area.len() as u64);
        refusals
    }

    /// "The lowest-numbered free buffers are taken; they start empty." "block numbers start at 1 at
    /// each open".
    pub fn open(&mut self, opening: &Opening) -> Result<(), u64> {
        self.open_refusals(opening).judge()?;
        self.files[opening.file as usize] = Some(File {
            channel: opening.channel as usize,
            unit: opening.unit as usize,
            direction: opening.direction(),
            chosen: opening.chosen(),
            block_size: opening.block_size as usize,
            record_length: opening.record_length as usize,
            buffers: self.free_buffers()[..opening.buffers()].to_vec(),
            number: 1,
            mark_read: false,
            taken: None,
            part_filled: None,
            full: Default::default(),
        });
        Ok(())
    }

    /// 3: "unit not declared"; 4: "file number open already, or unit already bound"; 7: "fewer free
    /// buffers than the one or two asked for"; 13: "a size does not fit".
    pub fn open_refusals(&self, opening: &Opening) -> Refusals {
        let mut refusals = Refusals::new();
        refusals.when(1, opening.file >= FILES as u64);
        refusals.when(4, self.file(opening.file).is_some());
        if opening.channel < CHANNELS as u64 && opening.unit < UNITS as u64 {
            refusals.when(3, !self.is_declared(opening.channel, opening.unit));
            refusals.when(4, self.file_of_unit(opening.channel, opening.unit).is_some());
        } else {
            refusals.when(1, true);
        }
        if opening.flags <= ALL_FLAGS {
            refusals.when(7, self.free_buffers().len() < opening.buffers());
            refusals.when(13, !opening.fits(self.width));
        } else {
            refusals.when(1, true);
        }
        refusals
    }

    /// "Closing gives all back; unread input blocks are dropped."
    pub fn close(&mut self, file: u64) -> Result<(), u64> {
        self.close_refusals(file).judge()?;
        self.files[file as usize] = None;
        Ok(())
    }

    /// 8: "the file's unit has an unanswered request"; 15: "an output buffer is part-filled or full".
    pub fn close_refusals(&self, file: u64) -> Refusals {
        let mut refusals = self.file_refusals(file);
        if let Some(opened) = self.file(file) {
            refusals.when(8, self.request_of(opened).is_some());
            refusals.when(15, opened.has_unwritten_output());
        }
        refusals
    }

    /// Asks for an operation on the file's unit; gives the channel's working unit.
    pub fn ask(&mut self, file: u64, operation: u64, priority: u64) -> Result<Option<usize>, u64> {
        self.ask_naming(file, operation, priority, None)
    }

    /// The same of an ask that may name a routine: "An ask may name a routine and a priority 0 to 4".
    pub fn ask_naming(
        &mut self,
        file: u64,
        operation: u64,
        priority: u64,
        names: Option<Routine>,
    ) -> Result<Option<usize>, u64> {
        self.ask_refusals(file, operation, priority, names).judge()?;
        let operation = Operation::of(operation).expect("a judged operation");
        let opened = self.judged_file(file);
        // "An accepted read takes the lowest empty buffer."
        if operation == Operation::Read {
            opened.taken = opened.lowest_empty();
        }
        let (channel, unit) = (opened.channel, opened.unit);
        self.channels[channel].ask_naming(unit, operation, priority == 1, names);
        Ok(self.channels[channel].working_unit())
    }

    /// 8 and 15 as for close, and 8 for "a unit whose routine waits"; 9: "ask read: no empty buffer. Ask write,
    /// skip: no full buffer"; 10: "a file mark has been read since the open".
    pub fn ask_refusals(&self, file: u64, operation: u64, priority: u64, names: Option<Routine>) -> Refusals {
        let mut refusals = self.file_refusals(file);
        let operation = Operation::of(operation);
        refusals.when(1, operation.is_none() || priority > 1);
        refusals.when(1, names.is_some_and(|routine| !routine.is_in_range()));
        let Some(opened) = self.file(file) else {
            return refusals;
        };
        refusals.when(8, self.request_of(opened).is_some());
        refusals.when(8, self.channels[opened.channel].waiting_routine(opened.unit as u64).is_some());
        match operation {
            Some(Operation::Read) => {
                refusals.when(6, opened.direction == Direction::Output);
                refusals.when(9, opened.lowest_empty().is_none());
                refusals.when(10, opened.mark_read);
            }
            Some(Operation::Write) => {
                refusals.when(6, opened.direction == Direction::Input);
                refusals.when(9, opened.full.is_empty());
            }
            Some(Operation::Mark) => {
                refusals.when(6, opened.direction == Direction::Input);
                refusals.when(15, opened.has_unwritten_output());
            }
            None => {}
        }
        refusals
    }

    /// Books the end of an activity. The words are those of the block that a read delivers, good or, by M-101,
    /// with a redundancy or an incomplete word.
    pub fn report(
        &mut self,
        channel: u64,
        unit: u64,
        outcome: u64,
        words: &[u64],
    ) -> Result<Reported<'_>, u64> {
        self.report_length(channel, unit, outcome, NO_LENGTH, words)
    }

    /// The same of a report that may carry a length (M-106); `NO_LENGTH` is none.
    pub fn report_length(
        &mut self,
        channel: u64,
        unit: u64,
        outcome: u64,
        length: u64,
        words: &[u64],
    ) -> Result<Reported<'_>, u64> {
        self.report_refusals(channel, unit, outcome, length, words).judge()?;
        let operation = self.working_request(channel, unit).expect("a judged request").operation;
        let file = self.file_of_unit(channel, unit).expect("the file of a request") as u64;
        let channel = &mut self.channels[channel as usize];
        let length = Some(length).filter(|&length| length != NO_LENGTH);
        let result = channel.report_length(unit, outcome, length)?;
        let working_unit = channel.working_unit();
        let mut delivered = None;
        let mut shown = Part { buffer: 0, place: 0, words: 0 };
        match (operation, result) {
            (_, Booked::Repeated | Booked::BackspaceThree) | (Operation::Mark, _) => {}
            (Operation::Read, Booked::Good | Booked::GoodInOppositeMode) => {
                delivered = Some(self.deliver(file, words, 0));
            }
            // M-101: "If such a report is permanent and carries words, the block is kept as full". "Words on a
            // repeated attempt are dropped."
            (Operation::Read, Booked::PermanentRedundancy) if !words.is_empty() => {
                delivered = Some(self.deliver(file, words, UNRECOVERABLE_READ));
            }
            (Operation::Read, Booked::PermanentIncompleteWord) if !words.is_empty() => {
                delivered = Some(self.deliver(file, words, INCOMPLETE_WORD_READ));
            }
            // "A read that ends with a mark or a permanent error gives its buffer back as empty": now only if
            // no words came.
            (Operation::Read, _) => {
                let opened = self.judged_file(file);
                opened.taken = None;
                if result == Booked::Mark {
                    opened.mark_read = true;
                }
            }
            // "After a good end or end of medium the answer shows the block's words, check word
            // last, as a part of the area, and its buffer is empty".
            (Operation::Write, Booked::Good | Booked::EndOfMedium) => {
                let opened = self.judged_file(file);
                let sent = opened.full.pop_front().expect("the block of a write");
                shown = opened.whole_block(&sent);
            }
            // "after a permanent error it is full still"
            (Operation::Write, _) => {}
        }
        // The channel's next start has been made. A report that answers nothing makes nothing due.
        if !matches!(result, Booked::Repeated | Booked::BackspaceThree) {
            self.look();
        }
        Ok(Reported {
            result,
            check_error: delivered.map_or(0, |judged| judged.error),
            found: delivered.map(|judged| judged.fields),
            working_unit,
            block: self.part(&shown),
        })
    }

    /// 2: "a given word ... is 2^36 or more"; 11: "the channel is not working for that unit";
    /// 12: "outcome not allowed for the operation".
    pub fn report_refusals(
        &self,
        channel: u64,
        unit: u64,
        outcome: u64,
        length: u64,
        words: &[u64],
    ) -> Refusals {
        let mut refusals = Refusals::new();
        let outcome = Outcome::of(outcome);
        let in_range = channel < CHANNELS as u64 && unit < UNITS as u64;
        refusals.when(1, !in_range || outcome.is_none());
        // "Words given with an outcome other than 0 ... are refused 1"; M-101: "reports of read redundancy or
        // incomplete word may carry words", "refusal 1 for words there goes".
        refusals.when(1, !words.is_empty() && !outcome.is_some_and(Outcome::may_carry_words));
        // M-106: "A read's redundancy report may carry a length in words ...; if words follow it must be their
        // number, else 1."
        let has_length = length != NO_LENGTH;
        let may_have_length = outcome == Some(Outcome::Redundancy) && length < NO_LENGTH;
        refusals.when(1, has_length && !may_have_length);
        refusals.when(1, has_length && !words.is_empty() && length != words.len() as u64);
        refusals.when(2, !all_words(words));
        let Some(request) = self.working_request(channel, unit) else {
            refusals.when(11, in_range);
            return refusals;
        };
        // "or to a write or mark"; "on a channel not working for that unit the operation cannot be
        // judged".
        refusals.when(1, (has_length || !words.is_empty()) && request.operation != Operation::Read);
        let Some(outcome) = outcome else {
            return refusals;
        };
        refusals.when(12, !request.operation.allows(outcome));
        let file = self.file_of_unit(channel, unit).expect("the file of a request");
        let opened = self.file(file as u64).expect("an open file");
        match (request.operation, outcome) {
            // "A delivered block has 1 + e to B + e words, else 13." No words at all deliver no block, which a
            // good end cannot do.
            (Operation::Read, Outcome::Good) => refusals.when(13, !opened.fits(words.len())),
            // "sized as good blocks", whatever becomes of the words.
            (Operation::Read, Outcome::Redundancy | Outcome::IncompleteWord) => {
                refusals.when(13, !words.is_empty() && !opened.fits(words.len()));
            }
            // 2: "a buffer word that the call ... hands out, is 2^36 or more".
            (Operation::Write, Outcome::Good | Outcome::EndOfMedium) => {
                let shown = opened.full.front().map(|block| self.part(&opened.whole_block(block)));
                refusals.when(2, shown.is_some_and(|words| !all_words(words)));
            }
            _ => {}
        }
        refusals
    }

    /// "A good end makes it full": puts a delivered block into the buffer that the read has taken.
    /// "A block in error is kept and its number reported." The error of a read that failed is kept with it.
    fn deliver(&mut self, file: u64, words: &[u64], read_error: u8) -> Judged {
        let width = self.width;
        let opened = self.judged_file(file);
        let buffer = opened.taken.take().expect("the buffer of a read");
        let judged = judge(words, opened.chosen, opened.number);
        opened.add_full(buffer, words.len() - opened.chosen.e(), judged, read_error);
        self.area[buffer * width..][..words.len()].copy_from_slice(words);
        judged
    }

    /// Gets the next record, or what stands in its place.
    pub fn get(&mut self, file: u64) -> Result<Got<'_>, u64> {
        self.get_refusals(file).judge()?;
        Ok(match self.judged_file(file).get() {
            Found::Record(part) => Got::Record(self.part(&part)),
            Found::NothingYet => Got::NothingYet,
            Found::End => Got::End,
            Found::Error(judged) => Got::Error(judged),
            Found::Leftover(part) => Got::Leftover(self.part(&part)),
        })
    }

    /// 2: "a buffer word that the call ... hands out, is 2^36 or more"; an error hands out none.
    pub fn get_refusals(&self, file: u64) -> Refusals {
        let mut refusals = self.direction_refusals(file, Direction::Input);
        let input = self.file(file).filter(|opened| opened.direction == Direction::Input);
        if let Some(Found::Record(part) | Found::Leftover(part)) = input.map(File::look) {
            refusals.when(2, !all_words(self.part(&part)));
        }
        refusals
    }

    /// Put "adds them to the part-filled buffer, or to the lowest empty one".
    pub fn put(&mut self, file: u64, words: &[u64]) -> Result<(), u64> {
        self.put_refusals(file, words).judge()?;
        let width = self.width;
        let opened = self.judged_file(file);
        let mut part = opened.room_for_put().expect("judged room");
        let seals = opened.put_seals(&part);
        let first = part.buffer * width + part.data_words;
        part.data_words += words.len();
        opened.part_filled = Some(part);
        self.area[first..][..words.len()].copy_from_slice(words);
        if seals {
            self.seal_part_filled(file);
        }
        Ok(())
    }

    /// 9: "no part-filled or empty buffer"; 13: "Put carries exactly r words (else 13)".
    pub fn put_refusals(&self, file: u64, words: &[u64]) -> Refusals {
        let mut refusals = self.direction_refusals(file, Direction::Output);
        refusals.when(2, !all_words(words));
        if let Some(opened) = self.file(file) {
            let room = opened.room_for_put();
            let exact = words.len() == opened.record_length;
            refusals.when(9, room.is_none());
            refusals.when(13, !exact);
            // Only the put that seals sums the words that are in the buffer already.
            if let Some(part) = room.filter(|part| exact && opened.put_seals(part)) {
                refusals.when(2, self.sums_a_spoilt_word(opened, &part));
            }
        }
        refusals
    }

    /// "Seal does this early."
    pub fn seal(&mut self, file: u64) -> Result<(), u64> {
        self.seal_refusals(file).judge()?;
        self.seal_part_filled(file);
        Ok(())
    }

    /// 9: "Seal: no part-filled buffer".
    pub fn seal_refusals(&self, file: u64) -> Refusals {
        let mut refusals = self.direction_refusals(file, Direction::Output);
        if let Some(opened) = self.file(file) {
            let part_filled = opened.part_filled.as_ref();
            refusals.when(9, part_filled.is_none());
            refusals.when(2, part_filled.is_some_and(|part| self.sums_a_spoilt_word(opened, part)));
        }
        refusals
    }

    /// "the block is sealed ...: it gets its check word and is full".
    fn seal_part_filled(&mut self, file: u64) {
        let width = self.width;
        let opened = self.judged_file(file);
        let part = opened.part_filled.take().expect("a part-filled buffer");
        let (chosen, number) = (opened.chosen, opened.number);
        opened.add_full(part.buffer, part.data_words, Judged::default(), 0);
        let buffer = &mut self.area[part.buffer * width..][..width];
        seal(buffer, part.data_words, chosen, number).expect("a judged block");
    }

    /// "Skip drops the oldest full block, used up or not."
    pub fn skip(&mut self, file: u64) -> Result<(), u64> {
        self.skip_refusals(file).judge()?;
        self.judged_file(file).full.pop_front();
        Ok(())
    }

    /// 9: "Ask write, skip: no full buffer."
    pub fn skip_refusals(&self, file: u64) -> Refusals {
        let mut refusals = self.direction_refusals(file, Direction::Input);
        refusals.when(9, self.file(file).is_some_and(|opened| opened.full.is_empty()));
        refusals
    }

    /// "Freeze stops starts on all channels".
    pub fn freeze(&mut self) {
        self.channels.iter_mut().for_each(Channel::freeze);
    }

    /// "Thaw lets starts happen", and then "thaw looks again".
    pub fn thaw(&mut self) {
        self.channels.iter_mut().for_each(Channel::thaw);
        self.look();
    }

    /// The routine that runs returns: "On a return, the highest waiting routine is entered if it is above the
    /// program last pushed, otherwise that program resumes."
    pub fn give_back(&mut self) -> Result<Returned, u64> {
        self.return_refusals().judge()?;
        let next = self
            .highest_waiting()
            .filter(|waiting| !self.is_frozen() && self.schedule.is_followed_by(&Program::Special(*waiting)));
        match next {
            // The list stays: what returned makes room for what is entered.
            Some(waiting) => self.schedule.runs = self.enter(waiting),
            None => self.schedule.resume(),
        }
        Ok(Returned { entered: next.is_some(), runs: self.schedule.runs })
    }

    /// "Returns are the operator's, refused 18 with none running."
    pub fn return_refusals(&self) -> Refusals {
        let mut refusals = Refusals::new();
        refusals.when(18, self.schedule.runs == Program::Main);
        refusals
    }

    /// What runs.
    pub fn running(&self) -> Program {
        self.schedule.runs
    }

    /// "a due routine of higher priority than the one in progress is entered and the interrupted one goes on
    /// a push-down list"; "while frozen nothing enters". The others that wait are not above it.
    fn look(&mut self) {
        if self.is_frozen() {
            return;
        }
        let waiting = self.highest_waiting();
        if let Some(waiting) =
            waiting.filter(|&next| self.schedule.is_interrupted_by(&Program::Special(next)))
        {
            let entered = self.enter(waiting);
            self.schedule.interrupt(entered);
        }
    }

    /// The highest waiting routine: "4 is highest; ties go to the lowest channel, then unit".
    pub fn highest_waiting(&self) -> Option<Entered> {
        let mut highest: Option<Entered> = None;
        for (channel, state) in self.channels.iter().enumerate() {
            for (unit, routine) in state.waiting.iter().enumerate() {
                let Some(routine) = *routine else {
                    continue;
                };
                if highest.is_none_or(|found| routine.level > found.routine.level) {
                    highest = Some(Entered { channel, unit, routine });
                }
            }
        }
        highest
    }

    /// "A due routine is entered once": it waits at its unit no more.
    fn enter(&mut self, waiting: Entered) -> Program {
        self.channels[waiting.channel].waiting[waiting.unit] = None;
        Program::Special(waiting)
    }

    /// All channels are frozen together.
    pub fn is_frozen(&self) -> bool {
        self.channels[0].frozen
    }

    /// An open file; the number may be any.
    pub fn file(&self, file: u64) -> Option<&File> {
        self.files.get(usize::try_from(file).ok()?)?.as_ref()
    }

    /// The file that a judged call works on.
    fn judged_file(&mut self, file: u64) -> &mut File {
        self.files[file as usize].as_mut().expect("a judged file")
    }

    /// The number of the open file that is bound to a unit; the numbers may be any.
    pub fn file_of_unit(&self, channel: u64, unit: u64) -> Option<usize> {
        let bound = |file: &File| file.channel as u64 == channel && file.unit as u64 == unit;
        self.files.iter().position(|file| file.as_ref().is_some_and(bound))
    }

    /// The free buffers, the lowest first.
    pub fn free_buffers(&self) -> Vec<usize> {
        let held = |buffer: &usize| self.files.iter().flatten().any(|file| file.buffers.contains(buffer));
        (0..self.buffers).filter(|buffer| !held(buffer)).collect()
    }

    /// The unanswered request of a file's unit.
    pub fn request_of(&self, file: &File) -> Option<&Request> {
        self.channels[file.channel].request(file.unit as u64)
    }

    fn is_declared(&self, channel: u64, unit: u64) -> bool {
        self.channels[channel as usize].declared[unit as usize]
    }

    /// The request of a unit that its channel works for; the numbers may be any.
    fn working_request(&self, channel: u64, unit: u64) -> Option<&Request> {
        self.channels.get(usize::try_from(channel).ok()?)?.working_request(unit)
    }

    /// The words of the area that a part names: "Buffer i is words i×W up to (i+1)×W."
    fn part(&self, part: &Part) -> &[u64] {
        &self.area[part.buffer * self.width + part.place..][..part.words]
    }

    /// 1 for a number that is no file; 5: "file not open".
    fn file_refusals(&self, file: u64) -> Refusals {
        let mut refusals = Refusals::new();
        let in_range = file < FILES as u64;
        refusals.when(1, !in_range);
        refusals.when(5, in_range && self.file(file).is_none());
        refusals
    }

    /// These, and 6: "wrong direction: read, get, skip on an output file; write, mark, put, seal on
    /// an input file".
    fn direction_refusals(&self, file: u64, direction: Direction) -> Refusals {
        let mut refusals = self.file_refusals(file);
        refusals.when(6, self.file(file).is_some_and(|opened| opened.direction != direction));
        refusals
    }

    /// 2: "a buffer word that the call sums ... is 2^36 or more"; only chosen check sums are summed.
    fn sums_a_spoilt_word(&self, file: &File, part: &PartFilled) -> bool {
        let data = Part { buffer: part.buffer, place: 0, words: part.data_words };
        file.chosen.check && !all_words(self.part(&data))
    }
}

fn all_words(words: &[u64]) -> bool {
    words.iter().all(|&word| is_word(word))
}

#[cfg(test)]
mod tests {
    use super::*;

    const ALL_UNITS: u64 = 1_023;
    const SPOILT: u64 = 1 << 36;
    const READ: u64 = 0;
    const WRITE: u64 = 1;
    const MARK: u64 = 2;
    const GOOD: u64 = 0;
    const REDUNDANCY: u64 = 1;
    const INCOMPLETE: u64 = 2;
    const FILE_MARK: u64 = 3;
    const END_OF_MEDIUM: u64 = 4;

    /// A pack with an area of 60 words that no call has set, four buffers of ten words, all units.
    fn pack() -> Pack {
        let mut pack = Pack::new(60);
        pack.area = (1_000..1_060).collect();
        pack.fresh(4, 10, [ALL_UNITS; CHANNELS]).expect("a fresh start");
        pack
    }

    fn opening(file: u64, unit: u64, flags: u64, block_size: u64, record_length: u64) -> Opening {
        Opening { file, channel: 0, unit, flags, block_size, record_length }
    }

    /// The pack with file 0 open on unit 0.
    fn pack_with(flags: u64, block_size: u64, record_length: u64) -> Pack {
        let mut pack = pack();
        pack.open(&opening(0, 0, flags, block_size, record_length)).expect("an open file");
        pack
    }

    /// Asks a read of file 0 and delivers the words.
    fn read(pack: &mut Pack, words: &[u64]) -> u8 {
        pack.ask(0, READ, 0).expect("an accepted ask");
        pack.report(0, 0, GOOD, words).expect("a delivered block").check_error
    }

    fn judged(error: u8, fields: [u64; 4]) -> Judged {
        Judged { error, fields: Fields::of(fields) }
    }

    /// The call is refused and changes nothing.
    fn refused<T: std::fmt::Debug>(pack: &Pack, number: u64, call: impl Fn(&mut Pack) -> Result<T, u64>) {
        let mut after = pack.clone();
        let answer = call(&mut after).map(|_| ());
        assert_eq!(answer, Err(number));
        assert_eq!(&after, pack);
    }

    fn refused_open(pack: &Pack, number: u64, opening: Opening) {
        refused(pack, number, |pack| pack.open(&opening));
    }

    #[test]
    fn before_the_first_fresh_start_there_is_nothing() {
        let mut pack = Pack::new(4_096);
        refused_open(&pack, 3, opening(0, 0, 0, 1, 1));
        refused(&pack, 5, |pack| pack.close(0));
        refused(&pack, 11, |pack| pack.report(0, 0, GOOD, &[]).map(|_| ()));
        pack.freeze();
        pack.thaw();
        assert_eq!(pack, Pack::new(4_096));
    }

    #[test]
    fn fresh_judges_its_numbers_and_the_area() {
        let pack = pack();
        let units = [0; CHANNELS];
        for (buffers, width) in [(0, 1), (33, 1), (1, 0), (1, 1_025), (7, 9), (u64::MAX, u64::MAX)] {
            refused(&pack, 1, |pack| pack.fresh(buffers, width, units));
        }
        refused(&pack, 1, |pack| pack.fresh(1, 1, [0, 0, 0, 0, 1_024]));
        assert_eq!(pack.clone().fresh(6, 10, units), Ok(()));
        assert_eq!(Pack::new(32 * 1_024).fresh(32, 1_024, units), Ok(()));
    }

    #[test]
    fn fresh_closes_drops_thaws_and_resets_but_keeps_the_words() {
        let mut pack = pack_with(0, 3, 1);
        read(&mut pack, &[7]);
        pack.ask(0, READ, 0).expect_err("no empty buffer");
        pack.open(&opening(1, 1, 0, 3, 1)).expect("an open file");
        pack.ask(1, READ, 0).expect("an accepted ask");
        pack.freeze();
        pack.fresh(6, 10, [1; CHANNELS]).expect("a fresh start");
        let mut expected = Pack::new(60);
        expected.fresh(6, 10, [1; CHANNELS]).expect("a fresh start");
        expected.area = (1_000..1_060).collect();
        expected.area[0] = 7;
        assert_eq!(pack, expected);
    }

    #[test]
    fn open_refuses_each_number() {
        let mut pack = pack_with(DOUBLE, 3, 1);
        refused_open(&pack, 1, opening(16, 1, 0, 3, 1));
        refused_open(&pack, 1, opening(1, 10, 0, 3, 1));
        refused_open(&pack, 1, opening(1, 1, 16, 3, 1));
        refused_open(&pack, 1, Opening { channel: 5, ..opening(1, 1, 0, 3, 1) });
        refused_open(&pack, 4, opening(0, 1, 0, 3, 1));
        refused_open(&pack, 4, opening(1, 0, 0, 3, 1));
        for (flags, block_size, record_length) in [
            (0, 0, 0),
            (0, 3, 0),
            (0, 3, 4),
            (0, 11, 1),
            (SEQUENCE, 10, 1),
            (CHECK, 10, 1),
            (0, 65_535, 1),
            (4, u64::MAX, 1),
        ] {
            refused_open(&pack, 13, opening(1, 1, flags, block_size, record_length));
        }
        pack.open(&opening(1, 1, SEQUENCE + CHECK, 9, 9)).expect("an open file");
        pack.open(&opening(2, 2, 0, 10, 10)).expect("an open file");
        refused_open(&pack, 7, opening(3, 3, 0, 3, 1));
        pack.channels[0].declared[9] = false;
        refused_open(&pack, 3, opening(3, 9, 0, 3, 1));
    }

    #[test]
    fn p11_two_free_and_two_asked_open_but_one_free_is_7() {
        let mut pack = pack_with(DOUBLE, 3, 1);
        assert_eq!(pack.clone().open(&opening(1, 1, DOUBLE, 3, 1)), Ok(()));
        pack.open(&opening(2, 2, 0, 3, 1)).expect("an open file");
        refused_open(&pack, 7, opening(1, 1, DOUBLE, 3, 1));
    }

    #[test]
    fn the_lowest_free_buffers_are_taken() {
        let mut pack = pack_with(0, 3, 1);
        pack.open(&opening(1, 1, 0, 3, 1)).expect("an open file");
        pack.close(0).expect("a closed file");
        pack.open(&opening(2, 2, DOUBLE, 3, 1)).expect("an open file");
        assert_eq!(pack.file(2).expect("an open file").buffers, [0, 2]);
        assert_eq!(pack.free_buffers(), [3]);
    }

    #[test]
    fn close_refuses_5_8_15() {
        let mut pack = pack_with(OUTPUT + DOUBLE, 2, 1);
        refused(&pack, 1, |pack| pack.close(16));
        refused(&pack, 5, |pack| pack.close(1));
        pack.put(0, &[1]).expect("an accepted put");
        refused(&pack, 15, |pack| pack.close(0));
        pack.put(0, &[2]).expect("an accepted put");
        refused(&pack, 15, |pack| pack.close(0));
        pack.ask(0, WRITE, 0).expect("an accepted ask");
        refused(&pack, 8, |pack| pack.close(0));
        pack.report(0, 0, GOOD, &[]).expect("a booked report");
        assert_eq!(pack.close(0), Ok(()));
        refused(&pack, 5, |pack| pack.close(0));
    }

    #[test]
    fn ask_refuses_each_number() {
        let mut input = pack_with(0, 3, 1);
        refused(&input, 1, |pack| pack.ask(16, READ, 0));
        refused(&input, 1, |pack| pack.ask(1, 3, 0));
        refused(&input, 1, |pack| pack.ask(1, READ, 2));
        refused(&input, 5, |pack| pack.ask(1, READ, 0));
        refused(&input, 6, |pack| pack.ask(0, WRITE, 0));
        refused(&input, 6, |pack| pack.ask(0, MARK, 0));
        input.ask(0, READ, 0).expect("an accepted ask");
        refused(&input, 8, |pack| pack.ask(0, READ, 0));
        refused(&input, 6, |pack| pack.ask(0, WRITE, 0));
        input.report(0, 0, GOOD, &[7]).expect("a delivered block");
        refused(&input, 9, |pack| pack.ask(0, READ, 0));
        input.skip(0).expect("an accepted skip");
        input.ask(0, READ, 0).expect("an accepted ask");
        input.report(0, 0, FILE_MARK, &[]).expect("a mark");
        refused(&input, 10, |pack| pack.ask(0, READ, 0));

        let mut output = pack_with(OUTPUT, 2, 1);
        refused(&output, 6, |pack| pack.ask(0, READ, 0));
        refused(&output, 9, |pack| pack.ask(0, WRITE, 0));
        output.put(0, &[5]).expect("an accepted put");
        refused(&output, 9, |pack| pack.ask(0, WRITE, 0));
        refused(&output, 15, |pack| pack.ask(0, MARK, 0));
        output.seal(0).expect("an accepted seal");
        refused(&output, 15, |pack| pack.ask(0, MARK, 0));
        assert_eq!(output.ask(0, WRITE, 0), Ok(Some(0)));
    }

    #[test]
    fn report_refuses_each_number() {
        let mut pack = pack_with(SEQUENCE, 3, 1);
        for (channel, unit, outcome) in [(5, 0, GOOD), (0, 10, GOOD), (0, 0, 5)] {
            refused(&pack, 1, |pack| pack.report(channel, unit, outcome, &[]).map(|_| ()));
        }
        refused(&pack, 1, |pack| pack.report(0, 0, FILE_MARK, &[1]).map(|_| ()));
        refused(&pack, 11, |pack| pack.report(0, 0, REDUNDANCY, &[1]).map(|_| ()));
        refused(&pack, 2, |pack| pack.report(0, 0, INCOMPLETE, &[SPOILT]).map(|_| ()));
        refused(&pack, 11, |pack| pack.report(0, 0, GOOD, &[1]).map(|_| ()));
        refused(&pack, 2, |pack| pack.report(0, 0, GOOD, &[SPOILT]).map(|_| ()));
        pack.ask(0, READ, 0).expect("an accepted ask");
        refused(&pack, 12, |pack| pack.report(0, 0, END_OF_MEDIUM, &[]).map(|_| ()));
        refused(&pack, 1, |pack| pack.report(0, 0, END_OF_MEDIUM, &[1]).map(|_| ()));
        for words in [[].as_slice(), &[1], &[1, 2, 3, 4, 5], &[0; 2_000]] {
            refused(&pack, 13, |pack| pack.report(0, 0, GOOD, words).map(|_| ()));
        }
        for words in [[1].as_slice(), &[1, 2, 3, 4, 5], &[0; 2_000]] {
            refused(&pack, 13, |pack| pack.report(0, 0, REDUNDANCY, words).map(|_| ()));
            refused(&pack, 13, |pack| pack.report(0, 0, INCOMPLETE, words).map(|_| ()));
        }
        refused(&pack, 2, |pack| pack.report(0, 0, GOOD, &[SPOILT]).map(|_| ()));
        assert_eq!(pack.report(0, 0, GOOD, &[4, 1]).map(|reported| reported.check_error), Ok(0));
    }

    #[test]
    fn a_delivered_block_lies_from_the_first_word_and_the_rest_stays() {
        let mut pack = pack_with(DOUBLE + SEQUENCE, 3, 2);
        assert_eq!(read(&mut pack, &[5, 6, 1]), 0);
        assert_eq!(read(&mut pack, &[7, 8, 9, 5]), 1);
        assert_eq!(pack.area[..4], [5, 6, 1, 1_003]);
        assert_eq!(pack.area[10..15], [7, 8, 9, 5, 1_014]);
        assert_eq!(pack.get(0), Ok(Got::Record(&[5, 6])));
        assert_eq!(pack.get(0), Ok(Got::Error(judged(1, [24, 2, 0, 5]))));
        assert_eq!(pack.get(0), Ok(Got::Record(&[7, 8])));
        assert_eq!(pack.get(0), Ok(Got::Leftover(&[9])));
        assert_eq!(pack.get(0), Ok(Got::NothingYet));
        pack.ask(0, READ, 0).expect("an accepted ask");
        assert_eq!(pack.report(0, 0, FILE_MARK, &[]).map(|reported| reported.result), Ok(Booked::Mark));
        assert_eq!(pack.get(0), Ok(Got::End));
    }

    /// Readings H7 and H9: a report tells what was found if it delivers a block, good or not, and get tells
    /// the same of a block in error, though the number has moved on and the area was written.
    #[test]
    fn h9_what_was_found_at_delivery_is_told() {
        let mut pack = pack_with(DOUBLE + SEQUENCE + CHECK, 3, 2);
        let found = |pack: &mut Pack, outcome, words: &[u64]| {
            if pack.channels[0].request(0).is_none() {
                pack.ask(0, READ, 0).expect("an accepted ask");
            }
            pack.report(0, 0, outcome, words).expect("a report").found
        };
        assert_eq!(found(&mut pack, REDUNDANCY, &[]), None);
        assert_eq!(found(&mut pack, GOOD, &[5, 6, (11 << 18) + 1]), Some(Fields::of([11, 1, 11, 1])));
        assert_eq!(found(&mut pack, GOOD, &[7, (8 << 18) + 3]), Some(Fields::of([7, 2, 8, 3])));
        pack.area[10..12].copy_from_slice(&[1, 2]);
        assert_eq!(pack.get(0), Ok(Got::Record(&[5, 6])));
        assert_eq!(pack.get(0), Ok(Got::Error(judged(3, [7, 2, 8, 3]))));
        assert_eq!(found(&mut pack, INCOMPLETE, &[]), None);
        assert_eq!(found(&mut pack, INCOMPLETE, &[]), None);
        assert_eq!(found(&mut pack, FILE_MARK, &[]), None);
    }

    /// Reading G11: a kept block lies from its buffer's first word; dropped and refused words write nothing.
    #[test]
    fn g11_only_kept_words_are_written() {
        let mut pack = pack_with(DOUBLE + SEQUENCE, 3, 2);
        let before = pack.area.clone();
        pack.ask(0, READ, 0).expect("an accepted ask");
        pack.report(0, 0, REDUNDANCY, &[1, 2, 3]).expect("a booked report");
        pack.report(0, 0, INCOMPLETE, &[4, 5]).expect("a booked report");
        refused(&pack, 13, |pack| pack.report(0, 0, INCOMPLETE, &[7; 5]).map(|_| ()));
        assert_eq!(pack.area, before);
        let reported = pack.report(0, 0, INCOMPLETE, &[6, 7, 9]).expect("a booked report");
        assert_eq!((reported.result, reported.check_error), (Booked::PermanentIncompleteWord, 1));
        assert_eq!(reported.found, Some(Fields::of([13, 1, 0, 9])));
        assert_eq!(pack.area[..4], [6, 7, 9, 1_003]);
        assert_eq!(pack.area[4..], before[4..]);
        assert_eq!(pack.file(0).map(|file| (file.taken, file.number)), Some((None, 2)));
        assert_eq!(pack.get(0), Ok(Got::Error(judged(10, [13, 1, 0, 9]))));
        assert_eq!(pack.get(0), Ok(Got::Error(judged(1, [13, 1, 0, 9]))));
        assert_eq!(pack.get(0), Ok(Got::Record(&[6, 7])));
    }

    /// Readings I8 and I9: where a length is refused 1, and that it is judged on an idle channel too.
    #[test]
    fn i9_lengths_that_are_refused() {
        let mut pack = pack_with(SEQUENCE, 3, 1);
        let report = |length, outcome, words: &'static [u64]| {
            move |pack: &mut Pack| pack.report_length(0, 0, outcome, length, words).map(|_| ())
        };
        for works in [false, true] {
            if works {
                pack.ask(0, READ, 0).expect("an accepted ask");
            }
            for outcome in [GOOD, INCOMPLETE, FILE_MARK, END_OF_MEDIUM, 5] {
                for length in [0, 2, 65_535] {
                    refused(&pack, 1, report(length, outcome, &[]));
                }
            }
            refused(&pack, 1, report(2, GOOD, &[4, 1]));
            for length in [65_537, 131_072, u64::MAX] {
                refused(&pack, 1, report(length, REDUNDANCY, &[]));
            }
            for length in [0, 1, 3, 65_535] {
                refused(&pack, 1, report(length, REDUNDANCY, &[4, 1]));
                refused(&pack, 1, report(length, REDUNDANCY, &[4, SPOILT]));
            }
            refused(&pack, 2, report(2, REDUNDANCY, &[4, SPOILT]));
            if !works {
                refused(&pack, 11, report(2, REDUNDANCY, &[4, 1]));
                refused(&pack, 11, report(65_535, REDUNDANCY, &[]));
            }
        }
        // A noise record's words are sized as all others are, and then dropped.
        refused(&pack, 13, report(1, REDUNDANCY, &[4]));
        let before = pack.area.clone();
        for (length, words) in [(2, [4, 1].as_slice()), (0, &[]), (65_535, &[]), (3, &[4, 5, 1])] {
            let reported = pack.report_length(0, 0, REDUNDANCY, length, words).expect("a booked report");
            assert_eq!((reported.result, reported.found), (Booked::Repeated, None));
        }
        assert_eq!(pack.area, before);
        let request = pack.channels[0].request(0).expect("a request");
        assert_eq!((request.attempt, request.noise), (3, 2));

        let mut output = pack_with(OUTPUT, 2, 2);
        output.ask(0, MARK, 0).expect("an accepted ask");
        refused(&output, 1, report(5, REDUNDANCY, &[]));
        output.report(0, 0, GOOD, &[]).expect("a booked report");
        refused(&output, 11, report(5, REDUNDANCY, &[]));
        output.put(0, &[1, 2]).expect("an accepted put");
        output.ask(0, WRITE, 0).expect("an accepted ask");
        refused(&output, 1, report(2, REDUNDANCY, &[]));
        refused(&output, 1, report(2, REDUNDANCY, &[1, 2]));
    }

    /// Readings I4 and I6: the position is the unit's, whatever file is open there; a kept block moves it not.
    #[test]
    fn i4_the_position_belongs_to_the_unit() {
        let mut pack = pack_with(OUTPUT, 2, 2);
        let at = |pack: &Pack| (pack.channels[0].positions[0].marks, pack.channels[0].positions[0].records);
        for outcome in [GOOD, END_OF_MEDIUM, GOOD] {
            pack.put(0, &[1, 2]).expect("an accepted put");
            pack.ask(0, WRITE, 0).expect("an accepted ask");
            pack.report(0, 0, outcome, &[]).expect("a booked report");
        }
        assert_eq!(at(&pack), (0, 3));
        pack.close(0).expect("a closed file");
        pack.open(&opening(5, 0, 0, 3, 1)).expect("an open file");
        pack.ask(5, READ, 0).expect("an accepted ask");
        for _ in 0..10 {
            assert_eq!(pack.report(0, 0, REDUNDANCY, &[]).map(|told| told.result), Ok(Booked::Repeated));
        }
        assert_eq!(pack.report(0, 0, REDUNDANCY, &[]).map(|told| told.result), Ok(Booked::BackspaceThree));
        pack.report(0, 0, INCOMPLETE, &[]).expect("a booked report");
        let kept = pack.report(0, 0, INCOMPLETE, &[7]).expect("a booked report");
        assert_eq!(kept.result, Booked::PermanentIncompleteWord);
        assert_eq!(at(&pack), (0, 3));
        pack.fresh(4, 10, [ALL_UNITS; CHANNELS]).expect("a fresh start");
        assert_eq!(at(&pack), (0, 0));
    }

    /// Reading C17: a failed read, a close and a fresh start write nothing.
    #[test]
    fn c17_words_that_no_rule_sets_stay() {
        let mut pack = pack_with(0, 3, 1);
        let before = pack.area.clone();
        pack.ask(0, READ, 0).expect("an accepted ask");
        pack.report(0, 0, REDUNDANCY, &[]).expect("a booked report");
        pack.report(0, 0, GOOD, &[1, 2, 3, 4]).expect_err("too long");
        pack.report(0, 0, FILE_MARK, &[]).expect("a mark");
        pack.close(0).expect("a closed file");
        pack.fresh(1, 1, [0; CHANNELS]).expect("a fresh start");
        assert_eq!(pack.area, before);
    }

    #[test]
    fn puts_fill_a_block_and_the_write_shows_it() {
        let mut pack = pack_with(OUTPUT + SEQUENCE + CHECK, 3, 1);
        pack.put(0, &[1]).expect("an accepted put");
        pack.put(0, &[2]).expect("an accepted put");
        pack.seal(0).expect("an accepted seal");
        assert_eq!(pack.area[..4], [1, 2, 786_433, 1_003]);
        assert_eq!(pack.ask(0, WRITE, 0), Ok(Some(0)));
        let reported = pack.report(0, 0, GOOD, &[]);
        let block: &[u64] = &[1, 2, 786_433];
        assert_eq!(
            reported,
            Ok(Reported { result: Booked::Good, check_error: 0, found: None, working_unit: None, block })
        );
        refused(&pack, 9, |pack| pack.ask(0, WRITE, 0));
        assert_eq!(pack.ask(0, MARK, 0), Ok(Some(0)));
    }

    #[test]
    fn after_a_permanent_error_the_block_is_full_still() {
        let mut pack = pack_with(OUTPUT, 2, 2);
        pack.put(0, &[1, 2]).expect("an accepted put");
        pack.ask(0, WRITE, 0).expect("an accepted ask");
        let reported = pack.report(0, 0, INCOMPLETE, &[]).expect("a booked report");
        assert_eq!((reported.result, reported.block), (Booked::PermanentIncompleteWord, [].as_slice()));
        refused(&pack, 9, |pack| pack.put(0, &[3, 4]));
        pack.ask(0, WRITE, 0).expect("an accepted ask");
        assert_eq!(
            pack.report(0, 0, END_OF_MEDIUM, &[]).map(|reported| reported.block.to_vec()),
            Ok(vec![1, 2])
        );
        assert_eq!(pack.put(0, &[3, 4]), Ok(()));
    }

    #[test]
    fn put_seal_and_skip_refuse_each_number() {
        let mut output = pack_with(OUTPUT, 4, 2);
        refused(&output, 1, |pack| pack.put(16, &[SPOILT]));
        refused(&output, 2, |pack| pack.put(1, &[SPOILT]));
        refused(&output, 5, |pack| pack.put(1, &[1, 2]));
        refused(&output, 13, |pack| pack.put(0, &[1]));
        refused(&output, 13, |pack| pack.put(0, &[]));
        refused(&output, 9, |pack| pack.seal(0));
        refused(&output, 6, |pack| pack.get(0).map(|_| ()));
        refused(&output, 6, |pack| pack.skip(0));
        output.put(0, &[1, 2]).expect("an accepted put");
        output.put(0, &[3, 4]).expect("an accepted put");
        refused(&output, 9, |pack| pack.put(0, &[1]));
        refused(&output, 9, |pack| pack.seal(0));
        let input = pack_with(0, 4, 2);
        refused(&input, 6, |pack| pack.put(0, &[]));
        refused(&input, 6, |pack| pack.seal(0));
        refused(&input, 9, |pack| pack.skip(0));
        refused(&input, 5, |pack| pack.skip(1));
        refused(&input, 5, |pack| pack.get(1).map(|_| ()));
        refused(&input, 1, |pack| pack.seal(u64::MAX));
    }

    /// Reading A23: only chosen check sums are summed.
    #[test]
    fn a23_a_seal_without_check_sums_meets_no_spoilt_word() {
        for (flags, refuses) in [(0, false), (SEQUENCE, false), (CHECK, true), (SEQUENCE + CHECK, true)] {
            let mut pack = pack_with(OUTPUT + flags, 3, 1);
            pack.put(0, &[1]).expect("an accepted put");
            pack.area[0] = SPOILT;
            if refuses {
                refused(&pack, 2, |pack| pack.seal(0));
            } else {
                assert_eq!(pack.seal(0), Ok(()));
                pack.ask(0, WRITE, 0).expect("an accepted ask");
                refused(&pack, 2, |pack| pack.report(0, 0, GOOD, &[]).map(|_| ()));
            }
        }
    }

    /// Reading A24: only the put that seals sums, and a put with the wrong count sums nothing.
    #[test]
    fn a24_only_the_put_that_seals_meets_a_spoilt_word() {
        let mut pack = pack_with(OUTPUT + CHECK, 3, 1);
        pack.put(0, &[1]).expect("an accepted put");
        pack.area[0] = SPOILT;
        assert_eq!(pack.put(0, &[2]), Ok(()));
        refused(&pack, 2, |pack| pack.put(0, &[3]));
        refused(&pack, 13, |pack| pack.put(0, &[3, 4]));
        pack.area[0] = 1;
        assert_eq!(pack.put(0, &[3]), Ok(()));
    }

    /// Reading A25: only results 01 and 04 hand the block out, check word included.
    #[test]
    fn a25_a_spoilt_block_is_refused_where_it_is_handed_out() {
        for spoilt_place in [0, 1, 2] {
            let mut pack = pack_with(OUTPUT + SEQUENCE, 2, 2);
            pack.put(0, &[1, 2]).expect("an accepted put");
            pack.area[spoilt_place] = SPOILT;
            pack.ask(0, WRITE, 0).expect("an accepted ask");
            refused(&pack, 2, |pack| pack.report(0, 0, GOOD, &[]).map(|_| ()));
            refused(&pack, 2, |pack| pack.report(0, 0, END_OF_MEDIUM, &[]).map(|_| ()));
            let repeated = pack.report(0, 0, REDUNDANCY, &[]).map(|reported| reported.result);
            assert_eq!(repeated, Ok(Booked::Repeated));
            let permanent = pack.report(0, 0, INCOMPLETE, &[]).map(|reported| reported.result);
            assert_eq!(permanent, Ok(Booked::PermanentIncompleteWord));
        }
    }

    /// Reading A26: only the words that are given matter, and a refused get empties nothing.
    #[test]
    fn a26_get_is_refused_only_for_the_words_it_gives() {
        let mut pack = pack_with(DOUBLE + SEQUENCE, 3, 1);
        read(&mut pack, &[5, 1]);
        read(&mut pack, &[6, 7, 9]);
        pack.area[1] = SPOILT;
        assert_eq!(pack.get(0), Ok(Got::Record(&[5])));
        pack.area[10] = SPOILT;
        assert_eq!(pack.get(0), Ok(Got::Error(judged(1, [13, 2, 0, 9]))));
        refused(&pack, 2, |pack| pack.get(0).map(|_| ()));
        pack.area[10] = 6;
        pack.area[11] = SPOILT;
        assert_eq!(pack.get(0), Ok(Got::Record(&[6])));
        refused(&pack, 2, |pack| pack.get(0).map(|_| ()));

        let mut pack = pack_with(DOUBLE, 3, 1);
        read(&mut pack, &[5]);
        read(&mut pack, &[6]);
        assert_eq!(pack.get(0), Ok(Got::Record(&[5])));
        pack.area[10] = SPOILT;
        refused(&pack, 2, |pack| pack.get(0).map(|_| ()));
        refused(&pack, 9, |pack| pack.ask(0, READ, 0));
    }

    /// Reading A16: only a state made by hand meets 9 with 10, or 8 with 10; then the lowest.
    #[test]
    fn a16_the_lowest_of_8_9_10() {
        let mut pack = pack_with(0, 3, 1);
        read(&mut pack, &[5]);
        pack.files[0].as_mut().expect("an open file").mark_read = true;
        refused(&pack, 9, |pack| pack.ask(0, READ, 0));
        pack.skip(0).expect("an accepted skip");
        refused(&pack, 10, |pack| pack.ask(0, READ, 0));
        pack.files[0].as_mut().expect("an open file").mark_read = false;
        pack.ask(0, READ, 0).expect("an accepted ask");
        pack.files[0].as_mut().expect("an open file").mark_read = true;
        refused(&pack, 8, |pack| pack.ask(0, READ, 0));
    }

    #[test]
    fn freeze_and_thaw_reach_all_channels() {
        let mut pack = pack();
        for channel in 0..4 {
            let opening = Opening { channel, ..opening(channel, 0, 0, 3, 1) };
            pack.open(&opening).expect("an open file");
        }
        pack.freeze();
        for file in 0..4 {
            assert_eq!(pack.ask(file, READ, 0), Ok(None));
        }
        pack.thaw();
        assert!(pack.channels[..4].iter().all(|channel| channel.working_unit() == Some(0)));
        assert_eq!(pack.channels[4].working_unit(), None);
    }
}
