//! Counts what sessions reach, so that a comparison can tell what it has never tried.

use std::collections::BTreeMap;

use crate::channel::{
    Channel, Operation, Position, Request, Turn, CLEANER_PASSES, MOST_NOISE, NOISE_BELOW,
    RECORDS_TO_BACKSPACE, UNITS,
};
use crate::file::Direction;
use crate::frame::{answer_line, frame_of, refusals_of, Frame};
use crate::pack::{Pack, FILES, NO_LENGTH};
use crate::reach_routines::{entered_name, Before, OF_ROUTINES};
use crate::routine::HIGHEST_LEVEL;
use crate::session::new_pack;
use crate::word::LAST_NUMBER;

/// All that is counted, each with its count.
#[derive(Clone, Debug, PartialEq, Eq)]
pub struct Reach {
    counts: Vec<(String, u64)>,
    /// Pairs of refusals that applied to one frame, the lower first.
    pairs: BTreeMap<(usize, usize), u64>,
}

impl Default for Reach {
    fn default() -> Reach {
        let mut names = Vec::new();
        // There is no refusal 14; 16 and 17 are of no frame.
        names.extend((1..=13).chain([15, 18]).map(|number| format!("refusal {number}")));
        names.extend((0..=7).map(|number| format!("result {number}")));
        names.extend(CLEANER_PASSES.map(|attempt| format!("backspace three, attempt {attempt}")));
        names.extend((1..=3).map(|number| format!("check error {number}")));
        names.extend((0..=4).map(|number| format!("get {number}")));
        // M-101: 4 and 10 are errors of reads.
        names.extend([1, 2, 3, 4, 10].map(|number| format!("get error {number}")));
        names.extend(OTHERS.map(str::to_string));
        names.extend((0..=HIGHEST_LEVEL).map(entered_name));
        names.extend(OF_ROUTINES.map(str::to_string));
        Reach { counts: names.into_iter().map(|name| (name, 0)).collect(), pairs: BTreeMap::new() }
    }
}

const DISPLACEMENT: &str = "displacement";
const FREEZE: &str = "freeze in the middle of an operation";
const PRIORITY_PAST: &str = "priority turn past a lower unit that waits";
const PRIORITY_WRAP: &str = "priority turn after the scan's wrap";
const PRIORITY_THAW: &str = "priority turn of another than the one that a freeze stopped";
const KEPT_ALONE: &str = "kept block without a check error";
const KEPT_IN_ERROR: &str = "kept block with a check error";
const KEPT_BEHIND: &str = "kept block behind an older one";
const NOT_KEPT: &str = "permanent read error without words";
const DROPPED: &str = "words of a repeated read dropped";
const FIRST_INCOMPLETE: &str = "kept block of the first incomplete word, at attempt 101";
const SKIPPED: &str = "kept block skipped before its error was told";
const BESIDE_RECORDS: &str = "attempt of the cleaner's list due after two records";
const BESIDE_NOISE: &str = "attempt of the cleaner's list due after three records and noise";
const BESIDE_ATTEMPT: &str = "attempt just beside the cleaner's list due after three records";
const BACKSPACE_INCOMPLETE: &str = "backspace three after an incomplete word";
const BACKSPACE_STOPPED: &str = "backspace three of an operation that does not go on";
const NOISE: &str = "noise record passed";
const NOISE_BEFORE: &str = "noise record passed at an attempt of the cleaner's list";
const NOISE_LAST: &str = "noise record passed at attempt 101";
const NOISE_WORDS: &str = "noise record passed with words";
const NOISE_STOPPED: &str = "noise record passed by an operation that does not go on";
const NOISE_PAST: &str = "noise record past the hundred";
const MEASURED: &str = "redundancy with a length of three words or more";
const MARK_AGAIN: &str = "mark behind records";
const LENGTH_OUTCOME: &str = "length with another outcome";
const LENGTH_COUNT: &str = "length that is not the number of the words";
const LENGTH_WRITE: &str = "length to a write or mark";
const LENGTH_IDLE: &str = "length to a channel that does not work for the unit";
const NO_CHECK_WORD: &str = "block delivered without a check word";
const NOT_CHOSEN: &str = "block good, though a field that is not chosen differs";
const WRAP_INPUT: &str = "block number 32,767 passed on input";
const WRAP_OUTPUT: &str = "block number 32,767 passed on output";
const OTHERS: [&str; 33] = [
    DISPLACEMENT,
    FREEZE,
    PRIORITY_PAST,
    PRIORITY_WRAP,
    PRIORITY_THAW,
    KEPT_ALONE,
    KEPT_IN_ERROR,
    KEPT_BEHIND,
    NOT_KEPT,
    DROPPED,
    FIRST_INCOMPLETE,
    SKIPPED,
    BESIDE_RECORDS,
    BESIDE_NOISE,
    BESIDE_ATTEMPT,
    BACKSPACE_INCOMPLETE,
    BACKSPACE_STOPPED,
    NOISE,
    NOISE_BEFORE,
    NOISE_LAST,
    NOISE_WORDS,
    NOISE_STOPPED,
    NOISE_PAST,
    MEASURED,
    MARK_AGAIN,
    LENGTH_OUTCOME,
    LENGTH_COUNT,
    LENGTH_WRITE,
    LENGTH_IDLE,
    NO_CHECK_WORD,
    NOT_CHOSEN,
    WRAP_INPUT,
    WRAP_OUTPUT,
];

impl Reach {
    /// Plays the lines of a session, counts what they reach, and gives the answers.
    pub fn play(&mut self, lines: &[Vec<u8>]) -> Vec<Vec<u8>> {
        let mut pack = new_pack();
        lines.iter().map(|line| self.play_line(&mut pack, line)).collect()
    }

    /// What was never reached.
    pub fn missing(&self) -> Vec<&str> {
        self.counts.iter().filter(|(_, count)| *count == 0).map(|(name, _)| name.as_str()).collect()
    }

    /// The counts, one a line, and the pairs of refusals.
    pub fn lines(&self) -> String {
        let counts: String =
            self.counts.iter().map(|(name, count)| format!("{count:>9}  {name}\n")).collect();
        let pairs: String = self.pairs.keys().map(|(low, high)| format!(" {low}+{high}")).collect();
        format!("{counts}{:>9}  pairs of refusals at once:{pairs}\n", self.pairs.len())
    }

    /// Whether two refusals applied to one frame.
    pub fn has_pair(&self, low: usize, high: usize) -> bool {
        self.pairs.contains_key(&(low, high))
    }

    pub(crate) fn count(&mut self, name: &str) {
        if let Some((_, count)) = self.counts.iter_mut().find(|(known, _)| known == name) {
            *count += 1;
        }
    }

    fn play_line(&mut self, pack: &mut Pack, line: &[u8]) -> Vec<u8> {
        let frame = frame_of(line);
        let before = Before::of(pack);
        let last_numbers = files_at_the_last_number(pack);
        let at_work = pack.channels.each_ref().map(Channel::working_unit);
        if let Some(frame) = &frame {
            self.see_refusals(pack, frame);
        }
        let asked = frame.as_ref().and_then(|frame| reported_request(pack, frame));
        let untold = frame.as_ref().is_some_and(|frame| skips_a_read_error(pack, frame));
        if let Some(frame) = &frame {
            self.see_length(asked.as_ref(), frame);
        }
        let answer = answer_line(pack, line);
        let bytes = bytes_of(&answer);
        if let Some(frame) = &frame {
            self.see_routines(&before, pack, frame, &bytes);
        }
        match (bytes[0], frame) {
            (0, Some(Frame::Report { channel, unit, outcome, length, words })) => {
                self.see_report(pack, channel, unit, &bytes);
                if let Some(asked) = &asked {
                    self.see_failed_read(pack, [channel, unit], &asked.request, &words, &bytes);
                    let goes_on = pack.channels[channel as usize].working_unit() == Some(unit as usize);
                    self.see_reel(asked, [outcome, length], &words, bytes[1], goes_on);
                }
            }
            (0, Some(Frame::Get { .. })) => {
                self.count(&format!("get {}", bytes[1]));
                if bytes[1] == 3 {
                    self.count(&format!("get error {}", bytes[2]));
                }
            }
            (0, Some(Frame::Skip { .. })) if untold => self.count(SKIPPED),
            (0, _) => {}
            (refusal, _) => self.count(&format!("refusal {refusal}")),
        }
        for (channel, before) in pack.channels.iter().zip(at_work) {
            match channel.working_unit() {
                Some(unit) if before != Some(unit) => self.see_start(channel, unit),
                _ => {}
            }
        }
        for file in last_numbers {
            self.see_wrap(pack, file);
        }
        answer
    }

    /// Counts each pair of the refusals that apply to a frame.
    fn see_refusals(&mut self, pack: &Pack, frame: &Frame) {
        let applying: Vec<usize> = refusals_of(pack, frame).applying().collect();
        for (place, &low) in applying.iter().enumerate() {
            for &high in &applying[place + 1..] {
                *self.pairs.entry((low, high)).or_default() += 1;
            }
        }
    }

    /// An accepted report, with the pack as it is afterwards.
    fn see_report(&mut self, pack: &Pack, channel: u64, unit: u64, answer: &[u8]) {
        self.count(&format!("result {}", answer[1]));
        self.count(&format!("check error {}", answer[2]));
        self.see_found(pack, channel, unit, answer);
        let channel = &pack.channels[channel as usize];
        let waits_again = channel.request(unit).is_some_and(|request| request.turn == Turn::Displaced);
        if waits_again {
            self.count(if channel.frozen { FREEZE } else { DISPLACEMENT });
        }
    }

    /// An accepted report of a read that failed (M-101), with its request as it stood before.
    fn see_failed_read(
        &mut self,
        pack: &Pack,
        [channel, unit]: [u64; 2],
        request: &Request,
        words: &[u64],
        answer: &[u8],
    ) {
        if request.operation != Operation::Read {
            return;
        }
        match answer[1] {
            0 if !words.is_empty() => self.count(DROPPED),
            5 | 6 if words.is_empty() => self.count(NOT_KEPT),
            5 | 6 => {
                self.count(if answer[2] == 0 { KEPT_ALONE } else { KEPT_IN_ERROR });
                if request.incomplete_words == 0 && answer[1] == 6 {
                    self.count(FIRST_INCOMPLETE);
                }
                let file = pack.file_of_unit(channel, unit).and_then(|file| pack.files[file].as_ref());
                if file.is_some_and(|file| file.full.len() > 1) {
                    self.count(KEPT_BEHIND);
                }
            }
            _ => {}
        }
    }

    /// An accepted report of a request as it stood, and where its unit's reel stood (M-106).
    fn see_reel(
        &mut self,
        asked: &Asked,
        [outcome, length]: [u64; 2],
        words: &[u64],
        result: u8,
        goes_on: bool,
    ) {
        let Asked { request, position } = asked;
        if result == 3 && position.records > 0 {
            self.count(MARK_AGAIN);
        }
        let failed = request.operation == Operation::Read && [1, 2].contains(&outcome);
        if !failed {
            return;
        }
        let short = length < NOISE_BELOW;
        let noise = short && request.noise < MOST_NOISE;
        let due = request.attempt + u64::from(!noise);
        let listed = CLEANER_PASSES.contains(&due);
        let records = position.records;
        if noise {
            self.count(NOISE);
            self.count_if(NOISE_BEFORE, listed && records >= RECORDS_TO_BACKSPACE);
            self.count_if(NOISE_LAST, due == 101);
            self.count_if(NOISE_WORDS, !words.is_empty());
            self.count_if(NOISE_STOPPED, !goes_on);
            return;
        }
        self.count_if(NOISE_PAST, short);
        self.count_if(MEASURED, !short && length != NO_LENGTH);
        self.count_if(BESIDE_RECORDS, listed && records == 2 && !position.noise_met);
        self.count_if(BESIDE_NOISE, listed && records >= RECORDS_TO_BACKSPACE && position.noise_met);
        let beside = CLEANER_PASSES.iter().any(|&pass| due + 1 == pass || due == pass + 1) || due == 102;
        self.count_if(BESIDE_ATTEMPT, beside && records >= RECORDS_TO_BACKSPACE && !position.noise_met);
        if result == 7 {
            self.count(&format!("backspace three, attempt {due}"));
            self.count_if(BACKSPACE_INCOMPLETE, outcome == 2);
            self.count_if(BACKSPACE_STOPPED, !goes_on);
        }
    }

    /// A frame that has a length, right or wrong, before it is answered.
    fn see_length(&mut self, asked: Option<&Asked>, frame: &Frame) {
        let Frame::Report { outcome, length, words, .. } = frame else {
            return;
        };
        if *length == NO_LENGTH {
            return;
        }
        let right = words.is_empty() || *length == words.len() as u64;
        let other = asked.is_some_and(|asked| asked.request.operation != Operation::Read);
        self.count_if(LENGTH_OUTCOME, *outcome != 1 && right);
        self.count_if(LENGTH_COUNT, *outcome == 1 && !right && !other);
        self.count_if(LENGTH_WRITE, *outcome == 1 && right && other);
        self.count_if(LENGTH_IDLE, *outcome == 1 && right && asked.is_none());
    }

    pub(crate) fn count_if(&mut self, name: &str, came_about: bool) {
        if came_about {
            self.count(name);
        }
    }

    /// What was found in a block that was delivered: worked-out sum and number, and those read.
    fn see_found(&mut self, pack: &Pack, channel: u64, unit: u64, answer: &[u8]) {
        let file = pack.file_of_unit(channel, unit).and_then(|file| pack.files[file].as_ref());
        let Some(file) = file.filter(|file| file.direction == Direction::Input && answer.len() == 16) else {
            return;
        };
        if file.chosen.e() == 0 {
            self.count(NO_CHECK_WORD);
        } else if answer[2] == 0 && answer[3..9] != answer[9..15] {
            self.count(NOT_CHOSEN);
        }
    }

    /// An activity that has just started. Of a priority one, which others the scan came past.
    fn see_start(&mut self, channel: &Channel, started: usize) {
        let priority = |unit: usize| channel.requests[unit].as_ref().filter(|request| request.priority);
        if priority(started).is_none() {
            return;
        }
        if (0..started).any(|lower| priority(lower).is_some()) {
            self.count(PRIORITY_PAST);
        }
        if started < channel.priority_begin {
            self.count(PRIORITY_WRAP);
        }
        let stopped = |unit: usize| priority(unit).is_some_and(|request| request.turn == Turn::Displaced);
        if (0..UNITS).any(stopped) {
            self.count(PRIORITY_THAW);
        }
    }

    /// A file whose next block number was the last one before the call.
    fn see_wrap(&mut self, pack: &Pack, file: usize) {
        if let Some(file) = pack.files[file].as_ref().filter(|file| file.number == 0) {
            let output = file.direction == Direction::Output;
            self.count(if output { WRAP_OUTPUT } else { WRAP_INPUT });
        }
    }
}

/// A request that is at work, and where the reel of its unit stands.
struct Asked {
    request: Request,
    position: Position,
}

/// The request that a report is for, if its channel works for it.
fn reported_request(pack: &Pack, frame: &Frame) -> Option<Asked> {
    match *frame {
        Frame::Report { channel, unit, .. } => {
            let channel = pack.channels.get(channel as usize)?;
            let request = channel.working_request(unit)?.clone();
            Some(Asked { request, position: channel.positions[unit as usize] })
        }
        _ => None,
    }
}

/// Whether a frame would skip a block whose read error is not told.
fn skips_a_read_error(pack: &Pack, frame: &Frame) -> bool {
    match *frame {
        Frame::Skip { file } => {
            let oldest = pack.file(file).and_then(|file| file.full.front());
            oldest.is_some_and(|block| block.read_error != 0)
        }
        _ => false,
    }
}

fn files_at_the_last_number(pack: &Pack) -> Vec<usize> {
    let at_last = |file: &usize| pack.files[*file].as_ref().is_some_and(|file| file.number == LAST_NUMBER);
    (0..FILES).filter(at_last).collect()
}

/// The bytes of an answer of this program.
fn bytes_of(answer: &[u8]) -> Vec<u8> {
    let digit = |digit: u8| (digit as char).to_digit(16).unwrap_or(0) as u8;
    answer.chunks(2).map(|pair| digit(pair[0]) << 4 | digit(pair[1])).collect()
}

#[cfg(test)]
mod tests {
    use super::*;

    fn count_of(reach: &Reach, name: &str) -> u64 {
        reach.counts.iter().find(|(known, _)| known == name).expect("a known name").1
    }

    fn play(reach: &mut Reach, lines: &[&str]) -> Vec<String> {
        let lines: Vec<Vec<u8>> = lines.iter().map(|line| line.as_bytes().to_vec()).collect();
        reach.play(&lines).into_iter().map(|answer| String::from_utf8(answer).expect("digits")).collect()
    }

    #[test]
    fn everything_is_missing_at_first() {
        let reach = Reach::default();
        assert_eq!(reach.missing().len(), reach.counts.len());
        assert_eq!(reach.counts.len(), 15 + 8 + 9 + 3 + 5 + 5 + 33 + 5 + OF_ROUTINES.len());
        assert!(!reach.missing().contains(&"refusal 14"));
        assert_eq!(reach.lines().lines().count(), reach.counts.len() + 1);
    }

    #[test]
    fn refusals_results_and_gets_are_counted() {
        let mut reach = Reach::default();
        let session = [
            "0001000400010000000000000000",
            "010000000400020001",
            "03000000",
            "0500",
            "04000000",
            "04000001",
        ];
        let answers = play(&mut reach, &session);
        assert_eq!(answers, ["00", "00", "0000", "0001", "0D", "00000000"]);
        play(&mut reach, &["", "0500", "04000000"]);
        for name in ["refusal 1", "refusal 5", "refusal 11", "refusal 13", "get 1", "result 0"] {
            assert_eq!(count_of(&reach, name), 1, "{name}");
        }
        assert_eq!(count_of(&reach, "get 0"), 0);
        assert_eq!(count_of(&reach, DISPLACEMENT), 0);
    }

    #[test]
    fn pairs_of_refusals_are_counted() {
        let mut reach = Reach::default();
        play(&mut reach, &["0001000400010000000000000000", "010000010000000000", "0600FFFFFFFFFF"]);
        assert!(reach.has_pair(3, 13) && reach.has_pair(2, 5));
        assert_eq!(reach.pairs.len(), 2);
        assert!(reach.lines().ends_with("        2  pairs of refusals at once: 2+5 3+13\n"));
    }

    #[test]
    fn displacements_and_freezes_are_told_apart() {
        let beginning =
            ["0002000400030000000000000000", "010000000000020001", "010100010000020001", "03010000"];
        let mut reach = Reach::default();
        play(&mut reach, &[&beginning[..], &["03000001", "04000101"]].concat());
        assert_eq!((count_of(&reach, DISPLACEMENT), count_of(&reach, FREEZE)), (1, 0));
        let mut reach = Reach::default();
        play(&mut reach, &[&beginning[..], &["04000101", "09", "04000101"]].concat());
        assert_eq!((count_of(&reach, DISPLACEMENT), count_of(&reach, FREEZE)), (0, 1));
    }

    #[test]
    fn a_wrap_is_counted_once_for_its_direction() {
        let mut pack = new_pack();
        let mut reach = Reach::default();
        for line in ["0002000400010000000000000000", "010000000700020002"] {
            reach.play_line(&mut pack, line.as_bytes());
        }
        pack.files[0].as_mut().expect("an open file").number = LAST_NUMBER;
        for _ in 0..2 {
            reach.play_line(&mut pack, b"060000000000010000000002");
        }
        assert_eq!((count_of(&reach, WRAP_INPUT), count_of(&reach, WRAP_OUTPUT)), (0, 1));
    }
}
