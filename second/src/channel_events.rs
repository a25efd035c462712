//! The subcommand `channel-events`: a fixed list of events for `channel`, in several phases.
//!
//! An event is a line of decimal numbers, the first its kind, and has one line of numbers for an answer.
//! W stands for the unit that the channel works for after the event, 255 for none.
//!
//! - `0 mask`: a fresh start; bit u of the mask (0 to 1,023) declares unit u. Answer: `0`.
//! - `1 unit operation priority`: an ask. Answer: `accepted W`; it is accepted (1, else 0 and nothing
//!   changes) if the unit is declared and idle and the numbers are in their ranges.
//! - `2 unit outcome length`: a report with a length in words (M-106), 65,536 for none. Answer: `refusal result
//!   W`; the refusal is 0, 11 or 12, the result that of the session program, 0 after a refusal. A length comes
//!   with outcome 1 alone, and never to a write or mark at work: where a length is refused is no part of this.
//! - `3`, `4`: freeze, thaw. Answer: `W`.
//! - `5`: prints the whole channel, 103 numbers: for each unit from 0 to 9 `declared turn operation priority
//!   attempts incomplete noise marks records met` (turn 0 idle, 1 waiting, 2 displaced, 3 working; an idle unit
//!   has 0 from its turn to its noise; noise records passed by the request, the unit's position, and whether
//!   noise was met there, M-106), then the unit at which the next scan for ordinary requests begins, then the
//!   one at which the next scan for priority requests begins (M-112), then frozen.
//!
//! Before the first event no unit is declared, both marks and all positions are 0 and the channel is not frozen.

use crate::channel::{Channel, Operation, UNITS};
use crate::channel_player::answer_event;
use crate::pack::NO_LENGTH;
use crate::random::Random;
use crate::text::numbers_of;

const SEED: u64 = 7094;

const READ: u64 = 0;
const WRITE: u64 = 1;
const MARK: u64 = 2;

const GOOD: u64 = 0;
const REDUNDANCY: u64 = 1;
const INCOMPLETE: u64 = 2;
const FILE_MARK: u64 = 3;

/// Every outcome, and two numbers that are none.
const OUTCOMES: [u64; 7] = [0, 1, 2, 3, 4, 5, 255];
/// Numbers that are no units.
const NO_UNITS: [u64; 3] = [10, 11, 255];
const ALL_UNITS: u64 = 1_023;

/// The events so far, with a channel on which they are played to choose the next ones well.
struct Script {
    events: Vec<Vec<u64>>,
    channel: Channel,
    random: Random,
}

/// A random phase: its units, its count of events, and how often it does each thing, in parts of
/// a hundred; what is not ask, freeze or thaw is a report.
struct Phase {
    mask: u64,
    length: usize,
    asks: u64,
    freezes: u64,
    thaws: u64,
    /// Of the asks, those of reads and those with priority.
    reads: u64,
    priority: u64,
    /// Of the reports, those of a redundancy and of an incomplete word.
    redundancies: u64,
    incomplete_words: u64,
    /// Of a read's redundancies, those with a length.
    lengths: u64,
}

/// The random phases: turns of ordinary requests; displacements; freezes; few requests with many
/// attempts; and good ends only.
#[rustfmt::skip]
const PHASES: [Phase; 6] = [
    Phase { mask: ALL_UNITS, length: 300, asks: 30, freezes: 0, thaws: 0, reads: 33, priority: 8, redundancies: 25, incomplete_words: 5, lengths: 50 },
    Phase { mask: 0b11_0111_0101, length: 450, asks: 25, freezes: 0, thaws: 1, reads: 50, priority: 22, redundancies: 50, incomplete_words: 6, lengths: 30 },
    Phase { mask: ALL_UNITS, length: 500, asks: 30, freezes: 8, thaws: 14, reads: 50, priority: 30, redundancies: 45, incomplete_words: 4, lengths: 30 },
    Phase { mask: 0b10_1001_0011, length: 350, asks: 60, freezes: 3, thaws: 3, reads: 33, priority: 70, redundancies: 30, incomplete_words: 5, lengths: 50 },
    Phase { mask: 0b01_1100_0001, length: 500, asks: 12, freezes: 2, thaws: 6, reads: 95, priority: 20, redundancies: 96, incomplete_words: 1, lengths: 5 },
    Phase { mask: ALL_UNITS, length: 150, asks: 60, freezes: 0, thaws: 0, reads: 33, priority: 0, redundancies: 0, incomplete_words: 0, lengths: 0 },
];

/// All events, phase by phase.
pub fn channel_events() -> Vec<Vec<u64>> {
    let mut script =
        Script { events: Vec::new(), channel: Channel::fresh([false; UNITS]), random: Random::new(SEED) };
    script.before_the_first_fresh_start();
    script.turns_of_the_marked_examples();
    script.numbers_out_of_range();
    script.every_outcome_of_every_operation();
    script.ends_at_attempt_4();
    script.last_attempts();
    script.priority_and_freeze();
    script.cleaner_passes();
    script.noise_records();
    script.positions();
    for phase in PHASES {
        script.random_phase(&phase);
    }
    script.events
}

impl Script {
    /// Adds an event and plays it; about every tenth is followed by the whole channel. A report without a
    /// length gets the number that says so.
    fn play(&mut self, event: &[u64]) {
        let mut event = event.to_vec();
        if event[0] == 2 && event.len() == 3 {
            event.push(NO_LENGTH);
        }
        answer_event(&mut self.channel, &event).expect("an event");
        self.events.push(event);
        if self.random.chance(1, 9) {
            self.events.push(vec![5]);
        }
    }

    /// Adds events written as text, a semicolon between them.
    fn play_text(&mut self, events: &str) {
        for event in events.split(';') {
            self.play(&numbers_of(event).expect("numbers"));
        }
    }

    /// The same outcome several times for a unit.
    fn fail(&mut self, unit: u64, outcome: u64, times: u64) {
        for _ in 0..times {
            self.play(&[2, unit, outcome]);
        }
    }

    fn before_the_first_fresh_start(&mut self) {
        self.play_text("5; 1 0 0 0; 2 0 0; 3; 1 9 2 1; 4; 2 255 255");
    }

    /// P9, P10 and P12.
    fn turns_of_the_marked_examples(&mut self) {
        self.play_text("0 1023; 1 2 0 0; 1 0 0 0; 1 1 0 0; 2 2 0; 2 0 0; 2 1 0; 2 1 0");
        self.play_text("0 1023; 1 1 0 0; 1 0 0 1; 2 1 1; 5; 2 0 0; 5; 2 1 0; 2 1 0");
    }

    /// Numbers that are no units, operations or priorities, and units that are not declared or busy.
    fn numbers_out_of_range(&mut self) {
        self.play_text("0 3; 1 0 0 0");
        for number in NO_UNITS {
            self.play(&[1, number, READ, 0]);
            self.play(&[2, number, GOOD]);
            self.play(&[1, 1, number, 0]);
            self.play(&[1, 1, READ, number]);
        }
        self.play_text("1 5 0 0; 1 0 1 1; 2 5 0; 2 1 0; 1 1 3 0; 1 1 0 2; 5; 1 1 2 1; 2 0 0; 2 1 0");
    }

    fn every_outcome_of_every_operation(&mut self) {
        for operation in [READ, WRITE, MARK] {
            for outcome in OUTCOMES {
                let unit = self.random.below(UNITS as u64);
                self.play(&[0, ALL_UNITS]);
                self.play(&[1, unit, operation, 0]);
                self.play(&[2, unit, outcome]);
                self.play(&[5]);
                self.play(&[2, unit, GOOD]);
            }
        }
    }

    /// Three failures, then a good end or a mark; also for a write and a mark request. Then the
    /// second incomplete word of a read and the first of a write.
    fn ends_at_attempt_4(&mut self) {
        self.play(&[0, ALL_UNITS]);
        for (operation, end) in [(READ, GOOD), (READ, FILE_MARK), (WRITE, GOOD), (MARK, GOOD)] {
            self.play(&[1, 4, operation, 0]);
            self.fail(4, REDUNDANCY, 3);
            self.play(&[2, 4, end]);
        }
        self.play_text("1 5 0 1; 2 5 1; 2 5 2; 2 5 1; 2 5 0");
        self.play_text("1 5 0 0; 2 5 2; 2 5 1; 2 5 2; 1 5 1 0; 2 5 2; 2 5 0");
    }

    /// The 101st and the 27th attempt, with each failure that can end there, and good ends there.
    fn last_attempts(&mut self) {
        self.play(&[0, ALL_UNITS]);
        for last in [REDUNDANCY, INCOMPLETE] {
            self.play(&[1, 7, READ, 0]);
            self.fail(7, REDUNDANCY, 100);
            self.play(&[5]);
            self.fail(7, last, 2);
        }
        self.play_text("1 8 0 1; 2 8 2");
        self.fail(8, REDUNDANCY, 99);
        self.play_text("5; 2 8 1; 2 8 1");
        for operation in [WRITE, MARK] {
            for last in [REDUNDANCY, GOOD] {
                self.play(&[1, 9, operation, 0]);
                self.fail(9, REDUNDANCY, 26);
                self.play(&[5]);
                self.fail(9, last, 2);
            }
        }
    }

    /// Several priority requests at once, and freezes in the middle of operations of both kinds.
    fn priority_and_freeze(&mut self) {
        self.play_text("0 1023; 1 6 0 0; 1 8 1 1; 1 3 0 1; 1 5 2 1; 2 6 2; 5; 1 0 0 1; 2 3 1; 2 3 0; 5");
        self.play_text(
            "3; 2 5 1; 5; 1 2 0 0; 3; 4; 5; 4; 2 5 0; 3; 2 8 1; 1 1 0 1; 4; 5; 2 8 0; 5; 3; 2 0 1",
        );
        self.play_text("1 9 2 1; 4; 5; 2 9 0; 5; 2 0 0; 2 1 0; 5; 2 2 0; 5; 3; 2 6 1; 1 9 0 0; 5; 4; 2 6 2");
        self.play_text("2 9 0; 5");
        // Two busy keys take turns; a third comes to its own between them.
        self.play_text(
            "0 1023; 1 0 2 1; 1 6 2 1; 2 0 0; 1 0 2 1; 5; 2 6 0; 1 6 2 1; 1 3 2 1; 2 0 0; 1 0 2 1",
        );
        self.play_text("2 3 0; 2 6 0; 5; 2 0 0; 5");
        // Each kind has its own mark: ends of both kinds in turn, with requests of both kinds waiting.
        self.play_text("1 8 2 0; 1 7 2 1; 1 2 2 0; 1 1 2 1; 2 8 0; 5; 1 8 2 0; 1 9 2 0; 2 1 0; 5; 2 7 0; 5");
        self.play_text("2 9 0; 5; 1 9 2 1; 2 2 0; 5; 2 9 0; 5; 2 8 0; 5");
        // The unit of the last priority end is looked at last, and every unit begins the scan once.
        self.play(&[0, ALL_UNITS]);
        for unit in 0..UNITS as u64 {
            let [above, below] = [(unit + 1) % 10, (unit + 9) % 10];
            self.play_text(&format!(
                "1 {unit} 2 1; 2 {unit} 0; 3; 1 {unit} 2 1; 1 {below} 2 1; 1 {above} 2 1; 4"
            ));
            self.play_text(&format!("5; 2 {above} 4; 2 {below} 1; 2 {below} 0; 2 {unit} 0"));
        }
        // A lower unit and a higher one wait while a freeze stops an operation; the lower one is next.
        self.play_text("1 2 2 1; 2 2 0; 1 6 0 1; 1 4 2 1; 1 9 2 1; 3; 2 6 1; 4; 5; 2 4 0; 2 6 0; 2 9 0");
        // A displaced read's second incomplete word, the first being before the displacement.
        self.play_text("1 4 0 0; 2 4 2; 1 7 2 1; 2 4 1; 5; 2 7 0; 5; 2 4 2");
        // A fresh start in the middle of work and of a freeze.
        self.play_text("1 1 0 0; 1 2 0 1; 3; 2 1 1; 0 6; 5; 1 2 0 0");
    }

    /// 07 at the nine attempts of the list, with three records; not with two, nor after noise; after an
    /// incomplete word; of an operation that is displaced or stopped; not of a write or mark.
    fn cleaner_passes(&mut self) {
        self.play(&[0, ALL_UNITS]);
        for records in 1..=4 {
            self.play_text("1 2 0 0; 2 2 0");
            if records > 1 {
                self.play(&[1, 2, READ, 0]);
                self.fail(2, REDUNDANCY, if records == 3 { 100 } else { 12 });
                self.play_text("5; 2 2 0");
            }
        }
        self.play_text("5; 1 2 0 0");
        self.fail(2, REDUNDANCY, 10);
        self.play_text("2 2 2; 5; 1 7 2 1");
        self.fail(2, REDUNDANCY, 1);
        self.play_text("2 7 0; 5");
        self.fail(2, REDUNDANCY, 8);
        self.play_text("1 7 2 1; 2 2 1 9; 5; 2 7 0");
        self.fail(2, REDUNDANCY, 9);
        self.play_text("3; 2 2 1 1024; 5; 4; 2 2 0");
        // A mark begins the records anew; noise at another unit does not matter, at this one it does.
        self.play_text("1 2 0 0; 2 2 3; 1 3 0 0; 2 3 1 0; 2 3 0");
        for _ in 0..3 {
            self.play_text("1 2 1 0; 2 2 4");
        }
        self.play(&[1, 2, READ, 0]);
        self.fail(2, REDUNDANCY, 11);
        self.play_text("2 2 1 2");
        self.fail(2, REDUNDANCY, 10);
        self.play_text("5; 2 2 0; 1 2 0 0");
        self.fail(2, REDUNDANCY, 12);
        self.play_text("5; 2 2 0");
        for operation in [WRITE, MARK] {
            self.play(&[1, 2, operation, 0]);
            self.fail(2, REDUNDANCY, 22);
            self.play_text("5; 2 2 0");
        }
    }

    /// A hundred noise records of each length and the next ones; at attempt 101; counts that a displaced or
    /// stopped request keeps; each request begins at none.
    fn noise_records(&mut self) {
        self.play(&[0, ALL_UNITS]);
        for (unit, length, failures) in [(0, 0, 0), (1, 2, 3), (2, 1, 100)] {
            self.play(&[1, unit, READ, 0]);
            self.fail(unit, REDUNDANCY, failures);
            for _ in 0..99 {
                self.play(&[2, unit, REDUNDANCY, length]);
            }
            self.play(&[5]);
            self.play(&[2, unit, REDUNDANCY, length]);
            self.play(&[5]);
            self.play(&[2, unit, REDUNDANCY, length]);
            self.play(&[5]);
            if failures < 100 {
                self.play(&[2, unit, REDUNDANCY, 2 - length]);
                self.play(&[2, unit, REDUNDANCY, 3]);
                self.play(&[2, unit, GOOD]);
            }
            self.play(&[1, unit, READ, 0]);
            self.play(&[2, unit, REDUNDANCY, 1]);
            self.play(&[5]);
            self.play(&[2, unit, FILE_MARK]);
        }
        // At attempt 4 noise does not move the opposite mode; an incomplete word and noise are counted apart.
        self.play_text("1 4 0 0; 2 4 1 0; 2 4 1; 2 4 1 2; 2 4 2; 2 4 1 1; 2 4 1 5; 5; 2 4 1 0; 2 4 0");
        // Displaced and stopped by noise; the scan finds the one that displaces, and no mark moves.
        self.play_text(
            "1 5 0 0; 1 8 0 1; 1 3 0 1; 2 5 1 0; 5; 2 3 1 1; 5; 3; 2 3 1 2; 5; 4; 5; 2 3 0; 2 8 0; 5",
        );
        self.play_text(
            "2 5 1 2; 3; 2 5 1 2; 4; 2 5 1 65535; 5; 2 5 3; 2 5 1 0; 2 6 1 0; 2 10 1 2; 2 255 1 65535; 5",
        );
    }

    /// What moves a position, and that a fresh start puts it to zero.
    fn positions(&mut self) {
        self.play_text("0 7; 1 0 1 0; 2 0 0; 1 0 1 0; 2 0 4; 5; 1 0 1 0; 2 0 2; 1 0 2 0; 2 0 1; 2 0 0; 5; 1 0 2 0; 2 0 4");
        self.play_text("1 1 0 0; 2 1 0; 1 1 0 1; 2 1 1; 2 1 1; 2 1 1; 2 1 0; 5; 1 1 0 0; 2 1 2; 2 1 2; 5; 1 1 0 0; 2 1 3");
        self.play_text("5; 1 2 0 0; 2 2 1 0; 2 2 0; 5; 0 7; 5; 1 2 0 0; 2 2 1 0; 0 3; 5");
    }

    /// Random events, mostly ones that are accepted.
    fn random_phase(&mut self, phase: &Phase) {
        let end = self.events.len() + phase.length;
        self.play(&[0, phase.mask]);
        while self.events.len() < end {
            let event = self.random_event(phase);
            self.play(&event);
        }
    }

    fn random_event(&mut self, phase: &Phase) -> Vec<u64> {
        let part = self.random.below(100);
        if self.random.chance(1, 300) {
            vec![0, phase.mask]
        } else if part < phase.asks {
            self.random_ask(phase)
        } else if part < phase.asks + phase.freezes {
            vec![3]
        } else if part < phase.asks + phase.freezes + phase.thaws {
            vec![4]
        } else if self.channel.working_unit().is_some() || self.random.chance(1, 10) {
            self.random_report(phase)
        } else if self.channel.frozen && self.random.chance(1, 2) {
            vec![4]
        } else {
            self.random_ask(phase)
        }
    }

    /// An ask of a unit that is free, or of any unit; now and then with a number out of its range.
    fn random_ask(&mut self, phase: &Phase) -> Vec<u64> {
        let is_free = |unit: &u64| phase.mask >> unit & 1 == 1 && self.channel.request(*unit).is_none();
        let free: Vec<u64> = (0..UNITS as u64).filter(is_free).collect();
        let any = free.is_empty() || self.random.chance(1, 4);
        let unit = if any { self.random.below(UNITS as u64) } else { self.random.pick(&free) };
        let operation =
            if self.random.chance(phase.reads, 100) { READ } else { self.random.pick(&[WRITE, MARK]) };
        let priority = u64::from(self.random.chance(phase.priority, 100));
        let mut ask = vec![1, unit, operation, priority];
        if self.random.chance(1, 25) {
            let place = self.random.between(1, 3) as usize;
            ask[place] = self.random.pick(&NO_UNITS);
        }
        ask
    }

    /// A report of the working unit; now and then of another one, or the last report again.
    fn random_report(&mut self, phase: &Phase) -> Vec<u64> {
        let last = self.events.last().filter(|event| event[0] == 2).cloned();
        let last = last.filter(|event| answer_event(&mut self.channel.clone(), event).is_some());
        if let Some(again) = last.filter(|_| self.random.chance(1, 30)) {
            return again;
        }
        match self.channel.working_unit() {
            Some(unit) if !self.random.chance(1, 20) => {
                let request = self.channel.requests[unit].clone().expect("the working request");
                let outcome = self.random_outcome(phase, request.priority);
                let may = outcome == REDUNDANCY && request.operation == Operation::Read;
                let length = if may && self.random.chance(phase.lengths, 100) {
                    self.random.pick(&[0, 1, 2, 2, 3, 100, 65_535])
                } else {
                    NO_LENGTH
                };
                vec![2, unit as u64, outcome, length]
            }
            _ if self.random.chance(1, 3) => {
                vec![2, self.random.pick(&NO_UNITS), self.random.pick(&OUTCOMES)]
            }
            _ => vec![2, self.random.below(UNITS as u64), self.random.pick(&OUTCOMES)],
        }
    }

    /// An outcome for an operation that runs; a priority one mostly ends soon, so that others go on.
    fn random_outcome(&mut self, phase: &Phase, priority: bool) -> u64 {
        let part = self.random.below(100);
        if priority && self.random.chance(2, 3) {
            GOOD
        } else if part < phase.redundancies {
            REDUNDANCY
        } else if part < phase.redundancies + phase.incomplete_words {
            INCOMPLETE
        } else if self.random.chance(1, 3) {
            self.random.pick(&OUTCOMES)
        } else {
            GOOD
        }
    }
}

#[cfg(test)]
mod tests {
    use super::*;
    use crate::channel::{Booked, Turn, CLEANER_PASSES};
    use crate::channel_player::{answer_events, NO_UNIT};
    use crate::text::lines_of;
    use std::collections::{BTreeMap, BTreeSet};

    /// What came about while the events were played.
    #[derive(Default)]
    struct Seen {
        counts: BTreeMap<&'static str, u64>,
        /// Operation and outcome of each report to the working unit.
        outcomes: BTreeSet<(u64, u64)>,
        results: BTreeSet<u64>,
        /// The attempts at which a result was 07.
        passes: BTreeSet<u64>,
        /// Numbers that are no units, in asks (1) and in reports (2).
        no_units: BTreeSet<(u64, u64)>,
    }

    impl Seen {
        fn count(&mut self, what: &'static str, came_about: bool) {
            *self.counts.entry(what).or_default() += u64::from(came_about);
        }

        fn see(&mut self, before: &Channel, event: &[u64], answer: &[u64], after: &Channel) {
            if matches!(event[0], 1 | 2) && event[1] > 9 {
                self.no_units.insert((event[0], event[1]));
            }
            match *event {
                [0, mask] => self.see_fresh(before, mask),
                [1, unit, operation, priority] => self.see_ask(before, unit, operation, priority, answer[0]),
                [2, unit, outcome, length] => {
                    self.see_report(before, unit, outcome, answer, after);
                    self.see_reel(before, unit, [outcome, length], answer);
                }
                [3] => self.count("freeze of a frozen channel", before.frozen),
                [4] => self.see_thaw(before, after),
                _ => {}
            }
            self.see_waiting(after);
            self.see_started(before, after);
        }

        fn see_fresh(&mut self, before: &Channel, mask: u64) {
            self.count("fresh with requests", before.requests.iter().any(Option::is_some));
            self.count("fresh while frozen", before.frozen);
            self.count("fresh without some units", mask != ALL_UNITS);
        }

        fn see_ask(&mut self, before: &Channel, unit: u64, operation: u64, priority: u64, accepted: u64) {
            self.count("ask accepted", accepted == 1);
            self.count("ask of a wrong operation", operation > 2);
            self.count("ask of a wrong priority", priority > 1);
            self.count("ask of an undeclared unit", unit <= 9 && !before.declared[unit as usize]);
            self.count("ask of a busy unit", before.request(unit).is_some());
            self.count("ask accepted in a freeze", accepted == 1 && before.frozen);
        }

        fn see_report(&mut self, before: &Channel, unit: u64, outcome: u64, answer: &[u64], after: &Channel) {
            self.count("report refused 11", answer[0] == 11);
            self.count("report refused 12", answer[0] == 12);
            self.count("report of an undeclared unit", unit <= 9 && !before.declared[unit as usize]);
            let Some(request) = before.working_request(unit) else {
                return;
            };
            let operation = request.operation;
            self.outcomes.insert((operation.number(), outcome));
            if answer[0] != 0 {
                return;
            }
            let result = answer[1];
            self.results.insert(result);
            let repeated =
                [Booked::Repeated, Booked::BackspaceThree].iter().any(|kind| result == kind.number());
            let displaced = repeated && !before.frozen && answer[2] != unit;
            self.count("displacement", displaced);
            self.count(
                "displacement of one with an incomplete word",
                displaced && request.incomplete_words == 1,
            );
            self.count(
                "ordinary operation stopped by a freeze",
                repeated && before.frozen && !request.priority,
            );
            self.count(
                "priority operation stopped by a freeze",
                repeated && before.frozen && request.priority,
            );
            self.count("end in a freeze", !repeated && before.frozen && answer[2] == NO_UNIT);
            let lower_priority =
                (0..unit).any(|lower| after.request(lower).is_some_and(|other| other.priority));
            self.count(
                "priority operation not displaced",
                repeated && !before.frozen && request.priority && lower_priority,
            );
            let read = operation == Operation::Read;
            let attempt = request.attempt;
            self.count("good read at attempt 4", read && attempt == 4 && result == 2);
            self.count("file mark at attempt 4", read && attempt == 4 && result == 3);
            self.count("good mark at attempt 4", operation == Operation::Mark && attempt == 4 && result == 1);
            self.count("second incomplete word", read && request.incomplete_words == 1 && result == 6);
            self.count("101st read redundancy", read && attempt == 101 && result == 5);
            self.count(
                "first incomplete word at attempt 101",
                read && attempt == 101 && request.incomplete_words == 0 && result == 6,
            );
            self.count(
                "27th write redundancy",
                operation == Operation::Write && attempt == 27 && result == 5,
            );
            self.count("27th mark redundancy", operation == Operation::Mark && attempt == 27 && result == 5);
        }

        /// Noise records, and results 07 and what is beside them.
        fn see_reel(&mut self, before: &Channel, unit: u64, [outcome, length]: [u64; 2], answer: &[u64]) {
            let Some(request) = before.working_request(unit).filter(|_| answer[0] == 0) else {
                return;
            };
            let position = before.positions[unit as usize];
            let read = request.operation == Operation::Read;
            let passed = read && outcome == REDUNDANCY && length < 3 && request.noise < 100;
            self.count("noise record passed", passed);
            self.count("hundredth noise record", passed && request.noise == 99);
            self.count("noise record past the hundred", read && length < 3 && request.noise == 100);
            self.count("noise record at attempt 101", passed && request.attempt == 101);
            self.count("permanent by noise", read && length < 3 && answer[1] == 5);
            self.count("displaced by noise", passed && !before.frozen && answer[2] != unit);
            self.count("stopped after noise", passed && before.frozen);
            self.count("length of three or more", (3..NO_LENGTH).contains(&length));
            let due = CLEANER_PASSES.contains(&(request.attempt + 1)) && !passed;
            let failed = read && due && [REDUNDANCY, INCOMPLETE].contains(&outcome) && answer[1] != 6;
            self.count("listed attempt with two records", failed && position.records == 2);
            self.count("listed attempt after noise", failed && position.records > 2 && position.noise_met);
            self.count("07 after an incomplete word", answer[1] == 7 && outcome == INCOMPLETE);
            self.count("07 displaced", answer[1] == 7 && !before.frozen && answer[2] != unit);
            self.count("07 stopped", answer[1] == 7 && before.frozen);
            if answer[1] == 7 {
                self.passes.insert(request.attempt + 1);
            }
            let other = request.operation != Operation::Read;
            self.count("listed attempt of a write or mark", other && due && position.records > 2);
        }

        fn see_thaw(&mut self, before: &Channel, after: &Channel) {
            let started = before.working_unit().is_none().then(|| after.working_unit()).flatten();
            let of_several = before.requests.iter().flatten().count() > 1;
            self.count("thaw that starts one of several", started.is_some() && of_several);
            self.count("thaw of a thawed channel", !before.frozen);
            let stopped_priority = before.requests.iter().position(|request| {
                request.as_ref().is_some_and(|request| request.priority && request.turn == Turn::Displaced)
            });
            let [Some(started), Some(stopped)] = [started, stopped_priority] else {
                return;
            };
            self.count("lower priority first after a thaw", started < stopped);
            self.count("higher priority first after a thaw", started > stopped);
        }

        fn see_waiting(&mut self, after: &Channel) {
            let waiting = after
                .requests
                .iter()
                .flatten()
                .filter(|request| request.priority && request.turn != Turn::Working);
            let waiting = waiting.count();
            self.count("two priority requests waiting", waiting >= 2);
            self.count("four priority requests waiting", waiting >= 4);
        }

        fn see_started(&mut self, before: &Channel, after: &Channel) {
            let Some(unit) = after.working_unit() else {
                return;
            };
            let now = after.requests[unit].as_ref().expect("the working request");
            let then = before.requests[unit].as_ref();
            let was_displaced = then.is_some_and(|request| request.turn == Turn::Displaced);
            let same_counts = then.is_some_and(|request| {
                (request.attempt, request.incomplete_words) == (now.attempt, now.incomplete_words)
            });
            self.count("resumption with counts kept", was_displaced && same_counts && now.attempt > 1);
            self.count("resumption with counts lost", was_displaced && !same_counts);
            self.count("resumption with an incomplete word", was_displaced && now.incomplete_words == 1);
            let moved = before.scan_begin != after.scan_begin;
            let others = after.requests.iter().flatten().count() > 1;
            self.count(
                "scan past a lower waiting unit",
                moved && others && !now.priority && unit >= after.scan_begin,
            );
            self.count("scan that wraps", moved && !now.priority && unit < after.scan_begin);
            if now.priority && then.is_none_or(|request| request.turn != Turn::Working) {
                self.see_priority_start(after, unit);
            }
        }

        fn see_priority_start(&mut self, after: &Channel, unit: usize) {
            let waits = |other: usize| {
                let request = after.requests[other].as_ref();
                other != unit && request.is_some_and(|request| request.priority)
            };
            self.count("priority scan past a lower waiting unit", (0..unit).any(waits));
            self.count("priority scan past a higher waiting unit", (unit + 1..UNITS).any(waits));
            self.count("priority scan that wraps", unit < after.priority_begin);
            self.count(
                "priority scan that comes to the last unit",
                (unit + 1) % UNITS == after.priority_begin,
            );
            self.count("priority mark apart from the other", after.priority_begin != after.scan_begin);
        }
    }

    fn seen() -> Seen {
        let mut seen = Seen::default();
        let mut channel = Channel::fresh([false; UNITS]);
        let mut last_report_answered = Vec::new();
        for event in channel_events() {
            let before = channel.clone();
            let answer = answer_event(&mut channel, &event).expect("an event");
            seen.count("report repeated after its answer", event == last_report_answered && answer[0] == 11);
            if event[0] != 5 {
                let answered = event[0] == 2 && answer[0] == 0 && ![0, 7].contains(&answer[1]);
                last_report_answered = if answered { event.clone() } else { Vec::new() };
            }
            seen.see(&before, &event, &answer, &channel);
        }
        seen
    }

    #[test]
    fn the_list_keeps_its_size() {
        let events = channel_events();
        assert!((3_500..=4_500).contains(&events.len()), "{} events", events.len());
        let whole = events.iter().filter(|event| event[0] == 5).count();
        assert!((300..=600).contains(&whole), "{whole}");
        let input = lines_of(&events);
        assert!(input.len() < 60_000);
        assert!(answer_events(&input).expect("events").len() < 200_000);
    }

    #[test]
    fn everything_comes_about() {
        let seen = seen();
        for (what, count) in &seen.counts {
            if *what != "resumption with counts lost" {
                assert!(*count > 0, "never came about: {what}");
            }
        }
        assert_eq!(seen.counts["resumption with counts lost"], 0);
        for often in [
            "displacement",
            "resumption with counts kept",
            "two priority requests waiting",
            "priority scan past a lower waiting unit",
            "priority scan that wraps",
        ] {
            assert!(seen.counts[often] >= 20, "{often}: {}", seen.counts[often]);
        }
        assert!(seen.results.iter().copied().eq(0..=7));
        assert!(seen.passes.iter().copied().eq(CLEANER_PASSES));
        assert!(NO_UNITS.iter().all(|&unit| seen.no_units.contains(&(1, unit))));
        assert!(NO_UNITS.iter().all(|&unit| seen.no_units.contains(&(2, unit))));
        for operation in [READ, WRITE, MARK] {
            for outcome in OUTCOMES {
                assert!(seen.outcomes.contains(&(operation, outcome)), "{operation} {outcome}");
            }
        }
    }

    #[test]
    fn random_phases_reach_deep_attempts() {
        let mut channel = Channel::fresh([false; UNITS]);
        let mut deepest = 0;
        for event in channel_events().iter().skip(1_000) {
            answer_event(&mut channel, event).expect("an event");
            deepest =
                channel.requests.iter().flatten().map(|request| request.attempt).fold(deepest, u64::max);
        }
        assert!(deepest >= 40, "{deepest}");
    }
}
