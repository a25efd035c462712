//! One channel with its ten units (document 01, "Requests, reports, turns" and "Outcomes and
//! attempts").

use crate::routine::Routine;

/// "Units 0 to 9 on each".
pub const UNITS: usize = 10;
/// "each held at 32,767" (document 02, M-106).
pub const LAST_COUNT: u64 = 32_767;
/// "At most 100 are passed in one operation".
pub const MOST_NOISE: u64 = 100;
/// "A length under three is a noise record".
pub const NOISE_BELOW: u64 = 3;
/// "when read attempt 12, 22 and so on to 92 is due".
pub const CLEANER_PASSES: [u64; 9] = [12, 22, 32, 42, 52, 62, 72, 82, 92];
/// "three records or more stand since the mark".
pub const RECORDS_TO_BACKSPACE: u64 = 3;

/// What a request asks of its unit.
#[derive(Clone, Copy, Debug, PartialEq, Eq)]
pub enum Operation {
    Read,
    Write,
    Mark,
}

/// "Numbers: 0 good, 1 redundancy, 2 incomplete word, 3 file mark, 4 end of medium."
#[derive(Clone, Copy, Debug, PartialEq, Eq)]
pub enum Outcome {
    Good,
    Redundancy,
    IncompleteWord,
    FileMark,
    EndOfMedium,
}

/// "results are 00 repeated, 01 good, 02 good in opposite mode, 03 mark, 04 end of medium,
/// 05 permanent redundancy, 06 permanent incomplete word"; M-106: "07 in place of 00: backspace three".
#[derive(Clone, Copy, Debug, PartialEq, Eq)]
pub enum Booked {
    Repeated,
    Good,
    GoodInOppositeMode,
    Mark,
    EndOfMedium,
    PermanentRedundancy,
    PermanentIncompleteWord,
    BackspaceThree,
}

/// Where an unanswered request stands in the order of turns.
#[derive(Clone, Copy, Debug, PartialEq, Eq)]
pub enum Turn {
    /// Accepted and never started.
    Waiting,
    /// Started, incomplete, and waiting again because of a priority request or a freeze.
    Displaced,
    /// The channel works for it.
    Working,
}

/// An unanswered request of a unit.
#[derive(Clone, Debug, PartialEq, Eq)]
pub struct Request {
    pub operation: Operation,
    pub priority: bool,
    pub turn: Turn,
    /// The number of the attempt that is at work or due.
    pub attempt: u64,
    pub incomplete_words: u64,
    /// The noise records that it has passed over.
    pub noise: u64,
}

/// Where the reel of a unit stands (M-106): "file marks passed, and records since the last mark", and whether
/// a noise record was met there since the fresh start.
#[derive(Clone, Copy, Debug, Default, PartialEq, Eq)]
pub struct Position {
    pub marks: u64,
    pub records: u64,
    pub noise_met: bool,
}

/// A channel: "A unit holds one unanswered request at most; requests are not stacked."
#[derive(Clone, Debug, PartialEq, Eq)]
pub struct Channel {
    pub declared: [bool; UNITS],
    pub requests: [Option<Request>; UNITS],
    /// The special routine that a unit's request names, and the one that waits at a unit to be entered
    /// (document 02, M-110).
    pub named: [Option<Routine>; UNITS],
    pub waiting: [Option<Routine>; UNITS],
    pub positions: [Position; UNITS],
    /// The unit at which the next scan for ordinary requests begins.
    pub scan_begin: usize,
    /// The same for priority requests, which are "scanned as ordinary ones are, with a mark of their own
    /// on each channel" (document 02, M-112).
    pub priority_begin: usize,
    pub frozen: bool,
}

impl Operation {
    /// "operation(0 read, 1 write, 2 mark)".
    pub fn of(number: u64) -> Option<Operation> {
        match number {
            0 => Some(Operation::Read),
            1 => Some(Operation::Write),
            2 => Some(Operation::Mark),
            _ => None,
        }
    }

    pub fn number(self) -> u64 {
        self as u64
    }

    /// The column "Allowed" of the table.
    pub fn allows(self, outcome: Outcome) -> bool {
        use Outcome::*;
        match self {
            Operation::Read => matches!(outcome, Good | Redundancy | IncompleteWord | FileMark),
            Operation::Write => matches!(outcome, Good | Redundancy | IncompleteWord | EndOfMedium),
            Operation::Mark => matches!(outcome, Good | Redundancy | EndOfMedium),
        }
    }

    /// The attempt at which a redundancy is permanent, from the column "Permanent after".
    pub fn last_attempt(self) -> u64 {
        match self {
            Operation::Read => 101,
            Operation::Write | Operation::Mark => 27,
        }
    }
}

impl Outcome {
    pub fn of(number: u64) -> Option<Outcome> {
        match number {
            0 => Some(Outcome::Good),
            1 => Some(Outcome::Redundancy),
            2 => Some(Outcome::IncompleteWord),
            3 => Some(Outcome::FileMark),
            4 => Some(Outcome::EndOfMedium),
            _ => None,
        }
    }

    /// A report of this outcome may carry words, if it is a read's (M-101).
    pub fn may_carry_words(self) -> bool {
        matches!(self, Outcome::Good | Outcome::Redundancy | Outcome::IncompleteWord)
    }
}

impl Booked {
    pub fn number(self) -> u64 {
        self as u64
    }
}

impl Request {
    /// Each request counts from attempt 1 with no incomplete words.
    pub fn new(operation: Operation, priority: bool) -> Request {
        Request { operation, priority, turn: Turn::Waiting, attempt: 1, incomplete_words: 0, noise: 0 }
    }

    /// What a report of an allowed outcome, with a length or without, means for this request as it stands.
    pub fn result_of(&self, outcome: Outcome, length: Option<u64>, position: Position) -> Booked {
        match outcome {
            _ if self.passes_noise(outcome, length) => Booked::Repeated,
            Outcome::Good if self.in_opposite_mode() => Booked::GoodInOppositeMode,
            Outcome::Good => Booked::Good,
            Outcome::FileMark => Booked::Mark,
            Outcome::EndOfMedium => Booked::EndOfMedium,
            Outcome::Redundancy if self.redundancy_is_permanent() => Booked::PermanentRedundancy,
            Outcome::IncompleteWord if self.incomplete_word_is_permanent() => Booked::PermanentIncompleteWord,
            Outcome::Redundancy | Outcome::IncompleteWord if self.backspaces(position) => {
                Booked::BackspaceThree
            }
            // "Other failures repeat the operation."
            Outcome::Redundancy | Outcome::IncompleteWord => Booked::Repeated,
        }
    }

    /// "A length under three is a noise record, passed over with no attempt used; without a length there is
    /// none. At most 100 are passed in one operation, the next is an ordinary redundancy".
    pub fn passes_noise(&self, outcome: Outcome, length: Option<u64>) -> bool {
        let noise_record = length.is_some_and(|length| length < NOISE_BELOW);
        let failed_read = self.operation == Operation::Read && outcome == Outcome::Redundancy;
        failed_read && noise_record && self.noise < MOST_NOISE
    }

    /// "when read attempt 12, 22 and so on to 92 is due, three records or more stand since the mark and no
    /// noise record was met on that unit since the fresh start": after a failure that uses an attempt.
    fn backspaces(&self, position: Position) -> bool {
        let due = self.operation == Operation::Read && CLEANER_PASSES.contains(&(self.attempt + 1));
        due && position.records >= RECORDS_TO_BACKSPACE && !position.noise_met
    }

    /// "Read attempt 4 is in the opposite mode; if it is good the answer says so."
    fn in_opposite_mode(&self) -> bool {
        self.operation == Operation::Read && self.attempt == 4
    }

    /// "a redundancy ... at attempt 101" for a read, "redundancy at attempt 27" for the others.
    fn redundancy_is_permanent(&self) -> bool {
        self.attempt == self.operation.last_attempt()
    }

    /// For a read "a redundancy or incomplete word at attempt 101, or the second incomplete word";
    /// for a write "the first incomplete word".
    fn incomplete_word_is_permanent(&self) -> bool {
        let first_is_allowed = self.operation == Operation::Read;
        !first_is_allowed || self.incomplete_words == 1 || self.attempt == self.operation.last_attempt()
    }
}

impl Position {
    /// "Good reads, marks read, and writes and marks ended 01 or 04 move it." Nothing else does.
    fn moved(self, operation: Operation, result: Booked) -> Position {
        match (operation, result) {
            (Operation::Read, Booked::Good | Booked::GoodInOppositeMode)
            | (Operation::Write, Booked::Good | Booked::EndOfMedium) => {
                Position { records: one_more(self.records), ..self }
            }
            (Operation::Read, Booked::Mark) | (Operation::Mark, Booked::Good | Booked::EndOfMedium) => {
                Position { marks: one_more(self.marks), records: 0, ..self }
            }
            _ => self,
        }
    }
}

/// "each held at 32,767".
fn one_more(count: u64) -> u64 {
    (count + 1).min(LAST_COUNT)
}

impl Channel {
    /// A channel as a fresh start leaves it: it "drops all requests, thaws and resets the scans", every
    /// unit's position is zero, and no routine waits.
    pub fn fresh(declared: [bool; UNITS]) -> Channel {
        Channel {
            declared,
            requests: Default::default(),
            named: Default::default(),
            waiting: Default::default(),
            positions: Default::default(),
            scan_begin: 0,
            priority_begin: 0,
            frozen: false,
        }
    }

    /// The unanswered request of a unit; `unit` may be any number.
    pub fn request(&self, unit: u64) -> Option<&Request> {
        self.requests.get(usize::try_from(unit).ok()?)?.as_ref()
    }

    /// The request of a unit for which the channel works; `unit` may be any number.
    pub fn working_request(&self, unit: u64) -> Option<&Request> {
        self.request(unit).filter(|request| request.turn == Turn::Working)
    }

    /// The unit that the channel works for.
    pub fn working_unit(&self) -> Option<usize> {
        (0..UNITS).find(|&unit| self.working_request(unit as u64).is_some())
    }

    /// The routine that waits at a unit; `unit` may be any number.
    pub fn waiting_routine(&self, unit: u64) -> Option<&Routine> {
        self.waiting.get(usize::try_from(unit).ok()?)?.as_ref()
    }

    /// Takes a request of a declared unit that has none, and starts it if the channel is idle.
    pub fn ask(&mut self, unit: usize, operation: Operation, priority: bool) {
        self.ask_naming(unit, operation, priority, None);
    }

    /// The same of a request that may name a routine.
    pub fn ask_naming(&mut self, unit: usize, operation: Operation, priority: bool, names: Option<Routine>) {
        self.requests[unit] = Some(Request::new(operation, priority));
        self.named[unit] = names;
        self.start_if_idle();
    }

    /// Books a report: "Each activity ends with one report of channel, unit and outcome."
    /// 11: "the channel is not working for that unit"; 12: "outcome not allowed for the operation".
    pub fn report(&mut self, unit: u64, outcome: u64) -> Result<Booked, u64> {
        self.report_length(unit, outcome, None)
    }

    /// The same of a report that may carry a length (M-106), which is judged elsewhere.
    pub fn report_length(&mut self, unit: u64, outcome: u64, length: Option<u64>) -> Result<Booked, u64> {
        let request = self.working_request(unit).ok_or(11_u64)?;
        let outcome =
            Outcome::of(outcome).filter(|&outcome| request.operation.allows(outcome)).ok_or(12_u64)?;
        let (operation, noise) = (request.operation, request.passes_noise(outcome, length));
        let unit = unit as usize;
        let booked = request.result_of(outcome, length, self.positions[unit]);
        self.positions[unit] = self.positions[unit].moved(operation, booked);
        if noise {
            self.pass_noise(unit);
            self.start(Some(unit));
        } else if matches!(booked, Booked::Repeated | Booked::BackspaceThree) {
            self.repeat(unit, outcome);
            self.start(Some(unit));
        } else {
            self.end(unit);
            self.start(None);
        }
        Ok(booked)
    }

    /// "Freeze stops starts".
    pub fn freeze(&mut self) {
        self.frozen = true;
    }

    /// "Thaw lets starts happen."
    pub fn thaw(&mut self) {
        self.frozen = false;
        self.start_if_idle();
    }

    /// "After every accepted call, a channel that is idle and not frozen starts an activity, by the
    /// order below, if any request waits."
    pub fn start_if_idle(&mut self) {
        if self.working_unit().is_none() {
            self.start(None);
        }
    }

    /// A failure that is not permanent: the request is incomplete, with one attempt more.
    fn repeat(&mut self, unit: usize, outcome: Outcome) {
        if let Some(request) = &mut self.requests[unit] {
            request.attempt += 1;
            request.incomplete_words += u64::from(outcome == Outcome::IncompleteWord);
            request.turn = Turn::Displaced;
        }
    }

    /// A noise record is passed over: the request is incomplete, at the same attempt.
    fn pass_noise(&mut self, unit: usize) {
        self.positions[unit].noise_met = true;
        if let Some(request) = &mut self.requests[unit] {
            request.noise += 1;
            request.turn = Turn::Displaced;
        }
    }

    /// The request is answered: "The scan for ordinary ones begins one unit above that of the last
    /// ordinary operation to end on the channel, wraps after 9"; the scan for priority ones likewise. The
    /// routine that it names "becomes due when the request is answered".
    fn end(&mut self, unit: usize) {
        let above = (unit + 1) % UNITS;
        if let Some(due) = self.named[unit].take() {
            self.waiting[unit] = Some(due);
        }
        match self.requests[unit].take() {
            Some(ended) if ended.priority => self.priority_begin = above,
            Some(_) => self.scan_begin = above,
            None => {}
        }
    }

    /// Starts the next activity of a channel that is idle; `incomplete` is the unit whose
    /// operation has just failed and is to be repeated. In a freeze it "waits like a displaced one".
    fn start(&mut self, incomplete: Option<usize>) {
        if self.frozen {
            return;
        }
        let Some(unit) = self.next_unit(incomplete) else {
            return;
        };
        if let Some(request) = &mut self.requests[unit] {
            request.turn = Turn::Working;
        }
    }

    /// "a waiting priority request starts, displacing an incomplete ordinary one; else the
    /// incomplete operation continues; else a scan starts a waiting or displaced one".
    fn next_unit(&self, incomplete: Option<usize>) -> Option<usize> {
        // "League: a priority operation is not displaced": an incomplete one goes first.
        let incomplete_priority = incomplete.filter(|&unit| self.has_priority_request(unit));
        let priority = || scan(self.priority_begin, |unit| self.has_priority_request(unit));
        // No priority request is left where the scan for ordinary ones begins.
        let ordinary = || scan(self.scan_begin, |unit| self.requests[unit].is_some());
        incomplete_priority.or_else(priority).or(incomplete).or_else(ordinary)
    }

    fn has_priority_request(&self, unit: usize) -> bool {
        self.requests[unit].as_ref().is_some_and(|request| request.priority)
    }
}

/// A scan "wraps after 9, and comes to that unit last": the first of ten units from its beginning that
/// has what is looked for.
fn scan(begin: usize, has: impl Fn(usize) -> bool) -> Option<usize> {
    (0..UNITS).map(|step| (begin + step) % UNITS).find(|&unit| has(unit))
}

#[cfg(test)]
mod tests {
    use super::*;
    use Operation::{Mark, Read, Write};

    const GOOD: u64 = 0;
    const REDUNDANCY: u64 = 1;
    const INCOMPLETE: u64 = 2;
    const FILE_MARK: u64 = 3;
    const END_OF_MEDIUM: u64 = 4;

    /// A fresh channel with all units.
    fn fresh() -> Channel {
        Channel::fresh([true; UNITS])
    }

    /// A fresh channel that works for unit 0, with `failures` redundancies behind it.
    fn after_redundancies(operation: Operation, failures: u64) -> Channel {
        let mut channel = fresh();
        channel.ask(0, operation, false);
        for _ in 0..failures {
            assert_eq!(channel.report(0, REDUNDANCY), Ok(Booked::Repeated));
        }
        channel
    }

    fn working(channel: &Channel) -> u64 {
        channel.working_unit().expect("a working unit") as u64
    }

    /// Ends the working operation well, and gives its unit.
    fn end_next(channel: &mut Channel) -> u64 {
        let unit = working(channel);
        assert!(matches!(channel.report(unit, GOOD), Ok(Booked::Good | Booked::GoodInOppositeMode)));
        unit
    }

    fn turn(channel: &Channel, unit: u64) -> Turn {
        channel.request(unit).expect("a request").turn
    }

    fn counts(channel: &Channel, unit: u64) -> (u64, u64) {
        let request = channel.request(unit).expect("a request");
        (request.attempt, request.incomplete_words)
    }

    #[test]
    fn p7_100_read_redundancies_repeat_and_the_101st_is_permanent() {
        let mut channel = after_redundancies(Read, 100);
        assert_eq!(channel.report(0, REDUNDANCY), Ok(Booked::PermanentRedundancy));
        assert_eq!(channel.request(0), None);
    }

    #[test]
    fn p8_26_write_redundancies_repeat_and_the_27th_is_permanent() {
        for operation in [Write, Mark] {
            let mut channel = after_redundancies(operation, 26);
            assert_eq!(channel.report(0, REDUNDANCY), Ok(Booked::PermanentRedundancy));
        }
    }

    #[test]
    fn p9_ordinary_2_0_1_asked_in_that_order_run_in_that_order() {
        let mut channel = fresh();
        for unit in [2, 0, 1] {
            channel.ask(unit, Read, false);
        }
        let order = [end_next(&mut channel), end_next(&mut channel), end_next(&mut channel)];
        assert_eq!(order, [2, 0, 1]);
        assert_eq!(channel.working_unit(), None);
    }

    #[test]
    fn p10_a_priority_request_displaces_and_the_displaced_one_makes_attempt_2() {
        let mut channel = fresh();
        channel.ask(1, Read, false);
        channel.ask(0, Read, true);
        assert_eq!(channel.working_unit(), Some(1));
        assert_eq!(channel.report(1, REDUNDANCY), Ok(Booked::Repeated));
        assert_eq!(channel.working_unit(), Some(0));
        assert_eq!(turn(&channel, 1), Turn::Displaced);
        assert_eq!(channel.report(0, GOOD), Ok(Booked::Good));
        assert_eq!(channel.working_unit(), Some(1));
        assert_eq!(counts(&channel, 1), (2, 0));
    }

    #[test]
    fn p12_a_report_repeated_after_its_answer_is_11() {
        let mut channel = after_redundancies(Read, 0);
        assert_eq!(channel.report(0, GOOD), Ok(Booked::Good));
        assert_eq!(channel.report(0, GOOD), Err(11));
    }

    /// The whole table "Allowed"; 12 changes nothing.
    #[test]
    fn outcomes_allowed_for_each_operation() {
        for (operation, allowed) in
            [(Read, [0, 1, 2, 3].as_slice()), (Write, &[0, 1, 2, 4]), (Mark, &[0, 1, 4])]
        {
            for outcome in [0, 1, 2, 3, 4, 5, 255, u64::MAX] {
                let mut channel = after_redundancies(operation, 0);
                let before = channel.clone();
                let refused = channel.report(0, outcome) == Err(12);
                assert_eq!(refused, !allowed.contains(&outcome), "{operation:?} {outcome}");
                assert_eq!(refused, channel == before);
            }
        }
    }

    #[test]
    fn reports_of_any_other_unit_are_11() {
        let mut channel = after_redundancies(Read, 0);
        channel.ask(5, Write, false);
        let before = channel.clone();
        for unit in [1, 5, 9, 10, 11, 255, u64::MAX] {
            assert_eq!(channel.report(unit, 77), Err(11));
        }
        assert_eq!(channel, before);
    }

    #[test]
    fn e1_every_failure_uses_an_attempt_and_the_second_incomplete_word_is_permanent() {
        let mut channel = after_redundancies(Read, 1);
        assert_eq!(channel.report(0, INCOMPLETE), Ok(Booked::Repeated));
        assert_eq!(channel.report(0, REDUNDANCY), Ok(Booked::Repeated));
        assert_eq!(counts(&channel, 0), (4, 1));
        assert_eq!(channel.report(0, INCOMPLETE), Ok(Booked::PermanentIncompleteWord));
    }

    #[test]
    fn e1_the_result_at_attempt_101_names_the_last_outcome() {
        let mut channel = after_redundancies(Read, 100);
        assert_eq!(channel.report(0, INCOMPLETE), Ok(Booked::PermanentIncompleteWord));
        let mut channel = after_redundancies(Read, 99);
        assert_eq!(channel.report(0, INCOMPLETE), Ok(Booked::Repeated));
        assert_eq!(channel.report(0, REDUNDANCY), Ok(Booked::PermanentRedundancy));
    }

    #[test]
    fn the_first_incomplete_word_of_a_write_is_permanent() {
        let mut channel = after_redundancies(Write, 0);
        assert_eq!(channel.report(0, INCOMPLETE), Ok(Booked::PermanentIncompleteWord));
    }

    #[test]
    fn e2_only_a_good_read_at_attempt_4_is_in_opposite_mode() {
        for attempt in [1, 2, 3, 4, 5, 6] {
            let mut channel = after_redundancies(Read, attempt - 1);
            let expected = if attempt == 4 { Booked::GoodInOppositeMode } else { Booked::Good };
            assert_eq!(channel.report(0, GOOD), Ok(expected));
        }
        assert_eq!(after_redundancies(Read, 3).report(0, FILE_MARK), Ok(Booked::Mark));
        assert_eq!(after_redundancies(Write, 3).report(0, GOOD), Ok(Booked::Good));
        assert_eq!(after_redundancies(Mark, 3).report(0, GOOD), Ok(Booked::Good));
        let mut channel = after_redundancies(Read, 2);
        assert_eq!(channel.report(0, INCOMPLETE), Ok(Booked::Repeated));
        assert_eq!(channel.report(0, GOOD), Ok(Booked::GoodInOppositeMode));
    }

    #[test]
    fn e6_the_next_request_counts_from_attempt_1() {
        let mut channel = after_redundancies(Read, 9);
        channel.report(0, INCOMPLETE).expect("booked");
        assert_eq!(end_next(&mut channel), 0);
        channel.ask(0, Read, false);
        assert_eq!(counts(&channel, 0), (1, 0));
    }

    #[test]
    fn end_of_medium_ends_writes_and_marks() {
        assert_eq!(after_redundancies(Write, 0).report(0, END_OF_MEDIUM), Ok(Booked::EndOfMedium));
        assert_eq!(after_redundancies(Mark, 0).report(0, END_OF_MEDIUM), Ok(Booked::EndOfMedium));
    }

    #[test]
    fn d1_the_scan_begins_above_the_last_ordinary_end_wraps_and_comes_to_it_last() {
        let mut channel = fresh();
        for unit in [5, 3, 7, 9, 5] {
            if channel.request(unit as u64).is_none() {
                channel.ask(unit, Write, false);
            }
        }
        assert_eq!(end_next(&mut channel), 5);
        channel.ask(5, Write, false);
        let order: Vec<u64> = (0..4).map(|_| end_next(&mut channel)).collect();
        assert_eq!(order, [7, 9, 3, 5]);
        assert_eq!(channel.scan_begin, 6);
    }

    #[test]
    fn d1_every_answer_of_an_ordinary_request_moves_the_scan_and_a_priority_one_does_not() {
        let mut channel = fresh();
        channel.ask(9, Write, false);
        assert_eq!(channel.report(9, INCOMPLETE), Ok(Booked::PermanentIncompleteWord));
        assert_eq!(channel.scan_begin, 0);
        channel.ask(4, Read, false);
        channel.freeze();
        assert_eq!(channel.report(4, FILE_MARK), Ok(Booked::Mark));
        assert_eq!(channel.scan_begin, 5);
        channel.thaw();
        channel.ask(8, Read, true);
        assert_eq!(channel.report(8, REDUNDANCY), Ok(Booked::Repeated));
        assert_eq!(channel.report(8, GOOD), Ok(Booked::Good));
        assert_eq!(channel.scan_begin, 5);
    }

    #[test]
    fn d1_a_displaced_operation_has_not_ended() {
        let mut channel = fresh();
        channel.ask(6, Read, false);
        channel.ask(2, Read, false);
        channel.ask(9, Read, true);
        channel.report(6, REDUNDANCY).expect("booked");
        assert_eq!(channel.scan_begin, 0);
        assert_eq!(end_next(&mut channel), 9);
        assert_eq!(end_next(&mut channel), 2);
        assert_eq!(end_next(&mut channel), 6);
    }

    #[test]
    fn d3_a_running_priority_operation_goes_on_after_a_failure() {
        let mut channel = fresh();
        channel.ask(8, Read, true);
        channel.ask(1, Read, true);
        channel.ask(0, Read, false);
        channel.report(8, REDUNDANCY).expect("booked");
        assert_eq!(channel.working_unit(), Some(8));
        let order: Vec<u64> = (0..3).map(|_| end_next(&mut channel)).collect();
        assert_eq!(order, [8, 1, 0]);
    }

    #[test]
    fn an_incomplete_ordinary_operation_goes_on_before_waiting_ordinary_ones() {
        let mut channel = fresh();
        channel.ask(8, Read, false);
        channel.ask(1, Read, false);
        channel.report(8, REDUNDANCY).expect("booked");
        assert_eq!(channel.working_unit(), Some(8));
    }

    #[test]
    fn priority_requests_never_break_into_an_activity() {
        let mut channel = fresh();
        channel.ask(3, Read, false);
        for unit in [7, 2, 5] {
            channel.ask(unit, Mark, true);
            assert_eq!(channel.working_unit(), Some(3));
        }
        let order: Vec<u64> = (0..4).map(|_| end_next(&mut channel)).collect();
        assert_eq!(order, [3, 2, 5, 7]);
    }

    #[test]
    fn d4_after_a_freeze_an_incomplete_operation_has_no_claim() {
        let mut channel = fresh();
        channel.ask(6, Read, true);
        channel.freeze();
        channel.report(6, REDUNDANCY).expect("booked");
        assert_eq!(channel.working_unit(), None);
        channel.ask(4, Read, true);
        channel.ask(0, Read, false);
        channel.thaw();
        assert_eq!((channel.working_unit(), counts(&channel, 6)), (Some(4), (2, 0)));
        let order: Vec<u64> = (0..3).map(|_| end_next(&mut channel)).collect();
        assert_eq!(order, [4, 6, 0]);

        let mut channel = fresh();
        channel.ask(6, Read, false);
        channel.freeze();
        channel.report(6, REDUNDANCY).expect("booked");
        channel.ask(4, Read, false);
        channel.thaw();
        assert_eq!(channel.working_unit(), Some(4));
    }

    /// The marks of both scans.
    fn marks(channel: &Channel) -> [usize; 2] {
        [channel.scan_begin, channel.priority_begin]
    }

    /// Asks for a priority read of each unit; the first of an idle channel starts.
    fn ask_priority(channel: &mut Channel, units: &[usize]) {
        units.iter().for_each(|&unit| channel.ask(unit, Read, true));
    }

    fn order_of_ends(channel: &mut Channel, count: usize) -> Vec<u64> {
        (0..count).map(|_| end_next(channel)).collect()
    }

    #[test]
    fn k1_the_scan_begins_above_the_last_priority_end_wraps_and_comes_to_it_last() {
        let mut channel = fresh();
        ask_priority(&mut channel, &[5, 3, 7, 9]);
        assert_eq!(end_next(&mut channel), 5);
        ask_priority(&mut channel, &[5]);
        assert_eq!(order_of_ends(&mut channel, 4), [7, 9, 3, 5]);
        assert_eq!(marks(&channel), [0, 6]);
        channel.ask(9, Mark, true);
        assert_eq!(channel.report(9, END_OF_MEDIUM), Ok(Booked::EndOfMedium));
        assert_eq!(marks(&channel), [0, 0]);
    }

    /// One key that asks again and again does not shut out another.
    #[test]
    fn k1_a_busy_unit_waits_for_the_others() {
        let mut channel = fresh();
        ask_priority(&mut channel, &[0, 6]);
        for _ in 0..3 {
            assert_eq!(end_next(&mut channel), 0);
            ask_priority(&mut channel, &[0]);
            assert_eq!(end_next(&mut channel), 6);
            ask_priority(&mut channel, &[6]);
        }
    }

    #[test]
    fn k1_every_answer_moves_the_mark_and_nothing_else_does() {
        let mut channel = fresh();
        channel.ask(4, Write, true);
        assert_eq!(marks(&channel), [0, 0]);
        assert_eq!(channel.report(4, REDUNDANCY), Ok(Booked::Repeated));
        assert_eq!(marks(&channel), [0, 0]);
        assert_eq!(channel.report(4, INCOMPLETE), Ok(Booked::PermanentIncompleteWord));
        assert_eq!(marks(&channel), [0, 5]);
        channel.ask(8, Read, true);
        channel.freeze();
        assert_eq!(channel.report(8, FILE_MARK), Ok(Booked::Mark));
        assert_eq!(marks(&channel), [0, 9]);
        channel.thaw();
        assert_eq!(marks(&channel), [0, 9]);
        assert_eq!(channel.report(8, FILE_MARK), Err(11));
        assert_eq!(marks(&channel), [0, 9]);
        assert_eq!(marks(&fresh()), [0, 0]);
    }

    #[test]
    fn k2_an_end_moves_the_mark_of_its_own_kind_alone() {
        let mut channel = fresh();
        channel.ask(2, Read, false);
        assert_eq!(end_next(&mut channel), 2);
        assert_eq!(marks(&channel), [3, 0]);
        channel.ask(6, Read, true);
        assert_eq!(end_next(&mut channel), 6);
        assert_eq!(marks(&channel), [3, 7]);
        // The ordinary scan goes by its own mark, the priority scan by its own.
        channel.ask(0, Read, false);
        for unit in [2, 5] {
            channel.ask(unit, Read, false);
        }
        ask_priority(&mut channel, &[1, 8]);
        assert_eq!(order_of_ends(&mut channel, 5), [0, 8, 1, 2, 5]);
        assert_eq!(marks(&channel), [6, 2]);
    }

    /// After an end, after the failure that displaces, and after a thaw.
    #[test]
    fn k3_the_scan_chooses_wherever_the_lowest_unit_did() {
        let mut channel = fresh();
        ask_priority(&mut channel, &[5]);
        assert_eq!(end_next(&mut channel), 5);
        channel.ask(3, Read, false);
        ask_priority(&mut channel, &[1, 7]);
        channel.report(3, REDUNDANCY).expect("booked");
        assert_eq!(channel.working_unit(), Some(7));
        ask_priority(&mut channel, &[8, 0]);
        channel.freeze();
        assert_eq!(channel.report(7, GOOD), Ok(Booked::Good));
        assert_eq!(channel.working_unit(), None);
        channel.thaw();
        assert_eq!(order_of_ends(&mut channel, 4), [8, 0, 1, 3]);
        assert_eq!(marks(&channel), [4, 2]);
    }

    #[test]
    fn k3_a_priority_operation_that_works_is_not_displaced() {
        let mut channel = fresh();
        ask_priority(&mut channel, &[8, 9, 1]);
        channel.report(8, REDUNDANCY).expect("booked");
        assert_eq!(order_of_ends(&mut channel, 3), [8, 9, 1]);
    }

    #[test]
    fn k4_a_priority_operation_that_a_freeze_stopped_has_no_first_turn() {
        let mut channel = fresh();
        ask_priority(&mut channel, &[2]);
        assert_eq!(end_next(&mut channel), 2);
        ask_priority(&mut channel, &[6, 4, 9]);
        channel.freeze();
        channel.report(6, REDUNDANCY).expect("booked");
        assert_eq!((turn(&channel, 6), marks(&channel)), (Turn::Displaced, [0, 3]));
        channel.thaw();
        assert_eq!((channel.working_unit(), counts(&channel, 6)), (Some(4), (2, 0)));
        assert_eq!(order_of_ends(&mut channel, 3), [4, 6, 9]);
        // A freeze that comes and goes between two reports changes nothing.
        ask_priority(&mut channel, &[3, 1]);
        channel.freeze();
        channel.thaw();
        channel.report(3, REDUNDANCY).expect("booked");
        assert_eq!(channel.working_unit(), Some(3));
    }

    /// A channel at work on a read of unit 0 after `failures` redundancies without lengths. The unit stands at
    /// so many records since the mark.
    fn failing_at(records: u64, noise_met: bool, failures: u64) -> Channel {
        let mut channel = fresh();
        channel.positions[0] = Position { marks: 1, records, noise_met };
        channel.ask(0, Read, false);
        for failure in 1..=failures {
            let expected = if !noise_met && records >= 3 && failure % 10 == 1 && failure > 10 && failure < 100
            {
                Booked::BackspaceThree
            } else {
                Booked::Repeated
            };
            assert_eq!(channel.report(0, REDUNDANCY), Ok(expected), "{failure}");
        }
        channel
    }

    /// Reading I1: the 11th, 21st, .. 91st failure gives 07 and no other one does, a redundancy or an incomplete
    /// word; and only with three records or more and no noise met (I3, I7).
    #[test]
    fn i1_backspace_three_at_nine_attempts() {
        for (records, noise_met) in [(3, false), (2, false), (3, true), (32_767, false), (0, false)] {
            let mut channel = failing_at(records, noise_met, 100);
            assert_eq!(channel.report(0, REDUNDANCY), Ok(Booked::PermanentRedundancy));
            assert_eq!(channel.positions[0], Position { marks: 1, records, noise_met });
        }
        for (failures, result) in
            [(9, Booked::Repeated), (10, Booked::BackspaceThree), (11, Booked::Repeated)]
        {
            assert_eq!(failing_at(3, false, failures).report(0, INCOMPLETE), Ok(result));
        }
        // A length of three words or more is no noise.
        for length in [3, 1_024, 65_535] {
            let mut channel = failing_at(3, false, 10);
            assert_eq!(channel.report_length(0, REDUNDANCY, Some(length)), Ok(Booked::BackspaceThree));
            assert_eq!((counts(&channel, 0), channel.positions[0].noise_met), ((12, 0), false));
        }
    }

    /// Writes and marks have attempts 12 and 22 too, and never give 07.
    #[test]
    fn i1_writes_and_marks_never_backspace() {
        for operation in [Write, Mark] {
            let mut channel = fresh();
            channel.positions[4].records = 9;
            channel.ask(4, operation, false);
            for _ in 0..26 {
                assert_eq!(channel.report(4, REDUNDANCY), Ok(Booked::Repeated));
            }
        }
    }

    /// Reading I2: 07 also if the operation is then displaced, or stopped by a freeze.
    #[test]
    fn i2_backspace_three_of_one_that_does_not_go_on() {
        let mut channel = failing_at(3, false, 10);
        channel.ask(5, Mark, true);
        assert_eq!(channel.report(0, REDUNDANCY), Ok(Booked::BackspaceThree));
        assert_eq!((channel.working_unit(), counts(&channel, 0)), (Some(5), (12, 0)));
        let mut channel = failing_at(3, false, 10);
        channel.freeze();
        assert_eq!(channel.report(0, REDUNDANCY), Ok(Booked::BackspaceThree));
        assert_eq!((channel.working_unit(), turn(&channel, 0)), (None, Turn::Displaced));
    }

    /// Reading I5: what moves the position, and how far.
    #[test]
    fn i5_what_moves_the_position() {
        let held = Position { marks: 32_767, records: 32_767, noise_met: true };
        for (operation, outcome, from_zero, from_held) in [
            (Read, GOOD, (0, 1), (32_767, 32_767)),
            (Read, FILE_MARK, (1, 0), (32_767, 0)),
            (Write, GOOD, (0, 1), (32_767, 32_767)),
            (Write, END_OF_MEDIUM, (0, 1), (32_767, 32_767)),
            (Write, INCOMPLETE, (0, 0), (32_767, 32_767)),
            (Mark, GOOD, (1, 0), (32_767, 0)),
            (Mark, END_OF_MEDIUM, (1, 0), (32_767, 0)),
            (Read, REDUNDANCY, (0, 0), (32_767, 32_767)),
            (Read, INCOMPLETE, (0, 0), (32_767, 32_767)),
        ] {
            for (before, expected) in [(Position::default(), from_zero), (held, from_held)] {
                let mut channel = fresh();
                channel.positions[7] = before;
                channel.ask(7, operation, true);
                channel.report(7, outcome).expect("booked");
                let after = channel.positions[7];
                assert_eq!((after.marks, after.records), expected, "{operation:?} {outcome}");
                assert_eq!(after.noise_met, before.noise_met);
                assert!((0..UNITS).all(|unit| unit == 7 || channel.positions[unit] == Position::default()));
            }
        }
        // The good end at attempt 4 is one record too; a permanent error is none.
        let mut channel = after_redundancies(Read, 3);
        assert_eq!(channel.report(0, GOOD), Ok(Booked::GoodInOppositeMode));
        assert_eq!(channel.positions[0].records, 1);
        let mut channel = after_redundancies(Read, 100);
        channel.report(0, REDUNDANCY).expect("booked");
        assert_eq!(channel.positions[0], Position::default());
    }

    /// Readings I12 to I14: a noise record uses no attempt; a hundred are passed, at attempt 101 too; then each
    /// is an ordinary redundancy.
    #[test]
    fn i14_a_hundred_noise_records_are_passed() {
        for (failures, length) in [(0, 0), (2, 1), (10, 2), (100, 0)] {
            let mut channel = failing_at(3, true, failures);
            let attempt = failures + 1;
            for noise in 1..=100 {
                assert_eq!(channel.report_length(0, REDUNDANCY, Some(length)), Ok(Booked::Repeated));
                assert_eq!(counts(&channel, 0), (attempt, 0));
                assert_eq!(channel.request(0).map(|request| request.noise), Some(noise));
            }
            let after = channel.report_length(0, REDUNDANCY, Some(length));
            if failures == 100 {
                assert_eq!((after, channel.request(0)), (Ok(Booked::PermanentRedundancy), None));
            } else {
                assert_eq!((after, counts(&channel, 0)), (Ok(Booked::Repeated), (attempt + 1, 0)));
                assert_eq!(channel.request(0).map(|request| request.noise), Some(100));
            }
        }
    }

    /// Reading I13: before attempt 12 a noise record takes the 07 away, for good.
    #[test]
    fn i13_noise_when_an_attempt_of_the_list_is_due() {
        let mut channel = failing_at(3, false, 10);
        assert_eq!(channel.report_length(0, REDUNDANCY, Some(2)), Ok(Booked::Repeated));
        assert_eq!((counts(&channel, 0), channel.positions[0].noise_met), ((11, 0), true));
        for failure in 11..101 {
            assert_eq!(channel.report(0, REDUNDANCY), Ok(Booked::Repeated), "{failure}");
        }
        assert_eq!(channel.report(0, REDUNDANCY), Ok(Booked::PermanentRedundancy));
        // At attempt 12 itself, after the 07.
        let mut channel = failing_at(3, false, 11);
        assert_eq!(channel.report_length(0, REDUNDANCY, Some(0)), Ok(Booked::Repeated));
        assert_eq!(counts(&channel, 0), (12, 0));
    }

    /// Readings I15 and I17: a length alone makes noise, and only of a read; the opposite mode counts attempts.
    #[test]
    fn i17_noise_does_not_move_the_opposite_mode() {
        let mut channel = after_redundancies(Read, 2);
        channel.report_length(0, REDUNDANCY, Some(1)).expect("booked");
        channel.report_length(0, REDUNDANCY, Some(3)).expect("booked");
        assert_eq!(counts(&channel, 0), (4, 0));
        channel.report_length(0, REDUNDANCY, Some(1)).expect("booked");
        assert_eq!(channel.report(0, GOOD), Ok(Booked::GoodInOppositeMode));
        channel.ask(0, Read, false);
        assert_eq!(channel.request(0).map(|request| request.noise), Some(0));
    }

    /// Reading K5: a noise record is no end; the request that displaces after it is found by the scan.
    #[test]
    fn k5_a_noise_record_moves_no_mark() {
        let mut channel = fresh();
        ask_priority(&mut channel, &[3]);
        assert_eq!(end_next(&mut channel), 3);
        channel.ask(6, Read, false);
        ask_priority(&mut channel, &[2, 5]);
        assert_eq!(channel.report_length(6, REDUNDANCY, Some(0)), Ok(Booked::Repeated));
        assert_eq!((channel.working_unit(), marks(&channel)), (Some(5), [0, 4]));
        assert_eq!((turn(&channel, 6), counts(&channel, 6)), (Turn::Displaced, (1, 0)));
        assert_eq!(channel.report_length(5, REDUNDANCY, Some(0)), Ok(Booked::Repeated));
        assert_eq!((channel.working_unit(), marks(&channel)), (Some(5), [0, 4]));
        channel.freeze();
        assert_eq!(channel.report_length(5, REDUNDANCY, Some(0)), Ok(Booked::Repeated));
        assert_eq!((channel.working_unit(), turn(&channel, 5)), (None, Turn::Displaced));
        channel.thaw();
        assert_eq!(order_of_ends(&mut channel, 3), [5, 2, 6]);
    }

    #[test]
    fn d5_freeze_and_thaw_between_reports_have_no_effect_on_the_activity() {
        let mut channel = after_redundancies(Read, 2);
        channel.ask(9, Read, true);
        let before = channel.clone();
        channel.freeze();
        channel.freeze();
        channel.thaw();
        channel.thaw();
        assert_eq!(channel, before);
        assert_eq!(working(&channel), 0);
    }

    #[test]
    fn d7_a_displaced_operation_keeps_its_counts() {
        let mut channel = after_redundancies(Read, 2);
        channel.report(0, INCOMPLETE).expect("booked");
        channel.ask(1, Read, true);
        channel.report(0, REDUNDANCY).expect("booked");
        assert_eq!((turn(&channel, 0), counts(&channel, 0)), (Turn::Displaced, (5, 1)));
        end_next(&mut channel);
        assert_eq!((turn(&channel, 0), counts(&channel, 0)), (Turn::Working, (5, 1)));
        channel.freeze();
        channel.report(0, REDUNDANCY).expect("booked");
        assert_eq!((turn(&channel, 0), counts(&channel, 0)), (Turn::Displaced, (6, 1)));
        channel.thaw();
        assert_eq!((turn(&channel, 0), counts(&channel, 0)), (Turn::Working, (6, 1)));
    }

    #[test]
    fn d8_asks_wait_while_frozen() {
        let mut channel = fresh();
        channel.ask(3, Read, false);
        channel.freeze();
        channel.ask(2, Read, true);
        assert_eq!(channel.working_unit(), Some(3));
        assert_eq!(channel.report(3, GOOD), Ok(Booked::Good));
        assert_eq!(channel.working_unit(), None);
        channel.ask(1, Read, true);
        assert_eq!((channel.working_unit(), turn(&channel, 1)), (None, Turn::Waiting));
        channel.thaw();
        assert_eq!(channel.working_unit(), Some(1));
    }
}
