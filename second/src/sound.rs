//! When a state that a caller passes back is sound (document 01, "A state passed back by the caller
//! is sound if ..."), clause by clause. A clause that cannot be judged does not count as broken. Those about
//! special routines stand apart.

use std::collections::BTreeSet;

use crate::channel::{Operation, Position, Request, Turn, LAST_COUNT, MOST_NOISE, UNITS};
use crate::pack::{CHANNELS, MOST_BUFFERS, MOST_WIDTH};
use crate::sound_routines::{
    list_depth, main_program, named_by_requests, nothing_above, program_numbers, program_zeros,
    rising_priorities, routine_numbers, routine_units, routine_zeros, waiting_alone, waiting_units,
};
use crate::state::{Buffer, FileState, Slot, State};
use crate::word::{ones, Fields, HALF_BITS, LAST_NUMBER};

/// "Error 1 is sequence, 2 check sum, 3 both."
const LAST_ERROR: u64 = 3;
/// M-101: "error 4 or 10", 0 for none.
const READ_ERRORS: [u64; 3] = [0, 4, 10];

/// Whether a clause holds for a state.
type Holds = fn(&State) -> bool;

/// The clauses, each with the test that a state must pass.
const CLAUSES: [(Clause, Holds); 48] = [
    (Clause::PoolSizes, pool_sizes),
    (Clause::NothingBeforeFresh, nothing_before_fresh),
    (Clause::ScanMarks, scan_marks),
    (Clause::PriorityMarks, priority_marks),
    (Clause::UnitNumbers, unit_numbers),
    (Clause::FileSizes, file_sizes),
    (Clause::BlockNumbers, block_numbers),
    (Clause::CheckErrors, check_errors),
    (Clause::ReadErrors, read_errors),
    (Clause::ReadErrorsFirst, read_errors_first),
    (Clause::FoundFields, found_fields),
    (Clause::NothingRead, nothing_read),
    (Clause::ErrorsAsFound, errors_as_found),
    (Clause::IncompleteWords, incomplete_words),
    (Clause::Positions, positions),
    (Clause::UndeclaredPositions, undeclared_positions),
    (Clause::NoisePassed, noise_passed),
    (Clause::ClosedFiles, closed_files),
    (Clause::MissingBuffers, missing_buffers),
    (Clause::BlockOrders, block_orders),
    (Clause::OutputZeros, output_zeros),
    (Clause::HeldOnce, held_once),
    (Clause::OwnBuffers, own_buffers),
    (Clause::FreeMask, free_mask),
    (Clause::DeclaredUnits, declared_units),
    (Clause::OwnUnits, own_units),
    (Clause::FittingRequests, fitting_requests),
    (Clause::OneActivity, one_activity),
    (Clause::NoIdleWait, no_idle_wait),
    (Clause::TakenBuffers, taken_buffers),
    (Clause::WrittenBlocks, written_blocks),
    (Clause::FullBlocks, full_blocks),
    (Clause::PartFilledFiles, part_filled_files),
    (Clause::PartFilledWords, part_filled_words),
    (Clause::PlacesOfGet, places_of_get),
    (Clause::Attempts, attempts),
    (Clause::ListDepth, list_depth),
    (Clause::ProgramNumbers, program_numbers),
    (Clause::ProgramZeros, program_zeros),
    (Clause::MainProgram, main_program),
    (Clause::RisingPriorities, rising_priorities),
    (Clause::RoutineUnits, routine_units),
    (Clause::RoutineNumbers, routine_numbers),
    (Clause::RoutineZeros, routine_zeros),
    (Clause::NamedByRequests, named_by_requests),
    (Clause::WaitingUnits, waiting_units),
    (Clause::WaitingAlone, waiting_alone),
    (Clause::NothingAbove, nothing_above),
];

/// A clause of soundness.
#[derive(Clone, Copy, Debug, PartialEq, Eq, PartialOrd, Ord)]
pub enum Clause {
    PoolSizes,
    NothingBeforeFresh,
    ScanMarks,
    PriorityMarks,
    UnitNumbers,
    FileSizes,
    BlockNumbers,
    CheckErrors,
    ReadErrors,
    ReadErrorsFirst,
    FoundFields,
    NothingRead,
    ErrorsAsFound,
    IncompleteWords,
    Positions,
    UndeclaredPositions,
    NoisePassed,
    ClosedFiles,
    MissingBuffers,
    BlockOrders,
    OutputZeros,
    HeldOnce,
    OwnBuffers,
    FreeMask,
    DeclaredUnits,
    OwnUnits,
    FittingRequests,
    OneActivity,
    NoIdleWait,
    TakenBuffers,
    WrittenBlocks,
    FullBlocks,
    PartFilledFiles,
    PartFilledWords,
    PlacesOfGet,
    Attempts,
    ListDepth,
    ProgramNumbers,
    ProgramZeros,
    MainProgram,
    RisingPriorities,
    RoutineUnits,
    RoutineNumbers,
    RoutineZeros,
    NamedByRequests,
    WaitingUnits,
    WaitingAlone,
    NothingAbove,
}

/// Every clause, in the order of the document.
pub fn all_clauses() -> impl Iterator<Item = Clause> {
    CLAUSES.iter().map(|&(clause, _)| clause)
}

/// The clauses that a state breaks.
pub fn broken_clauses(state: &State) -> Vec<Clause> {
    let broken = CLAUSES.iter().filter(|(_, holds)| !holds(state));
    broken.map(|&(clause, _)| clause).collect()
}

pub fn is_sound(state: &State) -> bool {
    CLAUSES.iter().all(|(_, holds)| holds(state))
}

/// "m from 1 to 32, W from 1 to 1,024"; "Before the first fresh start ... m and W are 0".
fn pool_sizes(state: &State) -> bool {
    let started = (1..=MOST_BUFFERS).contains(&state.buffers) && (1..=MOST_WIDTH).contains(&state.width);
    started || is_before_fresh(state)
}

/// "Before the first fresh start: no buffers (m and W are 0), no units"; so no file is open either.
fn nothing_before_fresh(state: &State) -> bool {
    let declared = state.units().any(|unit| unit.declared);
    !is_before_fresh(state) || (!declared && state.open_files().count() == 0)
}

fn is_before_fresh(state: &State) -> bool {
    state.buffers == 0 && state.width == 0
}

/// Reading F4: "the scan's mark 0 to 9".
fn scan_marks(state: &State) -> bool {
    state.channels.iter().all(|channel| channel.mark < UNITS as u64)
}

/// The same of M-112's second mark.
fn priority_marks(state: &State) -> bool {
    state.channels.iter().all(|channel| channel.priority_mark < UNITS as u64)
}

/// "Channels 0 to 4", "Units 0 to 9 on each".
fn unit_numbers(state: &State) -> bool {
    state.open_files().all(|file| file.channel < CHANNELS as u64 && file.unit < UNITS as u64)
}

/// "r is 1 to B and B + e is at most W".
fn file_sizes(state: &State) -> bool {
    state.open_files().all(|file| {
        (1..=file.block_size).contains(&file.record_length)
            && file.block_size.saturating_add(file.e()) <= state.width
    })
}

/// Reading F4: "the block number 0 to 32,767".
fn block_numbers(state: &State) -> bool {
    state.open_files().all(|file| file.number <= LAST_NUMBER)
}

/// Reading F4: "a check error 0 to 3".
fn check_errors(state: &State) -> bool {
    all_slots(state, |_, slot| !matches!(slot, Slot::Full { error, .. } if error > LAST_ERROR))
}

/// M-101: a read error is 0, 4 or 10.
fn read_errors(state: &State) -> bool {
    all_slots(state, |_, slot| match slot {
        Slot::Full { read_error, .. } => READ_ERRORS.contains(&read_error),
        _ => true,
    })
}

/// "get reports error 4 or 10, once, before any check error": while it is not told, get has given nothing
/// of the block, and a check error that the fields say is not told either.
fn read_errors_first(state: &State) -> bool {
    all_slots(state, |file, slot| match slot {
        Slot::Full { at, error, read_error, found, .. } => {
            let told = error == 0 && found.error(file.chosen()) != 0;
            file.output || !READ_ERRORS[1..].contains(&read_error) || (at == 0 && !told)
        }
        _ => true,
    })
}

/// M-102: a sum has 18 bits, a number is 0 to 32,767, worked out or read.
fn found_fields(state: &State) -> bool {
    all_slots(state, |_, slot| match slot {
        Slot::Full { found, .. } => {
            found.sum.max(found.sum_read) <= ones(HALF_BITS)
                && found.number.max(found.number_read) <= LAST_NUMBER
        }
        _ => true,
    })
}

/// M-102: "With no check word the fields read are zero".
fn nothing_read(state: &State) -> bool {
    all_slots(state, |file, slot| match slot {
        Slot::Full { found: Fields { sum_read, number_read, .. }, .. } => {
            file.e() == 1 || (sum_read == 0 && number_read == 0)
        }
        _ => true,
    })
}

/// M-102: an error that is not told yet is what the fields say. One that was told is 0, whatever they say.
fn errors_as_found(state: &State) -> bool {
    all_slots(state, |file, slot| match slot {
        Slot::Full { error: error @ 1..=LAST_ERROR, found, .. } => {
            file.output || error == u64::from(found.error(file.chosen()))
        }
        _ => true,
    })
}

/// Reading F4: "incomplete words 0 to 1 (0 for a write or mark)".
fn incomplete_words(state: &State) -> bool {
    state.requests().all(|(_, _, request)| {
        let most = u64::from(request.operation == Operation::Read);
        request.incomplete_words <= most
    })
}

/// M-106: "file marks passed, and records since the last mark, each held at 32,767".
fn positions(state: &State) -> bool {
    state.units().all(|unit| unit.position.marks.max(unit.position.records) <= LAST_COUNT)
}

/// The position of an undeclared unit is zero, and no noise was met there.
fn undeclared_positions(state: &State) -> bool {
    state.units().all(|unit| unit.declared || unit.position == Position::default())
}

/// "At most 100 are passed in one operation", a read, of a unit that has met noise then.
fn noise_passed(state: &State) -> bool {
    state.units().all(|unit| match &unit.request {
        Some(Request { operation, noise: 1..=MOST_NOISE, .. }) => {
            *operation == Operation::Read && unit.position.noise_met
        }
        request => request.as_ref().is_none_or(|request| request.noise == 0),
    })
}

/// Reading F4: "What a closed file ... would hold has no meaning, so its range is its zero".
fn closed_files(state: &State) -> bool {
    let zero = FileState::default();
    state.files.iter().filter(|file| !file.opened).all(|file| *file == zero)
}

/// The same of "a missing second buffer".
fn missing_buffers(state: &State) -> bool {
    state.open_files().filter(|file| !file.double).all(|file| file.high == Buffer::default())
}

/// The same of "an order of two blocks that are not both full".
fn block_orders(state: &State) -> bool {
    state.open_files().all(|file| !file.turned || file.count(Slot::is_full) == 2)
}

/// The same of the mark, the places of get, the errors and what was found of an output file.
fn output_zeros(state: &State) -> bool {
    let unmarked = state.open_files().all(|file| !(file.output && file.marked));
    let untouched = |file: &FileState, slot| match slot {
        Slot::Full { at, error, read_error, found, .. } => {
            !file.output || (at == 0 && error == 0 && read_error == 0 && found == Fields::default())
        }
        _ => true,
    };
    unmarked && all_slots(state, untouched)
}

/// "no buffer is held by two files". That a file has two different ones is told by the next clause.
fn held_once(state: &State) -> bool {
    let mut held = BTreeSet::new();
    state.open_files().all(|file| {
        let own: BTreeSet<u64> = file.buffers().iter().map(|buffer| buffer.number).collect();
        own.into_iter().all(|number| held.insert(number))
    })
}

/// "each open file has its one or two buffers"; the low one has the lower number.
fn own_buffers(state: &State) -> bool {
    state.open_files().all(|file| {
        let in_pool = file.buffers().iter().all(|buffer| buffer.number < state.buffers);
        in_pool && (!file.double || file.low.number < file.high.number)
    })
}

/// M-104, "Keep the free ones as one bit each": the mask has the bits of the free buffers and no other.
fn free_mask(state: &State) -> bool {
    state.free == state.free_mask()
}

/// "each open file has ... a declared unit".
fn declared_units(state: &State) -> bool {
    state.open_files().all(|file| state.unit(file.channel, file.unit).is_none_or(|unit| unit.declared))
}

/// "of its own".
fn own_units(state: &State) -> bool {
    state.open_files().all(|file| state.files_of(file.channel, file.unit).count() == 1)
}

/// "each request fits the direction of its unit's open file"; so each has such a file.
fn fitting_requests(state: &State) -> bool {
    state.requests().all(|(channel, unit, request)| {
        let mut files = state.files_of(channel, unit);
        files.any(|file| file.output == (request.operation != Operation::Read))
    })
}

/// "each channel works for at most one unanswered request".
fn one_activity(state: &State) -> bool {
    (0..CHANNELS as u64).all(|channel| turns_of(state, channel, Turn::Working) <= 1)
}

/// "and for one if it is not frozen and any waits".
fn no_idle_wait(state: &State) -> bool {
    (0..CHANNELS as u64).all(|channel| {
        let [waiting, displaced, working] =
            [Turn::Waiting, Turn::Displaced, Turn::Working].map(|turn| turns_of(state, channel, turn));
        state.frozen || waiting + displaced == 0 || working > 0
    })
}

/// How many requests of a channel stand at a turn.
fn turns_of(state: &State, channel: u64, turn: Turn) -> usize {
    state.requests().filter(|(of, _, request)| *of == channel && request.turn == turn).count()
}

/// "A read request alone has a buffer taken, one of its file's": exactly one (reading F5).
fn taken_buffers(state: &State) -> bool {
    state.open_files().all(|file| {
        let reads = asks(state, file, Operation::Read);
        file.count(|slot| *slot == Slot::Taken) == usize::from(reads)
    })
}

/// "a write's file has a full block".
fn written_blocks(state: &State) -> bool {
    let mut writing = state.open_files().filter(|file| asks(state, file, Operation::Write));
    writing.all(|file| file.count(Slot::is_full) > 0)
}

/// Whether a file's unit has an unanswered request for an operation.
fn asks(state: &State, file: &FileState, operation: Operation) -> bool {
    state.request_of(file).is_some_and(|request| request.operation == operation)
}

/// "full blocks have 1 to B data words".
fn full_blocks(state: &State) -> bool {
    all_slots(state, |file, slot| match slot {
        Slot::Full { words, .. } => (1..=file.block_size).contains(&words),
        _ => true,
    })
}

/// "an output file alone has a part-filled buffer, at most one".
fn part_filled_files(state: &State) -> bool {
    state.open_files().all(|file| file.count(Slot::is_part_filled) <= usize::from(file.output))
}

/// "with r words or more and room for r".
fn part_filled_words(state: &State) -> bool {
    all_slots(state, |file, slot| match slot {
        Slot::PartFilled { words } => {
            words >= file.record_length && words.saturating_add(file.record_length) <= file.block_size
        }
        _ => true,
    })
}

/// "no place of get is past its block".
fn places_of_get(state: &State) -> bool {
    all_slots(state, |_, slot| !matches!(slot, Slot::Full { words, at, .. } if at > words))
}

/// "no attempt past its limit"; reading F4: "an attempt 1 to its limit".
fn attempts(state: &State) -> bool {
    let in_range = |request: &Request| (1..=request.operation.last_attempt()).contains(&request.attempt);
    state.requests().all(|(_, _, request)| in_range(request))
}

/// Whether every buffer of every open file passes a test.
fn all_slots(state: &State, test: impl Fn(&FileState, Slot) -> bool) -> bool {
    state.open_files().all(|file| file.buffers().iter().all(|buffer| test(file, buffer.slot)))
}

#[cfg(test)]
mod tests {
    use super::*;
    use crate::state::UnitState;

    /// The files of the bench.
    const INPUT: usize = 0;
    const OUTPUT: usize = 1;
    const WRITING: usize = 2;
    const IDLE: usize = 3;
    const READING: usize = 4;
    const CLOSED: usize = 5;

    fn request(operation: Operation, turn: Turn) -> Option<Request> {
        Some(Request { operation, priority: false, turn, attempt: 1, incomplete_words: 0, noise: 0 })
    }

    fn buffer(number: u64, slot: Slot) -> Buffer {
        Buffer { number, slot }
    }

    /// A full block; what was read differs from the zeros that were worked out where the error says so.
    fn full(words: u64, at: u64, error: u64) -> Slot {
        let fields = [0, 0, error >> 1 & 1, error & 1];
        Slot::Full { words, at, error, read_error: 0, found: Fields::of(fields) }
    }

    /// A full block with an error and fields by hand.
    fn found(error: u64, fields: [u64; 4]) -> Slot {
        Slot::Full { words: 1, at: 0, error, read_error: 0, found: Fields::of(fields) }
    }

    /// A block of three words that was kept, with an error and fields by hand.
    fn kept(read_error: u64, at: u64, error: u64, fields: [u64; 4]) -> Slot {
        Slot::Full { words: 3, at, error, read_error, found: Fields::of(fields) }
    }

    /// A file on channel 0 with blocks of up to 5 words and records of 2.
    fn file(unit: u64, low: Buffer, high: Option<Buffer>) -> FileState {
        FileState {
            opened: true,
            unit,
            double: high.is_some(),
            block_size: 5,
            record_length: 2,
            number: 1,
            low,
            high: high.unwrap_or_default(),
            ..FileState::default()
        }
    }

    /// Nine buffers of six words. Input with a full block and a check word; output, part-filled, with a check word;
    /// output at work on a write; input, idle; input at work on a read. Buffer 8 is free.
    fn bench() -> State {
        let mut state = State { buffers: 9, width: 6, free: 1 << 8, ..State::default() };
        for unit in 0..5 {
            state.channels[0].units[unit].declared = true;
        }
        state.channels[1].units[2] = UnitState {
            declared: true,
            request: request(Operation::Write, Turn::Working),
            ..Default::default()
        };
        state.channels[2].units[0] = UnitState {
            declared: true,
            request: request(Operation::Read, Turn::Working),
            ..Default::default()
        };
        state.files[INPUT] = FileState {
            sequence: true,
            check: true,
            ..file(0, buffer(0, full(5, 0, 0)), Some(buffer(1, Slot::Empty)))
        };
        let part_filled = Slot::PartFilled { words: 2 };
        state.files[OUTPUT] = FileState {
            output: true,
            sequence: true,
            check: true,
            ..file(1, buffer(2, part_filled), Some(buffer(3, Slot::Empty)))
        };
        state.files[WRITING] =
            FileState { output: true, channel: 1, ..file(2, buffer(4, full(4, 0, 0)), None) };
        state.files[IDLE] = file(3, buffer(5, Slot::Empty), None);
        let taken = buffer(6, Slot::Taken);
        state.files[READING] = FileState { channel: 2, ..file(0, taken, Some(buffer(7, Slot::Empty))) };
        state
    }

    /// The change of the bench, with the mask put right after it, breaks this clause and no other.
    fn breaks(clause: Clause, change: impl FnOnce(&mut State)) {
        let mut state = bench();
        change(&mut state);
        state.free = state.free_mask();
        assert_eq!(broken_clauses(&state), [clause]);
    }

    /// The change leaves the bench sound if the mask is put right.
    fn keeps(change: impl FnOnce(&mut State)) {
        let mut state = bench();
        change(&mut state);
        state.free = state.free_mask();
        assert_eq!(broken_clauses(&state), []);
    }

    fn request_of(state: &mut State, channel: usize, unit: usize) -> &mut Request {
        state.channels[channel].units[unit].request.as_mut().expect("a request")
    }

    #[test]
    fn the_bench_and_the_first_state_are_sound() {
        assert!(is_sound(&bench()));
        assert!(is_sound(&State::default()));
        assert!(is_sound(&State { frozen: true, ..State::default() }));
    }

    #[test]
    fn pool_sizes() {
        for (buffers, width) in [(33, 6), (255, 6), (9, 1_025), (9, u64::MAX), (u64::MAX, 6)] {
            breaks(Clause::PoolSizes, |state| (state.buffers, state.width) = (buffers, width));
        }
        keeps(|state| (state.buffers, state.width) = (32, 1_024));
        for (buffers, width) in [(0, 1), (1, 0)] {
            let state = State { buffers, width, free: buffers as u32, ..State::default() };
            assert_eq!(broken_clauses(&state), [Clause::PoolSizes]);
        }
        assert!(is_sound(&State { buffers: 1, width: 1, free: 1, ..State::default() }));
    }

    #[test]
    fn nothing_before_fresh() {
        for (channel, unit) in [(0, 0), (4, 9)] {
            let mut state = State::default();
            state.channels[channel].units[unit].declared = true;
            assert_eq!(broken_clauses(&state), [Clause::NothingBeforeFresh]);
        }
        let mut state = State::default();
        state.files[0].opened = true;
        assert!(broken_clauses(&state).contains(&Clause::NothingBeforeFresh));
    }

    #[test]
    fn scan_marks() {
        for channel in 0..CHANNELS {
            keeps(|state| state.channels[channel].mark = 9);
            breaks(Clause::ScanMarks, |state| state.channels[channel].mark = 10);
        }
    }

    #[test]
    fn priority_marks() {
        for channel in 0..CHANNELS {
            keeps(|state| state.channels[channel].priority_mark = 9);
            breaks(Clause::PriorityMarks, |state| state.channels[channel].priority_mark = 10);
        }
    }

    #[test]
    fn unit_numbers() {
        breaks(Clause::UnitNumbers, |state| state.files[IDLE].channel = 5);
        breaks(Clause::UnitNumbers, |state| state.files[IDLE].unit = 10);
        keeps(|state| {
            state.channels[4].units[9].declared = true;
            (state.files[IDLE].channel, state.files[IDLE].unit) = (4, 9);
        });
    }

    /// Without a check word B is 6 at most, with one 5; r is 1 to B.
    #[test]
    fn file_sizes() {
        keeps(|state| state.files[IDLE].block_size = 6);
        for size in [7, 1, 0, u64::MAX] {
            breaks(Clause::FileSizes, |state| state.files[IDLE].block_size = size);
        }
        for record_length in [1, 5] {
            keeps(|state| state.files[IDLE].record_length = record_length);
        }
        for record_length in [0, 6, u64::MAX] {
            breaks(Clause::FileSizes, |state| state.files[IDLE].record_length = record_length);
        }
        for (sequence, check) in [(true, false), (false, true), (true, true)] {
            keeps(|state| (state.files[IDLE].sequence, state.files[IDLE].check) = (sequence, check));
            breaks(Clause::FileSizes, |state| {
                state.files[IDLE].block_size = 6;
                (state.files[IDLE].sequence, state.files[IDLE].check) = (sequence, check);
            });
        }
    }

    #[test]
    fn block_numbers() {
        for file in [INPUT, OUTPUT] {
            keeps(|state| state.files[file].number = 0);
            keeps(|state| state.files[file].number = 32_767);
            breaks(Clause::BlockNumbers, |state| state.files[file].number = 32_768);
        }
    }

    #[test]
    fn check_errors() {
        keeps(|state| state.files[INPUT].low.slot = full(5, 0, 3));
        breaks(Clause::CheckErrors, |state| state.files[INPUT].low.slot = full(5, 0, 4));
        keeps(|state| state.files[INPUT].high.slot = full(5, 5, 3));
        breaks(Clause::CheckErrors, |state| state.files[INPUT].high.slot = full(5, 5, 4));
    }

    #[test]
    fn read_errors() {
        for file in [INPUT, IDLE] {
            for read_error in [0, 4, 10] {
                keeps(|state| state.files[file].low.slot = kept(read_error, 0, 0, [0; 4]));
            }
            for read_error in [1, 2, 3, 5, 9, 11, 255, u64::MAX] {
                breaks(Clause::ReadErrors, |state| {
                    state.files[file].low.slot = kept(read_error, 0, 0, [0; 4]);
                });
            }
        }
        breaks(Clause::ReadErrors, |state| state.files[INPUT].high.slot = kept(1, 0, 0, [0; 4]));
    }

    /// With a read error that is not told, get's place is 0 and the check error is what the fields say.
    #[test]
    fn read_errors_first() {
        for read_error in [4, 10] {
            for at in [1, 3] {
                keeps(|state| state.files[INPUT].low.slot = kept(0, at, 0, [0; 4]));
                breaks(Clause::ReadErrorsFirst, |state| {
                    state.files[INPUT].low.slot = kept(read_error, at, 0, [0; 4]);
                });
                breaks(Clause::ReadErrorsFirst, |state| {
                    state.files[INPUT].high.slot = kept(read_error, at, 1, [0, 0, 0, 1]);
                });
            }
            for (error, fields) in [(1, [7, 8, 7, 9]), (2, [7, 8, 6, 8]), (3, [7, 8, 0, 0])] {
                keeps(|state| state.files[INPUT].low.slot = kept(read_error, 0, error, fields));
                keeps(|state| state.files[INPUT].low.slot = kept(0, 0, 0, fields));
                breaks(Clause::ReadErrorsFirst, |state| {
                    state.files[INPUT].low.slot = kept(read_error, 0, 0, fields);
                });
                breaks(Clause::ErrorsAsFound, |state| {
                    state.files[INPUT].low.slot = kept(read_error, 0, error % 3 + 1, fields);
                });
            }
            // A field that is not chosen says nothing.
            keeps(|state| {
                state.files[INPUT].low.slot = kept(read_error, 0, 0, [7, 8, 7, 9]);
                state.files[INPUT].sequence = false;
            });
        }
    }

    #[test]
    fn found_fields() {
        let ends = [262_143, 32_767, 262_143, 32_767];
        for fields in [ends, [0, 0, 262_143, 0], [262_143, 32_767, 0, 0]] {
            keeps(|state| state.files[INPUT].low.slot = found(0, fields));
            keeps(|state| state.files[INPUT].high.slot = found(0, fields));
        }
        for place in 0..4 {
            for value in [ends[place] + 1, u64::MAX] {
                let mut fields = ends;
                fields[place] = value;
                breaks(Clause::FoundFields, |state| state.files[INPUT].low.slot = found(0, fields));
                breaks(Clause::FoundFields, |state| state.files[INPUT].high.slot = found(0, fields));
            }
        }
    }

    #[test]
    fn nothing_read() {
        keeps(|state| state.files[IDLE].low.slot = found(0, [262_143, 32_767, 0, 0]));
        for fields in [[5, 5, 5, 0], [5, 5, 0, 5], [0, 0, 1, 1]] {
            breaks(Clause::NothingRead, |state| state.files[IDLE].low.slot = found(0, fields));
            for (sequence, check) in [(true, false), (false, true), (true, true)] {
                keeps(|state| {
                    state.files[IDLE].low.slot = found(0, fields);
                    (state.files[IDLE].sequence, state.files[IDLE].check) = (sequence, check);
                });
            }
        }
    }

    /// Every error with every choice, and fields that are equal or not; only chosen fields count.
    #[test]
    fn errors_as_found() {
        for choice in 0..4 {
            let (sequence, check) = (choice & 1 == 1, choice & 2 == 2);
            for unequal in 0..4 {
                for error in 0..4 {
                    let change = |state: &mut State| {
                        let fields = [7, 8, 7 + 5 * (unequal >> 1), 8 + 9 * (unequal & 1)];
                        let fields = if choice == 0 { [7, 8, 0, 0] } else { fields };
                        state.files[INPUT].low.slot = found(error, fields);
                        (state.files[INPUT].sequence, state.files[INPUT].check) = (sequence, check);
                    };
                    if error == 0 || error == unequal & choice {
                        keeps(change);
                    } else {
                        breaks(Clause::ErrorsAsFound, change);
                    }
                }
            }
        }
    }

    #[test]
    fn incomplete_words() {
        keeps(|state| request_of(state, 2, 0).incomplete_words = 1);
        breaks(Clause::IncompleteWords, |state| request_of(state, 2, 0).incomplete_words = 2);
        for operation in [Operation::Write, Operation::Mark] {
            keeps(|state| request_of(state, 1, 2).operation = operation);
            breaks(Clause::IncompleteWords, |state| {
                request_of(state, 1, 2).operation = operation;
                request_of(state, 1, 2).incomplete_words = 1;
            });
        }
    }

    #[test]
    fn positions() {
        for (channel, unit) in [(0, 0), (0, 4), (2, 0)] {
            let position = |state: &mut State, marks, records| {
                state.channels[channel].units[unit].position = Position { marks, records, noise_met: false };
            };
            keeps(|state| position(state, 32_767, 32_767));
            breaks(Clause::Positions, |state| position(state, 32_768, 0));
            breaks(Clause::Positions, |state| position(state, 0, 32_768));
            breaks(Clause::Positions, |state| position(state, 3, u64::MAX));
        }
    }

    #[test]
    fn undeclared_positions() {
        let changes: [fn(&mut Position); 3] = [
            |position| position.marks = 1,
            |position| position.records = 1,
            |position| position.noise_met = true,
        ];
        for change in changes {
            for (channel, unit) in [(0, 5), (3, 0), (4, 9)] {
                breaks(Clause::UndeclaredPositions, |state| {
                    change(&mut state.channels[channel].units[unit].position);
                });
            }
            keeps(|state| change(&mut state.channels[0].units[4].position));
            let mut state = State::default();
            change(&mut state.channels[4].units[9].position);
            assert_eq!(broken_clauses(&state), [Clause::UndeclaredPositions]);
        }
    }

    #[test]
    fn noise_passed() {
        let change = |state: &mut State, noise, noise_met| {
            request_of(state, 2, 0).noise = noise;
            state.channels[2].units[0].position.noise_met = noise_met;
        };
        keeps(|state| change(state, 0, true));
        for noise in [1, 100] {
            keeps(|state| change(state, noise, true));
            breaks(Clause::NoisePassed, |state| change(state, noise, false));
        }
        for noise in [101, 255, u64::MAX] {
            breaks(Clause::NoisePassed, |state| change(state, noise, true));
        }
        for operation in [Operation::Write, Operation::Mark] {
            breaks(Clause::NoisePassed, |state| {
                request_of(state, 1, 2).operation = operation;
                request_of(state, 1, 2).noise = 1;
                state.channels[1].units[2].position.noise_met = true;
            });
        }
    }

    /// Each of the fields.
    #[test]
    fn closed_files() {
        let changes: [fn(&mut FileState); 17] = [
            |file| file.channel = 1,
            |file| file.unit = 1,
            |file| file.output = true,
            |file| file.double = true,
            |file| file.sequence = true,
            |file| file.check = true,
            |file| file.block_size = 1,
            |file| file.record_length = 1,
            |file| file.turned = true,
            |file| file.number = 1,
            |file| file.marked = true,
            |file| file.low.number = 8,
            |file| file.low.slot = Slot::Taken,
            |file| file.low.slot = full(0, 0, 0),
            |file| file.high.number = 8,
            |file| file.high.slot = Slot::Taken,
            |file| file.high.slot = Slot::PartFilled { words: 0 },
        ];
        for change in changes {
            breaks(Clause::ClosedFiles, |state| change(&mut state.files[CLOSED]));
        }
    }

    #[test]
    fn missing_buffers() {
        breaks(Clause::MissingBuffers, |state| state.files[IDLE].high.number = 8);
        breaks(Clause::MissingBuffers, |state| state.files[WRITING].high.number = 1);
        for slot in [Slot::Taken, Slot::PartFilled { words: 2 }, full(1, 0, 0)] {
            breaks(Clause::MissingBuffers, |state| state.files[WRITING].high.slot = slot);
        }
        keeps(|state| {
            state.files[IDLE].double = true;
            state.files[IDLE].high.number = 8;
        });
    }

    #[test]
    fn block_orders() {
        for file in [INPUT, OUTPUT, WRITING, IDLE, READING] {
            breaks(Clause::BlockOrders, |state| state.files[file].turned = true);
        }
        for file in [INPUT, OUTPUT] {
            for turned in [false, true] {
                keeps(|state| {
                    state.files[file].low.slot = full(1, 0, 0);
                    state.files[file].high.slot = full(2, 0, 0);
                    state.files[file].turned = turned;
                });
            }
        }
        breaks(Clause::BlockOrders, |state| {
            state.files[OUTPUT].high.slot = full(1, 0, 0);
            state.files[OUTPUT].turned = true;
        });
    }

    #[test]
    fn output_zeros() {
        keeps(|state| state.files[INPUT].marked = true);
        breaks(Clause::OutputZeros, |state| state.files[OUTPUT].marked = true);
        keeps(|state| state.files[INPUT].low.slot = full(5, 1, 1));
        for (at, error, read_error) in [(1, 0, 0), (0, 1, 0), (0, 0, 4), (0, 0, 10), (1, 0, 4)] {
            let slot = Slot::Full { words: 4, at, error, read_error, found: Fields::default() };
            breaks(Clause::OutputZeros, |state| state.files[WRITING].low.slot = slot);
            breaks(Clause::OutputZeros, |state| state.files[OUTPUT].high.slot = slot);
        }
        for fields in [[1, 0, 0, 0], [0, 1, 0, 0], [0, 0, 1, 0], [0, 0, 0, 1]] {
            breaks(Clause::OutputZeros, |state| state.files[OUTPUT].high.slot = found(0, fields));
        }
    }

    #[test]
    fn held_once() {
        for number in [0, 1, 3, 4, 7] {
            breaks(Clause::HeldOnce, |state| state.files[IDLE].low.number = number);
        }
        for number in [3, 5, 6] {
            breaks(Clause::HeldOnce, |state| state.files[INPUT].high.number = number);
        }
        keeps(|state| state.files[IDLE].low.number = 8);
    }

    #[test]
    fn own_buffers() {
        breaks(Clause::OwnBuffers, |state| state.files[IDLE].low.number = 9);
        breaks(Clause::OwnBuffers, |state| state.files[INPUT].high.number = 9);
        keeps(|state| state.files[INPUT].high.number = 8);
        breaks(Clause::OwnBuffers, |state| state.files[INPUT].high.number = 0);
        breaks(Clause::OwnBuffers, |state| state.files[INPUT].low.number = 8);
        keeps(|state| state.buffers = 8);
        breaks(Clause::OwnBuffers, |state| state.buffers = 7);
    }

    /// The change alone breaks the clause of the mask and no other; with the mask that is right, the
    /// state is sound.
    fn needs_mask(right: u32, change: impl FnOnce(&mut State)) {
        let mut state = bench();
        change(&mut state);
        assert_eq!(broken_clauses(&state), [Clause::FreeMask]);
        state.free = right;
        assert_eq!(broken_clauses(&state), []);
    }

    /// Every other mask of the bench is wrong that differs in a bit or two, or in all.
    #[test]
    fn masks_of_the_bench() {
        for bit in 0..32 {
            needs_mask(256, |state| state.free ^= 1 << bit);
            for other in 0..bit {
                needs_mask(256, |state| state.free ^= 1 << bit | 1 << other);
            }
        }
        for wrong in [0, 0x1ff, u32::MAX, !256, 255, 128, 512] {
            needs_mask(256, |state| state.free = wrong);
        }
    }

    /// The mask goes with m and with the buffers of the open files.
    #[test]
    fn masks_go_with_the_pool_and_the_files() {
        needs_mask(0, |state| state.buffers = 8);
        needs_mask(0x300, |state| state.buffers = 10);
        needs_mask(0x7fff_ff00, |state| state.buffers = 31);
        needs_mask(0xffff_ff00, |state| state.buffers = 32);
        needs_mask(1 << 5, |state| state.files[IDLE].low.number = 8);
        needs_mask(1 << 1, |state| state.files[INPUT].high.number = 8);
        needs_mask(1 << 6 | 1 << 9, |state| {
            state.buffers = 10;
            (state.files[READING].low.number, state.files[READING].high.number) = (7, 8);
        });
        needs_mask(1 << 3 | 1 << 8, |state| {
            state.files[OUTPUT].double = false;
            state.files[OUTPUT].high = Buffer::default();
        });
        needs_mask(0, |state| {
            state.files[IDLE].double = true;
            state.files[IDLE].high.number = 8;
        });
        needs_mask(1 << 5 | 1 << 8, |state| state.files[IDLE] = FileState::default());
        needs_mask(0, |state| state.files[CLOSED] = file(4, buffer(8, Slot::Empty), None));
    }

    /// Which file holds a buffer does not matter.
    #[test]
    fn masks_of_buffers_that_changed_hands() {
        let mut state = bench();
        (state.files[IDLE].low.number, state.files[INPUT].high.number) = (1, 5);
        assert_eq!(broken_clauses(&state), []);
    }

    /// Pools without files: m ones, and before the first fresh start none.
    #[test]
    fn masks_of_pools_without_files() {
        for buffers in 0..=32 {
            let ones = ((1_u64 << buffers) - 1) as u32;
            let width = buffers.min(1);
            let sound = |free| is_sound(&State { buffers, width, free, ..State::default() });
            assert!(sound(ones));
            assert!((0..32).all(|bit| !sound(ones ^ 1 << bit)));
            assert_eq!([sound(0), sound(u32::MAX)], [buffers == 0, buffers == 32]);
        }
    }

    /// All 32 buffers are held by sixteen double files.
    #[test]
    fn the_mask_of_a_pool_that_is_taken() {
        let mut state = State { buffers: 32, width: 5, ..State::default() };
        for number in 0..16_usize {
            let (channel, unit) = (number / UNITS, number % UNITS);
            state.channels[channel].units[unit].declared = true;
            let [low, high] = [number, number + 16].map(|held| buffer(held as u64, Slot::Empty));
            state.files[number] = FileState { channel: channel as u64, ..file(unit as u64, low, Some(high)) };
        }
        assert_eq!(broken_clauses(&state), []);
        for bit in 0..32 {
            state.free = 1 << bit;
            assert_eq!(broken_clauses(&state), [Clause::FreeMask]);
        }
        state.files[3] = FileState::default();
        state.free = 1 << 3 | 1 << 19;
        assert_eq!(broken_clauses(&state), []);
    }

    #[test]
    fn declared_units() {
        keeps(|state| state.channels[0].units[4].declared = false);
        breaks(Clause::DeclaredUnits, |state| state.channels[0].units[3].declared = false);
        breaks(Clause::DeclaredUnits, |state| state.channels[2].units[0].declared = false);
    }

    #[test]
    fn own_units() {
        keeps(|state| state.files[IDLE].unit = 4);
        breaks(Clause::OwnUnits, |state| state.files[IDLE].unit = 0);
        breaks(Clause::OwnUnits, |state| state.files[IDLE].unit = 1);
    }

    #[test]
    fn fitting_requests() {
        for operation in [Operation::Read, Operation::Write, Operation::Mark] {
            // No file is open on this unit; the other one is not even declared.
            for (channel, unit) in [(0, 4), (3, 0)] {
                breaks(Clause::FittingRequests, |state| {
                    state.channels[channel].units[unit].request = request(operation, Turn::Working);
                });
            }
        }
        for operation in [Operation::Write, Operation::Mark] {
            breaks(Clause::FittingRequests, |state| {
                state.channels[0].units[INPUT].request = request(operation, Turn::Working);
            });
        }
        breaks(Clause::FittingRequests, |state| {
            state.files[OUTPUT].high.slot = Slot::Taken;
            state.channels[0].units[OUTPUT].request = request(Operation::Read, Turn::Working);
        });
        keeps(|state| {
            state.channels[0].units[OUTPUT].request = request(Operation::Mark, Turn::Working);
        });
    }

    /// The bench with a read of file 3 and a mark of file 1, both on channel 0.
    fn two_requests(state: &mut State, [read, mark]: [Turn; 2]) {
        state.files[IDLE].low.slot = Slot::Taken;
        state.channels[0].units[IDLE].request = request(Operation::Read, read);
        state.channels[0].units[OUTPUT].request = request(Operation::Mark, mark);
    }

    #[test]
    fn one_activity() {
        for frozen in [false, true] {
            breaks(Clause::OneActivity, |state| {
                state.frozen = frozen;
                two_requests(state, [Turn::Working, Turn::Working]);
            });
            keeps(|state| {
                state.frozen = frozen;
                two_requests(state, [Turn::Working, Turn::Waiting]);
            });
        }
    }

    #[test]
    fn no_idle_wait() {
        for turns in [[Turn::Waiting, Turn::Displaced], [Turn::Displaced, Turn::Waiting]] {
            breaks(Clause::NoIdleWait, |state| two_requests(state, turns));
            keeps(|state| {
                state.frozen = true;
                two_requests(state, turns);
            });
        }
        for turn in [Turn::Waiting, Turn::Displaced] {
            breaks(Clause::NoIdleWait, |state| request_of(state, 2, 0).turn = turn);
            keeps(|state| two_requests(state, [turn, Turn::Working]));
        }
    }

    #[test]
    fn taken_buffers() {
        breaks(Clause::TakenBuffers, |state| state.files[READING].low.slot = Slot::Empty);
        breaks(Clause::TakenBuffers, |state| state.files[READING].high.slot = Slot::Taken);
        keeps(|state| {
            state.files[READING].low.slot = full(1, 0, 0);
            state.files[READING].high.slot = Slot::Taken;
        });
        breaks(Clause::TakenBuffers, |state| state.channels[2].units[0].request = None);
        breaks(Clause::TakenBuffers, |state| state.files[IDLE].low.slot = Slot::Taken);
        breaks(Clause::TakenBuffers, |state| state.files[OUTPUT].high.slot = Slot::Taken);
    }

    #[test]
    fn written_blocks() {
        breaks(Clause::WrittenBlocks, |state| state.files[WRITING].low.slot = Slot::Empty);
        breaks(Clause::WrittenBlocks, |state| {
            state.channels[0].units[OUTPUT].request = request(Operation::Write, Turn::Working);
        });
        keeps(|state| {
            state.files[OUTPUT].high.slot = full(1, 0, 0);
            state.channels[0].units[OUTPUT].request = request(Operation::Write, Turn::Working);
        });
        keeps(|state| {
            state.files[WRITING].low.slot = Slot::Empty;
            request_of(state, 1, 2).operation = Operation::Mark;
        });
    }

    #[test]
    fn full_blocks() {
        for file in [INPUT, WRITING] {
            for words in [1, 5] {
                keeps(|state| state.files[file].low.slot = full(words, 0, 0));
            }
            for words in [0, 6, u64::MAX] {
                breaks(Clause::FullBlocks, |state| state.files[file].low.slot = full(words, 0, 0));
            }
        }
        breaks(Clause::FullBlocks, |state| state.files[OUTPUT].high.slot = full(6, 0, 0));
    }

    #[test]
    fn part_filled_files() {
        let part_filled = Slot::PartFilled { words: 2 };
        breaks(Clause::PartFilledFiles, |state| state.files[INPUT].high.slot = part_filled);
        breaks(Clause::PartFilledFiles, |state| state.files[IDLE].low.slot = part_filled);
        breaks(Clause::PartFilledFiles, |state| state.files[OUTPUT].high.slot = part_filled);
        keeps(|state| {
            state.files[OUTPUT].low.slot = full(5, 0, 0);
            state.files[OUTPUT].high.slot = part_filled;
        });
    }

    /// B = 5 and r = 2: two words or three.
    #[test]
    fn part_filled_words() {
        for words in [2, 3] {
            keeps(|state| state.files[OUTPUT].low.slot = Slot::PartFilled { words });
        }
        for words in [1, 4, 0, u64::MAX] {
            breaks(Clause::PartFilledWords, |state| {
                state.files[OUTPUT].low.slot = Slot::PartFilled { words };
            });
        }
    }

    #[test]
    fn places_of_get() {
        keeps(|state| state.files[INPUT].low.slot = full(4, 4, 0));
        breaks(Clause::PlacesOfGet, |state| state.files[INPUT].low.slot = full(4, 5, 0));
        keeps(|state| state.files[INPUT].high.slot = full(1, 1, 0));
        breaks(Clause::PlacesOfGet, |state| state.files[INPUT].high.slot = full(1, 2, 0));
    }

    #[test]
    fn attempts() {
        let limits =
            [(2, 0, Operation::Read, 101), (1, 2, Operation::Write, 27), (1, 2, Operation::Mark, 27)];
        for (channel, unit, operation, last) in limits {
            let change = |state: &mut State, attempt| {
                let request = request_of(state, channel, unit);
                (request.operation, request.attempt) = (operation, attempt);
            };
            keeps(|state| change(state, last));
            breaks(Clause::Attempts, |state| change(state, last + 1));
            breaks(Clause::Attempts, |state| change(state, 0));
        }
    }

    /// Reading F1: sound states that no calls lead to.
    #[test]
    fn f1_states_that_no_calls_lead_to() {
        keeps(|state| {
            state.files[INPUT].low.slot = full(5, 5, 3);
            state.files[INPUT].high.slot = full(2, 2, 1);
        });
        keeps(|state| state.files[READING].marked = true);
        keeps(|state| {
            let request = request_of(state, 2, 0);
            (request.attempt, request.incomplete_words) = (1, 1);
        });
    }
}
