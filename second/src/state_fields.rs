//! The fields of a state by number: how a script changes one, and how a state is printed.

use crate::channel::{Operation, Position, Request, Turn, UNITS};
use crate::pack::{CHANNELS, FILES};
use crate::routine::DEEPEST;
use crate::state::{
    Buffer, ChannelState, FileState, ProgramState, ProgramsState, RoutineState, Slot, State, UnitState,
};
use crate::word::Fields;

/// The fields of a file.
pub const OPENED: u64 = 0;
pub const CHANNEL: u64 = 1;
pub const UNIT: u64 = 2;
pub const OUTPUT: u64 = 3;
pub const DOUBLE: u64 = 4;
pub const SEQUENCE: u64 = 5;
pub const CHECK: u64 = 6;
pub const BLOCK_SIZE: u64 = 7;
pub const RECORD_LENGTH: u64 = 8;
pub const TURNED: u64 = 9;
pub const NUMBER: u64 = 10;
pub const MARKED: u64 = 11;
/// The first of the ten fields of each buffer.
pub const LOW: u64 = 12;
pub const HIGH: u64 = LOW + BUFFER_FIELDS;
pub const FILE_FIELDS: u64 = HIGH + BUFFER_FIELDS;

/// The fields of a buffer, counted from its first.
pub const BUFFER_NUMBER: u64 = 0;
pub const SLOT_KIND: u64 = 1;
pub const WORDS: u64 = 2;
pub const AT: u64 = 3;
pub const ERROR: u64 = 4;
pub const READ_ERROR: u64 = 5;
pub const FOUND_SUM: u64 = 6;
pub const FOUND_NUMBER: u64 = 7;
pub const SUM_READ: u64 = 8;
pub const NUMBER_READ: u64 = 9;
pub const BUFFER_FIELDS: u64 = 10;

/// The kinds of slots.
pub const EMPTY: u64 = 0;
pub const TAKEN: u64 = 1;
pub const PART_FILLED: u64 = 2;
pub const FULL: u64 = 3;

/// The fields of a unit.
pub const DECLARED: u64 = 0;
pub const TURN_KIND: u64 = 1;
pub const OPERATION: u64 = 2;
pub const PRIORITY: u64 = 3;
pub const ATTEMPTS: u64 = 4;
pub const INCOMPLETE: u64 = 5;
pub const NOISE: u64 = 6;
pub const MARKS: u64 = 7;
pub const RECORDS: u64 = 8;
pub const NOISE_MET: u64 = 9;
pub const UNIT_FIELDS: u64 = 10;

/// The kinds of turns.
pub const IDLE: u64 = 0;
pub const WAITING: u64 = 1;
pub const DISPLACED: u64 = 2;
pub const WORKING: u64 = 3;

/// The fields of the pool.
pub const BUFFERS: u64 = 0;
pub const WIDTH: u64 = 1;
pub const FROZEN: u64 = 2;
pub const FREE: u64 = 3;
pub const POOL_FIELDS: u64 = 4;

/// The marks of a channel: that of the scan for ordinary requests, and that for priority ones.
pub const ORDINARY_MARK: u64 = 0;
pub const PRIORITY_MARK: u64 = 1;
pub const CHANNEL_MARKS: u64 = 2;

/// The places of programs (M-110): what runs, then the push-down list from the bottom up.
pub const RUNNING: u64 = 0;
pub const PLACES: u64 = 1 + DEEPEST as u64;

/// The fields of a program.
pub const RANK: u64 = 0;
pub const PROGRAM_CHANNEL: u64 = 1;
pub const PROGRAM_UNIT: u64 = 2;
pub const ROUTINE: u64 = 3;
pub const PROGRAM_FIELDS: u64 = 4;

/// What stands with a unit: the rank and the routine that its request names, and those that wait there.
pub const NAMED_RANK: u64 = 0;
pub const NAMED_ROUTINE: u64 = 1;
pub const WAITING_RANK: u64 = 2;
pub const WAITING_ROUTINE: u64 = 3;
pub const POST_FIELDS: u64 = 4;

/// What ends the units of a channel, the files, the programs, and a printed state.
const NO_MORE_UNITS: u64 = UNITS as u64;
const NO_MORE_FILES: u64 = FILES as u64;
const NO_MORE_PLACES: u64 = PLACES;
const NO_MORE_POSTS: u64 = CHANNELS as u64;

/// Sets a field of a file. A number that the slot's kind has not is not set.
pub fn set_file_field(file: &mut FileState, field: u64, value: u64) {
    let flag = value != 0;
    match field {
        OPENED => file.opened = flag,
        CHANNEL => file.channel = value,
        UNIT => file.unit = value,
        OUTPUT => file.output = flag,
        DOUBLE => file.double = flag,
        SEQUENCE => file.sequence = flag,
        CHECK => file.check = flag,
        BLOCK_SIZE => file.block_size = value,
        RECORD_LENGTH => file.record_length = value,
        TURNED => file.turned = flag,
        NUMBER => file.number = value,
        MARKED => file.marked = flag,
        LOW..HIGH => set_buffer_field(&mut file.low, field - LOW, value),
        _ => set_buffer_field(&mut file.high, field - HIGH, value),
    }
}

/// Setting the kind makes a slot of that kind with zeros.
fn set_buffer_field(buffer: &mut Buffer, field: u64, value: u64) {
    match (field, &mut buffer.slot) {
        (BUFFER_NUMBER, _) => buffer.number = value,
        (SLOT_KIND, slot) => *slot = slot_of_kind(value),
        (WORDS, Slot::PartFilled { words } | Slot::Full { words, .. }) => *words = value,
        (AT, Slot::Full { at, .. }) => *at = value,
        (ERROR, Slot::Full { error, .. }) => *error = value,
        (READ_ERROR, Slot::Full { read_error, .. }) => *read_error = value,
        (FOUND_SUM, Slot::Full { found, .. }) => found.sum = value,
        (FOUND_NUMBER, Slot::Full { found, .. }) => found.number = value,
        (SUM_READ, Slot::Full { found, .. }) => found.sum_read = value,
        (NUMBER_READ, Slot::Full { found, .. }) => found.number_read = value,
        _ => {}
    }
}

fn slot_of_kind(kind: u64) -> Slot {
    match kind {
        TAKEN => Slot::Taken,
        PART_FILLED => Slot::PartFilled { words: 0 },
        FULL => Slot::Full { words: 0, at: 0, error: 0, read_error: 0, found: Fields::default() },
        _ => Slot::Empty,
    }
}

/// Sets a field of a unit. An idle one has no request that could change.
pub fn set_unit_field(unit: &mut UnitState, field: u64, value: u64) {
    match (field, &mut unit.request) {
        (DECLARED, _) => unit.declared = value != 0,
        (TURN_KIND, _) => set_turn(unit, value),
        (OPERATION, Some(request)) => request.operation = Operation::of(value).unwrap_or(Operation::Mark),
        (PRIORITY, Some(request)) => request.priority = value != 0,
        (ATTEMPTS, Some(request)) => request.attempt = value,
        (INCOMPLETE, Some(request)) => request.incomplete_words = value,
        (NOISE, Some(request)) => request.noise = value,
        (MARKS, _) => unit.position.marks = value,
        (RECORDS, _) => unit.position.records = value,
        (NOISE_MET, _) => unit.position.noise_met = value != 0,
        _ => {}
    }
}

/// The request stays if there is one; else it is an ordinary read with zeros.
fn set_turn(unit: &mut UnitState, kind: u64) {
    let turn = match kind {
        WAITING => Turn::Waiting,
        DISPLACED => Turn::Displaced,
        WORKING => Turn::Working,
        _ => {
            unit.request = None;
            return;
        }
    };
    let zeros = Request {
        operation: Operation::Read,
        priority: false,
        turn,
        attempt: 0,
        incomplete_words: 0,
        noise: 0,
    };
    unit.request.get_or_insert(zeros).turn = turn;
}

/// Sets a field of the pool. The mask of the free buffers is taken modulo 2^32.
pub fn set_pool_field(state: &mut State, field: u64, value: u64) {
    match field {
        BUFFERS => state.buffers = value,
        WIDTH => state.width = value,
        FREE => state.free = value as u32,
        _ => state.frozen = value != 0,
    }
}

/// Sets one of the two marks of a channel.
pub fn set_scan_mark(channel: &mut ChannelState, mark: u64, value: u64) {
    match mark {
        ORDINARY_MARK => channel.mark = value,
        _ => channel.priority_mark = value,
    }
}

/// Sets a field of a program; the place is that of what runs or one of the list.
pub fn set_program_field(programs: &mut ProgramsState, place: u64, field: u64, value: u64) {
    let program = match place {
        RUNNING => &mut programs.runs,
        _ => &mut programs.list[place as usize - 1],
    };
    match field {
        RANK => program.rank = value,
        PROGRAM_CHANNEL => program.channel = value,
        PROGRAM_UNIT => program.unit = value,
        _ => program.routine = value,
    }
}

/// Sets a field of what stands with a unit, whether it has a request or not.
pub fn set_post_field(unit: &mut UnitState, field: u64, value: u64) {
    match field {
        NAMED_RANK => unit.named.rank = value,
        NAMED_ROUTINE => unit.named.routine = value,
        WAITING_RANK => unit.waiting.rank = value,
        _ => unit.waiting.routine = value,
    }
}

/// The fields of a file in their order; what a slot's kind has not is 0.
pub fn file_fields(file: &FileState) -> Vec<u64> {
    let [opened, output, double] = [file.opened, file.output, file.double].map(u64::from);
    let [sequence, check] = [file.sequence, file.check].map(u64::from);
    let [turned, marked] = [file.turned, file.marked].map(u64::from);
    let mut fields = vec![opened, file.channel, file.unit, output, double, sequence, check];
    fields.extend([file.block_size, file.record_length, turned, file.number, marked]);
    fields.extend(buffer_fields(&file.low));
    fields.extend(buffer_fields(&file.high));
    fields
}

fn buffer_fields(buffer: &Buffer) -> [u64; BUFFER_FIELDS as usize] {
    let nothing = Fields::default();
    let (kind, words, at, errors, found) = match buffer.slot {
        Slot::Empty => (EMPTY, 0, 0, [0, 0], nothing),
        Slot::Taken => (TAKEN, 0, 0, [0, 0], nothing),
        Slot::PartFilled { words } => (PART_FILLED, words, 0, [0, 0], nothing),
        Slot::Full { words, at, error, read_error, found } => (FULL, words, at, [error, read_error], found),
    };
    let [sum, number, sum_read, number_read] = found.in_order();
    [buffer.number, kind, words, at, errors[0], errors[1], sum, number, sum_read, number_read]
}

/// The fields of a unit in their order; an idle one has zeros where a request has its own.
pub fn unit_fields(unit: &UnitState) -> [u64; UNIT_FIELDS as usize] {
    let [kind, operation, priority, attempt, incomplete_words, noise] =
        unit.request.as_ref().map_or([IDLE; 6], request_fields);
    let Position { marks, records, noise_met } = unit.position;
    let [declared, met] = [unit.declared, noise_met].map(u64::from);
    [declared, kind, operation, priority, attempt, incomplete_words, noise, marks, records, met]
}

/// `turn operation priority attempts incomplete noise` of a request.
pub fn request_fields(request: &Request) -> [u64; 6] {
    let kind = match request.turn {
        Turn::Waiting => WAITING,
        Turn::Displaced => DISPLACED,
        Turn::Working => WORKING,
    };
    let [operation, priority] = [request.operation.number(), u64::from(request.priority)];
    [kind, operation, priority, request.attempt, request.incomplete_words, request.noise]
}

/// The fields of the pool in their order.
pub fn pool_fields(state: &State) -> [u64; 4] {
    [state.buffers, state.width, u64::from(state.frozen), u64::from(state.free)]
}

/// The marks of a channel in their order.
pub fn scan_marks(channel: &ChannelState) -> [u64; 2] {
    [channel.mark, channel.priority_mark]
}

/// The fields of a program in their order.
pub fn program_fields(program: &ProgramState) -> [u64; PROGRAM_FIELDS as usize] {
    [program.rank, program.channel, program.unit, program.routine]
}

/// The programs of all places in their order.
pub fn places(programs: &ProgramsState) -> impl Iterator<Item = &ProgramState> {
    [&programs.runs].into_iter().chain(&programs.list)
}

/// What stands with a unit, in its order.
pub fn post_fields(unit: &UnitState) -> [u64; POST_FIELDS as usize] {
    let RoutineState { rank, routine } = unit.waiting;
    [unit.named.rank, unit.named.routine, rank, routine]
}

/// A state as it is printed: what is all zero is left out.
pub fn state_numbers(state: &State) -> Vec<u64> {
    let mut numbers = pool_fields(state).to_vec();
    for channel in &state.channels {
        numbers.extend(channel_numbers(channel));
    }
    for (number, file) in state.files.iter().enumerate() {
        if *file != FileState::default() {
            numbers.push(number as u64);
            numbers.extend(file_fields(file));
        }
    }
    numbers.push(NO_MORE_FILES);
    numbers.extend(program_numbers(&state.programs));
    numbers.extend(post_numbers(state));
    numbers
}

fn channel_numbers(channel: &ChannelState) -> Vec<u64> {
    let mut numbers = scan_marks(channel).to_vec();
    for (number, unit) in channel.units.iter().enumerate() {
        let fields = unit_fields(unit);
        if fields.iter().any(|&field| field != 0) {
            numbers.push(number as u64);
            numbers.extend(fields);
        }
    }
    numbers.push(NO_MORE_UNITS);
    numbers
}

/// The depth, then each place that is not all zero.
fn program_numbers(programs: &ProgramsState) -> Vec<u64> {
    let mut numbers = vec![programs.depth];
    for (place, program) in places(programs).enumerate() {
        if *program != ProgramState::default() {
            numbers.push(place as u64);
            numbers.extend(program_fields(program));
        }
    }
    numbers.push(NO_MORE_PLACES);
    numbers
}

/// Each unit at which something is named or waits, with its channel and its number.
fn post_numbers(state: &State) -> Vec<u64> {
    let mut numbers = Vec::new();
    for (channel, state) in state.channels.iter().enumerate() {
        for (unit, post) in state.units.iter().map(post_fields).enumerate() {
            if post != [0; POST_FIELDS as usize] {
                numbers.extend([channel as u64, unit as u64]);
                numbers.extend(post);
            }
        }
    }
    numbers.push(NO_MORE_POSTS);
    numbers
}

#[cfg(test)]
mod tests {
    use super::*;

    /// Each field is set and found where it belongs; no other one changes.
    #[test]
    fn fields_of_a_file() {
        for field in 0..FILE_FIELDS {
            let mut file = FileState::default();
            for side in [LOW, HIGH] {
                set_file_field(&mut file, side + SLOT_KIND, FULL);
            }
            let mut expected = file_fields(&file);
            assert_eq!(expected.len() as u64, FILE_FIELDS);
            set_file_field(&mut file, field, 1);
            expected[field as usize] = 1;
            assert_eq!(file_fields(&file), expected, "{field}");
        }
    }

    /// Any number but 0 is a flag that is set.
    #[test]
    fn flags_are_0_or_1() {
        for field in [OPENED, OUTPUT, DOUBLE, SEQUENCE, CHECK, TURNED, MARKED] {
            let mut file = FileState::default();
            set_file_field(&mut file, field, 200);
            assert_eq!(file_fields(&file)[field as usize], 1);
        }
        let mut state = State::default();
        set_pool_field(&mut state, FROZEN, 2);
        assert_eq!(pool_fields(&state), [0, 0, 1, 0]);
    }

    /// Each field of the pool is found where it was set; the mask has 32 bits.
    #[test]
    fn fields_of_the_pool() {
        let mut state = State::default();
        for (field, value) in [(BUFFERS, 7), (WIDTH, 8), (FROZEN, 1), (FREE, 9)] {
            set_pool_field(&mut state, field, value);
        }
        assert_eq!(pool_fields(&state), [7, 8, 1, 9]);
        for (value, free) in [(1 << 31, 1 << 31), (1 << 32, 0), (u64::MAX, (1 << 32) - 1), (5 << 32 | 6, 6)] {
            set_pool_field(&mut state, FREE, value);
            assert_eq!(pool_fields(&state), [7, 8, 1, free]);
        }
    }

    /// Setting a kind makes a slot with zeros; a number that the kind has not is not set.
    #[test]
    fn slots_and_their_numbers() {
        let mut buffer = Buffer::default();
        let mut set = |kind: u64| {
            for (field, value) in [(BUFFER_NUMBER, 6), (SLOT_KIND, kind), (WORDS, 7), (AT, 8), (ERROR, 9)] {
                set_buffer_field(&mut buffer, field, value);
            }
            set_buffer_field(&mut buffer, READ_ERROR, 10);
            for field in FOUND_SUM..=NUMBER_READ {
                set_buffer_field(&mut buffer, field, 100 + field);
            }
            buffer_fields(&buffer)
        };
        assert_eq!(set(FULL), [6, FULL, 7, 8, 9, 10, 106, 107, 108, 109]);
        assert_eq!(set(PART_FILLED), [6, PART_FILLED, 7, 0, 0, 0, 0, 0, 0, 0]);
        assert_eq!(set(TAKEN), [6, TAKEN, 0, 0, 0, 0, 0, 0, 0, 0]);
        assert_eq!(set(4), [6, EMPTY, 0, 0, 0, 0, 0, 0, 0, 0]);
        set_buffer_field(&mut buffer, SLOT_KIND, FULL);
        assert_eq!(buffer_fields(&buffer), [6, FULL, 0, 0, 0, 0, 0, 0, 0, 0]);
    }

    /// A kind keeps the request that is there; an idle unit has none.
    #[test]
    fn units_and_their_requests() {
        let mut unit = UnitState::default();
        let set = |unit: &mut UnitState, fields: &[(u64, u64)]| {
            for &(field, value) in fields {
                set_unit_field(unit, field, value);
            }
            unit_fields(unit)
        };
        let counts = [(OPERATION, 1), (PRIORITY, 1), (ATTEMPTS, 50), (INCOMPLETE, 2), (NOISE, 60)];
        assert_eq!(set(&mut unit, &counts), [0; 10]);
        assert_eq!(set(&mut unit, &[(TURN_KIND, WAITING)]), [0, WAITING, 0, 0, 0, 0, 0, 0, 0, 0]);
        assert_eq!(set(&mut unit, &counts), [0, WAITING, 1, 1, 50, 2, 60, 0, 0, 0]);
        let turned = set(&mut unit, &[(TURN_KIND, WORKING), (DECLARED, 1)]);
        assert_eq!(turned, [1, WORKING, 1, 1, 50, 2, 60, 0, 0, 0]);
        let turned = set(&mut unit, &[(TURN_KIND, DISPLACED), (OPERATION, 7), (MARKS, 3), (RECORDS, 4)]);
        assert_eq!(turned, [1, DISPLACED, 2, 1, 50, 2, 60, 3, 4, 0]);
        let idle = set(&mut unit, &[(TURN_KIND, 4), (NOISE_MET, 200)]);
        assert_eq!(idle, [1, IDLE, 0, 0, 0, 0, 0, 3, 4, 1]);
        assert_eq!(set(&mut unit, &[(TURN_KIND, WORKING)]), [1, WORKING, 0, 0, 0, 0, 0, 3, 4, 1]);
        assert_eq!(set(&mut unit, &[(NOISE_MET, 0), (RECORDS, 0)]), [1, WORKING, 0, 0, 0, 0, 0, 3, 0, 0]);
    }

    /// What is all zero is left out.
    #[test]
    fn states_as_they_are_printed() {
        let mut state = State::default();
        let mut expected = vec![0; 4];
        expected.extend([0, 0, 10].repeat(5));
        expected.extend([16, 0, 5, 5]);
        assert_eq!(state_numbers(&state), expected);
        set_pool_field(&mut state, BUFFERS, 3);
        set_pool_field(&mut state, WIDTH, 5);
        set_pool_field(&mut state, FREE, 4_294_967_295);
        set_scan_mark(&mut state.channels[1], ORDINARY_MARK, 7);
        set_scan_mark(&mut state.channels[1], PRIORITY_MARK, 6);
        set_scan_mark(&mut state.channels[3], PRIORITY_MARK, 200);
        set_unit_field(&mut state.channels[1].units[9], DECLARED, 1);
        set_unit_field(&mut state.channels[4].units[0], TURN_KIND, WORKING);
        set_file_field(&mut state.files[15], NUMBER, 2);
        let mut expected = vec![3, 5, 0, 4_294_967_295, 0, 0, 10, 7, 6, 9, 1, 0, 0, 0, 0, 0, 0, 0, 0, 0, 10];
        expected.extend([0, 0, 10, 0, 200, 10, 0, 0, 0, 0, 3, 0, 0, 0, 0, 0, 0, 0, 0, 10, 15]);
        expected.extend([0, 0, 0, 0, 0, 0, 0, 0, 0, 0, 2, 0]);
        expected.extend([0; 2 * BUFFER_FIELDS as usize]);
        expected.extend([16, 0, 5, 5]);
        assert_eq!(state_numbers(&state), expected);
    }

    /// Programs by their places and posts by their units; a place past the depth is printed too.
    #[test]
    fn programs_and_posts_as_they_are_printed() {
        let mut state = State::default();
        state.programs.depth = 200;
        for (place, value) in [(0, 20), (2, 40), (4, 60)] {
            for field in 0..PROGRAM_FIELDS {
                set_program_field(&mut state.programs, place, field, value + field);
            }
        }
        for (channel, unit, value) in [(0, 9, 70), (3, 0, 80)] {
            for field in 0..POST_FIELDS {
                set_post_field(&mut state.channels[channel].units[unit], field, value + field);
            }
        }
        set_post_field(&mut state.channels[4].units[1], WAITING_ROUTINE, 1);
        let mut expected = vec![0; 4];
        expected.extend([0, 0, 10].repeat(5));
        expected.extend([16, 200, 0, 20, 21, 22, 23, 2, 40, 41, 42, 43, 4, 60, 61, 62, 63, 5]);
        expected.extend([0, 9, 70, 71, 72, 73, 3, 0, 80, 81, 82, 83, 4, 1, 0, 0, 0, 1, 5]);
        assert_eq!(state_numbers(&state), expected);
    }
}
