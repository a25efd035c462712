//! From a sound state to the pack that it stands for, and back. Each sound state stands for one pack
//! and each pack has one sound state, so there and back is where one began.

use crate::channel::{Channel, UNITS};
use crate::file::{Block, Direction, File, PartFilled};
use crate::pack::Pack;
use crate::routine::{Entered, Program, Routine, Schedule};
use crate::state::{
    Buffer, ChannelState, FileState, ProgramState, ProgramsState, RoutineState, Slot, State, UnitState,
};

/// The pack of a sound state, with the area that the caller lends. It finds the free buffers from its
/// files, as the mask of a sound state tells them.
pub fn pack_of(state: &State, area: &[u64]) -> Pack {
    Pack {
        channels: std::array::from_fn(|number| channel_of(&state.channels[number], state.frozen)),
        files: std::array::from_fn(|number| {
            let file = &state.files[number];
            file.opened.then(|| file_of(file))
        }),
        schedule: Schedule {
            runs: program_of(&state.programs.runs),
            pushed: state.programs.pushed().iter().map(program_of).collect(),
        },
        buffers: state.buffers as usize,
        width: state.width as usize,
        area: area.to_vec(),
    }
}

/// The state of a pack.
pub fn state_of(pack: &Pack) -> State {
    State {
        buffers: pack.buffers as u64,
        width: pack.width as u64,
        // All channels are frozen together.
        frozen: pack.channels[0].frozen,
        free: pack.free_buffers().iter().fold(0, |mask, buffer| mask | 1 << buffer),
        channels: std::array::from_fn(|number| channel_state(&pack.channels[number])),
        files: std::array::from_fn(|number| pack.files[number].as_ref().map(file_state).unwrap_or_default()),
        programs: ProgramsState {
            runs: program_state(&pack.schedule.runs),
            depth: pack.schedule.pushed.len() as u64,
            list: std::array::from_fn(|place| {
                pack.schedule.pushed.get(place).map(program_state).unwrap_or_default()
            }),
        },
    }
}

fn program_of(state: &ProgramState) -> Program {
    let named = routine_of(&RoutineState { rank: state.rank, routine: state.routine });
    named.map_or(Program::Main, |routine| {
        Program::Special(Entered { channel: state.channel as usize, unit: state.unit as usize, routine })
    })
}

fn program_state(program: &Program) -> ProgramState {
    match program {
        Program::Main => ProgramState::default(),
        Program::Special(entered) => {
            let RoutineState { rank, routine } = routine_state(Some(entered.routine));
            ProgramState { rank, channel: entered.channel as u64, unit: entered.unit as u64, routine }
        }
    }
}

/// A rank is one above the priority.
fn routine_of(state: &RoutineState) -> Option<Routine> {
    let level = state.rank.checked_sub(1)?;
    Some(Routine { number: state.routine, level })
}

fn routine_state(routine: Option<Routine>) -> RoutineState {
    routine.map_or(RoutineState::default(), |routine| RoutineState {
        rank: routine.level + 1,
        routine: routine.number,
    })
}

fn channel_of(state: &ChannelState, frozen: bool) -> Channel {
    Channel {
        declared: std::array::from_fn(|unit| state.units[unit].declared),
        requests: std::array::from_fn(|unit| state.units[unit].request.clone()),
        named: std::array::from_fn(|unit| routine_of(&state.units[unit].named)),
        waiting: std::array::from_fn(|unit| routine_of(&state.units[unit].waiting)),
        positions: std::array::from_fn(|unit| state.units[unit].position),
        scan_begin: state.mark as usize,
        priority_begin: state.priority_mark as usize,
        frozen,
    }
}

fn channel_state(channel: &Channel) -> ChannelState {
    let unit_state = |unit: usize| UnitState {
        declared: channel.declared[unit],
        request: channel.requests[unit].clone(),
        position: channel.positions[unit],
        named: routine_state(channel.named[unit]),
        waiting: routine_state(channel.waiting[unit]),
    };
    let units: [UnitState; UNITS] = std::array::from_fn(unit_state);
    ChannelState { mark: channel.scan_begin as u64, priority_mark: channel.priority_begin as u64, units }
}

fn file_of(state: &FileState) -> File {
    let buffers = state.buffers();
    let mut full: Vec<Block> = buffers.iter().filter_map(block_of).collect();
    // The older block goes first.
    if state.turned {
        full.reverse();
    }
    File {
        channel: state.channel as usize,
        unit: state.unit as usize,
        direction: if state.output { Direction::Output } else { Direction::Input },
        chosen: state.chosen(),
        block_size: state.block_size as usize,
        record_length: state.record_length as usize,
        buffers: buffers.iter().map(|buffer| buffer.number as usize).collect(),
        number: state.number,
        mark_read: state.marked,
        taken: buffers.iter().find(|buffer| buffer.slot == Slot::Taken).map(|buffer| buffer.number as usize),
        part_filled: buffers.iter().find_map(part_filled_of),
        full: full.into(),
    }
}

fn block_of(buffer: &Buffer) -> Option<Block> {
    let Slot::Full { words, at, error, read_error, found } = buffer.slot else {
        return None;
    };
    Some(Block {
        buffer: buffer.number as usize,
        data_words: words as usize,
        place: at as usize,
        error: error as u8,
        read_error: read_error as u8,
        found,
    })
}

fn part_filled_of(buffer: &Buffer) -> Option<PartFilled> {
    let Slot::PartFilled { words } = buffer.slot else {
        return None;
    };
    Some(PartFilled { buffer: buffer.number as usize, data_words: words as usize })
}

fn file_state(file: &File) -> FileState {
    let high = file.buffers.get(1);
    FileState {
        opened: true,
        channel: file.channel as u64,
        unit: file.unit as u64,
        output: file.direction == Direction::Output,
        double: high.is_some(),
        sequence: file.chosen.sequence,
        check: file.chosen.check,
        block_size: file.block_size as u64,
        record_length: file.record_length as u64,
        turned: file.full.len() == 2 && Some(&file.full[0].buffer) == high,
        number: file.number,
        marked: file.mark_read,
        low: buffer_state(file, file.buffers[0]),
        high: high.map(|&buffer| buffer_state(file, buffer)).unwrap_or_default(),
    }
}

fn buffer_state(file: &File, buffer: usize) -> Buffer {
    let part_filled = file.part_filled.as_ref().filter(|part| part.buffer == buffer);
    let full = file.full.iter().find(|block| block.buffer == buffer);
    let slot = match (part_filled, full) {
        (Some(part), _) => Slot::PartFilled { words: part.data_words as u64 },
        (_, Some(block)) => Slot::Full {
            words: block.data_words as u64,
            at: block.place as u64,
            error: u64::from(block.error),
            read_error: u64::from(block.read_error),
            found: block.found,
        },
        _ if file.taken == Some(buffer) => Slot::Taken,
        _ => Slot::Empty,
    };
    Buffer { number: buffer as u64, slot }
}

#[cfg(test)]
mod tests {
    use super::*;
    use crate::channel::{Operation, Position, Request, Turn};
    use crate::sound::is_sound;
    use crate::word::Fields;

    /// A full block of a file with sequence numbers; the number that was read is wrong if there is an error.
    fn full(words: u64, at: u64, error: u64) -> Slot {
        let found = Fields { number: error * words, ..Fields::default() };
        Slot::Full { words, at, error, read_error: 0, found }
    }

    /// A block that was kept after a permanent error of its read.
    fn kept(words: u64, error: u64, read_error: u64) -> Slot {
        let found = Fields { number: error * words, ..Fields::default() };
        Slot::Full { words, at: 0, error, read_error, found }
    }

    /// A pool of five buffers of four words, and a double file on unit 7 of channel 3; it holds 1 and 4.
    fn state_with(output: bool, low: Slot, high: Slot) -> State {
        let mut state = State { buffers: 5, width: 4, free: 0b01101, ..State::default() };
        state.channels[3].mark = 9;
        state.channels[3].priority_mark = 4;
        state.channels[3].units[7].declared = true;
        state.files[15] = FileState {
            opened: true,
            channel: 3,
            unit: 7,
            output,
            double: true,
            sequence: true,
            check: false,
            block_size: 3,
            record_length: 1,
            turned: false,
            number: 32_767,
            marked: !output,
            low: Buffer { number: 1, slot: low },
            high: Buffer { number: 4, slot: high },
        };
        state
    }

    fn there_and_back(state: &State) -> Pack {
        assert!(is_sound(state));
        let pack = pack_of(state, &[7, 8]);
        assert_eq!(&state_of(&pack), state);
        assert_eq!(pack.area, [7, 8]);
        pack
    }

    #[test]
    fn the_first_state() {
        assert_eq!(there_and_back(&State::default()), Pack { area: vec![7, 8], ..Pack::new(0) });
        let mut frozen = Pack { area: vec![7, 8], ..Pack::new(0) };
        frozen.freeze();
        assert_eq!(there_and_back(&State { frozen: true, ..State::default() }), frozen);
    }

    #[test]
    fn slots_of_all_kinds() {
        let input = [Slot::Empty, full(3, 0, 1), full(2, 2, 0), kept(3, 1, 10), kept(1, 0, 4)];
        let output = [Slot::Empty, full(3, 0, 0), Slot::PartFilled { words: 2 }];
        for (is_output, slots) in [(false, &input[..]), (true, &output)] {
            for low in slots {
                for high in slots.iter().filter(|high| !(low.is_part_filled() && high.is_part_filled())) {
                    there_and_back(&state_with(is_output, *low, *high));
                }
            }
        }
    }

    /// The older block goes first, whatever its buffer.
    #[test]
    fn the_order_of_two_blocks() {
        let mut state = state_with(false, full(1, 0, 0), full(3, 1, 1));
        let buffers = |pack: &Pack| -> Vec<usize> {
            pack.file(15).expect("an open file").full.iter().map(|block| block.buffer).collect()
        };
        assert_eq!(buffers(&there_and_back(&state)), [1, 4]);
        state.files[15].turned = true;
        assert_eq!(buffers(&there_and_back(&state)), [4, 1]);
    }

    #[test]
    fn a_request_with_its_counts_and_a_taken_buffer() {
        let mut state = state_with(false, full(2, 1, 0), Slot::Taken);
        let request = Request {
            operation: Operation::Read,
            priority: true,
            turn: Turn::Displaced,
            attempt: 101,
            incomplete_words: 1,
            noise: 100,
        };
        let position = Position { marks: 32_767, records: 5, noise_met: true };
        state.channels[3].units[7].request = Some(request.clone());
        state.channels[3].units[7].position = position;
        state.frozen = true;
        let pack = there_and_back(&state);
        assert_eq!(pack.channels[3].request(7), Some(&request));
        assert_eq!(pack.channels[3].positions[7], position);
        assert_eq!(pack.file(15).and_then(|file| file.taken), Some(4));
    }

    #[test]
    fn a_single_file_has_no_high_buffer() {
        let mut state = state_with(true, Slot::PartFilled { words: 1 }, Slot::Empty);
        state.files[15].double = false;
        state.free = 0b11101;
        state.files[15].high = Buffer::default();
        assert_eq!(there_and_back(&state).file(15).expect("an open file").buffers, [1]);
    }
}
