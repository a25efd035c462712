//! What soundness says of special routines (document 02, M-110), clause by clause. A clause that cannot be
//! judged does not count as broken.

use crate::channel::UNITS;
use crate::pack::CHANNELS;
use crate::routine::{DEEPEST, HIGHEST_LEVEL, LAST_ROUTINE};
use crate::state::{ProgramState, RoutineState, State, UnitState};

/// The rank of priority 4.
const HIGHEST_RANK: u64 = HIGHEST_LEVEL + 1;

/// "a list of at most four".
pub fn list_depth(state: &State) -> bool {
    state.programs.depth <= DEEPEST as u64
}

/// "levels and numbers in range", of what runs and of the list.
pub fn program_numbers(state: &State) -> bool {
    state.programs.in_order().all(|program| {
        program.rank <= HIGHEST_RANK
            && program.channel < CHANNELS as u64
            && program.unit < UNITS as u64
            && program.routine <= LAST_ROUTINE
    })
}

/// "zero where nothing is meant": the main program has neither unit nor number, and past the depth the list
/// has nothing.
pub fn program_zeros(state: &State) -> bool {
    let zero = ProgramState::default();
    let mains = state.programs.in_order().filter(|program| program.rank == 0);
    let past = &state.programs.list[state.programs.pushed().len()..];
    mains.chain(past).all(|program| *program == zero)
}

/// "the main program at the bottom exactly if a routine runs".
pub fn main_program(state: &State) -> bool {
    let at_the_bottom = state.programs.pushed().first().is_some_and(|program| program.rank == 0);
    at_the_bottom == (state.programs.runs.rank > 0)
}

/// "priorities rise strictly from the bottom of the list to what runs".
pub fn rising_priorities(state: &State) -> bool {
    let ranks: Vec<u64> = state.programs.in_order().map(|program| program.rank).collect();
    ranks.windows(2).all(|two| two[0] < two[1])
}

/// "the unit of every routine ... running or pushed, is declared"; so "the main program runs before the first
/// fresh start".
pub fn routine_units(state: &State) -> bool {
    let mut routines = state.programs.in_order().filter(|program| program.rank > 0);
    routines.all(|program| state.unit(program.channel, program.unit).is_none_or(|unit| unit.declared))
}

/// "levels and numbers in range", of what is named and of what waits.
pub fn routine_numbers(state: &State) -> bool {
    all_routines(state, |routine| routine.rank <= HIGHEST_RANK && routine.routine <= LAST_ROUTINE)
}

/// "zero where nothing is meant": a routine that is none has no number.
pub fn routine_zeros(state: &State) -> bool {
    all_routines(state, |routine| routine.rank > 0 || routine.routine == 0)
}

/// Only a request names a routine.
pub fn named_by_requests(state: &State) -> bool {
    state.units().all(|unit| unit.named.rank == 0 || unit.request.is_some())
}

/// "a waiting routine's unit is declared".
pub fn waiting_units(state: &State) -> bool {
    waiting(state).all(|unit| unit.declared)
}

/// "and has no request".
pub fn waiting_alone(state: &State) -> bool {
    waiting(state).all(|unit| unit.request.is_none())
}

/// "if not frozen, no waiting routine is above what runs unless the list is full".
pub fn nothing_above(state: &State) -> bool {
    let full = state.programs.pushed().len() == DEEPEST;
    state.frozen || full || waiting(state).all(|unit| unit.waiting.rank <= state.programs.runs.rank)
}

/// The units at which a routine waits.
fn waiting(state: &State) -> impl Iterator<Item = &UnitState> {
    state.units().filter(|unit| unit.waiting.rank > 0)
}

/// Whether every routine that is named or waits passes a test.
fn all_routines(state: &State, test: impl Fn(&RoutineState) -> bool) -> bool {
    state.units().all(|unit| test(&unit.named) && test(&unit.waiting))
}

#[cfg(test)]
mod tests {
    use super::*;
    use crate::channel::{Operation, Request, Turn};
    use crate::sound::{broken_clauses, Clause};
    use crate::state::{Buffer, FileState, ProgramsState, Slot};

    fn program(rank: u64, channel: u64, unit: u64, routine: u64) -> ProgramState {
        ProgramState { rank, channel, unit, routine }
    }

    fn due(rank: u64, routine: u64) -> RoutineState {
        RoutineState { rank, routine }
    }

    /// What runs over a list of programs of these ranks; all are of unit 9 of channel 4 but the main program.
    fn programs(ranks: &[u64], runs: u64) -> ProgramsState {
        let of_rank = |rank: u64| if rank == 0 { ProgramState::default() } else { program(rank, 4, 9, 7) };
        let mut programs = ProgramsState { runs: of_rank(runs), ..Default::default() };
        programs.depth = ranks.len() as u64;
        ranks.iter().zip(&mut programs.list).for_each(|(&rank, place)| *place = of_rank(rank));
        programs
    }

    /// A pool of two buffers; units 0 to 3 of channel 0 and unit 9 of channel 4 are declared. A file on unit 0
    /// of channel 0 reads, and its request names routine 200 of priority 4. Routine 0 of priority 0 waits at
    /// unit 1, and unit 9's routine of priority 1 runs.
    fn bench() -> State {
        let mut state = State { buffers: 2, width: 3, free: 2, ..State::default() };
        (0..4).for_each(|unit| state.channels[0].units[unit].declared = true);
        state.channels[4].units[9].declared = true;
        state.files[0] = FileState {
            opened: true,
            block_size: 3,
            record_length: 1,
            number: 1,
            low: Buffer { number: 0, slot: Slot::Taken },
            ..FileState::default()
        };
        let mut request = Request::new(Operation::Read, false);
        request.turn = Turn::Working;
        state.channels[0].units[0].request = Some(request);
        state.channels[0].units[0].named = due(5, 200);
        state.channels[0].units[1].waiting = due(1, 0);
        state.programs = programs(&[0], 2);
        state
    }

    fn breaks(clause: Clause, change: impl Fn(&mut State)) {
        let mut state = bench();
        change(&mut state);
        assert_eq!(broken_clauses(&state), [clause]);
    }

    fn keeps(change: impl Fn(&mut State)) {
        let mut state = bench();
        change(&mut state);
        assert_eq!(broken_clauses(&state), []);
    }

    #[test]
    fn r7_lists_of_at_most_four() {
        keeps(|_| {});
        keeps(|state| state.programs = programs(&[0, 2, 3, 4], 5));
        for depth in [5, 255, u64::MAX] {
            breaks(Clause::ListDepth, |state| {
                state.programs = programs(&[0, 2, 3, 4], 5);
                state.programs.depth = depth;
            });
        }
    }

    #[test]
    fn r7_numbers_of_programs_in_range() {
        keeps(|state| state.programs.runs.routine = 255);
        breaks(Clause::ProgramNumbers, |state| state.programs.runs.rank = 6);
        breaks(Clause::ProgramNumbers, |state| state.programs.runs.channel = 5);
        breaks(Clause::ProgramNumbers, |state| state.programs.runs.unit = 10);
        breaks(Clause::ProgramNumbers, |state| state.programs.runs.routine = 256);
        for change in [[6, 4, 9, 7], [2, 5, 9, 7], [2, 4, 10, 7], [2, 4, 9, 256]] {
            breaks(Clause::ProgramNumbers, |state| {
                state.programs = programs(&[0, 2], 7);
                let [rank, channel, unit, routine] = change;
                state.programs.list[1] = program(rank, channel, unit, routine);
            });
        }
    }

    #[test]
    fn r7_zero_where_nothing_is_meant() {
        for number in 1..4 {
            let mut main = [0; 4];
            main[number] = 1;
            let [rank, channel, unit, routine] = main;
            breaks(Clause::ProgramZeros, |state| {
                state.programs.list[0] = program(rank, channel, unit, routine)
            });
            breaks(Clause::ProgramZeros, |state| {
                state.channels[0].units[1].waiting = due(0, 0);
                state.programs =
                    ProgramsState { runs: program(rank, channel, unit, routine), ..programs(&[], 0) };
            });
        }
        for place in 1..4 {
            for past in [program(3, 0, 0, 0), program(0, 0, 0, 1), program(0, 1, 0, 0), program(0, 0, 1, 0)] {
                breaks(Clause::ProgramZeros, |state| state.programs.list[place] = past);
            }
        }
        for unit in [0, 1, 2, 5] {
            breaks(Clause::RoutineZeros, |state| state.channels[0].units[unit].named = due(0, 1));
            breaks(Clause::RoutineZeros, |state| state.channels[0].units[unit].waiting = due(0, 1));
        }
    }

    #[test]
    fn r7_the_main_program_is_at_the_bottom_exactly_if_a_routine_runs() {
        breaks(Clause::MainProgram, |state| state.programs = programs(&[], 2));
        breaks(Clause::MainProgram, |state| state.programs = programs(&[1], 2));
        breaks(Clause::MainProgram, |state| state.programs = programs(&[1, 2, 3, 4], 5));
        keeps(|state| {
            state.channels[0].units[1].waiting = due(0, 0);
            state.programs = programs(&[], 0);
        });
        // The main program runs over a list: what is below it is not below it.
        let mut state = bench();
        state.channels[0].units[1].waiting = due(0, 0);
        state.programs = programs(&[0], 0);
        assert_eq!(broken_clauses(&state), [Clause::MainProgram, Clause::RisingPriorities]);
        state.programs = programs(&[1], 0);
        assert_eq!(broken_clauses(&state), [Clause::RisingPriorities]);
    }

    #[test]
    fn r7_priorities_rise_strictly() {
        for (ranks, runs) in [
            (&[0, 2][..], 2),
            (&[0, 3], 2),
            (&[0, 2, 2], 3),
            (&[0, 3, 2], 4),
            (&[0, 1, 2, 2], 3),
            (&[0, 0], 1),
            (&[0, 1, 0], 3),
        ] {
            breaks(Clause::RisingPriorities, |state| state.programs = programs(ranks, runs));
        }
        keeps(|state| state.programs = programs(&[0, 1, 2, 3], 4));
        keeps(|state| state.programs = programs(&[0, 3, 4], 5));
    }

    #[test]
    fn r7_the_unit_of_every_routine_is_declared() {
        breaks(Clause::RoutineUnits, |state| state.programs.runs.unit = 8);
        breaks(Clause::RoutineUnits, |state| state.programs.runs.channel = 3);
        breaks(Clause::RoutineUnits, |state| {
            state.programs = programs(&[0, 2], 3);
            state.programs.list[1].unit = 0;
        });
        // Two routines of one unit, though a request or another routine stands there.
        keeps(|state| {
            state.programs = programs(&[0, 2, 3], 5);
            state.programs.runs = program(5, 0, 0, 200);
            state.programs.list[1] = program(2, 0, 1, 0);
            state.programs.list[2] = program(3, 0, 1, 0);
        });
        // Before the first fresh start no unit is declared, so no routine runs.
        let mut state = State { programs: programs(&[0], 2), ..State::default() };
        assert_eq!(broken_clauses(&state), [Clause::RoutineUnits]);
        state.programs = programs(&[], 0);
        state.channels[0].units[0].waiting = due(1, 0);
        assert_eq!(broken_clauses(&state), [Clause::WaitingUnits, Clause::NothingAbove]);
    }

    #[test]
    fn r7_levels_and_numbers_that_are_named_or_wait() {
        keeps(|state| state.channels[0].units[0].named = due(1, 255));
        breaks(Clause::RoutineNumbers, |state| state.channels[0].units[0].named = due(6, 0));
        breaks(Clause::RoutineNumbers, |state| state.channels[0].units[0].named = due(1, 256));
        breaks(Clause::RoutineNumbers, |state| state.channels[0].units[1].waiting = due(1, 256));
        breaks(Clause::RoutineNumbers, |state| {
            state.frozen = true;
            state.channels[0].units[1].waiting = due(6, 0);
        });
    }

    #[test]
    fn only_a_request_names_a_routine() {
        for unit in [1, 2, 8] {
            breaks(Clause::NamedByRequests, |state| state.channels[0].units[unit].named = due(1, 0));
        }
        keeps(|state| state.channels[0].units[0].named = due(0, 0));
    }

    #[test]
    fn r7_where_a_routine_waits() {
        keeps(|state| state.channels[4].units[9].waiting = due(2, 9));
        breaks(Clause::WaitingUnits, |state| state.channels[0].units[4].waiting = due(1, 0));
        breaks(Clause::WaitingUnits, |state| state.channels[1].units[1].waiting = due(2, 3));
        for named in [due(0, 0), due(5, 200)] {
            breaks(Clause::WaitingAlone, |state| {
                state.channels[0].units[0].named = named;
                state.channels[0].units[0].waiting = due(1, 0);
            });
        }
    }

    #[test]
    fn r7_no_waiting_routine_is_above_what_runs() {
        for rank in [1, 2] {
            keeps(|state| state.channels[0].units[3].waiting = due(rank, 1));
        }
        for rank in 3..=5 {
            breaks(Clause::NothingAbove, |state| state.channels[0].units[3].waiting = due(rank, 1));
            keeps(|state| {
                state.channels[0].units[3].waiting = due(rank, 1);
                state.frozen = true;
            });
        }
        breaks(Clause::NothingAbove, |state| state.programs = programs(&[], 0));
        // The one full list that keeps a routine out is main, 0, 1, 2 below a running 3, with a 4 waiting.
        keeps(|state| {
            state.programs = programs(&[0, 1, 2, 3], 4);
            state.channels[0].units[3].waiting = due(5, 1);
        });
        breaks(Clause::NothingAbove, |state| {
            state.programs = programs(&[0, 1, 2], 4);
            state.channels[0].units[3].waiting = due(5, 1);
        });
    }
}
