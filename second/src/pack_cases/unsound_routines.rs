//! States that break a clause about special routines (M-110), each alone, and the last values that are right.

use super::script::Script;
use super::unsound_bench::{Bench, ROUTINE_CALLS};
use crate::sound::{broken_clauses, Clause};
use crate::state::{ProgramState, ProgramsState};
use crate::state_fields::{FROZEN, PROGRAM_CHANNEL, PROGRAM_UNIT, RANK, ROUTINE, RUNNING};

/// The clauses, each tried on a bench of its own.
const CLAUSES: [fn(&mut Bench); 12] = [
    list_depth,
    program_numbers,
    program_zeros,
    main_program,
    rising_priorities,
    routine_units,
    routine_numbers,
    routine_zeros,
    named_by_requests,
    waiting_units,
    waiting_alone,
    nothing_above,
];

pub fn add_cases(script: &mut Script) {
    let mut bench = Bench::with_routines(script);
    for clause in CLAUSES {
        build(&mut bench);
        clause(&mut bench);
    }
    before_fresh(&mut bench);
    every_call(&mut bench);
}

/// The bench. The read that is at work names routine 200 of priority 4; routine 6 of priority 0 waits at unit 4 of
/// channel 0; routine 9 of priority 1 runs, of unit 3 of channel 1.
fn build(bench: &mut Bench) {
    bench.build();
    bench.script.named(2, 0, 5, 200);
    bench.script.set_programs(&programs(&[0], 2));
    bench.script.waiting(0, 4, 1, 6);
    bench.script.print_sound();
}

/// What runs over a list of programs of these ranks; the routines are of unit 3 of channel 1.
fn programs(ranks: &[u64], runs: u64) -> ProgramsState {
    let of_rank = |rank: u64| match rank {
        0 => ProgramState::default(),
        _ => ProgramState { rank, channel: 1, unit: 3, routine: 9 },
    };
    let mut programs = ProgramsState { runs: of_rank(runs), depth: ranks.len() as u64, ..Default::default() };
    ranks.iter().zip(&mut programs.list).for_each(|(&rank, place)| *place = of_rank(rank));
    programs
}

/// A change that breaks one clause and no other.
fn breaks(bench: &mut Bench, clause: Clause, change: impl FnOnce(&mut Script)) {
    bench.unsound(|script| {
        change(script);
        assert_eq!(broken_clauses(&script.player.state), [clause]);
    });
}

/// "a list of at most four".
fn list_depth(bench: &mut Bench) {
    bench.script.set_programs(&programs(&[0, 2, 3, 4], 5));
    for depth in [5, 255] {
        breaks(bench, Clause::ListDepth, |script| script.depth(depth));
    }
    bench.sound(|_| {});
}

/// "levels and numbers in range": of what runs, and of a program of the list.
fn program_numbers(bench: &mut Bench) {
    let wrong = [(RANK, [6, 255]), (PROGRAM_CHANNEL, [5, 255]), (PROGRAM_UNIT, [10, 255])];
    for (field, values) in wrong {
        for value in values {
            breaks(bench, Clause::ProgramNumbers, |script| script.program(RUNNING, field, value));
        }
    }
    bench.sound(|script| script.program(RUNNING, ROUTINE, 255));
    bench.script.set_programs(&programs(&[0, 2], 4));
    for (field, values) in &wrong[1..] {
        breaks(bench, Clause::ProgramNumbers, |script| script.program(2, *field, values[0]));
    }
    breaks(bench, Clause::ProgramNumbers, |script| {
        script.program(2, RANK, 6);
        script.program(RUNNING, RANK, 7);
    });
}

/// "zero where nothing is meant": the main program at the bottom, the places past the depth, the main program that
/// runs.
fn program_zeros(bench: &mut Bench) {
    for field in [PROGRAM_CHANNEL, PROGRAM_UNIT, ROUTINE] {
        breaks(bench, Clause::ProgramZeros, |script| script.program(1, field, 1));
    }
    for (place, field) in [(2, RANK), (2, ROUTINE), (3, PROGRAM_CHANNEL), (4, PROGRAM_UNIT), (4, RANK)] {
        breaks(bench, Clause::ProgramZeros, |script| script.program(place, field, 1));
    }
    bench.script.waiting(0, 4, 0, 0);
    bench.script.set_programs(&programs(&[], 0));
    for (place, field) in [(0, PROGRAM_CHANNEL), (0, PROGRAM_UNIT), (0, ROUTINE), (1, ROUTINE), (1, RANK)] {
        breaks(bench, Clause::ProgramZeros, |script| script.program(place, field, 1));
    }
    bench.sound(|_| {});
}

/// "the main program at the bottom exactly if a routine runs".
fn main_program(bench: &mut Bench) {
    for (ranks, runs) in [(&[][..], 2), (&[1], 2), (&[1, 2, 3, 4], 5), (&[2, 3], 4)] {
        breaks(bench, Clause::MainProgram, |script| script.set_programs(&programs(ranks, runs)));
    }
    // The main program runs, and is on the list too.
    bench.unsound(|script| {
        script.waiting(0, 4, 0, 0);
        script.set_programs(&programs(&[0], 0));
    });
}

/// "priorities rise strictly from the bottom of the list to what runs".
fn rising_priorities(bench: &mut Bench) {
    for (ranks, runs) in [
        (&[0, 2][..], 2),
        (&[0, 3], 2),
        (&[0, 3, 2], 4),
        (&[0, 1, 2, 2], 5),
        (&[0, 0], 1),
        (&[0, 1, 0, 3], 4),
    ] {
        breaks(bench, Clause::RisingPriorities, |script| script.set_programs(&programs(ranks, runs)));
    }
    for (ranks, runs) in [(&[0, 1, 2, 3][..], 4), (&[0, 1, 2, 3], 5), (&[0, 3, 4], 5), (&[0, 1], 5)] {
        bench.sound(|script| script.set_programs(&programs(ranks, runs)));
    }
    breaks(bench, Clause::RisingPriorities, |script| {
        script.waiting(0, 4, 0, 0);
        script.set_programs(&programs(&[1], 0));
    });
}

/// "the unit of every routine, .. running or pushed, is declared".
fn routine_units(bench: &mut Bench) {
    for (field, value) in [(PROGRAM_UNIT, 4), (PROGRAM_UNIT, 9), (PROGRAM_CHANNEL, 3), (PROGRAM_CHANNEL, 2)] {
        breaks(bench, Clause::RoutineUnits, |script| script.program(RUNNING, field, value));
    }
    // A unit with a request, one with a waiting routine, and one unit twice.
    for (channel, unit) in [(1, 2), (0, 4), (0, 0)] {
        bench.sound(|script| {
            script.program(RUNNING, PROGRAM_CHANNEL, channel);
            script.program(RUNNING, PROGRAM_UNIT, unit);
        });
    }
    bench.script.set_programs(&programs(&[0, 2, 3], 4));
    for place in [2, 3] {
        breaks(bench, Clause::RoutineUnits, |script| script.program(place, PROGRAM_UNIT, 0));
    }
}

/// "levels .. in range", of what is named and of what waits.
fn routine_numbers(bench: &mut Bench) {
    for rank in [6, 255] {
        breaks(bench, Clause::RoutineNumbers, |script| script.named(2, 0, rank, 200));
        breaks(bench, Clause::RoutineNumbers, |script| {
            script.pool(FROZEN, 1);
            script.waiting(0, 4, rank, 6);
        });
    }
    bench.sound(|script| script.named(2, 0, 1, 255));
    bench.sound(|script| {
        script.pool(FROZEN, 1);
        script.waiting(0, 4, 5, 255);
    });
}

/// A routine that is none has no number: of a request, of an idle unit, of one that is not declared.
fn routine_zeros(bench: &mut Bench) {
    for (channel, unit) in [(2, 0), (0, 0), (3, 9)] {
        breaks(bench, Clause::RoutineZeros, |script| script.named(channel, unit, 0, 1));
    }
    for (channel, unit) in [(0, 4), (1, 2), (3, 9)] {
        breaks(bench, Clause::RoutineZeros, |script| script.waiting(channel, unit, 0, 255));
    }
}

/// Only a request names a routine.
fn named_by_requests(bench: &mut Bench) {
    for (channel, unit) in [(0, 0), (0, 4), (4, 9)] {
        breaks(bench, Clause::NamedByRequests, |script| script.named(channel, unit, 1, 0));
    }
    bench.sound(|script| script.named(1, 2, 5, 0));
    bench.sound(|script| script.named(2, 0, 0, 0));
}

/// "a waiting routine's unit is declared".
fn waiting_units(bench: &mut Bench) {
    for (channel, unit) in [(0, 5), (1, 4), (3, 0), (4, 9)] {
        breaks(bench, Clause::WaitingUnits, |script| script.waiting(channel, unit, 1, 0));
    }
    for (channel, unit) in [(0, 0), (1, 3)] {
        bench.sound(|script| script.waiting(channel, unit, 2, 0));
    }
}

/// "and has no request", whether that names a routine or not.
fn waiting_alone(bench: &mut Bench) {
    for (channel, unit) in [(2, 0), (1, 2)] {
        breaks(bench, Clause::WaitingAlone, |script| script.waiting(channel, unit, 1, 0));
    }
}

/// "if not frozen, no waiting routine is above what runs unless the list is full".
fn nothing_above(bench: &mut Bench) {
    for rank in 3..=5 {
        breaks(bench, Clause::NothingAbove, |script| script.waiting(0, 3, rank, 1));
        bench.sound(|script| {
            script.pool(FROZEN, 1);
            script.waiting(0, 3, rank, 1);
        });
    }
    bench.sound(|script| script.waiting(0, 3, 2, 1));
    breaks(bench, Clause::NothingAbove, |script| script.set_programs(&programs(&[], 0)));
    // The one full list that keeps a routine out is main, 0, 1, 2 below a running 3, with a 4 waiting.
    bench.script.waiting(1, 3, 5, 8);
    for ranks in [&[0, 1, 2][..], &[0, 3], &[0]] {
        breaks(bench, Clause::NothingAbove, |script| script.set_programs(&programs(ranks, 4)));
    }
    bench.sound(|script| script.set_programs(&programs(&[0, 1, 2, 3], 4)));
    bench.sound(|script| script.set_programs(&programs(&[0], 5)));
}

/// "the main program runs before the first fresh start", and nothing waits.
fn before_fresh(bench: &mut Bench) {
    bench.script.start_over();
    breaks(bench, Clause::RoutineUnits, |script| {
        script.set_programs(&programs(&[0], 1));
    });
    breaks(bench, Clause::WaitingUnits, |script| {
        script.pool(FROZEN, 1);
        script.waiting(4, 9, 5, 0);
    });
    bench.unsound(|script| script.depth(1));
    bench.unsound(|script| script.post(0, 0, 3, 1));
    bench.script.give_back();
    bench.script.running();
}

/// Every kind of call on one unsound state and then on the sound one.
fn every_call(bench: &mut Bench) {
    build(bench);
    for depth in [4, 1] {
        bench.script.depth(depth);
        bench.script.print_sound();
        for call in ROUTINE_CALLS {
            bench.script.add(call);
        }
        bench.script.print_state();
    }
}
