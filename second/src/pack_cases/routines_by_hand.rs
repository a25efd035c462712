//! Special routines (M-110): what makes one due, looks and returns, ties, freezes and full lists, by calls and
//! from states by hand.

use super::script::{Script, END_OF_MEDIUM, FILE_MARK, GOOD, INCOMPLETE_WORD, MARK, READ, REDUNDANCY, WRITE};
use crate::pack::OUTPUT;
use crate::pack_player::ASK_NAMING;
use crate::state::{ProgramState, ProgramsState};
use crate::state_fields::{ATTEMPTS, FROZEN, INCOMPLETE, RECORDS};

pub fn add_cases(script: &mut Script) {
    every_level(script);
    namings(script);
    lists_that_fill(script);
    every_result(script);
    ties(script);
    freezes(script);
    waiting_units(script);
    fresh_starts(script);
    looks_by_hand(script);
    returns_by_hand(script);
}

/// Units 0 to 4 of the first two channels, and no files.
fn units(script: &mut Script) {
    script.begin(3, 1, 31);
}

/// Opens an output file on its unit: files 0 to 4 are on channel 0, 5 to 9 on channel 1.
fn open(script: &mut Script, file: u64) {
    script.open_on(file, file / 5, file % 5, OUTPUT, 1, 1);
}

/// A mark of a file that names a routine, and its good end; the routine has the file's number and 100. The file is
/// open for that alone: a close leaves what waits.
fn due(script: &mut Script, file: u64, level: u64) {
    open(script, file);
    script.ask_naming(file, MARK, 100 + file, level);
    script.report_on(file / 5, file % 5, GOOD);
    script.close(file);
}

/// A routine of each priority is entered over the main program, and returns; then there is none.
fn every_level(script: &mut Script) {
    units(script);
    script.running();
    for level in 0..5 {
        due(script, level, level);
        script.running();
        script.print_state();
        script.give_back();
        script.give_back();
    }
}

/// Priorities above 4 are refused 1, whatever else is wrong; a naming that is not given names none.
fn namings(script: &mut Script) {
    units(script);
    (0..3).for_each(|file| open(script, file));
    for [file, operation, priority, given, routine, level] in [
        [0, MARK, 0, 1, 0, 5],
        [0, MARK, 0, 1, 255, 255],
        [15, MARK, 0, 1, 0, 5],
        [0, READ, 0, 1, 0, 5],
        [0, READ, 0, 1, 0, 4],
        [15, MARK, 0, 1, 0, 4],
        [0, MARK, 2, 1, 0, 4],
        [0, MARK, 0, 0, 7, 5],
        [1, MARK, 1, 0, 7, 4],
        [2, MARK, 1, 200, 255, 4],
        [0, MARK, 0, 1, 0, 5],
        [0, MARK, 0, 1, 0, 4],
    ] {
        script.add(&[ASK_NAMING, file, operation, priority, given, routine, level]);
    }
    script.print_state();
    for unit in [0, 1, 2, 0] {
        script.report(unit, GOOD);
        script.running();
    }
    script.print_state();
}

/// 0, 1, 2 and 3 interrupt one another; the list is full, and 4 is kept out until a return. Then 0, 2, 4, and so on.
fn lists_that_fill(script: &mut Script) {
    for levels in
        [&[0, 1, 2, 3, 4][..], &[1, 2, 3, 4, 0], &[0, 4, 2, 3, 1], &[2, 2, 4, 3, 0], &[0, 1, 2, 4, 4]]
    {
        units(script);
        for (file, &level) in (0..).zip(levels) {
            due(script, file, level);
            script.running();
        }
        script.print_state();
        for _ in 0..6 {
            script.give_back();
        }
        script.print_sound();
    }
}

/// Results 01 to 06 make the routine due, 00 and 07 do not.
fn every_result(script: &mut Script) {
    let fields = [
        (READ, &[][..], GOOD),
        (READ, &[(ATTEMPTS, 4)], GOOD),
        (READ, &[], FILE_MARK),
        (READ, &[(ATTEMPTS, 101)], REDUNDANCY),
        (READ, &[(INCOMPLETE, 1)], INCOMPLETE_WORD),
        (READ, &[(ATTEMPTS, 11), (RECORDS, 3)], REDUNDANCY),
        (READ, &[], REDUNDANCY),
        (WRITE, &[], END_OF_MEDIUM),
        (WRITE, &[], INCOMPLETE_WORD),
        (MARK, &[(ATTEMPTS, 27)], REDUNDANCY),
        (MARK, &[(ATTEMPTS, 26)], REDUNDANCY),
    ];
    for (operation, changes, outcome) in fields {
        script.begin(1, 1, 1);
        script.open(0, if operation == READ { 0 } else { OUTPUT }, 1, 1);
        if operation == WRITE {
            script.put(0, &[5]);
        }
        script.ask_naming(0, operation, 33, 2);
        for &(field, value) in changes {
            script.unit(0, 0, field, value);
        }
        if operation == READ && outcome == GOOD {
            script.deliver(0, &[8]);
        } else {
            script.report(0, outcome);
        }
        script.running();
        script.print_state();
    }
    script.begin(1, 1, 1);
    script.open(0, 0, 1, 1);
    script.read(0, &[4]);
    script.ask_naming(0, READ, 33, 2);
    // A report that is refused makes nothing due.
    script.begin(1, 1, 1);
    script.open(0, OUTPUT, 1, 1);
    script.ask_naming(0, MARK, 33, 2);
    script.report(0, FILE_MARK);
    script.report(0, 5);
    script.report(1, GOOD);
    script.running();
}

/// While a routine of priority 4 runs, others become due on two channels, several of the same priority. Its return, or
/// the thaw after its return in a freeze, enters the highest, of the lowest channel, then unit; the next returns enter
/// the others one after the other.
fn ties(script: &mut Script) {
    for (files, levels) in [
        ([9, 6, 3, 8, 1], [4, 4, 4, 4, 4]),
        ([5, 1, 7, 2, 6], [2, 2, 3, 3, 0]),
        ([8, 4, 5, 3, 9], [1, 0, 1, 0, 1]),
    ] {
        for frozen in [false, true] {
            units(script);
            due(script, 0, 4);
            for (file, level) in files.into_iter().zip(levels) {
                due(script, file, level);
            }
            script.print_state();
            if frozen {
                script.freeze();
                script.give_back();
                script.thaw();
                script.running();
            }
            for _ in 0..7 {
                script.give_back();
            }
        }
    }
}

/// While frozen nothing enters, and a return resumes though a higher one waits; the thaw looks again, and a
/// second thaw finds nothing more.
fn freezes(script: &mut Script) {
    units(script);
    due(script, 0, 0);
    due(script, 5, 1);
    for (file, level) in [(1, 2), (6, 2), (7, 3)] {
        open(script, file);
        script.ask_naming(file, MARK, 100 + file, level);
    }
    script.freeze();
    script.report_on(1, 1, GOOD);
    script.report_on(0, 1, GOOD);
    script.running();
    script.give_back();
    script.running();
    script.print_state();
    script.give_back();
    script.give_back();
    script.print_state();
    script.thaw();
    script.running();
    script.thaw();
    script.running();
    script.print_state();
    script.report_on(1, 2, GOOD);
    script.running();
    for _ in 0..4 {
        script.give_back();
    }
}

/// A unit whose routine waits refuses an ask with 8, whatever its file; close and open are not refused for it. When
/// the routine is entered, the unit takes asks again.
fn waiting_units(script: &mut Script) {
    units(script);
    due(script, 9, 4);
    due(script, 0, 4);
    open(script, 0);
    script.ask(0, MARK);
    script.ask_naming(0, MARK, 7, 0);
    script.ask(0, READ);
    script.put(0, &[3]);
    script.ask(0, WRITE);
    script.ask(0, MARK);
    due(script, 2, 1);
    script.open_on(10, 0, 2, 0, 1, 1);
    script.ask(10, READ);
    script.ask(10, WRITE);
    script.print_state();
    script.give_back();
    script.ask_naming(0, MARK, 8, 4);
    script.ask_naming(0, WRITE, 8, 4);
    script.report(0, GOOD);
    script.ask(10, READ);
    script.give_back();
    script.give_back();
    script.ask(10, READ);
    script.report(2, FILE_MARK);
    script.ask(10, READ);
    script.ask_naming(10, READ, 1, 4);
    // A read that met the mark, whose routine waits: 8, not 10.
    due(script, 9, 3);
    script.close(10);
    script.open_on(10, 0, 2, 0, 1, 1);
    script.ask_naming(10, READ, 1, 2);
    script.report(2, FILE_MARK);
    script.ask(10, READ);
    script.give_back();
    script.ask(10, READ);
    script.print_state();
}

/// A fresh start drops what waits, what is named and the list; a refused one drops nothing.
fn fresh_starts(script: &mut Script) {
    for (buffers, frozen) in [(0, false), (1, false), (1, true)] {
        units(script);
        for (file, level) in [(0, 0), (6, 2), (2, 1), (8, 4)] {
            due(script, file, level);
        }
        open(script, 3);
        script.ask_naming(3, MARK, 7, 3);
        script.pool(FROZEN, u64::from(frozen));
        script.print_state();
        script.fresh(buffers, 1, [31, 31, 0, 0, 0]);
        script.print_state();
        script.running();
        script.give_back();
    }
}

/// What runs over a list of programs of these ranks; the routines are of unit 4 of channel 1.
fn programs(ranks: &[u64], runs: u64) -> ProgramsState {
    let of_rank = |rank: u64| match rank {
        0 => ProgramState::default(),
        _ => ProgramState { rank, channel: 1, unit: 4, routine: 50 + rank },
    };
    let mut programs = ProgramsState { runs: of_rank(runs), depth: ranks.len() as u64, ..Default::default() };
    ranks.iter().zip(&mut programs.list).for_each(|(&rank, place)| *place = of_rank(rank));
    programs
}

/// Every list and what runs above it, frozen by hand, meets what waits; the thaw looks.
fn looks_by_hand(script: &mut Script) {
    for (ranks, runs) in [
        (&[][..], 0),
        (&[0], 1),
        (&[0], 4),
        (&[0, 2], 3),
        (&[0, 1, 3], 4),
        (&[0, 1, 2, 3], 4),
        (&[0, 1, 2, 4], 5),
    ] {
        units(script);
        script.freeze();
        script.set_programs(&programs(ranks, runs));
        for (channel, unit, rank) in [(1, 0, 4), (0, 2, 4), (0, 1, 1)] {
            script.waiting(channel, unit, rank, 10 * channel + unit);
        }
        script.print_sound();
        script.thaw();
        script.running();
        script.freeze();
        script.waiting(1, 3, 5, 99);
        script.thaw();
        script.print_state();
        // A report of a request that names none, and of one that does.
        open(script, 3);
        script.ask(3, MARK);
        script.report(3, GOOD);
        script.close(3);
        script.running();
        due(script, 3, 3);
        script.running();
        script.print_state();
    }
}

/// Every list meets a return: with nothing that waits, with one not above the program last pushed, with one above.
fn returns_by_hand(script: &mut Script) {
    for (ranks, runs) in [(&[0][..], 5), (&[0, 1], 5), (&[0, 3], 5), (&[0, 1, 2, 3], 5), (&[0, 2, 3, 4], 5)] {
        for waiting in [&[][..], &[1], &[4], &[5, 5], &[3, 4]] {
            units(script);
            script.set_programs(&programs(ranks, runs));
            for (unit, &rank) in (0..).zip(waiting) {
                script.waiting(1 - unit, unit, rank, 20 + rank);
            }
            script.print_sound();
            script.give_back();
            script.give_back();
            script.running();
            script.print_state();
        }
    }
}
