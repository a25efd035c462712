//! Where the reels stand (M-106): positions at their ends, result 07 at each place of the cleaner's list and just
//! beside it, noise records up to the hundred and past it, and lengths of every sort.

use super::script::{
    Script, END_OF_MEDIUM, FILE_MARK, GOOD, HUGE, INCOMPLETE_WORD, MARK, READ, REDUNDANCY, SPOILT, WRITE,
};
use crate::channel::CLEANER_PASSES;
use crate::pack::{CHECK, OUTPUT, SEQUENCE};
use crate::state_fields::{
    ATTEMPTS, INCOMPLETE, LOW, MARKS, NOISE, NOISE_MET, NUMBER, PRIORITY, READ_ERROR, RECORDS,
};

pub fn add_cases(script: &mut Script) {
    positions_at_their_ends(script);
    the_cleaners_list(script);
    beside_the_list(script);
    stopped_backspaces(script);
    noise_up_to_the_hundred(script);
    noise_at_the_last_attempt(script);
    noise_and_turns(script);
    noise_with_words(script);
    lengths(script);
    lengths_elsewhere(script);
    positions_stay(script);
    kept_blocks_do_not_move(script);
}

/// Input file 0 on unit 0 of channel 0, at work on a read. Its unit stands so, its request has come so far.
fn reading(script: &mut Script, [records, met]: [u64; 2], attempt: u64, noise: u64) {
    script.begin(1, 5, 3);
    script.open(0, 0, 4, 1);
    script.ask(0, READ);
    for (field, value) in [(RECORDS, records), (NOISE_MET, met), (ATTEMPTS, attempt), (NOISE, noise)] {
        script.unit(0, 0, field, value);
    }
}

/// Output file 0 on unit 0 of channel 0, at work on a write or a mark.
fn writing(script: &mut Script, operation: u64, [marks, records]: [u64; 2]) {
    script.begin(1, 5, 1);
    script.open(0, OUTPUT, 1, 1);
    if operation == WRITE {
        script.put(0, &[7]);
    }
    script.unit(0, 0, MARKS, marks);
    script.unit(0, 0, RECORDS, records);
    script.ask(0, operation);
}

/// What moves the position, from zero, from just below its end and from there.
fn positions_at_their_ends(script: &mut Script) {
    for [marks, records] in [[0, 0], [4, 2], [32_766, 32_766], [32_767, 32_767], [32_767, 5]] {
        for outcome in [GOOD, FILE_MARK] {
            reading(script, [records, 0], 4, 0);
            script.unit(0, 0, MARKS, marks);
            script.end_with(0, outcome, if outcome == GOOD { &[1] } else { &[] });
            script.print_state();
        }
        for operation in [WRITE, MARK] {
            for outcome in [GOOD, END_OF_MEDIUM] {
                writing(script, operation, [marks, records]);
                script.report(0, outcome);
                script.print_state();
            }
        }
    }
    // Failures move nothing, permanent ones neither.
    writing(script, WRITE, [3, 4]);
    script.report(0, REDUNDANCY);
    script.report(0, INCOMPLETE_WORD);
    script.print_state();
    writing(script, MARK, [3, 4]);
    script.unit(0, 0, ATTEMPTS, 27);
    script.report(0, REDUNDANCY);
    script.print_state();
    reading(script, [6, 0], 101, 0);
    script.report(0, REDUNDANCY);
    script.print_state();
}

/// At each place of the list: with three records, with two, with noise met, with the most records.
fn the_cleaners_list(script: &mut Script) {
    for attempt in CLEANER_PASSES {
        for (standing, outcome) in [
            ([3, 0], REDUNDANCY),
            ([3, 0], INCOMPLETE_WORD),
            ([2, 0], REDUNDANCY),
            ([3, 1], REDUNDANCY),
            ([32_767, 0], REDUNDANCY),
        ] {
            reading(script, standing, attempt - 1, 0);
            script.report(0, outcome);
        }
        script.print_state();
    }
    // The second incomplete word is permanent there too.
    reading(script, [3, 0], 11, 0);
    script.unit(0, 0, INCOMPLETE, 1);
    script.report(0, INCOMPLETE_WORD);
    script.print_state();
}

/// Attempts beside the list, attempt 102 that is none, and writes and marks at the same attempts.
fn beside_the_list(script: &mut Script) {
    for attempt in [2, 3, 10, 11, 13, 21, 23, 91, 93, 101] {
        reading(script, [3, 0], attempt - 1, 0);
        script.report(0, REDUNDANCY);
        script.print_state();
    }
    reading(script, [3, 0], 101, 0);
    script.report(0, REDUNDANCY);
    for operation in [WRITE, MARK] {
        for attempt in [11, 21] {
            writing(script, operation, [0, 9]);
            script.unit(0, 0, ATTEMPTS, attempt);
            script.report(0, REDUNDANCY);
            script.print_state();
        }
    }
    // A mark between: two records since then are not enough, three are.
    for reads in [2, 3] {
        script.begin(1, 5, 1);
        script.open(0, 0, 4, 1);
        script.unit(0, 0, RECORDS, 9);
        script.ask(0, READ);
        script.report(0, FILE_MARK);
        script.close(0);
        script.open(0, 0, 4, 1);
        for _ in 0..reads {
            script.read(0, &[5]);
            script.skip(0);
        }
        script.ask(0, READ);
        script.unit(0, 0, ATTEMPTS, 11);
        script.end_with(0, REDUNDANCY, &[1, 2]);
        script.print_state();
    }
}

/// 07 of an operation that a priority request displaces, and of one that a freeze stops.
fn stopped_backspaces(script: &mut Script) {
    for freezes in [false, true] {
        script.begin(2, 5, 3);
        script.open(0, 0, 4, 1);
        script.open(1, 0, 4, 1);
        script.ask(0, READ);
        script.unit(0, 0, RECORDS, 3);
        script.unit(0, 0, ATTEMPTS, 21);
        if freezes {
            script.freeze();
        } else {
            script.add(&[3, 1, READ, 1]);
        }
        script.report(0, REDUNDANCY);
        script.print_state();
        script.thaw();
        script.report(1, FILE_MARK);
        script.report(0, REDUNDANCY);
        script.print_state();
    }
}

/// The hundredth noise record is passed, the next ones are redundancies.
fn noise_up_to_the_hundred(script: &mut Script) {
    for length in [0, 1, 2, 3] {
        for (attempt, noise) in [(1, 0), (3, 98), (11, 99), (11, 100)] {
            reading(script, [3, u64::from(noise > 0)], attempt, noise);
            for _ in 0..3 {
                script.report_length(0, length, &[]);
            }
            script.print_state();
        }
    }
    // A request begins at none; what was met stays met, for another file too.
    reading(script, [0, 0], 1, 0);
    script.report_length(0, 2, &[]);
    script.end_with(0, GOOD, &[1]);
    script.skip(0);
    script.close(0);
    script.open(0, SEQUENCE, 4, 1);
    for _ in 0..3 {
        script.read(0, &[1, 1]);
        script.skip(0);
    }
    script.ask(0, READ);
    script.unit(0, 0, ATTEMPTS, 11);
    script.print_state();
    script.report(0, REDUNDANCY);
    script.print_state();
    script.fresh(1, 5, [3, 0, 0, 0, 0]);
    script.print_state();
}

/// Before the hundred are passed attempt 101 passes one too; past them it is permanent, with words or without.
fn noise_at_the_last_attempt(script: &mut Script) {
    for (noise, words) in [(99, &[][..]), (99, &[5, 6]), (100, &[]), (100, &[5, 6]), (100, &[5])] {
        reading(script, [3, 1], 101, noise);
        script.report_length(0, if words.is_empty() { 0 } else { words.len() as u64 }, words);
        script.print_state();
        script.get(0);
        script.get(0);
        script.report_length(0, 1, &[]);
        script.print_state();
        script.print_room();
    }
}

/// A noise record ends its activity: a priority request displaces the read, a freeze stops it; the count stays
/// with the request, and neither mark moves.
fn noise_and_turns(script: &mut Script) {
    script.begin(3, 5, 7);
    for file in 0..3 {
        script.open(file, 0, 4, 1);
    }
    script.scan_mark(0, 2);
    script.priority_mark(0, 2);
    script.ask(1, READ);
    script.add(&[3, 0, READ, 1]);
    script.add(&[3, 2, READ, 1]);
    script.report_length(1, 0, &[]);
    script.print_state();
    script.report_length(2, 2, &[]);
    script.report_length(2, 65_535, &[]);
    script.freeze();
    script.report_length(2, 1, &[]);
    script.print_state();
    script.unit(0, 2, PRIORITY, 0);
    script.thaw();
    script.report(0, FILE_MARK);
    script.report(2, FILE_MARK);
    script.report_length(1, 0, &[]);
    script.print_state();
    script.end_with(1, GOOD, &[3]);
    script.print_state();
}

/// Words with a noise length are sized as a good block's, and dropped.
fn noise_with_words(script: &mut Script) {
    for (flags, counts) in [(0, [1, 2, 3]), (CHECK, [1, 2, 4])] {
        script.begin(1, 5, 1);
        script.open(0, flags, 4, 1);
        script.ask(0, READ);
        for count in counts {
            let words = &[8, 8 << 18, 3, 4][..count];
            script.report_length(0, count as u64, words);
            script.end_with(0, REDUNDANCY, words);
        }
        script.print_room();
        script.print_state();
    }
    // Without a length a short block is no noise.
    reading(script, [3, 0], 4, 0);
    script.end_with(0, REDUNDANCY, &[1]);
    script.print_state();
}

/// Lengths that are good and lengths that are refused, on a read at work and on a unit that is not.
fn lengths(script: &mut Script) {
    for unit in [0, 1] {
        for outcome in [GOOD, REDUNDANCY, INCOMPLETE_WORD, FILE_MARK, END_OF_MEDIUM, 5] {
            reading(script, [0, 0], 1, 0);
            for length in [0, 2, 3, 4, 65_535, 65_536, 65_537, 131_072] {
                for words in [&[][..], &[1, 2, 3], &[1, 2, SPOILT], &[HUGE; 5]] {
                    if (unit, outcome, length, words.len()) != (0, FILE_MARK, 65_536, 0) {
                        script.end_with_length(unit, outcome, length, words);
                    }
                }
            }
            script.print_state();
        }
    }
    reading(script, [0, 0], 1, 0);
    for (channel, unit) in [(5, 0), (0, 10), (0, 9), (1, 0)] {
        script.add(&[4, channel, unit, REDUNDANCY, 2, 0]);
        script.add(&[4, channel, unit, REDUNDANCY, 2, 1, 5]);
    }
}

/// To a write or mark at work a length is 1.
fn lengths_elsewhere(script: &mut Script) {
    for operation in [WRITE, MARK] {
        writing(script, operation, [0, 0]);
        for length in [0, 3, 65_535, 65_536] {
            script.end_with_length(0, REDUNDANCY, length, &[]);
            script.end_with_length(0, GOOD, length.min(65_535), &[]);
        }
        script.end_with_length(0, REDUNDANCY, 1, &[7]);
        script.print_state();
    }
}

/// Closing and opening leave the position; a write's records count for a read; other units do not matter.
fn positions_stay(script: &mut Script) {
    script.begin(2, 5, 3);
    script.open(0, OUTPUT, 1, 1);
    for outcome in [GOOD, END_OF_MEDIUM, GOOD] {
        script.put(0, &[7]);
        script.ask(0, WRITE);
        script.report(0, outcome);
    }
    script.close(0);
    script.open_on(7, 0, 0, 0, 4, 1);
    script.open(1, 0, 4, 1);
    script.ask(1, READ);
    script.report_length(1, 0, &[]);
    script.report(1, FILE_MARK);
    script.ask(7, READ);
    script.unit(0, 0, ATTEMPTS, 91);
    script.print_state();
    script.report(0, REDUNDANCY);
    script.add(&[2, 7]);
    script.report(0, FILE_MARK);
    script.close(7);
    script.print_state();
    script.fresh(1, 1, [0, 0, 1, 0, 0]);
    script.print_state();
}

/// A kept block is no good read.
fn kept_blocks_do_not_move(script: &mut Script) {
    for attempt in [101, 12] {
        reading(script, [2, 0], attempt, 0);
        script.unit(0, 0, INCOMPLETE, 1);
        script.file(0, NUMBER, 32_767);
        script.end_with(0, INCOMPLETE_WORD, &[4, 5]);
        script.print_state();
        script.file(0, LOW + READ_ERROR, 0);
        script.skip(0);
        script.read(0, &[6]);
        script.print_state();
    }
}
