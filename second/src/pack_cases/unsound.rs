//! States that break one clause of soundness. The last legal value of each number is asked for too.

use super::script::{Script, READ};
use super::unsound_bench::{Bench, CALLS, CLOSED, IDLE_INPUT, INPUT, OUTPUT_FILE, WRITING};
use super::{unsound_files, unsound_requests};
use crate::sound::is_sound;
use crate::state_fields::*;

/// The clauses about ranges, each tried on a bench of its own.
const CLAUSES: [fn(&mut Bench); 14] = [
    pool_sizes,
    before_fresh,
    scan_marks,
    priority_marks,
    unit_numbers,
    file_sizes,
    chosen_sizes,
    block_numbers,
    check_errors,
    read_errors,
    read_errors_first,
    found_fields,
    nothing_read,
    errors_as_found,
];

pub fn add_cases(script: &mut Script) {
    let mut bench = Bench::new(script);
    let about_files_and_requests = unsound_files::CLAUSES.iter().chain(&unsound_requests::CLAUSES);
    for clause in CLAUSES.iter().chain(about_files_and_requests) {
        bench.build();
        clause(&mut bench);
    }
    fresh_starts(&mut bench);
    every_call_on_one_state(&mut bench);
}

/// "m from 1 to 32, W from 1 to 1,024".
fn pool_sizes(bench: &mut Bench) {
    for (field, wrong, right) in [(BUFFERS, [33, 255], 32), (WIDTH, [1_025, 65_535], 1_024)] {
        for value in wrong {
            bench.unsound(|script| script.pool(field, value));
        }
        bench.sound(|script| script.pool(field, right));
    }
    bench.script.start_over();
    for field in [BUFFERS, WIDTH] {
        bench.unsound(|script| script.pool(field, 1));
    }
    bench.sound(|script| {
        script.pool(BUFFERS, 1);
        script.pool(WIDTH, 1);
    });
    bench.script.fresh(9, 6, [31, 12, 1, 0, 0]);
    for field in [BUFFERS, WIDTH] {
        bench.unsound(|script| script.pool(field, 0));
    }
}

/// "Before the first fresh start: no buffers (m and W are 0), no units; that state is sound too."
fn before_fresh(bench: &mut Bench) {
    bench.script.start_over();
    bench.sound(|_| {});
    for place in [[0, 0], [4, 9]] {
        bench.unit(place, DECLARED, &[1], &[]);
    }
    bench.unsound(|script| script.file(0, OPENED, 1));
    bench.unsound(|script| script.request(3, 0, WORKING, READ, 1));
    bench.sound(|script| script.pool(FROZEN, 1));
    bench.sound(|script| script.scan_mark(3, 9));
    bench.unsound(|script| script.scan_mark(3, 10));
    bench.sound(|script| script.priority_mark(3, 9));
    bench.unsound(|script| script.priority_mark(3, 10));
}

fn scan_marks(bench: &mut Bench) {
    for channel in 0..5 {
        bench.unsound(|script| script.scan_mark(channel, 10));
        bench.sound(|script| script.scan_mark(channel, 9));
    }
    bench.unsound(|script| script.scan_mark(4, 255));
}

/// The same of the mark for priority requests.
fn priority_marks(bench: &mut Bench) {
    for channel in 0..5 {
        bench.unsound(|script| script.priority_mark(channel, 10));
        bench.sound(|script| script.priority_mark(channel, 9));
    }
    bench.unsound(|script| script.priority_mark(0, 255));
}

/// "Channels 0 to 4", "Units 0 to 9".
fn unit_numbers(bench: &mut Bench) {
    bench.file(IDLE_INPUT, CHANNEL, &[5, 255], &[]);
    bench.file(IDLE_INPUT, UNIT, &[10, 255], &[]);
    bench.sound(|script| {
        script.unit(4, 9, DECLARED, 1);
        script.file(IDLE_INPUT, CHANNEL, 4);
        script.file(IDLE_INPUT, UNIT, 9);
    });
}

/// "r is 1 to B and B + e is at most W."
fn file_sizes(bench: &mut Bench) {
    bench.file(IDLE_INPUT, RECORD_LENGTH, &[0, 7, 65_535], &[1, 6]);
    bench.file(IDLE_INPUT, BLOCK_SIZE, &[7, 2, 0, 65_535], &[3]);
    bench.file(OUTPUT_FILE, BLOCK_SIZE, &[6, 65_535], &[4]);
    bench.file(INPUT, BLOCK_SIZE, &[6, 7], &[]);
    bench.unsound(|script| {
        script.file(IDLE_INPUT, BLOCK_SIZE, 65_535);
        script.file(IDLE_INPUT, RECORD_LENGTH, 65_535);
    });
    bench.unsound(|script| script.pool(WIDTH, 5));
}

/// e is 1 if sequence or check sums are chosen, or both.
fn chosen_sizes(bench: &mut Bench) {
    bench.file(IDLE_INPUT, SEQUENCE, &[1], &[]);
    bench.file(IDLE_INPUT, CHECK, &[1], &[]);
    for chosen in [&[SEQUENCE][..], &[CHECK], &[SEQUENCE, CHECK]] {
        bench.sound(|script| {
            script.file(IDLE_INPUT, BLOCK_SIZE, 5);
            for &field in chosen {
                script.file(IDLE_INPUT, field, 1);
            }
        });
    }
}

fn block_numbers(bench: &mut Bench) {
    for file in [INPUT, OUTPUT_FILE] {
        bench.file(file, NUMBER, &[32_768, 65_535], &[32_767, 0]);
    }
}

fn check_errors(bench: &mut Bench) {
    bench.file(INPUT, LOW + ERROR, &[4, 255], &[]);
    for (error, sound) in [(4, false), (3, true)] {
        let change = |script: &mut Script| script.full(INPUT, HIGH, [1, 0, error]);
        if sound {
            bench.sound(change);
        } else {
            bench.unsound(change);
        }
    }
}

/// M-101: a read error is 0, 4 or 10.
fn read_errors(bench: &mut Bench) {
    bench.file(INPUT, LOW + READ_ERROR, &[1, 3, 5, 9, 11, 255], &[4, 10]);
    bench.script.full(INPUT, HIGH, [1, 0, 0]);
    bench.file(INPUT, HIGH + READ_ERROR, &[1, 2], &[10]);
    bench.script.full(IDLE_INPUT, LOW, [2, 0, 0]);
    bench.file(IDLE_INPUT, LOW + READ_ERROR, &[1, 8], &[4]);
}

/// While it is not told, get's place is 0 and a check error is not told either.
fn read_errors_first(bench: &mut Bench) {
    for read_error in [4, 10] {
        bench.script.file(INPUT, LOW + READ_ERROR, read_error);
        bench.file(INPUT, LOW + AT, &[1, 5], &[0]);
        for (error, fields) in [(1, [15, 1, 15, 2]), (2, [15, 1, 14, 1]), (3, [15, 1, 0, 0])] {
            for given in 0..4 {
                let change = |script: &mut Script| {
                    script.found(INPUT, LOW, fields);
                    script.file(INPUT, LOW + ERROR, given);
                };
                if given == error {
                    bench.sound(change);
                } else {
                    bench.unsound(change);
                }
            }
        }
        // A field that is not chosen says nothing.
        bench.script.file(INPUT, SEQUENCE, 0);
        bench.file(INPUT, LOW + NUMBER_READ, &[], &[7]);
        bench.file(INPUT, LOW + SUM_READ, &[7], &[15]);
        bench.script.file(INPUT, SEQUENCE, 1);
    }
    bench.script.full(INPUT, HIGH, [3, 1, 0]);
    bench.file(INPUT, HIGH + READ_ERROR, &[4, 10], &[0]);
}

/// A sum has 18 bits, a number 15.
fn found_fields(bench: &mut Bench) {
    bench.script.full(INPUT, HIGH, [1, 1, 0]);
    for side in [LOW, HIGH] {
        for field in [FOUND_SUM, SUM_READ] {
            bench.file(INPUT, side + field, &[262_144, u32::MAX.into()], &[262_143]);
        }
        for field in [FOUND_NUMBER, NUMBER_READ] {
            bench.file(INPUT, side + field, &[32_768, 65_535], &[32_767]);
        }
    }
}

/// "With no check word the fields read are zero".
fn nothing_read(bench: &mut Bench) {
    bench.script.full(IDLE_INPUT, LOW, [1, 0, 0]);
    bench.file(IDLE_INPUT, LOW + SUM_READ, &[1, 262_143], &[]);
    bench.file(IDLE_INPUT, LOW + NUMBER_READ, &[1, 32_767], &[]);
    bench.file(IDLE_INPUT, LOW + FOUND_SUM, &[], &[262_143]);
    bench.file(IDLE_INPUT, LOW + FOUND_NUMBER, &[], &[32_767]);
    bench.script.file(IDLE_INPUT, BLOCK_SIZE, 5);
    for chosen in [SEQUENCE, CHECK] {
        bench.sound(|script| {
            script.file(IDLE_INPUT, chosen, 1);
            script.found(IDLE_INPUT, LOW, [0, 0, 262_143, 32_767]);
        });
    }
}

/// An error that is not told is what the chosen fields say; without one they may say anything.
fn errors_as_found(bench: &mut Bench) {
    for choice in [3, 1, 2, 0] {
        bench.script.file(INPUT, SEQUENCE, choice & 1);
        bench.script.file(INPUT, CHECK, choice >> 1);
        for unequal in if choice == 0 { 0..1 } else { 0..4 } {
            let fields = [5, 6, 5 + (unequal >> 1), 6 - (unequal & 1)];
            let fields = if choice == 0 { [5, 6, 0, 0] } else { fields };
            for error in if choice == 3 || unequal == 3 { 0..4 } else { 1..3 } {
                let change = |script: &mut Script| {
                    script.found(INPUT, LOW, fields);
                    script.file(INPUT, LOW + ERROR, error);
                };
                if error == 0 || error == unequal & choice {
                    bench.sound(change);
                } else {
                    bench.unsound(change);
                }
            }
        }
    }
}

/// A fresh start is refused on an unsound state, whatever its own numbers are, and leaves the state as
/// it was. The same one is accepted when the change is taken back, or from the state before the first.
fn fresh_starts(bench: &mut Bench) {
    let changes: [fn(&mut Script); 6] = [
        |script| script.scan_mark(4, 10),
        |script| script.pool(BUFFERS, 255),
        |script| script.file(INPUT, LOW + AT, 65_535),
        |script| script.unit(2, 0, ATTEMPTS, 102),
        |script| script.slot(WRITING, LOW, EMPTY),
        |script| script.file(CLOSED, RECORD_LENGTH, 65_535),
    ];
    for (index, change) in changes.into_iter().enumerate() {
        bench.build();
        bench.script.freeze();
        let before = bench.script.player.state.clone();
        change(bench.script);
        bench.script.right_mask();
        assert!(!is_sound(&bench.script.player.state));
        bench.script.print_sound();
        bench.script.fresh(8, 9, [1, 0, 0, 0, 0]);
        bench.script.fresh(2, 3, [1, 0, 1_024, 0, 0]);
        bench.script.fresh(9, 6, [31, 12, 1, 0, 0]);
        bench.script.fresh(2, 3, [1, 0, 0, 0, 512]);
        bench.script.print_state();
        if index % 2 == 0 {
            bench.script.set_state(&before);
        } else {
            bench.script.start_over();
        }
        bench.script.print_sound();
        bench.script.fresh(8, 9, [1, 0, 0, 0, 0]);
        bench.script.print_state();
        bench.script.fresh(2, 3, [1, 0, 0, 0, 512]);
        bench.script.print_state();
        bench.script.print_sound();
        bench.script.open(0, 0, 3, 1);
        bench.script.read(0, &[7]);
        bench.script.print_room();
    }
}

/// Every kind of call on one unsound state, with a short area and with numbers out of range too.
fn every_call_on_one_state(bench: &mut Bench) {
    bench.build();
    bench.script.file(CLOSED, HIGH + BUFFER_NUMBER, 1);
    for length in [64, 53] {
        bench.script.length(length);
        for call in CALLS {
            bench.script.add(call);
        }
    }
    bench.script.length(64);
    bench.script.get(16);
    bench.script.put(CLOSED, &[1 << 36]);
    bench.script.ask(IDLE_INPUT, 3);
    bench.script.deliver(0, &[1, 2]);
    bench.script.print_state();
    bench.script.print_room();
    bench.script.file(CLOSED, HIGH + BUFFER_NUMBER, 0);
    bench.script.print_sound();
    for call in CALLS {
        bench.script.add(call);
    }
    bench.script.print_state();
}
