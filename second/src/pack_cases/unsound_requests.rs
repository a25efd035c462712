//! States that break a clause about units and their requests.

use super::script::{Script, MARK, READ, WRITE};
use super::unsound_bench::{Bench, IDLE_INPUT, INPUT, OUTPUT_FILE, READING, WRITING};
use crate::state_fields::*;

/// The clauses, each tried on a bench of its own.
pub const CLAUSES: [fn(&mut Bench); 12] = [
    declared_units,
    own_units,
    fitting_requests,
    one_activity,
    no_idle_wait,
    taken_buffers,
    written_blocks,
    attempts,
    incomplete_words,
    positions,
    undeclared_positions,
    noise_passed,
];

/// "each open file has .. a declared unit".
fn declared_units(bench: &mut Bench) {
    bench.unit([0, 3], DECLARED, &[0], &[]);
    bench.unit([2, 0], DECLARED, &[0], &[]);
    bench.unit([0, 4], DECLARED, &[], &[0]);
    bench.file(IDLE_INPUT, UNIT, &[5], &[4]);
    bench.file(IDLE_INPUT, CHANNEL, &[3, 4], &[1]);
}

/// "of its own".
fn own_units(bench: &mut Bench) {
    bench.file(IDLE_INPUT, UNIT, &[0, 1], &[4]);
    bench.script.open_on(15, 0, 4, 0, 6, 2);
    bench.file(15, UNIT, &[0, 3], &[4]);
    bench.unsound(|script| {
        script.file(IDLE_INPUT, CHANNEL, 1);
        script.file(IDLE_INPUT, UNIT, 3);
        script.file(OUTPUT_FILE, CHANNEL, 1);
        script.file(OUTPUT_FILE, UNIT, 3);
    });
}

/// "each request fits the direction of its unit's open file".
fn fitting_requests(bench: &mut Bench) {
    for operation in [READ, WRITE, MARK] {
        bench.unsound(|script| script.request(0, 4, WORKING, operation, 1));
        bench.unsound(|script| script.request(3, 9, WORKING, operation, 1));
    }
    for operation in [WRITE, MARK] {
        bench.unsound(|script| script.request(0, INPUT, WORKING, operation, 1));
    }
    bench.unsound(|script| {
        script.slot(OUTPUT_FILE, HIGH, TAKEN);
        script.request(0, OUTPUT_FILE, WORKING, READ, 1);
    });
    bench.sound(|script| script.request(0, OUTPUT_FILE, WORKING, MARK, 1));
    bench.sound(|script| {
        script.full(OUTPUT_FILE, HIGH, [5, 0, 0]);
        script.request(0, OUTPUT_FILE, WORKING, WRITE, 1);
    });
    bench.sound(|script| {
        script.slot(INPUT, HIGH, TAKEN);
        script.request(0, INPUT, WORKING, READ, 1);
    });
}

/// "each channel works for at most one unanswered request".
fn one_activity(bench: &mut Bench) {
    bench.script.slot(IDLE_INPUT, LOW, TAKEN);
    bench.script.request(0, IDLE_INPUT, WORKING, READ, 1);
    for turn in [WORKING, WAITING, DISPLACED] {
        let change = |script: &mut Script| script.request(0, OUTPUT_FILE, turn, MARK, 2);
        if turn == WORKING {
            bench.unsound(change);
        } else {
            bench.sound(change);
        }
    }
    bench.script.freeze();
    bench.unsound(|script| script.request(0, OUTPUT_FILE, WORKING, MARK, 2));
}

/// "and for one if it is not frozen and any waits".
fn no_idle_wait(bench: &mut Bench) {
    bench.unit([2, 0], TURN_KIND, &[WAITING, DISPLACED], &[]);
    bench.unit([1, 2], TURN_KIND, &[WAITING, DISPLACED], &[]);
    bench.unsound(|script| {
        script.slot(INPUT, HIGH, TAKEN);
        script.request(0, INPUT, WAITING, READ, 1);
        script.request(0, OUTPUT_FILE, DISPLACED, MARK, 2);
    });
    bench.sound(|script| {
        script.slot(INPUT, HIGH, TAKEN);
        script.request(0, INPUT, WAITING, READ, 1);
        script.request(0, OUTPUT_FILE, WORKING, MARK, 2);
    });
    bench.script.freeze();
    bench.unit([2, 0], TURN_KIND, &[], &[WAITING, DISPLACED]);
}

/// "A read request alone has a buffer taken, one of its file's".
fn taken_buffers(bench: &mut Bench) {
    bench.unsound(|script| script.slot(READING, LOW, EMPTY));
    bench.unsound(|script| script.full(READING, LOW, [6, 0, 0]));
    bench.unsound(|script| script.slot(READING, HIGH, TAKEN));
    bench.sound(|script| {
        script.slot(READING, LOW, EMPTY);
        script.slot(READING, HIGH, TAKEN);
    });
    bench.unit([2, 0], TURN_KIND, &[IDLE], &[]);
    for (file, side) in [(IDLE_INPUT, LOW), (INPUT, HIGH), (OUTPUT_FILE, HIGH)] {
        bench.unsound(|script| script.slot(file, side, TAKEN));
    }
    bench.unsound(|script| {
        script.slot(READING, LOW, EMPTY);
        script.slot(IDLE_INPUT, LOW, TAKEN);
    });
    bench.script.request(0, OUTPUT_FILE, WORKING, MARK, 1);
    bench.unsound(|script| script.slot(OUTPUT_FILE, HIGH, TAKEN));
    bench.script.full(OUTPUT_FILE, LOW, [2, 0, 0]);
    bench.script.unit(0, OUTPUT_FILE, OPERATION, WRITE);
    bench.unsound(|script| script.slot(OUTPUT_FILE, HIGH, TAKEN));
}

/// "a write's file has a full block".
fn written_blocks(bench: &mut Bench) {
    bench.unsound(|script| script.slot(WRITING, LOW, EMPTY));
    bench.sound(|script| {
        script.unit(1, 2, OPERATION, MARK);
        script.slot(WRITING, LOW, EMPTY);
    });
    bench.unsound(|script| script.request(0, OUTPUT_FILE, WORKING, WRITE, 1));
    bench.sound(|script| {
        script.full(OUTPUT_FILE, HIGH, [1, 0, 0]);
        script.request(0, OUTPUT_FILE, WORKING, WRITE, 1);
    });
}

/// "no attempt past its limit", at work, waiting and displaced.
fn attempts(bench: &mut Bench) {
    bench.unit([2, 0], ATTEMPTS, &[0, 102, 255], &[101]);
    bench.unit([1, 2], ATTEMPTS, &[0, 28, 101], &[27]);
    bench.script.unit(1, 2, OPERATION, MARK);
    bench.unit([1, 2], ATTEMPTS, &[0, 28], &[27]);
    bench.script.freeze();
    for turn in [WAITING, DISPLACED] {
        bench.script.unit(2, 0, TURN_KIND, turn);
        bench.unit([2, 0], ATTEMPTS, &[0, 102], &[101]);
    }
}

fn incomplete_words(bench: &mut Bench) {
    bench.unit([2, 0], INCOMPLETE, &[2, 255], &[1]);
    bench.unit([1, 2], INCOMPLETE, &[1, 255], &[]);
    bench.script.unit(1, 2, OPERATION, MARK);
    bench.unit([1, 2], INCOMPLETE, &[1], &[0]);
}

/// M-106: "each held at 32,767".
fn positions(bench: &mut Bench) {
    for place in [[0, 0], [0, 4], [2, 0], [1, 3]] {
        for field in [MARKS, RECORDS] {
            bench.unit(place, field, &[32_768, 65_535], &[32_767]);
        }
    }
    bench.unit([0, 3], NOISE_MET, &[], &[1]);
}

/// An undeclared unit stands at zero and has met no noise.
fn undeclared_positions(bench: &mut Bench) {
    for place in [[0, 5], [4, 9]] {
        for field in [MARKS, RECORDS, NOISE_MET] {
            bench.unit(place, field, &[1], &[0]);
        }
    }
    bench.unsound(|script| {
        script.unit(0, 4, RECORDS, 3);
        script.unit(0, 4, DECLARED, 0);
    });
    bench.script.start_over();
    for field in [MARKS, RECORDS, NOISE_MET] {
        bench.unit([2, 7], field, &[1], &[]);
    }
}

/// "At most 100 are passed in one operation", a read of a unit that has met noise.
fn noise_passed(bench: &mut Bench) {
    bench.unit([2, 0], NOISE, &[1, 100, 101], &[0]);
    bench.script.unit(2, 0, NOISE_MET, 1);
    bench.unit([2, 0], NOISE, &[101, 255], &[100, 1, 0]);
    bench.script.unit(2, 0, NOISE, 7);
    bench.unit([2, 0], NOISE_MET, &[0], &[]);
    bench.script.freeze();
    for turn in [WAITING, DISPLACED] {
        bench.script.unit(2, 0, TURN_KIND, turn);
        bench.unit([2, 0], NOISE, &[101], &[100]);
        bench.unit([2, 0], NOISE_MET, &[0], &[]);
    }
    bench.script.unit(1, 2, NOISE_MET, 1);
    for operation in [WRITE, MARK] {
        bench.script.unit(1, 2, OPERATION, operation);
        bench.unit([1, 2], NOISE, &[1, 101], &[0]);
    }
    // An idle unit has no count.
    bench.unit([0, 4], NOISE, &[], &[5]);
}
