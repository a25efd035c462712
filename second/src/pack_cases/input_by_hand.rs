//! Sound states of input files that no calls lead to (reading F1: "every call answers them too").

use super::script::{Script, FILE_MARK, GOOD, READ, SPOILT};
use crate::pack::{CHECK, DOUBLE, SEQUENCE};
use crate::state_fields::{EMPTY, HIGH, LOW, MARKED, NUMBER, TAKEN, TURNED, WORKING};

pub fn add_cases(script: &mut Script) {
    two_used_up_blocks(script);
    used_up_beside_unread(script);
    places_of_get(script);
    untold_errors(script);
    numbers_on_reading(script);
    marked_files(script);
    taken_high_buffer(script);
}

/// A double input file with blocks of up to 5 words and records of 2, in buffers 0 and 1.
fn double_input(script: &mut Script, flags: u64) {
    script.begin(2, 6, 1);
    script.open(0, DOUBLE + flags, 5, 2);
    for place in 0..12 {
        script.word(place, 50 + place);
    }
}

fn turn(script: &mut Script, turned: u64) {
    script.file(0, TURNED, turned);
    script.print_sound();
}

/// A get empties both, a skip only the oldest; a read finds no empty buffer.
fn two_used_up_blocks(script: &mut Script) {
    for turned in [0, 1] {
        for marked in [0, 1] {
            double_input(script, 0);
            script.full(0, LOW, [3, 3, 0]);
            script.full(0, HIGH, [5, 5, 0]);
            script.file(0, MARKED, marked);
            turn(script, turned);
            script.ask(0, READ);
            script.get(0);
            script.print_state();
            script.get(0);
            script.ask(0, READ);
        }
        double_input(script, 0);
        script.full(0, LOW, [3, 3, 0]);
        script.full(0, HIGH, [5, 5, 0]);
        turn(script, turned);
        script.skip(0);
        script.print_state();
        script.ask(0, READ);
        script.deliver(0, &[1, 2]);
        script.get(0);
        script.print_state();
        script.close(0);
    }
}

/// One used-up block and one that is not, the older and the newer, in each buffer.
fn used_up_beside_unread(script: &mut Script) {
    for turned in [0, 1] {
        for (low, high) in [([4, 4, 0], [5, 1, 0]), ([3, 2, 0], [2, 2, 0])] {
            double_input(script, 0);
            script.full(0, LOW, low);
            script.full(0, HIGH, high);
            turn(script, turned);
            script.get(0);
            script.print_state();
            script.get(0);
            script.get(0);
            script.get(0);
            script.print_state();
        }
    }
    double_input(script, 0);
    script.full(0, LOW, [4, 4, 0]);
    script.full(0, HIGH, [5, 1, 0]);
    script.word(7, SPOILT);
    script.get(0);
    script.skip(0);
    script.get(0);
    script.print_state();
}

/// A full block at any place, in an idle file and in one that is read meanwhile.
fn places_of_get(script: &mut Script) {
    for side in [LOW, HIGH] {
        for at in 0..=5 {
            double_input(script, 0);
            script.full(0, side, [5, at, 0]);
            script.print_sound();
            script.get(0);
            script.ask(0, READ);
            script.get(0);
            script.deliver(0, &[1]);
            script.print_state();
            script.close(0);
        }
    }
    double_input(script, 0);
    script.full(0, LOW, [1, 0, 0]);
    script.get(0);
    script.skip(0);
    script.skip(0);
}

/// The error of a used-up block is never told; one of a block that is begun is told before the
/// next record.
fn untold_errors(script: &mut Script) {
    let both = SEQUENCE + CHECK;
    for (flags, low, high) in [
        (both, [3, 3, 2], [4, 0, 0]),
        (both, [3, 3, 1], [4, 0, 3]),
        (both, [4, 4, 3], [4, 4, 2]),
        (both, [5, 1, 1], [1, 0, 2]),
        (SEQUENCE, [5, 1, 1], [1, 1, 1]),
        (CHECK, [3, 3, 2], [4, 0, 2]),
    ] {
        double_input(script, flags);
        script.full(0, LOW, low);
        script.full(0, HIGH, high);
        script.print_sound();
        for _ in 0..4 {
            script.get(0);
        }
        script.print_state();
    }
    double_input(script, both);
    script.full(0, LOW, [2, 2, 3]);
    script.full(0, HIGH, [2, 0, 1]);
    script.skip(0);
    script.get(0);
    script.close(0);
    script.print_state();
}

/// Delivered blocks near the last number; an error does not stop the count.
fn numbers_on_reading(script: &mut Script) {
    for number in [32_766, 32_767, 0] {
        script.begin(2, 3, 1);
        script.open(0, SEQUENCE, 2, 2);
        script.file(0, NUMBER, number);
        script.print_sound();
        for given in [32_766, 32_767, 0, 1] {
            script.read(0, &[7, given]);
            script.skip(0);
        }
        script.print_state();
    }
}

/// Reading A16: a mark was read, and yet a read is at work or a block is there.
fn marked_files(script: &mut Script) {
    for outcome in [GOOD, FILE_MARK] {
        double_input(script, 0);
        script.file(0, MARKED, 1);
        script.ask(0, READ);
        script.get(0);
        script.full(0, LOW, [2, 0, 0]);
        script.full(0, HIGH, [2, 0, 0]);
        script.ask(0, READ);
        script.get(0);
        script.slot(0, HIGH, TAKEN);
        script.request(0, 0, WORKING, READ, 4);
        script.print_sound();
        script.ask(0, READ);
        script.get(0);
        if outcome == GOOD {
            script.deliver(0, &[8, 9, 10]);
        } else {
            script.report(0, outcome);
        }
        script.print_state();
        for _ in 0..3 {
            script.get(0);
        }
    }
}

/// A read that took the high buffer while the low one is empty, or used up, or unread.
fn taken_high_buffer(script: &mut Script) {
    for words in [0, 2, 5] {
        double_input(script, SEQUENCE);
        if words == 0 {
            script.slot(0, LOW, EMPTY);
        } else {
            script.full(0, LOW, [words, 2, 0]);
        }
        script.slot(0, HIGH, TAKEN);
        script.request(0, 0, WORKING, READ, 1);
        script.print_sound();
        script.deliver(0, &[8, 9, 1]);
        script.print_state();
        script.skip(0);
        script.read(0, &[10, 3]);
        script.print_state();
        script.get(0);
        script.get(0);
        script.get(0);
    }
}
