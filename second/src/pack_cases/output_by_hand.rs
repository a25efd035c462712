//! Sound states of output files that no calls lead to (reading F1).

use super::script::{Script, END_OF_MEDIUM, GOOD, INCOMPLETE_WORD, MARK, WRITE};
use crate::pack::{CHECK, DOUBLE, OUTPUT, SEQUENCE};
use crate::state_fields::{HIGH, LOW, NUMBER, TURNED, WORKING};

pub fn add_cases(script: &mut Script) {
    numbers_on_sealing(script);
    part_filled_of_any_size(script);
    full_output_blocks(script);
    marks_beside_blocks(script);
}

/// Sealed blocks near the last number.
fn numbers_on_sealing(script: &mut Script) {
    for flags in [0, SEQUENCE, CHECK, SEQUENCE + CHECK] {
        script.begin(2, 3, 1);
        script.open(0, OUTPUT + DOUBLE + flags, 2, 1);
        script.file(0, NUMBER, 32_767);
        script.put(0, &[1]);
        script.seal(0);
        script.put(0, &[1]);
        script.put(0, &[2]);
        script.print_state();
        for outcome in [GOOD, END_OF_MEDIUM] {
            script.ask(0, WRITE);
            script.report(0, outcome);
        }
    }
}

/// A part-filled block need not hold whole records.
fn part_filled_of_any_size(script: &mut Script) {
    for (block_size, words) in [(6, 3), (8, 3), (7, 5), (7, 4), (8, 6), (8, 2)] {
        for side in [LOW, HIGH] {
            script.begin(2, 9, 1);
            script.open(0, OUTPUT + DOUBLE + SEQUENCE + CHECK, block_size, 2);
            for place in 0..18 {
                script.word(place, 100 + place);
            }
            script.part_filled(0, side, words);
            script.print_sound();
            script.close(0);
            script.put(0, &[1]);
            if words % 2 == 0 {
                script.seal(0);
            }
            script.put(0, &[1, 2]);
            script.print_state();
            script.seal(0);
            script.ask(0, WRITE);
            script.report(0, GOOD);
        }
    }
}

/// Full blocks of an output file that were never put, of any size and in either order.
fn full_output_blocks(script: &mut Script) {
    for turned in [0, 1] {
        script.begin(3, 4, 3);
        script.open(1, 0, 1, 1);
        script.open(0, OUTPUT + DOUBLE + SEQUENCE, 3, 2);
        for place in 0..12 {
            script.word(place, 70 + place);
        }
        script.full(0, LOW, [1, 0, 0]);
        script.full(0, HIGH, [3, 0, 0]);
        script.file(0, TURNED, turned);
        script.print_sound();
        script.close(0);
        script.put(0, &[1, 2]);
        script.ask(0, MARK);
        for outcome in [INCOMPLETE_WORD, GOOD, END_OF_MEDIUM] {
            script.ask(0, WRITE);
            script.report(0, outcome);
            script.print_state();
        }
        script.close(0);
    }
}

/// A mark at work beside blocks that wait: its end hands nothing out and leaves them.
fn marks_beside_blocks(script: &mut Script) {
    script.begin(2, 4, 1);
    script.open(0, OUTPUT + DOUBLE, 4, 2);
    script.full(0, LOW, [3, 0, 0]);
    script.part_filled(0, HIGH, 2);
    script.request(0, 0, WORKING, MARK, 26);
    script.print_sound();
    script.close(0);
    script.put(0, &[1, 2]);
    script.report(0, GOOD);
    script.print_state();
    script.close(0);
    script.ask(0, MARK);
    script.ask(0, WRITE);
    script.report(0, GOOD);
}
