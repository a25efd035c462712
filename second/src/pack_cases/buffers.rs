//! Which buffers an open takes ("The lowest-numbered free buffers are taken"), and the words of the
//! area that no rule sets: they stay, also in emptied buffers and at a fresh start.

use super::script::{
    Script, END_OF_MEDIUM, FILE_MARK, GOOD, HUGE, INCOMPLETE_WORD, MARK, READ, REDUNDANCY, SPOILT, WRITE,
};
use crate::pack::{CHECK, DOUBLE, OUTPUT, SEQUENCE};
use crate::state_fields::{BUFFERS, BUFFER_NUMBER, HIGH, LOW};

pub fn add_cases(script: &mut Script) {
    lowest_free_buffers(script);
    too_few_buffers(script);
    closed_in_every_order(script);
    buffers_by_hand(script);
    fresh_starts_keep_words(script);
    input_keeps_words(script);
    output_keeps_words(script);
    refused_calls_keep_words(script);
}

/// Opens, closes in another order, and opens again.
fn lowest_free_buffers(script: &mut Script) {
    script.begin(6, 2, 127);
    script.open(0, 0, 2, 1);
    script.open(1, DOUBLE, 2, 1);
    script.open(2, OUTPUT, 2, 1);
    script.open(3, OUTPUT + DOUBLE, 2, 1);
    script.print_state();
    script.close(0);
    script.close(2);
    script.open(4, DOUBLE, 2, 1);
    script.print_state();
    script.close(3);
    script.close(1);
    script.open(5, 0, 2, 1);
    script.open(6, OUTPUT + DOUBLE, 2, 1);
    script.print_state();
    script.open(0, 0, 2, 1);
    script.close(4);
    script.open(1, DOUBLE, 2, 1);
    script.print_state();
}

/// P11: "two free, two asked: opened; one free: 7"; a lower number that applies is given.
fn too_few_buffers(script: &mut Script) {
    script.begin(3, 2, 15);
    script.open(0, DOUBLE, 2, 1);
    script.try_open(1, DOUBLE, 2, 1);
    script.try_open(1, DOUBLE, 3, 1);
    script.try_open(0, DOUBLE, 2, 1);
    script.try_open_on(1, 0, 0, DOUBLE, 2, 1);
    script.try_open_on(1, 0, 9, DOUBLE, 2, 1);
    script.try_open_on(1, 2, 0, DOUBLE, 2, 1);
    script.try_open_on(1, 5, 0, DOUBLE, 2, 1);
    script.try_open(1, 16 + DOUBLE, 2, 1);
    script.print_state();
    script.open(1, 0, 2, 1);
    script.try_open(2, 0, 2, 1);
    script.try_open(2, 0, 2, 0);
    script.close(0);
    script.try_open(2, DOUBLE, 2, 3);
    script.try_open(2, DOUBLE + SEQUENCE, 2, 1);
    script.open(2, DOUBLE + SEQUENCE, 1, 1);
    script.print_state();
}

/// Three files closed in each order; a double one is opened after the first close and the second.
fn closed_in_every_order(script: &mut Script) {
    for order in [[0, 1, 2], [0, 2, 1], [1, 0, 2], [1, 2, 0], [2, 0, 1], [2, 1, 0]] {
        script.begin(4, 1, 31);
        for file in 0..3 {
            script.open(file, 0, 1, 1);
        }
        script.close(order[0]);
        script.open(3, DOUBLE, 1, 1);
        script.close(order[1]);
        script.open(4, 0, 1, 1);
        script.close(order[2]);
        script.open(0, OUTPUT, 1, 1);
        script.print_state();
    }
}

/// Files whose buffers were set by hand; the lowest that is free is taken all the same.
fn buffers_by_hand(script: &mut Script) {
    script.begin(8, 2, 31);
    script.open(0, DOUBLE, 2, 1);
    script.open(1, 0, 2, 1);
    script.file(0, LOW + BUFFER_NUMBER, 1);
    script.file(0, HIGH + BUFFER_NUMBER, 7);
    script.file(1, LOW + BUFFER_NUMBER, 3);
    script.right_mask();
    script.print_sound();
    script.open(2, DOUBLE, 2, 1);
    script.open(3, DOUBLE, 2, 1);
    script.open(4, 0, 2, 1);
    script.print_state();
    script.read(0, &[1]);
    script.read(0, &[2, 3]);
    script.read(2, &[4]);
    script.print_room();
    script.begin(1, 2, 3);
    script.pool(BUFFERS, 32);
    script.right_mask();
    script.open(0, DOUBLE, 2, 1);
    script.file(0, LOW + BUFFER_NUMBER, 30);
    script.file(0, HIGH + BUFFER_NUMBER, 31);
    script.right_mask();
    script.read(0, &[5, 6]);
    script.read(0, &[7, 8]);
    script.get(0);
    script.print_room();
    script.print_state();
}

/// A fresh start and a close write nothing, whatever lies in the room.
fn fresh_starts_keep_words(script: &mut Script) {
    script.start_over();
    script.fill_room();
    script.word(5, SPOILT);
    script.word(63, HUGE);
    script.print_room();
    script.fresh(4, 3, [3, 0, 0, 0, 0]);
    script.print_room();
    script.open(0, DOUBLE, 3, 1);
    script.read(0, &[1, 2]);
    script.read(0, &[3]);
    script.print_room();
    script.get(0);
    script.close(0);
    script.print_room();
    script.fresh(0, 3, [3, 0, 0, 0, 0]);
    script.fresh(2, 32, [3, 0, 0, 0, 0]);
    script.print_room();
    script.open(0, OUTPUT, 3, 1);
    script.put(0, &[4]);
    script.fresh(16, 4, [3, 0, 0, 0, 0]);
    script.print_room();
}

/// Deliveries shorter than the buffer, skips, marks and permanent errors; words past m×W.
fn input_keeps_words(script: &mut Script) {
    script.start_over();
    script.fill_room();
    script.fresh(3, 6, [3, 0, 0, 0, 0]);
    script.open(1, 0, 6, 6);
    script.open(0, DOUBLE + SEQUENCE, 5, 2);
    script.read(0, &[1, 2, 3, 1]);
    script.print_room();
    script.read(0, &[4, 2]);
    script.print_room();
    for _ in 0..3 {
        script.get(0);
    }
    script.skip(0);
    script.print_room();
    script.ask(0, READ);
    for outcome in [REDUNDANCY, INCOMPLETE_WORD, REDUNDANCY, INCOMPLETE_WORD] {
        script.report(0, outcome);
    }
    script.print_room();
    script.ask(0, READ);
    script.deliver(0, &[9, 9, 9, 9, 9, 9, 9]);
    script.deliver(0, &[9]);
    script.report(0, FILE_MARK);
    script.print_room();
    script.get(0);
    script.close(0);
    script.print_room();
    script.print_state();
}

/// Puts and seals write their own words alone; ends of writes and marks write nothing.
fn output_keeps_words(script: &mut Script) {
    script.start_over();
    script.fill_room();
    script.length(20);
    script.fresh(3, 6, [3, 0, 0, 0, 0]);
    script.open(1, 0, 1, 1);
    script.open(0, OUTPUT + DOUBLE + SEQUENCE + CHECK, 4, 2);
    script.put(0, &[1, 2]);
    script.print_room();
    script.seal(0);
    script.print_room();
    script.put(0, &[3, 4]);
    script.put(0, &[5, 6]);
    script.print_room();
    for outcome in [INCOMPLETE_WORD, END_OF_MEDIUM, GOOD] {
        script.ask(0, WRITE);
        script.report(0, outcome);
        script.print_room();
    }
    script.ask(0, MARK);
    script.report(0, GOOD);
    script.close(0);
    script.open(0, OUTPUT, 6, 5);
    script.put(0, &[7, 8, 9, 10, 11]);
    script.print_room();
    script.print_state();
}

/// A refused call changes nothing of the room or of the state.
fn refused_calls_keep_words(script: &mut Script) {
    script.start_over();
    script.fill_room();
    script.fresh(3, 6, [7, 0, 0, 0, 0]);
    script.open(0, CHECK, 5, 2);
    script.open(1, OUTPUT + CHECK, 4, 2);
    script.open(2, OUTPUT, 2, 2);
    script.ask(0, READ);
    script.put(1, &[1, 2]);
    script.put(2, &[3, 4]);
    script.word(6, HUGE);
    script.print_room();
    script.print_state();
    script.deliver(0, &[1]);
    script.deliver(0, &[1, 2, 3, 4, 5, 6, 7]);
    script.deliver(0, &[1, SPOILT]);
    script.report(0, END_OF_MEDIUM);
    script.report(1, GOOD);
    script.put(0, &[8, 8]);
    script.put(1, &[8, 8]);
    script.put(1, &[8, 8, 8]);
    script.put(2, &[8, 8]);
    script.put(3, &[8, 8]);
    script.seal(0);
    script.seal(1);
    script.seal(2);
    script.get(2);
    script.skip(0);
    script.close(0);
    script.close(1);
    script.ask(0, READ);
    script.ask(1, MARK);
    script.ask(2, READ);
    script.fresh(33, 1, [0, 0, 0, 0, 0]);
    script.print_room();
    script.print_state();
}
