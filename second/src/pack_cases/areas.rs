//! Areas that are just long enough or short by one (document 01: "An area under m×W is refused 1").

use super::script::{Script, FILE_MARK, GOOD, HUGE, READ, REDUNDANCY, WRITE};
use crate::pack::{DOUBLE, OUTPUT, SEQUENCE};
use crate::state_fields::{BUFFERS, WIDTH};

pub fn add_cases(script: &mut Script) {
    fresh_starts(script);
    calls_on_the_area(script);
    short_comes_first(script);
    calls_without_the_area(script);
    before_the_first_fresh_start(script);
    pools_by_hand(script);
}

/// A fresh start judges the new m×W, whatever the old one was.
fn fresh_starts(script: &mut Script) {
    for (buffers, width) in [(1, 1), (3, 4), (2, 7), (16, 4), (1, 64), (32, 2), (2, 3)] {
        script.start_over();
        script.length(buffers * width - 1);
        script.fresh(buffers, width, [1, 0, 0, 0, 1]);
        script.print_state();
        script.length(buffers * width);
        script.fresh(buffers, width, [1, 0, 0, 0, 1]);
        script.print_state();
    }
    script.open(0, 0, 3, 1);
    for (buffers, width) in [(5, 13), (32, 3), (32, 1_024), (0, 1), (33, 1), (1, 0), (1, 1_025)] {
        script.length(64);
        script.fresh(buffers, width, [2, 0, 0, 0, 0]);
    }
    script.fresh(1, 1, [1_024, 0, 0, 0, 0]);
    script.fresh(1, 1, [0, 0, 0, 0, 32_768]);
    script.print_state();
    script.fresh(32, 2, [0, 512, 0, 0, 1_023]);
    script.print_state();
}

/// Report, get, put and seal judge the state's m×W: twelve words, of which all are used.
fn calls_on_the_area(script: &mut Script) {
    script.begin(3, 4, 3);
    script.open(0, 0, 4, 2);
    script.open(1, OUTPUT + DOUBLE + SEQUENCE, 3, 1);
    script.ask(0, READ);
    script.length(11);
    script.deliver(0, &[1, 2, 3]);
    for outcome in [GOOD, REDUNDANCY, FILE_MARK] {
        script.report(0, outcome);
    }
    script.print_state();
    script.length(12);
    script.report(0, REDUNDANCY);
    script.deliver(0, &[1, 2, 3, 4]);
    for length in [11, 12] {
        script.length(length);
        script.get(0);
        script.print_state();
    }
    for word in 21..=25 {
        script.length(11);
        script.put(1, &[word]);
        script.length(12);
        script.put(1, &[word]);
    }
    for length in [11, 12] {
        script.length(length);
        script.seal(1);
        script.print_room();
    }
    for outcome in [GOOD, REDUNDANCY] {
        script.ask(1, WRITE);
        script.length(11);
        script.report(1, outcome);
        script.length(12);
        script.report(1, outcome);
    }
    script.report(1, GOOD);
    script.print_room();
    script.print_state();
}

/// 1 is the lowest number: a short area is told before anything else that is wrong.
fn short_comes_first(script: &mut Script) {
    script.begin(3, 4, 3);
    script.open(0, 0, 4, 2);
    script.open(1, OUTPUT, 4, 2);
    for length in [0, 11, 12] {
        script.length(length);
        script.get(0);
        script.get(1);
        script.get(5);
        script.put(0, &[1, 2]);
        script.put(1, &[HUGE, 2]);
        script.put(5, &[1, 2]);
        script.put(1, &[1]);
        script.seal(0);
        script.seal(1);
        script.seal(5);
        script.report(0, GOOD);
        script.deliver(1, &[HUGE]);
    }
}

/// Open, close, ask, skip, freeze and thaw do not mind a short area.
fn calls_without_the_area(script: &mut Script) {
    script.begin(4, 4, 15);
    script.open(0, DOUBLE, 4, 2);
    script.read(0, &[1, 2, 3]);
    for length in [0, 15] {
        script.length(length);
        script.open(1, 0, 4, 4);
        script.ask(0, READ);
        script.freeze();
        script.thaw();
        script.report(0, REDUNDANCY);
        script.skip(0);
        script.close(0);
        script.close(1);
        script.print_state();
        script.length(16);
        script.deliver(0, &[4, 5]);
    }
}

/// The state before the first fresh start has no words, so that no area is short of it.
fn before_the_first_fresh_start(script: &mut Script) {
    script.start_over();
    script.length(0);
    script.report(0, GOOD);
    script.deliver(0, &[HUGE]);
    script.get(0);
    script.put(15, &[1]);
    script.put(0, &[HUGE]);
    script.seal(0);
    script.fresh(1, 1, [1, 0, 0, 0, 0]);
    script.try_open(0, 0, 1, 1);
    script.close(0);
    script.ask(0, READ);
    script.skip(0);
    script.freeze();
    script.print_state();
    script.thaw();
    script.print_state();
    script.length(1);
    script.fresh(1, 1, [1, 0, 0, 0, 0]);
    script.print_state();
}

/// A pool that is larger than the area is sound; a call that needs no area works with it.
fn pools_by_hand(script: &mut Script) {
    script.begin(2, 3, 3);
    script.open(0, 0, 3, 1);
    script.read(0, &[7, 8, 9]);
    for (buffers, width) in [(32, 1_024), (16, 5), (16, 4), (32, 2), (13, 5), (1, 64), (1, 65)] {
        script.pool(BUFFERS, buffers);
        script.pool(WIDTH, width);
        script.right_mask();
        script.print_sound();
        script.get(0);
        script.seal(0);
        script.put(1, &[1]);
        script.report(1, GOOD);
    }
    script.pool(BUFFERS, 32);
    script.pool(WIDTH, 1_024);
    script.right_mask();
    script.open(1, DOUBLE, 1_024, 1_024);
    script.ask(1, READ);
    script.report(1, GOOD);
    script.close(0);
    script.print_state();
    script.print_sound();
}
