//! The mask of the free buffers (M-104) through opens and closes: an open clears the bits of the buffers
//! that it takes, a close sets them.

use super::script::Script;
use crate::pack::{DOUBLE, OUTPUT};
use crate::pack_player::{CLOSE, OPEN};
use crate::random::Random;
use crate::state_fields::BUFFERS;

const SEED: u64 = 104;
/// The random pools, and the opens and closes on each.
const POOLS: usize = 2;
const STEPS: usize = 14;

pub fn add_cases(script: &mut Script) {
    closed_in_every_order(script);
    all_taken(script);
    few_left(script);
    random_opens_and_closes(script);
}

/// A single file and two double ones take all five buffers, and are closed in each order. After the first
/// close and the second another file tries to open, double and then single.
fn closed_in_every_order(script: &mut Script) {
    for order in [[0, 1, 2], [0, 2, 1], [1, 0, 2], [1, 2, 0], [2, 0, 1], [2, 1, 0]] {
        script.start_over();
        script.fresh(5, 2, [31, 0, 0, 0, 0]);
        script.open(0, 0, 2, 1);
        script.open(1, DOUBLE, 2, 1);
        script.open(2, OUTPUT + DOUBLE, 2, 1);
        script.try_open(3, 0, 2, 1);
        for (closed, tried) in order.into_iter().zip([3, 4]) {
            script.close(closed);
            script.try_open(tried, DOUBLE, 2, 1);
            script.try_open(tried, 0, 2, 1);
            script.print_state();
        }
        script.close(order[2]);
        script.print_sound();
    }
}

/// Opens a file on a unit of its own, which is the same at each open.
fn open(script: &mut Script, file: u64, flags: u64) {
    script.open_on(file, file / 10, file % 10, flags, 2, 1);
}

/// Sixteen double files take all 32 buffers; freed ones are taken again, one at a time and two.
fn all_taken(script: &mut Script) {
    script.start_over();
    script.fresh(32, 2, [1_023, 63, 0, 0, 0]);
    script.print_state();
    for file in 0..16 {
        open(script, file, DOUBLE);
    }
    script.print_state();
    for file in [15, 3, 0] {
        script.close(file);
        script.print_sound();
    }
    for (file, flags) in [(3, 0), (15, DOUBLE), (0, DOUBLE)] {
        open(script, file, flags);
    }
    script.print_sound();
    for file in [7, 3, 15, 8] {
        script.close(file);
    }
    for (file, flags) in [(15, 0), (8, DOUBLE), (7, OUTPUT), (3, OUTPUT + DOUBLE)] {
        open(script, file, flags);
    }
    script.print_state();
}

/// 7 with one free buffer and with none, in a pool that fifteen double files nearly fill.
fn few_left(script: &mut Script) {
    script.start_over();
    script.fresh(31, 2, [1_023, 63, 0, 0, 0]);
    for file in 0..15 {
        open(script, file, DOUBLE);
    }
    let try_both = |script: &mut Script| {
        for flags in [DOUBLE, 0] {
            script.try_open_on(15, 1, 5, flags, 2, 1);
        }
    };
    try_both(script);
    script.close(15);
    // The last buffer leaves the pool by hand.
    script.pool(BUFFERS, 30);
    script.right_mask();
    try_both(script);
    script.close(4);
    open(script, 15, 0);
    script.try_open(4, DOUBLE, 2, 1);
    script.print_sound();
    open(script, 4, 0);
    // Two buffers come to it by hand.
    script.pool(BUFFERS, 32);
    script.right_mask();
    script.close(4);
    open(script, 4, DOUBLE);
    script.close(15);
    script.print_sound();
    open(script, 15, DOUBLE);
    script.print_sound();
}

/// Opens and closes of any file, mostly such as are accepted. The mask is judged now and then.
fn random_opens_and_closes(script: &mut Script) {
    let mut random = Random::new(SEED);
    for _ in 0..POOLS {
        script.start_over();
        script.fresh(random.between(5, 20), 2, [1_023, 63, 0, 0, 0]);
        for step in 0..STEPS {
            let file = random.below(16);
            let flags = random.pick(&[0, DOUBLE, DOUBLE, OUTPUT, OUTPUT + DOUBLE]);
            if script.player.state.files[file as usize].opened && random.chance(7, 8) {
                script.add(&[CLOSE, file]);
            } else {
                script.add(&[OPEN, file, file / 10, file % 10, flags, 2, 1]);
            }
            if step % 4 == 0 {
                script.print_sound();
            }
        }
        script.print_state();
    }
}
