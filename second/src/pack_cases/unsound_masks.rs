//! States whose mask of the free buffers (M-104) is wrong, and nothing else. Every call is refused 1;
//! with the right mask the same calls are answered.

use super::script::Script;
use super::unsound_bench::{
    Bench, CALLS, CLOSED, FRESH_START, IDLE_INPUT, INPUT, OUTPUT_FILE, READING, WRITING,
};
use crate::pack::{DOUBLE, NO_LENGTH};
use crate::sound::{broken_clauses, Clause};
use crate::state_fields::{
    BLOCK_SIZE, BUFFERS, BUFFER_NUMBER, DOUBLE as DOUBLE_FIELD, HIGH, LOW, NUMBER, OPENED, RECORD_LENGTH,
    UNIT,
};

/// The mask of the bench, of which buffer 8 alone is free, and the one with every bit.
const BENCH_MASK: u64 = 1 << 8;
const ALL: u64 = (1 << 32) - 1;

pub fn add_cases(script: &mut Script) {
    let mut bench = Bench::new(script);
    bench.build();
    masks_of_the_bench(&mut bench);
    pools_by_hand(&mut bench);
    buffers_by_hand(&mut bench);
    files_by_hand(&mut bench);
    every_call(&mut bench);
    several_free(script);
    none_and_all_free(script);
    before_fresh(script);
}

/// A held buffer's bit is set, low and high of each file; the free one's is not; a bit at m or above is.
fn masks_of_the_bench(bench: &mut Bench) {
    for held in 0..8 {
        bench.wrong_mask(|script| script.free(BENCH_MASK | 1 << held));
    }
    for above in [9, 31] {
        bench.wrong_mask(|script| script.free(BENCH_MASK | 1 << above));
    }
    for mask in [0, 2 * BENCH_MASK] {
        bench.wrong_mask(|script| script.free(mask));
    }
    // The mask has 32 bits: what is above them is dropped.
    bench.sound(|script| script.free((1 << 32) + BENCH_MASK));
}

/// m moves and the mask does not.
fn pools_by_hand(bench: &mut Bench) {
    for buffers in [8, 10, 32] {
        bench.wrong_mask(|script| script.pool(BUFFERS, buffers));
    }
}

/// A file's buffer moves to 8, which is free, and the mask does not.
fn buffers_by_hand(bench: &mut Bench) {
    for (file, side) in
        [(IDLE_INPUT, LOW), (WRITING, LOW), (INPUT, HIGH), (OUTPUT_FILE, HIGH), (READING, HIGH)]
    {
        bench.wrong_mask(|script| script.file(file, side + BUFFER_NUMBER, 8));
    }
    // Two files change a buffer: the mask stays right.
    bench.sound(|script| {
        script.file(IDLE_INPUT, LOW + BUFFER_NUMBER, 1);
        script.file(INPUT, HIGH + BUFFER_NUMBER, 5);
    });
}

/// A double file becomes single, and a single one double; an open one is closed, and a closed one open.
fn files_by_hand(bench: &mut Bench) {
    bench.wrong_mask(|script| {
        script.file(OUTPUT_FILE, DOUBLE_FIELD, 0);
        script.file(OUTPUT_FILE, HIGH + BUFFER_NUMBER, 0);
    });
    bench.wrong_mask(|script| {
        script.file(IDLE_INPUT, DOUBLE_FIELD, 1);
        script.file(IDLE_INPUT, HIGH + BUFFER_NUMBER, 8);
    });
    let by_hand = |script: &mut Script, file, values: [u64; 6]| {
        let fields = [OPENED, UNIT, BLOCK_SIZE, RECORD_LENGTH, NUMBER, LOW + BUFFER_NUMBER];
        for (field, value) in fields.into_iter().zip(values) {
            script.file(file, field, value);
        }
    };
    bench.wrong_mask(|script| by_hand(script, IDLE_INPUT, [0; 6]));
    bench.wrong_mask(|script| by_hand(script, CLOSED, [1, 4, 6, 2, 1, 8]));
}

/// Every kind of call on a held buffer's bit that is set, and on a free one's that is not.
fn every_call(bench: &mut Bench) {
    for mask in [BENCH_MASK | 1 << 5, 0] {
        bench.build();
        bench.script.free(mask);
        bench.script.print_sound();
        bench.script.add(FRESH_START);
        for call in CALLS {
            bench.script.add(call);
        }
        bench.script.right_mask();
        for call in CALLS {
            bench.script.accepted(call);
        }
        bench.script.print_state();
        bench.script.accepted(FRESH_START);
    }
}

/// A mask that is wrong: asked for, met by a fresh start, an open and a close, put right, and met by the
/// open again and by a close of it.
fn wrong(script: &mut Script, mask: u64) {
    script.free(mask);
    assert_eq!(broken_clauses(&script.player.state), [Clause::FreeMask]);
    script.print_sound();
    script.add(FRESH_START);
    script.try_open(9, 0, 1, 1);
    script.close(2);
    script.right_mask();
    script.try_open(9, 0, 1, 1);
    script.close(9);
}

/// Twelve buffers, of which 0, 1, 3 and 4 are held. Masks with as many bits as the right one are wrong too.
fn several_free(script: &mut Script) {
    script.start_over();
    script.fresh(12, 2, [1_023, 0, 0, 0, 0]);
    script.open(0, DOUBLE, 2, 1);
    script.open(1, 0, 2, 1);
    script.open(2, DOUBLE, 2, 1);
    script.close(1);
    let right = 0b1111_1110_0100;
    for bit in [2, 11, 0, 1, 3, 4, 12, 31] {
        wrong(script, right ^ 1 << bit);
    }
    for [clear, set] in [[2, 1], [11, 12]] {
        wrong(script, right ^ 1 << clear ^ 1 << set);
    }
    for mask in [0, 4_095] {
        wrong(script, mask);
    }
    // The low buffer of the double file moves to 2, then both to 5 and 11.
    for (low, high, moved) in [(2, 4, 0b1111_1110_1000), (5, 11, 0b0111_1101_1100)] {
        let now = u64::from(script.player.state.free);
        script.file(2, LOW + BUFFER_NUMBER, low);
        script.file(2, HIGH + BUFFER_NUMBER, high);
        wrong(script, now);
        assert_eq!(u64::from(script.player.state.free), moved);
    }
    script.print_state();
}

/// All 32 buffers free, and all of them held; the same of a pool of one.
fn none_and_all_free(script: &mut Script) {
    script.start_over();
    script.fresh(32, 2, [1_023, 63, 0, 0, 0]);
    for mask in [0, ALL >> 1] {
        wrong(script, mask);
    }
    for file in 0..16 {
        script.open_on(file, file / 10, file % 10, DOUBLE, 2, 1);
    }
    for mask in [1, 1 << 31] {
        wrong(script, mask);
        script.open(9, DOUBLE, 2, 1);
    }
    script.start_over();
    script.fresh(1, 1, [1_023, 0, 0, 0, 0]);
    for mask in [0, 3] {
        wrong(script, mask);
    }
    script.open(2, 0, 1, 1);
    for mask in [1, 1 << 31] {
        wrong(script, mask);
    }
}

/// Before the first fresh start no bit is set.
fn before_fresh(script: &mut Script) {
    script.start_over();
    for mask in [1 << 31, ALL] {
        wrong(script, mask);
    }
    script.free(1);
    script.print_sound();
    script.add(FRESH_START);
    for call in
        [&[9][..], &[10], &[5, 0], &[8, 0], &[3, 0, 0, 0], &[4, 0, 0, 0, NO_LENGTH, 0], &[6, 0, 0], &[7, 0]]
    {
        script.add(call);
    }
    script.print_state();
    // The mask has 32 bits: this one is 0.
    script.free(1 << 32);
    script.print_sound();
    script.accepted(&[9]);
    script.accepted(FRESH_START);
    script.print_state();
}
