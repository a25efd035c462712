//! States that break a clause about files and their buffers.

use super::unsound_bench::{Bench, CLOSED, IDLE_INPUT, INPUT, OUTPUT_FILE, READING, WRITING};
use crate::state_fields::*;

/// The clauses, each tried on a bench of its own.
pub const CLAUSES: [fn(&mut Bench); 10] = [
    closed_files,
    missing_buffers,
    block_orders,
    output_zeros,
    held_once,
    own_buffers,
    full_blocks,
    part_filled_files,
    part_filled_words,
    places_of_get,
];

/// Every field of a closed file is zero.
fn closed_files(bench: &mut Bench) {
    for field in CHANNEL..LOW {
        bench.file(CLOSED, field, &[1], &[]);
    }
    for side in [LOW, HIGH] {
        bench.file(CLOSED, side + BUFFER_NUMBER, &[8], &[]);
        bench.file(CLOSED, side + SLOT_KIND, &[TAKEN, PART_FILLED, FULL], &[4]);
        // These numbers are not there while the slot is empty.
        bench.file(CLOSED, side + WORDS, &[], &[1]);
        bench.file(CLOSED, side + AT, &[], &[1]);
        for field in ERROR..=NUMBER_READ {
            bench.file(CLOSED, side + field, &[], &[1]);
        }
    }
    bench.file(15, UNIT, &[9], &[]);
}

/// A single file has no high buffer.
fn missing_buffers(bench: &mut Bench) {
    bench.file(IDLE_INPUT, HIGH + BUFFER_NUMBER, &[8], &[]);
    bench.file(IDLE_INPUT, HIGH + SLOT_KIND, &[TAKEN], &[]);
    bench.unsound(|script| script.full(IDLE_INPUT, HIGH, [1, 0, 0]));
    bench.unsound(|script| script.part_filled(WRITING, HIGH, 4));
    bench.file(OUTPUT_FILE, DOUBLE, &[0], &[]);
    bench.sound(|script| {
        script.file(OUTPUT_FILE, DOUBLE, 0);
        script.file(OUTPUT_FILE, HIGH + BUFFER_NUMBER, 0);
    });
}

/// Two blocks have an order if both are full.
fn block_orders(bench: &mut Bench) {
    bench.file(INPUT, TURNED, &[1], &[]);
    bench.file(IDLE_INPUT, TURNED, &[1], &[]);
    bench.file(WRITING, TURNED, &[1], &[]);
    bench.file(OUTPUT_FILE, TURNED, &[1], &[]);
    bench.file(READING, TURNED, &[1], &[]);
    bench.script.full(INPUT, HIGH, [1, 1, 0]);
    bench.file(INPUT, TURNED, &[], &[1, 0]);
    bench.script.slot(INPUT, LOW, EMPTY);
    bench.file(INPUT, TURNED, &[1], &[0]);
    bench.script.full(OUTPUT_FILE, HIGH, [5, 0, 0]);
    bench.file(OUTPUT_FILE, TURNED, &[1], &[0]);
    bench.script.full(OUTPUT_FILE, LOW, [4, 0, 0]);
    bench.file(OUTPUT_FILE, TURNED, &[], &[1]);
}

/// An output file reads no mark, get has no part in its blocks, and nothing was found in them.
fn output_zeros(bench: &mut Bench) {
    for file in [OUTPUT_FILE, WRITING] {
        bench.file(file, MARKED, &[1], &[]);
    }
    bench.file(INPUT, MARKED, &[], &[1]);
    bench.file(READING, MARKED, &[], &[1]);
    bench.file(WRITING, LOW + AT, &[1, 4], &[0]);
    bench.file(WRITING, LOW + ERROR, &[1, 3], &[0]);
    bench.file(WRITING, LOW + READ_ERROR, &[4, 10, 1], &[0]);
    bench.script.full(OUTPUT_FILE, HIGH, [3, 0, 0]);
    bench.file(OUTPUT_FILE, HIGH + AT, &[1], &[]);
    bench.file(OUTPUT_FILE, HIGH + ERROR, &[2], &[]);
    bench.file(OUTPUT_FILE, HIGH + READ_ERROR, &[4, 10], &[]);
    for field in FOUND_SUM..=NUMBER_READ {
        bench.file(OUTPUT_FILE, HIGH + field, &[1], &[]);
    }
    bench.file(WRITING, LOW + FOUND_SUM, &[262_143], &[]);
}

/// "no buffer is held by two files": low or high of each.
fn held_once(bench: &mut Bench) {
    bench.file(IDLE_INPUT, LOW + BUFFER_NUMBER, &[0, 1, 2, 7], &[8]);
    bench.file(INPUT, HIGH + BUFFER_NUMBER, &[5, 3, 6], &[8]);
    bench.file(OUTPUT_FILE, LOW + BUFFER_NUMBER, &[0, 1], &[]);
    bench.script.open_on(15, 0, 4, 0, 6, 2);
    bench.file(15, LOW + BUFFER_NUMBER, &[0, 7], &[8]);
}

/// "each open file has its one or two buffers".
fn own_buffers(bench: &mut Bench) {
    bench.file(IDLE_INPUT, LOW + BUFFER_NUMBER, &[9, 255], &[8]);
    bench.file(INPUT, HIGH + BUFFER_NUMBER, &[9, 255, 0], &[8]);
    bench.file(INPUT, LOW + BUFFER_NUMBER, &[1, 8], &[]);
    bench.unsound(|script| {
        script.file(INPUT, LOW + BUFFER_NUMBER, 1);
        script.file(INPUT, HIGH + BUFFER_NUMBER, 0);
    });
    bench.unsound(|script| script.pool(BUFFERS, 7));
    bench.sound(|script| script.pool(BUFFERS, 8));
    bench.file(IDLE_INPUT, DOUBLE, &[1], &[]);
}

/// "full blocks have 1 to B data words".
fn full_blocks(bench: &mut Bench) {
    bench.file(INPUT, LOW + WORDS, &[0, 6, 65_535], &[1, 5]);
    bench.file(WRITING, LOW + WORDS, &[0, 5], &[1, 4]);
    bench.script.full(INPUT, HIGH, [5, 0, 0]);
    bench.script.full(OUTPUT_FILE, HIGH, [5, 0, 0]);
    for file in [INPUT, OUTPUT_FILE] {
        bench.file(file, HIGH + WORDS, &[0, 6], &[1, 4]);
    }
}

/// "an output file alone has a part-filled buffer, at most one".
fn part_filled_files(bench: &mut Bench) {
    bench.unsound(|script| script.part_filled(INPUT, HIGH, 2));
    bench.unsound(|script| script.part_filled(IDLE_INPUT, LOW, 3));
    bench.unsound(|script| script.part_filled(OUTPUT_FILE, HIGH, 2));
    bench.sound(|script| {
        script.slot(OUTPUT_FILE, LOW, EMPTY);
        script.part_filled(OUTPUT_FILE, HIGH, 2);
    });
    bench.sound(|script| script.full(OUTPUT_FILE, HIGH, [2, 0, 0]));
}

/// "with r words or more and room for r".
fn part_filled_words(bench: &mut Bench) {
    bench.file(OUTPUT_FILE, LOW + WORDS, &[1, 4, 0, 5, 65_535], &[2, 3]);
    bench.file(OUTPUT_FILE, RECORD_LENGTH, &[3, 5], &[1]);
    bench.file(OUTPUT_FILE, BLOCK_SIZE, &[3], &[4]);
    bench.unsound(|script| {
        script.unit(1, 2, TURN_KIND, IDLE);
        script.part_filled(WRITING, LOW, 4);
    });
    bench.script.full(OUTPUT_FILE, LOW, [5, 0, 0]);
    bench.script.part_filled(OUTPUT_FILE, HIGH, 2);
    bench.file(OUTPUT_FILE, HIGH + WORDS, &[1, 4], &[2, 3]);
}

/// "no place of get is past its block".
fn places_of_get(bench: &mut Bench) {
    bench.file(INPUT, LOW + AT, &[6, 65_535], &[5, 1]);
    bench.script.full(INPUT, HIGH, [3, 3, 0]);
    bench.file(INPUT, HIGH + AT, &[4], &[3]);
    bench.file(INPUT, HIGH + WORDS, &[2], &[3]);
}
