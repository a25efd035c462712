//! What the check of a block found (M-102): told by the report that delivers it and by the get that tells its
//! error, as found at delivery, whatever the area and the file's number are then.

use super::script::{Script, FILE_MARK, GOOD, HUGE, INCOMPLETE_WORD, LARGEST, READ, REDUNDANCY, WRITE};
use crate::pack::{CHECK, DOUBLE, OUTPUT, SEQUENCE};
use crate::state_fields::{ATTEMPTS, ERROR, HIGH, LOW, NUMBER, TURNED};

/// The four choices of a check word.
const CHOICES: [u64; 4] = [0, SEQUENCE, CHECK, SEQUENCE + CHECK];

pub fn add_cases(script: &mut Script) {
    for choice in CHOICES {
        delivered_blocks(script, choice);
    }
    ends_of_the_fields(script);
    the_area_written_since(script);
    fields_by_hand(script);
    nothing_delivered(script);
}

/// The word that a block of the data 5, 6 has behind it if it is number `number`.
fn right_word(number: u64) -> u64 {
    11 << 18 | number
}

/// A good block, a bad number, a bad sum, both, and bits between the fields; each told, then left.
fn delivered_blocks(script: &mut Script, choice: u64) {
    script.begin(2, 4, 1);
    script.open(0, DOUBLE + choice, 3, 2);
    for (index, wrong) in [0, 4, 1 << 20, (1 << 35) + 8, 5 << 15].into_iter().enumerate() {
        let word = right_word(index as u64 + 1) ^ wrong;
        script.read(0, &[5, 6, word][..2 + usize::from(choice != 0)]);
        if index == 2 {
            script.print_state();
        }
        script.get(0);
        script.get(0);
        script.skip(0);
    }
    script.print_state();
}

/// Sums of 0 and of all ones, numbers of 0 and 32,767, and check words of nothing but zeros or ones.
fn ends_of_the_fields(script: &mut Script) {
    for number in [32_767, 0] {
        for (data, word) in [(0, 0), (LARGEST, LARGEST), (0, LARGEST), (LARGEST, 0)] {
            script.begin(1, 3, 1);
            script.open(0, SEQUENCE + CHECK, 2, 1);
            script.file(0, NUMBER, number);
            script.read(0, &[data, word]);
            script.print_state();
            script.get(0);
            script.get(0);
        }
        script.begin(1, 3, 1);
        script.open(0, 0, 2, 1);
        script.file(0, NUMBER, number);
        script.read(0, &[LARGEST, 0]);
        script.print_state();
    }
}

/// Get tells what was found then: the number has moved on, and the block's words were written over.
fn the_area_written_since(script: &mut Script) {
    script.begin(2, 4, 1);
    script.open(0, DOUBLE + SEQUENCE + CHECK, 3, 3);
    script.read(0, &[1, 2, 3, (7 << 18) + 9]);
    script.read(0, &[4, (4 << 18) + 3]);
    for place in 0..8 {
        script.word(place, if place == 1 { HUGE } else { 70 + place });
    }
    script.get(0);
    script.print_state();
    script.word(1, 71);
    script.get(0);
    script.get(0);
    script.get(0);
    script.print_state();
}

/// Fields that no block had: they are told as they stand, and only with an error.
fn fields_by_hand(script: &mut Script) {
    for turned in [0, 1] {
        script.begin(2, 4, 1);
        script.open(0, DOUBLE + SEQUENCE + CHECK, 3, 2);
        script.full(0, LOW, [3, 0, 0]);
        script.found(0, LOW, [262_143, 32_767, 0, 0]);
        script.file(0, LOW + ERROR, 3);
        script.full(0, HIGH, [2, 0, 0]);
        script.found(0, HIGH, [100, 200, 101, 200]);
        script.file(0, HIGH + ERROR, 2);
        script.file(0, TURNED, turned);
        script.print_sound();
        for _ in 0..6 {
            script.get(0);
        }
        script.print_state();
    }
    script.begin(2, 4, 1);
    script.open(0, DOUBLE + SEQUENCE, 3, 2);
    script.full(0, LOW, [2, 0, 0]);
    script.found(0, LOW, [1, 2, 3, 4]);
    script.full(0, HIGH, [2, 0, 1]);
    script.print_sound();
    for _ in 0..3 {
        script.get(0);
    }
    script.skip(0);
    script.print_state();
}

/// Reports that deliver nothing tell nothing, with a block in error beside them; attempt 4 tells it.
fn nothing_delivered(script: &mut Script) {
    script.begin(4, 4, 3);
    script.open(0, DOUBLE + CHECK, 3, 2);
    script.open(1, OUTPUT + SEQUENCE + CHECK, 3, 3);
    script.read(0, &[9, 9, 9]);
    script.ask(0, READ);
    script.report(0, REDUNDANCY);
    script.report(0, INCOMPLETE_WORD);
    script.unit(0, 0, ATTEMPTS, 4);
    script.deliver(0, &[9, 8 << 18]);
    script.skip(0);
    script.ask(0, READ);
    script.report(0, FILE_MARK);
    script.put(1, &[1, 2, 3]);
    script.ask(1, WRITE);
    script.report(1, GOOD);
    script.get(0);
    script.get(0);
    script.print_state();
}
