//! Blocks that are kept after a permanent error of their read (M-101): what the reports and gets say, what lies
//! in the area, and states with a read error that no calls lead to.

use super::script::{
    Script, END_OF_MEDIUM, FILE_MARK, GOOD, HUGE, INCOMPLETE_WORD, LARGEST, MARK, READ, REDUNDANCY, SPOILT,
    WRITE,
};
use crate::pack::{CHECK, DOUBLE, NO_LENGTH, OUTPUT, SEQUENCE};
use crate::state_fields::{ATTEMPTS, ERROR, HIGH, INCOMPLETE, LOW, MARKED, NUMBER, READ_ERROR, TURNED};

/// The four choices of a check word.
const CHOICES: [u64; 4] = [0, SEQUENCE, CHECK, SEQUENCE + CHECK];

pub fn add_cases(script: &mut Script) {
    for choice in CHOICES {
        both_permanent_errors(script, choice);
    }
    no_words_and_dropped_words(script);
    sizes(script);
    given_words(script);
    other_operations(script);
    behind_older_blocks(script);
    skipped_and_closed(script);
    numbers(script);
    spoilt_since(script);
    states_by_hand(script);
}

/// File 0, double, on unit 0 of channel 0, at work on a read that has come so far. Words of the room differ.
fn reading(script: &mut Script, flags: u64, attempt: u64, incomplete: u64) {
    script.begin(2, 4, 3);
    for place in 0..8 {
        script.word(place, 40 + place);
    }
    script.open(0, DOUBLE + flags, 3, 2);
    read_again(script, attempt, incomplete);
}

fn read_again(script: &mut Script, attempt: u64, incomplete: u64) {
    script.ask(0, READ);
    script.unit(0, 0, ATTEMPTS, attempt);
    script.unit(0, 0, INCOMPLETE, incomplete);
}

/// The word behind the data 5, 6 of block `number`.
fn right_word(number: u64) -> u64 {
    11 << 18 | number
}

/// Redundancy at attempt 101, an incomplete word there, and the second incomplete word, each with a good block
/// and with a block in error; everything is told, one get after the other.
fn both_permanent_errors(script: &mut Script, choice: u64) {
    let length = 2 + usize::from(choice != 0);
    for (attempt, incomplete, outcome) in
        [(101, 0, REDUNDANCY), (101, 1, REDUNDANCY), (101, 0, INCOMPLETE_WORD), (7, 1, INCOMPLETE_WORD)]
    {
        for wrong in [0, 1 << 30 | 2] {
            reading(script, choice, attempt, incomplete);
            script.end_with(0, outcome, &[5, 6, right_word(1) ^ wrong][..length]);
            script.print_state();
            for _ in 0..4 {
                script.get(0);
            }
        }
        script.print_room();
        script.print_state();
    }
}

/// A permanent error without words gives the buffer back; words of an earlier attempt are not used for it, and
/// leave nothing in the area.
fn no_words_and_dropped_words(script: &mut Script) {
    for (attempt, outcome) in [(100, REDUNDANCY), (1, INCOMPLETE_WORD)] {
        reading(script, CHECK, attempt, 0);
        script.end_with(0, outcome, &[5, 6, right_word(1)]);
        script.print_room();
        script.print_state();
        script.report(0, outcome);
        script.print_room();
        script.print_state();
        script.get(0);
        script.read(0, &[5, 6, right_word(1)]);
        script.get(0);
        script.print_state();
    }
    // Words of an earlier attempt, then others with the permanent error, then a good end after dropped words.
    reading(script, SEQUENCE, 1, 0);
    script.end_with(0, INCOMPLETE_WORD, &[1, 2, 3, 4]);
    script.end_with(0, REDUNDANCY, &[9, 9, 9, 9]);
    script.end_with(0, INCOMPLETE_WORD, &[7, 1]);
    script.print_room();
    script.ask(0, READ);
    script.end_with(0, REDUNDANCY, &[8, 8, 2]);
    script.end_with(0, GOOD, &[6, 2]);
    script.print_room();
    for _ in 0..4 {
        script.get(0);
    }
    script.print_state();
}

/// "sized as good blocks": 1 + e to B + e words, else 13, also of a report that is repeated. None is no fault.
fn sizes(script: &mut Script) {
    for (flags, fewest, most) in [(0, 1, 3), (CHECK, 2, 4)] {
        for (attempt, outcome) in
            [(101, REDUNDANCY), (101, INCOMPLETE_WORD), (5, REDUNDANCY), (5, INCOMPLETE_WORD)]
        {
            for count in [0, fewest - 1, fewest, most, most + 1, 9] {
                reading(script, flags, attempt, 0);
                script.end_with(0, outcome, &[1; 9][..count]);
            }
            script.print_state();
        }
    }
    // With one incomplete word behind it a wrong size is 13 too, and nothing is used up by that.
    reading(script, 0, 1, 1);
    script.end_with(0, INCOMPLETE_WORD, &[1; 4]);
    script.print_state();
    script.end_with(0, INCOMPLETE_WORD, &[1; 3]);
    script.print_state();
}

/// Words that are too large are 2, whatever becomes of them; on a channel that does not work for the unit words
/// of outcomes 1 and 2 are 11, those of 3 and 4 are 1 always.
fn given_words(script: &mut Script) {
    for outcome in 0..6 {
        reading(script, 0, 50, 0);
        for words in [&[SPOILT][..], &[1, HUGE], &[1; 4], &[LARGEST, SPOILT, 1, 1]] {
            script.end_with(0, outcome, words);
            script.end_with(1, outcome, words);
            script.end_with(9, outcome, words);
            script.end_with(10, outcome, words);
            script.add(&[&[4, 1, 0, outcome, NO_LENGTH, words.len() as u64], words].concat());
        }
        for unit in [1, 9] {
            script.end_with(unit, outcome, &[1, 2]);
        }
        script.print_state();
        script.end_with(0, outcome, &[LARGEST]);
        script.print_state();
    }
}

/// To a write or a mark words are 1, whatever the outcome.
fn other_operations(script: &mut Script) {
    for operation in [WRITE, MARK] {
        script.begin(2, 4, 3);
        script.open(0, OUTPUT, 1, 1);
        if operation == WRITE {
            script.put(0, &[3]);
        }
        script.ask(0, operation);
        for outcome in [GOOD, REDUNDANCY, INCOMPLETE_WORD, FILE_MARK, END_OF_MEDIUM, 5] {
            script.end_with(0, outcome, &[3]);
            script.end_with(0, outcome, &[SPOILT]);
            script.end_with(0, outcome, &[1; 9]);
        }
        script.unit(0, 0, ATTEMPTS, 27);
        script.end_with(0, REDUNDANCY, &[3]);
        script.report(0, REDUNDANCY);
        script.print_state();
    }
}

/// A kept block is given in its turn, in whichever buffer it lies, and its used-up buffer waits for a get.
fn behind_older_blocks(script: &mut Script) {
    for kept_first in [true, false] {
        reading(script, SEQUENCE, 101, 1);
        let outcomes = if kept_first { [INCOMPLETE_WORD, GOOD] } else { [GOOD, INCOMPLETE_WORD] };
        script.end_with(0, outcomes[0], &[5, 6, 1]);
        read_again(script, 101, 1);
        script.end_with(0, outcomes[1], &[7, 8, 9, 3]);
        script.ask(0, READ);
        for step in 0..7 {
            script.get(0);
            if step == 2 {
                script.print_state();
                script.ask(0, READ);
            }
        }
        script.print_state();
    }
}

/// A skip drops both errors with the block, and a close too.
fn skipped_and_closed(script: &mut Script) {
    for gets in 0..4 {
        reading(script, SEQUENCE, 101, 0);
        script.end_with(0, REDUNDANCY, &[5, 6, 7, 9]);
        read_again(script, 3, 1);
        script.end_with(0, INCOMPLETE_WORD, &[5, 2]);
        for _ in 0..gets {
            script.get(0);
        }
        script.skip(0);
        script.get(0);
        script.print_state();
        script.close(0);
        script.open(0, SEQUENCE, 3, 2);
        script.read(0, &[4, 1]);
        script.get(0);
        script.print_state();
    }
}

/// A kept block counts as delivered: the next one has the next number, past 32,767 too.
fn numbers(script: &mut Script) {
    for number in [1, 32_766, 32_767, 0] {
        reading(script, SEQUENCE, 101, 0);
        script.file(0, NUMBER, number);
        for outcome in [REDUNDANCY, INCOMPLETE_WORD] {
            script.end_with(0, outcome, &[5, 32_767]);
            read_again(script, 101, 0);
        }
        script.print_state();
        script.skip(0);
        script.report(0, REDUNDANCY);
        read_again(script, 101, 0);
        script.end_with(0, REDUNDANCY, &[5, 0]);
        script.print_state();
    }
}

/// The area is written after the delivery: what is told stays, and the records are judged when they are given.
fn spoilt_since(script: &mut Script) {
    reading(script, SEQUENCE + CHECK, 101, 0);
    script.end_with(0, REDUNDANCY, &[5, 6, 7, 1 << 18 | 4]);
    script.word(0, SPOILT);
    script.word(3, HUGE);
    script.get(0);
    script.get(0);
    script.get(0);
    script.word(0, 77);
    script.get(0);
    script.get(0);
    script.print_state();
}

/// Read errors by hand: of the older and of the newer block, behind a used-up one, with a mark read.
fn states_by_hand(script: &mut Script) {
    for turned in [0, 1] {
        for [low, high] in [[10, 4], [4, 0], [0, 10]] {
            script.begin(2, 4, 1);
            script.open(0, DOUBLE + SEQUENCE + CHECK, 3, 2);
            script.full(0, LOW, [3, 0, 2]);
            script.file(0, LOW + READ_ERROR, low);
            script.full(0, HIGH, [1, 0, 0]);
            script.found(0, HIGH, [200, 3, 200, 3]);
            script.file(0, HIGH + READ_ERROR, high);
            script.file(0, TURNED, turned);
            script.file(0, MARKED, 1);
            script.print_sound();
            for _ in 0..8 {
                script.get(0);
            }
            script.print_state();
        }
    }
    script.begin(2, 4, 1);
    script.open(0, DOUBLE + SEQUENCE, 3, 2);
    script.full(0, LOW, [3, 3, 0]);
    script.full(0, HIGH, [3, 0, 1]);
    script.file(0, HIGH + READ_ERROR, 10);
    script.print_sound();
    script.get(0);
    script.print_state();
    script.get(0);
    script.file(0, HIGH + READ_ERROR, 4);
    script.print_sound();
    script.get(0);
    script.file(0, HIGH + ERROR, 1);
    script.print_sound();
    script.get(0);
    script.get(0);
    script.get(0);
    script.print_state();
}
