//! Words of 2^36 or more in the buffers (readings A23 to A26).

use super::script::{
    Script, END_OF_MEDIUM, FILE_MARK, GOOD, HUGE, INCOMPLETE_WORD, LARGEST, MARK, READ, REDUNDANCY, SPOILT,
    WRITE,
};
use crate::pack::{CHECK, DOUBLE, OUTPUT, SEQUENCE};
use crate::state_fields::ATTEMPTS;

/// The four choices of a check word.
const CHOICES: [u64; 4] = [0, SEQUENCE, CHECK, SEQUENCE + CHECK];

pub fn add_cases(script: &mut Script) {
    for choice in CHOICES {
        puts(script, choice);
        seals(script, choice);
        writes(script, choice);
    }
    words_past_the_block(script);
    words_of_no_block(script);
    permanent_errors(script);
    marks_hand_out_nothing(script);
    the_older_of_two_blocks(script);
    records(script);
    after_a_used_up_block(script);
    check_errors(script);
}

/// Only a put that seals sums, and only if check sums are chosen.
fn puts(script: &mut Script, choice: u64) {
    for spoilt in [SPOILT, HUGE] {
        script.begin(2, 4, 1);
        script.open(0, OUTPUT + choice, 3, 1);
        script.put(0, &[5]);
        script.word(0, spoilt);
        script.put(0, &[LARGEST]);
        script.put(0, &[6, 7]);
        script.put(0, &[]);
        script.put(0, &[spoilt]);
        script.put(0, &[6]);
        script.print_state();
        script.print_room();
        script.word(0, LARGEST);
        script.put(0, &[6]);
        script.put(0, &[6]);
        script.print_room();
    }
}

/// The same of a seal: a spoilt word in the block, and one just after it.
fn seals(script: &mut Script, choice: u64) {
    for place in [0, 1, 2] {
        script.begin(2, 4, 1);
        script.open(0, OUTPUT + choice, 3, 1);
        script.put(0, &[5]);
        script.put(0, &[6]);
        script.word(place, SPOILT);
        script.word(3, HUGE);
        script.seal(0);
        script.print_state();
        script.print_room();
        script.word(place, 9);
        script.seal(0);
    }
}

/// A write hands its block out if it ends 01 or 04, check word too; other ends are booked.
fn writes(script: &mut Script, choice: u64) {
    let block_words = 2 + u64::from(choice != 0);
    for place in 4..4 + block_words {
        script.begin(2, 4, 3);
        script.open(0, 0, 1, 1);
        script.open(1, OUTPUT + choice, 2, 1);
        script.put(1, &[LARGEST]);
        script.put(1, &[2]);
        script.ask(1, WRITE);
        script.word(place, SPOILT);
        for outcome in [GOOD, END_OF_MEDIUM, FILE_MARK, REDUNDANCY, GOOD, INCOMPLETE_WORD, GOOD] {
            script.report(1, outcome);
        }
        script.print_state();
        script.ask(1, WRITE);
        script.report(1, END_OF_MEDIUM);
        script.word(place, LARGEST);
        script.report(1, if place == 4 { GOOD } else { END_OF_MEDIUM });
        script.print_room();
    }
}

/// Words after the block are not handed out.
fn words_past_the_block(script: &mut Script) {
    for (choice, place) in [(0, 2), (SEQUENCE, 3), (CHECK, 3)] {
        script.begin(2, 4, 1);
        script.open(0, OUTPUT + choice, 2, 2);
        script.put(0, &[8, 9]);
        script.word(place, HUGE);
        script.ask(0, WRITE);
        script.report(0, GOOD);
        script.print_room();
    }
}

/// What lies in an empty buffer is in no block: a put writes over it, and nothing sums it.
fn words_of_no_block(script: &mut Script) {
    for record_length in [2, 1] {
        script.begin(1, 3, 1);
        script.open(0, OUTPUT + SEQUENCE + CHECK, 2, record_length);
        for place in 0..3 {
            script.word(place, HUGE);
        }
        for words in [[1, 2], [3, 4]].iter().flat_map(|words| words.chunks(record_length as usize)) {
            script.put(0, words);
        }
        script.print_room();
        script.ask(0, WRITE);
        script.report(0, GOOD);
        script.seal(0);
    }
}

/// A redundancy at attempt 26 repeats, at attempt 27 it is permanent: no words are handed out.
fn permanent_errors(script: &mut Script) {
    script.begin(1, 3, 1);
    script.open(0, OUTPUT + CHECK, 2, 2);
    script.put(0, &[1, 2]);
    script.word(1, SPOILT);
    script.ask(0, WRITE);
    script.unit(0, 0, ATTEMPTS, 26);
    for outcome in [REDUNDANCY, GOOD, END_OF_MEDIUM, REDUNDANCY, REDUNDANCY] {
        script.report(0, outcome);
    }
    script.print_state();
}

/// A mark request hands nothing out, though its file has a spoilt block.
fn marks_hand_out_nothing(script: &mut Script) {
    for outcome in [GOOD, END_OF_MEDIUM] {
        script.begin(2, 3, 1);
        script.open(0, OUTPUT + DOUBLE, 2, 2);
        script.ask(0, MARK);
        script.put(0, &[1, 2]);
        script.word(0, SPOILT);
        script.report(0, outcome);
        script.print_state();
        script.close(0);
    }
}

/// Only the block that is sent matters; here it is the one in the high buffer.
fn the_older_of_two_blocks(script: &mut Script) {
    for place in [0, 3] {
        script.begin(2, 3, 1);
        script.open(0, OUTPUT + DOUBLE, 2, 2);
        for words in [[1, 2], [3, 4]] {
            script.put(0, &words);
        }
        script.ask(0, WRITE);
        script.report(0, GOOD);
        script.put(0, &[5, 6]);
        script.print_state();
        script.word(place, HUGE);
        for _ in 0..2 {
            script.ask(0, WRITE);
            script.report(0, GOOD);
        }
        script.print_state();
    }
}

/// Get is refused for the words of its record or leftover; a word further on does not matter.
fn records(script: &mut Script) {
    for place in 0..7 {
        script.begin(2, 7, 1);
        script.open(0, SEQUENCE, 6, 2);
        script.read(0, &[1, 2, 3, 4, LARGEST, 1]);
        script.word(place, if place % 2 == 0 { SPOILT } else { HUGE });
        for _ in 0..3 {
            script.get(0);
        }
        script.print_state();
        script.word(place, 7);
        script.get(0);
        script.get(0);
    }
}

/// If the record after a used-up block is spoilt, that block is not emptied.
fn after_a_used_up_block(script: &mut Script) {
    script.begin(2, 3, 1);
    script.open(0, DOUBLE, 3, 2);
    script.read(0, &[1, 2]);
    script.read(0, &[3, 4, 5]);
    script.get(0);
    script.word(0, HUGE);
    script.word(4, SPOILT);
    script.get(0);
    script.print_state();
    script.ask(0, READ);
    script.word(4, LARGEST);
    script.get(0);
    script.print_state();
    script.word(5, SPOILT);
    script.get(0);
    script.skip(0);
    script.get(0);
    script.print_state();
}

/// A check error hands out no words, so that spoilt ones do not matter yet.
fn check_errors(script: &mut Script) {
    for choice in [SEQUENCE, CHECK, SEQUENCE + CHECK] {
        script.begin(2, 4, 1);
        script.open(0, DOUBLE + choice, 3, 3);
        script.read(0, &[1, 2, 3, LARGEST]);
        script.read(0, &[4, 5]);
        for place in [0, 3, 4, 5] {
            script.word(place, HUGE);
        }
        script.get(0);
        script.print_state();
        script.get(0);
        script.word(0, 1);
        script.get(0);
        script.get(0);
        script.print_state();
        script.get(0);
        script.word(4, 6);
        script.get(0);
    }
}
