//! Words of 2^36 or more that are given with a call (readings A2, A3, A8).

use super::script::{Script, GOOD, HUGE, LARGEST, READ, REDUNDANCY, SPOILT, WRITE};
use crate::pack::{CHECK, NO_LENGTH, OUTPUT, SEQUENCE};

pub fn add_cases(script: &mut Script) {
    given_to_put(script);
    given_to_report(script);
}

/// A given word is judged by itself, whatever else is wrong above 2.
fn given_to_put(script: &mut Script) {
    script.begin(3, 5, 7);
    script.open(0, 0, 4, 2);
    script.open(1, OUTPUT + CHECK, 4, 2);
    for file in [0, 1, 2, 15, 16, 255] {
        script.put(file, &[1, SPOILT]);
        script.put(file, &[HUGE]);
        script.put(file, &[LARGEST]);
        script.put(file, &[]);
    }
    script.put(1, &[LARGEST, LARGEST]);
    script.put(1, &[SPOILT, 1]);
    script.put(1, &[LARGEST, 1]);
    script.put(1, &[1, HUGE]);
    script.put(1, &[1, 2]);
    script.print_room();
    script.print_state();
}

/// The same of a report; but words to a write are 1.
fn given_to_report(script: &mut Script) {
    script.begin(3, 4, 7);
    script.open(0, SEQUENCE, 3, 1);
    script.open_on(1, 1, 1, OUTPUT, 2, 2);
    for turn in 0..2 {
        for words in [&[1, SPOILT][..], &[HUGE; 9], &[LARGEST], &[2, 1]] {
            for unit in [1, 9, 10] {
                script.deliver(unit, words);
            }
            script.add(&[&[4, 5, 0, GOOD, NO_LENGTH, words.len() as u64], words].concat());
            script.add(&[&[4, 0, 0, REDUNDANCY, NO_LENGTH, words.len() as u64], words].concat());
            script.add(&[&[4, 1, 1, GOOD, NO_LENGTH, words.len() as u64], words].concat());
            if turn == 0 || words != [2, 1] {
                script.deliver(0, words);
            }
        }
        script.ask(0, READ);
        script.put(1, &[3, 4]);
        script.ask(1, WRITE);
    }
    script.print_state();
    script.deliver(0, &[LARGEST, SPOILT + 1]);
    script.deliver(0, &[LARGEST, 1]);
    script.print_room();
    script.print_state();
}
