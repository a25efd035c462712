//! Sound states of channels that no calls lead to, or only many: attempts near their limits, counts
//! of requests that were never started, and scans that begin anywhere.

use super::script::{Script, END_OF_MEDIUM, FILE_MARK, GOOD, INCOMPLETE_WORD, MARK, READ, REDUNDANCY, WRITE};
use crate::channel::Turn;
use crate::pack::{NO_LENGTH, OUTPUT};
use crate::state_fields::{
    ATTEMPTS, DISPLACED, FROZEN, INCOMPLETE, LOW, PRIORITY, TAKEN, TURN_KIND, WAITING, WORKING,
};

pub fn add_cases(script: &mut Script) {
    last_read_attempts(script);
    last_write_attempts(script);
    incomplete_words(script);
    attempt_four(script);
    counts_of_waiting_requests(script);
    scans(script);
    priority_scans(script);
    displaced_priority(script);
    frozen_work(script);
    frozen_before_the_first_start(script);
}

/// The units of `four_reads`, and their mask.
const UNITS: [u64; 4] = [1, 4, 6, 9];
const MASK: u64 = 1 << 1 | 1 << 4 | 1 << 6 | 1 << 9;

/// Input files 0 to 3 on units of channel 0, each with a read that waits in a freeze.
fn four_reads(script: &mut Script) {
    script.begin(4, 2, MASK);
    script.freeze();
    for (file, unit) in UNITS.into_iter().enumerate() {
        script.open_on(file as u64, 0, unit, 0, 2, 1);
        script.ask(file as u64, READ);
    }
}

/// 100 read redundancies repeat, the 101st is permanent; so is an incomplete word there.
fn last_read_attempts(script: &mut Script) {
    for attempt in [99, 100, 101] {
        for outcome in [REDUNDANCY, INCOMPLETE_WORD, FILE_MARK, GOOD] {
            script.begin(1, 2, 1);
            script.open(0, 0, 1, 1);
            script.ask(0, READ);
            script.unit(0, 0, ATTEMPTS, attempt);
            script.print_sound();
            if outcome == GOOD {
                script.deliver(0, &[attempt]);
            } else {
                script.report(0, outcome);
                script.report(0, outcome);
            }
            script.print_state();
        }
    }
}

/// 26 redundancies of a write or a mark repeat, the 27th is permanent.
fn last_write_attempts(script: &mut Script) {
    for operation in [WRITE, MARK] {
        for attempt in [26, 27] {
            for outcome in [REDUNDANCY, END_OF_MEDIUM] {
                script.begin(1, 2, 1);
                script.open(0, OUTPUT, 1, 1);
                if operation == WRITE {
                    script.put(0, &[attempt]);
                }
                script.ask(0, operation);
                script.unit(0, 0, ATTEMPTS, attempt);
                script.print_sound();
                script.report(0, outcome);
                script.report(0, outcome);
                script.print_state();
            }
        }
    }
}

/// An incomplete word that no attempt accounts for counts all the same.
fn incomplete_words(script: &mut Script) {
    for attempt in [1, 3, 100] {
        script.begin(1, 2, 1);
        script.open(0, 0, 1, 1);
        script.ask(0, READ);
        script.unit(0, 0, ATTEMPTS, attempt);
        script.unit(0, 0, INCOMPLETE, 1);
        script.print_sound();
        script.report(0, REDUNDANCY);
        script.print_state();
        script.report(0, INCOMPLETE_WORD);
        script.print_state();
    }
}

/// "Read attempt 4 is in the opposite mode; if it is good the answer says so."
fn attempt_four(script: &mut Script) {
    for attempt in [3, 4, 5] {
        script.begin(2, 2, 3);
        script.open(0, 0, 1, 1);
        script.open_on(1, 1, 0, OUTPUT, 1, 1);
        script.put(1, &[6]);
        script.ask(0, READ);
        script.ask(1, WRITE);
        script.unit(0, 0, ATTEMPTS, attempt);
        script.unit(1, 0, ATTEMPTS, attempt);
        script.deliver(0, &[5]);
        script.add(&[4, 1, 0, GOOD, NO_LENGTH, 0]);
    }
}

/// Requests that were never started keep the counts that they have.
fn counts_of_waiting_requests(script: &mut Script) {
    four_reads(script);
    script.unit(0, 6, ATTEMPTS, 101);
    script.unit(0, 4, ATTEMPTS, 4);
    script.unit(0, 9, TURN_KIND, DISPLACED);
    script.unit(0, 9, INCOMPLETE, 1);
    script.scan_mark(0, 5);
    script.print_sound();
    script.thaw();
    script.print_state();
    script.report(6, REDUNDANCY);
    script.report(9, INCOMPLETE_WORD);
    script.deliver(1, &[1]);
    script.deliver(4, &[2]);
    script.print_state();
}

/// A scan from every unit, over units that wait and one that is displaced.
fn scans(script: &mut Script) {
    for mark in 0..10 {
        four_reads(script);
        script.unit(0, 4, TURN_KIND, DISPLACED);
        script.scan_mark(0, mark);
        script.thaw();
        for _ in 0..3 {
            let unit = unit_at_work(script);
            script.report(unit, FILE_MARK);
        }
        script.print_state();
    }
}

/// A scan of priority requests from every unit; of the other kind one request waits, and its mark stays.
fn priority_scans(script: &mut Script) {
    for mark in 0..10 {
        four_reads(script);
        for unit in [1, 6, 9] {
            script.unit(0, unit, PRIORITY, 1);
        }
        script.unit(0, 6, TURN_KIND, DISPLACED);
        script.priority_mark(0, mark);
        script.scan_mark(0, 9 - mark);
        script.thaw();
        for step in 0..4 {
            let unit = unit_at_work(script);
            if step == mark % 3 {
                script.report(unit, REDUNDANCY);
            }
            script.report(unit, FILE_MARK);
        }
        script.print_state();
    }
}

/// The unit that channel 0 works for.
fn unit_at_work(script: &Script) -> u64 {
    let mut requests = script.player.state.requests();
    let at_work = requests.find(|(channel, _, request)| *channel == 0 && request.turn == Turn::Working);
    at_work.expect("a unit at work").1
}

/// A displaced priority request of a pack that is not frozen: the scan comes to it.
fn displaced_priority(script: &mut Script) {
    for (unit, outcome) in [(9, REDUNDANCY), (9, FILE_MARK), (1, REDUNDANCY), (1, FILE_MARK)] {
        four_reads(script);
        script.thaw();
        script.unit(0, 1, TURN_KIND, DISPLACED);
        script.unit(0, unit, TURN_KIND, WORKING);
        for other in [4, 6] {
            script.unit(0, other, TURN_KIND, DISPLACED);
            script.unit(0, other, PRIORITY, 1);
        }
        script.unit(0, 4, ATTEMPTS, 7);
        script.print_sound();
        script.report(unit, outcome);
        script.print_state();
        script.report(4, REDUNDANCY);
        script.report(4, FILE_MARK);
        script.print_state();
    }
}

/// A frozen pack that works, waits, or both; frozen or thawed by hand.
fn frozen_work(script: &mut Script) {
    script.begin(4, 2, 15);
    for file in 0..3 {
        script.open(file, 0, 2, 1);
        script.ask(file, READ);
    }
    script.pool(FROZEN, 1);
    script.print_sound();
    script.report(0, REDUNDANCY);
    script.print_state();
    script.pool(FROZEN, 0);
    script.print_sound();
    script.thaw();
    script.unit(0, 1, TURN_KIND, WORKING);
    script.print_sound();
    script.thaw();
    script.print_state();
    script.open_on(3, 1, 3, 0, 2, 1);
    script.freeze();
    script.slot(3, LOW, TAKEN);
    script.request(1, 3, WAITING, READ, 50);
    script.print_sound();
    script.thaw();
    script.add(&[4, 1, 3, REDUNDANCY, NO_LENGTH, 0]);
    script.print_state();
}

/// Reading F3: "frozen may be true". A fresh start thaws.
fn frozen_before_the_first_start(script: &mut Script) {
    script.start_over();
    script.pool(FROZEN, 1);
    script.print_sound();
    script.print_state();
    script.freeze();
    script.report(0, GOOD);
    script.try_open(0, 0, 1, 1);
    script.print_state();
    script.fresh(0, 1, [1, 0, 0, 0, 0]);
    script.print_state();
    script.fresh(1, 1, [1, 0, 0, 0, 0]);
    script.print_state();
    script.open(0, 0, 1, 1);
    script.read(0, &[5]);
    script.start_over();
    script.scan_mark(2, 7);
    script.priority_mark(3, 8);
    script.freeze();
    script.thaw();
    script.print_state();
}
