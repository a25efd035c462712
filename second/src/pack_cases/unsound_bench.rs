//! The bench: a pack with a file of each sort on which unsound states are tried. Each is asked for, met
//! by calls that would else be accepted, and taken back.

use super::script::{Script, READ, WRITE};
use crate::pack::{CHECK, DOUBLE, NO_LENGTH, OUTPUT, SEQUENCE};
use crate::pack_player::{ASK_NAMING, RETURN, RUNNING};
use crate::sound::{broken_clauses, is_sound, Clause};

/// The files of the bench.
pub const INPUT: u64 = 0;
pub const OUTPUT_FILE: u64 = 1;
pub const WRITING: u64 = 2;
pub const IDLE_INPUT: u64 = 3;
pub const READING: u64 = 4;
pub const CLOSED: u64 = 5;

/// Calls that the bench accepts, one after the other: one of each kind but a fresh start. They go round.
pub const CALLS: [&[u64]; 10] = [
    &[1, CLOSED, 0, 4, 0, 6, 2],
    &[2, IDLE_INPUT],
    &[3, INPUT, READ, 0],
    &[4, 1, 2, 1, NO_LENGTH, 0],
    &[5, INPUT],
    &[7, OUTPUT_FILE],
    &[6, OUTPUT_FILE, 2, 33, 34],
    &[8, INPUT],
    &[9],
    &[10],
];

/// The same with the calls of special routines, for benches on which a routine runs.
pub const ROUTINE_CALLS: [&[u64]; 13] = [
    &[RETURN],
    &[RUNNING],
    &[ASK_NAMING, INPUT, READ, 0, 1, 70, 3],
    CALLS[0],
    CALLS[9],
    CALLS[3],
    CALLS[4],
    CALLS[1],
    CALLS[5],
    CALLS[6],
    CALLS[7],
    CALLS[8],
    CALLS[2],
];

/// A fresh start that every sound state accepts.
pub const FRESH_START: &[u64] = &[0, 2, 3, 1, 0, 0, 0, 512];

/// Every so many unsound states, what the refused calls left is printed.
const PRINTED: usize = 12;

/// Every so many sound states are met by a fresh start.
const STARTED: usize = 6;

/// A pack with a file of each sort, all of its calls open to it.
pub struct Bench<'a> {
    pub script: &'a mut Script,
    calls: &'static [&'static [u64]],
    /// The unsound states so far, and the sound ones.
    states: usize,
    sound_states: usize,
}

impl<'a> Bench<'a> {
    pub fn new(script: &'a mut Script) -> Bench<'a> {
        Bench { script, calls: &CALLS, states: 0, sound_states: 0 }
    }

    /// A bench that is met by the calls of special routines too.
    pub fn with_routines(script: &'a mut Script) -> Bench<'a> {
        Bench { calls: &ROUTINE_CALLS, ..Bench::new(script) }
    }

    /// Nine buffers of six words. File 0: double input with a block and check words. 1: double output, part-filled.
    /// 2: output at work on a write. 3: input, idle. 4: double input at work on a read. 8 is free.
    pub fn build(&mut self) {
        let script = &mut *self.script;
        script.start_over();
        script.fresh(9, 6, [31, 12, 1, 0, 0]);
        script.open(INPUT, DOUBLE + SEQUENCE + CHECK, 5, 2);
        script.open(OUTPUT_FILE, OUTPUT + DOUBLE + SEQUENCE + CHECK, 5, 2);
        script.open_on(WRITING, 1, 2, OUTPUT, 4, 4);
        script.open(IDLE_INPUT, 0, 6, 3);
        script.open_on(READING, 2, 0, DOUBLE, 6, 1);
        script.read(INPUT, &[1, 2, 3, 4, 5, (15 << 18) + 1]);
        script.put(OUTPUT_FILE, &[11, 12]);
        script.put(WRITING, &[21, 22, 23, 24]);
        script.ask(WRITING, WRITE);
        script.ask(READING, READ);
    }

    /// A change that makes the state unsound, with the mask put right after it: asked for, met by calls,
    /// taken back.
    pub fn unsound(&mut self, change: impl FnOnce(&mut Script)) {
        let before = self.script.player.state.clone();
        change(self.script);
        self.script.right_mask();
        self.meet();
        self.script.set_state(&before);
    }

    /// A change after which the mask alone is wrong: asked for, met by calls, the mask put right, met by
    /// an open and its close, taken back.
    pub fn wrong_mask(&mut self, change: impl FnOnce(&mut Script)) {
        let before = self.script.player.state.clone();
        change(self.script);
        assert_eq!(broken_clauses(&self.script.player.state), [Clause::FreeMask]);
        self.meet();
        self.script.right_mask();
        self.script.try_open_on(15, 0, 4, 0, 6, 2);
        self.script.close(15);
        self.script.set_state(&before);
    }

    /// An unsound state is asked for, and met by a fresh start and two other calls.
    fn meet(&mut self) {
        assert!(!is_sound(&self.script.player.state));
        self.script.print_sound();
        self.script.add(FRESH_START);
        for step in 0..2 {
            self.script.add(self.calls[(2 * self.states + step) % self.calls.len()]);
        }
        if self.states.is_multiple_of(PRINTED) {
            self.script.print_state();
        }
        self.states += 1;
    }

    /// A change that leaves the state sound, with the mask put right after it: asked for, now and then
    /// met by a fresh start, taken back.
    pub fn sound(&mut self, change: impl FnOnce(&mut Script)) {
        let before = self.script.player.state.clone();
        change(self.script);
        self.script.right_mask();
        assert!(is_sound(&self.script.player.state));
        self.script.print_sound();
        if self.sound_states.is_multiple_of(STARTED) {
            self.script.add(FRESH_START);
            self.script.print_state();
        }
        self.sound_states += 1;
        self.script.set_state(&before);
    }

    /// A field of a file: values that break a clause, and values that do not.
    pub fn file(&mut self, file: u64, field: u64, unsound: &[u64], sound: &[u64]) {
        for &value in unsound {
            self.unsound(|script| script.file(file, field, value));
        }
        for &value in sound {
            self.sound(|script| script.file(file, field, value));
        }
    }

    /// The same of a field of a unit.
    pub fn unit(&mut self, [channel, unit]: [u64; 2], field: u64, unsound: &[u64], sound: &[u64]) {
        for &value in unsound {
            self.unsound(|script| script.unit(channel, unit, field, value));
        }
        for &value in sound {
            self.sound(|script| script.unit(channel, unit, field, value));
        }
    }
}
