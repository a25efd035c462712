//! Counts what sessions reach of special routines (document 02, M-110).

use crate::channel::UNITS;
use crate::file::{Direction, File};
use crate::frame::Frame;
use crate::pack::{Pack, CHANNELS, FILES};
use crate::reach::Reach;
use crate::routine::{Entered, Program, Routine, Schedule, HIGHEST_LEVEL};

const OVER_MAIN: &str = "routine entered over the main program";
const OVER_ROUTINE: &str = "routine entered over another";
const NOT_ABOVE: &str = "routine due that is not above what runs";
const FULL: &str = "routine kept out by a full list";
const FROZEN: &str = "routine due in a freeze";
const PERMANENT: &str = "routine due after a permanent error";
const NOT_DUE: &str = "report that repeats a request with a routine";
const NONE_NAMED: &str = "answer of a request without a routine while others wait";
const THAW_ENTERS: &str = "thaw that enters a routine";
const THAW_CHANNELS: &str = "thaw that goes by the channel";
const THAW_UNITS: &str = "thaw that goes by the unit";
const THAW_NONE: &str = "thaw that enters none, though one waits";
const THAW_LEFT: &str = "thaw that enters one of several that are above what ran";
const RETURN_ENTERS: &str = "return that enters a routine";
const RETURN_CHANNELS: &str = "return that goes by the channel";
const RETURN_UNITS: &str = "return that goes by the unit";
const RETURN_FULL: &str = "return that enters a routine over a full list";
const RETURN_ROUTINE: &str = "return to a routine";
const RETURN_MAIN: &str = "return to the main program";
const RETURN_EQUAL: &str = "return to a routine, though one of its priority waits";
const RETURN_FROZEN: &str = "return in a freeze, though a higher routine waits";
const ASK_WAITING: &str = "ask refused for a waiting routine alone";
const ASK_OTHER: &str = "ask refused for a waiting routine, of an input file that has read nothing";
const ASK_AGAIN: &str = "ask of a unit whose routine has not returned";
const LEVEL: &str = "ask refused for its routine's priority alone";
const CLOSED: &str = "close of a file whose routine waits";
const DROPPED: &str = "fresh start that drops routines";
const RUNS_MAIN: &str = "what runs: the main program";
const RUNS_ROUTINE: &str = "what runs: a routine";

pub const OF_ROUTINES: [&str; 29] = [
    OVER_MAIN,
    OVER_ROUTINE,
    NOT_ABOVE,
    FULL,
    FROZEN,
    PERMANENT,
    NOT_DUE,
    NONE_NAMED,
    THAW_ENTERS,
    THAW_CHANNELS,
    THAW_UNITS,
    THAW_NONE,
    THAW_LEFT,
    RETURN_ENTERS,
    RETURN_CHANNELS,
    RETURN_UNITS,
    RETURN_FULL,
    RETURN_ROUTINE,
    RETURN_MAIN,
    RETURN_EQUAL,
    RETURN_FROZEN,
    ASK_WAITING,
    ASK_OTHER,
    ASK_AGAIN,
    LEVEL,
    CLOSED,
    DROPPED,
    RUNS_MAIN,
    RUNS_ROUTINE,
];

/// The name under which an entered routine of a priority is counted.
pub fn entered_name(level: u64) -> String {
    format!("routine of priority {level} entered")
}

/// Routines as they stand before a frame: what runs, what is named and what waits, and the files' units.
pub struct Before {
    places: [Option<(usize, usize)>; FILES],
    schedule: Schedule,
    named: [[Option<Routine>; UNITS]; CHANNELS],
    waiting: [[Option<Routine>; UNITS]; CHANNELS],
}

impl Before {
    pub fn of(pack: &Pack) -> Before {
        let place = |file: &File| (file.channel, file.unit);
        Before {
            places: pack.files.each_ref().map(|file| file.as_ref().map(place)),
            schedule: pack.schedule.clone(),
            named: pack.channels.each_ref().map(|channel| channel.named),
            waiting: pack.channels.each_ref().map(|channel| channel.waiting),
        }
    }

    /// Every routine that waits.
    fn waiting(&self) -> impl Iterator<Item = Entered> + '_ {
        self.waiting.iter().enumerate().flat_map(|(channel, units)| {
            let waiting = units.iter().enumerate();
            waiting.filter_map(move |(unit, routine)| Some(Entered { channel, unit, routine: (*routine)? }))
        })
    }

    fn waits_above(&self, program: &Program) -> bool {
        self.waiting().any(|waiting| Program::Special(waiting).is_above(program))
    }

    /// Of several that wait with this one's priority: whether another channel has one, and whether its own has.
    fn ties(&self, entered: &Entered) -> [bool; 2] {
        let equals = |other: &Entered| other != entered && other.routine.level == entered.routine.level;
        let (same, others): (Vec<Entered>, Vec<Entered>) =
            self.waiting().filter(equals).partition(|other| other.channel == entered.channel);
        [!others.is_empty(), !same.is_empty()]
    }
}

impl Reach {
    /// A frame with its answer, and the pack as it is afterwards.
    pub(crate) fn see_routines(&mut self, before: &Before, pack: &Pack, frame: &Frame, answer: &[u8]) {
        let accepted = answer[0] == 0;
        match *frame {
            Frame::Ask { file, operation, priority, names } => {
                self.see_ask(before, pack, [file, operation, priority], names, answer[0]);
            }
            Frame::Report { channel, unit, .. } if accepted => {
                let named = before.named[channel as usize][unit as usize];
                self.see_answer(before, pack, named, answer[1]);
            }
            Frame::Thaw => self.see_thaw(before, pack),
            Frame::Return if accepted => self.see_return(before, pack, answer[1] == 1),
            Frame::Close { file } if accepted => {
                let place = before.places[file as usize];
                let waits = place.is_some_and(|(channel, unit)| before.waiting[channel][unit].is_some());
                self.count_if(CLOSED, waits);
            }
            Frame::Fresh { .. } if accepted => {
                let some = before.schedule.runs != Program::Main && before.waiting().next().is_some();
                self.count_if(DROPPED, some);
            }
            Frame::Running => {
                let main = pack.running() == Program::Main;
                self.count(if main { RUNS_MAIN } else { RUNS_ROUTINE });
            }
            _ => {}
        }
    }

    fn see_ask(
        &mut self,
        before: &Before,
        pack: &Pack,
        [file, operation, priority]: [u64; 3],
        names: Option<Routine>,
        refusal: u8,
    ) {
        let right = Some(Routine { number: 0, level: 0 });
        let only = |number: usize, names| {
            pack.ask_refusals(file, operation, priority, names).applying().eq([number])
        };
        let out_of_range = names.is_some_and(|routine| routine.level > HIGHEST_LEVEL);
        let others = pack.ask_refusals(file, operation, priority, right).applying().next();
        self.count_if(LEVEL, refusal == 1 && out_of_range && others.is_none());
        let Some(opened) = pack.file(file) else {
            return;
        };
        if refusal == 8 {
            let waits = before.waiting[opened.channel][opened.unit].is_some();
            self.count_if(ASK_WAITING, waits && only(8, names));
            let untouched = opened.number == 1 && opened.full.is_empty() && !opened.mark_read;
            let input = opened.direction == Direction::Input;
            self.count_if(ASK_OTHER, waits && input && untouched);
        } else if refusal == 0 {
            let of_unit = |program: &Program| {
                matches!(program, Program::Special(entered)
                    if (entered.channel, entered.unit) == (opened.channel, opened.unit))
            };
            let mut programs = before.schedule.pushed.iter().chain([&before.schedule.runs]);
            self.count_if(ASK_AGAIN, programs.any(of_unit));
        }
    }

    /// An accepted report, with what its request named.
    fn see_answer(&mut self, before: &Before, pack: &Pack, named: Option<Routine>, result: u8) {
        let answers = (1..=6).contains(&result);
        let Some(routine) = named else {
            self.count_if(NONE_NAMED, answers && before.waiting().next().is_some());
            return;
        };
        if !answers {
            self.count(NOT_DUE);
            return;
        }
        self.count_if(PERMANENT, result >= 5);
        let due = Program::Special(Entered { channel: 0, unit: 0, routine });
        if pack.is_frozen() {
            self.count(FROZEN);
        } else if !due.is_above(&before.schedule.runs) {
            self.count(NOT_ABOVE);
        } else if before.schedule.is_full() {
            self.count(FULL);
        } else {
            self.count(&entered_name(routine.level));
            let main = before.schedule.runs == Program::Main;
            self.count(if main { OVER_MAIN } else { OVER_ROUTINE });
        }
    }

    fn see_thaw(&mut self, before: &Before, pack: &Pack) {
        match pack.running() {
            Program::Special(entered) if pack.schedule != before.schedule => {
                self.count(THAW_ENTERS);
                let [channels, units] = before.ties(&entered);
                self.count_if(THAW_CHANNELS, channels);
                self.count_if(THAW_UNITS, units);
                let above = |waiting: &Entered| Program::Special(*waiting).is_above(&before.schedule.runs);
                self.count_if(THAW_LEFT, before.waiting().filter(above).count() > 1);
            }
            _ => self.count_if(THAW_NONE, before.waiting().next().is_some()),
        }
    }

    fn see_return(&mut self, before: &Before, pack: &Pack, entered: bool) {
        let runs = pack.running();
        match runs {
            Program::Special(now) if entered => {
                self.count(RETURN_ENTERS);
                let [channels, units] = before.ties(&now);
                self.count_if(RETURN_CHANNELS, channels);
                self.count_if(RETURN_UNITS, units);
                self.count_if(RETURN_FULL, before.schedule.is_full());
            }
            Program::Special(_) => self.count(RETURN_ROUTINE),
            Program::Main => self.count(RETURN_MAIN),
        }
        let equal = |waiting: Entered| Some(waiting.routine.level) == runs.level();
        self.count_if(RETURN_EQUAL, !entered && before.waiting().any(equal));
        self.count_if(RETURN_FROZEN, !entered && pack.is_frozen() && before.waits_above(&runs));
    }
}

#[cfg(test)]
mod tests {
    use super::*;
    use crate::generate::session_of;
    use crate::profile::Profile;

    /// One session of the profile reaches everything of routines.
    #[test]
    fn routines_are_reached_by_their_profile() {
        let mut reach = Reach::default();
        reach.play(&session_of(Profile::Routines, 1, 20_000));
        let missing = reach.missing();
        let of_routines = |name: &&str| OF_ROUTINES.contains(name) || name.starts_with("routine of priority");
        let missing: Vec<&str> = missing.into_iter().filter(of_routines).collect();
        assert!(missing.is_empty(), "{missing:?}\n{}", reach.lines());
    }
}
