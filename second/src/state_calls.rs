//! The thirteen calls on a state that a caller passes and an area that it lends. Every call judges the
//! state; a fresh start, report, get, put and seal judge the area too. A refused call changes neither.

use crate::file::{File, Found, Part};
use crate::pack::{Got, Opening, Pack, CHANNELS};
use crate::routine::Routine;
use crate::sound::is_sound;
use crate::state::{ProgramState, State};
use crate::state_pack::{pack_of, state_of};
use crate::word::{Fields, Judged};

/// A part of the area: where it begins and its words. One of no words begins at 0.
#[derive(Clone, Debug, Default, PartialEq, Eq)]
pub struct Shown {
    pub start: u64,
    pub words: Vec<u64>,
}

/// What a report gives.
#[derive(Clone, Debug, PartialEq, Eq)]
pub struct ReportAnswer {
    pub result: u64,
    pub check_error: u64,
    /// Zeros if no block was delivered.
    pub found: Fields,
    pub working_unit: Option<u64>,
    pub block: Shown,
}

/// What get gives: 0 a record, 1 nothing yet, 2 end, 3 a check error, 4 a leftover.
#[derive(Clone, Debug, PartialEq, Eq)]
pub struct GetAnswer {
    pub kind: u64,
    pub check_error: u64,
    /// Zeros if no check error is told.
    pub found: Fields,
    pub words: Shown,
}

/// A fresh start. It judges the state like every other call, though it keeps nothing of it: "a state
/// passed back is unsound" is in the table, and its rows are "given exactly when" they apply. A caller
/// begins with the state before the first fresh start, which is sound.
pub fn fresh(
    state: &mut State,
    area: &[u64],
    buffers: u64,
    width: u64,
    masks: [u64; CHANNELS],
) -> Result<(), u64> {
    if !is_sound(state) {
        return Err(1);
    }
    let mut pack = Pack::new(area.len());
    pack.fresh(buffers, width, masks)?;
    *state = state_of(&pack);
    Ok(())
}

pub fn open(state: &mut State, opening: &Opening) -> Result<(), u64> {
    without_area(state, |pack| pack.open(opening))
}

pub fn close(state: &mut State, file: u64) -> Result<(), u64> {
    without_area(state, |pack| pack.close(file))
}

/// What a return gives: whether a waiting routine was entered, and what runs now.
#[derive(Clone, Debug, PartialEq, Eq)]
pub struct ReturnAnswer {
    pub entered: bool,
    pub runs: ProgramState,
}

/// Gives the channel's working unit. The ask may name a routine.
pub fn ask(
    state: &mut State,
    file: u64,
    operation: u64,
    priority: u64,
    names: Option<Routine>,
) -> Result<Option<u64>, u64> {
    without_area(state, |pack| {
        let working_unit = pack.ask_naming(file, operation, priority, names)?;
        Ok(working_unit.map(|unit| unit as u64))
    })
}

/// A length of `NO_LENGTH` is none.
pub fn report(
    state: &mut State,
    area: &mut [u64],
    channel: u64,
    unit: u64,
    outcome: u64,
    length: u64,
    words: &[u64],
) -> Result<ReportAnswer, u64> {
    with_area(state, area, |pack| {
        let start = oldest_block_start(pack, channel, unit);
        let reported = pack.report_length(channel, unit, outcome, length, words)?;
        let block = match start {
            Some(start) if !reported.block.is_empty() => Shown { start, words: reported.block.to_vec() },
            _ => Shown::default(),
        };
        Ok(ReportAnswer {
            result: reported.result.number(),
            check_error: u64::from(reported.check_error),
            found: reported.found.unwrap_or_default(),
            working_unit: reported.working_unit.map(|unit| unit as u64),
            block,
        })
    })
}

pub fn get(state: &mut State, area: &mut [u64], file: u64) -> Result<GetAnswer, u64> {
    with_area(state, area, |pack| {
        let start = found_start(pack, file);
        let shown = |words: &[u64]| Shown { start, words: words.to_vec() };
        let nothing = Judged::default();
        let (kind, judged, words) = match pack.get(file)? {
            Got::Record(words) => (0, nothing, shown(words)),
            Got::NothingYet => (1, nothing, Shown::default()),
            Got::End => (2, nothing, Shown::default()),
            Got::Error(judged) => (3, judged, Shown::default()),
            Got::Leftover(words) => (4, nothing, shown(words)),
        };
        Ok(GetAnswer { kind, check_error: u64::from(judged.error), found: judged.fields, words })
    })
}

pub fn put(state: &mut State, area: &mut [u64], file: u64, words: &[u64]) -> Result<(), u64> {
    with_area(state, area, |pack| pack.put(file, words))
}

pub fn seal(state: &mut State, area: &mut [u64], file: u64) -> Result<(), u64> {
    with_area(state, area, |pack| pack.seal(file))
}

pub fn skip(state: &mut State, file: u64) -> Result<(), u64> {
    without_area(state, |pack| pack.skip(file))
}

pub fn freeze(state: &mut State) -> Result<(), u64> {
    without_area(state, |pack| {
        pack.freeze();
        Ok(())
    })
}

pub fn thaw(state: &mut State) -> Result<(), u64> {
    without_area(state, |pack| {
        pack.thaw();
        Ok(())
    })
}

/// The routine that runs returns.
pub fn give_back(state: &mut State) -> Result<ReturnAnswer, u64> {
    let entered = without_area(state, |pack| pack.give_back())?.entered;
    Ok(ReturnAnswer { entered, runs: state.programs.runs })
}

/// What runs; "refused only for an unsound state, and changes nothing".
pub fn running(state: &State) -> Result<ProgramState, u64> {
    if !is_sound(state) {
        return Err(1);
    }
    Ok(state.programs.runs)
}

/// A call that needs no area. 1: "a state passed back is unsound".
fn without_area<T>(state: &mut State, call: impl FnOnce(&mut Pack) -> Result<T, u64>) -> Result<T, u64> {
    if !is_sound(state) {
        return Err(1);
    }
    let mut pack = pack_of(state, &[]);
    let answer = call(&mut pack)?;
    *state = state_of(&pack);
    Ok(answer)
}

/// A call that works on the area. 1: "the area is short, a state passed back is unsound".
fn with_area<T>(
    state: &mut State,
    area: &mut [u64],
    call: impl FnOnce(&mut Pack) -> Result<T, u64>,
) -> Result<T, u64> {
    // "An area under m×W is refused 1."
    if !is_sound(state) || (area.len() as u64) < state.buffers * state.width {
        return Err(1);
    }
    let mut pack = pack_of(state, area);
    let answer = call(&mut pack)?;
    *state = state_of(&pack);
    area.copy_from_slice(&pack.area);
    Ok(answer)
}

/// Where the oldest full block of a unit's file begins.
fn oldest_block_start(pack: &Pack, channel: u64, unit: u64) -> Option<u64> {
    let file = pack.file_of_unit(channel, unit)? as u64;
    let block = pack.file(file)?.full.front()?;
    Some((block.buffer * pack.width) as u64)
}

/// Where the words begin that get would give; 0 if it would give none.
fn found_start(pack: &Pack, file: u64) -> u64 {
    match pack.file(file).map(File::look) {
        Some(Found::Record(Part { buffer, place, .. }) | Found::Leftover(Part { buffer, place, .. })) => {
            (buffer * pack.width + place) as u64
        }
        _ => 0,
    }
}

#[cfg(test)]
mod tests {
    use super::*;
    use crate::pack::{CHECK, DOUBLE, NO_LENGTH, OUTPUT, SEQUENCE};
    use crate::state::RoutineState;

    const READ: u64 = 0;
    const WRITE: u64 = 1;
    const SPOILT: u64 = 1 << 36;

    fn opening(file: u64, flags: u64, block_size: u64, record_length: u64) -> Opening {
        Opening { file, channel: 0, unit: file, flags, block_size, record_length }
    }

    /// Five buffers of four words in an area of 22. File 0: double input with two blocks, of which
    /// the first is used up. File 1: output, part-filled. File 2: input.
    fn state_and_area() -> (State, Vec<u64>) {
        let (mut state, mut area) = (State::default(), (100..122).collect::<Vec<u64>>());
        fresh(&mut state, &area, 5, 4, [15, 0, 0, 0, 0]).expect("a fresh start");
        open(&mut state, &opening(0, DOUBLE, 4, 2)).expect("an open");
        open(&mut state, &opening(1, OUTPUT + SEQUENCE + CHECK, 3, 1)).expect("an open");
        open(&mut state, &opening(2, 0, 1, 1)).expect("an open");
        for words in [[1, 2].as_slice(), &[3, 4, 5]] {
            ask(&mut state, 0, READ, 0, None).expect("an ask");
            report(&mut state, &mut area, 0, 0, 0, NO_LENGTH, words).expect("a report");
        }
        get(&mut state, &mut area, 0).expect("a get");
        put(&mut state, &mut area, 1, &[6]).expect("a put");
        (state, area)
    }

    /// A call by its number, with arguments that are accepted after `state_and_area`.
    fn call(number: u64, state: &mut State, area: &mut [u64]) -> Result<(), u64> {
        match number {
            0 => fresh(state, area, 1, 1, [1, 0, 0, 0, 0]),
            1 => open(state, &opening(3, 0, 1, 1)),
            2 => close(state, 0),
            3 => ask(state, 2, READ, 0, None).map(|_| ()),
            4 => report(state, area, 0, 3, 0, NO_LENGTH, &[]).map(|_| ()),
            5 => get(state, area, 0).map(|_| ()),
            6 => put(state, area, 1, &[7]),
            7 => seal(state, area, 1),
            8 => skip(state, 0),
            9 => freeze(state),
            10 => thaw(state),
            11 => give_back(state).map(|_| ()),
            _ => running(state).map(|_| ()),
        }
    }

    const CALLS: u64 = 13;

    /// A report is 11 here: no channel works; a return is 18: no routine runs.
    fn expected(number: u64) -> Result<(), u64> {
        match number {
            4 => Err(11),
            11 => Err(18),
            _ => Ok(()),
        }
    }

    #[test]
    fn every_call_judges_the_state() {
        for number in 0..CALLS {
            let (mut state, mut area) = state_and_area();
            assert_eq!(call(number, &mut state.clone(), &mut area.clone()), expected(number));
            for marks in [[10, 0], [0, 10]] {
                [state.channels[4].mark, state.channels[4].priority_mark] = marks;
                let (before, words) = (state.clone(), area.clone());
                assert_eq!(call(number, &mut state, &mut area), Err(1));
                assert_eq!((&state, &area), (&before, &words));
            }
        }
    }

    /// A wrong mask is refused by every call, whatever bit of it is wrong.
    #[test]
    fn every_call_judges_the_mask() {
        let (right, area) = state_and_area();
        assert_eq!(right.free, 1 << 4);
        for number in 0..CALLS {
            for bit in 0..32 {
                let (mut state, mut words) = (right.clone(), area.clone());
                state.free ^= 1 << bit;
                let before = state.clone();
                assert_eq!(call(number, &mut state, &mut words), Err(1));
                assert_eq!((&state, &words), (&before, &area));
                state.free ^= 1 << bit;
                assert_eq!(call(number, &mut state, &mut words), expected(number));
            }
        }
    }

    /// A fresh start fills the mask with m ones, open clears bits, close sets them; no other call and no
    /// refused one changes it.
    #[test]
    fn masks_after_calls() {
        let area = [0; 64];
        let mut state = State::default();
        for (buffers, ones) in [(32, u32::MAX), (1, 1), (31, u32::MAX >> 1), (5, 31)] {
            fresh(&mut state, &area, buffers, 2, [15, 0, 0, 0, 0]).expect("a fresh start");
            assert_eq!(state.free, ones);
        }
        let mut opened = |file, flags, answer, free| {
            assert_eq!(open(&mut state, &opening(file, flags, 1, 1)), answer);
            assert_eq!(state.free, free);
            state.clone()
        };
        opened(0, 0, Ok(()), 0b11110);
        opened(1, DOUBLE, Ok(()), 0b11000);
        opened(2, OUTPUT, Ok(()), 0b10000);
        opened(3, DOUBLE, Err(7), 0b10000);
        state = opened(3, 0, Ok(()), 0);
        let mut closed = |file, answer, free| {
            assert_eq!(close(&mut state, file), answer);
            assert_eq!(state.free, free);
            state.clone()
        };
        closed(1, Ok(()), 0b00110);
        closed(1, Err(5), 0b00110);
        state = closed(3, Ok(()), 0b10110);
        assert_eq!(open(&mut state, &opening(3, DOUBLE, 1, 1)), Ok(()));
        assert_eq!((state.free, &state.files[3].buffers()[1].number), (0b10000, &2));
        for number in 3..CALLS {
            let (mut state, mut area) = state_and_area();
            assert_eq!(call(number, &mut state, &mut area), expected(number));
            assert_eq!(state.free, 1 << 4);
        }
    }

    /// A caller begins with the state before the first fresh start, frozen or not; with a part of it
    /// changed, it does not begin.
    #[test]
    fn where_a_caller_begins() {
        let started = |frozen, mark| {
            let mut state = State { frozen, ..State::default() };
            state.channels[4].mark = mark;
            let before = state.clone();
            let answer = fresh(&mut state, &[0; 6], 2, 3, [1, 0, 0, 0, 0]);
            (answer, state == before)
        };
        for frozen in [false, true] {
            assert_eq!(started(frozen, 9), (Ok(()), false));
            assert_eq!(started(frozen, 10), (Err(1), true));
        }
    }

    /// Report, get, put and seal need all twenty words; a fresh start only the new ones.
    #[test]
    fn calls_that_judge_the_area() {
        for number in 0..CALLS {
            let (state, area) = state_and_area();
            let judges = [4, 5, 6, 7].contains(&number);
            for (length, short) in [(20, false), (19, true), (1, true)] {
                let (mut after, mut words) = (state.clone(), area[..length].to_vec());
                let answer = call(number, &mut after, &mut words);
                assert_eq!(answer, if judges && short { Err(1) } else { expected(number) });
                assert!(answer.is_ok() || (after == state && words == area[..length]));
            }
        }
        let (mut state, area) = state_and_area();
        assert_eq!(fresh(&mut state, &area[..11], 4, 3, [0; CHANNELS]), Err(1));
        assert_eq!(fresh(&mut state, &area[..12], 4, 3, [0; CHANNELS]), Ok(()));
    }

    /// What is shown is a part of the area, and the answer says where it begins.
    #[test]
    fn where_words_are_shown() {
        let (mut state, mut area) = state_and_area();
        let shown = |kind, start, words: &[u64]| {
            let words = Shown { start, words: words.to_vec() };
            Ok(GetAnswer { kind, check_error: 0, found: Fields::default(), words })
        };
        assert_eq!(get(&mut state, &mut area, 0), shown(0, 4, &[3, 4]));
        assert_eq!(get(&mut state, &mut area, 0), shown(4, 6, &[5]));
        assert_eq!(get(&mut state, &mut area, 0), shown(1, 0, &[]));
        seal(&mut state, &mut area, 1).expect("a seal");
        ask(&mut state, 1, WRITE, 0, None).expect("an ask");
        let block = Shown { start: 8, words: vec![6, 6 << 18 | 1] };
        let found = Fields::default();
        let answer = ReportAnswer { result: 1, check_error: 0, found, working_unit: None, block };
        assert_eq!(report(&mut state, &mut area, 0, 1, 0, NO_LENGTH, &[]), Ok(answer));
        assert_eq!(area[..11], [1, 2, 102, 103, 3, 4, 5, 107, 6, 1_572_865, 110]);
        assert!(area[10..].iter().copied().eq(110..122));
    }

    /// A routine becomes due, is entered, and returns; the state tells it.
    #[test]
    fn routines_in_a_state() {
        let (mut state, mut area) = state_and_area();
        let named = Some(Routine { number: 9, level: 4 });
        assert_eq!(ask(&mut state, 2, READ, 0, Some(Routine { number: 9, level: 5 })), Err(1));
        assert_eq!(ask(&mut state, 2, READ, 0, named), Ok(Some(2)));
        assert_eq!(state.channels[0].units[2].named, RoutineState { rank: 5, routine: 9 });
        freeze(&mut state).expect("a freeze");
        report(&mut state, &mut area, 0, 2, 0, NO_LENGTH, &[1]).expect("a report");
        assert_eq!(state.channels[0].units[2].named, RoutineState::default());
        assert_eq!(state.channels[0].units[2].waiting, RoutineState { rank: 5, routine: 9 });
        assert_eq!(running(&state), Ok(ProgramState::default()));
        thaw(&mut state).expect("a thaw");
        let program = ProgramState { rank: 5, channel: 0, unit: 2, routine: 9 };
        assert_eq!(running(&state), Ok(program));
        assert_eq!((state.programs.depth, state.channels[0].units[2].waiting.rank), (1, 0));
        let back = ReturnAnswer { entered: false, runs: ProgramState::default() };
        assert_eq!(give_back(&mut state), Ok(back));
        assert_eq!(give_back(&mut state), Err(18));
    }

    /// Readings A24 and A26: 2 for a spoilt word that is summed or handed out, and nothing changes.
    #[test]
    fn spoilt_words() {
        let (mut state, mut area) = state_and_area();
        area[4] = SPOILT;
        area[8] = SPOILT;
        let (before, words) = (state.clone(), area.clone());
        assert_eq!(get(&mut state, &mut area, 0), Err(2));
        assert_eq!(seal(&mut state, &mut area, 1), Err(2));
        assert_eq!(put(&mut state, &mut area, 1, &[7, 8]), Err(13));
        assert_eq!((&state, &area), (&before, &words));
        assert_eq!(put(&mut state, &mut area, 1, &[7]), Ok(()));
        assert_eq!(put(&mut state, &mut area, 1, &[8]), Err(2));
    }
}
