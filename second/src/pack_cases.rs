//! The subcommand `pack-cases`: a fixed script for `pack`. It has what no session can show: areas
//! that are short or spoilt, states that are unsound or that no calls lead to, and the words that stay.
//!
//! A command is a line of decimal numbers, the first its kind. There are a state, at first the one before the
//! first fresh start, a room of 64 numbers, at first zeros, and the length of the area, at first 64: the
//! area that calls are lent is the first so many numbers of the room.
//!
//! Calls. Each has one line for an answer: the refusal alone, or 0 and the numbers that are named here.
//!
//! - `0 m W mask mask mask mask mask`: fresh start.
//! - `1 file channel unit flags B r`: open. `2 file`: close.
//! - `3 file operation priority`: ask. Answer: `working`, 255 for none.
//! - `4 channel unit outcome length n word ..`: report with a length (M-106; 65,536 for none) and n words (0 to
//!   64). Answer: `result error sum number
//!   sumread numberread working start count word ..`: the check error, never a read error, and directly after
//!   it what the check of a delivered block found (M-102), four zeros if none was delivered; a permanent error
//!   with words delivers one (M-101). The block that is shown is `count` words of the area from `start`, and
//!   if none is shown both are 0.
//! - `5 file`: get. Answer: `kind error sum number sumread numberread start count word ..`; the kinds are
//!   those of the session program, the error is the read error (4 or 10) or the check error, and directly
//!   after it stands what was found at delivery, four zeros if the kind is not 3.
//! - `6 file n word ..`: put. `7 file`: seal. `8 file`: skip. `9`: freeze. `10`: thaw.
//!
//! Changes, which have no answer.
//!
//! - `11 length`: the length of the area. `12 place value`: a number of the room.
//! - `13 file field value`, `14 channel unit field value`: a field, as they are listed below.
//! - `15 channel mark value`: the unit at which a scan of the channel begins; mark 0 is that of ordinary
//!   requests, mark 1 that of priority requests (M-112).
//! - `16 field value`: a field of the pool. `17`: state, room and length are again as at first.
//!
//! Special routines (M-110). A rank is 0 for none (no routine; the main program) and else a routine's priority and 1.
//!
//! - `21 file operation priority given routine level`: ask with a naming; a naming that is not given (0) names none,
//!   whatever its numbers are. Answer as of ask.
//! - `22`: return. Answer: `entered rank channel unit routine`: 1 if a waiting routine was entered, 0 if the program
//!   last pushed resumed, and what runs now; the main program is four zeros.
//! - `23`: what runs. Answer: `rank channel unit routine`.
//! - `24 depth`, a change: how many programs are on the push-down list, any byte.
//! - `25 place field value`, a change: a field of a program. Place 0 is what runs, 1 to 4 the list from the bottom up;
//!   0 rank, 1 channel, 2 unit, 3 routine. Places past the depth can be set too.
//! - `26 channel unit field value`, a change: what stands with a unit, whether it has a request or not: 0 the rank that
//!   its request names, 1 that routine, 2 the rank that waits there, 3 that routine. No other change touches these.
//!
//! Prints. `18`: the room. `19`: the state. `20`: 1 if the state is sound, else 0.
//!
//! Fields of a file: 0 open, 1 channel, 2 unit, 3 output, 4 double, 5 sequence, 6 check, 7 B, 8 r, 9 turned
//! (of two full blocks the one in the high buffer is the older), 10 number, 11 marked, 12 to 21 the low
//! buffer, 22 to 31 the high one: number, kind (0 empty, 1 taken, 2 part-filled, 3 full), words, place of
//! get, check error not told, read error not told (M-101: 0, 4 or 10), and as the check found them (M-102)
//! sum, number, sum read, number read; these four stay when the error is told, and are 0 in output files. A
//! sum takes four bytes. Setting a kind makes a slot of that kind with zeros; a field that the kind has not is
//! 0 and is not set. Fields of a unit: 0 declared, 1 turn (0 idle, 1 waiting, 2 displaced, 3 working), 2
//! operation, 3 priority, 4 attempts, 5 incomplete words, 6 noise (M-106: noise records passed by the request),
//! 7 marks, 8 records, 9 noise met (0 or 1); an idle unit has no 2 to 6, and a turn set on it makes an ordinary
//! read with zeros. Marks and records take two bytes. Fields of the pool: 0 m, 1 W, 2 frozen, 3 free mask (modulo 2^32).
//!
//! A state is printed as the four fields of the pool; for each channel its mark 0 and its mark 1, then each
//! unit that is not all zero with its number before its fields, then 10; then each file that is not all
//! zero with its number before its fields; then 16; then the depth, each place of a program that is not all zero with
//! its number before its four fields, and 5; then each unit at which something is named or waits: channel, unit and
//! the four fields of command 26; then 5.

mod areas;
mod buffers;
mod found_by_hand;
mod given;
mod input_by_hand;
mod kept_blocks;
mod kept_masks;
mod output_by_hand;
mod random_changes;
mod random_steps;
mod reels_by_hand;
mod routine_steps;
mod routines_by_hand;
mod script;
mod spoilt;
mod turns_by_hand;
mod unsound;
mod unsound_bench;
mod unsound_files;
mod unsound_masks;
mod unsound_requests;
mod unsound_routines;

use script::Script;

/// The whole script, one command a line.
pub fn pack_cases() -> Vec<Vec<u64>> {
    let mut script = Script::default();
    areas::add_cases(&mut script);
    spoilt::add_cases(&mut script);
    given::add_cases(&mut script);
    unsound::add_cases(&mut script);
    buffers::add_cases(&mut script);
    input_by_hand::add_cases(&mut script);
    found_by_hand::add_cases(&mut script);
    kept_blocks::add_cases(&mut script);
    reels_by_hand::add_cases(&mut script);
    output_by_hand::add_cases(&mut script);
    turns_by_hand::add_cases(&mut script);
    random_steps::add_cases(&mut script);
    unsound_masks::add_cases(&mut script);
    kept_masks::add_cases(&mut script);
    unsound_routines::add_cases(&mut script);
    routines_by_hand::add_cases(&mut script);
    routine_steps::add_cases(&mut script);
    script.commands
}

#[cfg(test)]
mod tests {
    use super::*;
    use crate::pack::{DOUBLE, FILES};
    use crate::pack_player::{
        answer_script, Player, ASK, ASK_NAMING, CLOSE, FRESH, GET, OPEN, PRINT_SOUND, PRINT_STATE, PUT,
        REPORT, RETURN, ROOM, RUNNING, SEAL, SKIP, THAW,
    };
    use crate::sound::{all_clauses, broken_clauses, is_sound, Clause};
    use crate::state::{Buffer, State};
    use crate::state_pack::{pack_of, state_of};
    use crate::text::lines_of;
    use std::collections::{BTreeMap, BTreeSet};

    /// The refusal numbers of each call that takes more than none, from the table of document 01.
    const REFUSALS: [(u64, &[u64]); 12] = [
        (FRESH, &[1]),
        (OPEN, &[1, 3, 4, 7, 13]),
        (CLOSE, &[1, 5, 8, 15]),
        (ASK, &[1, 5, 6, 8, 9, 10, 15]),
        (REPORT, &[1, 2, 11, 12, 13]),
        (GET, &[1, 2, 5, 6]),
        (PUT, &[1, 2, 5, 6, 9, 13]),
        (SEAL, &[1, 2, 5, 6, 9]),
        (SKIP, &[1, 5, 6, 9]),
        (ASK_NAMING, &[1, 5, 6, 8, 9, 10, 15]),
        (RETURN, &[1, 18]),
        (RUNNING, &[1]),
    ];

    /// All calls.
    fn calls() -> impl Iterator<Item = u64> {
        (FRESH..=THAW).chain(ASK_NAMING..=RUNNING)
    }

    const OTHER_SEEDS: u64 = 20;

    /// A command of a script with the player before and after it.
    struct Played<'a> {
        command: &'a [u64],
        before: &'a Player,
        answer: Option<&'a [u64]>,
        after: &'a Player,
    }

    impl Played<'_> {
        fn is_call(&self) -> bool {
            calls().any(|call| call == self.command[0])
        }

        /// The first number of the answer: 0, or the refusal of a call.
        fn first(&self) -> u64 {
            self.answer.expect("an answer")[0]
        }
    }

    fn play_all(script: &[Vec<u64>], mut look: impl FnMut(&Played)) {
        let mut player = Player::new();
        for command in script {
            let before = player.clone();
            let answer = player.play(command).expect("a command");
            look(&Played { command, before: &before, answer: answer.as_deref(), after: &player });
        }
    }

    fn random_script() -> Vec<Vec<u64>> {
        let mut script = Script::default();
        random_steps::add_cases(&mut script);
        script.commands
    }

    /// The scripts of other seeds, for what must hold of every script.
    fn other_scripts() -> impl Iterator<Item = Vec<Vec<u64>>> {
        (1..=OTHER_SEEDS).map(|seed| {
            let mut script = Script::default();
            random_steps::add_steps(&mut script, seed);
            script.commands
        })
    }

    #[test]
    fn the_script_keeps_its_size() {
        let script = lines_of(&pack_cases());
        assert!(script.len() < 250_000, "{}", script.len());
        let answers = answer_script(&script).expect("a script");
        assert!(answers.len() < 330_000, "{}", answers.len());
    }

    #[test]
    fn every_refusal_of_every_call_is_met() {
        let mut met = BTreeSet::new();
        play_all(&pack_cases(), |played| {
            if played.is_call() && played.first() != 0 {
                met.insert((played.command[0], played.first()));
            }
        });
        let mut expected: BTreeSet<(u64, u64)> = BTreeSet::from([(9, 1), (10, 1)]);
        for (call, numbers) in REFUSALS {
            expected.extend(numbers.iter().map(|&number| (call, number)));
        }
        assert_eq!(met, expected);
        let numbers: BTreeSet<u64> = met.into_iter().map(|(_, number)| number).collect();
        assert!(numbers.into_iter().eq((1..=13).chain([15, 18])));
    }

    #[test]
    fn every_answer_is_met() {
        let mut met = BTreeMap::<&str, BTreeSet<u64>>::new();
        play_all(&pack_cases(), |played| {
            let Some(answer) = played.answer else {
                return;
            };
            let mut note = |what, number| met.entry(what).or_default().insert(number);
            match (played.command[0], answer) {
                (REPORT, &[0, result, error, sum, number, sum_read, number_read, working, _, count, ..]) => {
                    note("result", result);
                    if number > 0 || sum > 0 {
                        note("result that delivers a block", result);
                    }
                    note("error of a report", error);
                    note("sum found", u64::from(sum == sum_read));
                    note("number found", u64::from(number == number_read));
                    note("working unit", u64::from(working == 255));
                    note("block shown", u64::from(count > 0));
                }
                (GET, &[0, kind, error, ..]) => {
                    note("get", kind);
                    note("error of a get", error);
                }
                (ASK, [0, working]) => _ = note("ask", u64::from(*working == 255)),
                (ASK_NAMING, [0, working]) => _ = note("ask that names", u64::from(*working == 255)),
                (RETURN, [0, entered, rank, ..]) => {
                    note("return", *entered);
                    note(if *entered == 1 { "rank entered" } else { "rank resumed" }, *rank);
                }
                (RUNNING, [0, rank, ..]) => {
                    note("rank that runs", *rank);
                    note("depth", played.before.state.programs.depth);
                }
                (PRINT_SOUND, [sound]) => _ = note("sound", *sound),
                _ => {}
            }
        });
        for (what, last) in [
            ("result", 7),
            ("error of a report", 3),
            ("sum found", 1),
            ("number found", 1),
            ("working unit", 1),
            ("block shown", 1),
            ("get", 4),
            ("ask", 1),
            ("ask that names", 1),
            ("return", 1),
            ("rank resumed", 4),
            ("rank that runs", 5),
            ("depth", 4),
            ("sound", 1),
        ] {
            assert!(met[what].iter().copied().eq(0..=last), "{what}");
        }
        assert!(met["rank entered"].iter().copied().eq(1..=5));
        assert!(met["error of a get"].iter().copied().eq([0, 1, 2, 3, 4, 10]));
        assert!(met["result that delivers a block"].iter().copied().eq([1, 2, 5, 6]));
    }

    /// Every clause is broken alone, by several states that are asked for.
    #[test]
    fn every_clause_is_broken_alone() {
        let mut alone = BTreeMap::<Clause, Vec<State>>::new();
        play_all(&pack_cases(), |played| {
            if let (PRINT_SOUND, [clause]) = (played.command[0], &broken_clauses(&played.after.state)[..]) {
                let states = alone.entry(*clause).or_default();
                if !states.contains(&played.after.state) {
                    states.push(played.after.state.clone());
                }
            }
        });
        for clause in all_clauses() {
            let states = alone.get(&clause).map_or(0, Vec::len);
            assert!(states >= 2, "{clause:?} is broken alone by {states} states");
        }
    }

    type Test = fn(&State) -> bool;

    /// Whether the mask says that a buffer is free.
    fn says_free(state: &State, buffer: Buffer) -> bool {
        buffer.number < 32 && state.free >> buffer.number & 1 == 1
    }

    /// Wrong masks of every sort are asked for, each met by fresh starts, opens and closes that nothing
    /// but the mask refuses.
    #[test]
    fn wrong_masks_of_every_sort() {
        let sorts: [(&str, Test); 9] = [
            ("single", |state| state.open_files().any(|file| !file.double && says_free(state, file.low))),
            ("low", |state| state.open_files().any(|file| file.double && says_free(state, file.low))),
            ("high", |state| state.open_files().any(|file| file.double && says_free(state, file.high))),
            ("free one clear", |state| state.free_mask() & !state.free != 0),
            ("all clear", |state| state.free == 0),
            ("at m", |state| (1..32).contains(&state.buffers) && state.free >> state.buffers & 1 == 1),
            ("31", |state| state.buffers < 31 && state.free >> 31 == 1),
            ("as many", |state| state.free.count_ones() == state.free_mask().count_ones()),
            ("before fresh", |state| state.buffers == 0),
        ];
        let mut met = BTreeSet::new();
        play_all(&pack_cases(), |played| {
            let state = &played.before.state;
            if broken_clauses(state) != [Clause::FreeMask] {
                return;
            }
            let mut right = played.before.clone();
            right.state.free = state.free_mask();
            let accepted =
                right.play(played.command).expect("a command").is_some_and(|answer| answer[0] == 0);
            if accepted || played.command[0] == PRINT_SOUND {
                let names = sorts.iter().filter(|(_, is_of)| is_of(state)).map(|&(name, _)| name);
                met.extend(names.map(|name| (name, played.command[0])));
            }
        });
        for (name, _) in &sorts {
            for command in [FRESH, OPEN, CLOSE, PRINT_SOUND] {
                let possible = *name != "before fresh" || [FRESH, PRINT_SOUND].contains(&command);
                assert!(!possible || met.contains(&(*name, command)), "{name}: {command}");
            }
        }
    }

    /// Opens meet pools with no free buffer, with one and with all 32, and take the last one and the last two.
    #[test]
    fn opens_meet_masks_of_every_sort() {
        let mut met = BTreeSet::new();
        play_all(&pack_cases(), |played| {
            if let &[OPEN, _, _, _, flags, ..] = played.command {
                let [before, after] =
                    [played.before, played.after].map(|player| player.state.free.count_ones());
                met.insert((played.first(), flags & DOUBLE, before, after));
            }
        });
        for (flags, taken) in [(0, 1), (DOUBLE, 2)] {
            assert!((0..taken).all(|free| met.contains(&(7, flags, free, free))), "{flags}");
            for free in [taken, taken + 1, 32] {
                assert!(met.contains(&(0, flags, free, free - taken)), "{flags}: {free}");
            }
        }
    }

    /// Each call is refused 1 on every unsound state that it meets, and meets at least three.
    #[test]
    fn every_call_meets_unsound_states() {
        let mut met = BTreeMap::<u64, Vec<State>>::new();
        play_all(&pack_cases(), |played| {
            if !played.is_call() || is_sound(&played.before.state) {
                return;
            }
            assert_eq!(played.answer, Some(&[1][..]));
            let states = met.entry(played.command[0]).or_default();
            if !states.contains(&played.before.state) {
                states.push(played.before.state.clone());
            }
        });
        for call in calls() {
            assert!(met[&call].len() >= 3, "{call}: {}", met[&call].len());
        }
    }

    /// Fresh starts whose own numbers are right meet each clause broken alone, and what they leave
    /// is printed.
    #[test]
    fn fresh_starts_meet_every_broken_clause() {
        let mut met = BTreeSet::new();
        let mut refused_last = false;
        let mut printed = 0;
        play_all(&pack_cases(), |played| {
            printed += u64::from(refused_last && played.command[0] == PRINT_STATE);
            let broken = broken_clauses(&played.before.state);
            refused_last = played.command[0] == FRESH && !broken.is_empty();
            let from_the_beginning = Player { state: State::default(), ..played.before.clone() };
            let right = |mut player: Player| player.play(played.command) == Ok(Some(vec![0]));
            if let (true, [clause]) = (refused_last, &broken[..]) {
                if right(from_the_beginning) {
                    met.insert(*clause);
                }
            }
        });
        assert!(met.into_iter().eq(all_clauses()));
        assert!(printed >= 6, "{printed}");
    }

    /// Fresh starts are accepted on many sound states: frozen ones and others, with and without open
    /// files and requests, with a scan that does not begin at 0.
    #[test]
    fn fresh_starts_meet_sound_states() {
        let mut states = Vec::<State>::new();
        play_all(&pack_cases(), |played| {
            let known = states.contains(&played.before.state);
            if played.command[0] == FRESH && played.first() == 0 && !known {
                states.push(played.before.state.clone());
            }
        });
        assert!(states.len() >= 30, "{}", states.len());
        let tests: [Test; 4] = [
            |state| state.frozen,
            |state| state.open_files().count() > 0,
            |state| state.requests().count() > 0,
            |state| state.channels.iter().any(|channel| channel.mark > 0),
        ];
        for (index, test) in tests.iter().enumerate() {
            let [with, without] =
                [true, false].map(|wanted| states.iter().filter(|s| test(s) == wanted).count());
            assert!(with >= 3 && without >= 3, "{index}: {with} and {without}");
        }
    }

    /// A refused call changes nothing; an accepted one leaves a sound state, and sets words of the
    /// area alone, in buffers of one file.
    #[test]
    fn what_calls_may_change() {
        for script in other_scripts().chain([pack_cases()]) {
            play_all(&script, |played| {
                if !played.is_call() {
                    return;
                }
                if played.first() == 0 {
                    assert!(is_sound(&played.after.state), "{:?}", played.command);
                    assert_eq!(played.before.length, played.after.length);
                    judge_changed_words(played);
                } else {
                    assert_eq!(played.before, played.after, "{:?}", played.command);
                }
            });
        }
    }

    fn judge_changed_words(played: &Played) {
        let (before, after) = (played.before, played.after);
        let changed: Vec<usize> =
            (0..ROOM).filter(|&place| before.room[place] != after.room[place]).collect();
        let sets = [REPORT, PUT, SEAL].contains(&played.command[0]);
        assert!(changed.is_empty() || sets, "{:?}", played.command);
        assert!(changed.iter().all(|&place| place < after.length), "{:?}", played.command);
        let holders: BTreeSet<Option<usize>> =
            changed.iter().map(|&place| holder_of(&before.state, place)).collect();
        assert!(holders.len() <= 1 && !holders.contains(&None), "{:?}", played.command);
    }

    /// The file that holds the buffer of a place in the area.
    fn holder_of(state: &State, place: usize) -> Option<usize> {
        let buffer = place as u64 / state.width;
        (0..FILES).find(|&file| {
            let file = &state.files[file];
            file.opened && file.buffers().iter().any(|held| held.number == buffer)
        })
    }

    /// Every sound state goes to a pack and comes back.
    #[test]
    fn sound_states_go_to_a_pack_and_back() {
        let mut count = 0;
        for script in other_scripts().chain([pack_cases()]) {
            play_all(&script, |played| {
                if is_sound(&played.after.state) {
                    assert_eq!(state_of(&pack_of(&played.after.state, &[])), played.after.state);
                    count += 1;
                }
            });
        }
        assert!(count > 10_000);
    }

    /// The random steps get somewhere: each call is accepted often, and states of both sorts are met.
    #[test]
    fn random_steps_reach_much() {
        let mut accepted = BTreeMap::<u64, u64>::new();
        let mut refused = BTreeSet::new();
        let mut sound = [0, 0];
        play_all(&random_script(), |played| {
            if played.is_call() {
                *accepted.entry(played.command[0]).or_default() += u64::from(played.first() == 0);
                refused.insert(played.first());
            } else if played.command[0] == PRINT_SOUND {
                sound[played.first() as usize] += 1;
            }
        });
        for call in FRESH..=THAW {
            assert!(accepted[&call] >= 5, "{call}: {}", accepted[&call]);
        }
        refused.remove(&0);
        assert!(refused.len() >= 11, "{refused:?}");
        assert!(sound.iter().all(|&count| count >= 50), "{sound:?}");
    }

    /// The changes that take a state back do so.
    #[test]
    fn states_are_set_field_by_field() {
        let mut states = Vec::new();
        play_all(&random_script(), |played| states.push(played.after.state.clone()));
        let mut script = Script::default();
        for state in states.iter().step_by(7) {
            script.set_state(state);
            assert_eq!(&script.player.state, state);
        }
    }
}
