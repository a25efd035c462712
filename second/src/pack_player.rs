//! The subcommand `pack`: plays a script of calls on a state and a lent area, and of changes to both
//! that a caller could make between the calls.

use crate::channel::UNITS;
use crate::pack::{Opening, CHANNELS, FILES};
use crate::routine::Routine;
use crate::sound::is_sound;
use crate::state::State;
use crate::state_calls::{self as calls, Shown};
use crate::state_fields::{
    program_fields, set_file_field, set_pool_field, set_post_field, set_program_field, set_scan_mark,
    set_unit_field, state_numbers, AT, BLOCK_SIZE, BUFFER_FIELDS, CHANNEL_MARKS, FILE_FIELDS, FOUND_NUMBER,
    FOUND_SUM, FREE, LOW, MARKS, NUMBER, NUMBER_READ, PLACES, POOL_FIELDS, POST_FIELDS, PROGRAM_FIELDS,
    RECORDS, RECORD_LENGTH, SUM_READ, UNIT_FIELDS, WIDTH, WORDS,
};
use crate::text::{line_of, numbers_of};

/// The commands: calls, changes, and what prints; from 21 on calls and changes about special routines.
pub const FRESH: u64 = 0;
pub const OPEN: u64 = 1;
pub const CLOSE: u64 = 2;
pub const ASK: u64 = 3;
pub const REPORT: u64 = 4;
pub const GET: u64 = 5;
pub const PUT: u64 = 6;
pub const SEAL: u64 = 7;
pub const SKIP: u64 = 8;
pub const FREEZE: u64 = 9;
pub const THAW: u64 = 10;
pub const LENGTH: u64 = 11;
pub const WORD: u64 = 12;
pub const FILE: u64 = 13;
pub const UNIT: u64 = 14;
pub const SCAN_MARK: u64 = 15;
pub const POOL: u64 = 16;
pub const START_OVER: u64 = 17;
pub const PRINT_ROOM: u64 = 18;
pub const PRINT_STATE: u64 = 19;
pub const PRINT_SOUND: u64 = 20;
pub const ASK_NAMING: u64 = 21;
pub const RETURN: u64 = 22;
pub const RUNNING: u64 = 23;
pub const DEPTH: u64 = 24;
pub const PROGRAM: u64 = 25;
pub const POST: u64 = 26;

/// The numbers of the room, of which the area is the first part.
pub const ROOM: usize = 64;
/// The most words that come with a call.
const MOST_WORDS: u64 = 64;
/// The working unit if there is none.
pub const NO_UNIT: u64 = 255;

/// One byte and two bytes.
const BYTE: u64 = 255;
const TWO_BYTES: u64 = 65_535;
/// Four bytes, for the sums that a check found and for the length of a report.
const FOUR_BYTES: u64 = u32::MAX as u64;

/// What the player keeps between commands.
#[derive(Clone, Debug, PartialEq, Eq)]
pub struct Player {
    pub state: State,
    pub room: [u64; ROOM],
    /// The length of the area.
    pub length: usize,
}

/// Plays every command of `script`, one a line; complains of the first that is malformed.
pub fn answer_script(script: &str) -> Result<String, String> {
    let mut player = Player::new();
    let mut output = String::new();
    for (index, line) in script.lines().enumerate() {
        let played = numbers_of(line)
            .ok_or("something that is no number of 64 bits".to_string())
            .and_then(|command| player.play(&command));
        let answer = played.map_err(|complaint| format!("line {}: {complaint}", index + 1))?;
        output += &answer.map(|numbers| line_of(&numbers)).unwrap_or_default();
    }
    Ok(output)
}

impl Default for Player {
    fn default() -> Player {
        Player { state: State::default(), room: [0; ROOM], length: ROOM }
    }
}

impl Player {
    pub fn new() -> Player {
        Player::default()
    }

    /// Plays one command; a call and a print have an answer. A malformed command changes nothing.
    pub fn play(&mut self, command: &[u64]) -> Result<Option<Vec<u64>>, String> {
        check_form(command)?;
        Ok(match command[0] {
            FRESH..=THAW | ASK_NAMING..=RUNNING => Some(self.call(command)),
            PRINT_ROOM => Some(self.room.to_vec()),
            PRINT_STATE => Some(state_numbers(&self.state)),
            PRINT_SOUND => Some(vec![u64::from(is_sound(&self.state))]),
            _ => {
                self.change(command);
                None
            }
        })
    }

    /// Makes a call; a refused one is answered by the number alone.
    fn call(&mut self, command: &[u64]) -> Vec<u64> {
        match self.accepted_call(command) {
            Ok(numbers) => [&[0], &numbers[..]].concat(),
            Err(refusal) => vec![refusal],
        }
    }

    /// The numbers that follow the 0 of an accepted call.
    fn accepted_call(&mut self, command: &[u64]) -> Result<Vec<u64>, u64> {
        let (state, area) = (&mut self.state, &mut self.room[..self.length]);
        let nothing = |()| vec![];
        match *command {
            [FRESH, buffers, width, a, b, c, d, e] => {
                calls::fresh(state, area, buffers, width, [a, b, c, d, e]).map(nothing)
            }
            [OPEN, file, channel, unit, flags, block_size, record_length] => {
                let opening = Opening { file, channel, unit, flags, block_size, record_length };
                calls::open(state, &opening).map(nothing)
            }
            [CLOSE, file] => calls::close(state, file).map(nothing),
            [ASK, file, operation, priority] => ask(state, [file, operation, priority], None),
            [ASK_NAMING, file, operation, priority, given, number, level] => {
                let names = (given != 0).then_some(Routine { number, level });
                ask(state, [file, operation, priority], names)
            }
            [REPORT, channel, unit, outcome, length, _, ref words @ ..] => {
                let answer = calls::report(state, area, channel, unit, outcome, length, words)?;
                let working = answer.working_unit.unwrap_or(NO_UNIT);
                let first = [answer.result, answer.check_error];
                Ok(with_words(&[&first[..], &answer.found.in_order(), &[working]].concat(), &answer.block))
            }
            [GET, file] => {
                let answer = calls::get(state, area, file)?;
                let first = [answer.kind, answer.check_error];
                Ok(with_words(&[&first[..], &answer.found.in_order()].concat(), &answer.words))
            }
            [PUT, file, _, ref words @ ..] => calls::put(state, area, file, words).map(nothing),
            [SEAL, file] => calls::seal(state, area, file).map(nothing),
            [SKIP, file] => calls::skip(state, file).map(nothing),
            [FREEZE] => calls::freeze(state).map(nothing),
            [RETURN] => {
                let answer = calls::give_back(state)?;
                Ok([&[u64::from(answer.entered)][..], &program_fields(&answer.runs)].concat())
            }
            [RUNNING] => calls::running(state).map(|program| program_fields(&program).to_vec()),
            _ => calls::thaw(state).map(nothing),
        }
    }

    /// Makes a change of the room, the length or the state.
    fn change(&mut self, command: &[u64]) {
        match *command {
            [LENGTH, length] => self.length = length as usize,
            [WORD, place, value] => self.room[place as usize] = value,
            [FILE, file, field, value] => set_file_field(&mut self.state.files[file as usize], field, value),
            [UNIT, channel, unit, field, value] => {
                let units = &mut self.state.channels[channel as usize].units;
                set_unit_field(&mut units[unit as usize], field, value);
            }
            [SCAN_MARK, channel, mark, value] => {
                set_scan_mark(&mut self.state.channels[channel as usize], mark, value);
            }
            [POOL, field, value] => set_pool_field(&mut self.state, field, value),
            [DEPTH, depth] => self.state.programs.depth = depth,
            [PROGRAM, place, field, value] => {
                set_program_field(&mut self.state.programs, place, field, value);
            }
            [POST, channel, unit, field, value] => {
                let units = &mut self.state.channels[channel as usize].units;
                set_post_field(&mut units[unit as usize], field, value);
            }
            _ => *self = Player::new(),
        }
    }
}

/// An ask; its answer is the working unit.
fn ask(
    state: &mut State,
    [file, operation, priority]: [u64; 3],
    names: Option<Routine>,
) -> Result<Vec<u64>, u64> {
    let working = calls::ask(state, file, operation, priority, names)?;
    Ok(vec![working.unwrap_or(NO_UNIT)])
}

/// Numbers, then a part of the area: its start, its count and its words.
fn with_words(numbers: &[u64], shown: &Shown) -> Vec<u64> {
    [numbers, &[shown.start, shown.words.len() as u64], &shown.words].concat()
}

/// Complains of a command that is not of the form of a script.
fn check_form(command: &[u64]) -> Result<(), String> {
    let &kind = command.first().ok_or("no command")?;
    let limits = limits_of(command).ok_or(format!("no command {kind}"))?;
    let given = command.len() - 1;
    let words = words_of(command, limits.len())?;
    if given != limits.len() + words {
        return Err(format!("command {kind} takes {} numbers and not {given}", limits.len() + words));
    }
    for (place, (&number, &limit)) in command[1..].iter().zip(&limits).enumerate() {
        if number > limit {
            return Err(format!("number {} of command {kind} is over {limit}: {number}", place + 1));
        }
    }
    Ok(())
}

/// How many words a report or a put says that it brings; the count is the last number before them.
fn words_of(command: &[u64], fixed: usize) -> Result<usize, String> {
    if ![REPORT, PUT].contains(&command[0]) {
        return Ok(0);
    }
    match command.get(fixed) {
        Some(&count) if count > MOST_WORDS => Err(format!("more than {MOST_WORDS} words: {count}")),
        count => Ok(count.map_or(0, |&count| count as usize)),
    }
}

/// The largest that each number of a command can be, words apart. Calls take bytes, and two bytes
/// for W, B, r and masks.
fn limits_of(command: &[u64]) -> Option<Vec<u64>> {
    let (files, channels, units) = (FILES as u64 - 1, CHANNELS as u64 - 1, UNITS as u64 - 1);
    Some(match command[0] {
        FRESH => [&[BYTE][..], &[TWO_BYTES; 6]].concat(),
        OPEN => [&[BYTE; 4][..], &[TWO_BYTES; 2]].concat(),
        ASK => vec![BYTE; 3],
        ASK_NAMING => vec![BYTE; 6],
        REPORT => vec![BYTE, BYTE, BYTE, FOUR_BYTES, MOST_WORDS],
        PUT => vec![BYTE, MOST_WORDS],
        CLOSE | GET | SEAL | SKIP => vec![BYTE],
        FREEZE | THAW | RETURN | RUNNING => vec![],
        START_OVER | PRINT_ROOM | PRINT_STATE | PRINT_SOUND => vec![],
        LENGTH => vec![ROOM as u64],
        WORD => vec![ROOM as u64 - 1, u64::MAX],
        FILE => vec![files, FILE_FIELDS - 1, file_limit(command.get(2).copied())],
        UNIT => vec![channels, units, UNIT_FIELDS - 1, unit_limit(command.get(3).copied())],
        SCAN_MARK => vec![channels, CHANNEL_MARKS - 1, BYTE],
        POOL => vec![POOL_FIELDS - 1, pool_limit(command.get(1).copied())],
        DEPTH => vec![BYTE],
        PROGRAM => vec![PLACES - 1, PROGRAM_FIELDS - 1, BYTE],
        POST => vec![channels, units, POST_FIELDS - 1, BYTE],
        _ => return None,
    })
}

/// The largest number that a field of the pool can take; the mask takes any, modulo 2^32.
fn pool_limit(field: Option<u64>) -> u64 {
    match field {
        Some(WIDTH) => TWO_BYTES,
        Some(FREE) => u64::MAX,
        _ => BYTE,
    }
}

/// The largest number that a field of a unit can take.
fn unit_limit(field: Option<u64>) -> u64 {
    match field {
        Some(MARKS | RECORDS) => TWO_BYTES,
        _ => BYTE,
    }
}

/// The largest number that a field of a file can take.
fn file_limit(field: Option<u64>) -> u64 {
    const WIDE: [u64; 4] = [WORDS, AT, FOUND_NUMBER, NUMBER_READ];
    match field {
        Some(BLOCK_SIZE | RECORD_LENGTH | NUMBER) => TWO_BYTES,
        Some(field) if field >= LOW => match (field - LOW) % BUFFER_FIELDS {
            FOUND_SUM | SUM_READ => FOUR_BYTES,
            of_buffer if WIDE.contains(&of_buffer) => TWO_BYTES,
            _ => BYTE,
        },
        _ => BYTE,
    }
}

#[cfg(test)]
mod tests {
    use super::*;
    use crate::state_fields::BUFFERS;

    /// Plays commands written with semicolons between them, and compares the answers.
    fn answers(commands: &str, expected: &[&str]) {
        let given = answer_script(&commands.replace("; ", "\n")).expect("a script");
        assert_eq!(given.lines().collect::<Vec<&str>>(), expected, "{commands}");
    }

    /// The whole session of document 01: a read, a get, a get of nothing, and its report again.
    #[test]
    fn the_whole_session() {
        answers(
            "0 1 4 1 0 0 0 0; 1 0 0 0 0 2 1; 3 0 0 0; 4 0 0 0 65536 1 5; 5 0; 5 0; 4 0 0 0 65536 1 5",
            &["0", "0", "0 0", "0 1 0 5 1 0 0 255 0 0", "0 0 0 0 0 0 0 0 1 5", "0 1 0 0 0 0 0 0 0", "11"],
        );
    }

    #[test]
    fn what_a_write_and_a_get_show() {
        answers(
            "0 2 4 3 0 0 0 0; 1 1 0 1 0 1 1; 1 0 0 0 13 3 1; 6 0 1 1; 6 0 1 2; 7 0; 3 0 1 1; 4 0 0 4 65536 0",
            &["0", "0", "0", "0", "0", "0", "0 0", "0 4 0 0 0 0 0 255 4 3 1 2 786433"],
        );
        answers(
            "0 2 4 3 0 0 0 0; 1 1 0 1 0 1 1; 1 0 0 0 4 3 2; 3 0 0 0; 4 0 0 0 65536 4 7 8 9 2; 5 0; 5 0; 5 0; 8 0; 8 0; 2 0",
            &[
                "0",
                "0",
                "0",
                "0 0",
                "0 1 1 24 1 0 2 255 0 0",
                "0 3 1 24 1 0 2 0 0",
                "0 0 0 0 0 0 0 4 2 7 8",
                "0 4 0 0 0 0 0 6 1 9",
                "0",
                "9",
                "0",
            ],
        );
    }

    /// A redundancy with a length of two words is noise; with one of three it is an attempt. The length is the
    /// number of the words; 65,536 is none, and all above it are refused.
    #[test]
    fn lengths_and_positions() {
        let unit = |fields: &str| {
            let file = "0 1 0 0 0 0 0 0 2 1 0 1 0 0 1 0 0 0 0 0 0 0 0 0 0 0 0 0 0 0 0 0 0";
            format!("1 4 0 0 0 0 0 {fields} 10{} {file} 16 0 5 5", " 0 0 10".repeat(4))
        };
        answers(
            "0 1 4 1 0 0 0 0; 1 0 0 0 0 2 1; 3 0 0 0; 4 0 0 1 2 0; 19; 4 0 0 1 3 0; 4 0 0 1 1 1 9; 19",
            &[
                "0",
                "0",
                "0 0",
                "0 0 0 0 0 0 0 0 0 0",
                &unit("1 3 0 0 1 0 1 0 0 1"),
                "0 0 0 0 0 0 0 0 0 0",
                "0 0 0 0 0 0 0 0 0 0",
                &unit("1 3 0 0 2 0 2 0 0 1"),
            ],
        );
        answers(
            "0 1 4 1 0 0 0 0; 1 0 0 0 0 2 1; 3 0 0 0; 4 0 0 1 65537 0; 4 0 0 0 1 1 9; 4 0 0 1 2 1 9; 4 0 1 1 2 0; \
             14 0 0 7 32767; 14 0 0 8 32767; 20; 4 0 0 3 65536 0; 14 0 0 8 32768; 20",
            &["0", "0", "0 0", "1", "1", "1", "11", "1", "0 3 0 0 0 0 0 255 0 0", "0"],
        );
    }

    /// A request names routine 200 of priority 3 and is answered in a freeze; the thaw enters it. A naming that
    /// is not given names none, whatever its numbers are.
    #[test]
    fn routines_that_are_named_and_entered() {
        answers(
            "0 1 4 1 0 0 0 0; 1 0 0 0 1 2 1; 21 0 2 0 1 200 5; 21 0 2 0 1 200 3; 9; 4 0 0 0 65536 0; 23; 3 0 2 0; 10; \
             23; 3 0 2 0; 22; 22; 4 0 0 0 65536 0; 21 0 2 0 0 7 200; 4 0 0 0 65536 0; 23",
            &[
                "0",
                "0",
                "1",
                "0 0",
                "0",
                "0 1 0 0 0 0 0 255 0 0",
                "0 0 0 0 0",
                "8",
                "0",
                "0 4 0 0 200",
                "0 0",
                "0 0 0 0 0 0",
                "18",
                "0 1 0 0 0 0 0 255 0 0",
                "0 0",
                "0 1 0 0 0 0 0 255 0 0",
                "0 0 0 0 0",
            ],
        );
    }

    /// Changes of programs and posts, and how they are printed and judged.
    #[test]
    fn programs_and_posts_by_hand() {
        let units = "0 0 0 1 0 0 0 0 0 0 0 0 0 10 0 0 10 0 0 10 0 0 10 0 0 10";
        answers(
            "0 1 1 1 0 0 0 0; 24 1; 20; 25 0 0 5; 25 0 3 77; 20; 26 0 0 2 5; 26 0 0 3 9; 20; 19; 22; 23; 16 2 1; 22; 20; \
             26 0 0 2 0; 20; 26 0 0 3 0; 20; 26 0 0 0 1; 20; 17; 20; 25 4 2 1; 20; 19",
            &[
                "0",
                "0",
                "1",
                "1",
                &format!("1 1 0 1 {units} 16 1 0 5 0 0 77 5 0 0 0 0 5 9 5"),
                "0 1 5 0 0 9",
                "0 5 0 0 9",
                "0 0 0 0 0 0",
                "1",
                "1",
                "1",
                "0",
                "1",
                "0",
                &format!("0 0 0 0{} 16 0 4 0 0 1 0 5 5", " 0 0 10".repeat(5)),
            ],
        );
    }

    /// Changes have no answer; the area is the first part of the room.
    #[test]
    fn changes_between_calls() {
        answers("9; 16 2 0; 15 4 0 9; 20; 15 4 0 10; 20; 10; 17; 20", &["0", "1", "0", "1", "1"]);
        answers("15 0 1 9; 20; 15 0 1 10; 20; 10; 15 0 0 10; 15 0 1 9; 20", &["1", "0", "1", "0"]);
        answers(
            "11 3; 0 2 2 1 0 0 0 0; 11 4; 0 2 2 1 0 0 0 0; 1 0 0 0 1 2 2; 6 0 2 3 4; 11 3; 3 0 1 0; 4 0 0 0 65536 0",
            &["1", "0", "0", "0", "0 0", "1"],
        );
        answers(
            "0 1 2 1 0 0 0 0; 14 0 0 1 3; 14 0 0 4 1; 20; 13 0 0 1; 13 0 7 2; 13 0 8 1; 20; 13 0 13 1; 20; 16 3 0; 20",
            &["0", "0", "0", "0", "1"],
        );
    }

    #[test]
    fn rooms_and_states_as_they_are_printed() {
        let zeros = |count: usize| vec!["0"; count].join(" ");
        let room = |first: &str, between: usize, last: &str| format!("{first} {} {last}", zeros(between));
        answers(
            "12 0 18446744073709551615; 12 63 7; 18; 19",
            &[&room("18446744073709551615", 62, "7"), &format!("0 0 0 0{} 16 0 5 5", " 0 0 10".repeat(5))],
        );
        answers(
            "15 1 0 7; 15 1 1 8; 15 4 1 255; 19",
            &["0 0 0 0 0 0 10 7 8 10 0 0 10 0 0 10 0 255 10 16 0 5 5"],
        );
    }

    /// The mask of the free buffers: printed after the freeze, set by hand modulo 2^32, and judged.
    #[test]
    fn free_masks() {
        let units = "0 0 0 1 0 0 0 0 0 0 0 0 0 1 1 0 0 0 0 0 0 0 0 0 10 0 0 10 0 0 10 0 0 10 0 0 10";
        let file = "0 1 0 0 0 1 0 0 1 1 0 1 0 0 0 0 0 0 0 0 0 0 0 1 0 0 0 0 0 0 0 0 0";
        answers(
            "0 3 1 3 0 0 0 0; 19; 1 0 0 0 2 1 1; 19; 2 0; 9; 19",
            &[
                "0",
                &format!("3 1 0 7 {units} 16 0 5 5"),
                "0",
                &format!("3 1 0 4 {units} {file} 16 0 5 5"),
                "0",
                "0",
                &format!("3 1 1 7 {units} 16 0 5 5"),
            ],
        );
        answers(
            "16 3 1; 20; 9; 0 1 1 0 0 0 0 0; 16 3 4294967296; 20; 0 1 1 0 0 0 0 0; 16 3 4294967297; 20; 16 3 3; 20",
            &["0", "1", "1", "1", "0", "1", "0"],
        );
    }

    /// The last line of a script is malformed, and the complaint says how.
    fn complains(script: &str, complaint: &str) {
        let lines = script.split("; ").count();
        let expected = Err(format!("line {lines}: {complaint}"));
        assert_eq!(answer_script(&script.replace("; ", "\n")), expected, "{script}");
    }

    #[test]
    fn malformed_scripts() {
        complains("17; 20 x", "something that is no number of 64 bits");
        complains("17; 12 0 18446744073709551616", "something that is no number of 64 bits");
        assert_eq!(answer_script("17\n\n17\n"), Err("line 2: no command".to_string()));
        complains("17; 27", "no command 27");
        for (command, takes, given) in [
            ("0 1 1 1 0 0 0", 7, 6),
            ("1 0 0 0 0 3", 6, 5),
            ("2", 1, 0),
            ("3 0 0 0 0", 3, 4),
            ("4 0 0 0", 5, 3),
            ("4 0 0 0 0", 5, 4),
            ("4 0 0 0 65536 2 1", 7, 6),
            ("6", 2, 0),
            ("6 0 1", 3, 2),
            ("6 0 0 1", 2, 3),
            ("9 1", 0, 1),
            ("13 0 0", 3, 2),
            ("14 0 0 0", 4, 3),
            ("15 0 9", 3, 2),
            ("20 0", 0, 1),
            ("21 0 0 0", 6, 3),
            ("22 0", 0, 1),
            ("23 0", 0, 1),
            ("24", 1, 0),
            ("25 0 0", 3, 2),
            ("26 0 0 0", 4, 3),
        ] {
            let kind = command.split(' ').next().expect("a command");
            complains(command, &format!("command {kind} takes {takes} numbers and not {given}"));
        }
    }

    /// Numbers that the places of a call or of a state cannot hold.
    #[test]
    fn numbers_that_are_too_large() {
        for (command, place, limit, number) in [
            ("0 256 1 0 0 0 0 0", 1, 255_u64, 256_u64),
            ("0 1 65536 0 0 0 0 0", 2, 65_535, 65_536),
            ("0 1 1 0 0 0 0 65536", 7, 65_535, 65_536),
            ("1 0 0 0 256 1 1", 4, 255, 256),
            ("4 0 0 256 0 0", 3, 255, 256),
            ("4 0 0 1 4294967296 0", 4, 4_294_967_295, 4_294_967_296),
            ("11 65", 1, 64, 65),
            ("12 64 0", 1, 63, 64),
            ("13 16 0 0", 1, 15, 16),
            ("13 0 32 0", 2, 31, 32),
            ("13 0 1 256", 3, 255, 256),
            ("13 0 10 65536", 3, 65_535, 65_536),
            ("13 0 16 256", 3, 255, 256),
            ("13 0 17 256", 3, 255, 256),
            ("13 0 18 4294967296", 3, 4_294_967_295, 4_294_967_296),
            ("13 0 19 65536", 3, 65_535, 65_536),
            ("13 0 22 256", 3, 255, 256),
            ("13 0 24 65536", 3, 65_535, 65_536),
            ("13 0 27 256", 3, 255, 256),
            ("13 0 30 4294967296", 3, 4_294_967_295, 4_294_967_296),
            ("13 0 31 65536", 3, 65_535, 65_536),
            ("14 5 0 0 0", 1, 4, 5),
            ("14 0 10 0 0", 2, 9, 10),
            ("14 0 0 10 0", 3, 9, 10),
            ("14 0 0 4 256", 4, 255, 256),
            ("14 0 0 6 256", 4, 255, 256),
            ("14 0 0 7 65536", 4, 65_535, 65_536),
            ("14 0 0 8 65536", 4, 65_535, 65_536),
            ("14 0 0 9 256", 4, 255, 256),
            ("15 5 0 0", 1, 4, 5),
            ("15 0 2 0", 2, 1, 2),
            ("15 0 1 256", 3, 255, 256),
            ("16 4 0", 1, 3, 4),
            ("16 0 256", 2, 255, 256),
            ("16 1 65536", 2, 65_535, 65_536),
            ("16 2 256", 2, 255, 256),
            ("21 0 0 0 1 0 256", 6, 255, 256),
            ("24 256", 1, 255, 256),
            ("25 5 0 0", 1, 4, 5),
            ("25 0 4 0", 2, 3, 4),
            ("25 0 0 256", 3, 255, 256),
            ("26 5 0 0 0", 1, 4, 5),
            ("26 0 10 0 0", 2, 9, 10),
            ("26 0 0 4 0", 3, 3, 4),
            ("26 0 0 0 256", 4, 255, 256),
        ] {
            let kind = command.split(' ').next().expect("a command");
            complains(command, &format!("number {place} of command {kind} is over {limit}: {number}"));
        }
        complains("6 0 65", "more than 64 words: 65");
        complains("4 0 0 0 0 18446744073709551615", "more than 64 words: 18446744073709551615");
    }

    /// Complaints come before anything changes.
    #[test]
    fn a_malformed_command_changes_nothing() {
        let mut player = Player::new();
        player.play(&[POOL, BUFFERS, 3]).expect("a change");
        let before = player.clone();
        for command in [&[WORD, 64, 1][..], &[FILE, 0, 32, 1], &[START_OVER, 0], &[99], &[]] {
            assert!(player.play(command).is_err());
            assert_eq!(player, before);
        }
    }
}
