//! The subcommand `compare`: plays random sessions against another program.

use crate::generate::session_of;
use crate::profile::{Profile, PROFILES};
use crate::program::Played;
use crate::reach::Reach;
use crate::session::answers_to;
use crate::shorten::shorten;
use crate::wrap::WRAP_FRAMES;

/// What is compared.
#[derive(Clone, Debug, PartialEq, Eq)]
pub struct Options {
    /// All profiles if none is named.
    pub profile: Option<Profile>,
    pub seed: u64,
    pub frames: usize,
    pub count: u64,
    /// What was never reached is no failure.
    pub partial: bool,
    /// So many frames are played at most to shorten a session.
    pub budget: u64,
}

impl Default for Options {
    fn default() -> Options {
        Options { profile: None, seed: 1, frames: 4_000, count: 5, partial: false, budget: 5_000_000 }
    }
}

/// Plays a session with the other program.
pub type Player<'a> = &'a dyn Fn(&[u8]) -> Result<Played, String>;

/// The first frame on which the programs differ.
#[derive(Clone, Debug, PartialEq, Eq)]
pub struct Difference {
    /// Its place in the session; the count of lines if the difference is after all answers.
    pub frame: usize,
    pub ours: String,
    pub theirs: String,
}

/// The outcome of a comparison: what to print, and whether the programs agree.
pub struct Compared {
    pub text: String,
    pub agreed: bool,
}

/// Plays all sessions of the options with both programs, up to the first difference.
pub fn compare(options: &Options, other: Player) -> Result<Compared, String> {
    let mut reach = Reach::default();
    let mut text = String::new();
    let (mut sessions, mut frames) = (0, 0);
    for (name, profile) in PROFILES {
        if options.profile.is_some_and(|chosen| chosen != profile) {
            continue;
        }
        for seed in seeds(options, profile) {
            let mut lines = session_of(profile, seed, frames_of(options, profile));
            let ending = ending_of(&lines, seed);
            let ours = reach.play(&lines);
            let theirs = other(&session_text(&lines, ending))?;
            if let Some(difference) = first_difference(&ours, &theirs) {
                text += &format!("profile {name}, seed {seed}: the programs differ\n");
                text += &told(&lines, &difference);
                lines.truncate(difference.frame + 1);
                text += &shortened(lines, ending, options.budget, other)?;
                return Ok(Compared { text, agreed: false });
            }
            sessions += 1;
            frames += lines.len();
        }
    }
    if frames == 0 {
        return Err("no frame was played".to_string());
    }
    text += &format!("{sessions} sessions with {frames} frames: no difference\n");
    text += &reach.lines();
    let missing = reach.missing();
    for name in &missing {
        text += &format!("never reached: {name}\n");
    }
    Ok(Compared { text, agreed: missing.is_empty() || options.partial })
}

/// The profile `wrap` needs long sessions; among all profiles it is played once only.
fn seeds(options: &Options, profile: Profile) -> impl Iterator<Item = u64> + '_ {
    let once = profile == Profile::Wrap && options.profile.is_none();
    let count = if once { options.count.min(1) } else { options.count };
    (0..count).map(|index| options.seed.wrapping_add(index))
}

fn frames_of(options: &Options, profile: Profile) -> usize {
    let least = if profile == Profile::Wrap { WRAP_FRAMES } else { 0 };
    options.frames.max(least)
}

/// How a session ends: "A last line without line feed counts."
#[derive(Clone, Copy, Debug, PartialEq, Eq)]
pub enum Ending {
    LineFeed,
    NoLineFeed,
}

/// Sessions of even seeds end without a line feed; an empty last line needs its own.
fn ending_of(lines: &[Vec<u8>], seed: u64) -> Ending {
    if seed.is_multiple_of(2) && lines.last().is_some_and(|line| !line.is_empty()) {
        Ending::NoLineFeed
    } else {
        Ending::LineFeed
    }
}

/// Lines with line feeds between them, and one at the end or not.
pub fn session_text(lines: &[Vec<u8>], ending: Ending) -> Vec<u8> {
    let mut text = Vec::new();
    for line in lines {
        text.extend(line);
        text.push(b'\n');
    }
    if ending == Ending::NoLineFeed {
        text.pop();
    }
    text
}

/// Compares the answers to a session line by line. Bytes after the last answer, a line feed that is
/// missing and a program that ends badly are differences too.
fn first_difference(ours: &[Vec<u8>], theirs: &Played) -> Option<Difference> {
    let mut lines = theirs.answers.split_inclusive(|&character| character == b'\n');
    for (frame, ours) in ours.iter().enumerate() {
        let theirs = lines.next().unwrap_or_default();
        if theirs.strip_suffix(b"\n") != Some(ours) {
            return Some(Difference { frame, ours: shown(ours), theirs: shown(theirs) });
        }
    }
    let rest = lines.next().map(shown);
    let ending = if theirs.ended_well { None } else { Some("a bad end of the program".to_string()) };
    let theirs = rest.or(ending)?;
    Some(Difference { frame: ours.len(), ours: "nothing more".to_string(), theirs })
}

/// An answer as it is shown: without its line feed, and with strange characters made visible.
fn shown(answer: &[u8]) -> String {
    match answer.strip_suffix(b"\n") {
        Some(answer) => answer.escape_ascii().to_string(),
        None if answer.is_empty() => "no answer".to_string(),
        None => answer.escape_ascii().to_string(),
    }
}

/// Names the frame with both answers.
fn told(lines: &[Vec<u8>], difference: &Difference) -> String {
    let line = lines.get(difference.frame).map_or("after the last frame".to_string(), |line| {
        format!("frame {}: {}", difference.frame + 1, cut(&line.escape_ascii().to_string()))
    });
    let (ours, theirs) = (cut(&difference.ours), cut(&difference.theirs));
    format!("{line}\n  this program   {ours}\n  other program  {theirs}\n")
}

/// A long text is shown by its beginning and its length.
fn cut(text: &str) -> String {
    const LONGEST: usize = 200;
    let beginning: String = text.chars().take(LONGEST).collect();
    let length = text.chars().count();
    if length > LONGEST {
        format!("{beginning}... ({length} characters)")
    } else {
        beginning
    }
}

/// The differing session shortened, each frame with this program's answer.
fn shortened(lines: Vec<Vec<u8>>, ending: Ending, budget: u64, other: Player) -> Result<String, String> {
    // A line feed at the end is left out only if the difference needs it.
    let plain = difference_of(&lines, Ending::LineFeed, other)?.is_some();
    let ending = if plain { Ending::LineFeed } else { ending };
    let mut complaint = None;
    let lines = shorten(lines, budget, |lines| match difference_of(lines, ending, other) {
        Ok(difference) => difference.map(|difference| difference.frame),
        Err(error) => {
            complaint = Some(error);
            None
        }
    });
    if let Some(complaint) = complaint {
        return Err(complaint);
    }
    let mut text = format!("shortened to {} frames, with this program's answers:\n", lines.len());
    for (line, answer) in lines.iter().zip(our_answers(&lines, ending)) {
        text += &format!("{}  {}\n", line.escape_ascii(), answer.escape_ascii());
    }
    match difference_of(&lines, ending, other)? {
        Some(difference) => text += &told(&lines, &difference),
        None => text += "the other program is not the same from run to run\n",
    }
    Ok(text)
}

/// The first difference of the programs on the lines.
fn difference_of(lines: &[Vec<u8>], ending: Ending, other: Player) -> Result<Option<Difference>, String> {
    Ok(first_difference(&our_answers(lines, ending), &other(&session_text(lines, ending))?))
}

fn our_answers(lines: &[Vec<u8>], ending: Ending) -> Vec<Vec<u8>> {
    let answers = answers_to(&session_text(lines, ending));
    let answers = answers.split_inclusive(|&character| character == b'\n');
    answers.map(|answer| answer[..answer.len() - 1].to_vec()).collect()
}

#[cfg(test)]
mod tests {
    use super::*;
    use crate::channel::{Channel, Position, Turn, UNITS};
    use crate::file::{Block, Direction, File};
    use crate::frame::answer_line;
    use crate::pack::{Pack, CHANNELS};
    use crate::routine::Program;
    use crate::session::new_pack;

    fn rightly(session: &[u8]) -> Result<Played, String> {
        Ok(Played { answers: answers_to(session), ended_well: true })
    }

    /// A wrong copy of the program: after every line a mistake is made in its state.
    fn wrongly(session: &[u8], mistake: impl Fn(&mut Pack)) -> Result<Played, String> {
        let mut pack = new_pack();
        let mut answers = Vec::new();
        for line in session.split_inclusive(|&character| character == b'\n') {
            answers.extend(answer_line(&mut pack, line.strip_suffix(b"\n").unwrap_or(line)));
            answers.push(b'\n');
            mistake(&mut pack);
        }
        Ok(Played { answers, ended_well: true })
    }

    /// The mistake is found, and the session that shows it is short.
    fn is_found(name: &str, mistake: impl Fn(&mut Pack), longest: usize) {
        let options = Options { count: 2, budget: 1_000_000, ..Options::default() };
        let compared = compare(&options, &|session| wrongly(session, &mistake)).expect("a comparison");
        assert!(!compared.agreed, "{name}");
        assert!(compared.text.contains(": the programs differ\nframe "), "{name}");
        let length = compared.text.split("shortened to ").nth(1).and_then(|rest| rest.split(' ').next());
        let length: usize = length.and_then(|length| length.parse().ok()).expect("a length");
        assert!((2..=longest).contains(&length), "{name}: {length} frames");
    }

    fn each_file(pack: &mut Pack, change: impl Fn(&mut File)) {
        pack.files.iter_mut().flatten().for_each(change);
    }

    #[test]
    fn the_program_agrees_with_itself_and_everything_is_reached() {
        let compared = compare(&Options::default(), &rightly).expect("a comparison");
        assert!(compared.agreed, "{}", compared.text);
        assert!(!compared.text.contains("never reached"));
    }

    #[test]
    fn what_is_never_reached_fails_unless_it_may() {
        let options = Options { profile: Some(Profile::Blocks), frames: 200, count: 1, ..Options::default() };
        let compared = compare(&options, &rightly).expect("a comparison");
        assert!(!compared.agreed);
        assert!(compared.text.contains("never reached: result 5"));
        let compared = compare(&Options { partial: true, ..options }, &rightly).expect("a comparison");
        assert!(compared.agreed);
    }

    #[test]
    fn a_scan_always_from_unit_0_is_found() {
        let mistake = |pack: &mut Pack| pack.channels.iter_mut().for_each(|channel| channel.scan_begin = 0);
        is_found("scan", mistake, 14);
    }

    /// The lowest unit first, one mark for both kinds, and a mark that a freeze forgets.
    #[test]
    fn wrong_turns_of_priority_requests_are_found() {
        let each_channel =
            |pack: &mut Pack, change: fn(&mut Channel)| pack.channels.iter_mut().for_each(change);
        is_found("lowest", |pack| each_channel(pack, |channel| channel.priority_begin = 0), 14);
        is_found(
            "one mark",
            |pack| each_channel(pack, |channel| channel.priority_begin = channel.scan_begin),
            16,
        );
        let forgets = |channel: &mut Channel| {
            if channel.frozen && channel.working_unit().is_none() {
                channel.priority_begin = 0;
            }
        };
        is_found("freeze", |pack| each_channel(pack, forgets), 18);
    }

    /// What get tells is worked out anew with the number of now; and a sum that is not chosen is left out.
    #[test]
    fn telling_what_was_not_found_at_delivery_is_found() {
        let by_the_number_of_now = |file: &mut File| {
            let number = file.number;
            file.full.iter_mut().for_each(|block| block.found.number = number);
        };
        is_found("number of now", |pack| each_file(pack, by_the_number_of_now), 8);
        let without_sum = |file: &mut File| {
            if !file.chosen.check {
                file.full.iter_mut().for_each(|block| block.found.sum = 0);
            }
        };
        is_found("sum not chosen", |pack| each_file(pack, without_sum), 8);
    }

    /// Wrong ways with blocks that are kept: none is kept, their error is not told, it is told of the other
    /// kind, after the check error, or each time again.
    #[test]
    fn wrong_ways_with_kept_blocks_are_found() {
        let each_block = |pack: &mut Pack, change: fn(&mut Block)| {
            each_file(pack, |file| file.full.iter_mut().for_each(change))
        };
        let not_kept = |file: &mut File| file.full.retain(|block| block.read_error == 0);
        is_found("not kept", |pack| each_file(pack, not_kept), 14);
        is_found("not told", |pack| each_block(pack, |block| block.read_error = 0), 14);
        let other = |block: &mut Block| block.read_error = block.read_error.min(4);
        is_found("other kind", |pack| each_block(pack, other), 14);
        let after = |block: &mut Block| {
            if block.read_error != 0 && block.error != 0 {
                std::mem::swap(&mut block.read_error, &mut block.error);
            }
        };
        is_found("after the check error", |pack| each_block(pack, after), 14);
        let told_with_it = |block: &mut Block| {
            if block.read_error != 0 {
                block.error = 0;
            }
        };
        is_found("told with it", |pack| each_block(pack, told_with_it), 14);
    }

    /// Noise that is forgotten, records that are not counted past two, and noise records that are always passed.
    #[test]
    fn wrong_ways_with_reels_are_found() {
        let each_position = |pack: &mut Pack, change: fn(&mut Position)| {
            pack.channels.iter_mut().flat_map(|channel| &mut channel.positions).for_each(change);
        };
        is_found("noise forgotten", |pack| each_position(pack, |position| position.noise_met = false), 40);
        is_found(
            "records",
            |pack| each_position(pack, |position| position.records = position.records.min(2)),
            40,
        );
        is_found("all noise", |pack| each_position(pack, |position| position.noise_met = true), 40);
        let always = |pack: &mut Pack| {
            let requests = pack.channels.iter_mut().flat_map(|channel| channel.requests.iter_mut().flatten());
            requests.for_each(|request| request.noise = 0);
        };
        is_found("always passed", always, 250);
    }

    /// Wrong ways with special routines: dropped by a close, by a freeze, or with a displaced request; entered twice;
    /// a list of three, of no end, or without the main program; a priority that is forgotten.
    #[test]
    fn wrong_ways_with_routines_are_found() {
        let dropped_by_close = |pack: &mut Pack| {
            for channel in 0..CHANNELS {
                for unit in 0..UNITS {
                    if pack.file_of_unit(channel as u64, unit as u64).is_none() {
                        pack.channels[channel].waiting[unit] = None;
                    }
                }
            }
        };
        is_found("close", dropped_by_close, 20);
        let each_channel = |pack: &mut Pack, change: fn(&mut Channel)| {
            pack.channels.iter_mut().for_each(change);
        };
        let not_in_a_freeze = |channel: &mut Channel| {
            if channel.frozen {
                channel.waiting = Default::default();
            }
        };
        is_found("freeze", |pack| each_channel(pack, not_in_a_freeze), 20);
        let not_when_displaced = |channel: &mut Channel| {
            for unit in 0..UNITS {
                if channel.requests[unit].as_ref().is_some_and(|request| request.turn == Turn::Displaced) {
                    channel.named[unit] = None;
                }
            }
        };
        is_found("displaced", |pack| each_channel(pack, not_when_displaced), 20);
        let twice = |pack: &mut Pack| {
            if let Program::Special(entered) = pack.running() {
                pack.channels[entered.channel].waiting[entered.unit] = Some(entered.routine);
            }
        };
        is_found("twice", twice, 20);
        let list_of_three = |pack: &mut Pack| {
            if pack.schedule.pushed.len() > 3 {
                let runs = pack.schedule.pushed.pop().expect("a program");
                pack.schedule.runs = runs;
            }
        };
        is_found("three", list_of_three, 40);
        let without_main = |pack: &mut Pack| pack.schedule.pushed.retain(|program| *program != Program::Main);
        is_found("main", without_main, 30);
        let level_forgotten = |pack: &mut Pack| {
            if let Program::Special(entered) = &mut pack.schedule.runs {
                entered.routine.level = 0;
            }
        };
        is_found("level", level_forgotten, 20);
    }

    #[test]
    fn counting_a_displaced_operation_from_one_again_is_found() {
        let mistake = |pack: &mut Pack| {
            let requests = pack.channels.iter_mut().flat_map(|channel| channel.requests.iter_mut().flatten());
            requests
                .filter(|request| request.turn == Turn::Displaced)
                .for_each(|request| request.attempt = 1);
        };
        is_found("attempts", mistake, 40);
        let mistake = |pack: &mut Pack| {
            let requests = pack.channels.iter_mut().flat_map(|channel| channel.requests.iter_mut().flatten());
            requests
                .filter(|request| request.turn == Turn::Displaced)
                .for_each(|request| request.incomplete_words = 0);
        };
        is_found("incomplete words", mistake, 40);
    }

    #[test]
    fn losing_the_priority_of_a_stopped_operation_is_found() {
        let mistake = |pack: &mut Pack| {
            for channel in pack.channels.iter_mut().filter(|channel| channel.frozen) {
                let requests = channel.requests.iter_mut().flatten();
                requests
                    .filter(|request| request.turn == Turn::Displaced)
                    .for_each(|request| request.priority = false);
            }
        };
        is_found("priority", mistake, 20);
    }

    #[test]
    fn emptying_a_used_up_buffer_early_is_found() {
        is_found("used up", |pack| each_file(pack, |file| file.full.retain(|block| !block.used_up())), 10);
    }

    #[test]
    fn taking_the_lower_buffer_for_the_older_is_found() {
        let by_buffer =
            |file: &mut File| file.full.make_contiguous().sort_by_key(|block: &Block| block.buffer);
        is_found("oldest", |pack| each_file(pack, by_buffer), 16);
    }

    #[test]
    fn forgetting_the_file_mark_is_found() {
        is_found("mark", |pack| each_file(pack, |file| file.mark_read = false), 8);
    }

    #[test]
    fn block_numbers_that_stay_are_found() {
        let stay = |file: &mut File| {
            if file.direction == Direction::Input {
                file.number = 1;
            }
        };
        is_found("numbers", |pack| each_file(pack, stay), 10);
    }

    #[test]
    fn passing_from_32767_to_1_is_found() {
        let to_1 = |file: &mut File| file.number += u64::from(file.number == 0);
        is_found("wrap", |pack| each_file(pack, to_1), 110_000);
    }

    #[test]
    fn a_freeze_that_misses_a_channel_is_found() {
        let mistake = |pack: &mut Pack| {
            pack.channels[3].frozen = false;
            pack.channels[3].start_if_idle();
        };
        is_found("freeze", mistake, 8);
    }

    fn lines(lines: &[&str]) -> Vec<Vec<u8>> {
        lines.iter().map(|line| line.as_bytes().to_vec()).collect()
    }

    fn difference(theirs: &[u8], ended_well: bool) -> Option<(usize, String, String)> {
        let ours = lines(&["00", "0B", "01"]);
        let theirs = Played { answers: theirs.to_vec(), ended_well };
        first_difference(&ours, &theirs).map(|found| (found.frame, found.ours, found.theirs))
    }

    #[test]
    fn the_first_difference_is_named() {
        let named = |frame, ours: &str, theirs: &str| Some((frame, ours.to_string(), theirs.to_string()));
        assert_eq!(difference(b"00\n0B\n01\n", true), None);
        assert_eq!(difference(b"00\n0b\n02\n", true), named(1, "0B", "0b"));
        assert_eq!(difference(b"00\n0B\n", true), named(2, "01", "no answer"));
        assert_eq!(difference(b"", true), named(0, "00", "no answer"));
        assert_eq!(difference(b"00\n0B\n01", true), named(2, "01", "01"));
        assert_eq!(difference(b"00\n0B\r\n01\n", true), named(1, "0B", "0B\\r"));
        assert_eq!(difference(b"00\n0B\n01\n\n", true), named(3, "nothing more", ""));
        assert_eq!(difference(b"00\n0B\n01\n", false), named(3, "nothing more", "a bad end of the program"));
    }

    #[test]
    fn sessions_of_even_seeds_end_without_line_feed() {
        let session = lines(&["09", "0A"]);
        assert_eq!(session_text(&session, ending_of(&session, 1)), b"09\n0A\n");
        assert_eq!(session_text(&session, ending_of(&session, 2)), b"09\n0A");
        let session = lines(&["09", ""]);
        assert_eq!(session_text(&session, ending_of(&session, 2)), b"09\n\n");
    }

    #[test]
    fn a_program_that_drops_a_last_line_without_line_feed_is_found() {
        let other = |session: &[u8]| {
            let end = session.iter().rposition(|&character| character == b'\n').map_or(0, |place| place + 1);
            rightly(&session[..end])
        };
        let compared = compare(&Options { count: 2, ..Options::default() }, &other).expect("a comparison");
        assert!(!compared.agreed);
        assert!(compared.text.contains("other program  no answer"));
        assert!(compared.text.contains("shortened to 1 frames"));
    }

    #[test]
    fn a_shortened_session_is_shown_with_both_answers() {
        let other = |session: &[u8]| {
            let text = String::from_utf8_lossy(&answers_to(session)).replace("\n0A\n", "\n0C\n");
            Ok(Played { answers: text.into_bytes(), ended_well: true })
        };
        let compared = compare(&Options::default(), &other).expect("a comparison");
        assert!(!compared.agreed);
        let text = compared.text.split("shortened to ").nth(1).expect("a shortened session");
        let shown: Vec<&str> = text.lines().collect();
        // Fresh, open, ask, the mark, and the ask that is refused 10.
        assert!(shown[0].starts_with("5 frames"), "{text}");
        assert!(shown[1].starts_with("00") && shown[1].ends_with("  00"));
        assert!(shown[5].ends_with("  0A"));
        assert!(shown[6].starts_with("frame 5: 03"));
        assert_eq!(shown[7..], ["  this program   0A", "  other program  0C"]);
    }

    #[test]
    fn playing_nothing_is_a_complaint() {
        let options = Options { count: 0, partial: true, ..Options::default() };
        assert!(compare(&options, &rightly).is_err());
        let options = Options { profile: Some(Profile::Mixed), frames: 0, ..options };
        assert!(compare(&options, &rightly).is_err());
    }

    #[test]
    fn a_complaint_about_the_other_program_is_passed_on() {
        let other = |_: &[u8]| Err("gone".to_string());
        assert_eq!(compare(&Options::default(), &other).err().as_deref(), Some("gone"));
    }
}
