//! Random sessions for sheets: those of the profiles, with fresh starts, refused ones and empty lines among
//! their frames.

use crate::compare::{session_text, Ending};
use crate::frame::{answer_line, line_of};
use crate::generate::Generator;
use crate::pack::Pack;
use crate::profile::{Action, Profile};
use crate::random::Random;
use crate::sheet::MOST_LISTED;

/// A short session has so many frames at most.
pub const MOST_FRAMES: usize = 400;

/// The profiles of the sessions; requests wait for one another most often in `turns`.
const PROFILES: [Profile; 11] = [
    Profile::Mixed,
    Profile::Retries,
    Profile::Turns,
    Profile::Turns,
    Profile::Turns,
    Profile::Blocks,
    Profile::Malformed,
    Profile::Refusals,
    Profile::Kept,
    Profile::Reel,
    Profile::Routines,
];

/// Fresh starts that are refused: no buffers, too many of them, no words, too many of them in a buffer or in
/// all, a unit that no channel has, and two frames that are malformed.
const REFUSED_FRESH_STARTS: [&str; 8] = [
    "0000000403FF03FF03FF03FF03FF",
    "0021000403FF03FF03FF03FF03FF",
    "0008000003FF03FF03FF03FF03FF",
    "0001040103FF03FF03FF03FF03FF",
    "0020008103FF03FF03FF03FF03FF",
    "0008000403FF03FF03FF03FF07FF",
    "0008000403FF03FF03FF03FF",
    "0008000403FF03FF03FF03FF03FF00",
];

/// A session of a few hundred frames, now and then of very few.
pub fn draw(random: &mut Random) -> Vec<u8> {
    let mut generator = Generator::new(random.pick(&PROFILES), random.number());
    let frames = match random.below(10) {
        0 => random.below(6),
        _ => random.between(60, MOST_FRAMES as u64),
    };
    let lines: Vec<Vec<u8>> = (0..frames).map(|_| next_line(random, &mut generator, 60)).collect();
    text_of(random, &lines)
}

/// A session with as many requests as a sheet lists, one less, or more; reports and empty lines follow the
/// last one.
pub fn draw_long(random: &mut Random) -> Vec<u8> {
    let more = random.between(1, 100) as usize;
    let wanted = random.pick(&[MOST_LISTED - 1, MOST_LISTED, MOST_LISTED + 1, MOST_LISTED + more]);
    let mut generator = Generator::new(Profile::Turns, random.number());
    let mut lines = Vec::new();
    let mut accepted = 0;
    while accepted < wanted {
        let before = waiting(&generator.pack);
        lines.push(next_line(random, &mut generator, 600));
        // An accepted ask alone makes the requests more.
        accepted += usize::from(waiting(&generator.pack) > before);
    }
    for _ in 0..random.below(60) {
        let report = generator.frame_for(Action::Report);
        let line = report.map_or(Vec::new(), |frame| line_of(&frame));
        lines.push(follow(&mut generator, line));
    }
    text_of(random, &lines)
}

/// The next line of a session; one in `rarely` is a fresh start, and others are refused ones and empty lines.
fn next_line(random: &mut Random, generator: &mut Generator, rarely: u64) -> Vec<u8> {
    let line = match random.below(rarely) {
        0 => line_of(&generator.fresh_frame()),
        1 | 2 => random.pick(&REFUSED_FRESH_STARTS).as_bytes().to_vec(),
        3 => Vec::new(),
        _ => return generator.next_line(),
    };
    follow(generator, line)
}

/// Lets the generator know of a line that it has not drawn.
fn follow(generator: &mut Generator, line: Vec<u8>) -> Vec<u8> {
    answer_line(&mut generator.pack, &line);
    line
}

/// How many requests are unanswered.
fn waiting(pack: &Pack) -> usize {
    pack.channels.iter().map(|channel| channel.requests.iter().flatten().count()).sum()
}

/// The text of the lines; one in three has no line feed at its end.
fn text_of(random: &mut Random, lines: &[Vec<u8>]) -> Vec<u8> {
    session_text(lines, random.pick(&[Ending::LineFeed, Ending::LineFeed, Ending::NoLineFeed]))
}

#[cfg(test)]
mod tests {
    use super::*;
    use crate::session::answers_to;

    #[test]
    fn refused_fresh_starts_are_refused_1() {
        for line in REFUSED_FRESH_STARTS {
            assert_eq!(answers_to(line.as_bytes()), b"01\n", "{line}");
        }
    }
}
