//! Whole sessions: the proved player against the second program, each on the same file, by turns.

use crate::{clock, row};
use second::generate::Generator;
use second::profile::Profile;
use std::fs::{self, File};
use std::path::{Path, PathBuf};
use std::process::{Command, Stdio};

const PROFILES: [&str; 6] = ["mixed", "retries", "turns", "blocks", "malformed", "refusals"];
const SEED: u64 = 5;

/// Prints a row for each profile.
pub fn measure(runs: usize, frames: usize, play: &str, second: &str) -> Result<(), String> {
    let room = std::env::temp_dir().join(format!("plorrettix-measure-{}", std::process::id()));
    fs::create_dir_all(&room).map_err(|error| error.to_string())?;
    let done =
        PROFILES.iter().try_for_each(|profile| measure_one(&room, runs, frames, profile, play, second));
    fs::remove_dir_all(&room).map_err(|error| error.to_string())?;
    done
}

fn measure_one(
    room: &Path,
    runs: usize,
    frames: usize,
    name: &str,
    play: &str,
    second: &str,
) -> Result<(), String> {
    let session = room.join("session");
    let profile = Profile::of(name).ok_or(format!("no profile `{name}`"))?;
    let mut generator = Generator::new(profile, SEED);
    let mut text = Vec::new();
    for _ in 0..frames {
        text.extend_from_slice(&generator.next_line());
        text.push(b'\n');
    }
    fs::write(&session, &text).map_err(|error| error.to_string())?;
    let (ours, theirs) = (room.join("ours"), room.join("theirs"));
    let (mut our_best, mut their_best) = (f64::MAX, f64::MAX);
    for _ in 0..runs {
        our_best = our_best.min(timed(play, &session, &ours)?);
        their_best = their_best.min(timed(second, &session, &theirs)?);
    }
    let read = |path: &PathBuf| fs::read(path).map_err(|error| error.to_string());
    if read(&ours)? != read(&theirs)? {
        return Err(format!("the answers to the session {name} differ"));
    }
    row(&format!("{frames} frames, {name}"), our_best, their_best);
    Ok(())
}

/// The user seconds of one run.
fn timed(command: &str, session: &Path, answers: &Path) -> Result<f64, String> {
    let complaint = |error: std::io::Error| format!("`{command}`: {error}");
    let mut words = command.split_whitespace();
    let program = words.next().ok_or("no command is named")?;
    let before = clock::children();
    let status = Command::new(program)
        .args(words)
        .stdin(Stdio::from(File::open(session).map_err(complaint)?))
        .stdout(Stdio::from(File::create(answers).map_err(complaint)?))
        .status()
        .map_err(complaint)?;
    if !status.success() {
        return Err(format!("`{command}` ended with {status}"));
    }
    Ok(clock::children() - before)
}
