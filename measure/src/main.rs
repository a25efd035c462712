//! Times the proved code against plain Rust, for `./bench`: sealing and checking blocks, linked into this program, and whole sessions, as programs of
//! their own. Both sides do the same work on the same words, and must come to the same result.

mod blocks;
mod clock;
mod sessions;

use std::process::ExitCode;

const HELP: &str = "\
usage: measure blocks RUNS                          sealing and checking
       measure sessions RUNS FRAMES PLAY SECOND     sessions of every profile; PLAY and SECOND are commands, words apart by blanks
";

fn main() -> ExitCode {
    let arguments: Vec<String> = std::env::args().skip(1).collect();
    let words: Vec<&str> = arguments.iter().map(String::as_str).collect();
    let done = match words[..] {
        ["blocks", runs] => number(runs).and_then(blocks::measure),
        ["sessions", runs, frames, play, second] => number(runs)
            .and_then(|runs| number(frames).and_then(|frames| sessions::measure(runs, frames, play, second))),
        _ => Err(HELP.to_string()),
    };
    match done {
        Ok(()) => ExitCode::SUCCESS,
        Err(complaint) => {
            eprintln!("measure: {complaint}");
            ExitCode::FAILURE
        }
    }
}

fn number(text: &str) -> Result<usize, String> {
    text.parse().ok().filter(|&n| n > 0).ok_or(format!("`{text}` is no number above 0"))
}

/// One row of the table: seconds of the proved code and of plain Rust, the best of their runs, and the ratio.
fn row(name: &str, ours: f64, theirs: f64) {
    println!("{name:<34} {ours:>9.4} {theirs:>9.4} {:>7.3}", ours / theirs);
}
