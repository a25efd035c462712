//! The subcommand `bench`: times another program and this one on the same session.

use std::time::{Duration, Instant};

use crate::compare::{session_text, Ending};
use crate::generate::session_of;
use crate::profile::Profile;
use crate::program::play_with;

/// "a million frames".
pub const BENCH_FRAMES: usize = 1_000_000;
/// Each program plays so often; its best time counts.
const RUNS: usize = 3;

/// Times both commands on a mixed session and tells the ratio of their best times.
pub fn bench(other: &[String], own: &[String], frames: usize) -> Result<String, String> {
    let session = session_text(&session_of(Profile::Mixed, 1, frames), Ending::LineFeed);
    let mut best = [Duration::MAX; 2];
    let mut answers = Vec::new();
    for _ in 0..RUNS {
        for (place, command) in [other, own].into_iter().enumerate() {
            let start = Instant::now();
            let played = play_with(command, &session)?;
            best[place] = best[place].min(start.elapsed());
            if !played.ended_well {
                return Err(format!("`{}` ended badly", command.join(" ")));
            }
            answers.push(played.answers);
        }
    }
    if answers.iter().any(|given| *given != answers[0]) {
        return Err("the answers differ; see `second compare`".to_string());
    }
    let [other, own] = best.map(|time| time.as_secs_f64());
    Ok(format!(
        "{frames} frames, {} bytes, best of {RUNS} runs each\n\
         other program  {other:.3} s\nthis program   {own:.3} s\nratio          {:.2}\n",
        session.len(),
        other / own
    ))
}

#[cfg(all(test, unix))]
mod tests {
    use super::*;

    fn command(words: &[&str]) -> Vec<String> {
        words.iter().map(|word| word.to_string()).collect()
    }

    #[test]
    fn both_times_and_their_ratio_are_told() {
        let text = bench(&command(&["cat"]), &command(&["cat"]), 50).expect("times");
        assert!(text.starts_with("50 frames"));
        assert_eq!(text.lines().filter(|line| line.ends_with(" s")).count(), 2);
        assert!(text.lines().last().is_some_and(|line| line.starts_with("ratio")));
    }

    #[test]
    fn programs_that_differ_or_end_badly_are_complaints() {
        assert!(bench(&command(&["cat"]), &command(&["wc"]), 50).is_err());
        assert!(bench(&command(&["sh", "-c", "exit 1"]), &command(&["cat"]), 50).is_err());
    }
}
