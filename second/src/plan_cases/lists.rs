//! Random lists: which files are opened and closed, right or wrong, and under which limit.

use super::needed;
use crate::plan_list::{Opening, LAST_FILE, MOST_LIMIT, MOST_OPENINGS, NEVER};
use crate::random::Random;

/// A line of a list after its limit.
#[derive(Clone, Copy, Debug, PartialEq, Eq)]
enum Step {
    Open { file: u64, double: bool },
    Close { file: u64 },
}

/// A list that is right but for its limit, which is not drawn yet.
#[derive(Clone, Debug)]
pub struct DrawnList {
    steps: Vec<Step>,
}

/// Draws a list: of any length, with few files or many, of which few or many are open at once.
pub fn draw(random: &mut Random) -> DrawnList {
    let most_openings = random.pick(&[1, 2, 3, 5, 8, 20, 40, MOST_OPENINGS, MOST_OPENINGS]);
    let files = random.pick(&[1, 2, 4, 10, LAST_FILE + 1, LAST_FILE + 1, LAST_FILE + 1]);
    let opens_in_ten = random.pick(&[5, 6, 8, 9, 10]);
    let doubles_in_four = random.pick(&[0, 1, 2, 2, 4]);
    let length = random.between(0, 2 * most_openings as u64 + 2);
    let mut drawn = DrawnList { steps: Vec::new() };
    for _ in 0..length {
        let open = drawn.open_files();
        let closed: Vec<u64> = (0..files).filter(|file| !open.contains(file)).collect();
        let may_open = drawn.openings().len() < most_openings && !closed.is_empty();
        if may_open && (open.is_empty() || random.chance(opens_in_ten, 10)) {
            let double = random.chance(doubles_in_four, 4);
            drawn.steps.push(Step::Open { file: random.pick(&closed), double });
        } else if !open.is_empty() {
            drawn.steps.push(Step::Close { file: random.pick(&open) });
        }
    }
    drawn
}

impl DrawnList {
    /// The files that are open after all steps.
    fn open_files(&self) -> Vec<u64> {
        let open = self.openings().into_iter().filter(|opening| opening.closed == NEVER);
        open.map(|opening| opening.file).collect()
    }

    pub fn openings(&self) -> Vec<Opening> {
        let mut openings: Vec<Opening> = Vec::new();
        for (index, step) in self.steps.iter().enumerate() {
            let time = index + 2;
            match *step {
                Step::Open { file, double } => {
                    openings.push(Opening { file, double, opened: time, closed: NEVER });
                }
                Step::Close { file } => {
                    let opened = openings.iter_mut().rfind(|opening| opening.file == file);
                    opened.into_iter().for_each(|opening| opening.closed = time);
                }
            }
        }
        openings
    }

    /// Mostly a limit that is just enough, has some room or is just too small, else any.
    pub fn limit(&self, random: &mut Random) -> u64 {
        let needed = needed(&self.openings());
        let near = random.pick(&[needed, needed, needed + 1, needed + 5, needed - 1]);
        let any = random.between(1, MOST_LIMIT);
        let limit = if random.chance(3, 5) { near } else { random.pick(&[any, any, MOST_LIMIT, 0, 65]) };
        limit.min(MOST_LIMIT + 1)
    }

    pub fn text(&self, limit: u64) -> Vec<u8> {
        let mut text = format!("{limit}\n");
        for step in &self.steps {
            text += &step_text(*step);
        }
        text.into_bytes()
    }

    /// The list with a step in it that cannot be taken there, or with more openings than there may be.
    pub fn spoilt_text(&self, random: &mut Random) -> Vec<u8> {
        let mut spoilt = self.clone();
        let at = random.below(spoilt.steps.len() as u64 + 1) as usize;
        let before = DrawnList { steps: spoilt.steps[..at].to_vec() }.open_files();
        let closed: Vec<u64> = (0..=LAST_FILE).filter(|file| !before.contains(file)).collect();
        let double = random.chance(1, 2);
        let wrong = match random.below(5) {
            0 if !before.is_empty() => Step::Open { file: random.pick(&before), double },
            1 if !closed.is_empty() => Step::Close { file: random.pick(&closed) },
            2 => Step::Open { file: random.pick(&[64, 65, 127, 128, 255, 256, 1_000]), double },
            3 => Step::Close { file: random.pick(&[64, 255, 256, 320]) },
            _ => return self.overfull_text(random),
        };
        spoilt.steps.insert(at, wrong);
        spoilt.text(self.limit(random).max(1))
    }

    /// The list with 65 to 70 openings, and all files closed before each of those that are added.
    fn overfull_text(&self, random: &mut Random) -> Vec<u8> {
        let mut overfull = self.clone();
        let openings = random.between(65, 70) as usize;
        while overfull.openings().len() < openings {
            let open = overfull.open_files();
            overfull.steps.extend(open.into_iter().map(|file| Step::Close { file }));
            overfull.steps.push(Step::Open { file: random.below(64), double: random.chance(1, 2) });
        }
        overfull.text(self.limit(random).max(1))
    }
}

fn step_text(step: Step) -> String {
    match step {
        Step::Open { file, double: false } => format!("open {file} single\n"),
        Step::Open { file, double: true } => format!("open {file} double\n"),
        Step::Close { file } => format!("close {file}\n"),
    }
}

#[cfg(test)]
mod tests {
    use super::*;
    use crate::plan_list::read_list;

    #[test]
    fn drawn_lists_are_right_and_spoilt_ones_are_not() {
        for seed in 0..500 {
            let mut random = Random::new(seed);
            let drawn = draw(&mut random);
            let list = read_list(&drawn.text(MOST_LIMIT)).expect("a list");
            assert_eq!(list.openings, drawn.openings());
            assert!(read_list(&drawn.spoilt_text(&mut random)).is_err());
        }
    }
}
