//! Plans of small lists against every proposal there is, and the planning subcommands as a user runs
//! them.

use std::collections::BTreeMap;
use std::fs;
use std::path::PathBuf;
use std::process::{Command, Stdio};

use second::plan::plan_text;
use second::plan_cases::plan_case;
use second::plan_check::check_texts;
use second::program::play_with;

/// A step of a small list: a file, and how many buffers it is opened with, or none for a closing.
type Step = (u64, usize);

/// Every small list is made of these.
const STEPS: [Step; 7] = [(0, 1), (0, 2), (0, 0), (1, 1), (1, 2), (1, 0), (2, 2)];
const MOST_STEPS: u32 = 4;
const LIMITS: [u64; 4] = [1, 2, 3, 4];

fn list_text(limit: u64, steps: &[Step]) -> String {
    let step_text = |&(file, count): &Step| match count {
        0 => format!("close {file}\n"),
        1 => format!("open {file} single\n"),
        _ => format!("open {file} double\n"),
    };
    format!("{limit}\n{}", steps.iter().map(step_text).collect::<String>())
}

/// Every list of so many steps.
fn lists_of(length: u32) -> impl Iterator<Item = Vec<Step>> {
    let choices = STEPS.len();
    (0..choices.pow(length))
        .map(move |code| (0..length).map(|place| STEPS[code / choices.pow(place) % choices]).collect())
}

/// Whether each closing closes an open file and each opening opens a closed one.
fn is_list(steps: &[Step]) -> bool {
    let mut open = Vec::new();
    steps.iter().all(|&(file, count)| {
        let was_open = open.contains(&file);
        open.retain(|&other| other != file);
        if count > 0 {
            open.push(file);
        }
        was_open == (count == 0)
    })
}

/// Plays a list with the buffers of a proposal: who holds which, step by step. True if no buffer is
/// ever held twice and no opening has the same one twice.
fn serves(steps: &[Step], proposal: &[Vec<u64>]) -> bool {
    let mut holders = BTreeMap::new();
    let mut proposed = proposal.iter();
    steps.iter().all(|&(file, count)| {
        if count == 0 {
            holders.retain(|_, holder| *holder != file);
            return true;
        }
        let buffers = proposed.next().expect("the buffers of an opening");
        buffers.iter().all(|&buffer| holders.insert(buffer, file).is_none())
    })
}

/// Every proposal of a size, with as many buffers for each opening as it asks for, in every order.
fn proposals_of(steps: &[Step], size: u64) -> Vec<Vec<Vec<u64>>> {
    let mut proposals = vec![Vec::new()];
    for count in steps.iter().map(|step| step.1).filter(|&count| count > 0) {
        let buffers: Vec<Vec<u64>> = match count {
            1 => (0..size).map(|buffer| vec![buffer]).collect(),
            _ => (0..size * size).map(|pair| vec![pair / size, pair % size]).collect(),
        };
        let longer = |proposal: &Vec<Vec<u64>>| -> Vec<Vec<Vec<u64>>> {
            buffers.iter().map(|own| [&proposal[..], std::slice::from_ref(own)].concat()).collect()
        };
        proposals = proposals.iter().flat_map(longer).collect();
    }
    proposals
}

fn proposal_text(steps: &[Step], size: u64, proposal: &[Vec<u64>]) -> String {
    let mut text = format!("size {size}\n");
    let openings = steps.iter().filter(|step| step.1 > 0);
    for ((file, _), buffers) in openings.zip(proposal) {
        let buffers: Vec<String> = buffers.iter().map(u64::to_string).collect();
        text += &format!("{file} {}\n", buffers.join(" "));
    }
    text
}

/// "The planner's own size is the smallest that any accepted proposal can have, or a refusal 19 exactly
/// if no proposal within the limit would be accepted": tried with every proposal of every size.
#[test]
fn the_size_is_the_smallest_of_all_that_serve() {
    let mut sizes = BTreeMap::<String, u64>::new();
    for steps in (0..=MOST_STEPS).flat_map(lists_of) {
        for limit in LIMITS {
            let answer = plan_text(list_text(limit, &steps).as_bytes());
            let first = answer.text.lines().next().unwrap_or_default().to_string();
            let expected = if is_list(&steps) {
                let serving = |size: &u64| proposals_of(&steps, *size).iter().any(|own| serves(&steps, own));
                (1..=limit).find(serving).map_or("refused 19".to_string(), |size| format!("size {size}"))
            } else {
                assert!(first.starts_with("refused 1 at line "), "{steps:?}: {first}");
                first.clone()
            };
            assert_eq!(first, expected, "limit {limit}: {steps:?}");
            *sizes.entry(first).or_default() += 1;
        }
    }
    for met in ["size 1", "size 2", "size 3", "size 4", "refused 19", "refused 1 at line 5"] {
        assert!(sizes[met] >= 10, "{sizes:?}");
    }
}

/// "it accepts every such one": a proposal is accepted exactly if it serves, whoever made it.
#[test]
fn the_check_accepts_exactly_what_serves() {
    let mut met = [0, 0];
    for steps in (0..=3).flat_map(lists_of).filter(|steps| is_list(steps)) {
        let list = list_text(3, &steps);
        for size in 1..=4 {
            for proposal in proposals_of(&steps, size) {
                let serves = size <= 3 && serves(&steps, &proposal);
                let text = proposal_text(&steps, size, &proposal);
                let answer = check_texts(list.as_bytes(), text.as_bytes());
                assert_eq!(answer.well, serves, "{list}{text}{}", answer.text);
                met[usize::from(serves)] += 1;
            }
        }
    }
    assert!(met.iter().all(|&count| count >= 300), "{met:?}");
}

/// The check accepts what the planner proposes, and a size smaller by one it never accepts.
#[test]
fn the_planners_proposals_are_accepted() {
    let mut planned = 0;
    for number in 1..=3_000 {
        let list = plan_case(2, number).list;
        let answer = plan_text(&list);
        let (size, rest) = answer.text.split_once('\n').expect("a line");
        let Some(size) = size.strip_prefix("size ") else {
            continue;
        };
        assert_eq!(check_texts(&list, answer.text.as_bytes()).text, "accepted\n");
        let smaller = format!("size {}\n{rest}", size.parse::<u64>().expect("a size") - 1);
        assert!(!check_texts(&list, smaller.as_bytes()).well);
        planned += 1;
    }
    assert!(planned > 500, "{planned}");
}

/// A folder of its own for a test.
fn folder(name: &str) -> PathBuf {
    let folder = PathBuf::from(env!("CARGO_TARGET_TMPDIR")).join(name);
    fs::create_dir_all(&folder).expect("a folder");
    folder
}

fn second(arguments: &[&str]) -> std::process::Output {
    let program = env!("CARGO_BIN_EXE_second");
    Command::new(program).args(arguments).stdin(Stdio::null()).output().expect("the program starts")
}

#[test]
fn plan_reads_standard_input_and_its_status_tells() {
    let plan = [env!("CARGO_BIN_EXE_second").to_string(), "plan".to_string()];
    let played = play_with(&plan, b"3\nopen 9 double\nopen 0 single\n").expect("answers");
    assert_eq!((played.answers, played.ended_well), (b"size 3\n9 0 1\n0 2\n".to_vec(), true));
    let played = play_with(&plan, b"2\nopen 9 double\nopen 0 single\n").expect("answers");
    assert_eq!((played.answers, played.ended_well), (b"refused 19\n".to_vec(), false));
    assert_eq!(second(&["plan"]).stdout, b"refused 1 at line 1\n");
    assert_eq!(second(&["plan"]).status.code(), Some(1));
    assert_eq!(second(&["plan", "more"]).status.code(), Some(2));
}

#[test]
fn plan_cases_are_written_and_checked() {
    let folder = folder("plan-cases");
    let place = folder.to_str().expect("a name");
    assert!(second(&["plan-cases", place, "5", "30"]).status.success());
    for number in 1..=30 {
        let file = |end: &str| folder.join(format!("{number}.{end}"));
        let names = ["list", "proposal"].map(|end| file(end).to_str().expect("a name").to_string());
        let case = plan_case(5, number);
        let written = names.each_ref().map(|name| fs::read(name).expect("a file"));
        assert_eq!(written, [case.list.clone(), case.proposal.clone()]);
        let output = second(&["plan-check", &names[0], &names[1]]);
        let expected = check_texts(&case.list, &case.proposal);
        assert_eq!(output.stdout, expected.text.as_bytes());
        assert_eq!(output.status.code(), Some(i32::from(!expected.well)));
    }
    let missing = second(&["plan-check", "no such list", "no such proposal"]);
    assert_eq!(missing.status.code(), Some(2));
    assert!(String::from_utf8_lossy(&missing.stderr).contains("no such list"));
    assert_eq!(second(&["plan-cases", "no such folder", "1", "1"]).status.code(), Some(2));
}
