//! The stored files are what the program gives today.

use std::fs;
use std::path::Path;

use second::channel_events::channel_events;
use second::channel_player::answer_events;
use second::file_player::answer_walks;
use second::file_walks::file_walks;
use second::pack_cases::pack_cases;
use second::pack_player::answer_script;
use second::session::answers_to;
use second::text::lines_of;
use second::word_cases::word_cases;
use second::words::answer_cases;

/// The stored file of a program.
fn stored(folder: &str, name: &str) -> String {
    file(&format!("crates/{folder}/{name}"))
}

/// A file of the repository.
fn file(name: &str) -> String {
    let path = Path::new(env!("CARGO_MANIFEST_DIR")).join("..").join(name);
    fs::read_to_string(&path).unwrap_or_else(|error| panic!("{}: {error}", path.display()))
}

/// Compares line by line, so that a difference is named shortly.
fn assert_same_lines(stored: &str, given: &str) {
    for (index, (left, right)) in stored.lines().zip(given.lines()).enumerate() {
        assert_eq!(left, right, "line {}", index + 1);
    }
    assert_eq!(stored.len(), given.len());
}

#[test]
fn word_cases_are_stored() {
    assert_same_lines(&stored("word_cases", "stdin"), &lines_of(&word_cases()));
}

#[test]
fn answers_to_word_cases_are_stored() {
    let cases = stored("word_cases", "stdin");
    assert_same_lines(&stored("word_cases", "stdout"), &answer_cases(&cases).expect("cases"));
}

#[test]
fn channel_events_are_stored() {
    assert_same_lines(&stored("channel_events", "stdin"), &lines_of(&channel_events()));
}

#[test]
fn answers_to_channel_events_are_stored() {
    let events = stored("channel_events", "stdin");
    assert_same_lines(&stored("channel_events", "stdout"), &answer_events(&events).expect("events"));
}

#[test]
fn file_walks_are_stored() {
    assert_same_lines(&stored("file_walks", "stdin"), &lines_of(&file_walks()));
}

#[test]
fn answers_to_file_walks_are_stored() {
    let events = stored("file_walks", "stdin");
    assert_same_lines(&stored("file_walks", "stdout"), &answer_walks(&events).expect("events"));
}

#[test]
fn pack_cases_are_stored() {
    assert_same_lines(&stored("pack_cases", "stdin"), &lines_of(&pack_cases()));
}

#[test]
fn answers_to_pack_cases_are_stored() {
    let script = stored("pack_cases", "stdin");
    assert_same_lines(&stored("pack_cases", "stdout"), &answer_script(&script).expect("script"));
}

/// The names of the sessions of the pages.
fn sessions() -> Vec<String> {
    let folder = Path::new(env!("CARGO_MANIFEST_DIR")).join("../docs");
    let files = fs::read_dir(&folder).expect("the pages").map(|entry| entry.expect("a file").file_name());
    let names = files.filter_map(|name| name.to_str()?.strip_suffix(".session").map(str::to_string));
    names.collect()
}

/// The sessions of the pages, and the one that is stored with the program that plays them.
#[test]
fn answers_to_sessions_are_stored() {
    let sessions = sessions();
    assert!(sessions.len() >= 5, "{sessions:?}");
    let sessions =
        sessions.iter().map(|name| (format!("docs/{name}.session"), format!("docs/{name}.answers")));
    let program = ("crates/play/stdin".to_string(), "crates/play/stdout".to_string());
    for (session, answers) in sessions.chain([program]) {
        let given = String::from_utf8(answers_to(file(&session).as_bytes())).expect("digits");
        assert_same_lines(&file(&answers), &given);
    }
}
