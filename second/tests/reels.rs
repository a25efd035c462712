//! The subcommands on reels, run as a user runs them.

use std::fs;
use std::io::Write;
use std::path::PathBuf;
use std::process::{Command, Output, Stdio};

use second::reel::{show_image, Form, Written};
use second::reel_cases::{image_case, text_case};
use second::reel_make::{make_image, Parity};

/// Runs the program with an input that is smaller than what a pipe holds, or that it reads whole.
fn second(arguments: &[&str], input: &[u8]) -> Output {
    let mut child = Command::new(env!("CARGO_BIN_EXE_second"))
        .args(arguments)
        .stdin(Stdio::piped())
        .stdout(Stdio::piped())
        .stderr(Stdio::piped())
        .spawn()
        .expect("the program starts");
    child.stdin.take().expect("an input").write_all(input).expect("written");
    child.wait_with_output().expect("the program ends")
}

/// What the program writes, its refusal and its status.
fn gives(arguments: &[&str], input: &[u8], expected: &Written) {
    let output = second(arguments, input);
    let refusal = expected.refusal.as_ref().map(|text| format!("{text}\n")).unwrap_or_default();
    assert_eq!(output.stdout, expected.output, "{arguments:?}");
    assert_eq!(String::from_utf8(output.stderr).expect("text"), refusal, "{arguments:?}");
    assert_eq!(output.status.code(), Some(i32::from(expected.refusal.is_some())));
}

#[test]
fn a_text_and_its_image() {
    let text = "00000000010FFFFFFFFF\nMARK\n";
    let image = second(&["reel", "make"], text.as_bytes()).stdout;
    assert_eq!(image.len(), 24);
    let says = |arguments: &[&str], output: &str| {
        gives(arguments, &image, &Written { output: output.into(), refusal: None });
    };
    says(&["reel", "words"], text);
    says(&["reel", "octal"], "000000000001 777777777777\nMARK\n");
    says(&["reel", "list"], "1 block 2 words\n2 mark\nend, 24 bytes\n");
    assert_ne!(second(&["reel", "make", "--bcd"], text.as_bytes()).stdout, image);
}

#[test]
fn a_refusal_follows_what_was_made() {
    let output = "1 mark\n".to_string().into_bytes();
    let refusal = Some("refused 21 at byte 4: the record is cut".to_string());
    gives(&["reel", "list"], &[0, 0, 0, 0, 6], &Written { output, refusal });
    let refusal = Some("refused 13 at line 2: a block has 1 to 1,024 words".to_string());
    gives(&["reel", "make"], b"MARK\n\nMARK\n", &Written { output: vec![0; 4], refusal });
}

/// Standard output and error as texts, and the status.
fn says(arguments: &str, input: &[u8]) -> (Vec<u8>, String, Option<i32>) {
    let output = second(&arguments.split(' ').collect::<Vec<&str>>(), input);
    (output.stdout, String::from_utf8(output.stderr).expect("text"), output.status.code())
}

/// A room posts a reel, another checks it, and a bit is changed on the way.
#[test]
fn a_reel_is_written_and_read_through_the_pack() {
    let sizes = "--block 4 --record 2 --sequence --check";
    let text = "00000000010000000002\n00000000030000000004\n00000000050000000006\nMARK\n";
    let (image, said, status) = says(&format!("reel write {sizes}"), text.as_bytes());
    assert_eq!((said.as_str(), status), ("", Some(0)));
    assert_eq!(says("reel list", &image).0, b"1 block 5 words\n2 block 3 words\n3 mark\nend, 68 bytes\n");
    let counted = "reel: files 1, blocks 2, records 3, errors 0\n".to_string();
    assert_eq!(says(&format!("reel read {sizes}"), &image), (text.into(), counted, Some(0)));
    let bcd = says(&format!("reel write --bcd {sizes}"), text.as_bytes()).0;
    assert_ne!(bcd, image);
    assert_eq!(says(&format!("reel read {sizes}"), &bcd).0, text.as_bytes());
    let mut changed = image.clone();
    changed[9] ^= 1;
    let (given, said, status) = says(&format!("reel read {sizes}"), &changed);
    let first = "ERROR block 1 of the reel: check sum. Number due 1, read 1; sum of its words 000011, \
                 read 000012, octal. A word of it is not as it was sent.\n";
    let expected = format!("{first}{}", text.replacen("0000000001", "0000000000", 1));
    assert_eq!(String::from_utf8(given).expect("text"), expected);
    assert_eq!((said.as_str(), status), ("reel: files 1, blocks 2, records 3, errors 1\n", Some(1)));
}

#[test]
fn reels_through_the_pack_that_are_refused() {
    let (image, said, status) = says("reel write --block 1 --record 1", b"0000000001\n00\n");
    assert_eq!((image.len(), status), (14, Some(1)));
    assert_eq!(said, "refused 1 at line 2: this is no line of words\n");
    for arguments in ["reel write --block 1 --record 2", "reel read --block 1024 --record 1 --check"] {
        let (output, said, status) = says(arguments, b"");
        assert!(output.is_empty() && said.starts_with("refused 13: ") && status == Some(1), "{arguments}");
    }
    let (output, said, status) = says("reel read --block 2 --record 1", &[0, 0, 0, 0, 6]);
    assert_eq!((output, status), (b"MARK\n".to_vec(), Some(1)));
    assert_eq!(said, "refused 21 at byte 4: the record is cut\nreel: files 1, blocks 0, records 0, errors 1\n");
    for arguments in
        ["reel write", "reel read --block 2", "reel read --block 2 --record 1 --bcd", "reel read x"]
    {
        let (output, said, status) = says(arguments, b"");
        assert!(output.is_empty() && said.starts_with("second: ") && status == Some(2), "{arguments}");
    }
}

#[test]
fn reel_cases_are_written_and_answered() {
    let folder = PathBuf::from(env!("CARGO_TARGET_TMPDIR")).join("reel-cases");
    fs::create_dir_all(&folder).expect("a folder");
    let place = folder.to_str().expect("a name");
    assert!(second(&["reel-cases", place, "5", "90"], b"").status.success());
    for number in 1..=90 {
        let read = |end: &str| fs::read(folder.join(format!("{number}.{end}"))).expect("a file");
        let (image, text) = (read("tap"), read("text"));
        assert_eq!((&image, &text), (&image_case(5, number), &text_case(5, number)));
        for (name, form) in [("list", Form::List), ("words", Form::Words), ("octal", Form::Octal)] {
            gives(&["reel", name], &image, &show_image(&image, form));
        }
        gives(&["reel", "make"], &text, &make_image(&text, Parity::Odd));
        gives(&["reel", "make", "--bcd"], &text, &make_image(&text, Parity::Even));
    }
}

/// "`./reel words IMAGE | ./reel make` gives an image whose `words` are the same": of every case, up to
/// its fault, and in both modes.
#[test]
fn words_of_what_was_made_of_words() {
    for number in 1..=1_000 {
        let words = show_image(&image_case(6, number), Form::Words).output;
        for parity in [Parity::Odd, Parity::Even] {
            let made = make_image(&words, parity);
            assert_eq!(made.refusal, None);
            assert_eq!(
                show_image(&made.output, Form::Words),
                Written { output: words.clone(), refusal: None }
            );
        }
    }
}

#[test]
fn other_arguments_are_complaints() {
    for arguments in [&["reel"][..], &["reel", "read"], &["reel", "list", "--bcd"], &["reel", "make", "-b"]] {
        assert_eq!(second(arguments, b"").status.code(), Some(2), "{arguments:?}");
    }
    assert_eq!(second(&["reel-cases", "no such folder", "1", "1"], b"").status.code(), Some(2));
}
