//! State images (document 02, M-103), and the subcommands on them as a user runs them. What soundness and the page on
//! images say of a single byte is said here once more, byte by byte, for an image in which much stands.

use std::fs;
use std::path::PathBuf;
use std::process::{Command, Output, Stdio};

use second::frame::answer_line;
use second::generate::session_of;
use second::image::{image_of, is_good, pack_of_image, AREA_PLACE, IMAGE_BYTES};
use second::profile::{Profile, PROFILES};
use second::program::play_with;
use second::session::{answers_to, new_pack};

fn text_of(lines: &[Vec<u8>]) -> Vec<u8> {
    lines.iter().flat_map(|line| [&line[..], b"\n"].concat()).collect()
}

fn folder() -> PathBuf {
    let folder = PathBuf::from(env!("CARGO_TARGET_TMPDIR")).join("images");
    fs::create_dir_all(&folder).expect("a folder");
    folder
}

fn second(arguments: &[&str], input: &[u8]) -> Output {
    use std::io::Write;
    let program = env!("CARGO_BIN_EXE_second");
    let mut child = Command::new(program)
        .args(arguments)
        .stdin(Stdio::piped())
        .stdout(Stdio::piped())
        .stderr(Stdio::piped())
        .spawn()
        .expect("the program starts");
    // A program that complains of its arguments does not read.
    let _ = child.stdin.take().expect("an input").write_all(input);
    child.wait_with_output().expect("the program ends")
}

/// The answers of a session are the same if every line is answered by an image and a line alone.
#[test]
fn a_session_over_images_is_the_session() {
    for (name, profile) in PROFILES {
        let lines = session_of(profile, 31, 250);
        let mut image = image_of(&new_pack());
        let mut answers = Vec::new();
        for line in &lines {
            let mut pack = pack_of_image(&image).expect("a good image");
            answers.extend(answer_line(&mut pack, line));
            answers.push(b'\n');
            image = image_of(&pack);
        }
        assert!(answers == answers_to(&text_of(&lines)), "{name}");
    }
}

/// Two different good images are of different packs: every good image is that of its own pack.
#[test]
fn one_image_for_each_state() {
    for (_, profile) in PROFILES {
        let mut pack = new_pack();
        for line in session_of(profile, 33, 120) {
            answer_line(&mut pack, &line);
        }
        let right = image_of(&pack);
        let mut image = right.clone();
        for place in (0..AREA_PLACE).step_by(3).chain([AREA_PLACE, IMAGE_BYTES - 1]) {
            for bit in 0..8 {
                image[place] = right[place] ^ 1 << bit;
                if is_good(&image) {
                    assert!(image_of(&pack_of_image(&image).expect("a good image")) == image, "{place}");
                }
            }
            image[place] = right[place];
        }
    }
}

#[test]
fn the_subcommands() {
    let session = text_of(&session_of(Profile::Routines, 7, 300));
    let cut = session.iter().rposition(|&byte| byte == b'\n').expect("a line") / 2;
    let cut = cut + session[cut..].iter().position(|&byte| byte == b'\n').expect("a line") + 1;
    let (first, rest) = session.split_at(cut);
    assert_eq!(second(&["image", "size"], b"").stdout, format!("{IMAGE_BYTES} {AREA_PLACE}\n").as_bytes());
    let image = second(&["image", "after"], first).stdout;
    assert_eq!(image.len(), IMAGE_BYTES);
    let place = folder().join("half").to_str().expect("a name").to_string();
    fs::write(&place, &image).expect("written");
    let start = folder().join("session").to_str().expect("a name").to_string();
    fs::write(&start, first).expect("written");
    assert!(second(&["image", "after", &start], b"").stdout == image);
    assert!(second(&["image", "next", &place], rest).stdout == second(&["image", "after"], &session).stdout);
    let whole = second(&["image", "trace"], &session).stdout;
    let two = [second(&["image", "trace"], first).stdout, second(&["image", "trace", &place], rest).stdout];
    assert!(two.concat() == whole);
    let answers: Vec<u8> = whole
        .split_inclusive(|&byte| byte == b'\n')
        .flat_map(|line| [&line[..line.len() - 18], b"\n"].concat())
        .collect();
    assert!(answers == answers_to(&session));
    let judged = second(&["image", "judge", &place], b"\n1 2\n4 10\n4 9\n34482 255\n");
    assert_eq!(judged.stdout, b"good\n16\n16\ngood\ngood\n");
    let said = second(&["image", "say", &place, &start], b"");
    assert!(said.stdout.starts_with(b"good\n16: ") && said.status.code() == Some(1));
    assert_eq!(second(&["image", "say"], &image).status.code(), Some(0));
}

/// A bad image is 16 and status 1; other arguments are complaints.
#[test]
fn bad_images_and_arguments() {
    let place = folder().join("bad").to_str().expect("a name").to_string();
    let mut image = image_of(&new_pack());
    image[0] = 1;
    fs::write(&place, &image).expect("written");
    for command in ["trace", "next"] {
        let output = second(&["image", command, &place], b"0C\n");
        assert_eq!((&output.stdout[..], output.status.code()), (&b"16\n"[..], Some(1)));
    }
    for arguments in [
        &["image"][..],
        &["image", "next"],
        &["image", "judge"],
        &["image", "trace", "no such file"],
        &["calls", "1"],
    ] {
        let output = second(arguments, b"");
        assert_eq!(output.status.code(), Some(2), "{arguments:?}");
        assert!(output.stdout.is_empty() && !output.stderr.is_empty(), "{arguments:?}");
    }
    assert_eq!(second(&["image", "judge", &place], b"x\n").status.code(), Some(2));
}

#[test]
fn calls_answer_their_cases() {
    let cases = second(&["calls-cases", "3", "200"], b"").stdout;
    let command = [env!("CARGO_BIN_EXE_second"), "calls"].map(str::to_string);
    let played = play_with(&command, &cases).expect("answers");
    assert!(played.ended_well);
    assert_eq!(played.answers.iter().filter(|&&byte| byte == b'\n').count(), 200);
    assert_eq!(second(&["calls"], b"seal 12 1\n").status.code(), Some(2));
}

/// The first bytes of an image with a fresh start of ten buffers of four words and units 0 and 1 of channel 0, and the
/// values of each byte that are good.
#[test]
fn good_values_of_single_bytes() {
    let mut pack = new_pack();
    for line in ["000A000400030000000000000000", "010000000200030001", "03000001 0904", "010100010D00030001"]
    {
        assert!(answer_line(&mut pack, line.replace(' ', "").as_bytes()).starts_with(b"00"), "{line}");
    }
    let right = image_of(&pack);
    let good = |place: usize| -> Vec<u8> {
        let mut image = right.clone();
        let is_good = |&value: &u8| {
            image[place] = value;
            is_good(&image)
        };
        (0..=255).filter(is_good).collect()
    };
    let range = |first: u8, last: u8| (first..=last).collect::<Vec<u8>>();
    // m: the files hold buffers 0 to 2. Frozen. W: blocks of three words and a check word.
    assert_eq!(good(0), range(3, 32));
    assert_eq!(good(1), [0, 1]);
    assert_eq!(good(2), range(4, 255));
    assert_eq!(good(3), range(0, 3));
    // The marks of channel 0.
    assert_eq!((good(4), good(5)), (range(0, 9), range(0, 9)));
    // Unit 0: declared, at work, a read, priority or not, attempts, incomplete words, no noise, noise met, position.
    assert_eq!((good(6), good(7), good(8), good(9)), (vec![1], vec![3], vec![0], vec![0, 1]));
    assert_eq!((good(10), good(11), good(12), good(13)), (range(1, 101), vec![0, 1], vec![0], vec![0, 1]));
    assert_eq!((good(14), good(15)), (range(0, 255), range(0, 127)));
    // Unit 1: no request. Unit 2 is not declared, and may be.
    assert_eq!((good(18), good(19), good(22)), (vec![1], vec![0], vec![0]));
    assert_eq!((good(30), good(31), good(37)), (vec![0, 1], vec![0], vec![0]));
    // File 0: double input of buffers 0 and 1, of which the lower is taken.
    let file = 614;
    assert_eq!(
        (good(file), good(file + 1), good(file + 2), good(file + 3)),
        (vec![1], vec![0], vec![0], vec![0])
    );
    assert_eq!((good(file + 4), good(file + 5), good(file + 6)), (vec![1], vec![0, 1], vec![0, 1]));
    assert_eq!((good(file + 7), good(file + 8)), (vec![0], vec![0, 1]));
    assert_eq!((good(file + 9), good(file + 11)), (range(1, 4), range(1, 3)));
    assert_eq!((good(file + 15), good(file + 16)), (vec![0], vec![1]));
    assert_eq!(good(file + 35), [1, 3, 4, 5, 6, 7, 8, 9]);
    // What runs is the main program; the request names routine 9 of priority 4, and may name any.
    assert!((1_494..1_515).all(|place| good(place) == [0]));
    assert_eq!((good(1_515), good(1_516)), (range(1, 5), range(0, 255)));
    assert_eq!((good(1_517), good(1_518)), (vec![0], vec![0]));
    // At unit 1 nothing waits, and in a pack that is not frozen nothing can: the main program runs.
    assert_eq!((good(1_519), good(1_520), good(1_521), good(1_522)), (vec![0], vec![0], vec![0], vec![0]));
    assert_eq!(good(AREA_PLACE), range(0, 255));
}
