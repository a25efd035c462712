//! The program `second`: one subcommand a task.

use std::io::{self, BufReader, BufWriter, Read, Write};
use std::path::Path;
use std::process::ExitCode;

use second::bench::{bench, BENCH_FRAMES};
use second::calls::{answer_calls, call_cases};
use second::channel_events::channel_events;
use second::channel_player::answer_events;
use second::compare::{compare, Options};
use second::file_player::answer_walks;
use second::file_walks::file_walks;
use second::folder::read_file;
use second::generate::Generator;
use second::image::{AREA_PLACE, IMAGE_BYTES};
use second::image_player::{begin, image_after, judge_changes, say, trace, BAD_IMAGE};
use second::pack::Pack;
use second::pack_cases::pack_cases;
use second::pack_player::answer_script;
use second::plan::{plan_text, Answer};
use second::plan_cases::write_plan_cases;
use second::plan_check::check_texts;
use second::play::play;
use second::profile::Profile;
use second::program::play_with;
use second::reel::{show_image, Form, Written};
use second::reel_cases::write_reel_cases;
use second::reel_job::{read_reel, write_reel, Played, Sizes};
use second::reel_make::{make_image, Parity};
use second::sheet::sheet_texts;
use second::sheet_cases::write_sheet_cases;
use second::talk::{talk, talk_options};
use second::text::lines_of;
use second::word_cases::word_cases;
use second::words::answer_cases;

const HELP: &str = "\
second: documents 01 and 02 of Plorrettix, written a second time
  play                           plays a session, standard input to output
  generate PROFILE SEED FRAMES   prints a random session; profiles are mixed,
      retries, turns (priority and freeze), blocks (check words), malformed,
      refusals, kept (failed reads), reel (noise), routines, wrap (long)
  compare [OPTIONS] PROGRAM ..   plays random sessions against a program that
      reads a session and writes the answers; names the first frame that
      differs and shortens the session; fails if something was never reached
      --profile NAME (all)  --seed N (1)  --count N (5 each)  --frames N (4000)
      --partial (no such failure)  --budget N (5000000 frames to shorten)
  talk [OPTIONS] PROGRAM ..      plays a session with a program, each line after
      the answer before it; fails if an answer does not come  --terminal
      --bytes, --parts SEED (cut so, and not by lines)  --seconds N (20 a line)
  bench PROGRAM ..               times the program and this one on one session
  words, channel, files, pack    answer cases of check words, of one channel,
      of one file and its buffers, of calls on a state and an area by hand
  word-cases, channel-events, file-walks, pack-cases   print fixed cases
  image say|after|next|trace|judge|size   state images of the simulator's calls
  calls; calls-cases SEED COUNT  seals and checks as those calls; prints cases
  plan, plan-check LIST PROPOSAL   proposes buffers for openings; judges them
  reel list|words|octal          shows a tape image; reel make [--bcd] makes one
  reel write|read --block B --record R [--sequence] [--check]   by the pack
  sheet SESSION ANSWERS          the first frame that differs, and the requests
  plan-cases, reel-cases, sheet-cases DIR SEED COUNT   write random cases N.*
  help                           prints this
Exit status: 0 all well, 1 a refusal, a difference or a failure, 2 a complaint
";

fn main() -> ExitCode {
    let arguments: Vec<String> = std::env::args().skip(1).collect();
    run(&arguments).unwrap_or_else(|complaint| {
        eprintln!("second: {complaint}");
        ExitCode::from(2)
    })
}

fn run(arguments: &[String]) -> Result<ExitCode, String> {
    let words: Vec<&str> = arguments.iter().map(String::as_str).collect();
    match words[..] {
        ["play"] => play_standard()?,
        ["generate", profile, seed, frames] => generate(profile, number(seed)?, number(frames)?)?,
        ["compare", ..] => return run_compare(&arguments[1..]),
        ["talk", ..] => return run_talk(&arguments[1..]),
        ["bench", _, ..] => print(&bench(&arguments[1..], &own_command()?, BENCH_FRAMES)?)?,
        ["words"] => print(&answer_cases(&standard_input()?)?)?,
        ["word-cases"] => print(&lines_of(&word_cases()))?,
        ["channel"] => print(&answer_events(&standard_input()?)?)?,
        ["channel-events"] => print(&lines_of(&channel_events()))?,
        ["files"] => print(&answer_walks(&standard_input()?)?)?,
        ["file-walks"] => print(&lines_of(&file_walks()))?,
        ["pack"] => print(&answer_script(&standard_input()?)?)?,
        ["pack-cases"] => print(&lines_of(&pack_cases()))?,
        ["plan"] => return answer(&plan_text(&standard_bytes()?)),
        ["plan-check", list, proposal] => {
            return answer(&check_texts(&read_file(list)?, &read_file(proposal)?));
        }
        ["plan-cases", folder, seed, count] => {
            write_plan_cases(Path::new(folder), number(seed)?, number(count)?)?;
        }
        ["reel", "list"] => return written(&show_image(&standard_bytes()?, Form::List)),
        ["reel", "words"] => return written(&show_image(&standard_bytes()?, Form::Words)),
        ["reel", "octal"] => return written(&show_image(&standard_bytes()?, Form::Octal)),
        ["reel", "make"] => return written(&make_image(&standard_bytes()?, Parity::Odd)),
        ["reel", "make", "--bcd"] => return written(&make_image(&standard_bytes()?, Parity::Even)),
        ["reel", "write", ref options @ ..] => {
            let (sizes, parity) = reel_options(options, true)?;
            return played(&write_reel(&standard_bytes()?, sizes, parity));
        }
        ["reel", "read", ref options @ ..] => {
            let (sizes, _) = reel_options(options, false)?;
            return played(&read_reel(&standard_bytes()?, sizes));
        }
        ["reel-cases", folder, seed, count] => {
            write_reel_cases(Path::new(folder), number(seed)?, number(count)?)?;
        }
        ["sheet", session, answers] if !is_option(session) && !is_option(answers) => {
            return sheet(session, answers);
        }
        ["sheet-cases", folder, seed, count] | ["sheet-cases", folder, "--seed", seed, "--count", count] => {
            write_sheet_cases(Path::new(folder), number(seed)?, number(count)?)?;
        }
        ["image", "size"] => print(&format!("{IMAGE_BYTES} {AREA_PLACE}\n"))?,
        ["image", "after"] => return from_image(None, &standard_bytes()?, image_after),
        ["image", "after", session] => return from_image(None, &read_file(session)?, image_after),
        ["image", "next", image] => return from_image(Some(image), &standard_bytes()?, image_after),
        ["image", "trace"] => return from_image(None, &standard_bytes()?, trace),
        ["image", "trace", image] => return from_image(Some(image), &standard_bytes()?, trace),
        ["image", "judge", image] => print(&judge_changes(&read_file(image)?, &standard_input()?)?)?,
        ["image", "say", ref images @ ..] => return say_images(images),
        ["calls"] => print(&answer_calls(&standard_input()?)?)?,
        ["calls-cases", seed, count] => print(&call_cases(number(seed)?, number(count)?))?,
        ["help" | "--help" | "-h"] => print(HELP)?,
        _ => return Err("what shall be done? See `second help`".to_string()),
    }
    Ok(ExitCode::SUCCESS)
}

fn play_standard() -> Result<(), String> {
    let mut reader = BufReader::new(io::stdin().lock());
    let mut writer = BufWriter::new(io::stdout().lock());
    play(&mut reader, &mut writer).map_err(|error| error.to_string())
}

fn generate(profile: &str, seed: u64, frames: u64) -> Result<(), String> {
    let mut generator = Generator::new(profile_of(profile)?, seed);
    let mut writer = BufWriter::new(io::stdout().lock());
    for _ in 0..frames {
        let mut line = generator.next_line();
        line.push(b'\n');
        writer.write_all(&line).map_err(|error| error.to_string())?;
    }
    writer.flush().map_err(|error| error.to_string())
}

fn run_compare(arguments: &[String]) -> Result<ExitCode, String> {
    let (options, command) = compare_options(arguments)?;
    let compared = compare(&options, &|session| play_with(command, session))?;
    print(&compared.text)?;
    Ok(if compared.agreed { ExitCode::SUCCESS } else { ExitCode::from(1) })
}

/// Writes the answers that came; a program that did not answer in time has status 1.
fn run_talk(arguments: &[String]) -> Result<ExitCode, String> {
    let (options, command) = talk_options(arguments)?;
    let talked = talk(&options, command, &standard_bytes()?)?;
    print_bytes(&talked.answers)?;
    Ok(match &talked.complaint {
        None => ExitCode::SUCCESS,
        Some(complaint) => {
            eprintln!("{complaint}");
            ExitCode::from(1)
        }
    })
}

/// The options, and the command of the other program that follows them.
fn compare_options(arguments: &[String]) -> Result<(Options, &[String]), String> {
    let mut options = Options::default();
    let mut rest = arguments;
    loop {
        let value = rest.get(1).map(String::as_str).unwrap_or_default();
        let taken = match rest.first().map(String::as_str) {
            Some("--partial") => {
                options.partial = true;
                1
            }
            Some("--profile") => {
                options.profile = Some(profile_of(value)?);
                2
            }
            Some("--seed") => {
                options.seed = number(value)?;
                2
            }
            Some("--frames") => {
                options.frames = number(value)? as usize;
                2
            }
            Some("--count") => {
                options.count = number(value)?;
                2
            }
            Some("--budget") => {
                options.budget = number(value)?;
                2
            }
            Some(option) if option.starts_with("--") => return Err(format!("no option `{option}`")),
            Some(_) => return Ok((options, rest)),
            None => return Err("which program? See `second help`".to_string()),
        };
        rest = &rest[taken..];
    }
}

fn profile_of(name: &str) -> Result<Profile, String> {
    Profile::of(name).ok_or(format!("no profile `{name}`"))
}

fn number(text: &str) -> Result<u64, String> {
    text.parse().map_err(|_| format!("`{text}` is no number"))
}

/// The command that plays a session with this very program.
fn own_command() -> Result<Vec<String>, String> {
    let program = std::env::current_exe().map_err(|error| error.to_string())?;
    let program = program.into_os_string().into_string().map_err(|_| "this program's name is no text")?;
    Ok(vec![program, "play".to_string()])
}

/// All of standard input, as text.
fn standard_input() -> Result<String, String> {
    let mut input = String::new();
    io::stdin().read_to_string(&mut input).map_err(|error| error.to_string())?;
    Ok(input)
}

/// All of standard input, whatever its bytes are.
fn standard_bytes() -> Result<Vec<u8>, String> {
    let mut input = Vec::new();
    io::stdin().read_to_end(&mut input).map_err(|error| error.to_string())?;
    Ok(input)
}

/// Prints an answer; one that is no good news has status 1.
fn answer(answer: &Answer) -> Result<ExitCode, String> {
    print(&answer.text)?;
    Ok(if answer.well { ExitCode::SUCCESS } else { ExitCode::from(1) })
}

fn is_option(word: &str) -> bool {
    word.starts_with('-') && word != "-"
}

/// Prints the sheet of two files. One that cannot be read is named and has status 1.
fn sheet(session: &str, answers: &str) -> Result<ExitCode, String> {
    let texts = read_file(session).and_then(|session| Ok((session, read_file(answers)?)));
    match texts {
        Ok((session, answers)) => answer(&sheet_texts(&session, &answers)),
        Err(complaint) => {
            eprintln!("second: {complaint}");
            Ok(ExitCode::from(1))
        }
    }
}

/// Plays a session from an image, and writes what is made of it. A bad image is `16` with status 1.
fn from_image(
    image: Option<&str>,
    session: &[u8],
    make: impl Fn(Pack, &[u8]) -> Vec<u8>,
) -> Result<ExitCode, String> {
    let image = image.map(read_file).transpose()?;
    match begin(image.as_deref()) {
        Ok(pack) => print_bytes(&make(pack, session))?,
        Err(_) => {
            print(&format!("{BAD_IMAGE}\n"))?;
            return Ok(ExitCode::from(1));
        }
    }
    Ok(ExitCode::SUCCESS)
}

/// Says of each image, a line each, whether it is good; without a file that on standard input.
fn say_images(images: &[&str]) -> Result<ExitCode, String> {
    let said: Vec<String> = if images.is_empty() {
        vec![say(&standard_bytes()?)]
    } else {
        images.iter().map(|image| read_file(image).map(|image| say(&image))).collect::<Result<_, _>>()?
    };
    let all_good = said.iter().all(|line| !line.starts_with(BAD_IMAGE));
    print(&said.iter().map(|line| format!("{line}\n")).collect::<String>())?;
    Ok(if all_good { ExitCode::SUCCESS } else { ExitCode::from(1) })
}

/// Writes what was made of a reel, then the refusal, if there is one, to standard error with status 1.
fn written(written: &Written) -> Result<ExitCode, String> {
    print_bytes(&written.output)?;
    Ok(match &written.refusal {
        None => ExitCode::SUCCESS,
        Some(refusal) => {
            eprintln!("{refusal}");
            ExitCode::from(1)
        }
    })
}

/// Writes what was made of a reel through the pack, then what is said of it to standard error.
fn played(played: &Played) -> Result<ExitCode, String> {
    print_bytes(&played.output)?;
    for line in &played.said {
        eprintln!("{line}");
    }
    Ok(if played.well { ExitCode::SUCCESS } else { ExitCode::from(1) })
}

/// `--block B --record R [--sequence] [--check]`, and for writing `[--bcd]`, in any order; the last of several counts.
fn reel_options(options: &[&str], writes: bool) -> Result<(Sizes, Parity), String> {
    let (mut block, mut record, mut parity) = (None, None, Parity::Odd);
    let (mut sequence, mut check) = (false, false);
    let mut rest = options.iter();
    while let Some(&option) = rest.next() {
        let mut size = || reel_size(rest.next().copied().unwrap_or_default());
        match option {
            "--block" => block = Some(size()?),
            "--record" => record = Some(size()?),
            "--sequence" => sequence = true,
            "--check" => check = true,
            "--bcd" if writes => parity = Parity::Even,
            _ => return Err(format!("no option `{option}`")),
        }
    }
    match (block, record) {
        (Some(block), Some(record)) => Ok((Sizes { block, record, sequence, check }, parity)),
        _ => Err("--block and --record are needed".to_string()),
    }
}

/// "A size is a decimal number of up to five digits, at most 65,535, else the command is wrong".
fn reel_size(text: &str) -> Result<u64, String> {
    let digits = text.len() <= 5 && text.bytes().all(|byte| byte.is_ascii_digit());
    let size = number(text).ok().filter(|&size| digits && size <= 65_535);
    size.ok_or(format!("`{text}` is no number from 0 to 65535"))
}

/// Prints to standard output.
fn print(output: &str) -> Result<(), String> {
    print_bytes(output.as_bytes())
}

fn print_bytes(output: &[u8]) -> Result<(), String> {
    let mut writer = io::stdout().lock();
    writer.write_all(output).and_then(|()| writer.flush()).map_err(|error| error.to_string())
}

#[cfg(test)]
mod tests {
    use super::*;

    fn strings(words: &[&str]) -> Vec<String> {
        words.iter().map(|word| word.to_string()).collect()
    }

    #[test]
    fn help_fits_one_screen() {
        assert!(HELP.lines().count() <= 26);
        assert!(HELP.lines().all(|line| line.len() <= 80));
    }

    #[test]
    fn options_come_before_the_program() {
        let given = "--profile turns --seed 7 --frames 10 --count 3 --partial --budget 9 other --seed";
        let arguments = strings(&given.split(' ').collect::<Vec<&str>>());
        let expected = Options {
            profile: Some(Profile::Turns),
            seed: 7,
            frames: 10,
            count: 3,
            partial: true,
            budget: 9,
        };
        assert_eq!(compare_options(&arguments), Ok((expected, &strings(&["other", "--seed"])[..])));
        let plain = strings(&["other"]);
        assert_eq!(compare_options(&plain), Ok((Options::default(), &plain[..])));
    }

    #[test]
    fn wrong_options_are_complaints() {
        for given in ["", "--seed 1", "--seed x other", "--profile none other", "--speed other", "--count"] {
            let arguments = strings(&given.split_terminator(' ').collect::<Vec<&str>>());
            assert!(compare_options(&arguments).is_err(), "{given}");
        }
    }

    #[test]
    fn options_of_reels() {
        let options =
            |given: &str, writes| reel_options(&given.split_terminator(' ').collect::<Vec<&str>>(), writes);
        let sizes = Sizes { block: 5, record: 2, sequence: false, check: true };
        assert_eq!(options("--block 5 --record 2 --check", false), Ok((sizes, Parity::Odd)));
        assert_eq!(options("--check --bcd --record 2 --block 5", true), Ok((sizes, Parity::Even)));
        assert_eq!(
            options("--record 9 --block 00005 --check --record 02 --check", true),
            Ok((sizes, Parity::Odd))
        );
        let largest = Sizes { block: 65_535, record: 0, ..Sizes::default() };
        assert_eq!(options("--block 65535 --record 0", false), Ok((largest, Parity::Odd)));
        for wrong in [
            "",
            "--block 5",
            "--record 2",
            "--block --record 2",
            "--block x --record 2",
            "--block 5 --record 2 --bcd",
            "--block 65536 --record 2",
            "--block 5 --record 000002",
            "--block +5 --record 2",
            "--block 5 --record",
            "--block 5 --record 2 file",
        ] {
            assert!(options(wrong, false).is_err(), "{wrong}");
        }
    }

    #[test]
    fn unknown_subcommands_are_complaints() {
        for given in
            [[].as_slice(), &["what"], &["words", "more"], &["bench"], &["generate", "none", "1", "1"]]
        {
            assert!(run(&strings(given)).is_err(), "{given:?}");
        }
    }
}
