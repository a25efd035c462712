//! The subcommands `reel write` and `reel read`: a reel written and read through the pack's own calls, with
//! check words (document 01) on a tape image (document 02, M-100).
//!
//! The texts, where the request for these commands leaves them open, are those that the repository's page of
//! decisions gives for `./reel write` and `./reel read`:
//!
//! - A line of records that is refused: `refused N at line L: SENTENCE` on standard error; the lowest number that
//!   applies, but 13 for every line of more than 10,240 characters. What stands before it is on the reel: the block
//!   that has begun is sealed and sent.
//! - Sizes that the pack's open refuses: `refused 13: SENTENCE` on standard error, and nothing else.
//! - A block in error: `ERROR block N of the reel: KIND. FOUND. MEANING` on standard output before its records.
//! - A block that the pack refuses: `REFUSED block N of the reel: 13, FOUND.` on standard output, in its place among
//!   the records. It is not delivered.
//! - N is the number of the block on the reel as `reel list` counts, marks counted too.
//! - The last line of reading, on standard error after the line of a fault: `reel: files F, blocks B, records R,
//!   errors E`. A file ends at its mark, or at the end if a block stands after the last mark; refused blocks are
//!   counted among the blocks; errors are `ERROR` and `REFUSED` lines and the fault; leftovers are no records.

use crate::pack::{Got, Opening, Pack, CHECK, MOST_WIDTH, OUTPUT, SEQUENCE};
use crate::reel::{fault_text, read_image, Record};
use crate::reel_make::{bytes_of, words_of_line, Parity};
use crate::text::byte_lines;
use crate::word::Judged;

const READ: u64 = 0;
const WRITE: u64 = 1;
const MARK: u64 = 2;
const GOOD: u64 = 0;
const FILE_MARK: u64 = 3;
/// "A line of more than 10,240 characters, those of 1,024 words, is 13 whatever they are."
const MOST_CHARACTERS: usize = 10_240;

/// How a reel is written or read.
#[derive(Clone, Copy, Debug, Default, PartialEq, Eq)]
pub struct Sizes {
    /// The block size B and the record length r.
    pub block: u64,
    pub record: u64,
    pub sequence: bool,
    pub check: bool,
}

/// What goes to standard output, the lines for standard error, and whether all was well.
#[derive(Clone, Debug, PartialEq, Eq)]
pub struct Played {
    pub output: Vec<u8>,
    pub said: Vec<String>,
    pub well: bool,
}

/// The pack with file 0 on unit 0 of channel 0 and a buffer of the widest sort.
struct Job {
    sizes: Sizes,
    direction: u64,
    pack: Pack,
}

impl Sizes {
    /// The words of a check word: none or one.
    fn e(&self) -> u64 {
        u64::from(self.sequence || self.check)
    }

    fn flags(&self) -> u64 {
        SEQUENCE * u64::from(self.sequence) + CHECK * u64::from(self.check)
    }
}

impl Job {
    /// Opens the file; 13 if its sizes do not fit. "B + e is at most 1,024".
    fn open(sizes: Sizes, direction: u64) -> Result<Job, u64> {
        let mut pack = Pack::new(MOST_WIDTH as usize);
        pack.fresh(1, MOST_WIDTH, [1, 0, 0, 0, 0])?;
        let mut job = Job { sizes, direction, pack };
        job.open_again()?;
        Ok(job)
    }

    /// "Block numbers start at 1 after each mark, as at each open."
    fn open_again(&mut self) -> Result<(), u64> {
        let flags = self.direction + self.sizes.flags();
        let Sizes { block: block_size, record: record_length, .. } = self.sizes;
        self.pack.open(&Opening { file: 0, channel: 0, unit: 0, flags, block_size, record_length })
    }

    /// Puts the record of a line, or refuses the line.
    fn put(&mut self, line: &[u8]) -> Result<(), u64> {
        if line.len() > MOST_CHARACTERS {
            return Err(13);
        }
        let words = words_of_line(line).ok_or(1_u64)?;
        self.pack.put(0, &words)
    }

    /// Sends a full block, if there is one.
    fn send(&mut self) -> Option<Record> {
        self.pack.ask(0, WRITE, 0).ok()?;
        let sent = self.pack.report(0, 0, GOOD, &[]).expect("a block that is sent");
        Some(Record::Block(sent.block.to_vec()))
    }

    /// Seals an open block early, if there is one, and sends it.
    fn seal_and_send(&mut self) -> Option<Record> {
        self.pack.seal(0).ok()?;
        self.send()
    }

    /// Writes a mark after all blocks were sent.
    fn mark(&mut self) {
        self.pack.ask(0, MARK, 0).expect("a mark");
        self.pack.report(0, 0, GOOD, &[]).expect("a mark that is written");
        self.pack.close(0).expect("a closed file");
        self.open_again().expect("an open file");
    }
}

fn refused_sizes() -> Played {
    let block = "a block has 1 to 1,024 words with its check word";
    let record = "a record 1 to as many words as a block without it";
    Played { output: Vec::new(), said: vec![format!("refused 13: {block}, and {record}")], well: false }
}

/// Writes the records of a text to an image.
pub fn write_reel(text: &[u8], sizes: Sizes, parity: Parity) -> Played {
    let Ok(mut job) = Job::open(sizes, OUTPUT) else {
        return refused_sizes();
    };
    let mut sent = Vec::new();
    let mut said = Vec::new();
    for (index, line) in byte_lines(text).into_iter().enumerate() {
        if line == b"MARK" {
            // "an open block is sealed early, all blocks are sent, then a mark"
            sent.extend(job.seal_and_send());
            job.mark();
            sent.push(Record::Mark);
        } else {
            if let Err(number) = job.put(line) {
                said.push(format!("refused {number} at line {}: {}", index + 1, put_sentence(number, sizes)));
                break;
            }
            sent.extend(job.send());
        }
    }
    // "At the end of TEXT an open block is sealed and sent", and so it is at a line that is refused.
    sent.extend(job.seal_and_send());
    let output = sent.iter().flat_map(|record| bytes_of(record, parity)).collect();
    Played { output, well: said.is_empty(), said }
}

fn put_sentence(number: u64, sizes: Sizes) -> String {
    match number {
        1 => "this is no line of words".to_string(),
        2 => "a word is 2^36 or more".to_string(),
        _ => format!("a record here has words {}", sizes.record),
    }
}

/// What was counted on a reel.
#[derive(Default)]
struct Counts {
    files: u64,
    blocks: u64,
    records: u64,
    errors: u64,
}

/// Reads the records of an image, and prints what get gives.
pub fn read_reel(image: &[u8], sizes: Sizes) -> Played {
    let Ok(mut job) = Job::open(sizes, 0) else {
        return refused_sizes();
    };
    let reel = read_image(image);
    let mut lines = Vec::new();
    let mut counts = Counts::default();
    // A block stands after the last mark.
    let mut begun = false;
    for (index, record) in reel.records.iter().enumerate() {
        if job.pack.request_of(job.pack.file(0).expect("an open file")).is_none() {
            job.pack.ask(0, READ, 0).expect("a read");
        }
        match record {
            Record::Block(words) => {
                counts.blocks += 1;
                begun = true;
                match job.pack.report(0, 0, GOOD, words) {
                    Ok(_) => lines.extend(job.gets(index + 1, &mut counts)),
                    Err(number) => {
                        counts.errors += 1;
                        lines.push(refused_block(number, index + 1, words.len(), sizes));
                    }
                }
            }
            Record::Mark => {
                job.pack.report(0, 0, FILE_MARK, &[]).expect("a mark that is read");
                lines.push("MARK".to_string());
                job.pack.close(0).expect("a closed file");
                job.open_again().expect("an open file");
                counts.files += 1;
                begun = false;
            }
        }
    }
    counts.files += u64::from(begun);
    let mut said: Vec<String> = reel.fault.map(fault_text).into_iter().collect();
    counts.errors += said.len() as u64;
    let Counts { files, blocks, records, errors } = counts;
    said.push(format!("reel: files {files}, blocks {blocks}, records {records}, errors {errors}"));
    let output = lines.into_iter().flat_map(|line| (line + "\n").into_bytes()).collect();
    Played { output, said, well: errors == 0 }
}

impl Job {
    /// The lines of all that get gives of a block that was just delivered.
    fn gets(&mut self, number: usize, counts: &mut Counts) -> Vec<String> {
        let mut lines = Vec::new();
        loop {
            match self.pack.get(0).expect("a get") {
                Got::Record(words) => {
                    counts.records += 1;
                    lines.push(digits_of(words));
                }
                Got::Leftover(words) => lines.push(format!("LEFTOVER {}", digits_of(words))),
                Got::Error(judged) => {
                    counts.errors += 1;
                    lines.push(error_line(judged, number, self.sizes));
                }
                Got::NothingYet | Got::End => return lines,
            }
        }
    }
}

fn digits_of(words: &[u64]) -> String {
    words.iter().map(|word| format!("{word:010X}")).collect()
}

/// "Error 1 is sequence, 2 check sum, 3 both." Numbers are decimal, sums six octal digits.
fn error_line(Judged { error, fields }: Judged, number: usize, sizes: Sizes) -> String {
    let (kind, meaning) = match error {
        1 => ("sequence", "A block before it is missing or doubled, or it is out of place."),
        2 => ("check sum", "A word of it is not as it was sent."),
        _ => ("sequence and check sum", "It is not the block that was sent in this place."),
    };
    let [sum, due, sum_read, number_read] = fields.in_order();
    let compared = |chosen: bool| if chosen { "" } else { " (not compared)" };
    let numbers = format!("Number due {due}, read {number_read}{}", compared(sizes.sequence));
    let sums = format!("sum of its words {sum:06o}, read {sum_read:06o}{}, octal", compared(sizes.check));
    format!("ERROR block {number} of the reel: {kind}. {numbers}; {sums}. {meaning}")
}

/// "A delivered block has 1 + e to B + e words, else 13."; 2 is for a word that no image can hold.
fn refused_block(refusal: u64, number: usize, words: usize, sizes: Sizes) -> String {
    let (fewest, most) = (1 + sizes.e(), sizes.block + sizes.e());
    let found = match refusal {
        2 => "a word is 2^36 or more".to_string(),
        _ => format!("it has words {words}, and a block here has {fewest} to {most}"),
    };
    format!("REFUSED block {number} of the reel: {refusal}, {found}.")
}

#[cfg(test)]
mod tests {
    use super::*;
    use crate::random::Random;
    use crate::reel_make::make_image;

    fn sizes(block: u64, record: u64, choice: u64) -> Sizes {
        Sizes { block, record, sequence: choice & 1 == 1, check: choice & 2 == 2 }
    }

    /// A text of records from small numbers; 0 stands for a mark.
    fn text_of(records: &[&[u64]]) -> String {
        let line = |words: &&[u64]| if words.is_empty() { "MARK".to_string() } else { digits_of(words) };
        records.iter().map(|words| line(words) + "\n").collect()
    }

    fn words_on(image: &[u8]) -> Vec<Record> {
        read_image(image).records
    }

    fn block(words: &[u64]) -> Record {
        Record::Block(words.to_vec())
    }

    fn read(image: &[u8], sizes: Sizes) -> (String, Vec<String>, bool) {
        let played = read_reel(image, sizes);
        (String::from_utf8(played.output).expect("text"), played.said, played.well)
    }

    /// Blocks of two records and a check word; the mark seals early and begins the numbers anew.
    #[test]
    fn records_become_blocks_with_check_words() {
        let text = text_of(&[&[1, 2], &[3, 4], &[5, 6], &[], &[], &[7, 8]]);
        let written = write_reel(text.as_bytes(), sizes(5, 2, 3), Parity::Odd);
        assert_eq!((written.said, written.well), (vec![], true));
        let expected = [
            block(&[1, 2, 3, 4, 10 << 18 | 1]),
            block(&[5, 6, 11 << 18 | 2]),
            Record::Mark,
            Record::Mark,
            block(&[7, 8, 15 << 18 | 1]),
        ];
        assert_eq!(words_on(&written.output), expected);
        let plain = write_reel(text.as_bytes(), sizes(5, 2, 0), Parity::Even).output;
        assert_eq!(words_on(&plain)[..2], [block(&[1, 2, 3, 4]), block(&[5, 6])]);
        assert_ne!(plain, write_reel(text.as_bytes(), sizes(5, 2, 0), Parity::Odd).output);
        let (given, said, well) = read(&written.output, sizes(5, 2, 3));
        assert_eq!((given, well), (text, true));
        assert_eq!(said, ["reel: files 3, blocks 3, records 4, errors 0"]);
    }

    #[test]
    fn lines_that_are_refused() {
        let one = digits_of(&[1]);
        let many = |word: &str, count| word.repeat(count);
        for (line, refusal) in [
            (String::new(), "13 at line 4: a record here has words 1"),
            (many(&one, 2), "13 at line 4: a record here has words 1"),
            (many(&one, 1_025), "13 at line 4: a record here has words 1"),
            (many(&one, 1_024), "13 at line 4: a record here has words 1"),
            (many("x", 10_241), "13 at line 4: a record here has words 1"),
            (many("F", 10_260), "13 at line 4: a record here has words 1"),
            (many("1000000000", 1), "2 at line 4: a word is 2^36 or more"),
            (many("1000000000", 1_024), "2 at line 4: a word is 2^36 or more"),
            (format!("1000000000{one}"), "2 at line 4: a word is 2^36 or more"),
            (many("0", 9), "1 at line 4: this is no line of words"),
            (many("x", 10_240), "1 at line 4: this is no line of words"),
            (many("0", 10_239), "1 at line 4: this is no line of words"),
            ("000000000a".to_string(), "1 at line 4: this is no line of words"),
            ("MARK ".to_string(), "1 at line 4: this is no line of words"),
            ("F00000000g".to_string(), "1 at line 4: this is no line of words"),
        ] {
            let text = format!("{one}\n{one}\n{one}\n{line}\n{one}\n");
            let played = write_reel(text.as_bytes(), sizes(2, 1, 0), Parity::Odd);
            assert_eq!(played.said, [format!("refused {refusal}")], "{line}");
            assert!(!played.well);
            // The block that has begun is sealed and sent.
            assert_eq!(words_on(&played.output), [block(&[1, 1]), block(&[1])], "{line}");
            let played = write_reel(text.as_bytes(), sizes(3, 1, 1), Parity::Odd);
            assert_eq!(words_on(&played.output), [block(&[1, 1, 1, 1])], "{line}");
        }
    }

    #[test]
    fn sizes_that_do_not_fit() {
        for (block, record, choice) in
            [(0, 0, 0), (3, 0, 0), (3, 4, 0), (1_025, 1, 0), (1_024, 1, 1), (u64::MAX, 1, 3)]
        {
            for played in [
                write_reel(b"", sizes(block, record, choice), Parity::Odd),
                read_reel(b"", sizes(block, record, choice)),
            ] {
                assert!(played.output.is_empty() && !played.well);
                assert_eq!(
                    played.said,
                    [concat!(
                        "refused 13: a block has 1 to 1,024 words with its check word, ",
                        "and a record 1 to as many words as a block without it"
                    )]
                );
            }
        }
        assert!(write_reel(b"", sizes(1_023, 1_023, 2), Parity::Odd).well);
        assert!(read_reel(b"", sizes(1_024, 1, 0)).well);
    }

    /// A bad number, a bad sum, both, a leftover, a block that is too long, one that is too short, and a mark.
    #[test]
    fn what_is_wrong_is_told() {
        let text = text_of(&[
            &[1, 2, 3 << 18 | 2],
            &[1, 2, 3, 7 << 18 | 2],
            &[10, 6 << 18 | 9],
            &[1, 2, 3, 4, 5, 6],
            &[9],
            &[4, 5, 9 << 18 | 4],
            &[],
            &[4, 5, 9 << 18 | 1],
        ]);
        let image = make_image(text.as_bytes(), Parity::Odd).output;
        let (given, said, well) = read(&image, sizes(4, 2, 3));
        let expected = [
            concat!(
                "ERROR block 1 of the reel: sequence. Number due 1, read 2; sum of its words 000003, ",
                "read 000003, octal. A block before it is missing or doubled, or it is out of place."
            ),
            &digits_of(&[1, 2]),
            concat!(
                "ERROR block 2 of the reel: check sum. Number due 2, read 2; sum of its words 000006, ",
                "read 000007, octal. A word of it is not as it was sent."
            ),
            &digits_of(&[1, 2]),
            &format!("LEFTOVER {}", digits_of(&[3])),
            concat!(
                "ERROR block 3 of the reel: sequence and check sum. Number due 3, read 9; sum of its words ",
                "000012, read 000006, octal. It is not the block that was sent in this place."
            ),
            &format!("LEFTOVER {}", digits_of(&[10])),
            "REFUSED block 4 of the reel: 13, it has words 6, and a block here has 2 to 5.",
            "REFUSED block 5 of the reel: 13, it has words 1, and a block here has 2 to 5.",
            &digits_of(&[4, 5]),
            "MARK",
            &digits_of(&[4, 5]),
        ];
        assert_eq!(given.lines().collect::<Vec<&str>>(), expected);
        assert_eq!((said, well), (vec!["reel: files 2, blocks 7, records 4, errors 5".to_string()], false));
    }

    /// What was not chosen is told and not compared.
    #[test]
    fn one_field_alone() {
        let image = make_image(text_of(&[&[8, 7 << 18 | 9]]).as_bytes(), Parity::Odd).output;
        for (choice, line) in [
            (
                1,
                concat!(
                    "sequence. Number due 1, read 9; sum of its words 000010, read 000007 (not compared), octal. ",
                    "A block before it is missing or doubled, or it is out of place."
                ),
            ),
            (
                2,
                concat!(
                    "check sum. Number due 1, read 9 (not compared); sum of its words 000010, read 000007, octal. ",
                    "A word of it is not as it was sent."
                ),
            ),
        ] {
            let (given, said, well) = read(&image, sizes(2, 1, choice));
            assert_eq!(given, format!("ERROR block 1 of the reel: {line}\n0000000008\n"));
            assert_eq!(
                (said, well),
                (vec!["reel: files 1, blocks 1, records 1, errors 1".to_string()], false)
            );
        }
    }

    #[test]
    fn faults_of_images() {
        let text = text_of(&[&[1], &[], &[2]]);
        let image = make_image(text.as_bytes(), Parity::Odd).output;
        let (given, said, well) = read(&image[..20], sizes(1, 1, 0));
        assert_eq!(given, "0000000001\nMARK\n");
        assert!(!well);
        assert_eq!(
            said,
            ["refused 21 at byte 18: the record is cut", "reel: files 1, blocks 1, records 1, errors 1"]
        );
        let (given, said, well) = read(b"", sizes(1, 1, 0));
        assert_eq!(
            (given.as_str(), said, well),
            ("", vec!["reel: files 0, blocks 0, records 0, errors 0".to_string()], true)
        );
    }

    /// What is written is read back as the same text, whatever the sizes.
    #[test]
    fn random_texts_there_and_back() {
        for seed in 0..400 {
            let mut random = Random::new(seed);
            let block = random.between(1, 12);
            let sizes = sizes(block, random.between(1, block), random.below(4));
            let parity = random.pick(&[Parity::Odd, Parity::Even]);
            let mut text = String::new();
            for _ in 0..random.below(60) {
                if random.chance(1, 8) {
                    text += "MARK\n";
                } else {
                    let words: Vec<u64> = (0..sizes.record).map(|_| random.word()).collect();
                    text += &(digits_of(&words) + "\n");
                }
            }
            let written = write_reel(text.as_bytes(), sizes, parity);
            assert!(written.well && written.said.is_empty(), "{seed}");
            let (given, said, well) = read(&written.output, sizes);
            assert_eq!((given, well), (text, true), "{seed}");
            assert!(said[0].ends_with(", errors 0"), "{seed}");
        }
    }

    /// Every bit of a small reel: one that the check word or the lengths can show is found. Of a data byte the
    /// two highest bits are ignored, and of a check word three bits between its fields.
    #[test]
    fn one_bit_that_is_changed_is_found() {
        let text = text_of(&[&[1, 2], &[3 << 30, 4], &[5, 6], &[], &[7, (1 << 36) - 1]]);
        let sizes = sizes(4, 2, 3);
        let image = write_reel(text.as_bytes(), sizes, Parity::Odd).output;
        let right = read(&image, sizes);
        let mut hidden = 0;
        for (byte, bit) in (0..image.len()).flat_map(|byte| (0..8).map(move |bit| (byte, bit))) {
            let mut changed = image.clone();
            changed[byte] ^= 1 << bit;
            let given = read(&changed, sizes);
            if given.2 {
                assert_eq!(given, right, "byte {byte}, bit {bit}");
                hidden += 1;
            }
        }
        // Two bits of each of the 66 data bytes, and three of each of the three check words.
        assert_eq!(hidden, 2 * 66 + 3 * 3);
    }
}
