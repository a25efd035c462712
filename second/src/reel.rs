//! The subcommand `reel` on tape images (document 02, M-100): records read from the bytes of a SIMH tape
//! image, and shown in three forms.

/// "One byte holds a six-bit character in its low bits, six make a word".
pub const CHARACTER_BITS: u32 = 6;
pub const WORD_CHARACTERS: usize = 6;
/// "a length over 6,144" is none of a block: 1,024 words.
pub const MOST_LENGTH: usize = 6_144;
/// The bytes of a length.
pub const LENGTH_BYTES: usize = 4;

/// What stands on a reel.
#[derive(Clone, Debug, PartialEq, Eq)]
pub enum Record {
    Block(Vec<u64>),
    Mark,
}

/// Why the records end before the image does.
#[derive(Clone, Copy, Debug, PartialEq, Eq)]
pub struct Fault {
    pub number: u64,
    /// "the number of bytes before the faulty record".
    pub place: usize,
}

/// What an image holds: records to its last byte, or records and then a fault.
#[derive(Clone, Debug, PartialEq, Eq)]
pub struct Reel {
    pub records: Vec<Record>,
    pub fault: Option<Fault>,
}

/// How records are shown.
#[derive(Clone, Copy, Debug, PartialEq, Eq)]
pub enum Form {
    List,
    Words,
    Octal,
}

/// What goes to standard output and, if something is refused, the line for standard error.
#[derive(Clone, Debug, PartialEq, Eq)]
pub struct Written {
    pub output: Vec<u8>,
    pub refusal: Option<String>,
}

/// Reads records one after another, to the last byte or the first fault.
pub fn read_image(image: &[u8]) -> Reel {
    let mut records = Vec::new();
    let mut place = 0;
    while place < image.len() {
        match first_record(&image[place..]) {
            Ok((record, length)) => {
                records.push(record);
                place += length;
            }
            Err(number) => return Reel { records, fault: Some(Fault { number, place }) },
        }
    }
    Reel { records, fault: None }
}

/// The record that some bytes begin with and how many of them it has, or the number of its fault.
fn first_record(bytes: &[u8]) -> Result<(Record, usize), u64> {
    // Fewer than four bytes are no length: the record is cut.
    let length = length_at(bytes, 0).ok_or(21_u64)?;
    if length == 0 {
        return Ok((Record::Mark, LENGTH_BYTES));
    }
    // "the data padded to an even count".
    let second_at = LENGTH_BYTES + length + length % 2;
    let second = length_at(bytes, second_at);
    let faults = [
        (20, second.is_some_and(|second| second != length)),
        (21, second.is_none()),
        (22, length % WORD_CHARACTERS != 0),
        (23, length > MOST_LENGTH),
    ];
    // "the highest number that applies is given".
    if let Some((number, _)) = faults.into_iter().rfind(|(_, applies)| *applies) {
        return Err(number);
    }
    let data = &bytes[LENGTH_BYTES..LENGTH_BYTES + length];
    let words = data.chunks_exact(WORD_CHARACTERS).map(word_of).collect();
    Ok((Record::Block(words), second_at + LENGTH_BYTES))
}

/// "a four-byte length, lowest byte first", if all its bytes are there.
fn length_at(bytes: &[u8], place: usize) -> Option<usize> {
    let length = bytes.get(place..)?.first_chunk::<LENGTH_BYTES>()?;
    Some(u32::from_le_bytes(*length) as usize)
}

/// "six make a word, leftmost first"; of each byte only the low six bits count.
fn word_of(characters: &[u8]) -> u64 {
    characters.iter().fold(0, |word, &byte| word << CHARACTER_BITS | u64::from(byte & 0o77))
}

/// Shows an image. Nothing follows a fault, no `end` line either.
pub fn show_image(image: &[u8], form: Form) -> Written {
    let reel = read_image(image);
    let mut output = String::new();
    for (index, record) in reel.records.iter().enumerate() {
        output += &match form {
            Form::List => listed(index + 1, record),
            Form::Words => joined(record, "", |word| format!("{word:010X}")),
            Form::Octal => joined(record, " ", |word| format!("{word:012o}")),
        };
        output.push('\n');
    }
    if form == Form::List && reel.fault.is_none() {
        output += &format!("end, {} bytes\n", image.len());
    }
    Written { output: output.into_bytes(), refusal: reel.fault.map(fault_text) }
}

fn listed(number: usize, record: &Record) -> String {
    match record {
        Record::Block(words) => format!("{number} block {} words", words.len()),
        Record::Mark => format!("{number} mark"),
    }
}

fn joined(record: &Record, between: &str, digits: impl Fn(&u64) -> String) -> String {
    match record {
        Record::Block(words) => words.iter().map(digits).collect::<Vec<String>>().join(between),
        Record::Mark => "MARK".to_string(),
    }
}

/// The line that names a fault.
pub fn fault_text(Fault { number, place }: Fault) -> String {
    let sentence = match number {
        20 => "the two lengths differ",
        21 => "the record is cut",
        22 => "the data length is no multiple of six",
        _ => "the length is over 6,144 or has another meaning",
    };
    format!("refused {number} at byte {place}: {sentence}")
}

#[cfg(test)]
mod tests {
    use super::*;

    /// The words 1 and 2^36 - 1, a mark, and the word 0o010203040506 with high bits that do not count.
    const IMAGE: [u8; 42] = [
        12, 0, 0, 0, 0, 0, 0, 0, 0, 1, 63, 63, 63, 63, 63, 63, 12, 0, 0, 0, // a block
        0, 0, 0, 0, // a mark
        6, 0, 0, 0, 0x41, 0x82, 0xC3, 4, 5, 0x46, 6, 0, 0, 0, // a block
        0, 0, 0, 0, // a mark
    ];

    fn image_of(parts: &[&[u8]]) -> Vec<u8> {
        parts.concat()
    }

    fn fault_of(image: &[u8]) -> Option<(u64, usize)> {
        read_image(image).fault.map(|fault| (fault.number, fault.place))
    }

    #[test]
    fn blocks_and_marks() {
        let block = |words: &[u64]| Record::Block(words.to_vec());
        let records = vec![block(&[1, (1 << 36) - 1]), Record::Mark, block(&[0o010203040506]), Record::Mark];
        assert_eq!(read_image(&IMAGE), Reel { records, fault: None });
        assert_eq!(read_image(&[]), Reel { records: vec![], fault: None });
    }

    #[test]
    fn the_three_forms() {
        let shown = |form| String::from_utf8(show_image(&IMAGE, form).output).expect("text");
        assert_eq!(shown(Form::List), "1 block 2 words\n2 mark\n3 block 1 words\n4 mark\nend, 42 bytes\n");
        assert_eq!(shown(Form::Words), "00000000010FFFFFFFFF\nMARK\n00420C4146\nMARK\n");
        assert_eq!(shown(Form::Octal), "000000000001 777777777777\nMARK\n010203040506\nMARK\n");
        for (form, nothing) in [(Form::List, "end, 0 bytes\n"), (Form::Words, ""), (Form::Octal, "")] {
            let written = Written { output: nothing.into(), refusal: None };
            assert_eq!(show_image(&[], form), written);
        }
    }

    /// A cut at the end of a record leaves a good image; every other cut is 21 at the record's place.
    #[test]
    fn cuts_at_every_place() {
        for length in 0..IMAGE.len() {
            let place = [0, 20, 24, 38].into_iter().rfind(|&place| place <= length).unwrap_or(0);
            let expected = (length != place).then_some((21, place));
            assert_eq!(fault_of(&IMAGE[..length]), expected, "{length}");
        }
    }

    /// Every other second length is 20, and every other first length a fault of some kind.
    #[test]
    fn lengths_that_differ() {
        for bit in 0..32 {
            for (at, fault) in [(16, Some(20)), (34, Some(20)), (0, None), (24, None)] {
                let mut image = IMAGE;
                image[at + bit / 8] ^= 1 << (bit % 8);
                let (number, place) = fault_of(&image).expect("a fault");
                assert_eq!(place, if at < 20 { 0 } else { 24 });
                assert!(fault.is_none_or(|fault| fault == number), "{at} {bit}: {number}");
            }
        }
    }

    #[test]
    fn the_highest_number_that_applies() {
        let zeros = [0; 6_160];
        let record = |length: u32, data: usize, second: u32| {
            image_of(&[&[0; 4], &length.to_le_bytes(), &zeros[..data], &second.to_le_bytes()])
        };
        for (length, data, second, number) in [
            (6, 6, 7, 20),
            (6, 5, 6, 21),
            (7, 8, 7, 22),
            (7, 7, 7, 22),
            (8, 8, 8, 22),
            (8, 8, 9, 22),
            (8, 3, 8, 22),
            (1, 2, 1, 22),
            (6_143, 6_144, 6_143, 22),
            (6_145, 6_146, 6_145, 23),
            (6_150, 6_150, 6_150, 23),
            (6_150, 6_150, 0, 23),
            (6_150, 0, 6_150, 23),
            (0xFFFF_FFFF, 0, 0xFFFF_FFFF, 23),
            (0xFFFF_FFFE, 0, 0, 23),
            (0x8000_0006, 6, 0x8000_0006, 23),
            (0x0100_0006, 6, 0x0100_0006, 23),
        ] {
            assert_eq!(
                fault_of(&record(length, data, second)),
                Some((number, 4)),
                "{length} {data} {second}"
            );
        }
        assert_eq!(fault_of(&record(6_144, 6_144, 6_144)), None);
        assert_eq!(fault_of(&record(6_144, 6_143, 6_144)), Some((21, 4)));
        assert_eq!(fault_of(&record(12, 6, 12)), Some((21, 4)));
    }

    #[test]
    fn faults_as_they_are_told() {
        let told = |tail: &[u8], text: &str| {
            let image = image_of(&[&IMAGE, tail]);
            for (form, lines) in [(Form::List, 4), (Form::Words, 4), (Form::Octal, 4)] {
                let written = show_image(&image, form);
                assert_eq!(written.refusal.as_deref(), Some(text));
                assert_eq!(written.output.iter().filter(|&&byte| byte == b'\n').count(), lines);
                assert!(!written.output.starts_with(b"end") && written.output.ends_with(b"\n"));
            }
        };
        told(&[6, 0, 0, 0, 1, 2, 3, 4, 5, 6, 5, 0, 0, 0, 9], "refused 20 at byte 42: the two lengths differ");
        told(&[0, 0, 0], "refused 21 at byte 42: the record is cut");
        told(&[3, 0, 0, 0], "refused 22 at byte 42: the data length is no multiple of six");
        let other = "refused 23 at byte 42: the length is over 6,144 or has another meaning";
        told(&[255, 255, 255, 255], other);
    }
}
