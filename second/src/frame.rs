//! Frames, one a line (document 01, "The session program").

use crate::pack::{Got, Opening, Pack, Reported, CHANNELS, NO_LENGTH};
use crate::refusals::Refusals;
use crate::routine::{Program, Returned, Routine};
use crate::word::Fields;

/// "Over 10,248 digits is malformed"; M-106: "Lines then run to 10,252 digits."
pub const LONGEST_LINE: usize = 10_252;
/// "Words are five bytes, highest first."
const WORD_BYTES: usize = 5;
/// The byte for a working unit if there is none, and the three bytes for the main program.
const NO_UNIT: u8 = 0xFF;
const MAIN_PROGRAM: [u8; 3] = [0xFF; 3];

/// A frame that is well formed.
#[derive(Clone, Debug, PartialEq, Eq)]
pub enum Frame {
    Fresh {
        buffers: u64,
        width: u64,
        masks: [u64; CHANNELS],
    },
    Open(Opening),
    Close {
        file: u64,
    },
    Ask {
        file: u64,
        operation: u64,
        priority: u64,
        /// The four-byte form names no routine.
        names: Option<Routine>,
    },
    /// Without a length it has `NO_LENGTH`.
    Report {
        channel: u64,
        unit: u64,
        outcome: u64,
        length: u64,
        words: Vec<u64>,
    },
    Get {
        file: u64,
    },
    Put {
        file: u64,
        words: Vec<u64>,
    },
    Seal {
        file: u64,
    },
    Skip {
        file: u64,
    },
    Freeze,
    Thaw,
    /// The routine that runs returns (document 02, M-110).
    Return,
    /// Asks what runs.
    Running,
}

impl Frame {
    /// Reading A21: report, get, put and seal judge the area against the state's m×W; a fresh start does so against
    /// its own.
    fn works_on_the_area(&self) -> bool {
        matches!(self, Frame::Report { .. } | Frame::Get { .. } | Frame::Put { .. } | Frame::Seal { .. })
    }
}

/// Answers a line, without its line feed: a frame that is malformed is refused 1.
pub fn answer_line(pack: &mut Pack, line: &[u8]) -> Vec<u8> {
    let answer = frame_of(line).ok_or(1).and_then(|frame| answer_frame(pack, &frame));
    match answer {
        Ok(bytes) => digits_of(&bytes),
        Err(refusal) => digits_of(&[refusal as u8]),
    }
}

/// The frame of a line, if it is well formed.
pub fn frame_of(line: &[u8]) -> Option<Frame> {
    if line.len() > LONGEST_LINE {
        return None;
    }
    let bytes = bytes_of(line)?;
    Some(match bytes[..] {
        [0x00, m, w_high, w_low, ref masks @ ..] => {
            Frame::Fresh { buffers: m.into(), width: size(w_high, w_low), masks: masks_of(masks)? }
        }
        [0x01, file, channel, unit, flags, b_high, b_low, r_high, r_low] => Frame::Open(Opening {
            file: file.into(),
            channel: channel.into(),
            unit: unit.into(),
            flags: flags.into(),
            block_size: size(b_high, b_low),
            record_length: size(r_high, r_low),
        }),
        [0x02, file] => Frame::Close { file: file.into() },
        [0x03, file, operation, priority] => {
            let names = None;
            Frame::Ask { file: file.into(), operation: operation.into(), priority: priority.into(), names }
        }
        [0x03, file, operation, priority, routine, level] => {
            let names = Some(Routine { number: routine.into(), level: level.into() });
            Frame::Ask { file: file.into(), operation: operation.into(), priority: priority.into(), names }
        }
        [0x04, channel, unit, outcome, ref rest @ ..] => {
            let (length, words) = length_of(rest);
            Frame::Report {
                channel: channel.into(),
                unit: unit.into(),
                outcome: outcome.into(),
                length,
                words: words_of(words)?,
            }
        }
        [0x05, file] => Frame::Get { file: file.into() },
        [0x06, file, ref words @ ..] => Frame::Put { file: file.into(), words: words_of(words)? },
        [0x07, file] => Frame::Seal { file: file.into() },
        [0x08, file] => Frame::Skip { file: file.into() },
        [0x09] => Frame::Freeze,
        [0x0A] => Frame::Thaw,
        [0x0B] => Frame::Return,
        [0x0C] => Frame::Running,
        _ => return None,
    })
}

/// The line of a frame, without its line feed; the numbers must fit their bytes.
pub fn line_of(frame: &Frame) -> Vec<u8> {
    let mut bytes = Vec::new();
    match frame {
        Frame::Fresh { buffers, width, masks } => {
            bytes.extend([0x00, *buffers as u8]);
            bytes.extend((*width as u16).to_be_bytes());
            masks.iter().for_each(|mask| bytes.extend((*mask as u16).to_be_bytes()));
        }
        Frame::Open(opening) => {
            bytes.extend([0x01, opening.file as u8, opening.channel as u8]);
            bytes.extend([opening.unit as u8, opening.flags as u8]);
            bytes.extend((opening.block_size as u16).to_be_bytes());
            bytes.extend((opening.record_length as u16).to_be_bytes());
        }
        Frame::Close { file } => bytes.extend([0x02, *file as u8]),
        Frame::Ask { file, operation, priority, names } => {
            bytes.extend([0x03, *file as u8, *operation as u8, *priority as u8]);
            bytes.extend(names.iter().flat_map(|routine| [routine.number as u8, routine.level as u8]));
        }
        Frame::Report { channel, unit, outcome, length, words } => {
            bytes.extend([0x04, *channel as u8, *unit as u8, *outcome as u8]);
            if *length != NO_LENGTH {
                bytes.extend((*length as u16).to_be_bytes());
            }
            add_words(&mut bytes, words);
        }
        Frame::Get { file } => bytes.extend([0x05, *file as u8]),
        Frame::Put { file, words } => {
            bytes.extend([0x06, *file as u8]);
            add_words(&mut bytes, words);
        }
        Frame::Seal { file } => bytes.extend([0x07, *file as u8]),
        Frame::Skip { file } => bytes.extend([0x08, *file as u8]),
        Frame::Freeze => bytes.push(0x09),
        Frame::Thaw => bytes.push(0x0A),
        Frame::Return => bytes.push(0x0B),
        Frame::Running => bytes.push(0x0C),
    }
    digits_of(&bytes)
}

/// Makes the call of a frame. "First byte 00 or the refusal": the bytes of an accepted call. 1: "the area is short",
/// which that of a session never is, but that of a state image (M-103) can be.
fn answer_frame(pack: &mut Pack, frame: &Frame) -> Result<Vec<u8>, u64> {
    if frame.works_on_the_area() && pack.area.len() < pack.buffers * pack.width {
        return Err(1);
    }
    let mut answer = vec![0x00];
    match frame {
        Frame::Fresh { buffers, width, masks } => pack.fresh(*buffers, *width, *masks)?,
        Frame::Open(opening) => pack.open(opening)?,
        Frame::Close { file } => pack.close(*file)?,
        // "ask adds the channel's working unit, FF for none"
        Frame::Ask { file, operation, priority, names } => {
            answer.push(unit_byte(pack.ask_naming(*file, *operation, *priority, *names)?));
        }
        Frame::Report { channel, unit, outcome, length, words } => {
            add_report(&mut answer, &pack.report_length(*channel, *unit, *outcome, *length, words)?);
        }
        Frame::Get { file } => add_get(&mut answer, &pack.get(*file)?),
        Frame::Put { file, words } => pack.put(*file, words)?,
        Frame::Seal { file } => pack.seal(*file)?,
        Frame::Skip { file } => pack.skip(*file)?,
        Frame::Freeze => pack.freeze(),
        Frame::Thaw => pack.thaw(),
        // Return adds "01 if a waiting routine was entered or 00 if the pushed program resumed", then what runs
        // now.
        Frame::Return => {
            let Returned { entered, runs } = pack.give_back()?;
            answer.push(entered.into());
            answer.extend(program_bytes(&runs));
        }
        Frame::Running => answer.extend(program_bytes(&pack.running())),
    }
    Ok(answer)
}

/// All refusals that apply to a frame, for counting them.
pub fn refusals_of(pack: &Pack, frame: &Frame) -> Refusals {
    match frame {
        Frame::Fresh { buffers, width, masks } => pack.fresh_refusals(*buffers, *width, *masks),
        Frame::Open(opening) => pack.open_refusals(opening),
        Frame::Close { file } => pack.close_refusals(*file),
        Frame::Ask { file, operation, priority, names } => {
            pack.ask_refusals(*file, *operation, *priority, *names)
        }
        Frame::Report { channel, unit, outcome, length, words } => {
            pack.report_refusals(*channel, *unit, *outcome, *length, words)
        }
        Frame::Get { file } => pack.get_refusals(*file),
        Frame::Put { file, words } => pack.put_refusals(*file, words),
        Frame::Seal { file } => pack.seal_refusals(*file),
        Frame::Skip { file } => pack.skip_refusals(*file),
        Frame::Return => pack.return_refusals(),
        Frame::Freeze | Frame::Thaw | Frame::Running => Refusals::new(),
    }
}

/// "Report adds result, check error, working unit and, if it ends a write with 01 or 04, the
/// block's words". M-102: a report that delivers a block carries what was found "after the error number".
fn add_report(answer: &mut Vec<u8>, reported: &Reported) {
    answer.extend([reported.result.number() as u8, reported.check_error]);
    if let Some(found) = reported.found {
        add_found(answer, found);
    }
    answer.push(unit_byte(reported.working_unit));
    add_words(answer, reported.block);
}

/// "worked-out sum and number first, then those read, four bytes a sum, two a number".
fn add_found(answer: &mut Vec<u8>, found: Fields) {
    for (sum, number) in [(found.sum, found.number), (found.sum_read, found.number_read)] {
        answer.extend((sum as u32).to_be_bytes());
        answer.extend((number as u16).to_be_bytes());
    }
}

/// "Get adds 00 and words, 01 nothing yet, 02 end, 03 and the check error, 04 and a leftover." M-101: 03 and
/// error 4 or 10 come before. M-102: 03 carries what was found at delivery after the error.
fn add_get(answer: &mut Vec<u8>, got: &Got) {
    match got {
        Got::Record(words) => {
            answer.push(0x00);
            add_words(answer, words);
        }
        Got::NothingYet => answer.push(0x01),
        Got::End => answer.push(0x02),
        Got::Error(judged) => {
            answer.extend([0x03, judged.error]);
            add_found(answer, judged.fields);
        }
        Got::Leftover(words) => {
            answer.push(0x04);
            add_words(answer, words);
        }
    }
}

fn unit_byte(unit: Option<usize>) -> u8 {
    unit.map_or(NO_UNIT, |unit| unit as u8)
}

/// "channel, unit and number of what runs now, FF FF FF for the main program".
fn program_bytes(program: &Program) -> [u8; 3] {
    match program {
        Program::Main => MAIN_PROGRAM,
        Program::Special(entered) => {
            [entered.channel as u8, entered.unit as u8, entered.routine.number as u8]
        }
    }
}

/// "Sizes B, r, W are two bytes, highest first."
fn size(high: u8, low: u8) -> u64 {
    u64::from(high) << 8 | u64::from(low)
}

/// "five two-byte unit masks (bit u for unit u)".
fn masks_of(bytes: &[u8]) -> Option<[u64; CHANNELS]> {
    let masks: Vec<u64> =
        bytes.chunks(2).map(|pair| Some(size(pair[0], *pair.get(1)?))).collect::<Option<_>>()?;
    masks.try_into().ok()
}

/// The length of a report and the rest of its bytes: "two bytes ahead of any words, shown by the bytes left
/// over from fives".
fn length_of(bytes: &[u8]) -> (u64, &[u8]) {
    match bytes {
        [high, low, words @ ..] if words.len() % WORD_BYTES == 0 => (size(*high, *low), words),
        _ => (NO_LENGTH, bytes),
    }
}

/// The words of their bytes, if these are a multiple of five.
fn words_of(bytes: &[u8]) -> Option<Vec<u64>> {
    let words = bytes.chunks_exact(WORD_BYTES);
    let whole = words.remainder().is_empty();
    whole
        .then(|| words.map(|word| word.iter().fold(0, |value, &byte| value << 8 | u64::from(byte))).collect())
}

/// The bytes of words, the lowest five of each.
fn add_words(bytes: &mut Vec<u8>, words: &[u64]) {
    for word in words {
        bytes.extend(&word.to_be_bytes()[8 - WORD_BYTES..]);
    }
}

/// The bytes of "pairs of upper-case hexadecimal digits".
fn bytes_of(digits: &[u8]) -> Option<Vec<u8>> {
    let pairs = digits.chunks_exact(2);
    let whole = pairs.remainder().is_empty();
    let bytes: Option<Vec<u8>> =
        pairs.map(|pair| Some(value_of(pair[0])? << 4 | value_of(pair[1])?)).collect();
    bytes.filter(|_| whole)
}

fn value_of(digit: u8) -> Option<u8> {
    match digit {
        b'0'..=b'9' => Some(digit - b'0'),
        b'A'..=b'F' => Some(digit - b'A' + 10),
        _ => None,
    }
}

/// Two upper-case hexadecimal digits for each byte.
fn digits_of(bytes: &[u8]) -> Vec<u8> {
    const DIGITS: &[u8; 16] = b"0123456789ABCDEF";
    bytes.iter().flat_map(|byte| [DIGITS[usize::from(byte >> 4)], DIGITS[usize::from(byte & 15)]]).collect()
}

#[cfg(test)]
mod tests {
    use super::*;

    fn parsed(line: &str) -> Option<Frame> {
        frame_of(line.as_bytes())
    }

    fn report(length: u64, words: &[u64]) -> Frame {
        Frame::Report { channel: 1, unit: 2, outcome: 3, length, words: words.to_vec() }
    }

    #[test]
    fn each_kind_of_frame_has_its_bytes() {
        let masks = [1, 2, 0x3FF, 0x1234, 0xFFFF];
        let opening =
            Opening { file: 15, channel: 4, unit: 9, flags: 8, block_size: 0x102, record_length: 0x304 };
        let frames = [
            ("00200400 0001 0002 03FF 1234 FFFF", Frame::Fresh { buffers: 32, width: 1_024, masks }),
            ("010F04090801020304", Frame::Open(opening)),
            ("02FE", Frame::Close { file: 254 }),
            ("03010203", Frame::Ask { file: 1, operation: 2, priority: 3, names: None }),
            (
                "030102030405",
                Frame::Ask {
                    file: 1,
                    operation: 2,
                    priority: 3,
                    names: Some(Routine { number: 4, level: 5 }),
                },
            ),
            ("04010203", report(NO_LENGTH, &[])),
            ("04010203 0102030405 FFFFFFFFFF", report(NO_LENGTH, &[0x102030405, (1 << 40) - 1])),
            ("04010203 0000", report(0, &[])),
            ("04010203 FFFE", report(0xFFFE, &[])),
            ("04010203 0001 0102030405", report(1, &[0x102030405])),
            ("04010203 1234 0102030405 FFFFFFFFFF", report(0x1234, &[0x102030405, (1 << 40) - 1])),
            ("0511", Frame::Get { file: 17 }),
            ("0601", Frame::Put { file: 1, words: vec![] }),
            ("06010000000007", Frame::Put { file: 1, words: vec![7] }),
            ("0705", Frame::Seal { file: 5 }),
            ("0806", Frame::Skip { file: 6 }),
            ("09", Frame::Freeze),
            ("0A", Frame::Thaw),
            ("0B", Frame::Return),
            ("0C", Frame::Running),
        ];
        for (spaced, frame) in frames {
            let line = spaced.replace(' ', "");
            assert_eq!(parsed(&line), Some(frame.clone()), "{line}");
            assert_eq!(line_of(&frame), line.as_bytes());
        }
    }

    /// Reading B1.
    #[test]
    fn b1_malformed_lines() {
        let lines = [
            "",
            "0",
            "9",
            "090",
            "0a",
            "0A ",
            " 0A",
            "0A\r",
            "0\t",
            "0A\0",
            "0G",
            "0D",
            "FF",
            "0900",
            "0A00",
            "05",
            "050000",
            "07",
            "080000",
            "02",
            "020000",
            "030000",
            "0300000000",
            "03000000000000",
            "0B00",
            "0C00",
            "040000",
            "0400000000",
            "04000001000000",
            "0400000100000000",
            "040000010000000000FF",
            "04000001000000000000000000",
            "060000",
            "06000000",
            "0600000000000000",
            "00010004000100000000000000",
            "000100040001000000000000000000",
            "0001",
            "0100000000000200",
            "01000000000002000100",
            "é0",
        ];
        for line in lines {
            assert_eq!(parsed(line), None, "{line:?}");
        }
    }

    /// Readings B3 and I11: 10,252 digits are a report with a length and 1,024 words; more are malformed.
    #[test]
    fn b3_the_longest_line() {
        let words = "0000000001".repeat(1_024);
        let longest = format!("040000010400{words}");
        assert_eq!(longest.len(), LONGEST_LINE);
        assert!(parsed(&longest).is_some());
        assert!(parsed(&format!("04000000{words}")).is_some());
        assert_eq!(parsed(&format!("040000010401{words}0000000001")), None);
        assert!(parsed(&format!("0600{words}")).is_some());
        assert_eq!(parsed(&format!("0600{words}0000000001")), None);
        assert_eq!(parsed(&format!("{longest}00")), None);
    }

    #[test]
    fn answers_have_upper_case_digits_and_the_refusal_alone() {
        let mut pack = Pack::new(8);
        assert_eq!(answer_line(&mut pack, b"040000000000000005"), b"0B");
        assert_eq!(answer_line(&mut pack, b""), b"01");
        // A length with another outcome than 1.
        assert_eq!(answer_line(&mut pack, b"040000000001"), b"01");
        assert_eq!(answer_line(&mut pack, b"040000010001"), b"0B");
        assert_eq!(answer_line(&mut pack, b"0400000100020000000005"), b"01");
        assert_eq!(answer_line(&mut pack, b"0001000400010000000000000000"), b"00");
        assert_eq!(answer_line(&mut pack, b"010000000000020002"), b"00");
        assert_eq!(answer_line(&mut pack, b"03000000"), b"0000");
        assert_eq!(answer_line(&mut pack, b"040000000FFFFFFFFF"), b"0001000003FFFF0001000000000000FF");
        assert_eq!(answer_line(&mut pack, b"0500"), b"00040FFFFFFFFF");
    }

    /// Reading R6: the answers of return and of what runs; all others stay as they are.
    #[test]
    fn r6_answers_with_routines() {
        let mut pack = Pack::new(8);
        for (line, answer) in [
            ("0C", "00FFFFFF"),
            ("0B", "12"),
            ("0001000402010000000000000000", "00"),
            ("010000090000020002", "00"),
            ("03000000FF05", "01"),
            ("03000000FF04", "0009"),
            ("0C", "00FFFFFF"),
            ("04000903", "000300FF"),
            ("0C", "000009FF"),
            ("0B", "0000FFFFFF"),
            ("0B", "12"),
            ("0C", "00FFFFFF"),
        ] {
            assert_eq!(answer_line(&mut pack, line.as_bytes()), answer.as_bytes(), "{line}");
        }
    }
}
