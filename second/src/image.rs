//! State images (document 02, M-103): a state and the program's area as bytes, and back. Every byte has one meaning;
//! what has none is zero, and an image in which it is not is bad.

use crate::channel::{Operation, Position, Request, Turn, UNITS};
use crate::pack::{Pack, CHANNELS, FILES};
use crate::routine::DEEPEST;
use crate::session::AREA_WORDS;
use crate::sound::{broken_clauses, is_sound, Clause};
use crate::state::{
    Buffer, ChannelState, FileState, ProgramState, ProgramsState, RoutineState, Slot, State, UnitState,
};
use crate::state_pack::{pack_of, state_of};
use crate::word::Fields;

/// The bytes of each part.
const OWN_BYTES: usize = 4;
const UNIT_BYTES: usize = 12;
const CHANNEL_BYTES: usize = 2 + UNITS * UNIT_BYTES;
const BUFFER_BYTES: usize = 20;
const FILE_BYTES: usize = 15 + 2 * BUFFER_BYTES;
const PROGRAM_BYTES: usize = 4;
const PROGRAMS_BYTES: usize = 1 + (1 + DEEPEST) * PROGRAM_BYTES;
const POST_BYTES: usize = 4;
const WORD_BYTES: usize = 8;

/// The place of the first area word, and the length of an image.
pub const AREA_PLACE: usize = OWN_BYTES
    + CHANNELS * CHANNEL_BYTES
    + FILES * FILE_BYTES
    + PROGRAMS_BYTES
    + CHANNELS * UNITS * POST_BYTES;
pub const IMAGE_BYTES: usize = AREA_PLACE + AREA_WORDS * WORD_BYTES;

/// The kinds of turns and of slots, as bytes.
const IDLE: u64 = 0;
const WAITING: u64 = 1;
const DISPLACED: u64 = 2;
const WORKING: u64 = 3;
const EMPTY: u64 = 0;
const TAKEN: u64 = 1;
const PART_FILLED: u64 = 2;
const FULL: u64 = 3;

/// Why bytes are no image of a sound state.
#[derive(Clone, Debug, PartialEq, Eq)]
pub enum Fault {
    /// Another length.
    Length(usize),
    /// The first byte, or the last of a number, that can not be what it is, whatever the others are.
    Byte(usize),
    /// All bytes can be read, and the state breaks these clauses.
    Unsound(Vec<Clause>),
}

/// The pack of an image.
pub fn pack_of_image(image: &[u8]) -> Result<Pack, Fault> {
    let state = state_of_image(image)?;
    let words = image[AREA_PLACE..].chunks_exact(WORD_BYTES);
    let area: Vec<u64> = words.map(number_of).collect();
    Ok(pack_of(&state, &area))
}

/// Whether bytes are the image of a sound state.
pub fn is_good(image: &[u8]) -> bool {
    image.len() == IMAGE_BYTES && read_state(image).is_ok_and(|state| is_sound(&state))
}

/// The state of an image, without its area: words there are of any value.
pub fn state_of_image(image: &[u8]) -> Result<State, Fault> {
    if image.len() != IMAGE_BYTES {
        return Err(Fault::Length(image.len()));
    }
    let state = read_state(image).map_err(Fault::Byte)?;
    match broken_clauses(&state)[..] {
        [] => Ok(state),
        ref broken => Err(Fault::Unsound(broken.to_vec())),
    }
}

/// The image of a pack whose area is the program's.
pub fn image_of(pack: &Pack) -> Vec<u8> {
    let state = state_of(pack);
    let mut writer = Writer { bytes: Vec::with_capacity(IMAGE_BYTES) };
    writer.byte(state.buffers);
    writer.truth(state.frozen);
    writer.two(state.width);
    state.channels.iter().for_each(|channel| writer.channel(channel));
    state.files.iter().for_each(|file| writer.file(file));
    writer.programs(&state.programs);
    for unit in state.channels.iter().flat_map(|channel| &channel.units) {
        [unit.named, unit.waiting].iter().for_each(|routine| writer.routine(routine));
    }
    for word in &pack.area {
        writer.bytes.extend(word.to_le_bytes());
    }
    assert_eq!(writer.bytes.len(), IMAGE_BYTES);
    writer.bytes
}

/// Reads the numbers ahead of the area; the place of a byte that can not be is the error.
fn read_state(image: &[u8]) -> Result<State, usize> {
    let mut reader = Reader { bytes: &image[..AREA_PLACE], place: 0 };
    let mut state = State { buffers: reader.byte(), frozen: reader.truth()?, ..State::default() };
    state.width = reader.two();
    for channel in &mut state.channels {
        *channel = reader.channel()?;
    }
    for file in &mut state.files {
        *file = reader.file()?;
    }
    state.programs = reader.programs();
    for unit in state.channels.iter_mut().flat_map(|channel| &mut channel.units) {
        unit.named = reader.routine();
        unit.waiting = reader.routine();
    }
    assert_eq!(reader.place, AREA_PLACE);
    // "The free mask of M-104 need not stand in the image: it follows from the files."
    state.free = state.free_mask();
    Ok(state)
}

/// "lowest byte first".
fn number_of(bytes: &[u8]) -> u64 {
    bytes.iter().rev().fold(0, |number, &byte| number << 8 | u64::from(byte))
}

struct Reader<'a> {
    bytes: &'a [u8],
    place: usize,
}

impl Reader<'_> {
    fn number(&mut self, bytes: usize) -> u64 {
        let number = number_of(&self.bytes[self.place..][..bytes]);
        self.place += bytes;
        number
    }

    fn byte(&mut self) -> u64 {
        self.number(1)
    }

    fn two(&mut self) -> u64 {
        self.number(2)
    }

    /// The number that was read last can not be.
    fn bad<T>(&self) -> Result<T, usize> {
        Err(self.place - 1)
    }

    /// "A truth is one byte, 0 or 1".
    fn truth(&mut self) -> Result<bool, usize> {
        match self.byte() {
            0 => Ok(false),
            1 => Ok(true),
            _ => self.bad(),
        }
    }

    /// A number that is meant; where nothing is, it is zero.
    fn meant(&mut self, bytes: usize, meant: bool) -> Result<u64, usize> {
        match self.number(bytes) {
            number if meant || number == 0 => Ok(number),
            _ => self.bad(),
        }
    }

    fn channel(&mut self) -> Result<ChannelState, usize> {
        let mut channel =
            ChannelState { mark: self.byte(), priority_mark: self.byte(), ..ChannelState::default() };
        for unit in &mut channel.units {
            *unit = self.unit()?;
        }
        Ok(channel)
    }

    fn unit(&mut self) -> Result<UnitState, usize> {
        let declared = self.truth()?;
        let turn = match self.byte() {
            IDLE => None,
            WAITING => Some(Turn::Waiting),
            DISPLACED => Some(Turn::Displaced),
            WORKING => Some(Turn::Working),
            _ => return self.bad(),
        };
        let asked = turn.is_some();
        let Some(operation) = Operation::of(self.meant(1, asked)?) else {
            return self.bad();
        };
        let priority = self.truth()?;
        if priority && !asked {
            return self.bad();
        }
        let attempt = self.meant(1, asked)?;
        let incomplete_words = self.meant(1, asked)?;
        let noise = self.meant(1, asked)?;
        let noise_met = self.truth()?;
        let position = Position { marks: self.two(), records: self.two(), noise_met };
        let request =
            turn.map(|turn| Request { operation, priority, turn, attempt, incomplete_words, noise });
        Ok(UnitState { declared, request, position, ..UnitState::default() })
    }

    fn file(&mut self) -> Result<FileState, usize> {
        Ok(FileState {
            opened: self.truth()?,
            channel: self.byte(),
            unit: self.byte(),
            output: self.truth()?,
            double: self.truth()?,
            sequence: self.truth()?,
            check: self.truth()?,
            turned: self.truth()?,
            marked: self.truth()?,
            block_size: self.two(),
            record_length: self.two(),
            number: self.two(),
            low: self.buffer()?,
            high: self.buffer()?,
        })
    }

    fn buffer(&mut self) -> Result<Buffer, usize> {
        let number = self.byte();
        let kind = self.byte();
        if kind > FULL {
            return self.bad();
        }
        let full = kind == FULL;
        let read_error = self.meant(1, full)?;
        let error = self.meant(1, full)?;
        let words = self.meant(2, full || kind == PART_FILLED)?;
        let at = self.meant(2, full)?;
        let found = Fields {
            number: self.meant(2, full)?,
            number_read: self.meant(2, full)?,
            sum: self.meant(4, full)?,
            sum_read: self.meant(4, full)?,
        };
        let slot = match kind {
            EMPTY => Slot::Empty,
            TAKEN => Slot::Taken,
            PART_FILLED => Slot::PartFilled { words },
            _ => Slot::Full { words, at, error, read_error, found },
        };
        Ok(Buffer { number, slot })
    }

    fn programs(&mut self) -> ProgramsState {
        let depth = self.byte();
        let runs = self.program();
        ProgramsState { runs, depth, list: std::array::from_fn(|_| self.program()) }
    }

    fn program(&mut self) -> ProgramState {
        ProgramState { rank: self.byte(), channel: self.byte(), unit: self.byte(), routine: self.byte() }
    }

    fn routine(&mut self) -> RoutineState {
        RoutineState { rank: self.byte(), routine: self.byte() }
    }
}

struct Writer {
    bytes: Vec<u8>,
}

impl Writer {
    /// A number of a sound state fits its bytes.
    fn number(&mut self, number: u64, bytes: usize) {
        self.bytes.extend(&number.to_le_bytes()[..bytes]);
    }

    fn byte(&mut self, number: u64) {
        self.number(number, 1);
    }

    fn two(&mut self, number: u64) {
        self.number(number, 2);
    }

    fn truth(&mut self, truth: bool) {
        self.byte(truth.into());
    }

    fn channel(&mut self, channel: &ChannelState) {
        self.byte(channel.mark);
        self.byte(channel.priority_mark);
        channel.units.iter().for_each(|unit| self.unit(unit));
    }

    fn unit(&mut self, unit: &UnitState) {
        self.truth(unit.declared);
        match &unit.request {
            None => self.bytes.extend([0; 6]),
            Some(request) => {
                self.byte(match request.turn {
                    Turn::Waiting => WAITING,
                    Turn::Displaced => DISPLACED,
                    Turn::Working => WORKING,
                });
                self.byte(request.operation.number());
                self.truth(request.priority);
                self.byte(request.attempt);
                self.byte(request.incomplete_words);
                self.byte(request.noise);
            }
        }
        self.truth(unit.position.noise_met);
        self.two(unit.position.marks);
        self.two(unit.position.records);
    }

    fn file(&mut self, file: &FileState) {
        self.truth(file.opened);
        self.byte(file.channel);
        self.byte(file.unit);
        for truth in [file.output, file.double, file.sequence, file.check, file.turned, file.marked] {
            self.truth(truth);
        }
        self.two(file.block_size);
        self.two(file.record_length);
        self.two(file.number);
        self.buffer(&file.low);
        self.buffer(&file.high);
    }

    fn buffer(&mut self, buffer: &Buffer) {
        let nothing = Fields::default();
        let (kind, [read_error, error], [words, at], found) = match buffer.slot {
            Slot::Empty => (EMPTY, [0; 2], [0; 2], nothing),
            Slot::Taken => (TAKEN, [0; 2], [0; 2], nothing),
            Slot::PartFilled { words } => (PART_FILLED, [0; 2], [words, 0], nothing),
            Slot::Full { words, at, error, read_error, found } => {
                (FULL, [read_error, error], [words, at], found)
            }
        };
        [buffer.number, kind, read_error, error].iter().for_each(|&number| self.byte(number));
        [words, at, found.number, found.number_read].iter().for_each(|&number| self.two(number));
        [found.sum, found.sum_read].iter().for_each(|&sum| self.number(sum, 4));
    }

    fn programs(&mut self, programs: &ProgramsState) {
        self.byte(programs.depth);
        for program in [&programs.runs].into_iter().chain(&programs.list) {
            let ProgramState { rank, channel, unit, routine } = *program;
            [rank, channel, unit, routine].iter().for_each(|&number| self.byte(number));
        }
    }

    fn routine(&mut self, routine: &RoutineState) {
        self.byte(routine.rank);
        self.byte(routine.routine);
    }
}

#[cfg(test)]
mod tests {
    use super::*;
    use crate::frame::answer_line;
    use crate::generate::session_of;
    use crate::profile::{Profile, PROFILES};
    use crate::session::new_pack;

    /// The pack after a session of a profile.
    fn pack_after(profile: Profile, seed: u64, frames: usize) -> Pack {
        let mut pack = new_pack();
        for line in session_of(profile, seed, frames) {
            answer_line(&mut pack, &line);
        }
        pack
    }

    /// A pack with a bit of everything: channel 0 works and has a waiting and a displaced request, files of both
    /// directions hold blocks, a routine runs over another, one is named and one waits.
    fn full_pack() -> Pack {
        let mut pack = new_pack();
        for line in [
            "000C0004001F0003000000000200",
            "010300000F00030001",
            "010000010E00030001",
            "010100020200030001",
            "010200030000030001",
            "010F04090300020001",
            "010E01000000010001",
            "010D01010100010001",
            "06030000000005",
            "06030000000006",
            "06030000000007",
            "06030000000008",
            "060F0000000009",
            "03000000",
            "04000100 00000000010000000002 00000C0001",
            "03000000",
            "04000101",
            "04000101",
            "04000100 0000000003 00000C0001",
            "0500",
            "030E00000101",
            "0401000000000000AA",
            "030D02001102",
            "04010100",
            "030D02002201",
            "04010100",
            "030200013303",
            "03010000",
            "0400030100010000000001",
            "03030101 4404",
            "04000301",
        ] {
            let line = line.replace(' ', "");
            let answer = answer_line(&mut pack, line.as_bytes());
            assert!(answer.starts_with(b"00"), "{line}: {}", String::from_utf8_lossy(&answer));
        }
        pack
    }

    #[test]
    fn sizes_are_those_of_the_page() {
        assert_eq!((AREA_PLACE, IMAGE_BYTES), (1_715, 34_483));
        assert_eq!((CHANNEL_BYTES, FILE_BYTES, PROGRAMS_BYTES), (122, 55, 21));
    }

    /// The image before the first fresh start is all zeros.
    #[test]
    fn the_first_image() {
        assert!(image_of(&new_pack()).iter().all(|&byte| byte == 0));
        assert_eq!(pack_of_image(&vec![0; IMAGE_BYTES]), Ok(new_pack()));
        for length in [0, 1, AREA_PLACE, IMAGE_BYTES - 1, IMAGE_BYTES + 1] {
            assert_eq!(state_of_image(&vec![0; length]), Err(Fault::Length(length)));
            assert!(!is_good(&vec![0; length]));
        }
    }

    /// Numbers where the page says that they stand.
    #[test]
    fn places_of_numbers() {
        let pack = full_pack();
        let image = image_of(&pack);
        let at = |place: usize, bytes: &[u8]| assert_eq!(&image[place..][..bytes.len()], bytes, "{place}");
        at(0, &[12, 0, 4, 0]);
        // Channel 0: the marks; units 0, 1, 2 and 3.
        at(4, &[2, 0]);
        at(6, &[1, 1, 1, 1, 1, 0, 0, 0, 0, 0, 0, 0]);
        at(6 + 12, &[1, 0, 0, 0, 0, 0, 0, 0, 0, 0, 2, 0]);
        at(6 + 24, &[1, 1, 0, 0, 1, 0, 0, 0, 0, 0, 0, 0]);
        at(6 + 36, &[1, 3, 0, 1, 2, 0, 1, 1, 0, 0, 0, 0]);
        // Channel 4, unit 9.
        at(4 + 4 * 122 + 2 + 9 * 12, &[1, 0, 0, 0, 0, 0, 0, 0, 0, 0, 0, 0]);
        // File 0: channel 0, unit 1, input, double, sequence, check; its buffers are 2 and 3.
        let file = 614;
        at(file, &[1, 0, 1, 0, 1, 1, 1, 0, 0, 3, 0, 1, 0, 3, 0]);
        at(file + 15, &[2, 3, 0, 0, 2, 0, 1, 0, 1, 0, 1, 0, 3, 0, 0, 0, 3, 0, 0, 0]);
        at(file + 35, &[3, 3, 0, 1, 1, 0, 0, 0, 2, 0, 1, 0, 3, 0, 0, 0, 3, 0, 0, 0]);
        // File 3: output, with a full block of three words and a part-filled buffer of one.
        let file = 614 + 3 * 55;
        at(file, &[1, 0, 0, 1, 1, 1, 1, 0, 0, 3, 0, 1, 0, 2, 0]);
        at(file + 15, &[0, 3, 0, 0, 3, 0, 0, 0]);
        at(file + 35, &[1, 2, 0, 0, 1, 0, 0, 0]);
        at(614 + 4 * 55, &[0; 55]);
        // What runs: routine 0x11 of priority 2, of channel 1, unit 1; below it the main program and routine 1.
        at(1_494, &[3 - 1, 3, 1, 1, 0x11, 0, 0, 0, 0, 2, 1, 0, 1, 0, 0, 0, 0, 0, 0, 0, 0]);
        // Posts: unit 0 of channel 0 names 0x44, unit 3 names 0x33; at unit 1 of channel 1 waits 0x22.
        at(1_515, &[5, 0x44, 0, 0]);
        at(1_515 + 12, &[4, 0x33, 0, 0]);
        at(1_515 + 40 + 4, &[0, 0, 2, 0x22]);
        // The area, lowest byte first.
        at(1_715, &[5, 0, 0, 0, 0, 0, 0, 0, 6, 0, 0, 0, 0, 0, 0, 0]);
        at(1_715 + 8 * 8, &[1, 0, 0, 0, 0, 0, 0, 0]);
        assert_eq!(pack_of_image(&image), Ok(pack));
    }

    #[test]
    fn images_go_to_a_pack_and_back() {
        for (name, profile) in PROFILES {
            for frames in [1, 20, 300, 1_500] {
                let pack = pack_after(profile, 5, frames);
                assert_eq!(pack_of_image(&image_of(&pack)), Ok(pack), "{name} {frames}");
            }
        }
    }

    /// A word of the area is of any value.
    #[test]
    fn area_words_are_of_any_value() {
        let mut image = image_of(&full_pack());
        for place in [AREA_PLACE, AREA_PLACE + 7, AREA_PLACE + 40, IMAGE_BYTES - 1] {
            image[place] = 0xFF;
        }
        let pack = pack_of_image(&image).expect("a good image");
        assert_eq!(pack.area[0], 5 | 0xFF << 56 | 0xFA);
        assert_eq!(image_of(&pack), image);
    }

    /// Of every changed byte: a good image is its own state's, and no other's.
    #[test]
    fn every_byte_that_is_changed() {
        let all: Vec<u8> = (0..=255).collect();
        let some = [0, 1, 2, 3, 4, 5, 6, 9, 10, 27, 28, 32, 33, 100, 101, 102, 127, 128, 255];
        for (pack, values) in [
            (new_pack(), &some[..]),
            (full_pack(), &all),
            (pack_after(Profile::Routines, 8, 400), &some),
            (pack_after(Profile::Kept, 8, 400), &some),
        ] {
            let right = image_of(&pack);
            assert!(is_good(&right));
            let mut image = right.clone();
            let mut good = 0;
            for place in 0..AREA_PLACE {
                for &value in values {
                    image[place] = value;
                    if is_good(&image) {
                        good += 1;
                        let other = pack_of_image(&image).expect("a good image");
                        assert_eq!(other == pack, value == right[place]);
                        assert!(image_of(&other) == image, "{place} {value}");
                    } else {
                        assert_ne!(value, right[place]);
                    }
                }
                image[place] = right[place];
            }
            assert!(good > AREA_PLACE / 2 && good < 30 * AREA_PLACE, "{good}");
        }
    }

    /// Faults name the byte that can not be, or the clauses that are broken.
    #[test]
    fn faults() {
        let right = image_of(&full_pack());
        let fault = |place: usize, value: u8| {
            let mut image = right.clone();
            image[place] = value;
            state_of_image(&image).err()
        };
        for place in [1, 6, 6 + 3, 6 + 7, 614, 614 + 3, 614 + 8] {
            assert_eq!(fault(place, 2), Some(Fault::Byte(place)));
        }
        assert_eq!(fault(6 + 1, 4), Some(Fault::Byte(7)));
        assert_eq!(fault(6 + 2, 3), Some(Fault::Byte(8)));
        assert_eq!(fault(18 + 4, 1), Some(Fault::Byte(22)));
        assert_eq!(fault(614 + 16, 4), Some(Fault::Byte(630)));
        assert_eq!(fault(614 + 5 * 55 + 20, 1), Some(Fault::Byte(614 + 5 * 55 + 20)));
        assert_eq!(fault(4, 10), Some(Fault::Unsound(vec![Clause::ScanMarks])));
        assert_eq!(fault(1_494, 5), Some(Fault::Unsound(vec![Clause::ListDepth, Clause::RisingPriorities])));
        assert_eq!(fault(1_515 + 1, 0x45), None);
    }
}
