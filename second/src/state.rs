//! A state in the form that a caller gets and passes back: numbers in their places. A caller can
//! write any number there, so nothing is taken for granted here.

use crate::channel::{Position, Request, UNITS};
use crate::pack::{CHANNELS, FILES};
use crate::routine::DEEPEST;
use crate::word::{Chosen, Fields};

/// What a buffer of a file holds.
#[derive(Clone, Copy, Debug, Default, PartialEq, Eq)]
pub enum Slot {
    #[default]
    Empty,
    /// A read that is unanswered will fill it.
    Taken,
    PartFilled {
        words: u64,
    },
    /// A full block: its data words, the place of get, the check error and the read error (M-101) that are not
    /// told yet, and what the check found.
    Full {
        words: u64,
        at: u64,
        error: u64,
        read_error: u64,
        found: Fields,
    },
}

#[derive(Clone, Copy, Debug, Default, PartialEq, Eq)]
pub struct Buffer {
    pub number: u64,
    pub slot: Slot,
}

/// A file. A closed one is all zero.
#[derive(Clone, Debug, Default, PartialEq, Eq)]
pub struct FileState {
    pub opened: bool,
    pub channel: u64,
    pub unit: u64,
    pub output: bool,
    pub double: bool,
    pub sequence: bool,
    pub check: bool,
    /// The block size B and the record length r.
    pub block_size: u64,
    pub record_length: u64,
    /// Of two full blocks, the one in the high buffer is the older.
    pub turned: bool,
    /// The number of the next block that is sealed or delivered.
    pub number: u64,
    /// A file mark has been read since the open.
    pub marked: bool,
    pub low: Buffer,
    pub high: Buffer,
}

/// A special routine (M-110) that a request names or that waits. The rank is one above its priority, and 0 if
/// there is none.
#[derive(Clone, Copy, Debug, Default, PartialEq, Eq)]
pub struct RoutineState {
    pub rank: u64,
    pub routine: u64,
}

/// A program that runs or was interrupted. The main program has rank 0.
#[derive(Clone, Copy, Debug, Default, PartialEq, Eq)]
pub struct ProgramState {
    pub rank: u64,
    pub channel: u64,
    pub unit: u64,
    pub routine: u64,
}

/// What runs, and the push-down list: so many programs of it, the one pushed first at the bottom, place 0.
#[derive(Clone, Debug, Default, PartialEq, Eq)]
pub struct ProgramsState {
    pub runs: ProgramState,
    pub depth: u64,
    pub list: [ProgramState; DEEPEST],
}

/// A unit; it is idle if it has no request.
#[derive(Clone, Debug, Default, PartialEq, Eq)]
pub struct UnitState {
    pub declared: bool,
    pub request: Option<Request>,
    pub position: Position,
    /// What its request names, and what waits there.
    pub named: RoutineState,
    pub waiting: RoutineState,
}

#[derive(Clone, Debug, Default, PartialEq, Eq)]
pub struct ChannelState {
    /// The unit at which the next scan for ordinary requests begins, and that for priority requests.
    pub mark: u64,
    pub priority_mark: u64,
    pub units: [UnitState; UNITS],
}

/// The whole state. The default is the one before the first fresh start.
#[derive(Clone, Debug, Default, PartialEq, Eq)]
pub struct State {
    /// The pool has `buffers` buffers (m) of `width` words (W).
    pub buffers: u64,
    pub width: u64,
    pub frozen: bool,
    /// The free buffers: bit b stands for buffer b.
    pub free: u32,
    pub channels: [ChannelState; CHANNELS],
    pub files: [FileState; FILES],
    pub programs: ProgramsState,
}

impl Slot {
    pub fn is_full(&self) -> bool {
        matches!(self, Slot::Full { .. })
    }

    pub fn is_part_filled(&self) -> bool {
        matches!(self, Slot::PartFilled { .. })
    }
}

impl FileState {
    /// "Let e be 1 if sequence or check is chosen, else 0."
    pub fn e(&self) -> u64 {
        u64::from(self.sequence || self.check)
    }

    pub fn chosen(&self) -> Chosen {
        Chosen { sequence: self.sequence, check: self.check }
    }

    /// The one or two buffers that the file has if it is open, the low one first.
    pub fn buffers(&self) -> Vec<Buffer> {
        if self.double {
            vec![self.low, self.high]
        } else {
            vec![self.low]
        }
    }

    /// How many of its buffers hold something of a kind.
    pub fn count(&self, kind: impl Fn(&Slot) -> bool) -> usize {
        self.buffers().iter().filter(|buffer| kind(&buffer.slot)).count()
    }
}

impl ProgramsState {
    /// The push-down list from the bottom up; a depth above four has no more than four.
    pub fn pushed(&self) -> &[ProgramState] {
        &self.list[..usize::try_from(self.depth).map_or(DEEPEST, |depth| depth.min(DEEPEST))]
    }

    /// The list from the bottom up, then what runs.
    pub fn in_order(&self) -> impl Iterator<Item = &ProgramState> {
        self.pushed().iter().chain([&self.runs])
    }
}

impl State {
    /// The open files, the lowest first.
    pub fn open_files(&self) -> impl Iterator<Item = &FileState> {
        self.files.iter().filter(|file| file.opened)
    }

    /// The free buffers as the pool and the files tell them: bit b is set exactly if b < m and no open
    /// file holds buffer b.
    pub fn free_mask(&self) -> u32 {
        let held = |number: u64| {
            self.open_files().any(|file| file.buffers().iter().any(|buffer| buffer.number == number))
        };
        let free = (0..u32::BITS).filter(|&bit| u64::from(bit) < self.buffers && !held(u64::from(bit)));
        free.fold(0, |mask, bit| mask | 1 << bit)
    }

    /// A unit; the numbers may be any.
    pub fn unit(&self, channel: u64, unit: u64) -> Option<&UnitState> {
        let channel = self.channels.get(usize::try_from(channel).ok()?)?;
        channel.units.get(usize::try_from(unit).ok()?)
    }

    /// Every unit.
    pub fn units(&self) -> impl Iterator<Item = &UnitState> {
        self.channels.iter().flat_map(|channel| &channel.units)
    }

    /// The open files that are bound to a unit.
    pub fn files_of(&self, channel: u64, unit: u64) -> impl Iterator<Item = &FileState> {
        self.open_files().filter(move |file| file.channel == channel && file.unit == unit)
    }

    /// The unanswered request of a file's unit.
    pub fn request_of(&self, file: &FileState) -> Option<&Request> {
        self.unit(file.channel, file.unit)?.request.as_ref()
    }

    /// Every unanswered request, with its channel and its unit.
    pub fn requests(&self) -> impl Iterator<Item = (u64, u64, &Request)> {
        self.channels.iter().enumerate().flat_map(|(channel, state)| {
            let numbered = state.units.iter().enumerate();
            numbered.filter_map(move |(unit, state)| {
                state.request.as_ref().map(|request| (channel as u64, unit as u64, request))
            })
        })
    }
}
