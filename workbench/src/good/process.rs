//! The clauses of a live process record.

use super::name::{bad_name, BadName};
use crate::layout::*;
use kernel::sizes::*;
use std::fmt;

/// A broken clause of a live record.
#[derive(Clone, Copy, Debug)]
pub enum ProcessClause<'a> {
    /// Document 02, Q-9: "The spare byte holds 1 to 8, with zero as one".
    Share,
    /// "live IDs from 1 to next ID − 1"
    Id { next: usize },
    /// "distinct live IDs"
    SameId { slot: usize },
    /// "SP at most 32"
    StackPointer,
    /// "PC [..] at most their lengths"
    Pc,
    /// "loop (unless none) [..] at most their lengths"
    Loop,
    /// "file offset at most their lengths", so 0 where no file is open
    FileOffset,
    /// "code equal to the directory's file of that name", and no disc has a file of such a name
    Name(BadName),
    /// likewise: this disc has none of that name
    NoProgram,
    /// likewise: it lies elsewhere
    Program(Entry<'a>),
    /// "an open file equal to some directory file"
    OpenFile,
}

/// The clauses that a live record breaks, among all live ones and the disc's files if they are known.
pub fn clauses<'a>(
    record: Record,
    next: usize,
    live: &[Record],
    files: Option<&[Entry<'a>]>,
) -> Vec<ProcessClause<'a>> {
    let same = live.iter().find(|other| other.slot < record.slot && other.id() == record.id());
    // A next ID of 0 is told by itself: it is not the fault of each live ID.
    let is_given_out = record.id() != 0 && (next == 0 || record.id() < next);
    let has_loop = record.loop_place() != NO_LOOP;
    let candidates = [
        (record.share_byte() > MAX_SHARE, ProcessClause::Share),
        (!is_given_out, ProcessClause::Id { next }),
        (same.is_some(), ProcessClause::SameId { slot: same.map_or(0, |other| other.slot) }),
        (record.sp() > STACK_LEN, ProcessClause::StackPointer),
        (record.pc() > record.code_length(), ProcessClause::Pc),
        (has_loop && record.loop_place() > record.code_length(), ProcessClause::Loop),
        (record.file_offset() > record.file_length(), ProcessClause::FileOffset),
    ];
    let registers = candidates.into_iter().filter(|(broken, _)| *broken).map(|(_, clause)| clause);
    registers.chain(program(record, files)).chain(open_file(record, files)).collect()
}

/// "code equal to the directory's file of that name"
fn program<'a>(record: Record, files: Option<&[Entry<'a>]>) -> Option<ProcessClause<'a>> {
    if let Some(bad) = bad_name(record.name()) {
        return Some(ProcessClause::Name(bad));
    }
    match files?.iter().find(|file| file.name == record.name()) {
        None => Some(ProcessClause::NoProgram),
        Some(file) if (file.start, file.length) == (record.code_start(), record.code_length()) => None,
        Some(&file) => Some(ProcessClause::Program(file)),
    }
}

/// "an open file equal to some directory file"; "file length 2 (0: none open)"
fn open_file<'a>(record: Record, files: Option<&[Entry<'a>]>) -> Option<ProcessClause<'a>> {
    (record.file_length() != 0 && record.open_file(files?).is_none()).then_some(ProcessClause::OpenFile)
}

impl ProcessClause<'_> {
    /// Whether it is seen only beside the disc.
    pub fn needs_disc(&self) -> bool {
        matches!(self, ProcessClause::NoProgram | ProcessClause::Program(_) | ProcessClause::OpenFile)
    }

    /// The clause in words, said of the record.
    pub fn words(&self, record: &Record, f: &mut fmt::Formatter<'_>) -> fmt::Result {
        let length = record.code_length();
        match self {
            ProcessClause::Share => write!(f, "its share is {}; a share is at most {MAX_SHARE}", record.share_byte()),
            ProcessClause::Id { next } => write!(f, "its ID is not from 1 to below the next ID, {next}"),
            ProcessClause::SameId { slot } => write!(f, "slot {slot} has the same ID"),
            ProcessClause::StackPointer => write!(f, "SP is {}; a stack has {STACK_LEN} bytes", record.sp()),
            ProcessClause::Pc => write!(f, "PC is {}, beyond its code of {length} bytes", record.pc()),
            ProcessClause::Loop => {
                write!(f, "its loop place is {}, beyond its code of {length} bytes", record.loop_place())
            }
            ProcessClause::FileOffset if record.file_length() == 0 => {
                write!(f, "its file offset is {}, and no file is open", record.file_offset())
            }
            ProcessClause::FileOffset => {
                let (offset, length) = (record.file_offset(), record.file_length());
                write!(f, "its file offset is {offset}, beyond its open file of {length} bytes")
            }
            ProcessClause::Name(bad) => write!(f, "{bad}"),
            ProcessClause::NoProgram => write!(f, "the disc has no file of its name"),
            ProcessClause::Program(file) => {
                let (start, own_start, own_length) = (record.code_start(), file.start, file.length);
                write!(
                    f,
                    "its code is {length} bytes at {start}; the disc has that file with {own_length} at {own_start}"
                )
            }
            ProcessClause::OpenFile => {
                let (start, length) = (record.file_start(), record.file_length());
                write!(f, "its open file is {length} bytes at {start}; the disc has no such file")
            }
        }
    }
}
