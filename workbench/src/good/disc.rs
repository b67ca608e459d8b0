//! The clauses of a good disc.

use super::name::{bad_name, BadName};
use super::{overlap, Span};
use crate::layout::{entries, trimmed, Entry, DATA_START, FILE_COUNT, MAX_FILES};
use crate::literal;
use std::fmt;

/// A broken clause of a good disc.
#[derive(Clone, Copy, Debug)]
pub enum Clause<'a> {
    /// "Byte 160 is the file count, at most 10."
    Count { count: u8, blank: bool },
    /// "A name is 1 to 11 bytes of 33 to 126, zero-filled."
    Name(Entry<'a>, BadName),
    /// "lengths from 1"
    Empty(Entry<'a>),
    /// "inside the data bytes", which begin at 161
    Start(Entry<'a>),
    /// "inside the data bytes", which end with the disc
    End { entry: Entry<'a>, disc_length: usize },
    /// "distinct names"
    SameName(Entry<'a>, Entry<'a>),
    /// "disjoint files"
    Overlap(Entry<'a>, Entry<'a>),
}

/// The clauses of a good disc that this one, of 1,024 or 4,096 bytes, breaks; none if it is good.
/// Where the count is out of range nobody knows which entries are files, so that only the count is told.
pub fn disc(disc: &[u8]) -> Vec<Clause<'_>> {
    let count = disc[FILE_COUNT];
    if usize::from(count) > MAX_FILES {
        return vec![Clause::Count { count, blank: disc.iter().all(|&byte| byte == 0xFF) }];
    }
    let entries = entries(disc);
    let mut clauses = Vec::new();
    for (index, &entry) in entries.iter().enumerate() {
        alone(entry, disc.len(), &mut clauses);
        for &earlier in &entries[..index] {
            beside(entry, earlier, &mut clauses);
        }
    }
    clauses
}

/// What is wrong with an entry by itself.
fn alone<'a>(entry: Entry<'a>, disc_length: usize, clauses: &mut Vec<Clause<'a>>) {
    if let Some(bad) = bad_name(entry.name) {
        clauses.push(Clause::Name(entry, bad));
    }
    if entry.length == 0 {
        clauses.push(Clause::Empty(entry));
    }
    if entry.start < DATA_START {
        clauses.push(Clause::Start(entry));
    }
    if entry.length > 0 && entry.end() > disc_length {
        clauses.push(Clause::End { entry, disc_length });
    }
}

/// What is wrong with an entry beside an earlier one.
fn beside<'a>(entry: Entry<'a>, earlier: Entry<'a>, clauses: &mut Vec<Clause<'a>>) {
    // That two names are empty is told of each.
    if entry.name == earlier.name && !trimmed(entry.name).is_empty() {
        clauses.push(Clause::SameName(entry, earlier));
    }
    if overlap(&entry.place(), &earlier.place()) {
        clauses.push(Clause::Overlap(entry, earlier));
    }
}

/// An entry as messages name it: entry 2 ("log").
struct Named<'a>(&'a Entry<'a>);

impl fmt::Display for Named<'_> {
    fn fmt(&self, f: &mut fmt::Formatter<'_>) -> fmt::Result {
        write!(f, "entry {}", self.0.index)?;
        match trimmed(self.0.name) {
            [] => Ok(()),
            name => write!(f, " ({})", literal::text(name)),
        }
    }
}

impl fmt::Display for Clause<'_> {
    fn fmt(&self, f: &mut fmt::Formatter<'_>) -> fmt::Result {
        match self {
            Clause::Count { count, blank } => {
                write!(f, "the file count, byte {FILE_COUNT}, is {count}; a disc has at most {MAX_FILES} files")?;
                let blank =
                    if *blank { "; all bytes are hex FF, as in an EEPROM that was never formatted" } else { "" };
                f.write_str(blank)
            }
            Clause::Name(entry, bad) => write!(f, "{}: {bad}", Named(entry)),
            Clause::Empty(entry) => write!(f, "{}: its length is 0; a file has at least 1 byte", Named(entry)),
            Clause::Start(entry) => {
                write!(f, "{}: it begins at byte {}; data begin at {DATA_START}", Named(entry), entry.start)
            }
            Clause::End { entry, disc_length } => {
                let (last, end) = (disc_length - 1, entry.end() - 1);
                write!(f, "{}: it ends at byte {end}; the last of the disc is {last}", Named(entry))
            }
            Clause::SameName(entry, earlier) => write!(f, "{} has the name of entry {}", Named(entry), earlier.index),
            Clause::Overlap(entry, earlier) => {
                let (span, other) = (Span(entry.place()), Span(earlier.place()));
                write!(f, "{}: bytes {span} overlap those of {}, {other}", Named(entry), Named(earlier))
            }
        }
    }
}
