//! Where each field of disc and work area lies (document 01, 'The two buffers'), to be read. Nothing here judges or
//! writes.

use std::ops::Range;

pub const MAX_FILES: usize = 10;
pub const ENTRY_LEN: usize = 16;
pub const NAME_LEN: usize = 12;
pub const FILE_COUNT: usize = 160;
pub const DATA_START: usize = 161;

pub const MEMORY_LEN: usize = 256;
pub const VARIABLES: usize = 256;
pub const VARIABLE_LEN: usize = 6;
pub const MAX_VARIABLES: usize = 25;
pub const VARIABLE_COUNT: usize = 406;
pub const NEXT_ID: usize = 407;
pub const ZEROS: Range<usize> = 409..416;
pub const MAX_NEXT_ID: usize = 32768;

pub const RECORDS: usize = 416;
pub const RECORD_LEN: usize = 64;
pub const MAX_PROCESSES: usize = 10;
pub const STACK_LEN: usize = 32;
pub const NO_LOOP: usize = 0xFFFF;

pub const RUNNING: u8 = b'r';
pub const PAUSED: u8 = b'p';
pub const ENDED: u8 = 0;

/// "Two-byte fields of both buffers are low byte first."
pub fn word(bytes: &[u8], at: usize) -> usize {
    usize::from(u16::from_le_bytes([bytes[at], bytes[at + 1]]))
}

/// A name without the zeros after it.
pub fn trimmed(field: &[u8]) -> &[u8] {
    let end = field.iter().position(|&byte| byte == 0).unwrap_or(field.len());
    &field[..end]
}

/// A name as text: printable ASCII as it is, other bytes as \xHH.
pub fn name_text(field: &[u8]) -> String {
    let shown = |&byte: &u8| match byte {
        b' '..=b'~' => char::from(byte).to_string(),
        _ => format!("\\x{byte:02x}"),
    };
    trimmed(field).iter().map(shown).collect()
}

/// A directory entry.
#[derive(Clone, Copy, Debug)]
pub struct Entry<'a> {
    pub index: usize,
    /// All twelve bytes of the name.
    pub name: &'a [u8],
    pub start: usize,
    pub length: usize,
}

impl<'a> Entry<'a> {
    pub fn of(disc: &'a [u8], index: usize) -> Entry<'a> {
        let entry = &disc[index * ENTRY_LEN..(index + 1) * ENTRY_LEN];
        Entry { index, name: &entry[..NAME_LEN], start: word(entry, 12), length: word(entry, 14) }
    }

    /// The place after the file's last byte.
    pub fn end(&self) -> usize {
        self.start + self.length
    }

    /// The bytes of the disc that are the file's.
    pub fn place(&self) -> Range<usize> {
        self.start..self.end()
    }
}

/// The entries that the count byte counts, ten at most.
pub fn entries(disc: &[u8]) -> Vec<Entry<'_>> {
    let count = usize::from(disc[FILE_COUNT]).min(MAX_FILES);
    (0..count).map(|index| Entry::of(disc, index)).collect()
}

/// The entry of a file's name.
pub fn entry_named<'a>(disc: &'a [u8], name: &[u8]) -> Option<Entry<'a>> {
    entries(disc).into_iter().find(|entry| trimmed(entry.name) == name)
}

/// The runs of data bytes that no file takes.
pub fn free_bytes(disc: &[u8]) -> Vec<Range<usize>> {
    free_runs(DATA_START..disc.len(), entries(disc).iter().map(Entry::place).collect())
}

/// A process record: one of the ten slots.
#[derive(Clone, Copy, Debug)]
pub struct Record<'a> {
    pub slot: usize,
    bytes: &'a [u8],
}

impl<'a> Record<'a> {
    pub fn of(area: &'a [u8], slot: usize) -> Record<'a> {
        let start = RECORDS + slot * RECORD_LEN;
        Record { slot, bytes: &area[start..start + RECORD_LEN] }
    }

    /// All twelve bytes of the name.
    pub fn name(&self) -> &'a [u8] {
        &self.bytes[..NAME_LEN]
    }

    pub fn id(&self) -> usize {
        word(self.bytes, 12)
    }

    pub fn state(&self) -> u8 {
        self.bytes[14]
    }

    /// "Live means running or paused."
    pub fn is_live(&self) -> bool {
        matches!(self.state(), RUNNING | PAUSED)
    }

    pub fn fault(&self) -> u8 {
        self.bytes[15]
    }

    pub fn code_start(&self) -> usize {
        word(self.bytes, 16)
    }

    pub fn code_length(&self) -> usize {
        word(self.bytes, 18)
    }

    pub fn pc(&self) -> usize {
        word(self.bytes, 20)
    }

    pub fn loop_place(&self) -> usize {
        word(self.bytes, 22)
    }

    pub fn file_start(&self) -> usize {
        word(self.bytes, 24)
    }

    /// 0 if no file is open.
    pub fn file_length(&self) -> usize {
        word(self.bytes, 26)
    }

    pub fn file_offset(&self) -> usize {
        word(self.bytes, 28)
    }

    pub fn sp(&self) -> usize {
        usize::from(self.bytes[30])
    }

    /// The spare byte of document 01 (document 02, Q-9): turns a round, with zero as one.
    pub fn share_byte(&self) -> u8 {
        self.bytes[31]
    }

    pub fn share(&self) -> u8 {
        self.share_byte().max(1)
    }

    /// All 32 bytes of the stack.
    pub fn stack_bytes(&self) -> &'a [u8] {
        &self.bytes[32..]
    }

    /// The bytes below SP; all 32 where SP is beyond them.
    pub fn stack(&self) -> &'a [u8] {
        &self.stack_bytes()[..self.sp().min(STACK_LEN)]
    }

    /// The program on the disc, if it lies on it.
    pub fn code<'d>(&self, disc: &'d [u8]) -> Option<&'d [u8]> {
        disc.get(self.code_start()..self.code_start() + self.code_length())
    }

    /// The open file among those of a disc, if one is open and the disc has it.
    pub fn open_file<'d>(&self, files: &[Entry<'d>]) -> Option<Entry<'d>> {
        let is_open = |file: &&Entry| (file.start, file.length) == (self.file_start(), self.file_length());
        files.iter().find(is_open).filter(|file| file.length != 0).copied()
    }
}

/// The ten records in slot order.
pub fn records(area: &[u8]) -> impl Iterator<Item = Record<'_>> + Clone {
    (0..MAX_PROCESSES).map(|slot| Record::of(area, slot))
}

/// The live record of an ID.
pub fn live_record(area: &[u8], id: usize) -> Option<Record<'_>> {
    records(area).find(|record| record.is_live() && record.id() == id)
}

/// A variable entry.
#[derive(Clone, Copy, Debug, PartialEq, Eq)]
pub struct Variable {
    pub index: usize,
    pub name: u8,
    pub kind: u8,
    pub address: usize,
    pub size: usize,
    pub id: usize,
}

impl Variable {
    pub fn of(area: &[u8], index: usize) -> Variable {
        let at = VARIABLES + index * VARIABLE_LEN;
        Variable {
            index,
            name: area[at],
            kind: area[at + 1],
            address: usize::from(area[at + 2]),
            size: usize::from(area[at + 3]),
            id: word(area, at + 4),
        }
    }

    /// The place after its last byte of variable memory.
    pub fn end(&self) -> usize {
        self.address + self.size
    }

    /// The bytes of variable memory that are its own.
    pub fn place(&self) -> Range<usize> {
        self.address..self.end()
    }

    /// Its bytes in variable memory, if they lie inside it.
    pub fn bytes<'a>(&self, area: &'a [u8]) -> Option<&'a [u8]> {
        area[..MEMORY_LEN].get(self.place())
    }
}

/// The entries that the count byte counts, 25 at most.
pub fn variables(area: &[u8]) -> Vec<Variable> {
    let count = usize::from(area[VARIABLE_COUNT]).min(MAX_VARIABLES);
    (0..count).map(|index| Variable::of(area, index)).collect()
}

/// The runs of variable memory that none of these variables takes.
pub fn free_memory(variables: &[Variable]) -> Vec<Range<usize>> {
    free_runs(0..MEMORY_LEN, variables.iter().map(Variable::place).collect())
}

/// The free runs between the places that are taken, in order.
fn free_runs(bounds: Range<usize>, mut taken: Vec<Range<usize>>) -> Vec<Range<usize>> {
    taken.sort_by_key(|range| range.start);
    let mut runs = Vec::new();
    let mut from = bounds.start;
    for range in taken {
        if range.start > from {
            runs.push(from..range.start);
        }
        from = from.max(range.end);
    }
    if bounds.end > from {
        runs.push(from..bounds.end);
    }
    runs
}

/// The length of the longest of some runs; 0 if there is none.
pub fn longest(runs: &[Range<usize>]) -> usize {
    runs.iter().map(Range::len).max().unwrap_or(0)
}

#[cfg(test)]
mod tests {
    use super::*;
    use kernel::sizes::{AREA_LEN, SHORT_DISC};

    #[test]
    fn a_name_is_shown_as_it_is() {
        assert_eq!(name_text(b"it's\"a\\\0\0\0"), "it's\"a\\");
        assert_eq!(name_text(b"a b\n\x7f\xff\0zzzz"), "a b\\x0a\\x7f\\xff");
    }

    #[test]
    fn no_file_is_open_where_the_length_is_zero() {
        let (mut disc, mut area) = ([0; SHORT_DISC], [0; AREA_LEN]);
        disc[FILE_COUNT] = 1;
        let open = |disc: &[u8], area: &[u8]| Record::of(area, 0).open_file(&entries(disc)).map(|file| file.index);
        assert_eq!(open(&disc, &area), None);
        (disc[14], area[RECORDS + 26]) = (7, 7);
        assert_eq!(open(&disc, &area), Some(0));
        disc[14] = 8;
        assert_eq!(open(&disc, &area), None);
    }

    #[test]
    fn free_runs_lie_between_what_is_taken() {
        assert_eq!(free_runs(0..9, vec![5..6, 0..2, 3..5]), [2..3, 6..9]);
        assert_eq!(free_runs(0..9, vec![2..3, 8..9]), [0..2, 3..8]);
        assert_eq!(free_runs(2..9, vec![0..4, 3..12]), []);
        assert_eq!(free_bytes(&[0; SHORT_DISC]).len(), 1);
        assert_eq!(longest(&free_bytes(&[0; SHORT_DISC])), SHORT_DISC - DATA_START);
        assert_eq!((longest(&[2..3, 6..9]), longest(&[])), (3, 0));
    }
}
