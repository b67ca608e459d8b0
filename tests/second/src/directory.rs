//! The directory on the disc. Document 01: "The first count entries are files in order of storing."

use crate::answer::{need, Refusal};
use crate::layout::*;
use crate::runs;
use std::ops::Range;

/// The file count, byte 160.
pub fn count(disc: &[u8]) -> usize {
    usize::from(disc[FILE_COUNT])
}

/// Where an entry lies.
pub fn entry(index: usize) -> usize {
    index * ENTRY_LEN
}

/// The twelve name bytes of an entry.
pub fn name(disc: &[u8], index: usize) -> &[u8] {
    &disc[entry(index)..entry(index) + NAME_LEN]
}

/// The disc bytes of a file.
pub fn range(disc: &[u8], index: usize) -> Range<usize> {
    let start = word(disc, entry(index) + ENTRY_START);
    start..start + word(disc, entry(index) + ENTRY_LENGTH)
}

/// The disc bytes of all files.
pub fn ranges(disc: &[u8]) -> impl Iterator<Item = Range<usize>> + Clone + '_ {
    (0..count(disc)).map(|index| range(disc, index))
}

/// "A name is 1 to 11 bytes of 33 to 126, zero-filled": the bytes before the filling.
pub fn good_name(name: &[u8]) -> bool {
    (1..NAME_LEN).contains(&name.len()) && name.iter().all(|byte| (33..=126).contains(byte))
}

/// The name without its zero filling.
pub fn trimmed(name: &[u8]) -> &[u8] {
    let length = name.iter().position(|&byte| byte == 0).unwrap_or(name.len());
    &name[..length]
}

/// Whether twelve bytes are a good name and then zeros only.
fn good_name_field(name: &[u8]) -> bool {
    let text = trimmed(name);
    good_name(text) && name[text.len()..].iter().all(|&byte| byte == 0)
}

/// "A good disc has distinct names, lengths from 1, and disjoint files inside the data bytes."
pub fn good(disc: &[u8]) -> bool {
    count(disc) <= MAX_FILES
        && (0..count(disc)).all(|index| good_entry(disc, index))
        && (0..count(disc)).all(|index| apart_from_earlier(disc, index))
}

/// Name, length and place of one entry.
fn good_entry(disc: &[u8], index: usize) -> bool {
    let range = range(disc, index);
    good_name_field(name(disc, index)) && !range.is_empty() && range.start >= DATA_START && range.end <= disc.len()
}

/// Whether the name and the bytes of an entry differ from those of the entries before it.
fn apart_from_earlier(disc: &[u8], index: usize) -> bool {
    (0..index).all(|earlier| {
        name(disc, earlier) != name(disc, index) && runs::disjoint(&range(disc, earlier), &range(disc, index))
    })
}

/// The entry of a name; a bad name is nobody's.
pub fn find(disc: &[u8], wanted: &[u8]) -> Option<usize> {
    (0..count(disc)).find(|&index| trimmed(name(disc, index)) == wanted)
}

/// Document 02, Q-10: "A new file or variable now goes at the start of the shortest free run that fits".
pub fn place(disc: &[u8], length: usize) -> Option<usize> {
    runs::place(data_bytes(disc), ranges(disc), length)
}

/// Adds an entry for a new name; *store*'s 8 and 9. Returns the file's start.
pub fn add(disc: &mut [u8], name: &[u8], length: usize) -> Result<usize, Refusal> {
    let index = count(disc);
    need(index < MAX_FILES, Refusal::TenFiles)?;
    let start = place(disc, length).ok_or(Refusal::NoRun)?;
    let at = entry(index);
    disc[at..at + ENTRY_LEN].fill(0);
    disc[at..at + name.len()].copy_from_slice(name);
    set_word(disc, at + ENTRY_START, start);
    set_word(disc, at + ENTRY_LENGTH, length);
    disc[FILE_COUNT] += 1;
    Ok(start)
}

/// "Later entries move up, the vacated entry becomes zero, data bytes remain."
pub fn remove(disc: &mut [u8], index: usize) {
    let last = count(disc) - 1;
    disc.copy_within(entry(index + 1)..entry(last + 1), entry(index));
    disc[entry(last)..entry(last + 1)].fill(0);
    disc[FILE_COUNT] -= 1;
}
