//! Variable memory and its 25 entries.

use crate::fault::{need, Fault};
use crate::layout::*;
use crate::runs;
use std::ops::Range;

/// The variable count, byte 406.
pub fn count(area: &[u8]) -> usize {
    usize::from(area[VARIABLE_COUNT])
}

/// Where an entry lies.
fn entry(index: usize) -> usize {
    VARIABLES + index * VARIABLE_LEN
}

/// The type of a variable.
pub fn kind(area: &[u8], index: usize) -> u8 {
    area[entry(index) + VARIABLE_TYPE]
}

/// The process ID of a variable.
pub fn id(area: &[u8], index: usize) -> usize {
    word(area, entry(index) + VARIABLE_ID)
}

/// The pair that tells variables apart: name and process ID.
pub fn key(area: &[u8], index: usize) -> (u8, usize) {
    (area[entry(index) + VARIABLE_NAME], id(area, index))
}

/// The memory bytes of a variable.
pub fn range(area: &[u8], index: usize) -> Range<usize> {
    let address = usize::from(area[entry(index) + VARIABLE_ADDRESS]);
    address..address + usize::from(area[entry(index) + VARIABLE_SIZE])
}

/// The entry of a name and ID.
pub fn find(area: &[u8], name: u8, id: usize) -> Option<usize> {
    (0..count(area)).find(|&index| key(area, index) == (name, id))
}

/// "freed entries close up, zeros behind"; "Freed memory keeps its bytes".
fn remove(area: &mut [u8], index: usize) {
    let last = count(area) - 1;
    area.copy_within(entry(index + 1)..entry(last + 1), entry(index));
    area[entry(last)..entry(last + 1)].fill(0);
    area[VARIABLE_COUNT] -= 1;
}

/// "Ending frees the process's variables."
pub fn free_all(area: &mut [u8], owner: usize) {
    for index in (0..count(area)).rev() {
        if id(area, index) == owner {
            remove(area, index);
        }
    }
}

/// "SET first frees the old variable", and by document 02, Q-10, the new one goes "at the start of the shortest free run
/// that fits"; "10 no variable entry or run".
pub fn set(area: &mut [u8], name: u8, id: usize, kind: u8, bytes: &[u8]) -> Result<(), Fault> {
    let old = find(area, name, id);
    let kept = (0..count(area)).filter(|&index| Some(index) != old);
    need(kept.clone().count() < MAX_VARIABLES, Fault::NoVariableSpace)?;
    let taken = kept.map(|index| range(area, index));
    let address = runs::place(0..MEMORY_LEN, taken, bytes.len()).ok_or(Fault::NoVariableSpace)?;
    if let Some(index) = old {
        remove(area, index);
    }
    append(area, [name, kind, address as u8, bytes.len() as u8], id);
    area[address..address + bytes.len()].copy_from_slice(bytes);
    Ok(())
}

/// Writes the entry after the last one: name, type, address, size, then the process ID.
fn append(area: &mut [u8], fields: [u8; 4], id: usize) {
    let at = entry(count(area));
    area[at..at + VARIABLE_ID].copy_from_slice(&fields);
    set_word(area, at + VARIABLE_ID, id);
    area[VARIABLE_COUNT] += 1;
}
