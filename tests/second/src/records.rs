//! The ten process records in the work area.

use crate::layout::*;
use crate::variables;

/// Where the record of a slot lies.
pub fn record(slot: usize) -> usize {
    RECORDS + slot * RECORD_LEN
}

/// The records in slot order.
pub fn all() -> impl Iterator<Item = usize> {
    (0..MAX_PROCESSES).map(record)
}

/// "Live means running or paused."
pub fn is_live(area: &[u8], record: usize) -> bool {
    matches!(area[record + STATE], RUNNING | PAUSED)
}

/// The live records in slot order.
pub fn live(area: &[u8]) -> impl Iterator<Item = usize> + '_ {
    all().filter(move |&record| is_live(area, record))
}

/// The process ID of a record.
pub fn id(area: &[u8], record: usize) -> usize {
    word(area, record + ID)
}

/// The live record of an ID; IDs are compared as whole numbers.
pub fn of_id(area: &[u8], wanted: u32) -> Option<usize> {
    live(area).find(|&record| id(area, record) as u32 == wanted)
}

/// The turns that a round gives a record. Document 02, Q-9: "The spare byte holds 1 to 8, with zero as one".
pub fn share(area: &[u8], record: usize) -> u8 {
    area[record + SPARE].max(1)
}

/// "Ending (STOP, kill, fault) frees the process's variables. Its record keeps name, ID and fault (0 unless a fault)
/// and is otherwise zero." Document 02, Q-9: the share too "is cleared like the rest".
pub fn end(area: &mut [u8], record: usize, fault: u8) {
    variables::free_all(area, id(area, record));
    area[record + STATE..record + RECORD_LEN].fill(0);
    area[record + FAULT] = fault;
}
