//! Fields of disc and work area, to be written.
#![allow(dead_code)] // each file of tests uses its own part of this

use workbench::layout::{RECORDS, RECORD_LEN};

/// "Two-byte fields of both buffers are low byte first."
pub fn put_word(bytes: &mut [u8], at: usize, word: usize) {
    bytes[at..at + 2].copy_from_slice(&(word as u16).to_le_bytes());
}

/// Where a slot's record begins.
pub fn record_at(slot: usize) -> usize {
    RECORDS + slot * RECORD_LEN
}
