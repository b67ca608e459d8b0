//! Document 01: "A name is 1 to 11 bytes of 33 to 126, zero-filled."

use crate::layout::{trimmed, NAME_LEN};
use kernel::sizes::NAME_BYTES;
use std::fmt;

/// What is wrong with the twelve bytes of a name.
#[derive(Clone, Copy, Debug, PartialEq, Eq)]
pub enum BadName {
    Empty,
    /// No zero follows.
    Long,
    Letter {
        place: usize,
        byte: u8,
    },
    /// A byte after the first zero.
    Filling {
        place: usize,
        byte: u8,
    },
}

/// The first thing that is wrong with the twelve bytes of a name, if any.
pub fn bad_name(field: &[u8]) -> Option<BadName> {
    let (text, filling) = field.split_at(trimmed(field).len());
    if text.is_empty() {
        return Some(BadName::Empty);
    }
    if let Some(place) = text.iter().position(|byte| !NAME_BYTES.contains(byte)) {
        return Some(BadName::Letter { place, byte: text[place] });
    }
    if filling.is_empty() {
        return Some(BadName::Long);
    }
    let place = filling.iter().position(|&byte| byte != 0)?;
    Some(BadName::Filling { place: text.len() + place, byte: filling[place] })
}

/// Said of an entry or of a slot.
impl fmt::Display for BadName {
    fn fmt(&self, f: &mut fmt::Formatter<'_>) -> fmt::Result {
        match self {
            BadName::Empty => write!(f, "its name is empty"),
            BadName::Long => write!(f, "its name has {NAME_LEN} bytes; a name has at most {}", NAME_LEN - 1),
            BadName::Letter { place, byte } => {
                let (least, most) = (NAME_BYTES.start(), NAME_BYTES.end());
                write!(f, "byte {place} of its name is {byte}; a name has bytes of {least} to {most}")
            }
            BadName::Filling { place, byte } => {
                write!(f, "byte {place} of its name is {byte}, after a zero; all bytes there must be zeros")
            }
        }
    }
}
