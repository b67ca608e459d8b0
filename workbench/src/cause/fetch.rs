//! Faults 1 and 2: "1 no such instruction; 2 code ended".

use super::words::{are, byte_text, bytes_text};
use crate::instruction::{self, Instruction};
use std::fmt;

#[derive(Clone, Debug)]
pub enum Reason {
    /// A byte that is no instruction's.
    NoInstruction(u8),
    NotBuilt(&'static str),
    /// The place is the code's end.
    CodeEnded {
        /// The STOP or ENDLOOP at the code's end, and its offset.
        last: Option<(&'static str, usize)>,
    },
    ArgumentsCutOff {
        mnemonic: &'static str,
        wanted: usize,
        left: usize,
    },
    /// STRING's text has no end.
    NoZero,
}

/// The instruction at a place and its argument bytes.
pub(super) fn fetched(code: &[u8], offset: usize) -> Result<(&'static Instruction, &[u8]), Reason> {
    let &byte = code.get(offset).ok_or_else(|| Reason::CodeEnded { last: last_end(code) })?;
    let instruction = instruction::of_byte(byte).ok_or(Reason::NoInstruction(byte))?;
    if !instruction.built {
        return Err(Reason::NotBuilt(instruction.mnemonic));
    }
    instruction::at(code, offset).ok_or_else(|| cut_off(instruction, code.len() - offset - 1))
}

/// The STOP or ENDLOOP that the code ends with, past which only a jump leads.
fn last_end(code: &[u8]) -> Option<(&'static str, usize)> {
    let (at, last, arguments) = instruction::listed(code).last()?;
    let ends = matches!(last.mnemonic, "STOP" | "ENDLOOP") && at + 1 + arguments.len() == code.len();
    ends.then_some((last.mnemonic, at))
}

/// Not all of its arguments are among the bytes that are left after it.
fn cut_off(instruction: &Instruction, left: usize) -> Reason {
    match instruction.arguments.length() {
        Some(wanted) => Reason::ArgumentsCutOff { mnemonic: instruction.mnemonic, wanted, left },
        None => Reason::NoZero,
    }
}

impl Reason {
    pub fn fault(&self) -> u8 {
        match self {
            Reason::NoInstruction(_) | Reason::NotBuilt(_) => 1,
            Reason::CodeEnded { .. } | Reason::ArgumentsCutOff { .. } | Reason::NoZero => 2,
        }
    }
}

impl fmt::Display for Reason {
    fn fmt(&self, f: &mut fmt::Formatter<'_>) -> fmt::Result {
        match self {
            Reason::NoInstruction(byte) => write!(f, "{} is no instruction", byte_text(*byte)),
            Reason::NotBuilt("DELAY") => write!(f, "DELAY is not built; use MILLIS and DELAYUNTIL"),
            Reason::NotBuilt(mnemonic) => write!(f, "{mnemonic} is not built"),
            Reason::CodeEnded { last: None } => write!(f, "the code ends here, without STOP"),
            Reason::CodeEnded { last: Some((mnemonic, at)) } => {
                write!(f, "the code ends here; a jump went past the {mnemonic} at offset {at}")
            }
            Reason::ArgumentsCutOff { mnemonic, wanted, left } => {
                write!(f, "{mnemonic} wants {} after it, {} left", bytes_text(*wanted), are(*left))
            }
            Reason::NoZero => write!(f, "STRING has no zero before the code's end"),
        }
    }
}
