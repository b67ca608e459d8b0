//! Fault 3: "3 jump outside 0 to the code length, or ENDLOOP with no loop". Only a jump that is taken is tested.

use super::{number, Turn};
use crate::layout::NO_LOOP;
use crate::value::Value;
use std::fmt;

pub(super) const FAULT: u8 = 3;

#[derive(Clone, Debug)]
pub enum Reason {
    PastEnd {
        mnemonic: &'static str,
        target: usize,
        length: usize,
    },
    /// ENDWHILE's byte is greater than the place it counts from.
    BeforeStart {
        byte: u8,
        from: usize,
    },
    /// ENDLOOP's.
    NoLoop,
}

pub(super) fn tried(turn: &Turn) -> Result<(), Reason> {
    match (turn.instruction.mnemonic, turn.arguments, &turn.operands[..]) {
        ("IF", &[length], [x]) if number::is_zero(x) => ahead(turn, usize::from(length)),
        ("ELSE", &[length], [x]) if !number::is_zero(x) => ahead(turn, usize::from(length)),
        ("WHILE", &[_, body], [x]) if number::is_zero(x) => ahead(turn, usize::from(body) + 1),
        ("ENDWHILE", _, &[Value::Byte(byte)]) => back(turn, byte),
        ("ENDLOOP", _, _) if turn.record.loop_place() == NO_LOOP => Err(Reason::NoLoop),
        _ => Ok(()),
    }
}

fn ahead(turn: &Turn, distance: usize) -> Result<(), Reason> {
    let (target, length) = (turn.next() + distance, turn.record.code_length());
    if target <= length {
        return Ok(());
    }
    Err(Reason::PastEnd { mnemonic: turn.instruction.mnemonic, target, length })
}

fn back(turn: &Turn, byte: u8) -> Result<(), Reason> {
    let from = turn.next();
    if usize::from(byte) <= from {
        return Ok(());
    }
    Err(Reason::BeforeStart { byte, from })
}

impl fmt::Display for Reason {
    fn fmt(&self, f: &mut fmt::Formatter<'_>) -> fmt::Result {
        match self {
            Reason::PastEnd { mnemonic, target, length } => {
                write!(f, "{mnemonic} jumps to offset {target}, past the code's end at {length}")
            }
            Reason::BeforeStart { byte, from } => {
                let byte = usize::from(*byte);
                write!(f, "ENDWHILE goes back by the byte on top of the stack, {byte}, ")?;
                write!(f, "from offset {from} to -{}, before the code's beginning", byte.saturating_sub(*from))
            }
            Reason::NoLoop => write!(f, "ENDLOOP has no LOOP to go back to: none was executed"),
        }
    }
}
