//! Fault 4: "4 stack above 32".

use super::words::{are, list, plain};
use super::{file, variable, Turn};
use crate::layout::STACK_LEN;
use crate::value::{self, Value, STRING};
use std::fmt;

pub(super) const FAULT: u8 = 4;

/// `taken` bytes lie on the stack; `pushed` come in the place of the uppermost `popped`.
#[derive(Clone, Debug)]
pub struct Reason {
    pub mnemonic: &'static str,
    pub taken: usize,
    pub popped: usize,
    pub pushed: usize,
    /// What lies there, bottom first.
    pub values: Vec<Value>,
}

/// How many of the values are named, the topmost ones.
const NAMED: usize = 3;

pub(super) fn tried(turn: &Turn) -> Result<(), Reason> {
    let pushed = pushed(turn);
    if turn.below.len() + pushed <= STACK_LEN {
        return Ok(());
    }
    let taken = turn.record.stack().len();
    let popped = taken - turn.below.len();
    let values = value::stack(turn.record.stack());
    Err(Reason { mnemonic: turn.instruction.mnemonic, taken, popped, pushed, values })
}

/// How many bytes a value takes on the stack: its own, a string's length, the type.
fn with_type(bytes: usize) -> usize {
    bytes + 1
}

fn with_length_and_type(bytes: usize) -> usize {
    bytes + 2
}

/// How many bytes the instruction pushes, if they can be more than it popped. Those of all others are not: their result
/// has the type of an operand or is a CHAR, FORK's INT comes for a string of 3 bytes or more, WHILE's byte for a
/// number.
fn pushed(turn: &Turn) -> usize {
    match turn.instruction.mnemonic {
        "CHAR" | "INT" | "FLOAT" => with_type(turn.arguments.len()),
        "STRING" => with_length_and_type(turn.arguments.len()),
        "GET" => variable_length(turn),
        "READCHAR" => with_type(1),
        "MILLIS" | "READINT" | "TOINT" | "ROUND" | "FLOOR" | "CEIL" => with_type(2),
        "READFLOAT" | "TOFLOAT" => with_type(4),
        "READSTRING" => with_length_and_type(file::text_length(turn).unwrap_or(0)),
        _ => 0,
    }
}

fn variable_length(turn: &Turn) -> usize {
    let variable = turn.arguments.first().and_then(|&name| variable::own(turn, name));
    match variable {
        Some(variable) if variable.kind == STRING => with_length_and_type(variable.size),
        Some(variable) => with_type(variable.size),
        None => 0,
    }
}

impl fmt::Display for Reason {
    fn fmt(&self, f: &mut fmt::Formatter<'_>) -> fmt::Result {
        let Reason { mnemonic, taken, popped, pushed, values } = self;
        write!(f, "the stack has {STACK_LEN} bytes: {} taken, and {mnemonic} ", are(*taken))?;
        match popped {
            0 => write!(f, "pushes {pushed} more")?,
            _ => write!(f, "puts {pushed} in the place of {popped}")?,
        }
        let topmost: Vec<String> = values.iter().skip(values.len().saturating_sub(NAMED)).map(plain).collect();
        match values.len() {
            0 => Ok(()),
            1 => write!(f, "; one value lies there, {}", list(&topmost)),
            count => write!(f, "; {count} values lie there, the topmost {}", list(&topmost)),
        }
    }
}
