//! Why a turn ends its process by a fault. It explains and executes nothing: the kernel decides, and tests compare the
//! two.
//!
//! Document 01, "Faults, tried in this order": 1 and 2 (`fetch`), for each popped value 5 and 6 (`operand`), 7 and 8
//! (`number`), 9 and 10 (`variable`), 11 to 13 (`file`), 4 (`room`), 3 (`jump`). An instruction that no listing of the
//! program shows is told beside the reason (`inside`).

pub mod fetch;
pub mod file;
pub mod inside;
pub mod jump;
pub mod number;
pub mod operand;
pub mod room;
pub mod variable;
mod words;

use crate::instruction::Instruction;
use crate::layout::{Record, MAX_PROCESSES, RUNNING};
use crate::value::Value;
use inside::Inside;
use kernel::sizes::{AREA_LEN, LONG_DISC, SHORT_DISC};
use std::fmt;

/// The fault that a turn ends its process with, and why.
#[derive(Clone, Debug)]
pub struct Cause {
    pub fault: u8,
    /// The instruction's place, from the code's beginning.
    pub offset: usize,
    pub reason: Reason,
    /// Where the offset is no instruction's beginning.
    pub inside: Option<Inside>,
    /// All this in words; they complete 'blink (ID 3) ended by fault 6 at offset 12: '.
    pub words: String,
}

/// Why a fault came: for each step of a turn, what stood against it.
#[derive(Clone, Debug)]
pub enum Reason {
    Fetch(fetch::Reason),
    Operand(operand::Reason),
    Number(number::Reason),
    Variable(variable::Reason),
    File(file::Reason),
    Room(room::Reason),
    Jump(jump::Reason),
}

impl Reason {
    /// The fault's number in document 01.
    pub fn fault(&self) -> u8 {
        match self {
            Reason::Fetch(reason) => reason.fault(),
            Reason::Operand(reason) => reason.fault(),
            Reason::Number(reason) => reason.fault(),
            Reason::Variable(reason) => reason.fault(),
            Reason::File(reason) => reason.fault(),
            Reason::Room(_) => room::FAULT,
            Reason::Jump(_) => jump::FAULT,
        }
    }
}

impl fmt::Display for Reason {
    fn fmt(&self, f: &mut fmt::Formatter<'_>) -> fmt::Result {
        match self {
            Reason::Fetch(reason) => reason.fmt(f),
            Reason::Operand(reason) => reason.fmt(f),
            Reason::Number(reason) => reason.fmt(f),
            Reason::Variable(reason) => reason.fmt(f),
            Reason::File(reason) => reason.fmt(f),
            Reason::Room(reason) => reason.fmt(f),
            Reason::Jump(reason) => reason.fmt(f),
        }
    }
}

/// What one instruction finds once its arguments are fetched and its operands are popped.
struct Turn<'a> {
    disc: &'a [u8],
    area: &'a [u8],
    record: Record<'a>,
    instruction: &'static Instruction,
    arguments: &'a [u8],
    /// Top of the stack first.
    operands: Vec<Value>,
    /// The stack below them.
    below: &'a [u8],
}

impl Turn<'_> {
    /// The place past the arguments, from which jumps count.
    fn next(&self) -> usize {
        self.record.pc() + 1 + self.arguments.len()
    }
}

/// Of good buffers as the turn of a running slot finds them: the fault that this turn will end its process with; none
/// if the instruction does not fault. No fault depends on the clock.
pub fn of_turn(disc: &[u8], area: &[u8], slot: usize) -> Option<Cause> {
    let lengths_are_right = matches!(disc.len(), SHORT_DISC | LONG_DISC) && area.len() == AREA_LEN;
    if !lengths_are_right || slot >= MAX_PROCESSES {
        return None;
    }
    let record = Record::of(area, slot);
    if record.state() != RUNNING {
        return None;
    }
    let (code, offset) = (record.code(disc)?, record.pc());
    let reason = tried(disc, area, record, code).err()?;
    let inside = Inside::of(code, offset);
    let words = inside.as_ref().map_or(reason.to_string(), |inside| format!("{reason}; {inside}"));
    Some(Cause { fault: reason.fault(), offset, reason, inside, words })
}

/// "Faults, tried in this order".
fn tried(disc: &[u8], area: &[u8], record: Record, code: &[u8]) -> Result<(), Reason> {
    let (instruction, arguments) = fetch::fetched(code, record.pc()).map_err(Reason::Fetch)?;
    let (operands, below) = operand::popped(instruction, record.stack(), code, record.pc()).map_err(Reason::Operand)?;
    let turn = Turn { disc, area, record, instruction, arguments, operands, below };
    number::tried(&turn).map_err(Reason::Number)?;
    variable::tried(&turn).map_err(Reason::Variable)?;
    file::tried(&turn).map_err(Reason::File)?;
    room::tried(&turn).map_err(Reason::Room)?;
    jump::tried(&turn).map_err(Reason::Jump)
}

/// 'blink (ID 3) ended by fault 6 at offset 12: PLUS takes numbers; on top of the stack lay the string "abc"'.
pub fn sentence(name: &str, id: usize, cause: &Cause) -> String {
    format!("{name} (ID {id}) ended by fault {} at offset {}: {}", cause.fault, cause.offset, cause.words)
}
