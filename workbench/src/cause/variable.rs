//! Faults 9 and 10: "9 no such variable; 10 no variable entry or run".

use super::words::{are, bytes_text, list};
use super::Turn;
use crate::layout::{self, Variable, MAX_VARIABLES, MEMORY_LEN};
use crate::literal;
use crate::value::Value;
use std::fmt;

#[derive(Clone, Debug)]
pub enum Reason {
    NoVariable {
        name: u8,
        /// The names that the process has.
        own: Vec<u8>,
        neighbour: Option<Neighbour>,
    },
    /// All entries are taken, so many by the process itself.
    NoEntry { name: u8, own: usize },
    /// `replaced` of the free bytes are the old variable's, which SET frees first.
    NoMemory { name: u8, wanted: usize, free: usize, longest: usize, replaced: usize },
}

/// Another process that has a variable of the name that GET looks for.
#[derive(Clone, Debug)]
pub struct Neighbour {
    pub name: String,
    pub id: usize,
}

pub(super) fn tried(turn: &Turn) -> Result<(), Reason> {
    match (turn.instruction.mnemonic, turn.arguments, &turn.operands[..]) {
        ("GET", &[name], _) => get(turn, name),
        ("SET", &[name], [value]) => set(turn, name, size(value)),
        _ => Ok(()),
    }
}

/// "WRITE and variable memory keep a value's bytes in stack order, without length and type."
pub(super) fn size(value: &Value) -> usize {
    match value {
        Value::Char(_) | Value::Byte(_) => 1,
        Value::Int(_) => 2,
        Value::Float(_) => 4,
        Value::Text(text) => text.len() + 1,
    }
}

/// The process's own variable of a name.
pub(super) fn own(turn: &Turn, name: u8) -> Option<Variable> {
    layout::variables(turn.area).into_iter().find(|variable| variable.name == name && variable.id == turn.record.id())
}

fn get(turn: &Turn, name: u8) -> Result<(), Reason> {
    if own(turn, name).is_some() {
        return Ok(());
    }
    let id = turn.record.id();
    let variables = layout::variables(turn.area);
    let own = variables.iter().filter(|variable| variable.id == id).map(|variable| variable.name).collect();
    let neighbour = variables.iter().find(|variable| variable.name == name).and_then(|variable| {
        let record = layout::live_record(turn.area, variable.id)?;
        Some(Neighbour { name: layout::name_text(record.name()), id: variable.id })
    });
    Err(Reason::NoVariable { name, own, neighbour })
}

/// "SET first frees the old variable"; then an entry and a free run must be there.
fn set(turn: &Turn, name: u8, wanted: usize) -> Result<(), Reason> {
    let id = turn.record.id();
    let old = own(turn, name);
    let kept: Vec<Variable> =
        layout::variables(turn.area).into_iter().filter(|variable| Some(*variable) != old).collect();
    if kept.len() >= MAX_VARIABLES {
        let own = kept.iter().filter(|variable| variable.id == id).count();
        return Err(Reason::NoEntry { name, own });
    }
    let runs = layout::free_memory(&kept);
    let longest = layout::longest(&runs);
    if longest >= wanted {
        return Ok(());
    }
    let replaced = old.map_or(0, |variable| variable.size);
    Err(Reason::NoMemory { name, wanted, free: runs.iter().map(|run| run.len()).sum(), longest, replaced })
}

impl Reason {
    pub fn fault(&self) -> u8 {
        match self {
            Reason::NoVariable { .. } => 9,
            Reason::NoEntry { .. } | Reason::NoMemory { .. } => 10,
        }
    }
}

impl fmt::Display for Reason {
    fn fmt(&self, f: &mut fmt::Formatter<'_>) -> fmt::Result {
        match self {
            Reason::NoVariable { name, own, neighbour } => no_variable(f, *name, own, neighbour.as_ref()),
            Reason::NoEntry { name, own } => {
                let name = literal::variable(*name);
                write!(
                    f,
                    "SET has no entry for the variable {name}: all {MAX_VARIABLES} are taken, {own} by this process"
                )
            }
            Reason::NoMemory { name, wanted, free, longest, replaced } => {
                let name = literal::variable(*name);
                write!(f, "SET wants {} of memory in a row for the variable {name}: ", bytes_text(*wanted))?;
                match (free, replaced) {
                    (0, _) => write!(f, "all {MEMORY_LEN} are taken"),
                    (_, 0) => write!(f, "{} free, at most {longest} in a row", are(*free)),
                    _ => {
                        write!(f, "{} free with the old variable's {replaced}, at most {longest} in a row", are(*free))
                    }
                }
            }
        }
    }
}

fn no_variable(f: &mut fmt::Formatter<'_>, name: u8, own: &[u8], neighbour: Option<&Neighbour>) -> fmt::Result {
    write!(f, "GET finds no variable {}: ", literal::variable(name))?;
    let names: Vec<String> = own.iter().copied().map(literal::variable).collect();
    match names.len() {
        0 => write!(f, "this process has none; SET it first")?,
        1 => write!(f, "this process has the variable {}", list(&names))?,
        _ => write!(f, "this process has the variables {}", list(&names))?,
    }
    match neighbour {
        Some(Neighbour { name, id }) => {
            write!(f, ". {name} (ID {id}) has one of that name, but each process has only its own variables")
        }
        None => Ok(()),
    }
}
