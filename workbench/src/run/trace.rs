//! A turn as a line of a trace.

use super::turns::Turn;
use crate::dis;
use crate::instruction;
use crate::layout::{variables, Variable};
use crate::literal;
use crate::value::{self, Value};

/// The line above a trace.
pub const HEADER: &str = " round      clock  slot    ID  offset  instruction           stack after it, bottom first";

/// One turn: where it was, the instruction, the stack after it, and what else it did.
pub fn line(round: u64, turn: &Turn) -> String {
    let found = turn.found();
    let instruction = instruction_text(turn);
    let place = format!("{round:6} {:10} {:5} {:5} {:7}", turn.clock, turn.slot, found.id(), found.pc());
    let mut line = format!("{place}  {instruction:<20}  {}", stack_text(turn));
    for effect in effects(turn) {
        line.push_str("  ");
        line.push_str(&effect);
    }
    line.trim_end().to_string()
}

/// The instruction that the turn found.
fn instruction_text(turn: &Turn) -> String {
    let code = turn.found().code(&turn.before.disc).unwrap_or(&[]);
    if turn.found().pc() == code.len() {
        return "(the code's end)".into();
    }
    dis::instruction_text(code, turn.found().pc())
}

/// The instruction that the place lies inside of, if it is no instruction's beginning.
fn inside(turn: &Turn) -> Option<String> {
    let code = turn.found().code(&turn.before.disc)?;
    let start = instruction::around(code, turn.found().pc())?;
    let (around, _) = instruction::at(code, start)?;
    Some(format!("(inside {} at {start})", around.mnemonic))
}

fn stack_text(turn: &Turn) -> String {
    if turn.ended() {
        return String::new();
    }
    let values: Vec<String> = value::stack(turn.left().stack()).iter().map(Value::to_string).collect();
    format!("[{}]", values.join(", "))
}

/// A place that is no beginning, variables that changed, what was printed, and an end or a wait.
fn effects(turn: &Turn) -> Vec<String> {
    let mut effects: Vec<String> = inside(turn).into_iter().collect();
    if turn.ended() {
        effects.push(match turn.left().fault() {
            0 => "ended".to_string(),
            fault => format!("ended by fault {fault}"),
        });
        return effects;
    }
    effects.extend(changed(turn));
    if !turn.printed.is_empty() {
        effects.push(format!("printed {}", literal::text(&turn.printed)));
    }
    if turn.left().pc() == turn.found().pc() && waits(turn) {
        effects.push("stays".to_string());
    }
    effects
}

/// Whether the instruction is one of the two that can stay where they are.
fn waits(turn: &Turn) -> bool {
    let code = turn.found().code(&turn.before.disc).unwrap_or(&[]);
    instruction::at(code, turn.found().pc())
        .is_some_and(|(found, _)| matches!(found.mnemonic, "DELAYUNTIL" | "WAITUNTILDONE"))
}

/// The process's variables that have another value than before, or none before.
fn changed(turn: &Turn) -> Vec<String> {
    let id = turn.found().id();
    let before = own(&turn.before.area, id);
    own(&turn.after.area, id)
        .into_iter()
        .filter(|now| !before.contains(now))
        .map(|(variable, bytes)| format!("{} = {}", literal::variable(variable.name), shown(variable.kind, &bytes)))
        .collect()
}

/// A process's variables by name and type, with their bytes; their places do not matter here.
fn own(area: &[u8], id: usize) -> Vec<(Variable, Vec<u8>)> {
    variables(area)
        .into_iter()
        .filter(|variable| variable.id == id)
        .map(|variable| (Variable { index: 0, address: 0, ..variable }, variable.bytes(area).unwrap_or(&[]).to_vec()))
        .collect()
}

fn shown(kind: u8, bytes: &[u8]) -> String {
    Value::of(kind, bytes).map_or_else(|| format!("STRING {}", literal::text(bytes)), |value| value.to_string())
}
