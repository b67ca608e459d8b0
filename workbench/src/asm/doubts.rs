//! Instructions that end a process by a fault whenever they are executed.

use super::lexer::Token;
use super::message::{Message, Problem};
use super::operands::Operands;
use super::Placed;
use crate::layout::STACK_LEN;
use crate::value;
use std::collections::HashSet;

/// A string has its length and its type above it on the stack.
const LONGEST_STRING: usize = STACK_LEN - 2;

pub fn of(statements: &[Placed]) -> Vec<(usize, Problem)> {
    let has_loop = statements.iter().any(|placed| placed.statement.name() == "LOOP");
    let alone = statements.iter().filter_map(|placed| alone(placed, has_loop));
    alone.chain(never_set(statements)).collect()
}

/// What is known without the other statements, but for whether there is a LOOP.
fn alone(placed: &Placed, has_loop: bool) -> Option<(usize, Problem)> {
    let instruction = placed.statement.instruction?;
    let message = match &placed.statement.operands {
        _ if !instruction.built => Message::NotBuilt { found: instruction.mnemonic.into() },
        _ if instruction.mnemonic == "ENDLOOP" && !has_loop => Message::NoLoop {},
        Operands::Bytes(bytes) if instruction.number == value::STRING && bytes.len() > LONGEST_STRING => {
            Message::LongString { length: bytes.len() }
        }
        _ => return None,
    };
    Some((placed.line, placed.statement.problem(message)))
}

/// The first GET of each name of several characters that no SET has: the assembler chooses the byte of such a name, so
/// DATA does not set it.
fn never_set(statements: &[Placed]) -> Vec<(usize, Problem)> {
    let set = statements.iter().filter(|placed| placed.statement.name() == "SET");
    let mut known: HashSet<&str> = set.filter_map(variable).map(|token| token.text).collect();
    let mut problems = Vec::new();
    for placed in statements {
        let Some(token) = variable(placed) else { continue };
        if known.insert(token.text) {
            problems.push((placed.line, token.problem(Message::NeverSet { name: token.text.into() })));
        }
    }
    problems
}

/// The name of several characters that a statement has.
fn variable<'s, 'a>(placed: &'s Placed<'a>) -> Option<&'s Token<'a>> {
    match &placed.statement.operands {
        Operands::Variable(token) => Some(token),
        _ => None,
    }
}
