//! Faults 5 and 6: "popping from the top, for each value 5 nothing there, 6 a type not taken here, 5 too few bytes
//! below it, 6 malformed string".

use super::words::{bytes_text, list, plain, the, TOP};
use crate::instruction::{self, Instruction, Taken};
use crate::literal;
use crate::value::{self, type_name, Unread, Value, CHAR, FLOAT, INT, STRING};
use std::fmt;

/// What an instruction found where it takes a value.
#[derive(Clone, Debug)]
pub struct Reason {
    pub instruction: &'static Instruction,
    /// The values popped before, top first.
    pub above: Vec<Value>,
    pub found: Found,
    /// Where no value lay: the offset of a WHILE that pushes such a byte.
    pub pushed_at: Option<usize>,
}

#[derive(Clone, Debug)]
pub enum Found {
    /// A whole value of a type that is not taken.
    Value(Value),
    /// A type that is not taken, with no whole value of it below.
    BareType(u8),
    /// No value: nothing, no type, or a type that is taken, with no whole value of it below.
    Unread(Unread),
}

/// The values that an instruction takes off a stack, top first, and the bytes below them.
pub(super) fn popped<'a>(
    instruction: &'static Instruction,
    stack: &'a [u8],
    code: &[u8],
    offset: usize,
) -> Result<(Vec<Value>, &'a [u8]), Reason> {
    let mut above = Vec::new();
    let mut rest = stack;
    for &taken in instruction.pops {
        match pop(rest, taken) {
            Ok((value, below)) => {
                above.push(value);
                rest = below;
            }
            Err(found) => {
                let pushed_at = found.byte().and_then(|byte| while_pushing(code, offset, byte));
                return Err(Reason { instruction, above, found, pushed_at });
            }
        }
    }
    Ok((above, rest))
}

/// The topmost value, if it is taken, and the bytes below it.
fn pop(stack: &[u8], taken: Taken) -> Result<(Value, &[u8]), Found> {
    let (&kind, below) = stack.split_last().ok_or(Found::Unread(Unread::Nothing))?;
    if taken == Taken::Byte {
        return Ok((Value::Byte(kind), below));
    }
    match value::read(stack) {
        Ok((value, _)) if !types(taken).contains(&kind) => Err(Found::Value(value)),
        Ok(read) => Ok(read),
        Err(Unread::NoType(byte)) => Err(Found::Unread(Unread::NoType(byte))),
        Err(_) if !types(taken).contains(&kind) => Err(Found::BareType(kind)),
        Err(unread) => Err(Found::Unread(unread)),
    }
}

fn types(taken: Taken) -> &'static [u8] {
    match taken {
        Taken::Number => &[CHAR, INT, FLOAT],
        Taken::Whole => &[CHAR, INT],
        Taken::IntOrFloat => &[INT, FLOAT],
        Taken::CharOrFloat => &[CHAR, FLOAT],
        Taken::Text => &[STRING],
        Taken::Value => &[CHAR, INT, STRING, FLOAT],
        Taken::Byte => &[],
    }
}

/// The WHILE of the listing that pushes this byte, c + b + 4: the innermost with this place in its body, else the last.
fn while_pushing(code: &[u8], place: usize, byte: u8) -> Option<usize> {
    let pushing = instruction::listed(code).filter_map(|(start, instruction, arguments)| {
        let ("WHILE", &[condition, body]) = (instruction.mnemonic, arguments) else { return None };
        let first = start + 1 + arguments.len();
        let is_around = (first..=first + usize::from(body)).contains(&place);
        let pushed = u16::from(condition) + u16::from(body) + 4;
        (pushed == u16::from(byte)).then_some((is_around, start))
    });
    pushing.max().map(|(_, start)| start)
}

impl Reason {
    pub fn fault(&self) -> u8 {
        match &self.found {
            Found::Value(_) | Found::BareType(_) => 6,
            Found::Unread(Unread::Nothing | Unread::ShortNumber { .. } | Unread::NoLength) => 5,
            Found::Unread(Unread::ShortText { .. }) => 5,
            Found::Unread(Unread::NoType(_) | Unread::EmptyText) => 6,
            Found::Unread(Unread::UnendedText(_) | Unread::InnerZero(_)) => 6,
        }
    }

    /// All that the stack held, pushed first to last, where nothing more lay there.
    fn held(&self) -> String {
        let values: Vec<String> = self.above.iter().rev().map(plain).collect();
        match values.len() {
            0 => "the stack was empty".into(),
            _ => format!("the stack held only {}", list(&values)),
        }
    }

    fn place(&self) -> String {
        match &self.above[..] {
            [] => TOP.into(),
            [one] => format!("below {}", the(one)),
            [_, _] => "third from the top".into(),
            [_, _, _] => "fourth from the top".into(),
            _ => "fifth from the top".into(),
        }
    }

    /// Where bytes that are no value can be from: a WHILE pushes one, which can be 4, the type FLOAT, and ENDWHILE
    /// takes one, whatever it is of.
    fn origin(&self) -> String {
        let Some(byte) = self.found.byte() else { return String::new() };
        let is_type = type_name(byte) != "?";
        match self.pushed_at {
            Some(offset) if is_type => {
                format!("; it can be the byte {byte} that the WHILE at offset {offset} pushes for its ENDWHILE")
            }
            Some(offset) => format!(", as the WHILE at offset {offset} pushes for its ENDWHILE"),
            None if is_type => "; an ENDWHILE can have taken a byte of a value".into(),
            None => ", which is no type; an ENDWHILE can have taken a byte of a value".into(),
        }
    }
}

impl Found {
    /// The topmost byte where there is one and it is not a value's.
    fn byte(&self) -> Option<u8> {
        match self {
            Found::Value(_) | Found::Unread(Unread::Nothing) => None,
            Found::BareType(byte) | Found::Unread(Unread::NoType(byte)) => Some(*byte),
            Found::Unread(Unread::ShortNumber { kind, .. }) => Some(*kind),
            Found::Unread(_) => Some(STRING),
        }
    }
}

/// 'PLUS takes numbers; on top of the stack lay the string "abc"'.
impl fmt::Display for Reason {
    fn fmt(&self, f: &mut fmt::Formatter<'_>) -> fmt::Result {
        let is_missing = matches!(self.found, Found::Unread(Unread::Nothing));
        write!(f, "{} takes {}; ", self.instruction.mnemonic, takes(self.instruction, is_missing))?;
        match &self.found {
            _ if is_missing => f.write_str(&self.held()),
            found => write!(f, "{} lay {}{}", self.place(), lay(found), self.origin()),
        }
    }
}

fn lay(found: &Found) -> String {
    match found {
        Found::Value(value) => the(value),
        Found::BareType(kind) => format!("the type {0}, with no whole {0} below it", type_name(*kind)),
        Found::Unread(unread) => no_value(unread),
    }
}

fn no_value(unread: &Unread) -> String {
    match unread {
        Unread::Nothing => "nothing".into(),
        Unread::NoType(byte) => format!("the byte {byte}"),
        Unread::ShortNumber { kind, left } => {
            let there = if *left == 0 { "none".into() } else { format!("only {left}") };
            let bytes = bytes_text(usize::from(*kind));
            format!("the type {}, with {there} of its {bytes} below it", type_name(*kind))
        }
        Unread::NoLength => "the type STRING, with no length below it".into(),
        Unread::ShortText { length, left } => {
            let there = if *left == 0 { "no byte".into() } else { format!("only {}", bytes_text(*left)) };
            format!("a string of length {length}, with {there} below it")
        }
        Unread::EmptyText => "a string of length 0, without its zero".into(),
        Unread::UnendedText(bytes) => format!("a string that ends without a zero, {}", literal::text(bytes)),
        Unread::InnerZero(bytes) => format!("a string with a zero inside, {}", literal::text(bytes)),
    }
}

/// All that an instruction takes; the numbers counted where one is missing.
fn takes(instruction: &Instruction, counted: bool) -> String {
    match (instruction.mnemonic, instruction.pops) {
        ("OPEN", _) => "a string, the name, and on top of it a number, the size".into(),
        ("FORK", _) => "a string, the name of a program".into(),
        ("POW", _) => "a number and on top of it a whole number (CHAR or INT), the exponent".into(),
        ("WAITUNTILDONE", _) => "a number, the ID of a process".into(),
        ("WHILE", _) => "a number, its condition".into(),
        ("ELSE", _) => "the number that IF left".into(),
        ("ENDIF", _) => "a number, such as IF leaves".into(),
        ("TOFLOAT", _) => "a CHAR or an INT".into(),
        (_, &[taken]) => one(taken).into(),
        (_, pops) => several(pops, counted),
    }
}

fn one(taken: Taken) -> &'static str {
    match taken {
        Taken::Number => "a number",
        Taken::Whole => "a whole number (CHAR or INT)",
        Taken::IntOrFloat => "an INT or a FLOAT",
        Taken::CharOrFloat => "a CHAR or a FLOAT",
        Taken::Text => "a string",
        Taken::Value => "a value",
        Taken::Byte => "the byte that WHILE pushed",
    }
}

fn several(pops: &[Taken], counted: bool) -> String {
    let count = match pops.len() {
        _ if !counted => "",
        2 => "two ",
        3 => "three ",
        _ => "five ",
    };
    let wholes = pops.iter().all(|&taken| taken == Taken::Whole);
    format!("{count}{}", if wholes { "whole numbers (CHAR or INT)" } else { "numbers" })
}
