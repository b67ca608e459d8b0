//! Typed values, as they lie on a stack and in variable memory, and how they are shown.

use crate::literal;
use std::fmt;

/// The types of values in a stack and in a variable entry.
pub const CHAR: u8 = 1;
pub const INT: u8 = 2;
pub const STRING: u8 = 3;
pub const FLOAT: u8 = 4;

/// A type's name; "?" for a number that is no type.
pub fn type_name(kind: u8) -> &'static str {
    match kind {
        CHAR => "CHAR",
        INT => "INT",
        STRING => "STRING",
        FLOAT => "FLOAT",
        _ => "?",
    }
}

#[derive(Clone, Debug, PartialEq, Eq)]
pub enum Value {
    Char(i8),
    Int(i16),
    /// The bits of a binary32.
    Float(u32),
    /// Without its zero.
    Text(Vec<u8>),
    /// A byte that is no value's: WHILE's, or what a malformed value leaves.
    Byte(u8),
}

impl Value {
    /// The value of a type and its bytes, high byte first; none if the bytes are no such value.
    pub fn of(kind: u8, bytes: &[u8]) -> Option<Value> {
        match (kind, bytes) {
            (CHAR, &[a]) => Some(Value::Char(a as i8)),
            (INT, &[a, b]) => Some(Value::Int(i16::from_be_bytes([a, b]))),
            (FLOAT, &[a, b, c, d]) => Some(Value::Float(u32::from_be_bytes([a, b, c, d]))),
            (STRING, [text @ .., 0]) if !text.contains(&0) => Some(Value::Text(text.to_vec())),
            _ => None,
        }
    }
}

/// "INT 300", "CHAR 97 'a'", "FLOAT 3.5", "STRING "abc"", "byte 14".
impl fmt::Display for Value {
    fn fmt(&self, f: &mut fmt::Formatter<'_>) -> fmt::Result {
        match self {
            Value::Char(x) if (b' '..=b'~').contains(&(*x as u8)) => {
                write!(f, "CHAR {x} {}", literal::character(*x as u8))
            }
            Value::Char(x) => write!(f, "CHAR {x}"),
            Value::Int(x) => write!(f, "INT {x}"),
            Value::Float(bits) => write!(f, "FLOAT {}", literal::float(*bits)),
            Value::Text(bytes) => write!(f, "STRING {}", literal::text(bytes)),
            Value::Byte(byte) => write!(f, "byte {byte}"),
        }
    }
}

/// Why there is no value on top of a stack.
#[derive(Clone, Debug, PartialEq, Eq)]
pub enum Unread {
    /// The stack is empty.
    Nothing,
    /// The topmost byte is no type.
    NoType(u8),
    /// A number's type, and how many bytes lie below it.
    ShortNumber { kind: u8, left: usize },
    /// The type STRING alone.
    NoLength,
    /// The type STRING and a length, and how many bytes lie below them.
    ShortText { length: u8, left: usize },
    /// A string of length 0.
    EmptyText,
    /// A string whose last byte is not zero.
    UnendedText(Vec<u8>),
    /// A string with a zero before its last byte.
    InnerZero(Vec<u8>),
}

/// The topmost value of a stack and the bytes below it, read as an instruction that takes any value would.
pub fn read(stack: &[u8]) -> Result<(Value, &[u8]), Unread> {
    let (&kind, below) = stack.split_last().ok_or(Unread::Nothing)?;
    match kind {
        CHAR | INT | FLOAT => read_number(kind, below).ok_or(Unread::ShortNumber { kind, left: below.len() }),
        STRING => read_text(below),
        _ => Err(Unread::NoType(kind)),
    }
}

/// A number below its type, which is also how many bytes it has; none if there are too few.
fn read_number(kind: u8, stack: &[u8]) -> Option<(Value, &[u8])> {
    let (rest, bytes) = stack.split_at(stack.len().checked_sub(usize::from(kind))?);
    Value::of(kind, bytes).map(|value| (value, rest))
}

/// A string below its type: "A popped string must have length 1 or more and its only zero last."
fn read_text(stack: &[u8]) -> Result<(Value, &[u8]), Unread> {
    let (&length, below) = stack.split_last().ok_or(Unread::NoLength)?;
    let short = Unread::ShortText { length, left: below.len() };
    let (rest, bytes) = below.split_at(below.len().checked_sub(usize::from(length)).ok_or(short)?);
    let value = Value::of(STRING, bytes).ok_or_else(|| match bytes {
        [] => Unread::EmptyText,
        [.., 0] => Unread::InnerZero(bytes.to_vec()),
        _ => Unread::UnendedText(bytes.to_vec()),
    })?;
    Ok((value, rest))
}

/// The topmost value of a stack and the bytes below it. Where there is none the topmost byte is by itself.
pub fn top(stack: &[u8]) -> Option<(Value, &[u8])> {
    let (&byte, below) = stack.split_last()?;
    Some(read(stack).unwrap_or((Value::Byte(byte), below)))
}

/// A stack as values, bottom first, read from the top.
pub fn stack(bytes: &[u8]) -> Vec<Value> {
    let mut values = Vec::new();
    let mut rest = bytes;
    while let Some((value, below)) = top(rest) {
        values.push(value);
        rest = below;
    }
    values.reverse();
    values
}

#[cfg(test)]
mod tests {
    use super::*;

    #[test]
    fn a_stack_is_read_from_the_top() {
        let bytes = [1, 44, 2, 65, 1, 66, 246, 230, 102, 4, 72, 105, 0, 3, 3, 14];
        let shown: Vec<String> = stack(&bytes).iter().map(Value::to_string).collect();
        assert_eq!(shown, ["INT 300", "CHAR 65 'A'", "FLOAT 123.45", "STRING \"Hi\"", "byte 14"]);
    }

    #[test]
    fn what_is_no_value_is_bytes() {
        assert_eq!(stack(&[7, 2]), [Value::Byte(7), Value::Byte(2)]);
        assert_eq!(stack(&[3]), [Value::Byte(3)]);
        assert_eq!(stack(&[72, 1, 3]), [Value::Char(72), Value::Byte(3)]);
        assert_eq!(stack(&[0, 0, 2, 3]), [Value::Int(0), Value::Byte(3)]);
    }
}
