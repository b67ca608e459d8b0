//! Faults 7 and 8: "7 whole divisor zero; 8 conversion of NaN or to a whole outside the type's range, negative whole
//! root, or c + b above 251 on a value not zero". Document 02, Q-3: MAP's 7 and POW's 8.

use super::words::{is_nan, plain, the, TOP};
use super::Turn;
use crate::instruction::MAX_WHILE;
use crate::value::Value;
use std::fmt;

#[derive(Clone, Debug)]
pub enum Reason {
    DivisorZero {
        mnemonic: &'static str,
        dividend: Value,
        divisor: Value,
    },
    /// MAP's b = c, all whole; a to e.
    EmptyRange(Box<[Value; 5]>),
    OutsideType {
        mnemonic: &'static str,
        range: Range,
        value: Value,
    },
    NegativeRoot(Value),
    /// POW's y.
    Exponent(Value),
    WhileTooLong {
        condition: u8,
        body: u8,
    },
}

/// A type with its least and its greatest value.
#[derive(Clone, Copy, Debug)]
pub struct Range {
    kind: &'static str,
    least: i16,
    most: i16,
}

const CHAR_RANGE: Range = Range { kind: "a CHAR", least: i8::MIN as i16, most: i8::MAX as i16 };
const INT_RANGE: Range = Range { kind: "an INT", least: i16::MIN, most: i16::MAX };

/// POW "takes a whole y from 0 to 15, else fault 8".
const MAX_EXPONENT: i32 = 15;

pub(super) fn tried(turn: &Turn) -> Result<(), Reason> {
    let mnemonic = turn.instruction.mnemonic;
    match (mnemonic, &turn.operands[..]) {
        ("DIVIDEDBY" | "MODULUS", [divisor, dividend]) => division(mnemonic, dividend, divisor),
        ("MAP", [e, d, c, b, a]) => map([a, b, c, d, e]),
        ("TOCHAR", [x]) => conversion(mnemonic, x, f32::trunc, CHAR_RANGE),
        ("TOINT", [x]) => conversion(mnemonic, x, f32::trunc, INT_RANGE),
        ("ROUND", [x]) => conversion(mnemonic, x, f32::round, INT_RANGE),
        ("FLOOR", [x]) => conversion(mnemonic, x, f32::floor, INT_RANGE),
        ("CEIL", [x]) => conversion(mnemonic, x, f32::ceil, INT_RANGE),
        ("SQRT", [x]) => need(whole(x).is_none_or(|x| x >= 0), || Reason::NegativeRoot(x.clone())),
        ("POW", [y, _]) => exponent(y),
        ("WHILE", [x]) => begin_while(x, turn.arguments),
        _ => Ok(()),
    }
}

fn need(condition: bool, reason: impl FnOnce() -> Reason) -> Result<(), Reason> {
    if condition {
        Ok(())
    } else {
        Err(reason())
    }
}

/// A CHAR's or an INT's value.
fn whole(value: &Value) -> Option<i32> {
    match value {
        Value::Char(x) => Some(i32::from(*x)),
        Value::Int(x) => Some(i32::from(*x)),
        _ => None,
    }
}

/// "NaN counts as not zero, −0 as zero."
pub(super) fn is_zero(value: &Value) -> bool {
    match value {
        Value::Float(bits) => f32::from_bits(*bits) == 0.0,
        _ => whole(value) == Some(0),
    }
}

/// With a FLOAT on either side it is a FLOAT division, which does not fault.
fn division(mnemonic: &'static str, dividend: &Value, divisor: &Value) -> Result<(), Reason> {
    need(whole(dividend).is_none() || whole(divisor) != Some(0), || Reason::DivisorZero {
        mnemonic,
        dividend: dividend.clone(),
        divisor: divisor.clone(),
    })
}

/// "on whole numbers .. equal b and c give fault 7".
fn map(operands: [&Value; 5]) -> Result<(), Reason> {
    let [_, b, c, _, _] = operands;
    let all_whole = operands.iter().all(|operand| whole(operand).is_some());
    need(!all_whole || whole(b) != whole(c), || Reason::EmptyRange(Box::new(operands.map(Value::clone))))
}

/// Of a FLOAT; the whole after cutting or rounding is what must lie in the range.
fn conversion(mnemonic: &'static str, value: &Value, rule: fn(f32) -> f32, range: Range) -> Result<(), Reason> {
    let Value::Float(bits) = value else { return Ok(()) };
    let bounds = f32::from(range.least)..=f32::from(range.most);
    let lies_inside = bounds.contains(&rule(f32::from_bits(*bits)));
    need(lies_inside, || Reason::OutsideType { mnemonic, range, value: value.clone() })
}

fn exponent(y: &Value) -> Result<(), Reason> {
    let lies_inside = whole(y).is_some_and(|y| (0..=MAX_EXPONENT).contains(&y));
    need(lies_inside, || Reason::Exponent(y.clone()))
}

fn begin_while(x: &Value, arguments: &[u8]) -> Result<(), Reason> {
    let &[condition, body] = arguments else { return Ok(()) };
    let fits = usize::from(condition) + usize::from(body) <= MAX_WHILE;
    need(fits || is_zero(x), || Reason::WhileTooLong { condition, body })
}

impl Reason {
    pub fn fault(&self) -> u8 {
        match self {
            Reason::DivisorZero { .. } | Reason::EmptyRange(_) => 7,
            Reason::OutsideType { .. } | Reason::NegativeRoot(_) | Reason::Exponent(_) => 8,
            Reason::WhileTooLong { .. } => 8,
        }
    }
}

impl fmt::Display for Reason {
    fn fmt(&self, f: &mut fmt::Formatter<'_>) -> fmt::Result {
        match self {
            Reason::DivisorZero { mnemonic, dividend, divisor } => {
                write!(f, "the divisor is zero: {} {mnemonic} {}", plain(dividend), plain(divisor))
            }
            Reason::EmptyRange(operands) => {
                let [a, b, c, d, e] = operands.each_ref().map(plain);
                write!(f, "MAP divides by c - b, which is zero: a is {a}, b is {b}, c is {c}, d is {d}, e is {e}")
            }
            Reason::OutsideType { mnemonic, range: Range { kind, least, most }, value } => {
                let remark = if is_nan(value) { ", which is no number" } else { "" };
                write!(f, "{mnemonic} gives {kind}, {least} to {most}; {TOP} lay {}{remark}", the(value))
            }
            Reason::NegativeRoot(value) => {
                write!(f, "SQRT of a CHAR or an INT wants 0 or more; {TOP} lay {}", the(value))
            }
            Reason::Exponent(value) => write!(f, "POW takes an exponent of 0 to 15; {TOP} lay {}", the(value)),
            Reason::WhileTooLong { condition, body } => {
                let sum = u16::from(*condition) + u16::from(*body);
                write!(f, "WHILE's lengths {condition} and {body} make {sum}; together they are at most {MAX_WHILE}")
            }
        }
    }
}
