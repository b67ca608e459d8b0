//! Numbers and the operators on them. Document 01, "Instructions"; document 02, Q-3.

use crate::fault::{need, Fault};
use crate::instruction::*;
use std::cmp::Ordering;

/// The types of values: "high byte first, then its type 1, 2 or 4; a string as bytes, length, 3."
pub const CHAR_TYPE: u8 = 1;
pub const INT_TYPE: u8 = 2;
pub const STRING_TYPE: u8 = 3;
pub const FLOAT_TYPE: u8 = 4;

/// The types that a popped value may have.
pub const NUMBERS: &[u8] = &[CHAR_TYPE, INT_TYPE, FLOAT_TYPE];
pub const WHOLES: &[u8] = &[CHAR_TYPE, INT_TYPE];
pub const STRINGS: &[u8] = &[STRING_TYPE];
pub const VALUES: &[u8] = &[CHAR_TYPE, INT_TYPE, STRING_TYPE, FLOAT_TYPE];

/// "A NaN result is stored as hex 7FC00000."
const NAN_BITS: u32 = 0x7FC0_0000;

/// "A number taken off the stack is a CHAR, an INT or a FLOAT, signed 8, signed 16, binary32."
#[derive(Clone, Copy, Debug)]
pub enum Number {
    Char(i8),
    Int(i16),
    Float(f32),
}

use Number::{Char, Float, Int};

type Result<T> = std::result::Result<T, Fault>;

impl Number {
    /// The number of a numeric type and as many bytes, high byte first.
    pub fn decode(kind: u8, bytes: &[u8]) -> Number {
        match kind {
            CHAR_TYPE => Char(bytes[0] as i8),
            INT_TYPE => Int(i16::from_be_bytes([bytes[0], bytes[1]])),
            _ => Float(f32::from_bits(u32::from_be_bytes([bytes[0], bytes[1], bytes[2], bytes[3]]))),
        }
    }

    /// The type of the number, which is also its size.
    pub fn kind(self) -> u8 {
        match self {
            Char(_) => CHAR_TYPE,
            Int(_) => INT_TYPE,
            Float(_) => FLOAT_TYPE,
        }
    }

    /// The number as the result of an operator; the first [`Number::kind`] bytes count.
    pub fn encode(self) -> [u8; 4] {
        let mut bytes = [0; 4];
        match self {
            Char(x) => bytes[0] = x as u8,
            Int(x) => bytes[..2].copy_from_slice(&x.to_be_bytes()),
            Float(x) if x.is_nan() => bytes = NAN_BITS.to_be_bytes(),
            Float(x) => bytes = x.to_bits().to_be_bytes(),
        }
        bytes
    }

    /// The number as FLOAT; exact, as whole numbers have at most 16 bits.
    pub fn float(self) -> f32 {
        match self {
            Char(x) => f32::from(x),
            Int(x) => f32::from(x),
            Float(x) => x,
        }
    }

    /// "NaN counts as not zero, −0 as zero."
    pub fn is_zero(self) -> bool {
        self.float() == 0.0
    }

    /// The value if it is whole in type.
    pub fn whole(self) -> Option<i32> {
        match self {
            Char(x) => Some(i32::from(x)),
            Int(x) => Some(i32::from(x)),
            Float(_) => None,
        }
    }

    /// "otherwise the exact whole result is kept modulo 65,536, or 256 for CHAR": in the type of this number.
    fn keep(self, exact: i32) -> Number {
        match self {
            Char(_) => Char(exact as i8),
            _ => Int(exact as i16),
        }
    }

    /// The same value in the wider type of two numbers.
    fn widened(self, other: Number) -> Number {
        match (self, other) {
            (Float(_), _) | (_, Float(_)) => Float(self.float()),
            (Char(x), Int(_)) => Int(i16::from(x)),
            _ => self,
        }
    }
}

/// The exact order of two numbers; none with a NaN.
fn order(x: Number, y: Number) -> Option<Ordering> {
    x.float().partial_cmp(&y.float())
}

/// "With a FLOAT operand both become FLOAT; otherwise the exact whole result is kept."
fn combine(x: Number, y: Number, whole: fn(i32, i32) -> i32, float: fn(f32, f32) -> f32) -> Number {
    match (x.whole(), y.whole()) {
        (Some(a), Some(b)) => x.widened(y).keep(whole(a, b)),
        _ => Float(float(x.float(), y.float())),
    }
}

/// x + y.
fn plus(x: Number, y: Number) -> Number {
    combine(x, y, |a, b| a + b, |a, b| a + b)
}

/// x − y.
fn minus(x: Number, y: Number) -> Number {
    combine(x, y, |a, b| a - b, |a, b| a - b)
}

/// x × y.
fn times(x: Number, y: Number) -> Number {
    combine(x, y, |a, b| a * b, |a, b| a * b)
}

/// "7 whole divisor zero"; a FLOAT divided by a whole zero is FLOAT division.
fn need_divisor(x: Number, y: Number) -> Result<()> {
    need(x.whole().is_none() || y.whole() != Some(0), Fault::DivisorZero)
}

/// "DIVIDEDBY on whole numbers cuts toward zero".
fn divided_by(x: Number, y: Number) -> Result<Number> {
    need_divisor(x, y)?;
    Ok(combine(x, y, |a, b| a / b, |a, b| a / b))
}

/// "MODULUS has the dividend's sign."
fn modulus(x: Number, y: Number) -> Result<Number> {
    need_divisor(x, y)?;
    Ok(wholes(x, y, |a, b| a % b))
}

/// The negative; of FLOAT 0 it is −0.
fn unary_minus(x: Number) -> Number {
    match x {
        Float(a) => Float(-a),
        _ => x.keep(-x.whole().unwrap_or(0)),
    }
}

/// The absolute value; of −0 it is 0.
fn absolute(x: Number) -> Number {
    match x {
        Float(a) => Float(a.abs()),
        _ => x.keep(x.whole().unwrap_or(0).abs()),
    }
}

/// CHAR 1 for true, CHAR 0 for false.
fn truth(condition: bool) -> Number {
    Char(i8::from(condition))
}

/// "MIN gives the operand pushed first unless the second is less".
fn minimum(x: Number, y: Number) -> Number {
    match order(y, x) {
        Some(Ordering::Less) => y.widened(x),
        _ => x.widened(y),
    }
}

/// "MAX unless it is greater".
fn maximum(x: Number, y: Number) -> Number {
    match order(y, x) {
        Some(Ordering::Greater) => y.widened(x),
        _ => x.widened(y),
    }
}

/// "Bitwise and MODULUS refuse FLOAT": an operator on whole numbers only; CHAR is sign-extended.
fn wholes(x: Number, y: Number, exact: fn(i32, i32) -> i32) -> Number {
    x.widened(y).keep(exact(x.whole().unwrap_or(0), y.whole().unwrap_or(0)))
}

/// "8 conversion of NaN or to a whole outside the type's range"; the value has no fraction.
fn whole_within(value: f32, low: i32, high: i32) -> Result<i32> {
    need(value >= low as f32 && value <= high as f32, Fault::OutOfRange)?;
    Ok(value as i32)
}

/// "TOCHAR of an INT keeps the low byte. TOINT and TOCHAR of a FLOAT cut toward zero".
fn to_char(x: Number) -> Result<Number> {
    match x {
        Float(a) => Ok(Char(whole_within(a.trunc(), -128, 127)? as i8)),
        _ => Ok(Char(x.whole().unwrap_or(0) as i8)),
    }
}

/// A number as INT, by a rule for the fraction of a FLOAT.
fn to_int(x: Number, rule: fn(f32) -> f32) -> Result<Number> {
    match x {
        Float(a) => Ok(Int(whole_within(rule(a), -32768, 32767)? as i16)),
        _ => Ok(x.widened(Int(0))),
    }
}

/// "SQRT of a FLOAT is correctly rounded; of a whole number it is the whole root."; "8 negative whole root".
fn square_root(x: Number) -> Result<Number> {
    match x {
        Float(a) => Ok(Float(a.sqrt())),
        _ => {
            let square = x.whole().unwrap_or(0);
            need(square >= 0, Fault::OutOfRange)?;
            Ok(x.keep(square.isqrt()))
        }
    }
}

/// Document 02, Q-3: "CONSTRAIN of x, a, b is our MIN of (our MAX of x, a) and b."
fn constrain(operands: &[Number]) -> Result<Number> {
    let &[x, a, b] = operands else { unreachable!("it takes three") };
    Ok(minimum(maximum(x, a), b))
}

/// "MAP of a, b, c, d, e is (a − b) × (e − d) / (c − b) + d".
fn map(operands: &[Number]) -> Result<Number> {
    let wholes: Option<Vec<i64>> = operands.iter().map(|x| x.whole().map(i64::from)).collect();
    match wholes {
        Some(wholes) => map_wholes(&wholes, widest(operands)),
        None => Ok(Float(map_floats(operands))),
    }
}

/// Q-3: "on whole numbers exact, the quotient cut toward zero, the result reduced to the widest type; there equal b and c
/// give fault 7."
fn map_wholes(operands: &[i64], widest: Number) -> Result<Number> {
    let &[a, b, c, d, e] = operands else { unreachable!("it takes five") };
    need(b != c, Fault::DivisorZero)?;
    let exact = (a - b) * (e - d) / (c - b) + d;
    // the low 16 bits are all that either type keeps
    Ok(widest.keep(i32::from(exact as i16)))
}

/// "With a FLOAT all five become FLOAT and each operation rounds once, as written."
fn map_floats(operands: &[Number]) -> f32 {
    let floats: Vec<f32> = operands.iter().map(|x| x.float()).collect();
    let &[a, b, c, d, e] = &floats[..] else { unreachable!("it takes five") };
    (a - b) * (e - d) / (c - b) + d
}

/// An operand of the widest type.
fn widest(operands: &[Number]) -> Number {
    operands.iter().fold(Char(0), |widest, &operand| if operand.kind() > widest.kind() { operand } else { widest })
}

/// Q-3: "POW takes a whole y from 0 to 15, else fault 8, multiplying from the left starting at 1, in the wider operand's
/// type".
fn power(operands: &[Number]) -> Result<Number> {
    let &[x, y] = operands else { unreachable!("it takes two") };
    let exponent = y.whole().filter(|y| (0..=15).contains(y)).ok_or(Fault::OutOfRange)?;
    let one = Char(1).widened(x).widened(y);
    Ok((0..exponent).fold(one, |product, _| times(product, x)))
}

/// An instruction that only replaces numbers on the stack, with the types it takes.
pub enum Operator {
    Unary(&'static [u8], fn(Number) -> Result<Number>),
    Binary(&'static [u8], fn(Number, Number) -> Result<Number>),
    /// Of several operands in the order of appendix C, "first pushed lowest", with the types that each takes.
    Several(&'static [&'static [u8]], fn(&[Number]) -> Result<Number>),
}

/// The operators of the guide's tables 2 and 3, and those of Q-3; x is pushed first.
pub fn operator(opcode: u8) -> Option<Operator> {
    use Operator::{Binary, Unary};
    use Ordering::{Equal, Greater, Less};
    Some(match opcode {
        INCREMENT => Unary(NUMBERS, |x| Ok(plus(x, Char(1)))),
        DECREMENT => Unary(NUMBERS, |x| Ok(minus(x, Char(1)))),
        PLUS => Binary(NUMBERS, |x, y| Ok(plus(x, y))),
        MINUS => Binary(NUMBERS, |x, y| Ok(minus(x, y))),
        TIMES => Binary(NUMBERS, |x, y| Ok(times(x, y))),
        DIVIDEDBY => Binary(NUMBERS, divided_by),
        MODULUS => Binary(WHOLES, modulus),
        UNARYMINUS => Unary(NUMBERS, |x| Ok(unary_minus(x))),
        EQUALS => Binary(NUMBERS, |x, y| Ok(truth(order(x, y) == Some(Equal)))),
        NOTEQUALS => Binary(NUMBERS, |x, y| Ok(truth(order(x, y) != Some(Equal)))),
        LESSTHAN => Binary(NUMBERS, |x, y| Ok(truth(order(x, y) == Some(Less)))),
        LESSTHANOREQUALS => Binary(NUMBERS, |x, y| Ok(truth(matches!(order(x, y), Some(Less | Equal))))),
        GREATERTHAN => Binary(NUMBERS, |x, y| Ok(truth(order(x, y) == Some(Greater)))),
        GREATERTHANOREQUALS => Binary(NUMBERS, |x, y| Ok(truth(matches!(order(x, y), Some(Greater | Equal))))),
        LOGICALAND => Binary(NUMBERS, |x, y| Ok(truth(!x.is_zero() && !y.is_zero()))),
        LOGICALOR => Binary(NUMBERS, |x, y| Ok(truth(!x.is_zero() || !y.is_zero()))),
        LOGICALXOR => Binary(NUMBERS, |x, y| Ok(truth(x.is_zero() != y.is_zero()))),
        LOGICALNOT => Unary(NUMBERS, |x| Ok(truth(x.is_zero()))),
        BITWISEAND => Binary(WHOLES, |x, y| Ok(wholes(x, y, |a, b| a & b))),
        BITWISEOR => Binary(WHOLES, |x, y| Ok(wholes(x, y, |a, b| a | b))),
        BITWISEXOR => Binary(WHOLES, |x, y| Ok(wholes(x, y, |a, b| a ^ b))),
        BITWISENOT => Unary(WHOLES, |x| Ok(wholes(x, x, |a, _| !a))),
        TOCHAR => Unary(&[INT_TYPE, FLOAT_TYPE], to_char),
        TOINT => Unary(&[CHAR_TYPE, FLOAT_TYPE], |x| to_int(x, f32::trunc)),
        TOFLOAT => Unary(&[CHAR_TYPE, INT_TYPE], |x| Ok(Float(x.float()))),
        ROUND => Unary(NUMBERS, |x| to_int(x, f32::round)),
        FLOOR => Unary(NUMBERS, |x| to_int(x, f32::floor)),
        CEIL => Unary(NUMBERS, |x| to_int(x, f32::ceil)),
        MIN => Binary(NUMBERS, |x, y| Ok(minimum(x, y))),
        MAX => Binary(NUMBERS, |x, y| Ok(maximum(x, y))),
        ABS => Unary(NUMBERS, |x| Ok(absolute(x))),
        SQ => Unary(NUMBERS, |x| Ok(times(x, x))),
        SQRT => Unary(NUMBERS, square_root),
        _ => return scaling(opcode),
    })
}

/// "Load lamps need CONSTRAIN, MAP and POW."; "a FLOAT y is fault 6".
fn scaling(opcode: u8) -> Option<Operator> {
    match opcode {
        CONSTRAIN => Some(Operator::Several(&[NUMBERS; 3], constrain)),
        MAP => Some(Operator::Several(&[NUMBERS; 5], map)),
        POW => Some(Operator::Several(&[NUMBERS, WHOLES], power)),
        _ => None,
    }
}
