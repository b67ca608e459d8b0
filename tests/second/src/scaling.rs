//! CONSTRAIN, MAP and POW of the single process. Document 02, Q-3.
//!
//! Written apart from the operators in `number`: on the bytes of the values, sharing only the numbers of their types.

use crate::fault::Fault;
use crate::number::FLOAT_TYPE;
use crate::single::Value;

/// "CONSTRAIN of x, a, b is our MIN of (our MAX of x, a) and b": MAX is the first "unless it is greater", MIN "unless the
/// second is less".
pub fn constrain(x: &Value, a: &Value, b: &Value) -> Value {
    let raised = if float(a) > float(x) { a } else { x };
    let held = if float(b) < float(raised) { b } else { raised };
    match widest(&[x, a, b]) {
        FLOAT_TYPE => of_float(float(held)),
        kind => of_whole(kind, whole(held)),
    }
}

/// "MAP of a, b, c, d, e is (a − b) × (e − d) / (c − b) + d".
pub fn map(operands: [&Value; 5]) -> Result<Value, Fault> {
    match widest(&operands) {
        FLOAT_TYPE => Ok(of_float(map_floats(operands.map(float)))),
        kind => Ok(of_whole(kind, map_wholes(operands.map(whole))?)),
    }
}

/// "on whole numbers exact, the quotient cut toward zero": that of the sizes, with the sign; "equal b and c give fault 7".
fn map_wholes([a, b, c, d, e]: [i64; 5]) -> Result<i64, Fault> {
    let (product, divisor) = ((a - b) * (e - d), c - b);
    if divisor == 0 {
        return Err(Fault::DivisorZero);
    }
    let size = product.abs() / divisor.abs();
    Ok(if (product < 0) == (divisor < 0) { d + size } else { d - size })
}

/// "each operation rounds once, as written".
fn map_floats([a, b, c, d, e]: [f32; 5]) -> f32 {
    let above = a - b;
    let span = e - d;
    let product = above * span;
    let quotient = product / (c - b);
    quotient + d
}

/// "POW takes a whole y from 0 to 15, else fault 8, multiplying from the left starting at 1, in the wider operand's type".
pub fn power(x: &Value, y: &Value) -> Result<Value, Fault> {
    let times = whole(y);
    if !(0..=15).contains(&times) {
        return Err(Fault::OutOfRange);
    }
    match widest(&[x, y]) {
        FLOAT_TYPE => {
            let mut product = 1.0;
            for _ in 0..times {
                product *= float(x);
            }
            Ok(of_float(product))
        }
        // what is right modulo 65,536 is so modulo 256
        kind => Ok(of_whole(kind, (0..times).fold(1, |product, _| product * whole(x) % 65_536))),
    }
}

/// The widest type: the numbers of CHAR, INT and FLOAT rise with their width.
fn widest(values: &[&Value]) -> u8 {
    values.iter().map(|value| value.kind).max().unwrap_or(0)
}

/// A CHAR's or an INT's value: the first byte is signed.
fn whole(value: &Value) -> i64 {
    value.bytes[1..].iter().fold(i64::from(value.bytes[0] as i8), |high, &low| high * 256 + i64::from(low))
}

/// Any number as FLOAT.
fn float(value: &Value) -> f32 {
    match value.bytes[..] {
        [a, b, c, d] => f32::from_be_bytes([a, b, c, d]),
        _ => whole(value) as f32,
    }
}

/// "the result reduced to the widest type": the low byte of it, or two.
fn of_whole(kind: u8, exact: i64) -> Value {
    let bytes = exact.to_be_bytes();
    Value { kind, bytes: bytes[bytes.len() - usize::from(kind)..].to_vec() }
}

/// Document 01: "A NaN result is stored as hex 7FC00000."
fn of_float(x: f32) -> Value {
    let bytes = if x.is_nan() { [0x7F, 0xC0, 0, 0] } else { x.to_be_bytes() };
    Value { kind: FLOAT_TYPE, bytes: bytes.to_vec() }
}
