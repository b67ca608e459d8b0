//! Phrases that the reasons share.

use crate::literal;
use crate::value::Value;

pub const TOP: &str = "on top of the stack";

/// Any NaN, whatever its bits.
pub fn is_nan(value: &Value) -> bool {
    matches!(value, Value::Float(bits) if f32::from_bits(*bits).is_nan())
}

/// "INT 5", "FLOAT nan", "STRING "abc"".
pub fn plain(value: &Value) -> String {
    if is_nan(value) {
        return "FLOAT nan".into();
    }
    value.to_string()
}

/// "the INT 5", "the string "abc"", "the byte 18".
pub fn the(value: &Value) -> String {
    match value {
        Value::Text(text) => format!("the string {}", literal::text(text)),
        _ => format!("the {}", plain(value)),
    }
}

/// "byte 119 ('w')", "byte 200".
pub fn byte_text(byte: u8) -> String {
    match byte {
        b' '..=b'~' => format!("byte {byte} ({})", literal::character(byte)),
        _ => format!("byte {byte}"),
    }
}

/// "1 byte", "2 bytes".
pub fn bytes_text(count: usize) -> String {
    match count {
        1 => "1 byte".into(),
        _ => format!("{count} bytes"),
    }
}

/// "none is", "1 is", "2 are".
pub fn are(count: usize) -> String {
    match count {
        0 => "none is".into(),
        1 => "1 is".into(),
        _ => format!("{count} are"),
    }
}

/// "a", "a and b", "a, b and c".
pub fn list(items: &[String]) -> String {
    match items {
        [] => String::new(),
        [one] => one.clone(),
        [front @ .., last] => format!("{} and {last}", front.join(", ")),
    }
}
