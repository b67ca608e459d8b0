//! The text of a number. Document 01: "PRINT: CHAR one byte; INT decimal; …".

use crate::number::Number;
use std::io::Write;

/// "'ovf' above 4294967040 and '-ovf' below its negative".
const PRINTABLE: f32 = 4_294_967_040.0;

/// Writes a number's text at the start of the output and returns its length, at most 14.
pub fn print(number: Number, output: &mut [u8]) -> usize {
    match number {
        Number::Char(x) => write_bytes(&[x as u8], output),
        Number::Int(x) => written(output, |rest| write!(rest, "{x}")),
        Number::Float(x) => print_float(x, output),
    }
}

/// Writes bytes at the start of the output and returns their number.
pub fn write_bytes(bytes: &[u8], output: &mut [u8]) -> usize {
    output[..bytes.len()].copy_from_slice(bytes);
    bytes.len()
}

/// The number of bytes that a formatted write leaves in the output.
fn written(output: &mut [u8], write: impl Fn(&mut &mut [u8]) -> std::io::Result<()>) -> usize {
    let room = output.len();
    let mut rest = output;
    write(&mut rest).expect("32 bytes hold every number");
    room - rest.len()
}

/// "FLOAT to the nearest hundredth, half away from zero, two decimals, '-' if below zero; 'nan', 'inf', '-inf'".
fn print_float(x: f32, output: &mut [u8]) -> usize {
    if x.is_nan() {
        return write_bytes(b"nan", output);
    }
    let sign = if x < 0.0 { "-" } else { "" };
    if x.is_infinite() {
        return written(output, |rest| write!(rest, "{sign}inf"));
    }
    if x.abs() > PRINTABLE {
        return written(output, |rest| write!(rest, "{sign}ovf"));
    }
    let hundredths = hundredths(x.abs());
    written(output, |rest| write!(rest, "{sign}{}.{:02}", hundredths / 100, hundredths % 100))
}

/// The exact binary value in hundredths, half rounded up; the value is from 0 to [`PRINTABLE`].
fn hundredths(x: f32) -> u64 {
    let bits = x.to_bits();
    let fraction = u64::from(bits & 0x007F_FFFF);
    let (mantissa, exponent) = match bits >> 23 {
        0 => (fraction, -149),
        biased => (fraction | 0x0080_0000, biased as i32 - 150),
    };
    match exponent {
        0.. => (mantissa * 100) << exponent,
        -40..=-1 => (mantissa * 100 + (1 << (-exponent - 1))) >> -exponent,
        _ => 0,
    }
}
