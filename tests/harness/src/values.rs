//! Values as they lie on a stack, good and malformed.

use crate::random::Random;
use second::number::{CHAR_TYPE, FLOAT_TYPE, INT_TYPE, STRING_TYPE};

/// binary32 patterns at the edges of document 01's rules.
pub const FLOAT_EDGES: [u32; 75] = [
    0x0000_0000, // 0
    0x8000_0000, // −0
    0x0000_0001, // least subnormal
    0x8000_0001,
    0x007F_FFFF, // greatest subnormal
    0x0080_0000, // least normal
    0x8080_0000,
    0x1E3C_E508, // square is subnormal
    0x3400_0000, // 2^−23
    0x3B83_126F, // 0.004
    0x3BA3_D70A, // just below 0.005
    0x3BA3_D70B, // just above 0.005
    0xBBA3_D70B,
    0xBA83_126F, // −0.001
    0x3C23_D70A, // 0.01
    0x3C75_C28F, // 0.015
    0x3DCC_CCCD, // 0.1
    0x3E00_0000, // 0.125, half a hundredth
    0xBE00_0000,
    0x3EC0_0000, // 0.375
    0x3EFF_FFFF, // below 0.5
    0x3F00_0000, // 0.5
    0xBF00_0000,
    0xBEFF_FFFF,
    0x3F7F_FFFF, // below 1
    0xBF7F_FFFF,
    0x3F80_0000, // 1
    0xBF80_0000,
    0x3F80_0001,
    0x3FC0_0000, // 1.5
    0xBFC0_0000,
    0x4000_0000, // 2
    0x4020_0000, // 2.5
    0xC020_0000,
    0x40E0_0000, // 7
    0xC0E0_0000,
    0x42F6_E666, // 123.45
    0x42FE_FFFF, // below 127.5
    0x42FF_0000, // 127.5
    0x42FF_FFFF, // below 128
    0x4300_0000, // 128
    0xC300_FFFF, // above −129
    0xC301_0000, // −129
    0x4348_0000, // 200
    0x4457_C000, // 863
    0x4457_FFFF, // below 864
    0x4458_0000, // 864
    0x4575_F000, // 3935
    0x4575_FFFF, // below 3936
    0x4576_0000, // 3936
    0x46FF_FE00, // 32767
    0x46FF_FEFF,
    0x46FF_FF00, // 32767.5
    0x46FF_FFFF, // below 32768
    0x4700_0000, // 32768
    0xC700_0000, // −32768
    0xC700_0080, // −32768.5
    0xC700_00E6, // about −32768.9
    0xC700_0100, // −32769
    0x4AFF_FFFF, // 8388607.5
    0x4B00_0001, // 8388609
    0x4B80_0000, // 2^24
    0x4F7F_FFFE, // below 4294967040
    0x4F7F_FFFF, // 4294967040
    0xCF7F_FFFF,
    0x4F80_0000, // 2^32
    0xCF80_0000,
    0x7F7F_FFFF, // greatest
    0xFF7F_FFFF,
    0x7F80_0000, // infinities
    0xFF80_0000,
    0x7FC0_0000, // the NaN of document 01
    0xFFC0_0000,
    0x7F80_0001, // signalling NaNs
    0xFFBF_FFFF,
];

/// Numbers and texts that matter in a state: process IDs, the clock, file names.
#[derive(Default)]
pub struct Context {
    pub numbers: Vec<i32>,
    pub texts: Vec<Vec<u8>>,
}

/// What may lie at the top of a stack.
#[derive(Clone, Copy, PartialEq, Eq, Debug)]
pub enum Kind {
    Nothing,
    Char,
    Int,
    Float,
    Text,
    LengthZero,
    NoZero,
    InnerZero,
    LengthTooLong,
    UnknownType,
    RawByte,
}

pub const KINDS: [Kind; 11] = [
    Kind::Nothing,
    Kind::Char,
    Kind::Int,
    Kind::Float,
    Kind::Text,
    Kind::LengthZero,
    Kind::NoZero,
    Kind::InnerZero,
    Kind::LengthTooLong,
    Kind::UnknownType,
    Kind::RawByte,
];

/// The bytes of a value of a kind, bottom first.
pub fn bytes_of(kind: Kind, context: &Context, random: &mut Random) -> Vec<u8> {
    match kind {
        Kind::Nothing => Vec::new(),
        Kind::Char => vec![char_value(context, random) as u8, CHAR_TYPE],
        Kind::Int => with_type(&int_value(context, random).to_be_bytes(), INT_TYPE),
        Kind::Float => with_type(&float_bits(context, random).to_be_bytes(), FLOAT_TYPE),
        Kind::Text => string(&text(context, random)),
        Kind::LengthZero => vec![random.byte(), 0, STRING_TYPE],
        Kind::NoZero => string_of(&nonzero(random)),
        Kind::InnerZero => string_of(&[nonzero(random), vec![0], nonzero(random), vec![0]].concat()),
        Kind::LengthTooLong => vec![random.byte(), random.between(3, 255) as u8, STRING_TYPE],
        Kind::UnknownType => vec![random.byte(), *random.pick(&[0, 5, 6, 67, 128, 255])],
        Kind::RawByte if random.chance(1, 2) => vec![*random.pick(&[CHAR_TYPE, INT_TYPE, STRING_TYPE, FLOAT_TYPE])],
        Kind::RawByte => vec![random.byte()],
    }
}

fn with_type(bytes: &[u8], kind: u8) -> Vec<u8> {
    [bytes, &[kind]].concat()
}

/// A string value from its text, the zero added.
pub fn string(text: &[u8]) -> Vec<u8> {
    string_of(&[text, &[0]].concat())
}

/// A string value from all its bytes.
fn string_of(bytes: &[u8]) -> Vec<u8> {
    [bytes, &[bytes.len() as u8, STRING_TYPE]].concat()
}

/// A few bytes that are not zero.
fn nonzero(random: &mut Random) -> Vec<u8> {
    let length = random.between(1, 5);
    (0..length).map(|_| random.between(1, 255) as u8).collect()
}

fn text(context: &Context, random: &mut Random) -> Vec<u8> {
    if !context.texts.is_empty() && random.chance(2, 3) {
        return random.pick(&context.texts).clone();
    }
    match random.below(5) {
        0 => Vec::new(),
        1 => vec![b'x'; random.between(10, 13)],
        _ => nonzero(random),
    }
}

fn char_value(context: &Context, random: &mut Random) -> i8 {
    match random.below(5) {
        4 => 0,
        0 if !context.numbers.is_empty() => *random.pick(&context.numbers) as i8,
        1 => *random.pick(&[0, 1, -1, 2, -2, 7, -7, 10, 127, -127, -128]),
        _ => random.byte() as i8,
    }
}

const INT_EDGES: [i16; 21] =
    [0, 1, -1, 2, -2, 7, -7, 100, 127, 128, -128, -129, 255, 256, 863, 864, 3935, 3936, 32767, -32767, -32768];

fn int_value(context: &Context, random: &mut Random) -> i16 {
    match random.below(6) {
        4 => 0,
        0 if !context.numbers.is_empty() => *random.pick(&context.numbers) as i16,
        1 => *random.pick(&INT_EDGES),
        2 => random.between(0, 1000) as i16 - 20,
        5 => random.between(1000, 4000) as i16,
        _ => random.word() as i16,
    }
}

/// The bits of a FLOAT: edges, whole and decimal numbers, any bits.
pub fn float_bits(context: &Context, random: &mut Random) -> u32 {
    match random.below(7) {
        6 => *random.pick(&[0x0000_0000, 0x8000_0000]),
        0 if !context.numbers.is_empty() => {
            let near = *random.pick(&[0.0, 0.0, 0.5, -0.5, 0.25]);
            (*random.pick(&context.numbers) as f32 + near).to_bits()
        }
        1 => (random.between(0, 70_000) as f32 / 2.0 - 17_500.0).to_bits(),
        2 => (((random.between(0, 2_000_000) as f64 - 1_000_000.0) / 1000.0) as f32).to_bits(),
        3 => random.bits() as u32,
        _ => *random.pick(&FLOAT_EDGES),
    }
}

/// A whole stack of at most `limit` bytes: values of any kind, mostly good.
pub fn stack(limit: usize, context: &Context, random: &mut Random) -> Vec<u8> {
    let mut stack = Vec::new();
    loop {
        let kind = if random.chance(1, 12) { *random.pick(&KINDS) } else { *random.pick(&KINDS[1..5]) };
        let value = bytes_of(kind, context, random);
        if stack.len() + value.len() > limit || random.chance(1, 8) {
            return stack;
        }
        stack.extend(value);
    }
}
