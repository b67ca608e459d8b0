//! Stacks of every kind: what an instruction takes, other values, raw bytes and garbage.

use crate::random::Random;
use workbench::instruction::{Instruction, Taken};
use workbench::layout::STACK_LEN;
use workbench::value::{CHAR, FLOAT, INT, STRING};

const INTS: [i16; 16] = [0, 0, 1, -1, 2, 3, 14, 15, 16, 127, 200, 863, 864, 3935, 32767, -32768];

const FLOATS: [f32; 32] = [
    0.0,
    -0.0,
    0.5,
    -0.5,
    0.999,
    1.0,
    1.5,
    -1.0,
    15.0,
    126.9,
    127.5,
    128.0,
    -128.9,
    -129.0,
    863.9,
    864.0,
    3935.9,
    3936.0,
    32767.0,
    32767.4,
    32767.5,
    32768.0,
    -32768.0,
    -32768.4,
    -32768.5,
    -32768.9,
    -32769.0,
    1e9,
    -1e30,
    1e-40,
    f32::INFINITY,
    f32::NEG_INFINITY,
];

/// NaNs: the kernel's own, and others.
const NANS: [u32; 3] = [0x7FC0_0000, 0x7F80_0001, 0xFFC1_2345];

/// Names of files, good and bad, some of which the discs have.
pub const NAMES: [&[u8]; 16] = [
    b"blink",
    b"log",
    b"a",
    b"count",
    b"abcdefghijk",
    b"!~",
    b"down",
    b"hours",
    b"lamp",
    b"x1",
    b"x2",
    b"other",
    b"",
    b"abcdefghijkl",
    b"a b",
    b"tab\x7F",
];

/// The bytes of a value of a type, with length and type.
pub fn value(random: &mut Random, kind: u8) -> Vec<u8> {
    let mut bytes = match kind {
        CHAR if random.one_in(2) => vec![random.pick(&[0, 1, 2, 15, 16, 127, 128, 200, 255])],
        CHAR => vec![random.byte()],
        INT if random.one_in(4) => (random.next() as i16).to_be_bytes().to_vec(),
        INT => random.pick(&INTS).to_be_bytes().to_vec(),
        FLOAT => float(random).to_be_bytes().to_vec(),
        _ => text(random),
    };
    if kind == STRING {
        bytes.push(bytes.len() as u8);
    }
    bytes.push(kind);
    bytes
}

fn float(random: &mut Random) -> u32 {
    match random.below(8) {
        0 => random.next() as u32,
        1 => random.pick(&NANS),
        _ => random.pick(&FLOATS).to_bits(),
    }
}

fn text(random: &mut Random) -> Vec<u8> {
    let mut text = match random.below(4) {
        0 => (0..random.below(20)).map(|_| random.byte().max(1)).collect(),
        _ => random.pick(&NAMES).to_vec(),
    };
    text.push(0);
    text
}

fn any_type(random: &mut Random) -> u8 {
    random.pick(&[CHAR, INT, STRING, FLOAT])
}

fn taken_type(random: &mut Random, taken: Taken) -> u8 {
    match taken {
        Taken::Number => random.pick(&[CHAR, INT, FLOAT]),
        Taken::Whole => random.pick(&[CHAR, INT]),
        Taken::IntOrFloat => random.pick(&[INT, FLOAT]),
        Taken::CharOrFloat => random.pick(&[CHAR, FLOAT]),
        Taken::Text => STRING,
        Taken::Value | Taken::Byte => any_type(random),
    }
}

/// Mostly what the instruction takes, top last; then things below it up to any height.
pub fn of_instruction(random: &mut Random, instruction: Option<&Instruction>) -> Vec<u8> {
    let mut stack = match random.below(8) {
        0 => (0..random.below(STACK_LEN + 1)).map(|_| random.byte() % 7).collect(),
        1 => (0..random.below(4)).flat_map(|_| piece(random)).collect(),
        _ => operands(random, instruction.map_or(&[], |instruction| instruction.pops)),
    };
    if random.one_in(3) {
        below(random, &mut stack);
    }
    if random.one_in(12) && !stack.is_empty() {
        let last = stack.len() - 1;
        let place = last - random.below(stack.len().min(6));
        stack[place] = random.byte() % 6;
    }
    let over = stack.len().saturating_sub(STACK_LEN);
    stack.drain(..over);
    stack
}

/// A name and a size near that of the longest free run.
pub fn of_open(random: &mut Random, longest: i32) -> Vec<u8> {
    let name = random.pick(&NAMES[..12]);
    let size = (longest - 1 + random.below(3) as i32) as i16;
    let size = size.to_be_bytes();
    [name, &[0, name.len() as u8 + 1, STRING], &size, &[INT]].concat()
}

/// A value or a raw byte.
fn piece(random: &mut Random) -> Vec<u8> {
    let kind = any_type(random);
    if random.one_in(5) {
        vec![random.byte()]
    } else {
        value(random, kind)
    }
}

fn operands(random: &mut Random, pops: &[Taken]) -> Vec<u8> {
    let whole_only = random.one_in(3);
    let mut stack = Vec::new();
    for &taken in pops.iter().rev() {
        let kind = match random.below(12) {
            0 => any_type(random),
            _ if whole_only && taken == Taken::Number => random.pick(&[CHAR, INT]),
            _ => taken_type(random, taken),
        };
        stack.extend(value(random, kind));
    }
    if random.one_in(10) {
        let missing = random.below(stack.len() + 1);
        stack.drain(..missing);
    }
    stack
}

/// Fills up with whatever comes, half of the time to the last byte or nearly so.
fn below(random: &mut Random, stack: &mut Vec<u8>) {
    let room = STACK_LEN.saturating_sub(stack.len());
    let count = if random.one_in(2) { room.saturating_sub(random.below(4)) } else { random.below(room + 1) };
    let filling: Vec<u8> = (0..count).map(|_| random.byte()).collect();
    stack.splice(0..0, filling);
}
