//! CONSTRAIN, MAP and POW on operands that matter, and on wrong ones at each place. Document 02, Q-3. Every set of them
//! lies on a stack as it is, and is pushed by a program that is held against the single process.

use crate::comparison::{Compared, Comparison};
use crate::instructions::{compare_operator, Height};
use crate::kernels::State;
use crate::random::Random;
use crate::scaling::SCALING;
use crate::states::{disc_len, running_state};
use crate::tracking::Tracking;
use crate::values::{bytes_of, Context, Kind};
use kernel::call::Call;
use second::instruction::*;
use second::layout::*;
use second::number::{CHAR_TYPE, FLOAT_TYPE, INT_TYPE, STRING_TYPE};

/// What lies on a stack, and the code that puts it there, if any does.
#[derive(Clone)]
struct Operand {
    bytes: Vec<u8>,
    code: Option<Vec<u8>>,
    /// The turns that the code takes.
    turns: usize,
}

/// A value of any type from its bytes on the stack; the instruction that pushes it has the type's number.
fn value(bytes: &[u8]) -> Operand {
    let (&kind, rest) = bytes.split_last().unwrap_or((&0, bytes));
    let pushed = if kind == STRING_TYPE { &rest[..rest.len() - 1] } else { rest };
    Operand { bytes: bytes.to_vec(), code: Some([&[kind], pushed].concat()), turns: 1 }
}

fn char(x: i8) -> Operand {
    value(&[x as u8, CHAR_TYPE])
}

fn int(x: i16) -> Operand {
    value(&[&x.to_be_bytes()[..], &[INT_TYPE]].concat())
}

fn float(x: f32) -> Operand {
    value(&[&x.to_be_bytes()[..], &[FLOAT_TYPE]].concat())
}

/// A NaN whose bits are not those of a result.
fn other_nan() -> Operand {
    value(&[255, 129, 2, 3, FLOAT_TYPE])
}

/// A raw byte from 4 on, as WHILE pushes it.
fn raw(byte: u8) -> Operand {
    Operand { bytes: vec![byte], code: Some(vec![CHAR, 1, WHILE, byte - 4, 0]), turns: 2 }
}

/// An INT's type over one byte.
fn half_int() -> Operand {
    Operand { bytes: vec![0, INT_TYPE], code: None, turns: 0 }
}

fn random_value(kind: Kind, random: &mut Random) -> Operand {
    value(&bytes_of(kind, &Context::default(), random))
}

/// How many sets of operands one unit takes of each.
const WRONG_REPEATS: usize = 6;
const MAP_SETS: usize = 250;

/// Sets of operands on a stack and by programs; of those that all units have, each does its share by programs.
pub fn compare_scaling(comparison: &mut Comparison, unit: u64, units: u64) -> Compared<()> {
    let mut random = comparison.begin("scaling", unit);
    let (mut state, record) = running_state(disc_len(unit), &mut random);
    for (index, set) in (0..).zip([constrained(), mapped(), raised()].concat()) {
        set.compare_on_stack(comparison, &mut state, record, Height::Anywhere, &mut random)?;
        if index % units == unit {
            set.compare_program(comparison, disc_len(unit))?;
        }
    }
    let (wrong, any) = (wrong(&mut random), any_mapped(&mut random));
    let tops = wrong.into_iter().map(|set| (set, Height::Bottom)).chain(any.into_iter().map(|set| (set, Height::Top)));
    for (set, height) in tops {
        set.compare_on_stack(comparison, &mut state, record, height, &mut random)?;
        set.compare_program(comparison, disc_len(unit))?;
    }
    Ok(())
}

/// An instruction and what lies on its stack, bottom first.
#[derive(Clone)]
struct Set {
    opcode: u8,
    operands: Vec<Operand>,
}

impl Set {
    fn compare_on_stack(
        &self,
        comparison: &mut Comparison,
        state: &mut State,
        record: usize,
        height: Height,
        random: &mut Random,
    ) -> Compared<()> {
        let values: Vec<u8> = self.operands.iter().flat_map(|operand| operand.bytes.clone()).collect();
        compare_operator(comparison, state, record, self.opcode, &values, height, random)
    }

    /// The program that pushes the operands and has the instruction last, from *format* on.
    fn compare_program(&self, comparison: &mut Comparison, disc_len: usize) -> Compared<()> {
        let pushes: Option<Vec<Vec<u8>>> = self.operands.iter().map(|operand| operand.code.clone()).collect();
        let Some(pushes) = pushes else { return Ok(()) };
        let data = [pushes.concat(), vec![self.opcode]].concat();
        let turns: usize = self.operands.iter().map(|operand| operand.turns).sum();
        let name = b"p".to_vec();
        let start = [Call::Format, Call::Store { name: name.clone(), data }, Call::Run { name }];
        let turn = Call::Turn { slot: 0, clock: 0, room: TURN_OUTPUT };
        let (mut state, mut tracking) = (State::zero(disc_len), Tracking::default());
        for call in start.iter().chain(std::iter::repeat_n(&turn, turns + 1)) {
            tracking.call(comparison, &mut state, call)?;
        }
        Ok(())
    }
}

/// CONSTRAIN of every three of these.
fn constrained() -> Vec<Set> {
    let numbers =
        [char(-1), char(0), char(5), int(0), int(7), float(-0.0), float(0.0), float(2.5), float(5.0), other_nan()];
    let mut sets = Vec::new();
    for x in &numbers {
        for a in &numbers {
            let of = |b: &Operand| Set { opcode: CONSTRAIN, operands: vec![x.clone(), a.clone(), b.clone()] };
            sets.extend(numbers.iter().map(of));
        }
    }
    sets
}

/// POW of each of these by every y, as INT and, where it fits, as CHAR.
fn raised() -> Vec<Set> {
    let chars = [-128, -3, -1, 0, 1, 2, 3, 7, 127].map(char);
    let ints = [-32_768, -181, 0, 2, 3, 10, 182, 256, 32_767].map(int);
    let floats = [0.0, -0.0, 1.0, -1.5, 0.1, -1.1, 2.718_281_7, 1e-4, -1e10, f32::MAX, f32::INFINITY, 1e-45].map(float);
    let ys = [-32_768, -128, -1, 0, 1, 2, 3, 4, 5, 7, 14, 15, 16, 17, 127, 255, 256, 257, 271, 32_767];
    let as_chars = ys.iter().filter_map(|&y| i8::try_from(y).ok()).map(char);
    let ys: Vec<Operand> = ys.map(int).into_iter().chain(as_chars).collect();
    let bases = chars.into_iter().chain(ints).chain(floats).chain([other_nan()]);
    bases.flat_map(|x| ys.iter().map(move |y| Set { opcode: POW, operands: vec![x.clone(), y.clone()] })).collect()
}

/// MAP of numbers whose steps are wider than their type, or whose quotient is cut.
const MAPPED: [[i16; 5]; 15] = [
    [512, 0, 1023, 0, 255],
    [-7, 0, 2, 0, 1],
    [1, 0, 2, 0, -1],
    [1, 0, -2, 5, 6],
    [127, -128, 127, -128, 127],
    [-128, 127, -128, 127, -128],
    [32_767, -32_768, 32_767, -32_768, 32_767],
    [32_767, -32_768, 0, 32_767, -32_768],
    [-32_768, 32_767, -32_767, -32_768, 32_767],
    [100, 0, 1, 0, 100],
    [3, 0, 1, -100, -50],
    [1, 0, 41, 0, 41],
    [3, 3, 4, 9, -9],
    [4, 3, 3, 9, -9],
    [3, 3, 3, 9, -9],
];

/// MAP of these as CHAR where all fit, as INT and as FLOAT, and with one of them wider than the others.
fn mapped() -> Vec<Set> {
    let mut sets = Vec::new();
    for numbers in MAPPED {
        let chars: Option<Vec<i8>> = numbers.iter().map(|&x| i8::try_from(x).ok()).collect();
        let (ints, floats) = (numbers.map(int).to_vec(), numbers.map(|x| float(f32::from(x))).to_vec());
        if let Some(chars) = chars {
            let chars: Vec<Operand> = chars.into_iter().map(char).collect();
            sets.extend(each_one_of(&ints, &chars).into_iter().chain(each_one_of(&floats, &chars)));
            sets.push(chars);
        }
        sets.extend(each_one_of(&floats, &ints));
        sets.extend([ints, floats]);
    }
    // 0 times -1 is -0, and so is its sum with -0
    sets.push(vec![char(1), char(1), char(2), float(-0.0), char(-1)]);
    sets.push(vec![float(f32::MAX), float(-f32::MAX), char(1), char(0), char(1)]);
    sets.push(vec![char(1), char(0), char(2), other_nan(), char(1)]);
    sets.into_iter().map(|operands| Set { opcode: MAP, operands }).collect()
}

/// The operands with one of them exchanged for its wider one, at each place in turn.
fn each_one_of(wide: &[Operand], narrow: &[Operand]) -> Vec<Vec<Operand>> {
    let exchanged = |place: usize| [&narrow[..place], &wide[place..=place], &narrow[place + 1..]].concat();
    (0..narrow.len()).map(exchanged).collect()
}

/// Random sets for MAP, a third of them of INTs anywhere or near either end.
fn any_mapped(random: &mut Random) -> Vec<Set> {
    let mut operands = |index: usize| match index % 6 {
        0 => (0..5).map(|_| int(random.word() as i16)).collect(),
        1 => (0..5).map(|_| int(32_767_i16.wrapping_add(random.below(6_000) as i16 - 3_000))).collect(),
        _ => right(MAP, 5, random),
    };
    (0..MAP_SETS).map(|index| Set { opcode: MAP, operands: operands(index) }).collect()
}

/// Operands that an instruction takes: of one type, with one that may be wider, or of any; for POW an y within its range
/// or outside, for MAP now and then equal b and c.
fn right(opcode: u8, count: usize, random: &mut Random) -> Vec<Operand> {
    const KINDS: [Kind; 3] = [Kind::Char, Kind::Int, Kind::Float];
    let (common, one) = (random.below(4), random.below(count));
    let mut operands: Vec<Operand> = Vec::new();
    for place in 0..count {
        let kind = match common {
            3 => random.below(3),
            common if place == one => random.between(common, 2),
            common => common,
        };
        operands.push(random_value(KINDS[kind], random));
    }
    match (opcode, random.below(12)) {
        (POW, _) => operands[1] = random.pick(&[char(-1), char(2), char(15), char(16), int(3), int(300)]).clone(),
        (MAP, 0) => operands[2] = operands[1].clone(),
        (MAP, 1) => operands.splice(1..3, [char(-7), int(-7)]).for_each(drop),
        _ => {}
    }
    operands
}

/// What would be fault 7 or 8, over nothing and over a STRING.
fn too_late() -> Vec<Set> {
    let mapped = vec![int(3), char(3), char(9), int(-9)];
    let rests = [(MAP, mapped), (POW, vec![char(16)]), (POW, vec![int(300)])];
    let text = value(&[b't', 0, 2, STRING_TYPE]);
    let over = |opcode, first: &[Operand], rest: &[Operand]| Set { opcode, operands: [first, rest].concat() };
    rests
        .iter()
        .flat_map(|(opcode, rest)| [over(*opcode, &[], rest), over(*opcode, std::slice::from_ref(&text), rest)])
        .collect()
}

/// At each place in turn something that is not taken there, with right operands above it.
fn wrong(random: &mut Random) -> Vec<Set> {
    let mut sets = too_late();
    for (opcode, _, places) in SCALING {
        for place in (0..places.len()).cycle().take(WRONG_REPEATS * places.len()) {
            let right = right(opcode, places.len(), random);
            let (below, above) = (&right[..place], &right[place + 1..]);
            let mut add = |below: &[Operand], wrong: &[Operand]| {
                sets.push(Set { opcode, operands: [below, wrong, above].concat() });
            };
            add(&[], &[]);
            add(&[], &[raw(FLOAT_TYPE)]);
            add(&[], &[half_int()]);
            add(below, &[raw(random.between(5, 255) as u8)]);
            add(below, &[random_value(Kind::Text, random)]);
            if (opcode, place) == (POW, 1) {
                add(below, &[random_value(Kind::Float, random)]);
            }
        }
    }
    sets
}
