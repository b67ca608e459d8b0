//! Every instruction on every kind of stack.

use crate::arguments::clock;
use crate::comparison::{Compared, Comparison};
use crate::kernels::State;
use crate::random::Random;
use crate::states::{context_of, disc_len, running_state};
use crate::values::{bytes_of, float_bits, Context, Kind, FLOAT_EDGES, KINDS};
use kernel::call::Call;
use second::instruction::*;
use second::layout::*;
use second::number::{operator, Operator};
use second::{directory, variables};

/// How high a stack stands: on nothing, up to 32, or anywhere.
#[derive(Clone, Copy, PartialEq, Eq)]
pub enum Height {
    Bottom,
    Top,
    Anywhere,
}

/// Every byte as an instruction, on every pair of kinds, at three heights.
pub fn compare_stacks(comparison: &mut Comparison, unit: u64) -> Compared<()> {
    let mut random = comparison.begin("stacks", unit);
    for opcode in 0..=255 {
        let seconds: &[Kind] = if is_built(opcode) { &KINDS } else { &[Kind::Char] };
        let tops: &[Kind] = if is_built(opcode) { &KINDS } else { &[Kind::Int] };
        for &second in seconds {
            let (mut state, record) = running_state(disc_len(unit), &mut random);
            for &top in tops {
                for height in [Height::Bottom, Height::Top, Height::Anywhere] {
                    let clock = clock(&mut random);
                    let context = context_of(&state, clock);
                    set_code(&mut state, record, opcode, &mut random);
                    let values =
                        [bytes_of(second, &context, &mut random), bytes_of(top, &context, &mut random)].concat();
                    set_stack(&mut state, record, &values, height, &mut random);
                    compare_turn(comparison, &state, record, clock)?;
                }
            }
        }
    }
    Ok(())
}

/// Every instruction on stacks that it takes, in random states: what follows the pops is reached often.
pub fn compare_taken(comparison: &mut Comparison, unit: u64) -> Compared<()> {
    let mut random = comparison.begin("taken", unit);
    for opcode in (0..=255).filter(|&opcode| is_built(opcode)) {
        let (mut state, record) = running_state(disc_len(unit), &mut random);
        let clock = clock(&mut random);
        let context = context_of(&state, clock);
        let kinds = taken_kinds(opcode, &mut random);
        let values: Vec<Vec<u8>> = kinds.iter().map(|&kind| bytes_of(kind, &context, &mut random)).collect();
        let height = *random.pick(&[Height::Bottom, Height::Top, Height::Anywhere]);
        set_code(&mut state, record, opcode, &mut random);
        set_stack(&mut state, record, &values.concat(), height, &mut random);
        compare_turn(comparison, &state, record, clock)?;
    }
    Ok(())
}

/// OPEN of a file that is not there, of sizes at every edge: the longest free run, the data bytes of either disc.
pub fn compare_sizes(comparison: &mut Comparison, unit: u64) -> Compared<()> {
    let mut random = comparison.begin("sizes", unit);
    let (mut state, record) = loop {
        let (state, record) = running_state(disc_len(unit), &mut random);
        if directory::count(&state.disc) < MAX_FILES {
            break (state, record);
        }
    };
    let free = second::free_space(&state.disc).unwrap_or(0) as u16;
    for size in [0, 1, free, free + 1, 863, 864, 3935, 3936] {
        let fraction = random.below(8) as f32 / 8.0;
        let whole = [&size.to_be_bytes()[..], &[2]].concat();
        for size in [whole, float((f32::from(size) + fraction).to_bits())] {
            set_code(&mut state, record, OPEN, &mut random);
            let values = [b"new\0\x04\x03", &size[..]].concat();
            set_stack(&mut state, record, &values, Height::Anywhere, &mut random);
            compare_turn(comparison, &state, record, clock(&mut random))?;
        }
    }
    Ok(())
}

/// Kinds of values that an instruction takes, bottom first; any for those that pop nothing.
fn taken_kinds(opcode: u8, random: &mut Random) -> Vec<Kind> {
    let mut number = || *random.pick(&[Kind::Char, Kind::Int, Kind::Float]);
    match opcode {
        OPEN => vec![Kind::Text, number()],
        FORK => vec![Kind::Text],
        SET | PRINT | PRINTLN | WRITE => vec![*random.pick(&[Kind::Char, Kind::Int, Kind::Float, Kind::Text])],
        CONSTRAIN => vec![number(), number(), number()],
        MAP => vec![number(), number(), number(), number(), number()],
        POW => vec![number(), *random.pick(&[Kind::Char, Kind::Int])],
        _ => vec![number(), number()],
    }
}

/// Operators on binary32 edges: every one alone, and random pairs, threes and fives, FLOAT with whole numbers too.
pub fn compare_numbers(comparison: &mut Comparison, unit: u64, pairs: usize) -> Compared<()> {
    let mut random = comparison.begin("numbers", unit);
    let (mut state, record) = running_state(disc_len(unit), &mut random);
    for opcode in (0..=255).filter(|&opcode| is_built(opcode)) {
        let (count, repeats) = match operator(opcode) {
            Some(Operator::Binary(..)) => (2, pairs),
            Some(Operator::Several(taken, _)) => (taken.len(), pairs),
            _ => (1, pairs / 4),
        };
        let edges: &[u32] = if count == 1 { &FLOAT_EDGES } else { &[] };
        for &bits in edges {
            compare_operator(comparison, &mut state, record, opcode, &float(bits), Height::Bottom, &mut random)?;
        }
        for _ in 0..repeats {
            let values: Vec<u8> = (0..count).flat_map(|_| any_number(&mut random)).collect();
            compare_operator(comparison, &mut state, record, opcode, &values, Height::Bottom, &mut random)?;
        }
    }
    Ok(())
}

fn float(bits: u32) -> Vec<u8> {
    [&bits.to_be_bytes()[..], &[4]].concat()
}

/// Mostly an edge of binary32, else a whole number or other bits.
fn any_number(random: &mut Random) -> Vec<u8> {
    match random.below(8) {
        0 => bytes_of(Kind::Char, &Context::default(), random),
        1..=2 => bytes_of(Kind::Int, &Context::default(), random),
        3 => float(float_bits(&Context::default(), random)),
        _ => float(*random.pick(&FLOAT_EDGES)),
    }
}

/// An instruction on these values, somewhere in the record's code.
pub fn compare_operator(
    comparison: &mut Comparison,
    state: &mut State,
    record: usize,
    opcode: u8,
    values: &[u8],
    height: Height,
    random: &mut Random,
) -> Compared<()> {
    set_code(state, record, opcode, random);
    set_stack(state, record, values, height, random);
    compare_turn(comparison, state, record, clock(random))
}

fn compare_turn(comparison: &mut Comparison, state: &State, record: usize, clock: u32) -> Compared<()> {
    let slot = ((record - RECORDS) / RECORD_LEN) as u32;
    comparison.try_call(state, &Call::Turn { slot, clock, room: TURN_OUTPUT }).map(|_| ())
}

/// Puts an instruction and its arguments at some PC of the record's code, mostly where it fits.
fn set_code(state: &mut State, record: usize, opcode: u8, random: &mut Random) {
    let length = word(&state.area, record + CODE_LENGTH);
    let start = word(&state.area, record + CODE_START);
    let whole = 1 + if opcode == STRING { 3 } else { argument_count(opcode) };
    let last_fitting = length.saturating_sub(whole);
    let pc = match random.below(8) {
        0 => length - 1,
        1 => random.below(length),
        2 => last_fitting,
        _ => random.between(0, last_fitting),
    };
    set_word(&mut state.area, record + PC, pc);
    let mut text = vec![opcode];
    text.extend(arguments(state, record, opcode, length - pc, random));
    text.truncate(length - pc);
    state.disc[start + pc..start + pc + text.len()].copy_from_slice(&text);
}

/// Argument bytes that matter: names of variables, jumps to the code's end and just past it, strings of every length.
fn arguments(state: &State, record: usize, opcode: u8, rest: usize, random: &mut Random) -> Vec<u8> {
    match opcode {
        SET | GET => vec![variable_name(state, record, random)],
        IF | ELSE => vec![near(rest as i64 - 2, random)],
        WHILE => {
            let body = near(rest as i64 - 4, random);
            vec![if random.chance(1, 2) { near(251 - i64::from(body), random) } else { random.byte() }, body]
        }
        STRING => {
            let length = *random.pick(&[0, 1, 5, 28, 29, 30, 31, 40, 300]);
            let mut text: Vec<u8> = (0..length).map(|_| random.between(1, 255) as u8).collect();
            text.push(0);
            text
        }
        _ => random.bytes(argument_count(opcode)),
    }
}

/// A byte near a number, or any.
fn near(middle: i64, random: &mut Random) -> u8 {
    match random.below(4) {
        0 => random.byte(),
        _ => (middle + random.below(5) as i64 - 2).clamp(0, 255) as u8,
    }
}

/// Mostly the name of a variable that the process has.
fn variable_name(state: &State, record: usize, random: &mut Random) -> u8 {
    let own: Vec<u8> = (0..variables::count(&state.area))
        .map(|index| variables::key(&state.area, index))
        .filter(|key| key.1 == word(&state.area, record + ID))
        .map(|key| key.0)
        .collect();
    if own.is_empty() || random.chance(1, 4) {
        return random.byte();
    }
    *random.pick(&own)
}

/// Puts values on the record's stack over some filler; garbage stays above SP.
fn set_stack(state: &mut State, record: usize, values: &[u8], height: Height, random: &mut Random) {
    let values = &values[values.len().saturating_sub(STACK_LEN)..];
    let spare = STACK_LEN - values.len();
    let filler = match height {
        Height::Bottom => 0,
        Height::Top => spare,
        Height::Anywhere => random.between(0, spare),
    };
    let stack = &mut state.area[record + STACK..record + STACK + STACK_LEN];
    random.fill(stack);
    stack[filler..filler + values.len()].copy_from_slice(values);
    state.area[record + SP] = (filler + values.len()) as u8;
}
