//! Good buffers of every kind, with a running slot at an instruction of every kind.

use super::opcode::{ELSE, GET, IF, MILLIS, OPEN, READCHAR, READFLOAT, READINT, READSTRING, SET, WHILE, WRITE};
use super::stack::{self, NAMES};
use crate::field::{put_word, record_at};
use crate::random::Random;
use kernel::sizes::*;
use workbench::instruction::{self, Arguments, Instruction};
use workbench::layout::*;
use workbench::value::{CHAR, FLOAT, INT, STRING};

pub struct State {
    pub disc: Vec<u8>,
    pub area: Vec<u8>,
    pub slot: usize,
    pub clock: u32,
}

/// Names of variables, letters and others.
const VARIABLE_NAMES: &[u8] = b"abcdefghijklmnopqrstuvwxyz\x00\x07 \xFF";

pub fn of(random: &mut Random) -> State {
    let mut disc = disc(random);
    let slot = random.below(MAX_PROCESSES);
    let mut area = vec![0; AREA_LEN];
    for other in 0..MAX_PROCESSES {
        if other == slot || random.one_in(4) {
            record(random, &disc, &mut area, other);
        }
    }
    area[record_at(slot) + 14] = RUNNING;
    put_word(&mut area, NEXT_ID, random.pick(&[20, 21, 300, MAX_NEXT_ID]));
    variables(random, &mut area);
    program(random, &mut disc, &mut area, slot);
    State { disc, area, slot, clock: random.next() as u32 }
}

/// One to ten files with gaps between them, sometimes nothing after the last one.
fn disc(random: &mut Random) -> Vec<u8> {
    let mut disc = vec![0; if random.one_in(4) { LONG_DISC } else { SHORT_DISC }];
    let zeros = random.one_in(2);
    for byte in &mut disc[DATA_START..] {
        *byte = if zeros { random.byte() % 64 } else { random.byte().max(1) };
    }
    let count = if random.one_in(4) { MAX_FILES } else { 1 + random.below(MAX_FILES) };
    let first = random.below(12);
    let mut from = DATA_START;
    for index in 0..count {
        let start = from + if random.one_in(2) { random.below(10) } else { 0 };
        let mut length = 1 + random.below(70);
        if index == count - 1 && random.one_in(2) {
            length = disc.len() - start - random.below(12);
        }
        let name = NAMES[(first + index) % 12];
        let entry = index * ENTRY_LEN;
        disc[entry..entry + name.len()].copy_from_slice(name);
        put_word(&mut disc, entry + 12, start);
        put_word(&mut disc, entry + 14, length);
        from = start + length;
    }
    disc[FILE_COUNT] = count as u8;
    disc
}

/// A live record of some file, with some stack.
fn record(random: &mut Random, disc: &[u8], area: &mut [u8], slot: usize) {
    let files = entries(disc);
    let (code, open) = (random.pick(&files), random.pick(&files));
    let record = &mut area[record_at(slot)..][..RECORD_LEN];
    record[..NAME_LEN].copy_from_slice(code.name);
    // distinct, and below each next ID
    put_word(record, 12, 1 + (slot * 7 + 3) % 19);
    record[14] = random.pick(&[RUNNING, PAUSED]);
    record[15] = random.byte();
    put_word(record, 16, code.start);
    put_word(record, 18, code.length);
    put_word(record, 20, random.below(code.length + 1));
    put_word(record, 22, if random.one_in(2) { NO_LOOP } else { random.below(code.length + 1) });
    if !random.one_in(4) {
        let back = random.below(open.length.min(6) + 1);
        put_word(record, 24, open.start);
        put_word(record, 26, open.length);
        put_word(record, 28, if random.one_in(3) { random.below(open.length + 1) } else { open.length - back });
    }
    record[30] = random.below(STACK_LEN + 1) as u8;
    record[31] = random.below(9) as u8;
    record[32..].fill_with(|| random.byte());
}

/// Up to 25 variables of live processes, with gaps or without.
fn variables(random: &mut Random, area: &mut [u8]) {
    let ids: Vec<usize> = records(area).filter(Record::is_live).map(|record| record.id()).collect();
    let most = if random.one_in(3) { MAX_VARIABLES } else { random.below(MAX_VARIABLES + 1) };
    let kinds = random.pick(&[&[CHAR, INT, FLOAT][..], &[STRING][..], &[CHAR, INT, STRING, FLOAT][..]]);
    let gap = random.pick(&[1, 1, 3, 9]);
    let mut address = random.below(gap);
    let mut given = Vec::new();
    for _ in 0..most {
        let kind = random.pick(kinds);
        let left = MEMORY_LEN.saturating_sub(address);
        let size = if kind == STRING { (1 + random.below(30)).min(left) } else { usize::from(kind) };
        let key = (random.pick(VARIABLE_NAMES), random.pick(&ids));
        if size == 0 || size > left || given.contains(&key) {
            continue;
        }
        let entry = VARIABLES + given.len() * VARIABLE_LEN;
        area[entry..entry + 4].copy_from_slice(&[key.0, kind, address as u8, size as u8]);
        put_word(area, entry + 4, key.1);
        given.push(key);
        address += size + random.below(gap);
    }
    area[..MEMORY_LEN].fill_with(|| random.byte());
    area[VARIABLE_COUNT] = given.len() as u8;
}

/// Puts an instruction at the slot's PC and what it takes on its stack.
fn program(random: &mut Random, disc: &mut [u8], area: &mut [u8], slot: usize) {
    let (start, length, own_id) = {
        let record = Record::of(area, slot);
        (record.code_start(), record.code_length(), record.id())
    };
    let byte = instruction_byte(random);
    let instruction = instruction::of_byte(byte);
    let names = names_of(area, own_id);
    let mut bytes = vec![byte];
    bytes.extend(instruction.map_or(Vec::new(), |instruction| arguments(random, instruction, &names)));
    // whole inside the code, or cut off at its end
    let room = length.saturating_sub(bytes.len());
    let offset =
        if random.one_in(8) { length - random.below(bytes.len().min(length) + 1) } else { random.below(room + 1) };
    if matches!(byte, IF | ELSE | WHILE) && random.one_in(3) {
        aim_at_end(random, &mut bytes, length - offset);
    }
    let put = bytes.len().min(length - offset);
    disc[start + offset..start + offset + put].copy_from_slice(&bytes[..put]);
    let mut stack = match byte {
        OPEN if random.one_in(3) => stack::of_open(random, kernel::free_space(disc)),
        _ => stack::of_instruction(random, instruction),
    };
    if random.one_in(20) {
        begin_while(random, &mut disc[start..start + length], offset, &mut stack);
    }
    let record = &mut area[record_at(slot)..][..RECORD_LEN];
    put_word(record, 20, offset);
    record[30] = stack.len() as u8;
    record[32..32 + stack.len()].copy_from_slice(&stack);
}

/// Every byte, those of variables and files more often than others.
fn instruction_byte(random: &mut Random) -> u8 {
    match random.below(10) {
        0 => random.byte(),
        1..=3 => random.pick(&[SET, GET, OPEN, OPEN, WRITE, READINT, READCHAR, READFLOAT, READSTRING]),
        _ => 1 + random.byte() % 69,
    }
}

/// The names of a process's variables.
fn names_of(area: &[u8], id: usize) -> Vec<u8> {
    let of_process = workbench::layout::variables(area).into_iter().filter(|variable| variable.id == id);
    of_process.map(|variable| variable.name).collect()
}

fn arguments(random: &mut Random, instruction: &Instruction, names: &[u8]) -> Vec<u8> {
    match instruction.arguments {
        Arguments::None => Vec::new(),
        Arguments::Char => vec![random.byte()],
        Arguments::Int => vec![random.byte(), random.byte()],
        Arguments::Float => (0..4).map(|_| random.byte()).collect(),
        Arguments::Text => {
            let mut text: Vec<u8> = (0..random.below(36)).map(|_| random.byte().max(1)).collect();
            text.push(0);
            text
        }
        Arguments::Name if !names.is_empty() && random.one_in(2) => vec![random.pick(names)],
        Arguments::Name => vec![random.pick(VARIABLE_NAMES)],
        Arguments::Length => vec![length(random)],
        Arguments::Lengths if random.one_in(3) => {
            let condition = random.byte();
            vec![condition, (250 - i16::from(condition) + random.below(4) as i16).clamp(0, 255) as u8]
        }
        Arguments::Lengths => vec![length(random), length(random)],
    }
}

fn length(random: &mut Random) -> u8 {
    if random.one_in(3) {
        random.byte()
    } else {
        random.byte() % 40
    }
}

/// Lets a jump's last length lead near the code's end, which is `rest` bytes from the instruction byte.
fn aim_at_end(random: &mut Random, bytes: &mut [u8], rest: usize) {
    let after = rest.saturating_sub(bytes.len());
    let near = (after + random.below(4)).saturating_sub(2);
    if let (Some(last), Ok(length)) = (bytes.last_mut(), u8::try_from(near)) {
        *last = length;
    }
}

/// Makes the code before a place MILLIS, with a WHILE around the place, and puts that WHILE's byte on top.
fn begin_while(random: &mut Random, code: &mut [u8], place: usize, stack: &mut [u8]) {
    if place < 3 || stack.is_empty() {
        return;
    }
    code[..place].fill(MILLIS);
    // a WHILE 0 0 has only its end for a body, and its byte 4 is the type FLOAT
    let is_empty = random.one_in(3);
    let at = if is_empty { place - 3 } else { random.below(place - 2) };
    let (condition, body) = if is_empty { (0, 0) } else { (random.byte() % 100, (place - at) as u8) };
    code[at..at + 3].copy_from_slice(&[WHILE, condition, body]);
    let last = stack.len() - 1;
    stack[last] = condition.saturating_add(body).saturating_add(4);
}
