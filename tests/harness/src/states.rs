//! Random good states: full tables, ten processes, fragmented discs and memory, garbage in every unread place.

use crate::kernels::State;
use crate::programs::{filling, Reach, NAMES};
use crate::random::Random;
use crate::values::{self, Context};
use second::layout::*;
use second::{area, directory, records};

/// The disc's length in a unit: units take short and long discs by turns.
pub fn disc_len(unit: u64) -> usize {
    [SHORT_DISC, LONG_DISC][(unit % 2) as usize]
}

/// A good state. Its goodness is tested, so that a fault of this generator is noticed.
pub fn good_state(disc_len: usize, random: &mut Random) -> State {
    let disc = good_disc(disc_len, random);
    let area = good_area(&disc, random);
    assert!(directory::good(&disc) && area::good(&disc, &area), "the generated state is not good");
    State { disc, area }
}

/// A good state with at least one running process; returns its record too.
pub fn running_state(disc_len: usize, random: &mut Random) -> (State, usize) {
    loop {
        let mut state = good_state(disc_len, random);
        let live: Vec<usize> = records::live(&state.area).collect();
        if !live.is_empty() {
            let record = *random.pick(&live);
            state.area[record + STATE] = RUNNING;
            return (state, record);
        }
    }
}

/// Bytes that nobody reads: zeros now and then, garbage mostly.
fn unread(length: usize, random: &mut Random) -> Vec<u8> {
    let mut bytes = vec![0; length];
    if random.chance(5, 6) {
        random.fill(&mut bytes);
    }
    bytes
}

/// Mostly the greatest, else any number up to it.
fn mostly_full(greatest: usize, random: &mut Random) -> usize {
    match random.below(8) {
        0..=3 => greatest,
        4 => greatest.saturating_sub(1),
        _ => random.between(0, greatest),
    }
}

/// Disjoint runs of the given lengths, as many as fit, with random gaps between them, in random order.
fn scattered(bottom: usize, top: usize, lengths: &[usize], random: &mut Random) -> Vec<(usize, usize)> {
    let mut runs = Vec::new();
    let mut spare = top - bottom;
    let fitting: Vec<usize> = lengths
        .iter()
        .copied()
        .filter(|&length| {
            let fits = length <= spare;
            spare -= if fits { length } else { 0 };
            fits
        })
        .collect();
    let mut at = bottom;
    for length in fitting {
        let gap = match random.below(4) {
            0 | 1 => 0,
            2 => random.between(0, spare.min(5)),
            _ => random.between(0, spare),
        };
        spare -= gap;
        runs.push((at + gap, length));
        at += gap + length;
    }
    random.shuffle(&mut runs);
    runs
}

fn good_disc(length: usize, random: &mut Random) -> Vec<u8> {
    let mut disc = unread(length, random);
    let count = mostly_full(MAX_FILES, random);
    let data = data_bytes(&disc);
    let longest = *random.pick(&[8, 60, data.len() / 10, data.len() / 6, data.len() / 2, data.len()]);
    let lengths: Vec<usize> = (0..count).map(|_| random.between(1, longest)).collect();
    let runs = scattered(data.start, data.end, &lengths, random);
    let names = distinct_names(runs.len(), random);
    disc[FILE_COUNT] = runs.len() as u8;
    for (index, (&(start, length), name)) in runs.iter().zip(&names).enumerate() {
        let at = directory::entry(index);
        disc[at..at + NAME_LEN].fill(0);
        disc[at..at + name.len()].copy_from_slice(name);
        set_word(&mut disc, at + ENTRY_START, start);
        set_word(&mut disc, at + ENTRY_LENGTH, length);
        disc[start..start + length].copy_from_slice(&filling(Reach::Everything, length, random));
    }
    disc
}

/// Names that differ late, short ones, and those that programs use.
fn distinct_names(count: usize, random: &mut Random) -> Vec<Vec<u8>> {
    let mut names: Vec<Vec<u8>> = Vec::new();
    while names.len() < count {
        let name = good_name(random);
        if !names.contains(&name) {
            names.push(name);
        }
    }
    names
}

/// A good file name.
pub fn good_name(random: &mut Random) -> Vec<u8> {
    match random.below(4) {
        0 => random.pick(&NAMES).as_bytes().to_vec(),
        1 => format!("namediffer{}", random.below(10)).into_bytes(),
        2 => vec![*random.pick(&[33, 126]); random.between(1, 11)],
        _ => {
            let length = random.between(1, 11);
            (0..length).map(|_| random.between(33, 126) as u8).collect()
        }
    }
}

fn good_area(disc: &[u8], random: &mut Random) -> Vec<u8> {
    let mut area = unread(AREA_LEN, random);
    let next_id = *random.pick(&[1, 2, 3, 11, 12, 40, 255, 256, 257, 300, 5000, 32766, 32767, 32768, 32768]);
    set_word(&mut area, NEXT_ID, next_id);
    area[ZEROS..ZEROS + ZEROS_LEN].fill(0);
    records::all().for_each(|record| area[record + STATE] = ENDED);
    let most = if directory::count(disc) == 0 { 0 } else { MAX_PROCESSES.min(next_id - 1) };
    let ids = distinct_ids(mostly_full(most, random), next_id, random);
    let mut slots: Vec<usize> = records::all().collect();
    random.shuffle(&mut slots);
    let context = context(disc, &ids, 0);
    for (&record, &id) in slots.iter().zip(&ids) {
        fill_record(disc, &mut area, record, id, &context, random);
    }
    fill_variables(&mut area, &ids, random);
    area
}

/// IDs from 1 to next ID − 1, the last ones often among them.
fn distinct_ids(count: usize, next_id: usize, random: &mut Random) -> Vec<usize> {
    let mut ids = Vec::new();
    while ids.len() < count {
        let id = if random.chance(1, 2) {
            next_id - 1 - random.below((next_id - 1).min(12))
        } else {
            random.between(1, next_id - 1)
        };
        if !ids.contains(&id) {
            ids.push(id);
        }
    }
    ids
}

/// What matters to values in a state.
pub fn context(disc: &[u8], ids: &[usize], clock: u32) -> Context {
    let clock = i32::from(clock as i16);
    let mut numbers: Vec<i32> = ids.iter().map(|&id| id as i32).collect();
    numbers.extend([-1, 0, 1, 32_767, 32_768].map(|ahead| clock + ahead));
    let free = second::free_space(disc).unwrap_or(0) as i32;
    numbers.extend([free, free + 1]);
    let names = (0..directory::count(disc)).map(|index| directory::trimmed(directory::name(disc, index)).to_vec());
    let mut texts: Vec<Vec<u8>> = names.collect();
    texts.extend([b"new".to_vec(), b"bad name".to_vec()]);
    Context { numbers, texts }
}

/// What matters to values in a whole state.
pub fn context_of(state: &State, clock: u32) -> Context {
    let ids: Vec<usize> = records::live(&state.area).map(|record| records::id(&state.area, record)).collect();
    context(&state.disc, &ids, clock)
}

/// A length, or a number up to it, often at its edges.
fn up_to(greatest: usize, random: &mut Random) -> usize {
    match random.below(6) {
        0 => greatest,
        1 => 0,
        2 => greatest.saturating_sub(random.between(0, 4)),
        _ => random.between(0, greatest),
    }
}

fn fill_record(disc: &[u8], area: &mut [u8], record: usize, id: usize, context: &Context, random: &mut Random) {
    let file = random.below(directory::count(disc));
    let code = directory::range(disc, file);
    area[record..record + NAME_LEN].copy_from_slice(directory::name(disc, file));
    set_word(area, record + ID, id);
    area[record + STATE] = if random.chance(3, 4) { RUNNING } else { PAUSED };
    set_word(area, record + CODE_START, code.start);
    set_word(area, record + CODE_LENGTH, code.len());
    set_word(area, record + PC, up_to(code.len(), random));
    let loop_pc = if random.chance(1, 2) { NO_LOOP } else { up_to(code.len(), random) };
    set_word(area, record + LOOP_PC, loop_pc);
    if random.chance(1, 4) {
        set_word(area, record + FILE_LENGTH, 0);
        set_word(area, record + FILE_OFFSET, 0);
    } else {
        let open = directory::range(disc, random.below(directory::count(disc)));
        set_word(area, record + FILE_START, open.start);
        set_word(area, record + FILE_LENGTH, open.len());
        set_word(area, record + FILE_OFFSET, up_to(open.len(), random));
    }
    area[record + SPARE] = if random.chance(1, 3) { 0 } else { random.between(1, 8) as u8 };
    let stack = values::stack(STACK_LEN, context, random);
    area[record + SP] = if random.chance(1, 8) { random.between(0, STACK_LEN) } else { stack.len() } as u8;
    area[record + STACK..record + STACK + stack.len()].copy_from_slice(&stack);
}

/// Variables of live processes, fragmented, with names that processes share.
fn fill_variables(area: &mut [u8], ids: &[usize], random: &mut Random) {
    let count = if ids.is_empty() { 0 } else { mostly_full(MAX_VARIABLES, random) };
    let longest = *random.pick(&[3, 10, 30, 30]);
    let sizes: Vec<usize> = (0..count).map(|_| random.between(1, longest)).collect();
    let runs = scattered(0, MEMORY_LEN, &sizes, random);
    let mut keys: Vec<(u8, usize)> = Vec::new();
    while keys.len() < runs.len() {
        let name = if random.chance(3, 4) { *random.pick(b"abcnxyzijk") } else { random.byte() };
        let key = (name, *random.pick(ids));
        if !keys.contains(&key) {
            keys.push(key);
        }
    }
    area[VARIABLE_COUNT] = runs.len() as u8;
    for (index, (&(address, size), &(name, id))) in runs.iter().zip(&keys).enumerate() {
        let kind = if matches!(size, 1 | 2 | 4) && random.chance(3, 4) { size } else { 3 };
        let at = VARIABLES + index * VARIABLE_LEN;
        area[at..at + 4].copy_from_slice(&[name, kind as u8, address as u8, size as u8]);
        set_word(area, at + VARIABLE_ID, id);
        if kind == 3 && random.chance(3, 4) {
            make_string(&mut area[address..address + size], random);
        }
    }
}

/// Bytes without a zero, then a zero.
fn make_string(bytes: &mut [u8], random: &mut Random) {
    bytes.iter_mut().for_each(|byte| *byte = random.between(1, 255) as u8);
    if let Some(last) = bytes.last_mut() {
        *last = 0;
    }
}
