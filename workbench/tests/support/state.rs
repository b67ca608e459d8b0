//! Random good states: written field by field with garbage wherever nothing is read, or lived through kernel calls.

use crate::field::{put_word, record_at};
use crate::random::Random;
use kernel::sizes::*;
use workbench::layout::*;

#[derive(Clone)]
pub struct State {
    pub disc: Vec<u8>,
    pub area: Vec<u8>,
}

impl State {
    /// A short disc with these files, and a work area without processes.
    pub fn with_files(files: &[(&str, &[u8])]) -> State {
        let mut state = State { disc: vec![0; SHORT_DISC], area: vec![0; AREA_LEN] };
        assert_eq!(kernel::format(&mut state.disc, &mut state.area), 0);
        for (name, data) in files {
            assert_eq!(kernel::store(&mut state.disc, name.as_bytes(), data), 0);
        }
        state
    }

    /// Starts programs; their IDs are 1, 2, .. and their slots 0, 1, ..
    pub fn start(&mut self, names: &[&str]) {
        for (id, name) in (1..).zip(names) {
            assert_eq!(kernel::run(&self.disc, &mut self.area, name.as_bytes()), id);
        }
    }

    /// Turns of a slot that print nothing.
    pub fn turns(&mut self, slot: u32, count: usize) {
        for _ in 0..count {
            assert_eq!(kernel::turn(&mut self.disc, &mut self.area, slot, 0, &mut [0; TURN_OUTPUT]), 0);
        }
    }
}

pub fn any(random: &mut Random) -> State {
    if random.one_in(2) {
        written(random)
    } else {
        lived(random)
    }
}

/// A good state, its unread places full of garbage, its fields at their edges now and then.
pub fn written(random: &mut Random) -> State {
    let disc = written_disc(random);
    let mut area = vec![0; AREA_LEN];
    random.fill(&mut area);
    for slot in 0..MAX_PROCESSES {
        area[record_at(slot) + 14] = ENDED;
    }
    area[ZEROS].fill(0);
    let most = if entries(&disc).is_empty() { 0 } else { MAX_PROCESSES };
    let live = random.within(0, most);
    let next = match random.below(3) {
        0 => live + 1,
        1 => MAX_NEXT_ID,
        _ => random.within(live + 1, MAX_NEXT_ID),
    };
    put_word(&mut area, NEXT_ID, next);
    let mut slots: Vec<usize> = (0..MAX_PROCESSES).collect();
    random.shuffle(&mut slots);
    let ids = distinct_ids(random, live, next);
    for (&slot, &id) in slots.iter().zip(&ids) {
        write_record(random, &disc, &mut area, slot, id);
    }
    write_variables(random, &mut area, &ids);
    State { disc, area }
}

fn written_disc(random: &mut Random) -> Vec<u8> {
    let mut disc = vec![0; random.pick(&[SHORT_DISC, LONG_DISC])];
    random.fill(&mut disc);
    let count = random.within(0, MAX_FILES);
    let mut places = disjoint(random, DATA_START, disc.len(), count, disc.len());
    random.shuffle(&mut places);
    let mut names: Vec<Vec<u8>> = Vec::new();
    while names.len() < places.len() {
        let length = random.pick(&[1, 2, 5, 11]);
        let name: Vec<u8> = (0..length).map(|_| random.within(33, 126) as u8).collect();
        if !names.contains(&name) {
            names.push(name);
        }
    }
    for (index, (place, name)) in places.iter().zip(&names).enumerate() {
        let at = index * ENTRY_LEN;
        disc[at..at + NAME_LEN].fill(0);
        disc[at..at + name.len()].copy_from_slice(name);
        put_word(&mut disc, at + 12, place.start);
        put_word(&mut disc, at + 14, place.len());
    }
    disc[FILE_COUNT] = places.len() as u8;
    disc
}

/// Up to `count` runs of at most `most` bytes, none of which meets another, side by side now and then.
fn disjoint(random: &mut Random, from: usize, to: usize, count: usize, most: usize) -> Vec<std::ops::Range<usize>> {
    let mut runs = Vec::new();
    let mut at = from;
    for left in (1..=count).rev() {
        let room = (to - at) / left;
        let gap = if random.one_in(2) { 0 } else { random.below(room / 2 + 1) };
        let length = random.within(1, most).min(room.saturating_sub(gap));
        let length = if left == 1 && random.one_in(2) { (to - at - gap).min(most) } else { length };
        if length > 0 {
            runs.push(at + gap..at + gap + length);
            at += gap + length;
        }
    }
    runs
}

fn distinct_ids(random: &mut Random, count: usize, next: usize) -> Vec<usize> {
    let mut ids = Vec::new();
    while ids.len() < count {
        let id = if random.one_in(4) { next - 1 } else { random.within(1, next - 1) };
        if !ids.contains(&id) {
            ids.push(id);
        }
    }
    ids
}

fn write_record(random: &mut Random, disc: &[u8], area: &mut [u8], slot: usize, id: usize) {
    let files = entries(disc);
    let program = files[random.below(files.len())];
    let record = &mut area[record_at(slot)..record_at(slot) + RECORD_LEN];
    record[..NAME_LEN].copy_from_slice(program.name);
    put_word(record, 12, id);
    record[14] = random.pick(&[RUNNING, PAUSED]);
    put_word(record, 16, program.start);
    put_word(record, 18, program.length);
    put_word(record, 20, at_most(random, program.length));
    let place = if random.one_in(2) { NO_LOOP } else { at_most(random, program.length) };
    put_word(record, 22, place);
    if random.one_in(2) {
        // No open file: its start is not read.
        put_word(record, 26, 0);
        put_word(record, 28, 0);
    } else {
        let file = files[random.below(files.len())];
        put_word(record, 24, file.start);
        put_word(record, 26, file.length);
        put_word(record, 28, at_most(random, file.length));
    }
    record[30] = at_most(random, STACK_LEN) as u8;
    record[31] = at_most(random, usize::from(MAX_SHARE)) as u8;
}

/// A number up to `most`, its ends now and then.
fn at_most(random: &mut Random, most: usize) -> usize {
    match random.below(3) {
        0 => most,
        1 => 0,
        _ => random.within(0, most),
    }
}

fn write_variables(random: &mut Random, area: &mut [u8], ids: &[usize]) {
    let wanted = if ids.is_empty() { 0 } else { random.pick(&[0, 3, 10, MAX_VARIABLES]) };
    let mut places = disjoint(random, 0, MEMORY_LEN, wanted, 30);
    random.shuffle(&mut places);
    for (index, place) in places.iter().enumerate() {
        // Numbers have their sizes alone; the rest of the place stays free.
        let kind = random.pick(&[1u8, 2, 3, 4]);
        let (kind, size) =
            if usize::from(kind) <= place.len() && kind != 3 { (kind, usize::from(kind)) } else { (3, place.len()) };
        let at = VARIABLES + index * VARIABLE_LEN;
        area[at] = index as u8 * 7 + random.pick(&[65, 66]);
        area[at + 1] = kind;
        area[at + 2] = place.start as u8;
        area[at + 3] = size as u8;
        put_word(area, at + 4, random.pick(ids));
        let earlier: Vec<Variable> = (0..index).map(|earlier| Variable::of(area, earlier)).collect();
        let own = Variable::of(area, index);
        while earlier.iter().any(|other| (other.name, other.id) == (area[at], own.id)) {
            area[at] = area[at].wrapping_add(1);
        }
    }
    area[VARIABLE_COUNT] = places.len() as u8;
}

/// A good state that the kernel has made, by calls on fresh buffers.
pub fn lived(random: &mut Random) -> State {
    let mut disc = vec![0; random.pick(&[SHORT_DISC, LONG_DISC])];
    let mut area = vec![0; AREA_LEN];
    random.fill(&mut disc);
    random.fill(&mut area);
    kernel::format(&mut disc, &mut area);
    for name in ["a", "b", "c", "hours", "blink", "down", "elevenbytes"] {
        let code = program(random);
        kernel::store(&mut disc, name.as_bytes(), &code);
    }
    for _ in 0..random.within(5, 60) {
        live_on(random, &mut disc, &mut area);
    }
    State { disc, area }
}

fn live_on(random: &mut Random, disc: &mut [u8], area: &mut [u8]) {
    let name = random.pick(&["a", "b", "c", "hours", "blink", "down", "elevenbytes"]).as_bytes();
    let id = random.within(1, 12) as u32;
    let clock = random.next() as u32;
    match random.below(12) {
        0..=3 => kernel::run(disc, area, name),
        4 => kernel::suspend(disc, area, id),
        5 => kernel::resume(disc, area, id),
        6 => kernel::share(disc, area, id, random.within(1, 8) as u32),
        7 if random.one_in(3) => kernel::kill(disc, area, id),
        8 if random.one_in(3) => kernel::erase(disc, area, name),
        9 => kernel::turn(disc, area, random.below(10) as u32, clock, &mut [0; TURN_OUTPUT]),
        _ => kernel::round(disc, area, clock, &mut [0; ROUND_OUTPUT]),
    };
}

/// A program that sets variables, opens and writes files, starts others, and leaves values on its stack.
fn program(random: &mut Random) -> Vec<u8> {
    let mut code = Vec::new();
    for _ in 0..random.within(3, 12) {
        let (byte, name) = (random.byte(), random.within(97, 102) as u8);
        match random.below(9) {
            0 => code.extend([1, byte, 5, name]),
            1 => code.extend([2, byte, byte, 5, name]),
            2 => code.extend([3, 97, 98, 99, 0, 5, name]),
            3 => code.extend([4, byte, byte, byte, byte, 5, name]),
            4 => code.extend([1, byte]),
            5 => code.push(65),
            6 => code.extend([3, 108, 111, 103, 0, 2, 0, 40, 53, 2, byte, byte, 55]),
            7 => code.extend([3, name, 0, 68, 62]),
            _ => code.extend([1, byte, 51]),
        }
    }
    code.push(random.pick(&[66, 66, 67, 0]));
    code
}
