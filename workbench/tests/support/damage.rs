//! Damage: one field of a state set to a value at or beyond an edge, or to anything.

use super::state::State;
use crate::field::{put_word, record_at};
use crate::random::Random;
use workbench::layout::*;

/// Damages one field of the disc.
pub fn disc_field(random: &mut Random, state: &mut State) {
    let (length, count) = (state.disc.len(), usize::from(state.disc[FILE_COUNT]).min(MAX_FILES));
    let at = random.below(count.max(1)) * ENTRY_LEN;
    let other = Entry::of(&state.disc, random.below(count.max(1)));
    let (start, end, name) = (other.start, other.end(), other.name.to_vec());
    match random.below(5) {
        0 => state.disc[FILE_COUNT] = random.pick(&[0, 1, 2, 9, 10, 11, 12, 128, 255]),
        1 => {
            let place = random.below(NAME_LEN);
            state.disc[at + place] = name_byte(random);
        }
        2 => {
            let values = [0, 160, 161, 162, length - 1, length, 65535, start, end, end.saturating_sub(1)];
            put_word(&mut state.disc, at + 12, random.pick(&values));
        }
        3 => {
            let own = word(&state.disc, at + 12);
            let values = [0, 1, 2, length.saturating_sub(own), (length + 1).saturating_sub(own), 65535];
            put_word(&mut state.disc, at + 14, random.pick(&values));
        }
        _ => state.disc[at..at + NAME_LEN].copy_from_slice(&name),
    }
}

/// Damages one field of the work area.
pub fn area_field(random: &mut Random, state: &mut State) {
    match random.below(5) {
        0 => header(random, &mut state.area),
        1 | 2 => record(random, state),
        _ => variable(random, &mut state.area),
    }
}

fn header(random: &mut Random, area: &mut [u8]) {
    let next = word(area, NEXT_ID);
    match random.below(3) {
        0 => area[VARIABLE_COUNT] = random.pick(&[0, 1, 24, 25, 26, 128, 255]),
        1 => put_word(area, NEXT_ID, random.pick(&[0, 1, next.wrapping_sub(1), next + 1, 32767, 32768, 32769, 65535])),
        _ => area[random.within(ZEROS.start, ZEROS.end - 1)] = random.pick(&[0, 1, 255]),
    }
}

fn record(random: &mut Random, state: &mut State) {
    let live: Vec<usize> = records(&state.area).filter(Record::is_live).map(|record| record.slot).collect();
    let slot = if live.is_empty() { random.below(MAX_PROCESSES) } else { random.pick(&live) };
    let (own, other) = (Record::of(&state.area, slot), Record::of(&state.area, random.below(MAX_PROCESSES)));
    let (length, file, other_id) = (own.code_length(), own.file_length(), other.id());
    let next = word(&state.area, NEXT_ID);
    let count = entries(&state.disc).len().max(1);
    let entry = Entry::of(&state.disc, random.below(count));
    let at = record_at(slot);
    let area = &mut state.area;
    match random.below(14) {
        0 => area[at + 14] = random.pick(&[0, 1, 111, 112, 113, 114, 115, 255]),
        1 => area[at + 31] = random.pick(&[0, 1, 7, 8, 9, 128, 255]),
        2 => put_word(area, at + 12, random.pick(&[0, 1, next.wrapping_sub(1), next, 32768, 65535, other_id])),
        3 => area[at + 30] = random.pick(&[0, 31, 32, 33, 255]),
        4 => put_word(area, at + 20, random.pick(&[0, length, length + 1, 65535])),
        5 => put_word(area, at + 22, random.pick(&[0, length, length + 1, 65534, 65535])),
        6 => put_word(area, at + 28, random.pick(&[0, 1, file, file + 1, 65535])),
        7 => put_word(area, at + 26, random.pick(&[0, 1, file + 1, entry.length])),
        8 => put_word(area, at + 24, random.pick(&[0, entry.start, entry.start + 1])),
        9 => put_word(area, at + 16, random.pick(&[0, entry.start, entry.start + 1])),
        10 => put_word(area, at + 18, random.pick(&[0, 1, length + 1, entry.length])),
        11 => area[at..at + NAME_LEN].copy_from_slice(entry.name),
        12 => area[at + random.below(NAME_LEN)] = name_byte(random),
        _ => area[at..at + NAME_LEN].iter_mut().for_each(|byte| *byte = (*byte).max(65)),
    }
}

/// Inside and beyond 33 to 126.
fn name_byte(random: &mut Random) -> u8 {
    random.pick(&[0, 1, 32, 33, 65, 126, 127, 128, 255])
}

fn variable(random: &mut Random, area: &mut [u8]) {
    let count = usize::from(area[VARIABLE_COUNT]).clamp(1, MAX_VARIABLES);
    let (own, other) = (Variable::of(area, random.below(count)), Variable::of(area, random.below(count)));
    let at = VARIABLES + own.index * VARIABLE_LEN;
    match random.below(6) {
        0 => area[at] = other.name,
        1 => area[at + 1] = random.pick(&[0, 1, 2, 3, 4, 5, 255]),
        2 => area[at + 2] = random.pick(&[0, 255, other.address as u8, other.end() as u8, (256 - own.size) as u8]),
        3 => area[at + 3] = random.pick(&[0, 1, 2, 3, 4, 5, 29, 30, 31, 255]),
        4 => put_word(area, at + 4, random.pick(&[0, 1, own.id + 1, other.id, 65535])),
        _ => area.copy_within(VARIABLES + other.index * VARIABLE_LEN..VARIABLES + other.index * VARIABLE_LEN + 6, at),
    }
}
