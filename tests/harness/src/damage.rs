//! Good states with one clause of goodness broken, and states at the very edge of goodness.

use crate::arguments::{call, every_call};
use crate::cases::call_text;
use crate::comparison::{Compared, Comparison};
use crate::kernels::State;
use crate::random::Random;
use crate::states::{disc_len, good_state};
use kernel::call::Call;
use second::layout::*;
use second::{directory, records, variables};

/// A change of a good state; false where the state has no place for it.
type Change = fn(&mut State, &mut Random) -> bool;

/// Each clause of a good disc, broken by one byte or field.
const DISC_DAMAGES: [(&str, Change); 16] = [
    ("file count above 10", |s, r| put(&mut s.disc, FILE_COUNT, *r.pick(&[11, 12, 16, 255]))),
    ("empty name", |s, r| file(s, r, |s, at, _| put(&mut s.disc[at..at + NAME_LEN], 0, 0))),
    ("twelve name bytes", |s, r| file(s, r, |s, at, _| fill(&mut s.disc[at..at + NAME_LEN], b'x'))),
    ("name byte 32", |s, r| file(s, r, |s, at, _| put(&mut s.disc, at, 32))),
    ("name byte 127", |s, r| file(s, r, |s, at, _| put(&mut s.disc, at, 127))),
    ("name byte above 127", |s, r| file(s, r, |s, at, r| put(&mut s.disc, at, r.between(128, 255) as u8))),
    ("byte after the name's zero", |s, r| file(s, r, |s, at, r| put(&mut s.disc, at + 11, r.between(1, 255) as u8))),
    ("two equal names", |s, r| two_files(s, r, |s, at, other| copy(&mut s.disc, other, at, NAME_LEN))),
    ("file length 0", |s, r| file(s, r, |s, at, _| set(&mut s.disc, at + ENTRY_LENGTH, 0))),
    ("file start 160", |s, r| file(s, r, |s, at, _| set(&mut s.disc, at + ENTRY_START, 160))),
    ("file end one past the disc", |s, r| file(s, r, |s, at, _| end_at(s, at, s.disc.len() + 1))),
    ("file end far out", |s, r| file(s, r, |s, at, r| set_far(&mut s.disc, at + ENTRY_LENGTH, r))),
    ("file start far out", |s, r| file(s, r, |s, at, r| set_far(&mut s.disc, at + ENTRY_START, r))),
    ("file end above 65,536", |s, r| {
        file(s, r, |s, at, r| {
            set(&mut s.disc, at + ENTRY_START, 65_536 - r.between(1, 20)) && set(&mut s.disc, at + ENTRY_LENGTH, 200)
        })
    }),
    ("files share their first byte", |s, r| two_files(s, r, start_at_start)),
    ("files share one byte", |s, r| two_files(s, r, start_in_last_byte)),
];

/// Each clause of a good work area, broken by one byte or field.
const AREA_DAMAGES: [(&str, Change); 39] = [
    ("variable count above 25", |s, r| put(&mut s.area, VARIABLE_COUNT, *r.pick(&[26, 27, 255]))),
    ("one of the seven zeros", |s, r| put(&mut s.area, ZEROS + r.below(ZEROS_LEN), r.between(1, 255) as u8)),
    ("next ID 0", |s, _| set(&mut s.area, NEXT_ID, 0)),
    ("next ID above 32768", |s, r| set(&mut s.area, NEXT_ID, *r.pick(&[32_769, 40_000, 65_535]))),
    ("unknown state", |s, r| put(&mut s.area, records::record(r.below(10)) + STATE, *r.pick(b"\x01RPsq\x80"))),
    ("spare byte 9", |s, r| live(s, r, |s, at, _| put(&mut s.area, at + SPARE, 9))),
    ("spare byte above 9", |s, r| live(s, r, |s, at, r| put(&mut s.area, at + SPARE, r.between(10, 255) as u8))),
    ("spare byte of a paused process", |s, r| {
        live(s, r, |s, at, r| {
            put(&mut s.area, at + STATE, PAUSED) && put(&mut s.area, at + SPARE, r.between(9, 255) as u8)
        })
    }),
    ("ID 0", |s, r| live(s, r, |s, at, _| set(&mut s.area, at + ID, 0))),
    ("ID equal to next ID", |s, r| live(s, r, |s, at, _| copy(&mut s.area, NEXT_ID, at + ID, 2))),
    ("ID above next ID", |s, r| live(s, r, |s, at, _| set(&mut s.area, at + ID, 65_535))),
    ("two equal IDs", |s, r| two_live(s, r, |s, at, other| copy(&mut s.area, other + ID, at + ID, 2))),
    ("SP 33", |s, r| live(s, r, |s, at, _| put(&mut s.area, at + SP, 33))),
    ("SP above 33", |s, r| live(s, r, |s, at, r| put(&mut s.area, at + SP, r.between(34, 255) as u8))),
    ("PC past the code length", |s, r| live(s, r, |s, at, _| past(s, at + PC, at + CODE_LENGTH))),
    ("PC far out", |s, r| live(s, r, |s, at, r| set(&mut s.area, at + PC, r.between(s.disc.len(), 65_535)))),
    ("loop past the code length", |s, r| live(s, r, |s, at, _| past(s, at + LOOP_PC, at + CODE_LENGTH))),
    ("loop FFFE", |s, r| live(s, r, |s, at, _| set(&mut s.area, at + LOOP_PC, 0xFFFE))),
    ("file offset past the length", |s, r| open(s, r, |s, at, _| past(s, at + FILE_OFFSET, at + FILE_LENGTH))),
    ("file offset with none open", |s, r| {
        live(s, r, |s, at, r| {
            set(&mut s.area, at + FILE_LENGTH, 0) && set(&mut s.area, at + FILE_OFFSET, r.between(1, 65_535))
        })
    }),
    ("record's name", |s, r| live(s, r, |s, at, _| flip(&mut s.area, at))),
    ("filling of the record's name", |s, r| live(s, r, |s, at, _| flip(&mut s.area, at + 11))),
    ("code start", |s, r| live(s, r, |s, at, _| flip(&mut s.area, at + CODE_START))),
    ("high byte of the code start", |s, r| live(s, r, |s, at, _| flip(&mut s.area, at + CODE_START + 1))),
    ("code longer by one", |s, r| live(s, r, |s, at, _| past(s, at + CODE_LENGTH, at + CODE_LENGTH))),
    ("code of another file", |s, r| {
        two_live(s, r, |s, at, other| {
            let differ = word(&s.area, at + CODE_START) != word(&s.area, other + CODE_START);
            differ && copy(&mut s.area, other + CODE_START, at + CODE_START, 4) && set(&mut s.area, at + PC, 0)
        })
    }),
    ("open file's start", |s, r| {
        open(s, r, |s, at, _| {
            let (start, length) = (word(&s.area, at + FILE_START) ^ 1, word(&s.area, at + FILE_LENGTH));
            let nobody = directory::ranges(&s.disc).all(|range| range != (start..start + length));
            nobody && set(&mut s.area, at + FILE_START, start)
        })
    }),
    ("open file longer by one", |s, r| open(s, r, |s, at, _| past(s, at + FILE_LENGTH, at + FILE_LENGTH))),
    ("open file shorter by one", |s, r| {
        open(s, r, |s, at, _| {
            let length = word(&s.area, at + FILE_LENGTH);
            length > 1 && set(&mut s.area, at + FILE_LENGTH, length - 1) && set(&mut s.area, at + FILE_OFFSET, 0)
        })
    }),
    ("variable of an ended process", |s, r| {
        live(s, r, |s, at, _| {
            let owns = (0..variables::count(&s.area)).any(|v| variables::id(&s.area, v) == records::id(&s.area, at));
            owns && put(&mut s.area, at + STATE, ENDED)
        })
    }),
    ("variable of nobody", |s, r| variable(s, r, |s, at, _| set(&mut s.area, at + VARIABLE_ID, 0))),
    ("variable end 257", |s, r| variable(s, r, |s, at, _| put_end(s, at, MEMORY_LEN + 1))),
    ("variables share a byte", |s, r| two_variables(s, r, put_address_in_last_byte)),
    ("two variables of one name and ID", |s, r| {
        two_variables(s, r, |s, at, other| {
            copy(&mut s.area, other, at, 1) && copy(&mut s.area, other + VARIABLE_ID, at + VARIABLE_ID, 2)
        })
    }),
    ("variable type 0 or above 4", |s, r| {
        variable(s, r, |s, at, r| put(&mut s.area, at + VARIABLE_TYPE, *r.pick(&[0, 5, 6, 30, 255])))
    }),
    ("number of another size", |s, r| {
        variable(s, r, |s, at, r| {
            let size = s.area[at + VARIABLE_SIZE];
            let kind = *r.pick(&[1, 2, 4]);
            kind != size && put(&mut s.area, at + VARIABLE_TYPE, kind)
        })
    }),
    ("string of size 0", |s, r| {
        variable(s, r, |s, at, _| put(&mut s.area, at + VARIABLE_TYPE, 3) && put(&mut s.area, at + VARIABLE_SIZE, 0))
    }),
    ("string of size 31", |s, r| {
        variable(s, r, |s, at, _| {
            s.area[VARIABLE_COUNT] = 1;
            copy(&mut s.area, at, VARIABLES, VARIABLE_LEN)
                && put(&mut s.area, VARIABLES + VARIABLE_TYPE, 3)
                && put(&mut s.area, VARIABLES + VARIABLE_ADDRESS, 100)
                && put(&mut s.area, VARIABLES + VARIABLE_SIZE, 31)
        })
    }),
    ("code shorter by one", |s, r| {
        live(s, r, |s, at, _| {
            let length = word(&s.area, at + CODE_LENGTH);
            let fits = word(&s.area, at + PC) < length && set(&mut s.area, at + LOOP_PC, NO_LOOP);
            length > 1 && fits && set(&mut s.area, at + CODE_LENGTH, length - 1)
        })
    }),
];

/// Changes that keep a state good: the last value allowed, or garbage in an unread place.
const EDGES: [(&str, Change); 22] = [
    ("PC at the code length", |s, r| live(s, r, |s, at, _| copy(&mut s.area, at + CODE_LENGTH, at + PC, 2))),
    ("loop at the code length", |s, r| live(s, r, |s, at, _| copy(&mut s.area, at + CODE_LENGTH, at + LOOP_PC, 2))),
    ("no loop", |s, r| live(s, r, |s, at, _| set(&mut s.area, at + LOOP_PC, NO_LOOP))),
    ("offset at the file length", |s, r| {
        open(s, r, |s, at, _| copy(&mut s.area, at + FILE_LENGTH, at + FILE_OFFSET, 2))
    }),
    ("SP 32", |s, r| live(s, r, |s, at, _| put(&mut s.area, at + SP, 32))),
    ("next ID 32768", |s, _| set(&mut s.area, NEXT_ID, 32_768)),
    ("garbage fault byte", |s, r| live(s, r, |s, at, r| put(&mut s.area, at + FAULT, r.byte()))),
    ("garbage file start with none open", |s, r| {
        live(s, r, |s, at, r| {
            set(&mut s.area, at + FILE_START, r.word().into())
                && set(&mut s.area, at + FILE_LENGTH, 0)
                && set(&mut s.area, at + FILE_OFFSET, 0)
        })
    }),
    ("garbage above SP", |s, r| {
        live(s, r, |s, at, r| {
            let sp = usize::from(s.area[at + SP]);
            r.fill(&mut s.area[at + STACK + sp..at + RECORD_LEN]);
            true
        })
    }),
    ("garbage in an ended record", |s, r| {
        let at = records::record(r.below(MAX_PROCESSES));
        r.fill(&mut s.area[at + FAULT..at + RECORD_LEN]);
        r.fill(&mut s.area[at..at + STATE]);
        !records::is_live(&s.area, at)
    }),
    ("spare byte 8", |s, r| live(s, r, |s, at, _| put(&mut s.area, at + SPARE, 8))),
    ("spare byte 0", |s, r| live(s, r, |s, at, _| put(&mut s.area, at + SPARE, 0))),
    ("spare byte above 8 in an ended record", |s, r| {
        let at = records::record(r.below(MAX_PROCESSES));
        put(&mut s.area, at + SPARE, r.between(9, 255) as u8) && !records::is_live(&s.area, at)
    }),
    ("garbage beyond the file count", |s, r| {
        let at = directory::entry(directory::count(&s.disc).min(MAX_FILES));
        r.fill(&mut s.disc[at..FILE_COUNT]);
        at < FILE_COUNT
    }),
    ("garbage beyond the variable count", |s, r| {
        let at = VARIABLES + VARIABLE_LEN * variables::count(&s.area);
        r.fill(&mut s.area[at..VARIABLE_COUNT]);
        at < VARIABLE_COUNT
    }),
    ("ended record with a live ID", |s, r| {
        two_records(s, r, |s, at, other| {
            let other_is_live = records::is_live(&s.area, other);
            other_is_live && !records::is_live(&s.area, at) && copy(&mut s.area, other + ID, at + ID, 2)
        })
    }),
    ("garbage in a string variable", |s, r| {
        variable(s, r, |s, at, r| {
            let start = usize::from(s.area[at + VARIABLE_ADDRESS]);
            let size = usize::from(s.area[at + VARIABLE_SIZE]);
            r.fill(&mut s.area[start..start + size]);
            s.area[at + VARIABLE_TYPE] == 3
        })
    }),
    ("variable end 256", |s, r| {
        variable(s, r, |s, at, _| {
            s.area[VARIABLE_COUNT] = 1;
            copy(&mut s.area, at, VARIABLES, VARIABLE_LEN) && put_end(s, VARIABLES, MEMORY_LEN)
        })
    }),
    ("string of size 30", |s, r| {
        variable(s, r, |s, at, _| {
            s.area[VARIABLE_COUNT] = 1;
            copy(&mut s.area, at, VARIABLES, VARIABLE_LEN)
                && put(&mut s.area, VARIABLES + VARIABLE_TYPE, 3)
                && put(&mut s.area, VARIABLES + VARIABLE_SIZE, 30)
                && put_end(s, VARIABLES, 200)
        })
    }),
    ("file end where the disc ends", |s, _| fill_disc(s)),
    ("PC, loop and offset at the disc's end", |s, r| {
        fill_disc(s) && run_all_of_it(s, records::record(r.below(MAX_PROCESSES)), s.disc.len() - DATA_START)
    }),
    ("PC and offset at the disc's last byte", |s, r| {
        fill_disc(s) && run_all_of_it(s, records::record(r.below(MAX_PROCESSES)), s.disc.len() - DATA_START - 1)
    }),
];

/// Tries every damage on states of its own.
pub fn compare_damages(comparison: &mut Comparison, repeats: u64) -> Compared<()> {
    let damages = DISC_DAMAGES.iter().map(|damage| (damage, 2)).chain(AREA_DAMAGES.iter().map(|damage| (damage, 3)));
    for (index, (&(name, change), refusal)) in damages.enumerate() {
        for repeat in 0..repeats {
            let mut random = comparison.begin("damage", index as u64 * repeats + repeat);
            let state = changed(change, disc_len(repeat), &mut random);
            compare_damaged(comparison, name, &state, refusal, &mut random)?;
        }
    }
    Ok(())
}

/// Tries every edge on states of its own.
pub fn compare_edges(comparison: &mut Comparison, repeats: u64) -> Compared<()> {
    for (index, &(name, change)) in EDGES.iter().enumerate() {
        for repeat in 0..repeats {
            let mut random = comparison.begin("edges", index as u64 * repeats + repeat);
            let state = changed(change, disc_len(repeat), &mut random);
            compare_edge(comparison, name, &state, &mut random)?;
        }
    }
    Ok(())
}

/// A good state on which the change has a place.
fn changed(change: Change, disc_len: usize, random: &mut Random) -> State {
    loop {
        let mut state = good_state(disc_len, random);
        if change(&mut state, random) {
            return state;
        }
    }
}

/// Every operation on a damaged state; one that judges the damaged buffer must have refused it.
fn compare_damaged(
    comparison: &mut Comparison,
    name: &str,
    state: &State,
    refusal: i32,
    random: &mut Random,
) -> Compared<()> {
    for call in every_call(state, random) {
        let answered = comparison.try_call(state, &call)?;
        let judges = match refusal {
            2 => !matches!(call, Call::Format | Call::Boot),
            _ => !matches!(call.operation(), 0..=3 | 5 | 6),
        };
        if judges && answered.number != -refusal {
            let text =
                format!("# {}: damage '{name}': {} answers {}", comparison.place(), call_text(&call), answered.number);
            return Err(comparison.broken(text));
        }
    }
    comparison.coverage.reach(&format!("damage, {name}"));
    Ok(())
}

/// Every operation on a state at the edge; none may refuse by 2 or 3.
fn compare_edge(comparison: &mut Comparison, name: &str, state: &State, random: &mut Random) -> Compared<()> {
    for call in every_call(state, random) {
        let answered = comparison.try_call(state, &call)?;
        if matches!(answered.number, -2 | -3) {
            let text =
                format!("# {}: edge '{name}': {} answers {}", comparison.place(), call_text(&call), answered.number);
            return Err(comparison.broken(text));
        }
    }
    comparison.coverage.reach(&format!("edge, {name}"));
    Ok(())
}

/// One byte anywhere, changed to any other: whatever it does, both kernels must agree.
pub fn compare_flips(comparison: &mut Comparison, units: u64) -> Compared<()> {
    for unit in 0..units {
        let mut random = comparison.begin("flips", unit);
        let good = good_state(disc_len(unit), &mut random);
        for _ in 0..6 {
            let mut state = good.clone();
            let buffer = if random.chance(1, 4) { &mut state.disc[..=FILE_COUNT] } else { &mut state.area };
            let at = random.below(buffer.len());
            buffer[at] ^= if random.chance(1, 2) { 1 << random.below(8) } else { random.between(1, 255) as u8 };
            for _ in 0..3 {
                let call = call(&state, &mut random);
                comparison.try_call(&state, &call)?;
            }
        }
    }
    Ok(())
}

/// Lengths that no disc has.
const WRONG_DISCS: [usize; 16] =
    [0, 1, 16, 160, 161, 1023, 1025, 1056, 2048, 3072, 4095, 4097, 5120, 8192, 65_536 + SHORT_DISC, 65_536 + LONG_DISC];

/// Buffers of the wrong length, one or both, good or damaged inside.
pub fn compare_lengths(comparison: &mut Comparison, units: u64) -> Compared<()> {
    for unit in 0..units {
        let mut random = comparison.begin("lengths", unit);
        let state = good_state(disc_len(unit), &mut random);
        for call in every_call(&state, &mut random) {
            let mut wrong = state.clone();
            let which = random.between(1, 3);
            if random.chance(1, 2) {
                wrong.disc[FILE_COUNT] = 11;
            }
            if which & 1 != 0 {
                wrong.disc.resize(*random.pick(&WRONG_DISCS), 0);
            }
            if which & 2 != 0 {
                wrong.area.resize(*random.pick(&[0, 1, 256, 416, 1024, 1055, 1057, 2112]), 0);
            }
            comparison.try_call(&wrong, &call)?;
        }
    }
    Ok(())
}

/// One file over all data bytes, and no process.
fn fill_disc(state: &mut State) -> bool {
    let data = data_bytes(&state.disc);
    state.disc[..FILE_COUNT].fill(0);
    state.disc[FILE_COUNT] = 1;
    state.disc[..11].fill(b'z');
    records::all().for_each(|at| state.area[at + STATE] = ENDED);
    state.area[VARIABLE_COUNT] = 0;
    set(&mut state.disc, ENTRY_LENGTH, data.len()) && set(&mut state.disc, ENTRY_START, data.start)
}

/// A process that runs the only file and has it open, everything at this place in it.
fn run_all_of_it(state: &mut State, at: usize, place: usize) -> bool {
    let length = state.disc.len() - DATA_START;
    let fields = [(ID, 1), (CODE_START, DATA_START), (CODE_LENGTH, length), (PC, place), (LOOP_PC, place)];
    let file = [(FILE_START, DATA_START), (FILE_LENGTH, length), (FILE_OFFSET, place)];
    state.area[at..at + RECORD_LEN].fill(0);
    state.area[at..at + 11].fill(b'z');
    state.area[at + STATE] = RUNNING;
    fields.iter().chain(&file).for_each(|&(field, value)| set_word(&mut state.area, at + field, value));
    set(&mut state.area, NEXT_ID, 2)
}

fn put(buffer: &mut [u8], at: usize, byte: u8) -> bool {
    buffer[at] = byte;
    true
}

fn fill(buffer: &mut [u8], byte: u8) -> bool {
    buffer.fill(byte);
    true
}

fn set(buffer: &mut [u8], at: usize, value: usize) -> bool {
    set_word(buffer, at, value);
    true
}

/// A place or length that is outside wherever the file lies.
fn set_far(disc: &mut [u8], at: usize, random: &mut Random) -> bool {
    let far = random.between(disc.len(), 65_535);
    set(disc, at, far)
}

fn flip(buffer: &mut [u8], at: usize) -> bool {
    buffer[at] ^= 1;
    true
}

fn copy(buffer: &mut [u8], from: usize, to: usize, length: usize) -> bool {
    buffer.copy_within(from..from + length, to);
    true
}

/// Makes a field one greater than another.
fn past(state: &mut State, field: usize, limit: usize) -> bool {
    let value = word(&state.area, limit) + 1;
    set(&mut state.area, field, value)
}

/// Applies a change to the entry of some file.
fn file(state: &mut State, random: &mut Random, change: fn(&mut State, usize, &mut Random) -> bool) -> bool {
    let count = directory::count(&state.disc);
    count > 0 && change(state, directory::entry(random.below(count)), random)
}

fn two_files(state: &mut State, random: &mut Random, change: fn(&mut State, usize, usize) -> bool) -> bool {
    let mut entries: Vec<usize> = (0..directory::count(&state.disc)).map(directory::entry).collect();
    random.shuffle(&mut entries);
    entries.len() > 1 && change(state, entries[0], entries[1])
}

/// Applies a change to some live record.
fn live(state: &mut State, random: &mut Random, change: fn(&mut State, usize, &mut Random) -> bool) -> bool {
    let live: Vec<usize> = records::live(&state.area).collect();
    !live.is_empty() && change(state, live[random.below(live.len())], random)
}

fn two_live(state: &mut State, random: &mut Random, change: fn(&mut State, usize, usize) -> bool) -> bool {
    let mut live: Vec<usize> = records::live(&state.area).collect();
    random.shuffle(&mut live);
    live.len() > 1 && change(state, live[0], live[1])
}

fn two_records(state: &mut State, random: &mut Random, change: fn(&mut State, usize, usize) -> bool) -> bool {
    let mut all: Vec<usize> = records::all().collect();
    random.shuffle(&mut all);
    change(state, all[0], all[1])
}

/// Applies a change to some live record with an open file.
fn open(state: &mut State, random: &mut Random, change: fn(&mut State, usize, &mut Random) -> bool) -> bool {
    let open: Vec<usize> =
        records::live(&state.area).filter(|record| word(&state.area, record + FILE_LENGTH) > 0).collect();
    !open.is_empty() && change(state, open[random.below(open.len())], random)
}

/// Applies a change to the entry of some variable.
fn variable(state: &mut State, random: &mut Random, change: fn(&mut State, usize, &mut Random) -> bool) -> bool {
    let count = variables::count(&state.area);
    count > 0 && change(state, VARIABLES + VARIABLE_LEN * random.below(count), random)
}

fn two_variables(state: &mut State, random: &mut Random, change: fn(&mut State, usize, usize) -> bool) -> bool {
    let count = variables::count(&state.area);
    let mut entries: Vec<usize> = (0..count).map(|index| VARIABLES + VARIABLE_LEN * index).collect();
    random.shuffle(&mut entries);
    entries.len() > 1 && change(state, entries[0], entries[1])
}

fn end_at(state: &mut State, at: usize, end: usize) -> bool {
    let start = word(&state.disc, at + ENTRY_START);
    set(&mut state.disc, at + ENTRY_LENGTH, end - start)
}

fn start_at_start(state: &mut State, at: usize, other: usize) -> bool {
    let start = word(&state.disc, other + ENTRY_START);
    set(&mut state.disc, at + ENTRY_START, start) && set(&mut state.disc, at + ENTRY_LENGTH, 1)
}

fn start_in_last_byte(state: &mut State, at: usize, other: usize) -> bool {
    let last = word(&state.disc, other + ENTRY_START) + word(&state.disc, other + ENTRY_LENGTH) - 1;
    set(&mut state.disc, at + ENTRY_START, last) && set(&mut state.disc, at + ENTRY_LENGTH, 1)
}

/// Moves a variable so that it ends at a place in memory.
fn put_end(state: &mut State, at: usize, end: usize) -> bool {
    let size = usize::from(state.area[at + VARIABLE_SIZE]);
    end - size <= 255 && put(&mut state.area, at + VARIABLE_ADDRESS, (end - size) as u8)
}

fn put_address_in_last_byte(state: &mut State, at: usize, other: usize) -> bool {
    let address = usize::from(state.area[other + VARIABLE_ADDRESS]);
    let last = address + usize::from(state.area[other + VARIABLE_SIZE]) - 1;
    let size = usize::from(state.area[at + VARIABLE_SIZE]);
    last + size <= MEMORY_LEN && put(&mut state.area, at + VARIABLE_ADDRESS, last as u8)
}
