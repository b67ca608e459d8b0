//! Rounds of processes with shares: short programs that print, end, fork and wait within the turns of one share. Document
//! 02, Q-9.

use crate::arguments;
use crate::comparison::{Compared, Comparison};
use crate::kernels::State;
use crate::programs::{program, Reach, DOWN};
use crate::random::Random;
use crate::states::disc_len;
use crate::tracking::Tracking;
use kernel::call::Call;
use second::instruction::*;
use second::layout::*;
use second::records;

/// How many calls a unit makes once its processes are started.
const LENGTH: usize = 40;

/// The programs of a unit, by place: most units have one of each kind.
const NAMES: [&[u8]; 10] = [b"p0", b"p1", b"p2", b"p3", b"p4", b"p5", b"p6", b"p7", b"p8", b"p9"];

/// Code that meets a fault: an empty stack, no variable, no instruction, no loop, a divisor zero.
const FAULTS: [&[u8]; 5] = [&[PLUS], &[GET, b'q'], &[0], &[ENDLOOP], &[CHAR, 0, CHAR, 0, DIVIDEDBY]];

/// From *format* on: programs stored and run, shares set, rounds; every process is held against the single process.
pub fn compare_shares(comparison: &mut Comparison, unit: u64) -> Compared<()> {
    let mut random = comparison.begin("shares", unit);
    let mut state = State::zero(disc_len(unit));
    let mut tracking = Tracking::default();
    for call in starts(unit, &mut random) {
        tracking.call(comparison, &mut state, &call)?;
    }
    for _ in 0..LENGTH {
        if random.chance(1, 8) {
            fill_ended(&mut state.area, &mut random);
        }
        let call = step(&state, &mut random);
        tracking.call(comparison, &mut state, &call)?;
    }
    Ok(())
}

/// The calls that a unit begins with; some units have ten printing processes with one share.
fn starts(unit: u64, random: &mut Random) -> Vec<Call> {
    let mut calls = vec![Call::Format];
    let printing = unit % 8 < 2;
    let share = if random.chance(1, 2) { 8 } else { random.between(1, 8) as u32 };
    for (place, name) in NAMES.iter().enumerate() {
        let data = if printing { printer() } else { kind(place, name, random) };
        calls.push(Call::Store { name: name.to_vec(), data });
    }
    let processes = if printing { MAX_PROCESSES } else { random.between(7, MAX_PROCESSES) };
    for id in 1..=processes as u32 {
        let place = if printing { 0 } else { random.below(NAMES.len()) };
        calls.push(Call::Run { name: NAMES[place].to_vec() });
        let share = if printing { share } else { random.between(1, 8) as u32 };
        if printing || random.chance(2, 3) {
            calls.push(Call::Share { id, share });
        }
    }
    calls
}

/// A program that prints 30 bytes in every second turn.
fn printer() -> Vec<u8> {
    let line = [&[STRING], &[b'l'; 29][..], &[0, PRINTLN]].concat();
    [&[LOOP], &line.repeat(4)[..], &[ENDLOOP]].concat()
}

/// A program of each kind; the place is that of its name.
fn kind(place: usize, name: &[u8], random: &mut Random) -> Vec<u8> {
    let prints = random.between(0, 4);
    let letters: Vec<u8> = (0..prints).flat_map(|_| [CHAR, random.between(33, 126) as u8, PRINT]).collect();
    match place {
        0 => [&letters[..], &[STOP]].concat(),
        1 => [&letters[..], *random.pick(&FAULTS)].concat(),
        2 => [&letters[..], &[MILLIS]].concat(),
        3 => [&[INT, 0, 0, LOOP, INCREMENT, INCREMENT][..], &letters, &[INCREMENT, ENDLOOP]].concat(),
        4 => vec![LOOP, MILLIS, CHAR, random.between(1, 20) as u8, PLUS, DELAYUNTIL, ENDLOOP],
        5 => [forks(random, &[PRINT]), vec![STOP]].concat(),
        6 => [&[LOOP], &forks(random, &[WAITUNTILDONE])[..], &[ENDLOOP]].concat(),
        7 => [&[STRING], name, &[0, CHAR, 9, OPEN, LOOP, CHAR, STOP, CHAR, LOOP, WRITE, WRITE, ENDLOOP]].concat(),
        8 => DOWN.to_vec(),
        _ => program(*random.pick(&[Reach::Alone, Reach::Everything]), 60, random),
    }
}

/// One to three forks of programs of the unit, each with what takes its ID off the stack.
fn forks(random: &mut Random, taken: &[u8]) -> Vec<u8> {
    let names: Vec<&[u8]> = (0..random.between(1, 3)).map(|_| *random.pick(&NAMES)).collect();
    names.iter().flat_map(|name| [&[STRING], *name, &[0, FORK], taken].concat()).collect()
}

/// A call that keeps rounds going.
fn step(state: &State, random: &mut Random) -> Call {
    match random.below(18) {
        0..=6 => Call::Round { clock: arguments::time(random), room: room(random) },
        7..=8 => Call::Share { id: live_id(&state.area, random), share: arguments::share(random) },
        9 => Call::Share { id: arguments::id(&state.area, random), share: arguments::share(random) },
        10 => Call::Suspend { id: live_id(&state.area, random) },
        11..=12 => Call::Resume { id: live_id(&state.area, random) },
        13 if random.chance(1, 2) => Call::Kill { id: live_id(&state.area, random) },
        14..=15 => Call::Run { name: random.pick(&NAMES).to_vec() },
        _ => Call::Turn { slot: random.below(MAX_PROCESSES) as u32, clock: arguments::time(random), room: TURN_OUTPUT },
    }
}

/// Mostly what a round needs; now and then what it needed before Q-9, or one byte less.
fn room(random: &mut Random) -> usize {
    match random.below(12) {
        0 => 320,
        1 => ROUND_OUTPUT - 1,
        _ => ROUND_OUTPUT,
    }
}

fn live_id(area: &[u8], random: &mut Random) -> u32 {
    let ids: Vec<u32> = records::live(area).map(|record| records::id(area, record) as u32).collect();
    if ids.is_empty() {
        return 1;
    }
    *random.pick(&ids)
}

/// Garbage in all that is not read of ended records; the ID is now and then a live one.
fn fill_ended(area: &mut [u8], random: &mut Random) {
    let id = live_id(area, random);
    for record in records::all() {
        if !records::is_live(area, record) {
            random.fill(&mut area[record..record + STATE]);
            random.fill(&mut area[record + FAULT..record + RECORD_LEN]);
            if random.chance(1, 2) {
                set_word(area, record + ID, id as usize);
            }
        }
    }
}
