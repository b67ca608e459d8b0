//! Deep sequences of calls from *format* on, and short ones from random good states.

use crate::arguments;
use crate::comparison::{Compared, Comparison};
use crate::kernels::State;
use crate::programs::{long_program, program, Reach, DOWN, NAMES};
use crate::random::Random;
use crate::states::{disc_len, good_state};
use crate::tracking::Tracking;
use kernel::call::Call;
use second::layout::*;
use second::records;

/// A sequence from *format* on; every process it starts is held against the single process.
pub fn compare_sequence(comparison: &mut Comparison, unit: u64, length: usize) -> Compared<()> {
    let mut random = comparison.begin("sequences", unit);
    let mut state = State { disc: random.bytes(disc_len(unit)), area: random.bytes(AREA_LEN) };
    let mut tracking = Tracking::default();
    tracking.call(comparison, &mut state, &Call::Format)?;
    if random.chance(1, 6) {
        set_word(&mut state.area, NEXT_ID, 32_768 - random.between(0, 8));
    }
    for _ in 0..length {
        let call = step(&state, &mut random);
        tracking.call(comparison, &mut state, &call)?;
    }
    Ok(())
}

/// A call that keeps a sequence going: programs stored, run and given turns; every other call now and then.
pub fn step(state: &State, random: &mut Random) -> Call {
    match random.below(42) {
        0..=2 => Call::Store { name: file_name(random), data: file_data(&state.disc, random) },
        3..=5 => Call::Run { name: arguments::name(&state.disc, random) },
        6..=7 => Call::Round { clock: arguments::time(random), room: ROUND_OUTPUT },
        8..=28 => Call::Turn { slot: running_slot(state, random), clock: arguments::time(random), room: TURN_OUTPUT },
        29 => Call::Kill { id: arguments::id(&state.area, random) },
        30 => Call::Erase { name: arguments::name(&state.disc, random) },
        31..=32 => Call::Share { id: arguments::id(&state.area, random), share: arguments::share(random) },
        _ => match arguments::call(state, random) {
            Call::Format | Call::Boot if random.chance(9, 10) => Call::FreeSpace,
            call => call,
        },
    }
}

fn file_name(random: &mut Random) -> Vec<u8> {
    random.pick(&NAMES).as_bytes().to_vec()
}

/// Programs that leave room for others; now and then one that takes a third of the disc.
fn file_data(disc: &[u8], random: &mut Random) -> Vec<u8> {
    let length = random.between(20, 100);
    match random.below(9) {
        0 => DOWN.to_vec(),
        1 => random.bytes(length),
        2..=4 => program(Reach::Alone, length, random),
        5..=7 => program(Reach::Everything, length, random),
        _ => long_program(disc.len() / 3, random),
    }
}

/// Mostly the slot of a running process.
fn running_slot(state: &State, random: &mut Random) -> u32 {
    let running: Vec<u32> =
        (0..MAX_PROCESSES).filter(|&slot| is_running(state, slot)).map(|slot| slot as u32).collect();
    if running.is_empty() || random.chance(1, 12) {
        return arguments::slot(random);
    }
    *random.pick(&running)
}

fn is_running(state: &State, slot: usize) -> bool {
    state.area[records::record(slot) + STATE] == RUNNING
}

/// A random good state: calls looked at one by one, then a short sequence from that state on.
pub fn compare_state(comparison: &mut Comparison, unit: u64) -> Compared<()> {
    let mut random = comparison.begin("states", unit);
    let mut state = good_state(disc_len(unit), &mut random);
    for _ in 0..20 {
        let call = arguments::call(&state, &mut random);
        comparison.try_call(&state, &call)?;
    }
    let mut tracking = Tracking::default();
    for _ in 0..20 {
        let call = match arguments::call(&state, &mut random) {
            Call::Format | Call::Boot => Call::Turn { slot: random.below(10) as u32, clock: 0, room: TURN_OUTPUT },
            call => call,
        };
        tracking.call(comparison, &mut state, &call)?;
    }
    Ok(())
}
