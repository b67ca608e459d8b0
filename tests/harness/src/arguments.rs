//! Arguments of calls: names, numbers and output lengths, good and odd.

use crate::kernels::State;
use crate::programs::{program, Reach};
use crate::random::Random;
use crate::states::good_name;
use kernel::call::Call;
use second::layout::*;
use second::{directory, records};

/// Names at the edges of "1 to 11 bytes of 33 to 126".
pub fn odd_name(random: &mut Random) -> Vec<u8> {
    match random.below(9) {
        0 => Vec::new(),
        1 => vec![b'x'; random.between(10, 14)],
        2 => vec![b'x'; *random.pick(&[255, 256, 257, 268, 1000])],
        3 => vec![*random.pick(&[32, 33, 126, 127, 0, 128, 255])],
        4 => b"down\0".to_vec(),
        5 => b"down\0\0\0\0\0\0\0\0".to_vec(),
        6 => {
            let mut name = good_name(random);
            let at = random.below(name.len());
            name[at] = *random.pick(&[0, 32, 127, 200]);
            name
        }
        7 => b"a b".to_vec(),
        _ => random.bytes(12),
    }
}

/// The name of a file on the disc, of an entry beyond the count, a near miss, or an odd one.
pub fn name(disc: &[u8], random: &mut Random) -> Vec<u8> {
    let count = directory::count(disc);
    let stored = |index| directory::trimmed(directory::name(disc, index)).to_vec();
    match random.below(12) {
        0..=5 if (1..=MAX_FILES).contains(&count) => stored(random.below(count)),
        6 => stored(random.below(MAX_FILES)),
        7 if (1..=MAX_FILES).contains(&count) => near_miss(stored(random.below(count)), random),
        8 => odd_name(random),
        _ => good_name(random),
    }
}

/// A name with one byte changed, added or taken away.
fn near_miss(mut name: Vec<u8>, random: &mut Random) -> Vec<u8> {
    match random.below(3) {
        0 => name.push(random.between(33, 126) as u8),
        1 => drop(name.pop()),
        _ => name.last_mut().into_iter().for_each(|byte| *byte ^= 1),
    }
    name
}

/// The ID of a live or ended record, the same modulo 65,536, or any.
pub fn id(area: &[u8], random: &mut Random) -> u32 {
    let of_record = records::id(area, records::record(random.below(MAX_PROCESSES))) as u32;
    match random.below(10) {
        0..=5 => of_record,
        6 => of_record + 65_536 * random.between(1, 65_535) as u32,
        7 => word(area, NEXT_ID) as u32,
        8 => *random.pick(&[0, 1, 2, 65_536, u32::MAX, 1 << 31]),
        _ => random.word().into(),
    }
}

/// A share, mostly one of 1 to 8; some of the others are so only modulo 256 or 65,536.
pub fn share(random: &mut Random) -> u32 {
    match random.below(4) {
        0 => *random.pick(&[0, 9, 10, 127, 128, 255, 256, 257, 264, 265, 65_536, 65_537, 65_544, 1 << 31, u32::MAX]),
        _ => random.between(1, 8) as u32,
    }
}

/// A slot that is mostly there; some are 0 to 9 only modulo 256 or 65,536.
pub fn slot(random: &mut Random) -> u32 {
    match random.below(12) {
        0 => *random.pick(&[10, 11, 255, 256, 65_536, 65_545, u32::MAX]),
        _ => random.below(MAX_PROCESSES) as u32,
    }
}

/// A clock whose low half is anywhere and whose high half matters to nobody.
pub fn clock(random: &mut Random) -> u32 {
    match random.below(4) {
        0 => random.below(200) as u32,
        1 => *random.pick(&[32_767, 32_768, 65_535, 65_536, u32::MAX]),
        _ => random.bits() as u32,
    }
}

/// A clock near the others of a run, so that waits begin and end: from 0 on, or around the end of INT or of 16 bits.
pub fn time(random: &mut Random) -> u32 {
    let first = *random.pick(&[0, 0, 0, 32_740, 65_506]);
    first + random.below(60) as u32
}

/// An output length around what is needed.
pub fn room(needed: usize, random: &mut Random) -> usize {
    match random.below(8) {
        0 => needed.saturating_sub(1),
        1 => random.between(0, needed),
        2 => needed,
        3 => needed + 1,
        4 => 0,
        _ => needed + random.below(50),
    }
}

/// What *files* needs on this disc, or some number if the disc is not good.
fn files_need(disc: &[u8]) -> usize {
    let mut output = vec![0; 1024];
    second::files(disc, &mut output).unwrap_or(30) as usize
}

fn list_need(state: &State) -> usize {
    let mut output = vec![0; 1024];
    second::list(&state.disc, &state.area, &mut output).unwrap_or(30) as usize
}

fn retrieve_need(disc: &[u8], name: &[u8]) -> usize {
    let mut output = vec![0; LONG_DISC];
    second::retrieve(disc, name, &mut output).unwrap_or(30) as usize
}

/// The data of a *store*: mostly a program, sometimes just too long or nothing.
pub fn data(disc: &[u8], random: &mut Random) -> Vec<u8> {
    let free = second::free_space(disc).unwrap_or(100) as usize;
    let limit = random.between(10, 90);
    let length = match random.below(10) {
        0 => *random.pick(&[0, 862, 863, 864, 865, 1024, 3934, 3935, 3936, 3937, 4096, 65_535, 65_536, 65_537]),
        1 => free,
        2 => free + 1,
        3 => random.between(0, disc.len()),
        4 => random.between(1, 10),
        _ => return program(Reach::Everything, limit, random),
    };
    random.bytes(length)
}

/// Any call on a state whose buffers have their lengths.
pub fn call(state: &State, random: &mut Random) -> Call {
    let State { disc, area } = state;
    match random.below(36) {
        0 => Call::Format,
        1 => Call::Boot,
        2..=5 => Call::Store { name: name(disc, random), data: data(disc, random) },
        6..=7 => {
            let name = name(disc, random);
            Call::Retrieve { room: room(retrieve_need(disc, &name), random), name }
        }
        8..=10 => Call::Erase { name: name(disc, random) },
        11 => Call::Files { room: room(files_need(disc), random) },
        12 => Call::FreeSpace,
        13..=15 => Call::Run { name: name(disc, random) },
        16..=17 => Call::Suspend { id: id(area, random) },
        18..=19 => Call::Resume { id: id(area, random) },
        20 => Call::Kill { id: id(area, random) },
        21 => Call::List { room: room(list_need(state), random) },
        22..=23 => Call::Round { clock: clock(random), room: room(ROUND_OUTPUT, random) },
        24..=25 => Call::Share { id: id(area, random), share: share(random) },
        _ => Call::Turn { slot: slot(random), clock: clock(random), room: turn_room(random) },
    }
}

/// Mostly enough for a turn.
fn turn_room(random: &mut Random) -> usize {
    if random.chance(9, 10) {
        TURN_OUTPUT
    } else {
        room(TURN_OUTPUT, random)
    }
}

/// One call of every operation, its arguments taken from the state.
pub fn every_call(state: &State, random: &mut Random) -> Vec<Call> {
    let mut calls: Vec<Option<Call>> = vec![None; kernel::call::OPERATIONS.len()];
    while calls.iter().any(Option::is_none) {
        let call = call(state, random);
        let operation = call.operation();
        calls[operation].get_or_insert(call);
    }
    calls.into_iter().flatten().collect()
}
