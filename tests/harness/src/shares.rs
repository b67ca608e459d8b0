//! What calls reached of shares. Document 02, Q-9: "The spare byte holds 1 to 8, with zero as one, kept until the process
//! ends"; "A new operation sets it by ID."

use crate::comparison::Outcome;
use crate::coverage::opcode_at;
use crate::kernels::State;
use crate::rounds::{OF_ROUNDS, OF_SLOTS};
use kernel::call::Call;
use second::instruction::STOP;
use second::layout::*;
use second::records;

/// What must be reached of calls other than a round that is done.
const OF_CALLS: [&str; 35] = [
    "share, 1 set",
    "share, 2 set",
    "share, 3 set",
    "share, 4 set",
    "share, 5 set",
    "share, 6 set",
    "share, 7 set",
    "share, 8 set",
    "share, set over zero",
    "share, 1 set over more",
    "share, the same again",
    "share, of a paused process",
    "share, of an ID that an ended record in a lower slot has too",
    "share, 0 refused",
    "share, 9 refused",
    "share, 255 refused",
    "share, 256 refused",
    "share, 4,294,967,295 refused",
    "share, refused though 1 to 8 modulo 256",
    "share, refused though 1 to 8 modulo 65,536",
    "share, refused by 22 of a paused process",
    "share, 14 where 22 is true too",
    "share, 14 of an ended process's ID",
    "share, 14 of an ID that is live modulo 65,536",
    "suspend, a share is kept",
    "resume, a share is kept",
    "kill, a share is cleared",
    OF_SINGLE_TURN,
    "turn, STOP clears a share",
    "turn, a fault clears a share",
    "run, over an ended record with a spare byte",
    "turn, FORK over an ended record with a spare byte",
    "round, 320 bytes lent",
    "round, 2,559 bytes lent",
    "round, 2,560 bytes lent",
];

/// Of a turn that a single process made too.
pub const OF_SINGLE_TURN: &str = "turn, one instruction of a share of 8";

/// All that one pass must reach, on discs of each length.
pub fn needed() -> Vec<String> {
    let single = OF_SLOTS.iter().chain([&OF_SINGLE_TURN]).map(|name| of_single(name));
    let names = OF_CALLS.iter().chain(&OF_ROUNDS).chain(&OF_SLOTS).map(|name| name.to_string()).chain(single);
    let names: Vec<String> = names.collect();
    [SHORT_DISC, LONG_DISC].iter().flat_map(|&length| names.iter().map(move |name| on_disc(name, length))).collect()
}

/// The name of a situation that a single process met too.
pub fn of_single(name: &str) -> String {
    format!("single process, {name}")
}

/// The name of a situation on a disc of a length.
pub fn on_disc(name: &str, length: usize) -> String {
    format!("{name}, disc of {length}")
}

/// What *share* leaves by the words alone: of a done call the spare byte, of a refused one nothing.
pub fn state_after_share(before: &State, id: u32, share: u32, done: bool) -> State {
    let mut after = before.clone();
    if let (true, Some(record)) = (done, records::of_id(&before.area, id)) {
        after.area[record + SPARE] = share as u8;
    }
    after
}

/// Whether a done call leaves every share as the words say: "kept until the process ends, when it is cleared like the
/// rest", set by *share*, none in a process that begins.
pub fn are_kept(call: &Call, before: &State, after: &State) -> bool {
    records::all().all(|record| {
        let (found, left) = (before.area[record + SPARE], after.area[record + SPARE]);
        let id = records::id(&after.area, record);
        let lived = records::is_live(&before.area, record);
        match (records::is_live(&after.area, record), call) {
            (true, Call::Share { id: named, share }) if *named == id as u32 => u32::from(left) == *share,
            (true, _) if lived && records::id(&before.area, record) == id => left == found,
            (true, _) => left == 0,
            (false, _) => left == 0 || !lived && left == found,
        }
    })
}

/// The situations of a call that both kernels answered alike; `answer` is 0 for done, n for refusal n.
pub fn situations(call: &Call, answer: u8, before: &State, after: &Outcome) -> Vec<String> {
    let names = match (call, answer) {
        (Call::Share { id, share }, _) => of_share(&before.area, *id, *share, answer),
        (Call::Suspend { id }, 0) => of_command(&before.area, *id, "suspend, a share is kept"),
        (Call::Resume { id }, 0) => of_command(&before.area, *id, "resume, a share is kept"),
        (Call::Kill { id }, 0) => of_command(&before.area, *id, "kill, a share is cleared"),
        (Call::Turn { slot, .. }, 0) => of_turn(records::record(*slot as usize), before, &after.state),
        (Call::Run { .. }, 0) => {
            let over = child(before, &after.state).is_some_and(|record| before.area[record + SPARE] != 0);
            holding(vec![("run, over an ended record with a spare byte", over)])
        }
        (Call::Round { room, .. }, 4) => {
            holding(vec![("round, 320 bytes lent", *room == 320), ("round, 2,559 bytes lent", *room == 2559)])
        }
        (Call::Round { room, .. }, 0) => holding(vec![("round, 2,560 bytes lent", *room == 2560)]),
        _ => Vec::new(),
    };
    names.iter().map(|name| on_disc(name, before.disc.len())).collect()
}

/// A situation and whether it holds.
pub type Tried = (&'static str, bool);

/// Those of some situations that hold.
pub fn holding(tried: Vec<Tried>) -> Vec<String> {
    tried.into_iter().filter(|(_, holds)| *holds).map(|(name, _)| name.to_string()).collect()
}

fn of_share(area: &[u8], id: u32, share: u32, answer: u8) -> Vec<String> {
    let found = || records::of_id(area, id);
    match answer {
        0 => found().map_or(Vec::new(), |record| of_set(area, record, share)),
        14 => of_unknown(area, id, share),
        22 => of_refused(found().is_some_and(|record| area[record + STATE] == PAUSED), share),
        _ => Vec::new(),
    }
}

fn of_set(area: &[u8], record: usize, share: u32) -> Vec<String> {
    let found = u32::from(area[record + SPARE]);
    let below = records::all().take_while(|&other| other < record);
    let mut named = below.filter(|&other| records::id(area, other) == records::id(area, record));
    let mut names = holding(vec![
        ("share, set over zero", found == 0),
        ("share, 1 set over more", share == 1 && found > 1),
        ("share, the same again", share == found),
        ("share, of a paused process", area[record + STATE] == PAUSED),
        ("share, of an ID that an ended record in a lower slot has too", named.next().is_some()),
    ]);
    names.push(format!("share, {share} set"));
    names
}

fn of_unknown(area: &[u8], id: u32, share: u32) -> Vec<String> {
    let ended = records::all().any(|record| !records::is_live(area, record) && records::id(area, record) as u32 == id);
    holding(vec![
        ("share, 14 where 22 is true too", !(1..=8).contains(&share)),
        ("share, 14 of an ended process's ID", id > 0 && ended),
        ("share, 14 of an ID that is live modulo 65,536", records::of_id(area, id % 65_536).is_some()),
    ])
}

fn of_refused(paused: bool, share: u32) -> Vec<String> {
    holding(vec![
        ("share, 0 refused", share == 0),
        ("share, 9 refused", share == 9),
        ("share, 255 refused", share == 255),
        ("share, 256 refused", share == 256),
        ("share, 4,294,967,295 refused", share == u32::MAX),
        ("share, refused though 1 to 8 modulo 256", share < 65_536 && (1..=8).contains(&(share % 256))),
        ("share, refused though 1 to 8 modulo 65,536", (1..=8).contains(&(share % 65_536))),
        ("share, refused by 22 of a paused process", paused),
    ])
}

/// A command to a process with a share above 1.
fn of_command(area: &[u8], id: u32, name: &'static str) -> Vec<String> {
    holding(vec![(name, records::of_id(area, id).is_some_and(|record| area[record + SPARE] > 1))])
}

fn of_turn(record: usize, before: &State, after: &State) -> Vec<String> {
    let share = before.area[record + SPARE];
    let end = (share > 1).then(|| end(record, before, after)).flatten();
    let over = child(before, after).is_some_and(|record| before.area[record + SPARE] != 0);
    holding(vec![
        (OF_SINGLE_TURN, share == 8 && after.area[record + STATE] != ENDED),
        ("turn, STOP clears a share", end == Some(End::Stop)),
        ("turn, a fault clears a share", matches!(end, Some(End::CodeEnded | End::Fault))),
        ("turn, FORK over an ended record with a spare byte", over),
    ])
}

/// How a turn ended its process.
#[derive(Clone, Copy, PartialEq, Eq)]
pub enum End {
    Stop,
    CodeEnded,
    Fault,
}

/// How a turn ended the process of this record, if it did.
pub fn end(record: usize, before: &State, after: &State) -> Option<End> {
    match opcode_at(before, record) {
        _ if after.area[record + STATE] != ENDED => None,
        Some(STOP) => Some(End::Stop),
        None => Some(End::CodeEnded),
        Some(_) => Some(End::Fault),
    }
}

/// The record of the process that a *run* or a turn started, if it did.
pub fn child(before: &State, after: &State) -> Option<usize> {
    let id = word(&before.area, NEXT_ID);
    (word(&after.area, NEXT_ID) > id).then(|| records::of_id(&after.area, id as u32)).flatten()
}
