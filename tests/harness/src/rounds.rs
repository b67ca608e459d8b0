//! A round as its turns, and what they reached. Document 02, Q-9: "*Round* gives a slot that many turns in a row while it
//! stays running".

use crate::coverage::opcode_at;
use crate::kernels::State;
use crate::shares::{child, end, holding, End};
use kernel::call::Call;
use second::instruction::{DELAYUNTIL, WAITUNTILDONE, WRITE};
use second::layout::*;
use second::records;
use std::collections::BTreeMap;

/// What must be reached of rounds beside what a single process can meet too.
pub const OF_ROUNDS: [&str; 21] = [
    "round, nothing runs",
    "round, 80 turns",
    "round, more than 320 bytes printed",
    "round, 1,000 bytes printed or more",
    "round, a paused process with a share has no turn",
    "round, a share set while paused and used",
    "round, a share kept over suspend and used",
    "round, WAITUNTILDONE stays through a share",
    "round, WAITUNTILDONE goes on within a share",
    "round, WRITE into its own program ahead of its share's end",
    "round, FORK ahead of its share's end",
    "round, FORK at its share's end",
    "round, two children of one share",
    "round, a child without its parent's share",
    "round, FORK over an ended record with a spare byte",
    "round, a parent ends within the share that forked",
    "round, a child in a higher slot has one turn",
    "round, a child in a higher slot ends in its turn",
    "round, a child in a lower slot waits",
    "round, a child in a slot that ended within its share",
    "round, a child in a slot that this round had passed by",
];

/// What must be reached of a slot's turns in a round, and of those that a single process made too.
pub const OF_SLOTS: [&str; 17] = [
    "round, zero as one",
    "round, a share of 1 used whole",
    "round, a share of 2 used whole",
    "round, a share of 3 used whole",
    "round, a share of 4 used whole",
    "round, a share of 5 used whole",
    "round, a share of 6 used whole",
    "round, a share of 7 used whole",
    "round, a share of 8 used whole",
    "round, a share cut short by STOP",
    "round, a share cut short by the code's end",
    "round, a share cut short by another fault",
    "round, a share cut short at its first turn",
    "round, ended by the last turn of a share",
    "round, several prints in one share",
    "round, a print and then a fault in one share",
    "round, DELAYUNTIL stays through a share",
];

/// One turn of a round: the slot's share as it was reached, and the place of this turn in it, from 1.
pub struct Turned {
    pub record: usize,
    pub share: u8,
    pub nth: u8,
    pub before: State,
    pub after: State,
    pub output: Vec<u8>,
}

/// The turns that a round stands for, each made by itself. "The spare byte holds 1 to 8, with zero as one"; "that many
/// turns in a row while it stays running".
pub fn turns_of_round(before: &State, clock: u32) -> Vec<Turned> {
    let mut state = before.clone();
    let mut turns = Vec::new();
    for (slot, record) in (0..).zip(records::all()) {
        let share = match state.area[record + SPARE] {
            0 => 1,
            spare => spare,
        };
        for nth in 1..=share {
            if state.area[record + STATE] != RUNNING {
                break;
            }
            let before = state.clone();
            let mut part = [0; TURN_OUTPUT];
            let number = second::turn(&mut state.disc, &mut state.area, slot, clock, &mut part);
            let output = part[..number.unwrap_or(0) as usize].to_vec();
            turns.push(Turned { record, share, nth, before, after: state.clone(), output });
        }
    }
    turns
}

/// The situations of one slot's turns in a round: those that a single process can meet too.
pub fn of_slot(turns: &[Turned]) -> Vec<String> {
    let (Some(first), Some(last)) = (turns.first(), turns.last()) else { return Vec::new() };
    let record = first.record;
    let end = end(record, &last.before, &last.after);
    let whole = last.nth == last.share;
    let (used, cut) = (whole && end.is_none(), !whole && end.is_some());
    let prints = turns.iter().filter(|turned| !turned.output.is_empty()).count();
    let zero = first.before.area[record + SPARE] == 0;
    let mut names = holding(vec![
        ("round, zero as one", zero && used),
        ("round, a share cut short by STOP", cut && end == Some(End::Stop)),
        ("round, a share cut short by the code's end", cut && end == Some(End::CodeEnded)),
        ("round, a share cut short by another fault", cut && end == Some(End::Fault)),
        ("round, a share cut short at its first turn", cut && turns.len() == 1),
        ("round, ended by the last turn of a share", whole && end.is_some() && last.share > 1),
        ("round, several prints in one share", prints > 1),
        (
            "round, a print and then a fault in one share",
            prints > 0 && matches!(end, Some(End::CodeEnded | End::Fault)),
        ),
        ("round, DELAYUNTIL stays through a share", used && stays(turns, DELAYUNTIL)),
    ]);
    if used && !zero {
        names.push(format!("round, a share of {} used whole", last.share));
    }
    names
}

/// Whether a slot stays at this instruction through all its turns, more than one.
fn stays(turns: &[Turned], opcode: u8) -> bool {
    turns.len() > 1
        && turns.iter().all(|turned| stayed(turned) && opcode_at(&turned.before, turned.record) == Some(opcode))
}

fn stayed(turned: &Turned) -> bool {
    let pc = |state: &State| word(&state.area, turned.record + PC);
    turned.after.area[turned.record + STATE] != ENDED && pc(&turned.before) == pc(&turned.after)
}

/// The situations of a done round on this state, made of these turns.
pub fn of_round(before: &State, turns: &[Turned]) -> Vec<String> {
    let printed: usize = turns.iter().map(|turned| turned.output.len()).sum();
    let mut paused = records::live(&before.area).filter(|record| before.area[record + STATE] == PAUSED);
    let mut names = holding(vec![
        ("round, nothing runs", turns.is_empty()),
        ("round, 80 turns", turns.len() == 80),
        ("round, more than 320 bytes printed", printed > 320),
        ("round, 1,000 bytes printed or more", printed >= 1000),
        ("round, a paused process with a share has no turn", paused.any(|record| before.area[record + SPARE] > 1)),
    ]);
    for slot in turns.chunk_by(|one, next| one.record == next.record) {
        names.extend(of_reaching(slot));
    }
    for (index, turned) in turns.iter().enumerate() {
        names.extend(of_child(turned, &turns[..index], &turns[index + 1..]));
    }
    names
}

/// The situations of one slot's turns that no single process meets.
fn of_reaching(turns: &[Turned]) -> Vec<String> {
    let at = |turned: &Turned, opcode| opcode_at(&turned.before, turned.record) == Some(opcode);
    let forks = turns.iter().filter(|turned| child(&turned.before, &turned.after).is_some()).count();
    let ended = turns.last().is_some_and(|last| end(last.record, &last.before, &last.after).is_some());
    let waits = turns.iter().any(|turned| at(turned, WAITUNTILDONE) && !stayed(turned) && turned.nth < turned.share);
    let writes = turns.iter().any(|turned| turned.nth < turned.share && writes_own_program(turned));
    holding(vec![
        ("round, WAITUNTILDONE stays through a share", stays(turns, WAITUNTILDONE)),
        ("round, WAITUNTILDONE goes on within a share", waits),
        ("round, WRITE into its own program ahead of its share's end", writes),
        ("round, two children of one share", forks > 1),
        ("round, a parent ends within the share that forked", forks > 0 && ended),
    ])
}

fn writes_own_program(turned: &Turned) -> bool {
    let field = |at: usize| word(&turned.before.area, turned.record + at);
    opcode_at(&turned.before, turned.record) == Some(WRITE)
        && turned.after.area[turned.record + STATE] != ENDED
        && field(FILE_START) == field(CODE_START)
}

/// The situations of a FORK that started a process, with the turns of the round before and after it.
fn of_child(turned: &Turned, earlier: &[Turned], later: &[Turned]) -> Vec<String> {
    let Some(record) = child(&turned.before, &turned.after) else { return Vec::new() };
    let own: Vec<&Turned> = later.iter().filter(|turned| turned.record == record).collect();
    let (higher, ahead) = (record > turned.record, turned.nth < turned.share);
    let ended = own.first().is_some_and(|first| end(record, &first.before, &first.after).is_some());
    let used = earlier.iter().rfind(|turned| turned.record == record);
    let spare = |state: &State| state.area[record + SPARE];
    holding(vec![
        ("round, FORK ahead of its share's end", ahead),
        ("round, FORK at its share's end", turned.share > 1 && !ahead),
        ("round, a child without its parent's share", turned.share > 1 && spare(&turned.after) == 0),
        ("round, FORK over an ended record with a spare byte", spare(&turned.before) != 0),
        ("round, a child in a higher slot has one turn", higher && own.len() == 1 && !ended),
        ("round, a child in a higher slot ends in its turn", higher && own.len() == 1 && ended),
        ("round, a child in a lower slot waits", !higher && own.is_empty()),
        ("round, a child in a slot that ended within its share", used.is_some_and(|used| used.nth < used.share)),
        ("round, a child in a slot that this round had passed by", !higher && used.is_none()),
    ])
}

/// By ID, what happened to a share before a round uses it.
#[derive(Default)]
pub struct Histories(BTreeMap<u32, &'static str>);

impl Histories {
    /// Follows a done call.
    pub fn follow(&mut self, call: &Call, before: &State) {
        let found = |id| records::of_id(&before.area, id).map(|record| &before.area[record..record + RECORD_LEN]);
        match *call {
            Call::Format | Call::Boot => self.0.clear(),
            Call::Share { id, .. } if found(id).is_some_and(|record| record[STATE] == PAUSED) => {
                self.0.insert(id, "round, a share set while paused and used");
            }
            Call::Share { id, .. } => {
                self.0.remove(&id);
            }
            Call::Suspend { id } if found(id).is_some_and(|record| record[SPARE] > 1) => {
                self.0.insert(id, "round, a share kept over suspend and used");
            }
            _ => {}
        }
    }

    /// The situations of one slot's turns in a round.
    pub fn of_slot(&self, turns: &[Turned]) -> Option<&'static str> {
        let last = turns.last().filter(|last| last.share > 1 && last.nth == last.share)?;
        self.0.get(&(records::id(&last.before.area, last.record) as u32)).copied()
    }
}
