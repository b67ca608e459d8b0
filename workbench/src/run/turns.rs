//! The turns of a round, one by one: who had them, and the buffers before and after each.

use crate::buffers::{Answer, Buffers};
use crate::layout::{word, Record, MAX_PROCESSES, NEXT_ID, RUNNING};
use kernel::call::Call;

/// One turn of one slot.
pub struct Turn {
    pub slot: usize,
    pub clock: u32,
    pub before: Buffers,
    pub after: Buffers,
    pub printed: Vec<u8>,
}

impl Turn {
    /// The record as the turn found it.
    pub fn found(&self) -> Record<'_> {
        Record::of(&self.before.area, self.slot)
    }

    /// The record as the turn left it.
    pub fn left(&self) -> Record<'_> {
        Record::of(&self.after.area, self.slot)
    }

    /// Whether the turn ended its process.
    pub fn ended(&self) -> bool {
        !self.left().is_live()
    }
}

/// Makes a round again, turn by turn, on copies of the buffers that it began with: "A done round stands for its turns
/// in order", a slot's share of them in a row while it stays running. The kernel is proved to do the same in a round.
pub fn of_round(before: &Buffers, clock: u32) -> Vec<Turn> {
    let mut buffers = before.clone();
    let mut turns = Vec::new();
    for slot in 0..MAX_PROCESSES {
        let mut due = Record::of(&buffers.area, slot).share();
        while due > 0 && Record::of(&buffers.area, slot).state() == RUNNING {
            let found = buffers.clone();
            let answer = buffers.call(&Call::turn(slot, clock));
            turns.push(Turn { slot, clock, before: found, after: buffers.clone(), printed: answer.output });
            due -= 1;
        }
    }
    turns
}

/// Whether a round, from the buffers before it to those after it, and its turns came to the same.
pub fn agree(turns: &[Turn], before: &Buffers, after: &Buffers, answer: &Answer) -> bool {
    let printed: Vec<u8> = turns.iter().flat_map(|turn| turn.printed.iter().copied()).collect();
    turns.last().map_or(before, |last| &last.after) == after && printed == answer.output
}

/// Whether a process may have ended between two work areas: one that lived lives no more, or an ID was given out, so
/// that the slot of one that ended may have been taken again.
pub fn may_have_ended(before: &[u8], after: &[u8]) -> bool {
    let started = word(before, NEXT_ID) != word(after, NEXT_ID);
    let ended = |slot| Record::of(before, slot).is_live() && !Record::of(after, slot).is_live();
    started || (0..MAX_PROCESSES).any(ended)
}
