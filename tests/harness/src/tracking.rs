//! Holds the processes of a sequence against the single process. Document 01, "The single process".
//!
//! What demand 3 supposes of a process is tested turn by turn; a process that breaks a supposition is let go.

use crate::comparison::{Answered, Compared, Comparison};
use crate::coverage::{opcode_at, stack_bytes};
use crate::kernels::State;
use crate::long_discs;
use crate::rounds::{self, turns_of_round, Histories, Turned};
use crate::scaling;
use crate::shares;
use kernel::call::Call;
use second::fault::Fault;
use second::instruction::*;
use second::layout::*;
use second::single::{Single, Value, View};
use second::{records, variables, Refusal};
use std::collections::BTreeMap;

/// A process held against its single process.
struct Held {
    id: u32,
    record: usize,
    single: Single,
    ended: bool,
}

/// What one fed turn or command did to a held process.
#[derive(Clone, Debug, PartialEq, Eq)]
pub struct Step {
    pub refused: i32,
    pub output: Vec<u8>,
    pub view: Option<View>,
}

/// A turn of a record as the buffers show it.
struct Seen<'a> {
    record: usize,
    clock: u32,
    before: &'a State,
    after: &'a State,
    number: i32,
    output: &'a [u8],
}

/// All held processes of a sequence.
#[derive(Default)]
pub struct Tracking {
    held: Vec<Held>,
    histories: Histories,
    /// The steps of the process that a caller asked for.
    watched: Option<u32>,
    pub steps: Vec<Step>,
    pub lost_watched: bool,
}

impl Tracking {
    /// Keeps the steps of one process.
    pub fn watch(&mut self, id: u32) {
        self.watched = Some(id);
    }

    /// Makes the call, compares the kernels, and feeds the single processes.
    pub fn call(&mut self, comparison: &mut Comparison, state: &mut State, call: &Call) -> Compared<Answered> {
        let before = state.clone();
        let answered = comparison.call(state, call)?;
        if answered.is_done() && !shares::are_kept(call, &before, state) {
            return Err(comparison.broken(format!("# {}: a share is not kept until the end", comparison.place())));
        }
        self.follow(comparison, &before, call, state, &answered)?;
        Ok(answered)
    }

    /// Feeds what the call feeds, or forgets all where it is barred.
    fn follow(
        &mut self,
        comparison: &mut Comparison,
        before: &State,
        call: &Call,
        after: &State,
        answered: &Answered,
    ) -> Compared<()> {
        if answered.is_done() {
            self.histories.follow(call, before);
        }
        match *call {
            Call::Format | Call::Boot if answered.is_done() => {
                self.held.clear();
                Ok(())
            }
            Call::Run { .. } if answered.is_done() => self.hold_new(comparison, before, after),
            Call::Suspend { id } => self.command(comparison, id, after, answered, Single::suspend),
            Call::Resume { id } => self.command(comparison, id, after, answered, Single::resume),
            Call::Kill { id } => self.command(comparison, id, after, answered, Single::kill),
            Call::Turn { slot, clock, .. } if slot < MAX_PROCESSES as u32 => {
                let (number, output) = (answered.number, answered.written());
                let record = records::record(slot as usize);
                self.turn_alone(comparison, &Seen { record, clock, before, after, number, output })
            }
            Call::Share { id, share } => {
                let expected = shares::state_after_share(before, id, share, answered.is_done());
                self.share(comparison, &expected, after)
            }
            Call::Round { clock, .. } if answered.is_done() => {
                self.round(comparison, before, clock, after, answered.written())
            }
            _ => Ok(()),
        }
    }

    /// A turn that is none of a round.
    fn turn_alone(&mut self, comparison: &mut Comparison, seen: &Seen) -> Compared<()> {
        let held = self.turn(comparison, seen)?;
        if held && seen.number >= 0 && seen.before.area[seen.record + SPARE] == MAX_SHARE {
            let name = shares::of_single(shares::OF_SINGLE_TURN);
            comparison.coverage.reach(&shares::on_disc(&name, seen.before.disc.len()));
        }
        Ok(())
    }

    /// "A done round stands for its turns in order, each printing its part of the output."
    fn round(
        &mut self,
        comparison: &mut Comparison,
        before: &State,
        clock: u32,
        after: &State,
        output: &[u8],
    ) -> Compared<()> {
        let turns = turns_of_round(before, clock);
        for slot in turns.chunk_by(|one, next| one.record == next.record) {
            let mut held = true;
            for Turned { record, before, after, output, .. } in slot {
                let number = output.len() as i32;
                held &= self.turn(comparison, &Seen { record: *record, clock, before, after, number, output })?;
            }
            self.count_slot(comparison, slot, held);
        }
        let joined: Vec<u8> = turns.iter().flat_map(|turned| turned.output.clone()).collect();
        if joined != output || turns.last().map_or(before, |turned| &turned.after) != after {
            return Err(comparison.broken(format!("# {}: the round is not its turns", comparison.place())));
        }
        let reached = rounds::of_round(before, &turns);
        reached.iter().for_each(|name| comparison.coverage.reach(&shares::on_disc(name, before.disc.len())));
        Ok(())
    }

    /// Counts what a slot's turns in a round met; `held` says whether its single process made all of them too.
    fn count_slot(&self, comparison: &mut Comparison, turns: &[Turned], held: bool) {
        let Some(disc_len) = turns.first().map(|first| first.before.disc.len()) else { return };
        let reached = rounds::of_slot(turns);
        let single = reached.iter().filter(|_| held).map(|name| shares::of_single(name));
        let names: Vec<String> = reached.iter().cloned().chain(single).collect();
        let history = self.histories.of_slot(turns).map(String::from);
        names.into_iter().chain(history).for_each(|name| comparison.coverage.reach(&shares::on_disc(&name, disc_len)));
    }

    /// Document 02, Q-9: a share is no command of the single process. It writes its byte, and every held process is as
    /// before.
    fn share(&mut self, comparison: &mut Comparison, expected: &State, after: &State) -> Compared<()> {
        if after != expected {
            return Err(comparison.broken(format!("# {}: share writes other than its byte", comparison.place())));
        }
        let held: Vec<usize> = (0..self.held.len()).filter(|&index| !self.held[index].ended).collect();
        held.into_iter().try_for_each(|index| self.check(comparison, index, after))
    }

    /// The program bytes "are the named file's at the moment run or another's FORK gives out its ID".
    fn hold_new(&mut self, comparison: &mut Comparison, before: &State, after: &State) -> Compared<()> {
        let id = word(&before.area, NEXT_ID) as u32;
        let record = records::of_id(&after.area, id).expect("the ID given out is live");
        let start = word(&after.area, record + CODE_START);
        let code = &after.disc[start..start + word(&after.area, record + CODE_LENGTH)];
        let single = Single::start(code);
        comparison.coverage.reach("single process, started");
        self.held.push(Held { id, record, single, ended: false });
        self.check(comparison, self.held.len() - 1, after)
    }

    /// A turn of a record, refused or done; "calls lent too little output aside". Returns whether a single process made
    /// it too.
    fn turn(&mut self, comparison: &mut Comparison, seen: &Seen) -> Compared<bool> {
        if seen.number == -(Refusal::ShortOutput as i32) {
            return Ok(false);
        }
        if seen.number >= 0 {
            self.let_go_if_supposition_broken(comparison, seen);
            self.let_go_if_written(comparison, seen);
        }
        let held = self.held.iter().position(|held| held.record == seen.record && !held.ended);
        if let Some(index) = held {
            let expected = self.held[index].single.turn(seen.clock);
            let expected_number = second::number(expected.clone().map(|bytes| bytes.len() as u32));
            if expected_number != seen.number || expected.is_ok_and(|bytes| bytes != seen.output) {
                return Err(self.not_alike(comparison, index, seen.number, expected_number));
            }
            self.settle(comparison, index, seen.number, seen.output, seen.after)?;
            count_scaled(comparison, seen);
        }
        let forked = word(&seen.after.area, NEXT_ID) > word(&seen.before.area, NEXT_ID);
        if forked {
            self.hold_new(comparison, seen.before, seen.after)?;
        }
        Ok(held.is_some())
    }

    /// "executes no file, FORK or WAITUNTILDONE instruction"; "no SET of its own lacks space".
    fn let_go_if_supposition_broken(&mut self, comparison: &mut Comparison, seen: &Seen) {
        let record = seen.record;
        let ended_by = |fault| seen.after.area[record + STATE] == ENDED && seen.after.area[record + FAULT] == fault;
        let reason = match opcode_at(seen.before, record) {
            Some(opcode) if is_file_instruction(opcode) => "let go, file instruction",
            Some(FORK) => "let go, FORK",
            Some(WAITUNTILDONE) => "let go, WAITUNTILDONE",
            Some(SET) if ended_by(Fault::NoVariableSpace as u8) => "let go, SET lacks space",
            _ => return,
        };
        self.let_go(comparison, reason, |held| held.record == record && !held.ended);
    }

    /// "A write lands when another process with that program file open does a WRITE without fault".
    fn let_go_if_written(&mut self, comparison: &mut Comparison, seen: &Seen) {
        let area = &seen.before.area;
        let written =
            opcode_at(seen.before, seen.record) == Some(WRITE) && seen.after.area[seen.record + STATE] != ENDED;
        if written {
            let file = word(area, seen.record + FILE_START);
            self.let_go(comparison, "let go, a write lands", |held| {
                !held.ended && word(area, held.record + CODE_START) == file
            });
        }
    }

    /// Holds a process no longer, and counts why.
    fn let_go(&mut self, comparison: &mut Comparison, reason: &str, which: impl Fn(&Held) -> bool) {
        let watched = self.watched;
        let mut lost_watched = false;
        self.held.retain(|held| {
            let gone = which(held);
            if gone {
                comparison.coverage.reach(&format!("single process, {reason}"));
                lost_watched |= watched == Some(held.id);
            }
            !gone
        });
        self.lost_watched |= lost_watched;
    }

    /// A command to a held process.
    fn command(
        &mut self,
        comparison: &mut Comparison,
        id: u32,
        after: &State,
        answered: &Answered,
        command: fn(&mut Single) -> Result<(), Refusal>,
    ) -> Compared<()> {
        let Some(index) = self.held.iter().position(|held| held.id == id) else {
            return Ok(());
        };
        let expected = second::number(command(&mut self.held[index].single).map(|()| 0));
        if expected != answered.number {
            return Err(self.not_alike(comparison, index, answered.number, expected));
        }
        self.settle(comparison, index, answered.number, &[], after)
    }

    /// "After each fed turn or command that is not refused, these are equal".
    fn settle(
        &mut self,
        comparison: &mut Comparison,
        index: usize,
        number: i32,
        output: &[u8],
        after: &State,
    ) -> Compared<()> {
        let refused = number.min(0);
        if refused == 0 {
            self.check(comparison, index, after)?;
            comparison.coverage.reach("single process, turns and commands held");
            let view = self.held[index].single.view();
            long_discs::of_held(&view).into_iter().for_each(|name| comparison.coverage.reach(name));
        } else {
            comparison.coverage.reach(&format!("single process, refused {refused}"));
        }
        if self.watched == Some(self.held[index].id) {
            let view = (refused == 0).then(|| self.held[index].single.view());
            self.steps.push(Step { refused, output: output.to_vec(), view });
        }
        Ok(())
    }

    /// Compares what the buffers show of a held process with its single process.
    fn check(&mut self, comparison: &mut Comparison, index: usize, after: &State) -> Compared<()> {
        let held = &mut self.held[index];
        let expected = held.single.view();
        let found = view(&after.area, held.record, held.id as usize);
        held.ended = expected.state == ENDED;
        if expected == found {
            return Ok(());
        }
        let text = format!(
            "# {}: process {} is not its single process\n# run:    {found:?}\n# single: {expected:?}",
            comparison.place(),
            held.id
        );
        Err(comparison.broken(text))
    }

    /// A refusal or an output that the single process does not give.
    fn not_alike(
        &self,
        comparison: &Comparison,
        index: usize,
        number: i32,
        expected: i32,
    ) -> Box<crate::comparison::Difference> {
        let id = self.held[index].id;
        let text = format!(
            "# {}: process {id}: the run answers {number} or prints otherwise, the single process {expected}",
            comparison.place()
        );
        comparison.broken(text)
    }
}

/// Counts what a turn found at CONSTRAIN, MAP or POW that the single process made too.
fn count_scaled(comparison: &mut Comparison, seen: &Seen) {
    if seen.number >= 0 {
        let stack = stack_bytes(&seen.before.area, seen.record);
        let found = scaling::situations(opcode_at(seen.before, seen.record), stack);
        found.iter().for_each(|name| comparison.coverage.reach(&scaling::of_single(name)));
    }
}

/// What the buffers show of a process: its record, and the variables counted under its ID.
pub fn view(area: &[u8], record: usize, id: usize) -> View {
    let mut stack = [0; STACK_LEN];
    stack.copy_from_slice(&area[record + STACK..record + STACK + STACK_LEN]);
    let own = (0..variables::count(area)).filter(|&index| variables::id(area, index) == id);
    let value = |index: usize| Value {
        kind: variables::kind(area, index),
        bytes: area[variables::range(area, index)].to_vec(),
    };
    let variables: BTreeMap<u8, Value> = own.map(|index| (variables::key(area, index).0, value(index))).collect();
    View {
        sp: usize::from(area[record + SP]),
        stack,
        variables,
        pc: word(area, record + PC),
        loop_pc: word(area, record + LOOP_PC),
        state: area[record + STATE],
        fault: area[record + FAULT],
    }
}
