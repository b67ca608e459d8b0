//! Demand 3 as a test: one process, the same turns and commands, two runs with different neighbours.

use crate::arguments;
use crate::comparison::{Compared, Comparison};
use crate::kernels::State;
use crate::programs::{hoarder, long_program, program, writer, Reach};
use crate::random::Random;
use crate::sequences::step;
use crate::tracking::{Step, Tracking};
use kernel::call::Call;
use second::layout::*;
use second::{directory, records};

/// What a process is fed: so many turns under one clock, or a command.
#[derive(Clone, Copy)]
enum Fed {
    Turns(u32, usize),
    Suspend,
    Resume,
    Kill,
}

/// The name of the process's program; neighbours know it too, so that some of them write into it.
const PROGRAM: &[u8] = b"worker0";

/// Two runs of one program among different neighbours, each on a disc of either length; all that the process shows must
/// be equal in both.
pub fn compare_pair(comparison: &mut Comparison, unit: u64) -> Compared<()> {
    let mut random = comparison.begin("pairs", unit);
    let (limit, length) = (random.between(10, 90), random.between(10, 50));
    let discs = [0; 2].map(|_| *random.pick(&[SHORT_DISC, LONG_DISC]));
    let code = match random.below(4) {
        0 => long_program(discs[0].min(discs[1]) / 2, &mut random),
        _ => program(Reach::Alone, limit, &mut random),
    };
    let fed: Vec<Fed> = (0..length).map(|_| any_fed(&mut random)).collect();
    let one = run_among(comparison, discs[0], &code, &fed, &mut random)?;
    let other = run_among(comparison, discs[1], &code, &fed, &mut random)?;
    let (Some(one), Some(other)) = (one, other) else {
        comparison.coverage.reach("pair, a supposition was broken");
        return Ok(());
    };
    if one.steps != other.steps {
        let text = format!("# {}: two runs with different neighbours differ", comparison.place());
        return Err(comparison.broken(text));
    }
    comparison.coverage.reach("pair, equal in both runs");
    if discs[0] != discs[1] {
        comparison.coverage.reach("pair, equal on discs of both lengths");
    }
    if differ(one.own_share, other.own_share) {
        comparison.coverage.reach("pair, equal with other shares of its own");
    }
    if differ(one.neighbours_share, other.neighbours_share) {
        comparison.coverage.reach("pair, equal with other shares of its neighbours");
    }
    Ok(())
}

/// Whether rounds of both runs had a share, and not the same.
fn differ(one: u8, other: u8) -> bool {
    one.min(other) > 0 && one != other
}

fn any_fed(random: &mut Random) -> Fed {
    match random.below(24) {
        0 | 1 => Fed::Suspend,
        2..=4 => Fed::Resume,
        5 if random.chance(1, 6) => Fed::Kill,
        _ => {
            let count = if random.chance(1, 2) { 1 } else { random.between(2, 10) };
            Fed::Turns(arguments::time(random), count)
        }
    }
}

/// What a run shows: the steps that the process takes, and of the last round that gave it turns its share and the greatest
/// of its running neighbours'.
struct Shown {
    steps: Vec<Step>,
    own_share: u8,
    neighbours_share: u8,
}

/// A run of the process among random neighbours, or none if a supposition was broken.
fn run_among(
    comparison: &mut Comparison,
    disc_len: usize,
    code: &[u8],
    fed: &[Fed],
    random: &mut Random,
) -> Compared<Option<Shown>> {
    let (state, tracking) = (State::zero(disc_len), Tracking::default());
    let mut run = Run { state, tracking, id: 0, own_share: 0, neighbours_share: 0, random };
    run.tracking.call(comparison, &mut run.state, &Call::Format)?;
    let store = Call::Store { name: PROGRAM.to_vec(), data: code.to_vec() };
    run.tracking.call(comparison, &mut run.state, &store)?;
    run.trouble(comparison)?;
    run.neighbours(comparison, 12)?;
    let started = run.tracking.call(comparison, &mut run.state, &Call::Run { name: PROGRAM.to_vec() })?;
    if !started.is_done() || !run.has_program(code) {
        return Ok(None);
    }
    run.id = started.number as u32;
    run.tracking.watch(run.id);
    for &fed in fed {
        run.neighbours(comparison, 3)?;
        run.feed(comparison, fed)?;
    }
    let Run { tracking, own_share, neighbours_share, .. } = run;
    Ok((!tracking.lost_watched).then_some(Shown { steps: tracking.steps, own_share, neighbours_share }))
}

/// A run under way.
struct Run<'a> {
    state: State,
    tracking: Tracking,
    id: u32,
    own_share: u8,
    neighbours_share: u8,
    random: &'a mut Random,
}

impl Run<'_> {
    /// Now and then a neighbour that breaks a supposition: it writes into the program or leaves no space for a SET.
    fn trouble(&mut self, comparison: &mut Comparison) -> Compared<()> {
        let code = match self.random.below(10) {
            0 => writer(PROGRAM),
            1 => hoarder(),
            _ => return Ok(()),
        };
        let name = b"trouble".to_vec();
        self.tracking.call(comparison, &mut self.state, &Call::Store { name: name.clone(), data: code })?;
        self.tracking.call(comparison, &mut self.state, &Call::Run { name }).map(|_| ())
    }

    /// Whether the program file still holds the code; a neighbour may have written into it before the start.
    fn has_program(&self, code: &[u8]) -> bool {
        let disc = &self.state.disc;
        directory::find(disc, PROGRAM).is_some_and(|index| disc[directory::range(disc, index)] == *code)
    }

    /// Up to `most` calls that feed the process nothing: other slots and IDs, "calls lent too little output".
    fn neighbours(&mut self, comparison: &mut Comparison, most: usize) -> Compared<()> {
        for _ in 0..self.random.between(0, most) {
            let call = step(&self.state, self.random);
            if !self.feeds(&call) {
                self.tracking.call(comparison, &mut self.state, &call)?;
            }
        }
        Ok(())
    }

    /// Whether a call would feed the process, or undo what the pair has in common.
    fn feeds(&self, call: &Call) -> bool {
        match *call {
            Call::Format | Call::Boot => true,
            Call::Erase { ref name } => name == PROGRAM,
            Call::Round { room, .. } => room >= ROUND_OUTPUT && self.own_slot().is_some(),
            Call::Turn { slot, room, .. } => room >= TURN_OUTPUT && self.own_slot() == Some(slot),
            Call::Suspend { id } | Call::Resume { id } | Call::Kill { id } => id == self.id,
            _ => false,
        }
    }

    /// The slot of the process while it lives.
    fn own_slot(&self) -> Option<u32> {
        let record = records::of_id(&self.state.area, self.id)?;
        Some(((record - RECORDS) / RECORD_LEN) as u32)
    }

    /// "the clock of each turn of its slot until it ends … and each suspend, resume and kill of its ID".
    fn feed(&mut self, comparison: &mut Comparison, fed: Fed) -> Compared<()> {
        let id = self.id;
        match fed {
            Fed::Turns(clock, count) => self.turns(comparison, clock, count),
            Fed::Suspend => self.call(comparison, &Call::Suspend { id }),
            Fed::Resume => self.call(comparison, &Call::Resume { id }),
            Fed::Kill => self.call(comparison, &Call::Kill { id }),
        }
    }

    fn call(&mut self, comparison: &mut Comparison, call: &Call) -> Compared<()> {
        self.tracking.call(comparison, &mut self.state, call).map(|_| ())
    }

    /// So many turns under one clock, one by one or by rounds that give as many as the process's share. Document 02, Q-9:
    /// "A process still behaves by its own turns, counted singly".
    fn turns(&mut self, comparison: &mut Comparison, clock: u32, count: usize) -> Compared<()> {
        let mut left = count;
        while let (1.., Some(slot)) = (left, self.own_slot()) {
            let record = records::record(slot as usize);
            if self.state.area[record + STATE] == RUNNING && self.random.chance(1, 2) {
                left -= self.round(comparison, record, clock, left)?;
            } else {
                let room = TURN_OUTPUT + arguments::room(0, self.random);
                self.call(comparison, &Call::Turn { slot, clock, room })?;
                left -= 1;
            }
        }
        Ok(())
    }

    /// A round that gives the process its share of turns, `most` at most; a greater share is set anew, others at times.
    fn round(&mut self, comparison: &mut Comparison, record: usize, clock: u32, most: usize) -> Compared<usize> {
        let mut share = usize::from(self.state.area[record + SPARE]).max(1);
        if share > most || self.random.chance(1, 2) {
            share = self.random.between(1, most.min(usize::from(MAX_SHARE)));
            self.call(comparison, &Call::Share { id: self.id, share: share as u32 })?;
        }
        self.share_neighbours(comparison)?;
        let area = &self.state.area;
        let neighbours = records::all().filter(|&other| other != record && area[other + STATE] == RUNNING);
        self.neighbours_share = neighbours.map(|other| area[other + SPARE]).max().unwrap_or(0);
        self.own_share = share as u8;
        self.call(comparison, &Call::Round { clock, room: ROUND_OUTPUT })?;
        Ok(share)
    }

    /// Now and then a share for every neighbour.
    fn share_neighbours(&mut self, comparison: &mut Comparison) -> Compared<()> {
        if self.random.chance(3, 4) {
            return Ok(());
        }
        let area = &self.state.area;
        let ids = records::live(area).map(|record| records::id(area, record) as u32);
        let neighbours: Vec<u32> = ids.filter(|&id| id != self.id).collect();
        for id in neighbours {
            let share = self.random.between(1, usize::from(MAX_SHARE)) as u32;
            self.call(comparison, &Call::Share { id, share })?;
        }
        Ok(())
    }
}
