//! What the calls reached. A hole in these tables is a failure of the harness.

use crate::comparison::Outcome;
use crate::kernels::State;
use crate::long_discs;
use crate::scaling;
use crate::shares;
use crate::tables::Tables;
use kernel::call::Call;
use second::instruction::{DELAYUNTIL, FORK, OPEN, SET, WAITUNTILDONE};
use second::layout::*;
use second::number::{FLOAT_TYPE, NUMBERS, WHOLES};
use second::stack::Stack;
use second::{directory, records, runs, variables};
use std::collections::BTreeMap;
use std::ops::Range;

/// How often each thing was reached.
#[derive(Default)]
pub struct Coverage {
    /// On discs of at most 1,024 bytes, and on longer ones: what is possible on one is so on the other.
    tables: [Tables; 2],
    /// Named situations that a part must reach: damages, edges, held processes.
    reached: BTreeMap<String, u64>,
}

impl Coverage {
    /// Counts one call that both kernels answered alike.
    pub fn record(&mut self, call: &Call, before: &State, after: &Outcome) {
        let answer = if after.number < 0 { after.number.unsigned_abs() as u8 } else { 0 };
        self.tables_of(&before.disc).count_answer(call.operation(), answer);
        long_discs::situations(call, answer, before, after).into_iter().for_each(|name| self.reach(name));
        shares::situations(call, answer, before, after).iter().for_each(|name| self.reach(name));
        match (call, answer) {
            (Call::Turn { slot, clock, .. }, 0) => {
                self.record_turn(records::record(*slot as usize), *clock, before, &after.state)
            }
            (Call::Store { .. }, 0) => self.record_file("store", &after.state.disc),
            _ => {}
        }
    }

    fn tables_of(&mut self, disc: &[u8]) -> &mut Tables {
        &mut self.tables[usize::from(disc.len() > SHORT_DISC)]
    }

    fn record_turn(&mut self, record: usize, clock: u32, before: &State, after: &State) {
        let opcode = opcode_at(before, record);
        let ended = after.area[record + STATE] == ENDED;
        let fault = if ended { after.area[record + FAULT] } else { 0 };
        self.tables_of(&before.disc).count_turn(opcode, fault);
        let situation = match opcode {
            Some(DELAYUNTIL) => delay(&before.area, record, clock),
            Some(opcode) => situation(opcode, fault, record, before, after),
            None => None,
        };
        if let Some(situation) = situation {
            self.reach(situation);
        }
        let scaled = scaling::situations(opcode, stack_bytes(&before.area, record));
        scaled.iter().for_each(|name| self.reach(name));
        match (opcode, fault) {
            (Some(SET), 0) => self.record_variable(&after.area),
            (Some(OPEN), 0) if directory::count(&before.disc) < directory::count(&after.disc) => {
                self.record_file("OPEN", &after.disc)
            }
            _ => {}
        }
        let stays = !ended && word(&after.area, record + PC) == word(&before.area, record + PC);
        if let (true, Some(opcode @ (DELAYUNTIL | WAITUNTILDONE))) = (stays, opcode) {
            self.tables_of(&before.disc).count_stay(opcode);
        }
    }

    /// Counts where the directory's last file went.
    fn record_file(&mut self, by: &str, disc: &[u8]) {
        let ranges: Vec<_> = directory::ranges(disc).collect();
        self.record_place(by, data_bytes(disc), &ranges);
    }

    /// Counts where the table's last variable went.
    fn record_variable(&mut self, area: &[u8]) {
        // a broken promise may count more than there can be
        let count = variables::count(area).min(MAX_VARIABLES);
        let ranges: Vec<_> = (0..count).map(|index| variables::range(area, index)).collect();
        self.record_place("SET", 0..MEMORY_LEN, &ranges);
    }

    /// Counts where the last of these ranges went among the others, by document 01's "lowest start that fits" and by
    /// document 02, Q-10: "the shortest free run that fits, the lowest of equals".
    fn record_place(&mut self, by: &str, bounds: Range<usize>, ranges: &[Range<usize>]) {
        let Some((new, taken)) = ranges.split_last() else { return };
        let fitting: Vec<_> =
            runs::free_runs(bounds, taken.iter().cloned()).filter(|run| run.len() >= new.len()).collect();
        let Some(shortest) = fitting.iter().map(Range::len).min() else { return };
        if fitting[0].len() > shortest {
            self.reach(&format!("{by}, a lower run fits that is longer"));
        }
        if fitting.iter().filter(|run| run.len() == shortest).count() > 1 {
            self.reach(&format!("{by}, two of the shortest runs"));
        }
        if shortest > new.len() {
            self.reach(&format!("{by}, the shortest run is longer than needed"));
        }
    }

    /// Counts a named situation.
    pub fn reach(&mut self, name: &str) {
        *self.reached.entry(name.to_string()).or_default() += 1;
    }

    /// How often a named situation was reached.
    pub fn count(&self, name: &str) -> u64 {
        self.reached.get(name).copied().unwrap_or(0)
    }

    /// The tables of both lengths, and the named situations.
    pub fn text(&self) -> String {
        let [short, long] = &self.tables;
        let mut text = format!("discs of 1,024 bytes or less\n{}\nlonger discs\n{}\n", short.text(), long.text());
        text.extend(self.reached.iter().map(|(name, count)| format!("{name}: {count}\n")));
        text
    }

    /// What should have been reached on a disc of one length or the other and was not, or was and should not.
    pub fn holes(&self) -> Vec<String> {
        let lengths = ["up to 1,024", "above 1,024"].iter().zip(&self.tables);
        lengths
            .flat_map(|(length, tables)| tables.holes().into_iter().map(move |hole| format!("{length}: {hole}")))
            .collect()
    }
}

/// Which of several reasons one answer of OPEN, FORK or SET had.
fn situation(opcode: u8, fault: u8, record: usize, before: &State, after: &State) -> Option<&'static str> {
    let State { disc, area } = before;
    match (opcode, fault) {
        (OPEN, 0) if directory::count(disc) == directory::count(&after.disc) => Some("OPEN, a file that exists"),
        (OPEN, 0) => Some(new_file(disc, &after.disc)),
        (OPEN, 13) => open_refusal(disc, area, record),
        (FORK, 0) if word(area, NEXT_ID) != word(&after.area, NEXT_ID) => Some("FORK, a process started"),
        (FORK, 0) if records::all().all(|record| records::is_live(area, record)) => {
            Some("FORK, INT 0 by no ended slot")
        }
        (FORK, 0) => Some(fork_refusal(disc, area, record)?),
        (SET, 10) if variables::count(area) == MAX_VARIABLES => Some("SET, no variable entry"),
        (SET, 10) => Some("SET, no run in memory"),
        _ => None,
    }
}

/// What DELAYUNTIL found. Document 02, Q-4: "x minus the clock, modulo 65,536, is 1 to 32,767"; "FLOAT becomes fault 6",
/// by its type alone.
fn delay(area: &[u8], record: usize, clock: u32) -> Option<&'static str> {
    let mut stack = stack_of(area, record);
    let sp = stack.sp();
    if let Ok(x) = stack.peek_number(WHOLES) {
        return match (i64::from(x.whole()?) - i64::from(clock)).rem_euclid(65_536) {
            0 => Some("DELAYUNTIL, x at the clock"),
            1 => Some("DELAYUNTIL, x 1 ahead"),
            32_767 => Some("DELAYUNTIL, x 32,767 ahead"),
            32_768 => Some("DELAYUNTIL, x 32,768 ahead"),
            _ => None,
        };
    }
    let float = sp > 0 && area[record + STACK + sp - 1] == FLOAT_TYPE;
    match float {
        true if sp > usize::from(FLOAT_TYPE) => Some("DELAYUNTIL, a FLOAT"),
        true => Some("DELAYUNTIL, the type FLOAT over too few bytes"),
        false => None,
    }
}

fn stack_of(area: &[u8], record: usize) -> Stack {
    Stack::new(&area[record + STACK..record + STACK + STACK_LEN], area[record + SP])
}

/// The bytes below SP.
pub fn stack_bytes(area: &[u8], record: usize) -> &[u8] {
    &area[record + STACK..][..usize::from(area[record + SP])]
}

/// What lay where a new file went. Document 02, Q-8: "OPEN now fills a file it creates with zeros."
fn new_file(disc: &[u8], after: &[u8]) -> &'static str {
    let found = &disc[directory::range(after, directory::count(disc))];
    match found.last() {
        Some(byte) if *byte != 0 => "OPEN, a new file over a last byte that is not 0",
        _ if found.iter().any(|byte| *byte != 0) => "OPEN, a new file over bytes that are not 0",
        _ => "OPEN, a new file, zeros as found",
    }
}

fn open_refusal(disc: &[u8], area: &[u8], record: usize) -> Option<&'static str> {
    let mut stack = stack_of(area, record);
    let size = stack.pop_number(NUMBERS).ok()?.float().trunc();
    let name = stack.pop_text().ok()?;
    Some(match directory::good_name(&name) {
        false => "OPEN, refused by name",
        true if !(1.0..=data_bytes(disc).len() as f32).contains(&size) => "OPEN, refused by size",
        true if directory::count(disc) == MAX_FILES => "OPEN, refused by ten files",
        true => "OPEN, refused by no run",
    })
}

fn fork_refusal(disc: &[u8], area: &[u8], record: usize) -> Option<&'static str> {
    let name = stack_of(area, record).pop_text().ok()?;
    Some(match directory::find(disc, &name) {
        None => "FORK, INT 0 by no such file",
        Some(_) => "FORK, INT 0 by next ID",
    })
}

/// What a turn of a record finds at PC.
pub fn opcode_at(state: &State, record: usize) -> Option<u8> {
    let pc = word(&state.area, record + PC);
    let start = word(&state.area, record + CODE_START);
    (pc < word(&state.area, record + CODE_LENGTH)).then(|| state.disc[start + pc])
}
