//! What the calls on discs of one length reached: operation by refusal, instruction by fault.

use kernel::call::OPERATIONS;
use second::instruction::{DELAYUNTIL, WAITUNTILDONE};
use std::collections::BTreeMap;

/// The refusals that each operation can give, read off documents 01 and 02.
const REFUSALS: [&[u8]; 15] = [
    &[1],
    &[1],
    &[1, 2, 5, 6, 7, 8, 9],
    &[1, 2, 4, 10],
    &[1, 2, 3, 10, 11],
    &[1, 2, 4],
    &[1, 2],
    &[1, 2, 3, 10, 12, 13],
    &[1, 2, 3, 14, 15],
    &[1, 2, 3, 14, 15],
    &[1, 2, 3, 14],
    &[1, 2, 3, 14, 22],
    &[1, 2, 3, 4],
    &[1, 2, 3, 4, 16],
    &[1, 2, 3, 4],
];

/// Each built instruction and the faults that it can meet, thought out from documents 01 and 02:
/// arguments give 2; pops give 5 and 6, a raw byte only 5; longer results and pushes give 4; jumps give 3.
const INSTRUCTIONS: [(u8, &str, &[u8]); 63] = [
    (1, "CHAR", &[2, 4]),
    (2, "INT", &[2, 4]),
    (3, "STRING", &[2, 4]),
    (4, "FLOAT", &[2, 4]),
    (5, "SET", &[2, 5, 6, 10]),
    (6, "GET", &[2, 4, 9]),
    (7, "INCREMENT", &[5, 6]),
    (8, "DECREMENT", &[5, 6]),
    (9, "PLUS", &[5, 6]),
    (10, "MINUS", &[5, 6]),
    (11, "TIMES", &[5, 6]),
    (12, "DIVIDEDBY", &[5, 6, 7]),
    (13, "MODULUS", &[5, 6, 7]),
    (14, "UNARYMINUS", &[5, 6]),
    (15, "EQUALS", &[5, 6]),
    (16, "NOTEQUALS", &[5, 6]),
    (17, "LESSTHAN", &[5, 6]),
    (18, "LESSTHANOREQUALS", &[5, 6]),
    (19, "GREATERTHAN", &[5, 6]),
    (20, "GREATERTHANOREQUALS", &[5, 6]),
    (21, "LOGICALAND", &[5, 6]),
    (22, "LOGICALOR", &[5, 6]),
    (23, "LOGICALXOR", &[5, 6]),
    (24, "LOGICALNOT", &[5, 6]),
    (25, "BITWISEAND", &[5, 6]),
    (26, "BITWISEOR", &[5, 6]),
    (27, "BITWISEXOR", &[5, 6]),
    (28, "BITWISENOT", &[5, 6]),
    (29, "TOCHAR", &[5, 6, 8]),
    (30, "TOINT", &[4, 5, 6, 8]),
    (31, "TOFLOAT", &[4, 5, 6]),
    (32, "ROUND", &[4, 5, 6, 8]),
    (33, "FLOOR", &[4, 5, 6, 8]),
    (34, "CEIL", &[4, 5, 6, 8]),
    (35, "MIN", &[5, 6]),
    (36, "MAX", &[5, 6]),
    (37, "ABS", &[5, 6]),
    (38, "CONSTRAIN", &[5, 6]),
    (39, "MAP", &[5, 6, 7]),
    (40, "POW", &[5, 6, 8]),
    (41, "SQ", &[5, 6]),
    (42, "SQRT", &[5, 6, 8]),
    (44, "DELAYUNTIL", &[5, 6]),
    (45, "MILLIS", &[4]),
    (51, "PRINT", &[5, 6]),
    (52, "PRINTLN", &[5, 6]),
    (53, "OPEN", &[5, 6, 13]),
    (54, "CLOSE", &[]),
    (55, "WRITE", &[5, 6, 11, 12]),
    (56, "READINT", &[4, 11, 12]),
    (57, "READCHAR", &[4, 11, 12]),
    (58, "READFLOAT", &[4, 11, 12]),
    (59, "READSTRING", &[4, 11, 12]),
    (60, "IF", &[2, 3, 5, 6]),
    (61, "ELSE", &[2, 3, 5, 6]),
    (62, "ENDIF", &[5, 6]),
    (63, "WHILE", &[2, 3, 5, 6, 8]),
    (64, "ENDWHILE", &[3, 5]),
    (65, "LOOP", &[]),
    (66, "ENDLOOP", &[3]),
    (67, "STOP", &[]),
    (68, "FORK", &[5, 6]),
    (69, "WAITUNTILDONE", &[5, 6]),
];

/// The number of instruction bytes that are no instruction: 256 less the 63 built.
const BYTES_NOT_BUILT: usize = 193;

/// How often each place of the two tables was reached.
#[derive(Default)]
pub struct Tables {
    /// By operation and number: 0 for done, n for refusal n.
    answers: BTreeMap<(usize, u8), u64>,
    /// By what the turn found at PC, none at the code's end, and the fault: 0 for none.
    turns: BTreeMap<(Option<u8>, u8), u64>,
    /// DELAYUNTIL and WAITUNTILDONE that stayed.
    stays: BTreeMap<u8, u64>,
}

impl Tables {
    pub fn count_answer(&mut self, operation: usize, number: u8) {
        *self.answers.entry((operation, number)).or_default() += 1;
    }

    pub fn count_turn(&mut self, opcode: Option<u8>, fault: u8) {
        *self.turns.entry((opcode, fault)).or_default() += 1;
    }

    pub fn count_stay(&mut self, opcode: u8) {
        *self.stays.entry(opcode).or_default() += 1;
    }

    fn answer(&self, operation: usize, number: u8) -> u64 {
        self.answers.get(&(operation, number)).copied().unwrap_or(0)
    }

    fn turn(&self, opcode: Option<u8>, fault: u8) -> u64 {
        self.turns.get(&(opcode, fault)).copied().unwrap_or(0)
    }

    /// The two tables; a dot where the document leaves no way to reach a place.
    pub fn text(&self) -> String {
        let mut text = String::from("operation");
        text = format!("{text:<22}{:>8}", "done");
        text.extend(columns().map(|refusal| format!("{:>7}", -i32::from(refusal))));
        for (operation, name) in OPERATIONS.iter().enumerate() {
            text += &format!("\n{name:<22}{:>8}", self.answer(operation, 0));
            text.extend(
                columns().map(|refusal| cell(REFUSALS[operation].contains(&refusal), self.answer(operation, refusal))),
            );
        }
        text += &format!("\n\n{:<22}{:>8}{:>7}", "instruction", "done", "stays");
        text.extend((1..=13).map(|fault| format!("{fault:>7}")));
        for (opcode, name, faults) in INSTRUCTIONS {
            let stays = cell(can_stay(opcode), self.stays.get(&opcode).copied().unwrap_or(0));
            text += &format!("\n{:<22}{:>8}{stays}", format!("{opcode} {name}"), self.turn(Some(opcode), 0));
            text.extend((1..=13).map(|fault| cell(faults.contains(&fault), self.turn(Some(opcode), fault))));
        }
        text += &format!("\nbytes not built, fault 1: {} of {BYTES_NOT_BUILT}", self.bytes_not_built());
        text += &format!("\nPC at the code's end, fault 2: {}\n", self.turn(None, 2));
        text
    }

    fn bytes_not_built(&self) -> usize {
        self.turns.keys().filter(|(opcode, fault)| opcode.is_some() && *fault == 1).count()
    }

    /// Everything that should have been reached and was not, or was reached and should not.
    pub fn holes(&self) -> Vec<String> {
        let mut holes = Vec::new();
        for (operation, name) in OPERATIONS.iter().enumerate() {
            let refused = REFUSALS[operation].iter().filter(|&&refusal| self.answer(operation, refusal) == 0);
            holes.extend(refused.map(|refusal| format!("{name} never refused by {refusal}")));
            holes.extend((self.answer(operation, 0) == 0).then(|| format!("{name} never done")));
        }
        for (opcode, name, faults) in INSTRUCTIONS {
            let missing = faults.iter().filter(|&&fault| self.turn(Some(opcode), fault) == 0);
            holes.extend(missing.map(|fault| format!("{name} never met fault {fault}")));
            holes.extend((self.turn(Some(opcode), 0) == 0).then(|| format!("{name} never done")));
            let never_stayed = can_stay(opcode) && !self.stays.contains_key(&opcode);
            holes.extend(never_stayed.then(|| format!("{name} never stayed")));
        }
        holes.extend(self.unforeseen());
        holes.extend((self.bytes_not_built() != BYTES_NOT_BUILT).then(|| "a byte not built was never met".to_string()));
        holes.extend((self.turn(None, 2) == 0).then(|| "PC never at the code's end".to_string()));
        holes
    }

    /// Refusals and faults that the tables above say cannot be met.
    fn unforeseen(&self) -> Vec<String> {
        let refusals =
            self.answers.keys().filter(|(operation, number)| *number > 0 && !REFUSALS[*operation].contains(number));
        let faults = self.turns.keys().filter(|(opcode, fault)| !foreseen(*opcode, *fault));
        refusals
            .map(|(operation, number)| format!("{} refused by {number}", OPERATIONS[*operation]))
            .chain(faults.map(|(opcode, fault)| format!("instruction {opcode:?} met fault {fault}")))
            .collect()
    }
}

/// The refusals that there are.
fn columns() -> impl Iterator<Item = u8> {
    (1..=16).chain([22])
}

fn can_stay(opcode: u8) -> bool {
    matches!(opcode, DELAYUNTIL | WAITUNTILDONE)
}

fn foreseen(opcode: Option<u8>, fault: u8) -> bool {
    match (opcode, fault) {
        (None, fault) => fault == 2,
        (Some(opcode), fault) => match INSTRUCTIONS.iter().find(|instruction| instruction.0 == opcode) {
            Some((_, _, faults)) => fault == 0 || faults.contains(&fault),
            None => fault == 1,
        },
    }
}

fn cell(possible: bool, count: u64) -> String {
    match (possible, count) {
        (false, 0) => format!("{:>7}", "."),
        _ => format!("{count:>7}"),
    }
}
