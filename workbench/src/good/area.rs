//! The clauses of a good work area.

use super::process::{self, ProcessClause};
use super::variable::{self, VariableClause};
use super::Span;
use crate::layout::*;
use crate::literal;
use std::fmt;

/// A broken clause of a good work area.
#[derive(Clone, Copy, Debug)]
pub enum Clause<'a> {
    /// "at most 25 variables"
    VariableCount(u8),
    /// "next ID 1 to 32768"
    NextId(usize),
    /// "its seven zeros"
    Zeros { place: usize, byte: u8 },
    /// "known states"
    State(Record<'a>),
    /// One of a live record.
    Process(Record<'a>, ProcessClause<'a>),
    /// One of a counted variable.
    Variable(Variable, VariableClause),
}

/// The clauses of a good work area that this one breaks, over a good disc; none if it is good.
pub fn area<'a>(disc: &'a [u8], area: &'a [u8]) -> Vec<Clause<'a>> {
    clauses(area, Some(disc))
}

/// Those of them that need no disc to be seen.
pub fn area_alone(area: &[u8]) -> Vec<Clause<'_>> {
    clauses(area, None)
}

fn clauses<'a>(area: &'a [u8], disc: Option<&'a [u8]>) -> Vec<Clause<'a>> {
    let mut clauses = header(area);
    let live: Vec<Record> = records(area).filter(Record::is_live).collect();
    let files = disc.map(entries);
    for record in records(area) {
        if record.is_live() {
            let broken = process::clauses(record, word(area, NEXT_ID), &live, files.as_deref());
            clauses.extend(broken.into_iter().map(|clause| Clause::Process(record, clause)));
        } else if record.state() != ENDED {
            clauses.push(Clause::State(record));
        }
    }
    clauses.extend(of_variables(area, &live));
    clauses
}

fn header(area: &[u8]) -> Vec<Clause<'_>> {
    let mut clauses = Vec::new();
    let count = area[VARIABLE_COUNT];
    if usize::from(count) > MAX_VARIABLES {
        clauses.push(Clause::VariableCount(count));
    }
    let next = word(area, NEXT_ID);
    if !(1..=MAX_NEXT_ID).contains(&next) {
        clauses.push(Clause::NextId(next));
    }
    if let Some(place) = ZEROS.into_iter().find(|&place| area[place] != 0) {
        clauses.push(Clause::Zeros { place, byte: area[place] });
    }
    clauses
}

/// Where the count is out of range nobody knows which entries are variables, so that none is judged.
fn of_variables<'a>(area: &'a [u8], live: &[Record]) -> Vec<Clause<'a>> {
    if usize::from(area[VARIABLE_COUNT]) > MAX_VARIABLES {
        return Vec::new();
    }
    let variables = variables(area);
    let mut clauses = Vec::new();
    for (index, &variable) in variables.iter().enumerate() {
        let broken = variable::clauses(variable, &variables[..index], live);
        clauses.extend(broken.into_iter().map(|clause| Clause::Variable(variable, clause)));
    }
    clauses
}

/// "slot 3 (blink, ID 4): PC is 40, beyond its code of 20 bytes".
impl fmt::Display for Clause<'_> {
    fn fmt(&self, f: &mut fmt::Formatter<'_>) -> fmt::Result {
        match self {
            Clause::VariableCount(count) => {
                let most = MAX_VARIABLES;
                write!(f, "the variable count, byte {VARIABLE_COUNT}, is {count}; there are at most {most} variables")
            }
            Clause::NextId(next) => {
                write!(f, "the next ID, bytes {NEXT_ID} and {}, is {next}; it must be 1 to {MAX_NEXT_ID}", NEXT_ID + 1)
            }
            Clause::Zeros { place, byte } => write!(f, "byte {place} is {byte}; bytes {} must be zeros", Span(ZEROS)),
            Clause::State(record) => {
                let (slot, state) = (record.slot, record.state());
                write!(f, "slot {slot}: its state is {state}; ")?;
                write!(f, "it must be {RUNNING} ('r', running), {PAUSED} ('p', paused) or {ENDED} (ended)")
            }
            Clause::Process(record, clause) => {
                write!(f, "slot {} ({}, ID {}): ", record.slot, name_text(record.name()), record.id())?;
                clause.words(record, f)
            }
            Clause::Variable(variable, clause) => {
                let name = literal::variable(variable.name);
                write!(f, "variable {} ({name} of ID {}): ", variable.index, variable.id)?;
                clause.words(variable, f)
            }
        }
    }
}
