//! The clauses of a counted variable.

use super::{overlap, Span};
use crate::layout::{Record, Variable, MEMORY_LEN};
use crate::literal;
use crate::value;
use std::fmt;
use std::ops::RangeInclusive;

/// How long a STRING is in variable memory, its zero counted.
const STRING_SIZES: RangeInclusive<usize> = 1..=30;

/// A broken clause of a counted variable.
#[derive(Clone, Copy, Debug)]
pub enum VariableClause {
    /// "types 1, 2, 4, or [..] type 3"
    Type,
    /// "size 1, 2, 4 for types 1, 2, 4, or 1 to 30 for type 3"
    Size,
    /// "inside memory"
    End,
    /// "belong to live processes"
    Owner,
    /// "have distinct (name, ID)"
    SameName { index: usize },
    /// "are disjoint"
    Overlap(Variable),
}

/// The clauses that a variable breaks, among the variables before it and the live processes.
pub fn clauses(variable: Variable, earlier: &[Variable], live: &[Record]) -> Vec<VariableClause> {
    let mut clauses = Vec::new();
    match sizes(variable.kind) {
        None => clauses.push(VariableClause::Type),
        Some(sizes) if !sizes.contains(&variable.size) => clauses.push(VariableClause::Size),
        Some(_) => (),
    }
    if variable.end() > MEMORY_LEN {
        clauses.push(VariableClause::End);
    }
    if !live.iter().any(|record| record.id() == variable.id) {
        clauses.push(VariableClause::Owner);
    }
    for &other in earlier {
        if (other.name, other.id) == (variable.name, variable.id) {
            clauses.push(VariableClause::SameName { index: other.index });
        }
        if overlap(&variable.place(), &other.place()) {
            clauses.push(VariableClause::Overlap(other));
        }
    }
    clauses
}

/// The sizes that a value of a type can have; none if there is no such type.
fn sizes(kind: u8) -> Option<RangeInclusive<usize>> {
    match kind {
        value::CHAR | value::INT | value::FLOAT => Some(usize::from(kind)..=usize::from(kind)),
        value::STRING => Some(STRING_SIZES),
        _ => None,
    }
}

impl VariableClause {
    /// The clause in words, said of the variable.
    pub fn words(&self, variable: &Variable, f: &mut fmt::Formatter<'_>) -> fmt::Result {
        match self {
            VariableClause::Type => write!(f, "its type is {}; types are 1 to 4", variable.kind),
            VariableClause::Size if variable.kind == value::STRING => {
                let (least, most) = (STRING_SIZES.start(), STRING_SIZES.end());
                write!(f, "its size is {}; a STRING has {least} to {most} bytes", variable.size)
            }
            VariableClause::Size => {
                let kind = variable.kind;
                write!(f, "its size is {}; type {kind} ({}) has size {kind}", variable.size, value::type_name(kind))
            }
            VariableClause::End => {
                let last = variable.end().saturating_sub(1);
                write!(f, "it ends at byte {last}; the last of memory is {}", MEMORY_LEN - 1)
            }
            VariableClause::Owner => write!(f, "no live process has that ID"),
            VariableClause::SameName { index } => write!(f, "variable {index} has the same name and ID"),
            VariableClause::Overlap(other) => {
                let (span, others) = (Span(variable.place()), Span(other.place()));
                let name = literal::variable(other.name);
                write!(
                    f,
                    "bytes {span} overlap those of variable {} ({name} of ID {}), {others}",
                    other.index, other.id
                )
            }
        }
    }
}
