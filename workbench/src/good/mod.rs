//! What is wrong with a disc or a work area: each broken clause of document 01's good disc and good area, in words.
//! The kernel judges a disc (−2) and a work area (−3) by the same clauses; tests/good.rs holds these against it.

pub mod area;
pub mod disc;
pub mod name;
pub mod process;
pub mod variable;

pub use area::{area, area_alone};
pub use disc::disc;
use std::fmt;
use std::ops::Range;

/// Whether two runs of bytes have one in common.
fn overlap(one: &Range<usize>, other: &Range<usize>) -> bool {
    one.start.max(other.start) < one.end.min(other.end)
}

/// First and last byte of a run that is not empty.
struct Span(Range<usize>);

impl fmt::Display for Span {
    fn fmt(&self, f: &mut fmt::Formatter<'_>) -> fmt::Result {
        write!(f, "{} to {}", self.0.start, self.0.end.saturating_sub(1))
    }
}
