//! An offset inside an instruction of the listing. The kernel takes the byte there for an instruction all the same.

use crate::dis;
use crate::instruction::{self, Arguments};
use std::fmt;

/// The instruction that an offset lies inside, and where it begins.
#[derive(Clone, Debug)]
pub struct Inside {
    pub offset: usize,
    pub start: usize,
    /// With its arguments, but for a text.
    pub instruction: String,
}

impl Inside {
    /// None if the offset lies inside no instruction.
    pub(super) fn of(code: &[u8], offset: usize) -> Option<Inside> {
        let start = instruction::around(code, offset)?;
        let (found, _) = instruction::at(code, start)?;
        let instruction = match found.arguments {
            Arguments::Text => found.mnemonic.into(),
            _ => dis::instruction_text(code, start),
        };
        Some(Inside { offset, start, instruction })
    }
}

/// "offset 19 lies inside GET n at 18: a jump can go wrong by its length, or by a value left on the stack at ENDWHILE".
impl fmt::Display for Inside {
    fn fmt(&self, f: &mut fmt::Formatter<'_>) -> fmt::Result {
        let Inside { offset, start, instruction } = self;
        write!(f, "offset {offset} lies inside {instruction} at {start}: ")?;
        write!(f, "a jump can go wrong by its length, or by a value left on the stack at ENDWHILE")
    }
}
