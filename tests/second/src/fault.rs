//! Document 01: "Faults, tried in this order".

/// Faults by their number in document 01.
#[derive(Clone, Copy, Debug, PartialEq, Eq)]
pub enum Fault {
    NoInstruction = 1,
    CodeEnded = 2,
    JumpOutside = 3,
    StackFull = 4,
    TooFewBytes = 5,
    TypeNotTaken = 6,
    DivisorZero = 7,
    OutOfRange = 8,
    NoVariable = 9,
    NoVariableSpace = 10,
    NoOpenFile = 11,
    FileEnded = 12,
    OpenRefused = 13,
}

/// Faults unless the condition holds.
pub fn need(condition: bool, fault: Fault) -> Result<(), Fault> {
    if condition {
        Ok(())
    } else {
        Err(fault)
    }
}
