//! What an operation answers. Document 01, "Operations and their refusals".

/// Refusals by their number in documents 01 and 02.
#[derive(Clone, Copy, Debug, PartialEq, Eq)]
pub enum Refusal {
    WrongLength = 1,
    BadDisc = 2,
    BadArea = 3,
    ShortOutput = 4,
    BadName = 5,
    BadDataLength = 6,
    NameExists = 7,
    TenFiles = 8,
    NoRun = 9,
    NoSuchFile = 10,
    FileInUse = 11,
    NoEndedSlot = 12,
    NoNextId = 13,
    NoSuchProcess = 14,
    AlreadyInState = 15,
    NotRunning = 16,
    BadShare = 22,
}

pub type Answer = Result<u32, Refusal>;

/// "Each returns a signed 32-bit number: 0 or more is done, −n is refusal n."
pub fn number(answer: Answer) -> i32 {
    match answer {
        Ok(done) => done as i32,
        Err(refusal) => -(refusal as i32),
    }
}

/// The answer of an operation of which "nothing else is said".
pub const DONE: Answer = Ok(0);

/// Refuses unless the condition holds.
pub fn need(condition: bool, refusal: Refusal) -> Result<(), Refusal> {
    if condition {
        Ok(())
    } else {
        Err(refusal)
    }
}

/// Writes a text that is needed whole; "4: output shorter than needed".
pub fn write_text(text: &[u8], output: &mut [u8]) -> Answer {
    need(output.len() >= text.len(), Refusal::ShortOutput)?;
    output[..text.len()].copy_from_slice(text);
    Ok(text.len() as u32)
}
