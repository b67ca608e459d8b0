//! How a command ends when it is not done, and the exit statuses.

/// Why a command is not done.
#[derive(Debug)]
pub enum Failure {
    /// Exit status 1: what was asked is refused, or a process ended by a fault. The message has no name in front.
    Refused(String),
    /// Exit status 1: as above; the messages are on standard error already.
    Told,
    /// Exit status 2: the command line is wrong.
    Misused(String),
}

pub type Outcome<T = ()> = Result<T, Failure>;

pub fn refused<T>(message: impl Into<String>) -> Outcome<T> {
    Err(Failure::Refused(message.into()))
}

pub fn misused<T>(message: impl Into<String>) -> Outcome<T> {
    Err(Failure::Misused(message.into()))
}
