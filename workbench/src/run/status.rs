//! The status line of a run on a terminal, on standard error, and the programs' output on standard output.

use crate::failure::Outcome;
use crate::files;
use std::io::{self, IsTerminal};
use std::time::{Duration, Instant};

/// How often the line is written anew.
const PERIOD: Duration = Duration::from_millis(250);

/// To the line's beginning, and the rest of it cleared.
const WIPE: &str = "\r\x1b[K";

pub struct Status {
    wanted: bool,
    /// Whether output and status line share a terminal.
    shares: bool,
    shown: bool,
    /// Whether the output stands inside a line, which the status line must not overwrite.
    inside_line: bool,
    since: Instant,
    rounds: u64,
}

impl Status {
    pub fn new() -> Status {
        Status {
            wanted: io::stderr().is_terminal(),
            shares: io::stdout().is_terminal(),
            shown: false,
            inside_line: false,
            since: Instant::now(),
            rounds: 0,
        }
    }

    /// Writes what the programs printed, as the box prints it.
    pub fn print(&mut self, bytes: &[u8]) -> Outcome {
        let Some(&last) = bytes.last() else { return Ok(()) };
        self.clear();
        self.inside_line = self.shares && last != b'\n';
        files::write_output(bytes)
    }

    /// Writes a message on a line of its own.
    pub fn tell(&mut self, message: &str) {
        self.clear();
        let before = if std::mem::take(&mut self.inside_line) { "\n" } else { "" };
        files::tell(&format!("{before}{message}\n"));
    }

    /// Writes the line anew if its time has come.
    pub fn show(&mut self, rounds: u64, running: usize) {
        if !self.wanted || self.inside_line {
            return;
        }
        let passed = self.since.elapsed();
        if passed < PERIOD {
            return;
        }
        let rate = (rounds - self.rounds) as f64 / passed.as_secs_f64();
        files::tell(&format!("{WIPE}{rounds} rounds, {rate:.0} a second, {running} running"));
        (self.since, self.rounds, self.shown) = (Instant::now(), rounds, true);
    }

    /// Takes the line off the terminal.
    pub fn clear(&mut self) {
        if std::mem::take(&mut self.shown) {
            files::tell(WIPE);
        }
    }
}

/// A message that ends the run has a line of its own.
impl Drop for Status {
    fn drop(&mut self) {
        self.clear();
    }
}

impl Default for Status {
    fn default() -> Status {
        Status::new()
    }
}
