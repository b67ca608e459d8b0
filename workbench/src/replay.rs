//! The calls of a record made again, on buffers filled as it begins, and compared.

use crate::buffers::{Answer, Buffers};
use crate::literal;
use crate::record::{Made, Record, Recorded};
use crate::run::turns::{self, Turn};
use crate::run::{ends, trace};
use kernel::call::Call;
use std::fmt::Write;

/// What a replay has to say.
pub struct Replayed {
    /// Processes that ended by a fault, and every turn if a trace is wanted: lines for standard output.
    pub told: String,
    /// The first call that did not come to what was recorded, and an alteration of the record.
    pub differences: Vec<Difference>,
}

/// Makes the calls up to the first that differs.
pub fn replay(record: Record, trace: bool) -> Replayed {
    let mut replay = Replay { buffers: record.buffers, trace, rounds: 0, told: String::new() };
    if trace {
        replay.tell(trace::HEADER);
    }
    let difference = record.calls.iter().find_map(|recorded| replay.make(recorded).err());
    let altered = record.altered.map(|line| {
        let message = "the record was altered: its lines have another checksum".to_string();
        Difference { line, column: 1, message }
    });
    Replayed { told: replay.told, differences: difference.into_iter().chain(altered).collect() }
}

/// Where a record and the kernel differ.
pub struct Difference {
    pub line: usize,
    pub column: usize,
    pub message: String,
}

struct Replay {
    buffers: Buffers,
    trace: bool,
    rounds: u64,
    told: String,
}

impl Replay {
    fn tell(&mut self, line: &str) {
        let _ = writeln!(self.told, "{line}");
    }

    /// Makes a call, tells of its turns, and compares.
    fn make(&mut self, recorded: &Recorded) -> Result<(), Difference> {
        let before = self.buffers.clone();
        let answer = self.buffers.call(&recorded.made.call);
        let turns = self.turns(&recorded.made.call, &before, &answer).ok_or_else(|| Difference {
            line: recorded.line,
            column: 1,
            message: format!(
                "{} and its turns came to different buffers: a defect of the kernel",
                recorded.made.call_text()
            ),
        })?;
        for turn in turns {
            if self.trace {
                self.tell(&trace::line(self.rounds, &turn));
            }
            if let Some(sentence) = ends::fault_sentence(&turn) {
                self.tell(&format!("line {}, {}: {sentence}", recorded.line, recorded.made.call_text()));
            }
        }
        let now = Made::new(recorded.made.call.clone(), &answer, &self.buffers);
        compare(&recorded.made, &now).map_err(|(column, message)| Difference {
            line: recorded.line,
            column,
            message: format!("{}: {message}", recorded.made.call_text()),
        })
    }

    /// The turns that a done turn or round stands for, where there is something to say of them; none if they and the
    /// round came to different buffers.
    fn turns(&mut self, call: &Call, before: &Buffers, answer: &Answer) -> Option<Vec<Turn>> {
        match *call {
            _ if answer.number < 0 => Some(Vec::new()),
            Call::Turn { slot, clock, .. } => {
                self.rounds += 1;
                let (after, printed) = (self.buffers.clone(), answer.output.clone());
                Some(vec![Turn { slot: slot as usize, clock, before: before.clone(), after, printed }])
            }
            Call::Round { clock, .. } => {
                self.rounds += 1;
                if !self.trace && !turns::may_have_ended(&before.area, &self.buffers.area) {
                    return Some(Vec::new());
                }
                let turns = turns::of_round(before, clock);
                turns::agree(&turns, before, &self.buffers, answer).then_some(turns)
            }
            _ => Some(Vec::new()),
        }
    }
}

/// The first thing that differs, and the column at which the record has it.
fn compare(was: &Made, is: &Made) -> Result<(), (usize, String)> {
    let number_column = was.call_text().len() + 4;
    let output_column = number_column + was.answer.number.to_string().len() + 1;
    let output = literal::text(&was.answer.output);
    let disc_column = output_column + if was.answer.output.is_empty() { 0 } else { output.len() + 1 };
    if was.answer.number != is.answer.number {
        let message = format!("the record has {}, the kernel answers {}", was.answer.number, is.answer.number);
        return Err((number_column, message));
    }
    if was.answer.output != is.answer.output {
        let now = literal::text(&is.answer.output);
        return Err((output_column, format!("the record has the output {output}, the kernel writes {now}")));
    }
    let sums = [("disc", disc_column, was.disc, is.disc), ("area", disc_column + 14, was.area, is.area)];
    for (buffer, column, was, is) in sums {
        if was != is {
            let message = format!("the record has the checksum {was:08x} of the {buffer}, the kernel leaves {is:08x}");
            return Err((column, message));
        }
    }
    Ok(())
}
