//! Runs programs of a disc, round by round, in the kernel.

pub mod clock;
pub mod ends;
pub mod interrupt;
pub mod status;
pub mod trace;
pub mod turns;

use crate::buffers::{Answer, Buffers};
use crate::failure::{refused, Outcome};
use crate::layout::{records, RUNNING};
use crate::literal;
use crate::record;
use kernel::call::Call;
use kernel::words;
use std::fs::File;
use std::io::BufWriter;

/// A record that is being written.
type Recorder = record::Writer<BufWriter<File>>;

/// A box that runs: its buffers, and the record of its calls if one is wanted.
pub struct Session {
    pub buffers: Buffers,
    recorder: Option<(String, Recorder)>,
}

impl Session {
    /// A box at power-up. A record of its calls goes to the file of that path.
    pub fn begin(disc: Vec<u8>, record: Option<&str>) -> Outcome<Session> {
        let mut session = Session { buffers: Buffers::new(disc), recorder: None };
        if let Some(path) = record {
            let begun = File::create(path)
                .and_then(|file| record::Writer::begin(BufWriter::new(file), &session.buffers))
                .or_else(|error| refused(format!("{path}: {error}")))?;
            session.recorder = Some((path.to_string(), begun));
        }
        session.make(&Call::Boot)?;
        Ok(session)
    }

    /// Makes a call and records it.
    pub fn make(&mut self, call: &Call) -> Outcome<Answer> {
        let answer = self.buffers.call(call);
        if let Some((path, recorder)) = &mut self.recorder {
            recorder.call(call, &answer, &self.buffers).or_else(|error| refused(format!("{path}: {error}")))?;
        }
        Ok(answer)
    }

    /// Makes a call that must be done; `what` names it in the message of a refusal.
    fn must(&mut self, call: &Call, what: &str) -> Outcome<Answer> {
        let answer = self.make(call)?;
        if answer.number < 0 {
            let words = words::refusal(answer.number);
            return refused(format!("{what}: {words} (refusal {})", -answer.number));
        }
        Ok(answer)
    }

    /// Starts a program and gives the process its share. Returns its ID.
    pub fn start(&mut self, name: &[u8], share: Option<u32>) -> Outcome<u32> {
        let quoted = literal::text(name);
        let answer = self.must(&Call::Run { name: name.to_vec() }, &format!("run {quoted}"))?;
        let id = answer.number as u32;
        if let Some(share) = share {
            self.must(&Call::Share { id, share }, &format!("share of {share} for {quoted}"))?;
        }
        Ok(id)
    }

    /// One round.
    pub fn round(&mut self, clock: u32) -> Outcome<Answer> {
        self.must(&Call::round(clock), "round")
    }

    /// How many processes run.
    pub fn running(&self) -> usize {
        records(&self.buffers.area).filter(|record| record.state() == RUNNING).count()
    }

    /// Ends the record, if there is one.
    pub fn end(&mut self) -> Outcome {
        match self.recorder.take() {
            Some((path, recorder)) => recorder.end().map(|_| ()).or_else(|error| refused(format!("{path}: {error}"))),
            None => Ok(()),
        }
    }
}
