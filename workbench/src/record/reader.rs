//! Reads a whole record before any call of it is made.

use super::line::{Line, Made, FIRST_LINE};
use crate::buffers::Buffers;
use crate::checksum::Checksum;

/// The most bytes that a record's buffer may have: more than the kernel takes, so that refusal 1 can be recorded.
const MOST_BYTES: usize = 65_536;

/// A record as it was read.
#[derive(Debug)]
pub struct Record {
    pub buffers: Buffers,
    pub calls: Vec<Recorded>,
    /// The line of the checksum, if it is not that of the lines above.
    pub altered: Option<usize>,
}

/// A call and the line that it stands in, counted from 1.
#[derive(Debug)]
pub struct Recorded {
    pub line: usize,
    pub made: Made,
}

/// Where a record is wrong, and how.
#[derive(Debug, PartialEq, Eq)]
pub struct RecordError {
    pub line: usize,
    pub column: usize,
    pub message: String,
}

fn wrong<T>(line: usize, column: usize, message: impl Into<String>) -> Result<T, RecordError> {
    Err(RecordError { line, column, message: message.into() })
}

/// Reads a record up to the checksum at its end.
pub fn read(bytes: &[u8]) -> Result<Record, RecordError> {
    let lines = lines(bytes)?;
    if let Some(line) = lines.iter().position(|line| line.ends_with('\r')) {
        return wrong(line + 1, lines[line].chars().count(), "expected a newline alone, found a carriage return");
    }
    if lines.first() != Some(&FIRST_LINE) {
        return wrong(1, 1, format!("expected '{FIRST_LINE}'"));
    }
    let mut reading = Reading::default();
    for (index, text) in lines.iter().enumerate() {
        if index > 0 {
            match Line::read(text) {
                Ok(line) => reading.line(index + 1, line)?,
                Err(error) => return wrong(index + 1, error.column, format!("expected {}", error.expected)),
            }
        }
        reading.above.feed(text.as_bytes());
        reading.above.feed(b"\n");
    }
    reading.finish(lines.len())
}

/// The lines of a text that ends with a newline.
fn lines(bytes: &[u8]) -> Result<Vec<&str>, RecordError> {
    let text = match std::str::from_utf8(bytes) {
        Ok(text) => text,
        Err(error) => {
            let line = bytes[..error.valid_up_to()].iter().filter(|&&byte| byte == b'\n').count() + 1;
            return wrong(line, 1, "expected text");
        }
    };
    match text.strip_suffix('\n') {
        Some(whole) => Ok(whole.split('\n').collect()),
        None => wrong(text.split('\n').count(), 1, "the last line has no newline: the record is cut off"),
    }
}

#[derive(Default)]
struct Reading {
    disc: Option<Vec<u8>>,
    area: Option<Vec<u8>>,
    calls: Vec<Recorded>,
    /// Of the lines so far.
    above: Checksum,
    ended: bool,
    altered: Option<usize>,
}

impl Reading {
    fn line(&mut self, number: usize, line: Line) -> Result<(), RecordError> {
        if self.ended {
            return wrong(number, 1, "expected the end of the record after 'sum'");
        }
        match line {
            Line::Disc(length) if self.disc.is_none() => self.disc = Some(zeros(number, length)?),
            Line::Area(length) if self.disc.is_some() && self.area.is_none() => {
                self.area = Some(zeros(number, length)?)
            }
            Line::At(place, bytes) if self.calls.is_empty() => self.fill(number, place, &bytes)?,
            Line::Made(made) if self.area.is_some() => self.calls.push(Recorded { line: number, made }),
            Line::Sum(sum) if self.area.is_some() => {
                self.altered = (sum != self.above.sum()).then_some(number);
                self.ended = true;
            }
            _ => return wrong(number, 1, "expected 'disc', then 'area', each with its bytes, then calls, then 'sum'"),
        }
        Ok(())
    }

    /// Bytes of the buffer that was named last.
    fn fill(&mut self, number: usize, place: usize, bytes: &[u8]) -> Result<(), RecordError> {
        let buffer = self.area.as_mut().or(self.disc.as_mut());
        let Some(buffer) = buffer else { return wrong(number, 1, "expected 'disc' and its length") };
        match buffer.get_mut(place..place.saturating_add(bytes.len())) {
            Some(part) => part.copy_from_slice(bytes),
            None => return wrong(number, 1, "expected bytes inside the buffer"),
        }
        Ok(())
    }

    fn finish(self, lines: usize) -> Result<Record, RecordError> {
        match (self.disc, self.area, self.ended) {
            (Some(disc), Some(area), true) => {
                let buffers = Buffers { disc, area };
                Ok(Record { buffers, calls: self.calls, altered: self.altered })
            }
            _ => wrong(lines + 1, 1, "expected 'sum': the record is cut off"),
        }
    }
}

fn zeros(number: usize, length: usize) -> Result<Vec<u8>, RecordError> {
    if length > MOST_BYTES {
        return wrong(number, 6, "expected at most 65536 bytes");
    }
    Ok(vec![0; length])
}
