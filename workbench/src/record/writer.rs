//! Writes a record as its calls are made.

use super::line::{Line, Made, FIRST_LINE};
use crate::buffers::{Answer, Buffers};
use crate::checksum::Checksum;
use kernel::call::Call;
use std::io::{self, Write};

/// Bytes of a buffer in one line.
const ROW: usize = 16;

pub struct Writer<W: Write> {
    to: W,
    checksum: Checksum,
}

impl<W: Write> Writer<W> {
    /// Begins a record: the buffers as they are before the first call.
    pub fn begin(to: W, buffers: &Buffers) -> io::Result<Writer<W>> {
        let mut writer = Writer { to, checksum: Checksum::new() };
        writer.line(FIRST_LINE)?;
        writer.line(&Line::Disc(buffers.disc.len()).to_string())?;
        writer.rows(&buffers.disc)?;
        writer.line(&Line::Area(buffers.area.len()).to_string())?;
        writer.rows(&buffers.area)?;
        Ok(writer)
    }

    /// A call that was made, and the buffers after it.
    pub fn call(&mut self, call: &Call, answer: &Answer, buffers: &Buffers) -> io::Result<()> {
        let made = Made::new(call.clone(), answer, buffers);
        self.line(&Line::Made(made).to_string())
    }

    /// Ends the record with the checksum of all its lines.
    pub fn end(mut self) -> io::Result<W> {
        let sum = self.checksum.sum();
        self.line(&Line::Sum(sum).to_string())?;
        self.to.flush()?;
        Ok(self.to)
    }

    fn line(&mut self, text: &str) -> io::Result<()> {
        let line = format!("{text}\n");
        self.checksum.feed(line.as_bytes());
        self.to.write_all(line.as_bytes())
    }

    /// The rows that are not all zeros.
    fn rows(&mut self, bytes: &[u8]) -> io::Result<()> {
        for (index, row) in bytes.chunks(ROW).enumerate() {
            if row.iter().any(|&byte| byte != 0) {
                self.line(&Line::At(index * ROW, row.to_vec()).to_string())?;
            }
        }
        Ok(())
    }
}
