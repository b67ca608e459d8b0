//! Records: the buffers that a box began with, and every call made on them with its answer, as lines of text.
//!
//! A field record can be made by firmware as well; docs/WORKBENCH.md has the form.

mod line;
mod reader;
mod writer;

pub use line::{Line, LineError, Made, FIRST_LINE};
pub use reader::{read, Record, RecordError, Recorded};
pub use writer::Writer;
