//! The listing: what each source line became.

use super::{without_mark, Program};
use crate::literal;

/// Bytes shown in a row.
const ROW: usize = 8;

/// Offset, bytes and source line, row by row, then the bytes of the variables' names.
pub fn listing(program: &Program, source: &[u8]) -> String {
    let mut assembled = program.lines.iter().peekable();
    let mut text = String::new();
    for (index, line) in String::from_utf8_lossy(without_mark(source)).lines().enumerate() {
        let found = assembled.next_if(|found| found.line == index + 1);
        match found.map(|found| (found.offset, &program.bytes[found.offset..found.offset + found.length])) {
            Some((offset, bytes)) => text += &rows(offset, bytes, line),
            None => text += row("", "", line).as_str(),
        }
    }
    if !program.variables.is_empty() {
        text += "\nvariables\n";
    }
    for (name, byte) in &program.variables {
        text += &format!("  {byte:3} {:6} {name}\n", literal::character(*byte));
    }
    text
}

fn rows(offset: usize, bytes: &[u8], line: &str) -> String {
    let mut text = String::new();
    for (index, chunk) in bytes.chunks(ROW).enumerate() {
        let numbers: Vec<String> = chunk.iter().map(u8::to_string).collect();
        text += &row(&(offset + index * ROW).to_string(), &numbers.join(" "), if index == 0 { line } else { "" });
    }
    if bytes.is_empty() {
        text = row(&offset.to_string(), "", line);
    }
    text
}

fn row(offset: &str, bytes: &str, line: &str) -> String {
    format!("{offset:>4}  {bytes:31}  {line}").trim_end().to_string() + "\n"
}
