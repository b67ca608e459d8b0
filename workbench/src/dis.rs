//! The disassembler: a program's bytes as source text that the assembler takes and makes the same bytes of.

use crate::instruction::{self, Arguments, Instruction, MAX_WHILE};
use crate::layout::STACK_LEN;
use crate::literal;

/// Most bytes in a line of DATA.
const ROW: usize = 8;
/// The column of the comments.
const COMMENT: usize = 24;
/// The longest text that fits an empty stack, with its zero, its length and its type.
const MOST_LETTERS: usize = STACK_LEN - 3;

/// What stands at an offset.
enum Piece<'a> {
    Whole(&'static Instruction, &'a [u8]),
    /// An instruction whose arguments the program's end cuts off; its own byte is the first of these.
    CutOff(&'static Instruction, &'a [u8]),
    /// Bytes that are no instructions.
    Data(&'a [u8]),
}

fn piece(code: &[u8], offset: usize) -> Piece<'_> {
    if let Some((found, arguments)) = instruction::at(code, offset) {
        return Piece::Whole(found, arguments);
    }
    let rest = code.get(offset..).unwrap_or(&[]);
    match rest.first().and_then(|&byte| instruction::of_byte(byte)) {
        Some(found) => Piece::CutOff(found, rest),
        None => {
            let length = rest.iter().take_while(|&&byte| instruction::of_byte(byte).is_none()).count();
            Piece::Data(&rest[..length])
        }
    }
}

/// A whole program, a line for each instruction, with its offset after it as a comment.
pub fn disassemble(code: &[u8]) -> String {
    let mut text = String::new();
    let mut offset = 0;
    while offset < code.len() {
        offset += match piece(code, offset) {
            Piece::Whole(found, arguments) => {
                text += &line(&whole(found, arguments), offset, &note(found, arguments, offset, code.len()));
                1 + arguments.len()
            }
            Piece::CutOff(found, bytes) => {
                let note = format!("{} without all its arguments: fault 2", found.mnemonic);
                text += &data_lines(bytes, offset, &note);
                bytes.len()
            }
            Piece::Data(bytes) => {
                text += &data_lines(bytes, offset, "no instruction: fault 1");
                bytes.len()
            }
        };
    }
    text
}

/// The instruction at an offset with its arguments, as the assembler takes it; where there is none DATA and its byte,
/// where the program's end cuts it off DATA and what is there of it, a line of it at most.
pub fn instruction_text(code: &[u8], offset: usize) -> String {
    match piece(code, offset) {
        Piece::Whole(found, arguments) => whole(found, arguments),
        Piece::CutOff(_, bytes) => data(&bytes[..bytes.len().min(ROW)]),
        Piece::Data(bytes) => data(&bytes[..bytes.len().min(1)]),
    }
}

fn line(text: &str, offset: usize, note: &str) -> String {
    let comment = format!("; {offset:<4}  {note}");
    format!("{text:COMMENT$} {}\n", comment.trim_end())
}

fn data_lines(bytes: &[u8], offset: usize, note: &str) -> String {
    let rows = bytes.chunks(ROW).enumerate();
    rows.map(|(index, row)| line(&data(row), offset + index * ROW, if index == 0 { note } else { "" })).collect()
}

fn whole(instruction: &Instruction, arguments: &[u8]) -> String {
    match shown_arguments(instruction, arguments) {
        shown if shown.is_empty() => instruction.mnemonic.to_string(),
        shown => format!("{} {shown}", instruction.mnemonic),
    }
}

fn data(bytes: &[u8]) -> String {
    format!("DATA {}", numbers(bytes))
}

fn numbers(bytes: &[u8]) -> String {
    bytes.iter().map(u8::to_string).collect::<Vec<_>>().join(" ")
}

fn shown_arguments(instruction: &Instruction, bytes: &[u8]) -> String {
    match (instruction.arguments, bytes) {
        (Arguments::Char, &[byte @ b' '..=b'~']) => literal::character(byte),
        (Arguments::Char, &[byte]) => (byte as i8).to_string(),
        (Arguments::Int, &[high, low]) => i16::from_be_bytes([high, low]).to_string(),
        (Arguments::Float, &[a, b, c, d]) => literal::float(u32::from_be_bytes([a, b, c, d])),
        (Arguments::Text, [text @ .., _]) => literal::text(text),
        (Arguments::Name, &[name]) => literal::variable(name),
        _ => numbers(bytes),
    }
}

/// Where jumps go, the number of a character, and what cannot be executed.
fn note(instruction: &Instruction, arguments: &[u8], offset: usize, end: usize) -> String {
    let past = offset + 1 + arguments.len();
    match (instruction.arguments, arguments) {
        _ if !instruction.built => "not built: fault 1".into(),
        (Arguments::Char, &[byte @ b' '..=b'~']) => byte.to_string(),
        (Arguments::Text, [text @ .., _]) if text.len() > MOST_LETTERS => {
            format!("above {MOST_LETTERS} letters: fault 4")
        }
        (Arguments::Length, &[length]) => {
            let when = if instruction.mnemonic == "IF" { "zero" } else { "not zero" };
            format!("{when}: to {}", target(past + usize::from(length), end))
        }
        (Arguments::Lengths, &[condition, body]) => {
            let (condition, body) = (usize::from(condition), usize::from(body));
            let skipped = format!("zero: to {}", target(past + body + 1, end));
            match offset.checked_sub(condition) {
                _ if condition + body > MAX_WHILE => format!("{skipped}, else fault 8"),
                None => format!("{skipped}, else again from before the program: fault 3"),
                Some(start) => format!("{skipped}, else again from {start}"),
            }
        }
        _ => String::new(),
    }
}

fn target(place: usize, end: usize) -> String {
    if place > end {
        format!("{place}, past the end: fault 3")
    } else {
        place.to_string()
    }
}
