//! The assembler: a source text with the mnemonics of appendix C becomes the bytes of a program.

mod blocks;
mod doubts;
mod lexer;
mod listing;
mod message;
mod names;
mod operands;
mod parser;

pub use listing::listing;
pub use message::{Diagnostic, Message, Problem};

use names::Names;
use operands::Operands;
use parser::Statement;
use std::collections::HashMap;

#[derive(Debug, Default, PartialEq, Eq)]
pub struct Program {
    pub bytes: Vec<u8>,
    /// The source lines that assemble to bytes.
    pub lines: Vec<Assembled>,
    /// Names of several characters, with the bytes that stand for them.
    pub variables: Vec<(String, u8)>,
    /// What is probably not meant, in the order of lines.
    pub warnings: Vec<Diagnostic>,
}

/// The bytes of a source line, counted from 1.
#[derive(Clone, Copy, Debug, PartialEq, Eq)]
pub struct Assembled {
    pub line: usize,
    pub offset: usize,
    pub length: usize,
}

/// A statement, the line it stands in and the offset of its first byte.
#[derive(Debug)]
struct Placed<'a> {
    line: usize,
    offset: usize,
    statement: Statement<'a>,
}

/// A label: its line, and the offset of what follows it.
#[derive(Debug)]
struct Label {
    line: usize,
    offset: usize,
}

type Labels<'a> = HashMap<&'a str, Label>;

/// The program of a source text, or all errors of the text, at most one a line, in order.
pub fn assemble(source: &[u8]) -> Result<Program, Vec<Diagnostic>> {
    let source = without_mark(source);
    let text = std::str::from_utf8(source).map_err(|error| vec![not_text(source, error.valid_up_to())])?;
    let texts: Vec<&str> = text.lines().collect();
    let mut problems = Vec::new();
    let (statements, labels) = read(&texts, &mut problems);
    problems.extend(doubts::of(&statements));
    let names = Names::assign(&statements, &mut problems);
    let lengths = blocks::count(&statements, &labels, &mut problems);
    let (warnings, errors): (Vec<_>, Vec<_>) =
        problems.into_iter().partition(|(_, problem)| problem.message.is_warning());
    if !errors.is_empty() {
        return Err(in_order(errors, &texts));
    }
    Ok(Program { warnings: in_order(warnings, &texts), ..program(&statements, &names, &lengths) })
}

/// One for each line: what else is wrong there may come of the first.
fn in_order(mut problems: Vec<(usize, Problem)>, texts: &[&str]) -> Vec<Diagnostic> {
    problems.sort_by_key(|(line, _)| *line);
    problems.dedup_by_key(|(line, _)| *line);
    let diagnostic = |(line, problem)| Diagnostic { line, problem, text: texts[line - 1].to_string() };
    problems.into_iter().map(diagnostic).collect()
}

/// Editors may put a byte order mark in front of a text.
fn without_mark(source: &[u8]) -> &[u8] {
    source.strip_prefix("\u{FEFF}".as_bytes()).unwrap_or(source)
}

/// The statements in order, and the labels.
fn read<'a>(texts: &[&'a str], problems: &mut Vec<(usize, Problem)>) -> (Vec<Placed<'a>>, Labels<'a>) {
    let mut statements = Vec::new();
    let mut labels = Labels::new();
    let mut offset = 0;
    for (index, text) in texts.iter().enumerate() {
        let line = index + 1;
        let read = parser::line(text);
        problems.extend(read.problem.map(|problem| (line, problem)));
        if let Some(label) = read.label {
            if let Some(first) = labels.get(label.text) {
                let message = Message::LabelTwice { name: label.text.into(), line: first.line };
                problems.push((line, label.problem(message)));
            } else {
                labels.insert(label.text, Label { line, offset });
            }
        }
        if let Some(statement) = read.statement {
            let length = statement.length();
            statements.push(Placed { line, offset, statement });
            offset += length;
        }
    }
    (statements, labels)
}

fn program(statements: &[Placed], names: &Names, lengths: &blocks::Lengths) -> Program {
    let mut program = Program { variables: names.table.clone(), ..Program::default() };
    for (index, Placed { line, offset, statement }) in statements.iter().enumerate() {
        program.bytes.extend(statement.instruction.map(|instruction| instruction.number));
        match &statement.operands {
            Operands::Bytes(bytes) => program.bytes.extend(bytes),
            Operands::Variable(token) => program.bytes.extend(names.byte(token.text)),
            Operands::Unread => {}
            Operands::Counted | Operands::From(_) => program.bytes.extend(lengths.get(&index).into_iter().flatten()),
        }
        program.lines.push(Assembled { line: *line, offset: *offset, length: statement.length() });
    }
    program
}

/// The error of a source that is no text from a byte on.
fn not_text(source: &[u8], at: usize) -> Diagnostic {
    let start = source[..at].iter().rposition(|&byte| byte == b'\n').map_or(0, |newline| newline + 1);
    let end = source[at..].iter().position(|&byte| byte == b'\n').map_or(source.len(), |newline| at + newline);
    let column = String::from_utf8_lossy(&source[start..at]).chars().count() + 1;
    let line = source[..start].iter().filter(|&&byte| byte == b'\n').count() + 1;
    let message = Message::NotText { byte: source.get(at).copied().unwrap_or(0) };
    let text = String::from_utf8_lossy(&source[start..end]).trim_end_matches('\r').to_string();
    Diagnostic { line, problem: Problem { column, width: 1, message }, text }
}
