//! A source line: a label, an instruction with what follows it, or both, or neither.

use super::lexer::{self, is_negative_infinity, Kind, Token};
use super::message::{Message, Problem};
use super::operands::{self, is_reserved, Following, Operands};
use crate::instruction::{self, Arguments, Instruction};

/// A longer word is no misspelt mnemonic.
const LONGEST_MEANT: usize = 24;

#[derive(Clone, Debug)]
pub struct Statement<'a> {
    pub column: usize,
    pub width: usize,
    /// None for DATA, and where the instruction is not known.
    pub instruction: Option<&'static Instruction>,
    pub operands: Operands<'a>,
}

impl Statement<'_> {
    pub fn name(&self) -> &'static str {
        self.instruction.map_or("DATA", |instruction| instruction.mnemonic)
    }

    /// Lengths that are left to be counted, as against lengths that are given.
    pub fn is_counted(&self) -> bool {
        matches!(self.operands, Operands::Counted | Operands::From(_))
    }

    /// How many bytes it assembles to.
    pub fn length(&self) -> usize {
        let operands = match &self.operands {
            Operands::Bytes(bytes) => bytes.len(),
            Operands::Unread => 0,
            Operands::Variable(_) => 1,
            Operands::From(_) => 2,
            Operands::Counted if self.instruction.is_some_and(|found| found.arguments == Arguments::Lengths) => 2,
            Operands::Counted => 1,
        };
        operands + usize::from(self.instruction.is_some())
    }

    pub fn problem(&self, message: Message) -> Problem {
        Problem { column: self.column, width: self.width, message }
    }
}

/// A line with a problem has a statement all the same, so that blocks are not told to lack what is only misspelt.
#[derive(Clone, Debug, Default)]
pub struct Line<'a> {
    pub label: Option<Token<'a>>,
    pub statement: Option<Statement<'a>>,
    pub problem: Option<Problem>,
}

pub fn line(text: &str) -> Line<'_> {
    let (tokens, unread) = lexer::tokens(text);
    let (label, rest) = match tokens.as_slice() {
        [label, colon, rest @ ..] if label.kind == Kind::Word && colon.kind == Kind::Colon => (Some(label), rest),
        all => (None, all),
    };
    let bad_label = label.and_then(label_problem);
    let (statement, problem) = match rest.split_first() {
        None if unread.is_none() => (None, None),
        None => (Some(Statement { column: 1, width: 1, instruction: None, operands: Operands::Unread }), None),
        Some((head, following)) => {
            let (statement, problem) = statement(head, following, line_end(rest));
            (Some(statement), problem)
        }
    };
    Line { label: label.cloned(), statement, problem: bad_label.or(unread).or(problem) }
}

fn line_end(tokens: &[Token]) -> usize {
    tokens.last().map_or(1, |last| last.column + last.width)
}

fn label_problem(label: &Token) -> Option<Problem> {
    let is_wrong = is_reserved(label.text) || is_negative_infinity(label.text);
    is_wrong.then(|| label.problem(Message::Label { found: label.shown() }))
}

/// The statement of an instruction, DATA or a literal; of a wrong one its problem too.
fn statement<'a>(head: &Token<'a>, tokens: &[Token<'a>], end: usize) -> (Statement<'a>, Option<Problem>) {
    let following = |name| Following { name, tokens, end };
    let (instruction, operands) = match (instruction::named(head.text), operands::literal(head)) {
        (Some(found), _) => (Some(found), following(found.mnemonic).operands(found)),
        (None, Some((number, bytes))) => {
            let bytes = bytes.and_then(|bytes| following(head.text).to_end(0).map(|()| Operands::Bytes(bytes)));
            (instruction::of_byte(number), bytes)
        }
        (None, None) if is_reserved(head.text) => (None, following("DATA").data()),
        (None, None) => unknown(head),
    };
    let (operands, problem) = match operands {
        Ok(operands) => (operands, None),
        Err(problem) => (Operands::Unread, Some(problem)),
    };
    (Statement { column: head.column, width: head.width, instruction, operands }, problem)
}

/// The instruction that was probably meant, and the problem.
fn unknown<'a>(head: &Token) -> (Option<&'static Instruction>, Result<Operands<'a>, Problem>) {
    let near = nearest(head.text);
    let hint = near.map_or(String::new(), |mnemonic| format!("; did you mean {mnemonic}?"));
    let problem = head.problem(Message::Instruction { found: head.shown(), hint });
    (near.and_then(instruction::named), Err(problem))
}

/// The mnemonic that a word was probably meant to be.
fn nearest(word: &str) -> Option<&'static str> {
    if word.len() > LONGEST_MEANT {
        return None;
    }
    let word = word.to_ascii_uppercase();
    let known = instruction::TABLE.iter().map(|instruction| instruction.mnemonic).chain(["DATA"]);
    let (distance, mnemonic) =
        known.map(|known| (distance(&word, known), known)).min_by_key(|(distance, _)| *distance)?;
    (distance <= 2 && 2 * distance < word.len()).then_some(mnemonic)
}

/// How many letters must be put in, left out or changed to make one word of the other (Levenshtein).
fn distance(a: &str, b: &str) -> usize {
    let mut row: Vec<usize> = (0..=b.len()).collect();
    for (i, x) in a.bytes().enumerate() {
        let mut diagonal = row[0];
        row[0] = i + 1;
        for (j, y) in b.bytes().enumerate() {
            let changed = diagonal + usize::from(x != y);
            diagonal = row[j + 1];
            row[j + 1] = changed.min(row[j] + 1).min(diagonal + 1);
        }
    }
    row[b.len()]
}
