//! The lengths after IF, ELSE and WHILE, counted from where their blocks end.
//!
//! Blocks whose lengths are all given may have any shape, since a program may jump as it likes; a given length that
//! misses its block's end is warned of, as it is what remains of a text of `dis` that was edited. A block with a length
//! to be counted must have its end, and no end of another block may cross it. Where lengths are counted, an end that
//! closes nothing is warned of: ENDIF also serves to take a number off the stack, and one that does so inside a block
//! would be taken for the block's end.

use super::message::{Message, Problem};
use super::operands::Operands;
use super::{Labels, Placed};
use crate::instruction::MAX_WHILE;
use std::collections::HashMap;

/// A length is one byte.
const MAX_BODY: usize = 255;

#[derive(Clone, Copy, Debug, PartialEq, Eq)]
enum Kind {
    If,
    Else,
    While,
}

impl Kind {
    fn end(self) -> &'static str {
        match self {
            Kind::If | Kind::Else => "ENDIF",
            Kind::While => "ENDWHILE",
        }
    }
}

/// An IF, ELSE or WHILE whose end has not come.
#[derive(Clone, Copy, Debug)]
struct Opener {
    index: usize,
    kind: Kind,
    is_counted: bool,
}

/// The argument bytes of each statement that has its lengths counted, by its index.
pub type Lengths = HashMap<usize, Vec<u8>>;

struct Blocks<'s, 'a> {
    statements: &'s [Placed<'a>],
    labels: &'s Labels<'a>,
    open: Vec<Opener>,
    /// The counted block that each kind of end closed last: the indices of its opener and of its end.
    closed: HashMap<&'static str, (usize, usize)>,
    /// Whether the source leaves any lengths to be counted.
    any_counted: bool,
    lengths: Lengths,
    problems: Vec<(usize, Problem)>,
}

pub fn count<'a>(statements: &[Placed<'a>], labels: &Labels<'a>, problems: &mut Vec<(usize, Problem)>) -> Lengths {
    let mut blocks = Blocks {
        statements,
        labels,
        open: vec![],
        closed: HashMap::new(),
        any_counted: statements.iter().any(|placed| placed.statement.is_counted()),
        lengths: Lengths::new(),
        problems: std::mem::take(problems),
    };
    for index in 0..statements.len() {
        blocks.meet(index);
    }
    for opener in blocks.open.clone().iter().filter(|opener| opener.is_counted) {
        let (name, end) = (blocks.name(opener.index), opener.kind.end().to_string());
        blocks.tell(opener.index, Message::NoEnd { opener: name, end });
    }
    *problems = blocks.problems;
    blocks.lengths
}

impl Blocks<'_, '_> {
    fn meet(&mut self, index: usize) {
        let is_counted = self.statements[index].statement.is_counted();
        match self.statements[index].statement.name() {
            "IF" => self.open.push(Opener { index, kind: Kind::If, is_counted }),
            "WHILE" => {
                self.warn_of_lengths(index);
                self.open.push(Opener { index, kind: Kind::While, is_counted });
            }
            "ELSE" => self.meet_else(index, is_counted),
            "ENDIF" | "ENDWHILE" => self.meet_end(index),
            _ => {}
        }
    }

    /// ELSE ends the body of its IF and begins one of its own.
    fn meet_else(&mut self, index: usize, is_counted: bool) {
        let mut counts = is_counted;
        match self.close(index) {
            Err(()) => counts = false,
            Ok(None) if is_counted => {
                self.tell(index, Message::ElseAlone { hint: self.hint(index, 0) });
                counts = false;
            }
            Ok(None) => self.warn(index, "IF"),
            Ok(Some(other)) if other.kind == Kind::Else && (other.is_counted || is_counted) => {
                let line = self.statements[other.index].line;
                self.tell(index, Message::SecondElse { line });
                counts = false;
            }
            Ok(Some(opener)) => self.count_body(opener, index),
        }
        self.open.push(Opener { index, kind: Kind::Else, is_counted: counts });
    }

    fn meet_end(&mut self, index: usize) {
        let end = end_of(self.statements[index].statement.name());
        match self.close(index) {
            Err(()) => {}
            Ok(None) => self.warn(index, if end == "ENDIF" { "IF" } else { "WHILE" }),
            Ok(Some(opener)) => {
                if opener.is_counted {
                    self.closed.insert(end, (opener.index, index));
                }
                match opener.kind {
                    Kind::If | Kind::Else => self.count_body(opener, index),
                    Kind::While => self.count_while(opener, index),
                }
            }
        }
    }

    /// Takes the opener that an end belongs to off, and all that are open inside it. None if the end stands alone;
    /// an error if it would cross a block that is counted.
    fn close(&mut self, index: usize) -> Result<Option<Opener>, ()> {
        let end = end_of(self.statements[index].statement.name());
        let own = self.open.iter().rposition(|opener| opener.kind.end() == end);
        let inside = own.map_or(0, |own| own + 1);
        if let Some(crossed) = self.open[inside..].iter().rposition(|opener| opener.is_counted) {
            let opener = self.open[inside + crossed];
            self.tell_crossed(index, opener);
            // Both count as ended, so that one slip is told once.
            self.open.truncate(own.unwrap_or(crossed));
            return Err(());
        }
        let opener = own.map(|own| self.open[own]);
        self.open.truncate(own.unwrap_or(self.open.len()));
        Ok(opener)
    }

    fn tell_crossed(&mut self, index: usize, opener: Opener) {
        let message = Message::WrongEnd {
            end: opener.kind.end().into(),
            opener: self.name(opener.index),
            line: self.statements[opener.index].line,
            found: self.name(index),
            hint: self.hint(index, opener.index),
        };
        self.tell(index, message);
    }

    /// An end that closes nothing is what a program without counted lengths may well have.
    fn warn(&mut self, index: usize, opener: &str) {
        if self.any_counted {
            let (found, hint) = (self.name(index), self.hint(index, 0));
            self.tell(index, Message::ClosesNone { found, opener: opener.into(), hint });
        }
    }

    /// What helps if an end was to take a number off: this one, or the one that closed the last block, if that block
    /// was opened at `since` or later.
    fn hint(&self, index: usize, since: usize) -> String {
        let name = self.statements[index].statement.name();
        let end = end_of(name);
        let closed = self.closed.get(end).filter(|(opener, _)| *opener >= since);
        let place = closed.map(|&(opener, end)| {
            let (first, last) = (self.statements[opener].line, self.statements[end].line);
            format!(" (the {} of line {first} ended in line {last})", self.name(opener))
        });
        if name == "ELSE" && place.is_none() {
            return String::new();
        }
        place.unwrap_or_default() + &as_data(end)
    }

    /// The length of IF or ELSE, up to the statement that ends its body.
    fn count_body(&mut self, opener: Opener, end: usize) {
        let index = opener.index;
        let length = self.statements[end].offset - self.past(index);
        if !opener.is_counted {
            return self.compare(opener, end, length);
        }
        if length > MAX_BODY {
            let message = Message::BodyTooLong { opener: self.name(index), end: self.name(end), length };
            return self.tell(index, message);
        }
        self.lengths.insert(index, vec![length as u8]);
    }

    /// The lengths of WHILE, up to its ENDWHILE.
    fn count_while(&mut self, opener: Opener, end: usize) {
        let index = opener.index;
        let body = self.statements[end].offset - self.past(index);
        if !opener.is_counted {
            return self.compare(opener, end, body);
        }
        let condition = match self.condition_start(index) {
            Ok(start) => self.statements[index].offset - start,
            Err(message) => return self.tell(index, message),
        };
        if condition + body > MAX_WHILE {
            return self.tell(index, Message::WhileTooLong { length: condition + body });
        }
        self.lengths.insert(index, vec![condition as u8, body as u8]);
    }

    /// Warns of a given length that is not the one up to the block's end. An ELSE that another ELSE follows has no end.
    fn compare(&mut self, opener: Opener, end: usize, length: usize) {
        let Some(&given) = self.given(opener.index).and_then(<[u8]>::last) else { return };
        let (found, line) = (self.statements[end].statement.name(), self.statements[end].line);
        let has_no_end = opener.kind == Kind::Else && found == "ELSE";
        if has_no_end || usize::from(given) == length {
            return;
        }
        let leads_on = self.is_later_end(end, self.past(opener.index) + usize::from(given));
        let hint = if leads_on { as_data(opener.kind.end()) } else { String::new() };
        let (opener_text, length) = (self.with_lengths(opener.index), in_bytes(length));
        let message = match opener.kind {
            Kind::While => Message::BodyDiffers { opener: opener_text, line, length, hint },
            Kind::If | Kind::Else => Message::EndMissed { opener: opener_text, end: found, line, length, hint },
        };
        self.tell(opener.index, message);
    }

    /// Whether an end of the same kind stands at a later place. Then the first may only take something off the stack.
    fn is_later_end(&self, end: usize, place: usize) -> bool {
        let name = self.statements[end].statement.name();
        let mut later = self.statements[end + 1..].iter().take_while(|placed| placed.offset <= place);
        name != "ELSE" && later.any(|placed| placed.offset == place && is_end(placed.statement.name(), name))
    }

    /// Warns of a WHILE whose given lengths are too large: fault 8 if "c + b above 251" (document 01).
    fn warn_of_lengths(&mut self, index: usize) {
        let sum = self.given(index).map_or(0, |given| given.iter().copied().map(usize::from).sum());
        if sum > MAX_WHILE {
            self.tell(index, Message::LengthsTooLarge { opener: self.with_lengths(index) });
        }
    }

    /// The lengths that the source gives.
    fn given(&self, index: usize) -> Option<&[u8]> {
        match &self.statements[index].statement.operands {
            Operands::Bytes(bytes) => Some(bytes),
            _ => None,
        }
    }

    /// An opener with its given lengths: 'WHILE 6 8'.
    fn with_lengths(&self, index: usize) -> String {
        let lengths = self.given(index).unwrap_or(&[]).iter().map(|length| format!(" {length}"));
        self.name(index) + &lengths.collect::<String>()
    }

    /// Where the condition of a WHILE begins.
    fn condition_start(&self, index: usize) -> Result<usize, Message> {
        let placed = &self.statements[index];
        let Operands::From(label) = &placed.statement.operands else { return self.shortest_condition(index) };
        match self.labels.get(label.text) {
            Some(found) if found.line < placed.line => Ok(found.offset),
            _ => Err(Message::UnknownLabel { name: label.text.into() }),
        }
    }

    /// The shortest run of instructions that leaves one value more than it finds, and takes none that it did not push.
    fn shortest_condition(&self, index: usize) -> Result<usize, Message> {
        let mut wanted = 1;
        for placed in self.statements[..index].iter().rev() {
            // What is not known yet is told where it stands.
            if placed.statement.instruction.is_none() && placed.statement.operands == Operands::Unread {
                return Ok(placed.offset);
            }
            let Some((pops, pushes)) = plain_effect(placed) else {
                let found = placed.statement.name().to_string();
                return Err(Message::ConditionUnclear { found, line: placed.line });
            };
            wanted = wanted + pops - pushes;
            if wanted == 0 {
                return Ok(placed.offset);
            }
        }
        Err(Message::ConditionMissing {})
    }

    /// Where a jump of IF, ELSE or WHILE counts from: "past its arguments".
    fn past(&self, index: usize) -> usize {
        let placed = &self.statements[index];
        placed.offset + placed.statement.length()
    }

    fn name(&self, index: usize) -> String {
        self.statements[index].statement.name().to_string()
    }

    fn tell(&mut self, index: usize, message: Message) {
        let placed = &self.statements[index];
        let problem = match (&message, &placed.statement.operands) {
            (Message::UnknownLabel { .. }, Operands::From(label)) => label.problem(message),
            _ => placed.statement.problem(message),
        };
        self.problems.push((placed.line, problem));
    }
}

/// Whether a body that ends with `end` could end with `name`.
fn is_end(name: &str, end: &str) -> bool {
    name == end || (name == "ELSE" && end == "ENDIF")
}

/// How an end that is none is written.
fn as_data(end: &str) -> String {
    let taken = if end == "ENDIF" { "a number" } else { "a byte" };
    format!("; an {end} that only takes {taken} off the stack is written DATA {end}")
}

fn in_bytes(length: usize) -> String {
    format!("{length} byte{}", if length == 1 { "" } else { "s" })
}

/// The end that ELSE, ENDIF or ENDWHILE belongs with.
fn end_of(name: &str) -> &'static str {
    if name == "ENDWHILE" {
        "ENDWHILE"
    } else {
        "ENDIF"
    }
}

/// How many values an instruction pops and pushes, if the next one follows it and the stack shows it.
fn plain_effect(placed: &Placed) -> Option<(usize, usize)> {
    let instruction = placed.statement.instruction.filter(|instruction| instruction.built)?;
    match instruction.mnemonic {
        "IF" | "ELSE" | "ENDIF" | "WHILE" | "ENDWHILE" | "LOOP" | "ENDLOOP" | "STOP" => None,
        _ => Some((instruction.pops.len(), instruction.pushes)),
    }
}
