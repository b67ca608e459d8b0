//! What follows an instruction in the source.

use super::lexer::{is_negative_infinity, with_ascii_minus, Kind, Token};
use super::message::{Message, Problem};
use crate::instruction::{self, Arguments, Instruction};
use crate::value;

/// The guide's symbolic constants (document 004, A.4).
const CONSTANTS: [(&str, u8); 3] = [("LED_BUILTIN", 13), ("OUTPUT", 1), ("INPUT", 0)];

const NAN: u32 = 0x7FC0_0000;

#[derive(Clone, Debug, PartialEq)]
pub enum Operands<'a> {
    Bytes(Vec<u8>),
    /// A variable with a name of several characters, which is given a byte later.
    Variable(Token<'a>),
    /// Lengths that are counted later.
    Counted,
    /// WHILE's lengths, counted later, with the condition from this label on.
    From(Token<'a>),
    /// The line has a problem.
    Unread,
}

type Read<'a> = Result<Operands<'a>, Problem>;

/// The tokens after an instruction or DATA, and where the line ends.
pub struct Following<'t, 'a> {
    pub name: &'a str,
    pub tokens: &'t [Token<'a>],
    pub end: usize,
}

impl<'a> Following<'_, 'a> {
    pub fn operands(&self, instruction: &Instruction) -> Read<'a> {
        match instruction.arguments {
            Arguments::None => self.bytes_to_end(0, vec![]),
            Arguments::Char => self.char(),
            Arguments::Int => self.int(),
            Arguments::Float => self.float(),
            Arguments::Text => self.string(),
            Arguments::Name => self.variable(),
            Arguments::Length => self.length(),
            Arguments::Lengths => self.lengths(),
        }
    }

    /// A problem with the token at an index, or with the end of the line if there is none.
    fn problem(&self, index: usize, message: impl Fn(String) -> Message) -> Problem {
        match self.tokens.get(index) {
            Some(token) => token.problem(message(token.shown())),
            None => Problem { column: self.end, width: 1, message: message("the end of the line".into()) },
        }
    }

    /// The bytes, if no token follows the first `count`.
    fn bytes_to_end(&self, count: usize, bytes: Vec<u8>) -> Read<'a> {
        self.to_end(count)?;
        Ok(Operands::Bytes(bytes))
    }

    /// Refuses tokens after the first `count`.
    pub fn to_end(&self, count: usize) -> Result<(), Problem> {
        if self.tokens.len() <= count {
            return Ok(());
        }
        Err(self.problem(count, |found| Message::EndOfLine { after: self.name.into(), found }))
    }

    /// The first `N` tokens as bytes; `missing` if there are fewer.
    fn bytes<const N: usize>(&self, missing: impl Fn(String) -> Message) -> Result<[u8; N], Problem> {
        let mut bytes = [0; N];
        for (index, byte) in bytes.iter_mut().enumerate() {
            let Some(token) = self.tokens.get(index) else { return Err(self.problem(index, missing)) };
            *byte = token.byte().ok_or_else(|| self.not_a_byte(index))?;
        }
        Ok(bytes)
    }

    fn not_a_byte(&self, index: usize) -> Problem {
        self.problem(index, |found| Message::Byte { after: self.name.into(), found })
    }

    /// INT and FLOAT have single bytes after them if two tokens could be some.
    fn has_bytes(&self) -> bool {
        matches!(self.tokens, [first, second, ..] if first.is_byte_like() && second.is_byte_like())
    }

    fn char(&self) -> Read<'a> {
        let byte = self.tokens.first().and_then(|token| match token.kind {
            Kind::Whole { value: value @ -128..=-1, .. } => Some(value as u8),
            _ => token.byte().or_else(|| constant(token)),
        });
        let byte = byte.ok_or_else(|| self.problem(0, |found| Message::CharArgument { found }))?;
        self.bytes_to_end(1, vec![byte])
    }

    fn int(&self) -> Read<'a> {
        let wrong = |found| Message::IntArgument { found };
        if self.has_bytes() {
            return self.bytes_to_end(2, self.bytes::<2>(wrong)?.to_vec());
        }
        let number = self.tokens.first().and_then(int).ok_or_else(|| self.problem(0, wrong))?;
        self.bytes_to_end(1, number.to_vec())
    }

    fn float(&self) -> Read<'a> {
        let wrong = |found| Message::FloatArgument { found };
        if self.has_bytes() {
            return self.bytes_to_end(4, self.bytes::<4>(wrong)?.to_vec());
        }
        let Some(bits) = self.tokens.first().and_then(float) else { return Err(self.problem(0, wrong)) };
        self.to_end(1)?;
        if self.tokens[0].kind != Kind::Word && !f32::from_bits(bits).is_finite() {
            return Err(self.problem(0, |found| Message::FloatRange { found }));
        }
        Ok(Operands::Bytes(bits.to_be_bytes().to_vec()))
    }

    fn string(&self) -> Read<'a> {
        match self.tokens.first().map(|token| &token.kind) {
            Some(Kind::Text(text)) => self.text(text),
            Some(Kind::Whole { .. } | Kind::Character(_)) => self.string_bytes(),
            _ => Err(self.problem(0, |found| Message::StringArgument { found })),
        }
    }

    fn text(&self, text: &[u8]) -> Read<'a> {
        if text.contains(&0) {
            return Err(self.problem(0, |_| Message::TextZero {}));
        }
        let mut bytes = text.to_vec();
        bytes.push(0);
        self.bytes_to_end(1, bytes)
    }

    fn string_bytes(&self) -> Read<'a> {
        let mut bytes = Vec::new();
        for (index, token) in self.tokens.iter().enumerate() {
            bytes.push(token.byte().ok_or_else(|| self.not_a_byte(index))?);
        }
        match bytes.iter().position(|&byte| byte == 0) {
            None => Err(self.problem(bytes.len(), |_| Message::ZeroMissing {})),
            Some(zero) if zero + 1 < bytes.len() => Err(self.problem(zero, |_| Message::ZeroInside {})),
            Some(_) => Ok(Operands::Bytes(bytes)),
        }
    }

    fn variable(&self) -> Read<'a> {
        if self.tokens.first().is_some_and(|token| is_reserved(token.text)) {
            return Err(self.problem(0, |found| Message::ReservedName { after: self.name.into(), found }));
        }
        let variable = self.tokens.first().and_then(|token| match token.kind {
            Kind::Word if is_negative_infinity(token.text) => None,
            Kind::Word => match token.text.as_bytes() {
                &[letter] => Some(Operands::Bytes(vec![letter])),
                _ => Some(Operands::Variable(token.clone())),
            },
            _ => token.byte().map(|byte| Operands::Bytes(vec![byte])),
        });
        let wrong = |found| Message::Variable { after: self.name.into(), found };
        let variable = variable.ok_or_else(|| self.problem(0, wrong))?;
        self.to_end(1)?;
        Ok(variable)
    }

    fn length(&self) -> Read<'a> {
        if self.tokens.is_empty() {
            return Ok(Operands::Counted);
        }
        let wrong = |found| Message::Length { after: self.name.into(), found };
        let length = number(&self.tokens[0]).ok_or_else(|| self.problem(0, wrong))?;
        self.bytes_to_end(1, vec![length])
    }

    fn lengths(&self) -> Read<'a> {
        match self.tokens {
            [] => Ok(Operands::Counted),
            [label, ..] if label.kind == Kind::Word && !is_reserved(label.text) => {
                self.to_end(1)?;
                Ok(Operands::From(label.clone()))
            }
            [first, ..] => {
                let wrong = |found| Message::Lengths { found };
                let condition = number(first).ok_or_else(|| self.problem(0, wrong))?;
                let wrong = |found| Message::SecondLength { first: first.text.into(), found };
                let body = self.tokens.get(1).and_then(number).ok_or_else(|| self.problem(1, wrong))?;
                self.bytes_to_end(2, vec![condition, body])
            }
        }
    }

    /// What follows DATA.
    pub fn data(&self) -> Read<'a> {
        let wrong = |index| self.problem(index, |found| Message::Data { found });
        if self.tokens.is_empty() {
            return Err(wrong(0));
        }
        let mut bytes = Vec::new();
        for (index, token) in self.tokens.iter().enumerate() {
            match &token.kind {
                Kind::Text(text) => bytes.extend(text),
                _ => bytes.push(token.byte().or_else(|| constant(token)).ok_or_else(|| wrong(index))?),
            }
        }
        Ok(Operands::Bytes(bytes))
    }
}

/// A literal that stands alone: the instruction that pushes it, and its bytes.
pub fn literal(token: &Token) -> Option<(u8, Result<Vec<u8>, Problem>)> {
    let wrong = |message| Err(token.problem(message));
    match &token.kind {
        Kind::Whole { .. } => {
            let bytes = int(token).map(|bytes| bytes.to_vec());
            Some((value::INT, bytes.map_or_else(|| wrong(Message::IntRange { found: token.shown() }), Ok)))
        }
        Kind::Real(number) => Some((value::FLOAT, Ok(number.to_bits().to_be_bytes().to_vec()))),
        Kind::Character(byte) => Some((value::CHAR, Ok(vec![*byte]))),
        Kind::Text(text) if text.contains(&0) => Some((value::STRING, wrong(Message::TextZero {}))),
        Kind::Text(text) => Some((value::STRING, Ok([text.as_slice(), &[0]].concat()))),
        Kind::Word | Kind::Colon => None,
    }
}

/// A word that is no name of a variable or label.
pub fn is_reserved(word: &str) -> bool {
    instruction::named(word).is_some() || word.eq_ignore_ascii_case("DATA")
}

/// An instruction's number, or a constant of the guide.
fn constant(token: &Token) -> Option<u8> {
    let constant = CONSTANTS.iter().find(|(name, _)| *name == token.text).map(|(_, value)| *value);
    instruction::named(token.text).map(|instruction| instruction.number).or(constant)
}

/// A byte written as a number.
fn number(token: &Token) -> Option<u8> {
    matches!(token.kind, Kind::Whole { .. }).then(|| token.byte()).flatten()
}

/// The two bytes of a whole number; a hexadecimal one may go up to 0xFFFF.
fn int(token: &Token) -> Option<[u8; 2]> {
    match token.kind {
        Kind::Whole { value, hex: true } if u16::try_from(value).is_ok() => Some((value as u16).to_be_bytes()),
        Kind::Whole { value, .. } => i16::try_from(value).ok().map(i16::to_be_bytes),
        _ => None,
    }
}

/// The bits of a number, infinite if it is too large.
fn float(token: &Token) -> Option<u32> {
    match token.kind {
        Kind::Real(number) => Some(number.to_bits()),
        Kind::Whole { hex: false, .. } => with_ascii_minus(token.text).parse::<f32>().ok().map(f32::to_bits),
        Kind::Word if token.text.eq_ignore_ascii_case("nan") => Some(NAN),
        Kind::Word if token.text.eq_ignore_ascii_case("inf") => Some(f32::INFINITY.to_bits()),
        Kind::Word if is_negative_infinity(token.text) => Some(f32::NEG_INFINITY.to_bits()),
        _ => None,
    }
}
