//! A source line as tokens with their columns.

use super::message::{Message, Problem};
use crate::instruction;

#[derive(Clone, Debug, PartialEq)]
pub enum Kind {
    Word,
    /// A whole number; one beyond 64 bits counts as the furthest there.
    Whole {
        value: i64,
        hex: bool,
    },
    /// A finite number with a point or an exponent.
    Real(f32),
    Character(u8),
    Text(Vec<u8>),
    Colon,
}

#[derive(Clone, Debug, PartialEq)]
pub struct Token<'a> {
    pub kind: Kind,
    pub text: &'a str,
    pub column: usize,
    pub width: usize,
}

impl Token<'_> {
    /// The token as a message names it.
    pub fn shown(&self) -> String {
        match self.kind {
            Kind::Word => match instruction::named(self.text) {
                Some(found) => format!("the instruction {}", found.mnemonic),
                None if self.text.eq_ignore_ascii_case("DATA") => "DATA".into(),
                None => format!("'{}'", self.text),
            },
            Kind::Colon => "':'".into(),
            _ => self.text.into(),
        }
    }

    pub fn problem(&self, message: Message) -> Problem {
        Problem { column: self.column, width: self.width, message }
    }

    /// A byte written as a number or a character.
    pub fn byte(&self) -> Option<u8> {
        match self.kind {
            Kind::Whole { value, .. } => u8::try_from(value).ok(),
            Kind::Character(byte) => Some(byte),
            _ => None,
        }
    }

    /// A number or a character, whether it fits a byte or not.
    pub fn is_byte_like(&self) -> bool {
        matches!(self.kind, Kind::Whole { .. } | Kind::Character(_))
    }
}

/// What is wrong with a token: bytes of the text from where the token begins.
struct Wrong {
    start: usize,
    length: usize,
    message: Message,
}

/// The tokens of a line up to its comment, and the problem that ended them early, if there is one.
pub fn tokens(line: &str) -> (Vec<Token<'_>>, Option<Problem>) {
    let mut found = Vec::new();
    let (mut rest, mut column) = past_blanks(line, 1);
    while !rest.is_empty() && !begins_comment(rest) {
        match token(rest) {
            Ok((kind, length)) => {
                let (text, following) = rest.split_at(length);
                let width = text.chars().count();
                found.push(Token { kind, text, column, width });
                (rest, column) = past_blanks(following, column + width);
            }
            Err(Wrong { start, length, message }) => {
                let column = column + rest[..start].chars().count();
                let width = rest[start..start + length].chars().count();
                return (found, Some(Problem { column, width, message }));
            }
        }
    }
    (found, None)
}

fn past_blanks(text: &str, column: usize) -> (&str, usize) {
    let rest = text.trim_start();
    (rest, column + text[..text.len() - rest.len()].chars().count())
}

fn begins_comment(text: &str) -> bool {
    text.starts_with([';', '#']) || text.starts_with("//")
}

/// The token at the front of a text that is not empty, and its length in bytes.
fn token(rest: &str) -> Result<(Kind, usize), Wrong> {
    if rest.starts_with(':') {
        return Ok((Kind::Colon, 1));
    }
    if rest.starts_with(['\'', '"']) {
        return quoted(rest);
    }
    let ends = |&(at, c): &(usize, char)| c.is_whitespace() || ":'\"".contains(c) || begins_comment(&rest[at..]);
    let length = rest.char_indices().find(ends).map_or(rest.len(), |(at, _)| at);
    let kind = word_or_number(&rest[..length]).map_err(|message| Wrong { start: 0, length, message })?;
    Ok((kind, length))
}

fn word_or_number(text: &str) -> Result<Kind, Message> {
    let plain = with_ascii_minus(text);
    let magnitude = plain.strip_prefix('-').unwrap_or(&plain);
    let is_word = |word: &str| word.chars().all(|c| c.is_ascii_alphanumeric() || c == '_');
    if (is_word(text) && !text.starts_with(|c: char| c.is_ascii_digit())) || is_negative_infinity(text) {
        return Ok(Kind::Word);
    }
    let found = || text.escape_debug().to_string();
    if !text.starts_with(|c: char| c.is_ascii_digit() || "-+.\u{2212}".contains(c)) {
        return Err(Message::Symbol { found: found() });
    }
    if let Some((value, hex)) = whole(magnitude) {
        return Ok(Kind::Whole { value: if plain.starts_with('-') { -value } else { value }, hex });
    }
    let begins_number = magnitude.starts_with(|c: char| c.is_ascii_digit() || c == '.');
    match plain.parse::<f32>() {
        Ok(value) if begins_number && value.is_finite() => Ok(Kind::Real(value)),
        Ok(_) if begins_number => Err(Message::FloatRange { found: found() }),
        _ => Err(Message::Number { found: found() }),
    }
}

/// The text with the minus sign U+2212 as '-'.
pub fn with_ascii_minus(text: &str) -> String {
    text.replace('\u{2212}', "-")
}

pub fn is_negative_infinity(text: &str) -> bool {
    with_ascii_minus(text).eq_ignore_ascii_case("-inf")
}

/// A whole number without sign, and whether it is hexadecimal.
fn whole(text: &str) -> Option<(i64, bool)> {
    let (digits, radix) = match text.strip_prefix("0x").or(text.strip_prefix("0X")) {
        Some(digits) => (digits, 16),
        None => (text, 10),
    };
    if digits.is_empty() || !digits.chars().all(|c| c.is_digit(radix)) {
        return None;
    }
    Some((i64::from_str_radix(digits, radix).unwrap_or(i64::MAX), radix == 16))
}

/// A character or a text, from its opening quote.
fn quoted(rest: &str) -> Result<(Kind, usize), Wrong> {
    let quote = if rest.starts_with('"') { '"' } else { '\'' };
    let mut bytes = Vec::new();
    let mut at = 1;
    while let Some(c) = rest[at..].chars().next() {
        if c == quote {
            return closed(quote, bytes, at + 1);
        }
        let (byte, length) = match c {
            '\\' => escape(&rest[at..]).map_err(|(message, length)| Wrong { start: at, length, message })?,
            ' '..='~' => (c as u8, 1),
            _ => {
                let found = if c.is_control() { format!("U+{:04X}", u32::from(c)) } else { format!("'{c}'") };
                return Err(Wrong { start: at, length: c.len_utf8(), message: Message::NotPrintable { found } });
            }
        };
        bytes.push(byte);
        at += length;
    }
    Err(Wrong { start: 0, length: rest.len(), message: Message::Unclosed { quote } })
}

fn closed(quote: char, bytes: Vec<u8>, length: usize) -> Result<(Kind, usize), Wrong> {
    match (quote, bytes.as_slice()) {
        ('"', _) => Ok((Kind::Text(bytes), length)),
        (_, &[byte]) => Ok((Kind::Character(byte), length)),
        _ => Err(Wrong { start: 0, length, message: Message::OneCharacter { found: bytes.len() } }),
    }
}

/// The byte of an escape and the escape's length; if there is none the message and the length it is about.
fn escape(text: &str) -> Result<(u8, usize), (Message, usize)> {
    let byte = match text[1..].chars().next() {
        Some('n') => b'\n',
        Some('t') => b'\t',
        Some('r') => b'\r',
        Some('0') => 0,
        Some(c @ ('\\' | '\'' | '"')) => c as u8,
        Some('x') => return hexadecimal(text),
        Some(c) => {
            let found = format!("\\{}", c.escape_debug());
            return Err((Message::Escape { found }, 1 + c.len_utf8()));
        }
        None => return Err((Message::Escape { found: "the end of the line".into() }, 1)),
    };
    Ok((byte, 2))
}

fn hexadecimal(text: &str) -> Result<(u8, usize), (Message, usize)> {
    let digits: String = text.chars().skip(2).take(2).take_while(char::is_ascii_hexdigit).collect();
    match u8::from_str_radix(&digits, 16) {
        Ok(byte) if digits.len() == 2 => Ok((byte, 4)),
        _ => Err((Message::Escape { found: format!("\\x{digits}") }, 2 + digits.len())),
    }
}
