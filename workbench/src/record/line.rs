//! One line of a record, written and read.

use crate::buffers::{Answer, Buffers};
use crate::checksum;
use crate::literal;
use kernel::call::Call;
use kernel::sizes::{ROUND_OUTPUT, TURN_OUTPUT};
use std::fmt;

/// The line that every record begins with.
pub const FIRST_LINE: &str = "arduinos record 1";

#[derive(Clone, Debug, PartialEq, Eq)]
pub enum Line {
    /// The disc's length; rows of it follow.
    Disc(usize),
    /// The work area's length; rows of it follow.
    Area(usize),
    /// Bytes of the last named buffer from a place on; all others are zero.
    At(usize, Vec<u8>),
    Made(Made),
    /// The checksum of all lines above, their newlines too.
    Sum(u32),
}

/// A call with its number and output, and the checksums of both buffers after it.
#[derive(Clone, Debug, PartialEq, Eq)]
pub struct Made {
    pub call: Call,
    pub answer: Answer,
    pub disc: u32,
    pub area: u32,
}

impl Made {
    pub fn new(call: Call, answer: &Answer, buffers: &Buffers) -> Made {
        let (disc, area) = (checksum::of(&buffers.disc), checksum::of(&buffers.area));
        Made { call, answer: answer.clone(), disc, area }
    }

    /// The call as it is recorded: its name and arguments; the room of a turn or round where it is not the usual one.
    pub fn call_text(&self) -> String {
        let arguments = match &self.call {
            Call::Format | Call::Boot | Call::FreeSpace => String::new(),
            Call::Store { name, data } => format!(" {} {}", literal::text(name), literal::text(data)),
            Call::Retrieve { name, room } => format!(" {} room {room}", literal::text(name)),
            Call::Erase { name } | Call::Run { name } => format!(" {}", literal::text(name)),
            Call::Files { room } | Call::List { room } => format!(" room {room}"),
            Call::Suspend { id } | Call::Resume { id } | Call::Kill { id } => format!(" {id}"),
            Call::Share { id, share } => format!(" {id} {share}"),
            Call::Turn { slot, clock, room: TURN_OUTPUT } => format!(" {slot} {clock}"),
            Call::Turn { slot, clock, room } => format!(" {slot} {clock} room {room}"),
            Call::Round { clock, room: ROUND_OUTPUT } => format!(" {clock}"),
            Call::Round { clock, room } => format!(" {clock} room {room}"),
        };
        format!("{}{arguments}", self.call.name())
    }
}

impl fmt::Display for Line {
    fn fmt(&self, f: &mut fmt::Formatter<'_>) -> fmt::Result {
        match self {
            Line::Disc(length) => write!(f, "disc {length}"),
            Line::Area(length) => write!(f, "area {length}"),
            Line::At(place, bytes) => {
                write!(f, "at {place} ")?;
                bytes.iter().try_for_each(|byte| write!(f, "{byte:02x}"))
            }
            Line::Made(made) => {
                write!(f, "{} = {}", made.call_text(), made.answer.number)?;
                if !made.answer.output.is_empty() {
                    write!(f, " {}", literal::text(&made.answer.output))?;
                }
                write!(f, " disc {:08x} area {:08x}", made.disc, made.area)
            }
            Line::Sum(sum) => write!(f, "sum {sum:08x}"),
        }
    }
}

/// What was expected at a column, counted from 1.
#[derive(Clone, Debug, PartialEq, Eq)]
pub struct LineError {
    pub column: usize,
    pub expected: &'static str,
}

type Read<T> = Result<T, LineError>;

impl Line {
    pub fn read(text: &str) -> Read<Line> {
        let mut words = Words::new(text);
        let line = match words.word() {
            "disc" => Line::Disc(words.number("a length")?),
            "area" => Line::Area(words.number("a length")?),
            "at" => Line::At(words.number("a place")?, words.bytes()?),
            "sum" => Line::Sum(words.checksum()?),
            name => Line::Made(made(name, &mut words)?),
        };
        words.end()?;
        // What was read is what would be written: a line has one form.
        let written = line.to_string();
        let same = written.chars().zip(text.chars()).take_while(|(a, b)| a == b).count();
        if written != text {
            return Err(LineError { column: same + 1, expected: "the form in which a record is written" });
        }
        Ok(line)
    }
}

fn made(name: &str, words: &mut Words) -> Read<Made> {
    let call = call(name, words)?;
    words.exactly("=", "'='")?;
    let number = words.number("the number that was answered")?;
    let output = if words.next_is('"') { words.text("the output")? } else { Vec::new() };
    words.exactly("disc", "'disc' and its checksum")?;
    let disc = words.checksum()?;
    words.exactly("area", "'area' and its checksum")?;
    let area = words.checksum()?;
    Ok(Made { call, answer: Answer { number, output }, disc, area })
}

fn call(name: &str, words: &mut Words) -> Read<Call> {
    Ok(match name {
        "format" => Call::Format,
        "boot" => Call::Boot,
        "store" => Call::Store { name: words.text("a name")?, data: words.text("the data")? },
        "retrieve" => Call::Retrieve { name: words.text("a name")?, room: words.room(None)? },
        "erase" => Call::Erase { name: words.text("a name")? },
        "files" => Call::Files { room: words.room(None)? },
        "free_space" => Call::FreeSpace,
        "run" => Call::Run { name: words.text("a name")? },
        "suspend" => Call::Suspend { id: words.number("an ID")? },
        "resume" => Call::Resume { id: words.number("an ID")? },
        "kill" => Call::Kill { id: words.number("an ID")? },
        "share" => Call::Share { id: words.number("an ID")?, share: words.number("a share")? },
        "list" => Call::List { room: words.room(None)? },
        "turn" => {
            let (slot, clock) = (words.number("a slot")?, words.number("a clock reading")?);
            Call::Turn { slot, clock, room: words.room(Some(TURN_OUTPUT))? }
        }
        "round" => Call::Round { clock: words.number("a clock reading")?, room: words.room(Some(ROUND_OUTPUT))? },
        _ => return Err(LineError { column: 1, expected: "a call, 'disc', 'area', 'at' or 'sum'" }),
    })
}

/// The most output bytes that a record may lend.
const MOST_ROOM: usize = 65_536;

/// The words of a line, one space between them.
struct Words<'a> {
    text: &'a str,
    at: usize,
}

impl<'a> Words<'a> {
    fn new(text: &'a str) -> Words<'a> {
        Words { text, at: 0 }
    }

    fn rest(&self) -> &'a str {
        &self.text[self.at..]
    }

    fn fail<T>(&self, expected: &'static str) -> Read<T> {
        Err(LineError { column: self.text[..self.at].chars().count() + 1, expected })
    }

    fn next_is(&self, first: char) -> bool {
        self.rest().starts_with(first)
    }

    /// Takes so many bytes and the one space after them.
    fn take(&mut self, length: usize) -> &'a str {
        let taken = &self.rest()[..length];
        self.at += length;
        if self.rest().len() > 1 && self.next_is(' ') {
            self.at += 1;
        }
        taken
    }

    fn word(&mut self) -> &'a str {
        let length = self.rest().find(' ').unwrap_or(self.rest().len());
        self.take(length)
    }

    fn exactly(&mut self, word: &str, expected: &'static str) -> Read<()> {
        let from = self.at;
        if self.word() == word {
            return Ok(());
        }
        self.at = from;
        self.fail(expected)
    }

    /// A number as it is written: no sign but '-', no zeros in front.
    fn number<T: std::str::FromStr + fmt::Display>(&mut self, expected: &'static str) -> Read<T> {
        let from = self.at;
        let word = self.word();
        match word.parse::<T>() {
            Ok(number) if number.to_string() == word => Ok(number),
            _ => {
                self.at = from;
                self.fail(expected)
            }
        }
    }

    fn checksum(&mut self) -> Read<u32> {
        let from = self.at;
        let word = self.word();
        match u32::from_str_radix(word, 16) {
            Ok(sum) if format!("{sum:08x}") == word => Ok(sum),
            _ => {
                self.at = from;
                self.fail("a checksum of eight hex digits")
            }
        }
    }

    fn bytes(&mut self) -> Read<Vec<u8>> {
        let from = self.at;
        let word = self.word();
        let pairs = word.as_bytes().chunks(2);
        let bytes: Option<Vec<u8>> = pairs.map(hex_byte).collect();
        match bytes {
            Some(bytes) if !bytes.is_empty() => Ok(bytes),
            _ => {
                self.at = from;
                self.fail("bytes of two hex digits each")
            }
        }
    }

    fn room(&mut self, usual: Option<usize>) -> Read<usize> {
        if let (Some(usual), false) = (usual, self.rest().starts_with("room ")) {
            return Ok(usual);
        }
        self.exactly("room", "'room' and the output bytes lent")?;
        let from = self.at;
        let room = self.number("the output bytes lent")?;
        if room > MOST_ROOM {
            self.at = from;
            return self.fail("at most 65536 output bytes");
        }
        Ok(room)
    }

    fn text(&mut self, expected: &'static str) -> Read<Vec<u8>> {
        match literal::read_text(self.rest()) {
            Some((bytes, length)) => {
                self.take(length);
                Ok(bytes)
            }
            None => self.fail(expected),
        }
    }

    fn end(&self) -> Read<()> {
        if self.rest().is_empty() {
            return Ok(());
        }
        self.fail("the end of the line")
    }
}

fn hex_byte(pair: &[u8]) -> Option<u8> {
    let digit = |byte: u8| match byte {
        b'0'..=b'9' => Some(byte - b'0'),
        b'a'..=b'f' => Some(byte - b'a' + 10),
        _ => None,
    };
    match pair {
        &[high, low] => Some(digit(high)? * 16 + digit(low)?),
        _ => None,
    }
}
