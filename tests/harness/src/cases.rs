//! Cases written down: literal calls with the answers that document 01 gives. `cases/README.md` tells the form.

use crate::comparison::{Answered, Compared, Comparison};
use crate::kernels::State;
use kernel::call::Call;
use second::layout::{LONG_DISC, SHORT_DISC};

/// What the output holds before a call unless a case says otherwise.
const OUTPUT_BYTE: u8 = 0xEE;

/// One line of a case.
enum Line {
    Length { disc: bool, length: usize },
    Set { disc: bool, at: usize, bytes: Vec<u8> },
    Output(Vec<u8>),
    Call { call: Call, number: i32 },
    Expect { buffer: Buffer, at: usize, bytes: Vec<u8> },
}

#[derive(Clone, Copy, PartialEq, Eq)]
enum Buffer {
    Disc,
    Area,
    Output,
}

/// A named case, tried on a disc of each of these lengths.
pub struct Case {
    pub name: String,
    discs: Vec<usize>,
    lines: Vec<(usize, Line)>,
}

/// The cases of a file; an error tells the line.
pub fn parse(text: &str) -> Result<Vec<Case>, String> {
    let mut cases: Vec<Case> = Vec::new();
    for (number, line) in text.lines().enumerate().map(|(index, line)| (index + 1, line.trim())) {
        if line.is_empty() || line.starts_with('#') {
            continue;
        }
        if let Some(name) = line.strip_prefix("case ") {
            cases.push(Case { name: name.to_string(), discs: vec![SHORT_DISC, LONG_DISC], lines: Vec::new() });
            continue;
        }
        let case = cases.last_mut().ok_or_else(|| format!("line {number} stands before any case"))?;
        let wrong = || format!("line {number} is not understood: {line}");
        match line.strip_prefix("discs ") {
            Some(lengths) if case.lines.is_empty() => case.discs = numbers(lengths).ok_or_else(wrong)?,
            _ => case.lines.push((number, parse_line(line).ok_or_else(wrong)?)),
        }
    }
    Ok(cases)
}

fn numbers(text: &str) -> Option<Vec<usize>> {
    text.split(' ').map(|number| number.parse().ok()).collect()
}

/// Makes the calls of a case on both kernels and compares the answers with those written down.
pub fn compare_case(comparison: &mut Comparison, case: &Case, index: u64) -> Compared<()> {
    comparison.begin("cases", index);
    case.discs.iter().try_for_each(|&length| compare_on(comparison, case, length))
}

fn compare_on(comparison: &mut Comparison, case: &Case, disc_len: usize) -> Compared<()> {
    let answered = Answered { number: 0, output: Vec::new() };
    let mut trial = Trial { state: State::zero(disc_len), output: None, answered };
    for (number, line) in &case.lines {
        if let Some(what) = trial.step(comparison, line)? {
            let place = format!("# case {} on a disc of {disc_len}, line {number}", case.name);
            return Err(comparison.broken(format!("{place}: both kernels differ from the case: {what}")));
        }
    }
    comparison.coverage.reach("cases held");
    Ok(())
}

/// A case under way: the buffers, the next call's output if it is given, what the last call answered.
struct Trial {
    state: State,
    output: Option<Vec<u8>>,
    answered: Answered,
}

impl Trial {
    /// Does what a line says; returns what was found where that is not what it expects.
    fn step(&mut self, comparison: &mut Comparison, line: &Line) -> Compared<Option<String>> {
        match line {
            Line::Length { disc, length } => buffer_of(&mut self.state, *disc).resize(*length, 0),
            Line::Set { disc, at, bytes } => {
                buffer_of(&mut self.state, *disc)[*at..at + bytes.len()].copy_from_slice(bytes);
            }
            Line::Output(bytes) => self.output = Some(bytes.clone()),
            Line::Call { call, number } => {
                let lent = self.output.take().unwrap_or_else(|| vec![OUTPUT_BYTE; call.room()]);
                self.answered = comparison.call_with_output(&mut self.state, call, lent)?;
                let found = self.answered.number;
                return Ok((found != *number).then(|| format!("{} answers {found}", call_text(call))));
            }
            Line::Expect { buffer, at, bytes } => {
                let found = match buffer {
                    Buffer::Disc => &self.state.disc,
                    Buffer::Area => &self.state.area,
                    Buffer::Output => &self.answered.output,
                };
                let found = found.get(*at..at + bytes.len()).unwrap_or(&[]);
                return Ok((found != bytes).then(|| format!("found {}", literal(found))));
            }
        }
        Ok(None)
    }
}

fn buffer_of(state: &mut State, disc: bool) -> &mut Vec<u8> {
    if disc {
        &mut state.disc
    } else {
        &mut state.area
    }
}

fn parse_line(line: &str) -> Option<Line> {
    let tokens = tokens(line)?;
    let words: Vec<&str> = tokens.iter().map(String::as_str).collect();
    Some(match words[..] {
        ["length", buffer, length] => Line::Length { disc: disc_or_area(buffer)?, length: length.parse().ok()? },
        ["set", buffer, at, bytes] => {
            Line::Set { disc: disc_or_area(buffer)?, at: at.parse().ok()?, bytes: parse_bytes(bytes)? }
        }
        ["output", bytes] => Line::Output(parse_bytes(bytes)?),
        ["expect", buffer, at, bytes] => {
            Line::Expect { buffer: any_buffer(buffer)?, at: at.parse().ok()?, bytes: parse_bytes(bytes)? }
        }
        ["call", ref call @ .., "=", number] => Line::Call { call: parse_call(call)?, number: number.parse().ok()? },
        _ => return None,
    })
}

fn disc_or_area(word: &str) -> Option<bool> {
    match any_buffer(word)? {
        Buffer::Disc => Some(true),
        Buffer::Area => Some(false),
        Buffer::Output => None,
    }
}

fn any_buffer(word: &str) -> Option<Buffer> {
    match word {
        "disc" => Some(Buffer::Disc),
        "area" => Some(Buffer::Area),
        "output" => Some(Buffer::Output),
        _ => None,
    }
}

fn parse_call(words: &[&str]) -> Option<Call> {
    Some(match *words {
        ["format"] => Call::Format,
        ["boot"] => Call::Boot,
        ["store", name, data] => Call::Store { name: parse_bytes(name)?, data: parse_bytes(data)? },
        ["retrieve", name, room] => Call::Retrieve { name: parse_bytes(name)?, room: room.parse().ok()? },
        ["erase", name] => Call::Erase { name: parse_bytes(name)? },
        ["files", room] => Call::Files { room: room.parse().ok()? },
        ["free_space"] => Call::FreeSpace,
        ["run", name] => Call::Run { name: parse_bytes(name)? },
        ["suspend", id] => Call::Suspend { id: id.parse().ok()? },
        ["resume", id] => Call::Resume { id: id.parse().ok()? },
        ["kill", id] => Call::Kill { id: id.parse().ok()? },
        ["share", id, share] => Call::Share { id: id.parse().ok()?, share: share.parse().ok()? },
        ["list", room] => Call::List { room: room.parse().ok()? },
        ["turn", slot, clock, room] => {
            Call::Turn { slot: slot.parse().ok()?, clock: clock.parse().ok()?, room: room.parse().ok()? }
        }
        ["round", clock, room] => Call::Round { clock: clock.parse().ok()?, room: room.parse().ok()? },
        _ => return None,
    })
}

/// Words, texts between quotes and groups between brackets.
fn tokens(line: &str) -> Option<Vec<String>> {
    let mut tokens = Vec::new();
    let mut rest = line.trim_start();
    while let Some(first) = rest.chars().next() {
        let length = match first {
            '"' => rest[1..].find('"')? + 2,
            '[' => closing_bracket(rest)? + 1,
            _ => rest.find(' ').unwrap_or(rest.len()),
        };
        tokens.push(rest[..length].to_string());
        rest = rest[length..].trim_start();
    }
    Some(tokens)
}

/// The bracket that closes a group; one between quotes does not count.
fn closing_bracket(group: &str) -> Option<usize> {
    let mut quoted = false;
    group.char_indices().find_map(|(at, character)| {
        quoted ^= character == '"';
        (character == ']' && !quoted).then_some(at)
    })
}

/// Bytes: a text between quotes, or numbers, count*number and texts between brackets.
fn parse_bytes(token: &str) -> Option<Vec<u8>> {
    if let Some(text) = token.strip_prefix('"') {
        return Some(text.strip_suffix('"')?.replace("\\n", "\n").into_bytes());
    }
    let inside = token.strip_prefix('[')?.strip_suffix(']')?;
    let mut bytes = Vec::new();
    for item in tokens(inside)? {
        if item.starts_with('"') {
            bytes.extend(parse_bytes(&item)?);
        } else {
            let (count, byte) = item.split_once('*').unwrap_or(("1", &item));
            bytes.extend(std::iter::repeat_n(byte.parse::<u8>().ok()?, count.parse().ok()?));
        }
    }
    Some(bytes)
}

/// Bytes as a case file writes them: decimal numbers between brackets, equal ones in a row as count*byte.
pub fn literal(bytes: &[u8]) -> String {
    let rows: Vec<String> = bytes
        .chunk_by(|a, b| a == b)
        .map(|row| match row.len() {
            1 => row[0].to_string(),
            length => format!("{length}*{}", row[0]),
        })
        .collect();
    format!("[{}]", rows.join(" "))
}

/// A call as a case file writes it.
pub fn call_text(call: &Call) -> String {
    let arguments = match call {
        Call::Format | Call::Boot | Call::FreeSpace => String::new(),
        Call::Store { name, data } => format!(" {} {}", literal(name), literal(data)),
        Call::Retrieve { name, room } => format!(" {} {room}", literal(name)),
        Call::Erase { name } | Call::Run { name } => format!(" {}", literal(name)),
        Call::Files { room } | Call::List { room } => format!(" {room}"),
        Call::Suspend { id } | Call::Resume { id } | Call::Kill { id } => format!(" {id}"),
        Call::Share { id, share } => format!(" {id} {share}"),
        Call::Turn { slot, clock, room } => format!(" {slot} {clock} {room}"),
        Call::Round { clock, room } => format!(" {clock} {room}"),
    };
    format!("{}{arguments}", call.name())
}
