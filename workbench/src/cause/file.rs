//! Faults 11 to 13: "11 no open file; 12 past the file's end; 13 OPEN's new file refused by name, size or *store*'s 8
//! or 9".

use super::words::{are, byte_text, bytes_text, plain};
use super::{variable, Turn};
use crate::layout::{self, DATA_START, MAX_FILES, NAME_LEN};
use crate::literal;
use crate::value::Value;
use kernel::sizes::NAME_BYTES;
use std::fmt;

#[derive(Clone, Debug)]
pub enum Reason {
    NoOpenFile(&'static str),
    Ended {
        mnemonic: &'static str,
        wanted: usize,
        file: OpenFile,
    },
    /// READSTRING's text has no end.
    NoZero(OpenFile),
    /// OPEN's new file of that name, for one of these reasons.
    New {
        name: Vec<u8>,
        refused: Refused,
    },
}

#[derive(Clone, Debug)]
pub enum Refused {
    /// So many bytes.
    NameLength(usize),
    NameByte(u8),
    Size {
        size: Value,
        most: usize,
    },
    TenFiles,
    NoRun {
        wanted: usize,
        longest: usize,
    },
}

/// The file that a process has open.
#[derive(Clone, Debug)]
pub struct OpenFile {
    pub name: String,
    pub length: usize,
    /// Bytes from the file's offset to its end.
    pub left: usize,
}

pub(super) fn tried(turn: &Turn) -> Result<(), Reason> {
    match (turn.instruction.mnemonic, &turn.operands[..]) {
        ("WRITE", [value]) => next_bytes(turn, variable::size(value)),
        ("READCHAR", _) => next_bytes(turn, 1),
        ("READINT", _) => next_bytes(turn, 2),
        ("READFLOAT", _) => next_bytes(turn, 4),
        ("READSTRING", _) => next_text(turn),
        ("OPEN", [size, Value::Text(name)]) => open(turn.disc, name, size),
        _ => Ok(()),
    }
}

fn open_file(turn: &Turn) -> Result<OpenFile, Reason> {
    let length = turn.record.file_length();
    if length == 0 {
        return Err(Reason::NoOpenFile(turn.instruction.mnemonic));
    }
    let entry = turn.record.open_file(&layout::entries(turn.disc));
    let name = entry.map_or(String::new(), |entry| layout::name_text(entry.name));
    Ok(OpenFile { name, length, left: length.saturating_sub(turn.record.file_offset()) })
}

fn next_bytes(turn: &Turn, wanted: usize) -> Result<(), Reason> {
    let file = open_file(turn)?;
    if wanted <= file.left {
        return Ok(());
    }
    Err(Reason::Ended { mnemonic: turn.instruction.mnemonic, wanted, file })
}

/// "READSTRING seeks its zero before testing the stack."
fn next_text(turn: &Turn) -> Result<(), Reason> {
    let file = open_file(turn)?;
    text_length(turn).map(|_| ()).ok_or(Reason::NoZero(file))
}

/// How many bytes of the open file are before its next zero and with it.
pub(super) fn text_length(turn: &Turn) -> Option<usize> {
    let start = turn.record.file_start();
    let rest = turn.disc.get(start + turn.record.file_offset()..start + turn.record.file_length())?;
    rest.iter().position(|&byte| byte == 0).map(|zero| zero + 1)
}

/// "size .. matters only for a new file".
fn open(disc: &[u8], name: &[u8], size: &Value) -> Result<(), Reason> {
    if layout::entry_named(disc, name).is_some() {
        return Ok(());
    }
    create(disc, name, size).map_err(|refused| Reason::New { name: name.to_vec(), refused })
}

/// "13 OPEN's new file refused by name, size or *store*'s 8 or 9".
fn create(disc: &[u8], name: &[u8], size: &Value) -> Result<(), Refused> {
    if !(1..NAME_LEN).contains(&name.len()) {
        return Err(Refused::NameLength(name.len()));
    }
    if let Some(&byte) = name.iter().find(|byte| !NAME_BYTES.contains(byte)) {
        return Err(Refused::NameByte(byte));
    }
    let most = disc.len() - DATA_START;
    let fitting = cut(size).filter(|size| (1..=most).contains(size));
    let wanted = fitting.ok_or(Refused::Size { size: size.clone(), most })?;
    if layout::entries(disc).len() >= MAX_FILES {
        return Err(Refused::TenFiles);
    }
    let longest = layout::longest(&layout::free_bytes(disc));
    if longest < wanted {
        return Err(Refused::NoRun { wanted, longest });
    }
    Ok(())
}

/// "size (cut toward zero; NaN and infinities count as refused sizes)"; none of what is no number of bytes.
fn cut(size: &Value) -> Option<usize> {
    match size {
        Value::Char(x) => usize::try_from(*x).ok(),
        Value::Int(x) => usize::try_from(*x).ok(),
        Value::Float(bits) => {
            let size = f32::from_bits(*bits);
            // Below zero and above every disc there is no size; a cast would give one.
            (0.0..65536.0).contains(&size).then_some(size as usize)
        }
        Value::Text(_) | Value::Byte(_) => None,
    }
}

impl Reason {
    pub fn fault(&self) -> u8 {
        match self {
            Reason::NoOpenFile(_) => 11,
            Reason::Ended { .. } | Reason::NoZero(_) => 12,
            Reason::New { .. } => 13,
        }
    }
}

impl fmt::Display for Reason {
    fn fmt(&self, f: &mut fmt::Formatter<'_>) -> fmt::Result {
        match self {
            Reason::NoOpenFile(mnemonic) => write!(f, "no file is open for {mnemonic}: OPEN one first"),
            Reason::Ended { mnemonic, wanted, file } => write!(f, "{mnemonic} wants {}; {file}", bytes_text(*wanted)),
            Reason::NoZero(file) => write!(f, "READSTRING finds no zero; {file}"),
            Reason::New { name, refused } => {
                write!(f, "OPEN finds no file {} and can make none{refused}", literal::text(name))
            }
        }
    }
}

impl fmt::Display for OpenFile {
    fn fmt(&self, f: &mut fmt::Formatter<'_>) -> fmt::Result {
        let OpenFile { name, length, left } = self;
        write!(f, "of the file {name}, {} long, {} left", bytes_text(*length), are(*left))
    }
}

impl fmt::Display for Refused {
    fn fmt(&self, f: &mut fmt::Formatter<'_>) -> fmt::Result {
        match self {
            Refused::NameLength(length) => {
                write!(f, " of that name: a name has 1 to {} bytes, not {length}", NAME_LEN - 1)
            }
            Refused::NameByte(byte) => {
                let (least, most) = (NAME_BYTES.start(), NAME_BYTES.end());
                write!(f, " of that name: {} cannot be in a name, only {least} to {most} can", byte_text(*byte))
            }
            Refused::Size { size, most } => {
                write!(f, " of the size {}: a file has 1 to {most} bytes", plain(size))?;
                match size {
                    Value::Char(x) if *x < 0 => write!(f, "; a CHAR ends at 127, above it take an INT"),
                    _ => Ok(()),
                }
            }
            Refused::TenFiles => write!(f, ": there are ten files already"),
            Refused::NoRun { wanted, longest } => {
                write!(f, " of {}: the longest free run has {longest}", bytes_text(*wanted))
            }
        }
    }
}
