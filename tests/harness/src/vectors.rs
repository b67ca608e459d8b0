//! Outside vectors: calls with their answers, made by an implementation that is not in this repository. A line:
//!
//! OP DISC AREA OUT ARGS.. => NUMBER DISC' AREA' OUT'
//!
//! Buffers lent, names and data in hex, '-' for none; what changed of a buffer as OFFSET:HEX runs, '.' for nothing.

use crate::comparison::Outcome;
use crate::kernels::State;
use kernel::call::Call;

/// A call, what is lent to it, and what must come of it.
pub struct Vector {
    pub call: Call,
    pub before: State,
    pub output: Vec<u8>,
    pub after: Outcome,
}

/// Reads a line.
pub fn parse(line: &str) -> Result<Vector, String> {
    let (lent, answered) = line.split_once(" => ").ok_or("no answer")?;
    let lent: Vec<&str> = lent.split(' ').collect();
    let answered: Vec<&str> = answered.trim_end().split(' ').collect();
    let ([operation, disc, area, output, arguments @ ..], [number, disc_after, area_after, output_after]) =
        (&lent[..], &answered[..])
    else {
        return Err("too few words".to_string());
    };
    let before = State { disc: bytes(disc)?, area: bytes(area)? };
    let output = bytes(output)?;
    let call = call(operation, arguments, output.len())?;
    let after = Outcome {
        number: number.parse().map_err(|_| format!("no number: {number}"))?,
        state: State { disc: changed(&before.disc, disc_after)?, area: changed(&before.area, area_after)? },
        output: changed(&output, output_after)?,
        guards_kept: true,
    };
    Ok(Vector { call, before, output, after })
}

fn call(operation: &str, arguments: &[&str], room: usize) -> Result<Call, String> {
    let text = |place: usize| bytes(arguments.get(place).ok_or("an argument is missing")?);
    let number = |place: usize| -> Result<u32, String> {
        arguments.get(place).and_then(|word| word.parse().ok()).ok_or(format!("{operation}: no number {place}"))
    };
    Ok(match operation {
        "format" => Call::Format,
        "boot" => Call::Boot,
        "store" => Call::Store { name: text(0)?, data: text(1)? },
        "retrieve" => Call::Retrieve { name: text(0)?, room },
        "erase" => Call::Erase { name: text(0)? },
        "files" => Call::Files { room },
        "free" => Call::FreeSpace,
        "run" => Call::Run { name: text(0)? },
        "suspend" => Call::Suspend { id: number(0)? },
        "resume" => Call::Resume { id: number(0)? },
        "kill" => Call::Kill { id: number(0)? },
        "share" => Call::Share { id: number(0)?, share: number(1)? },
        "list" => Call::List { room },
        "turn" => Call::Turn { slot: number(0)?, clock: number(1)?, room },
        "round" => Call::Round { clock: number(0)?, room },
        _ => return Err(format!("no such operation: {operation}")),
    })
}

fn bytes(word: &str) -> Result<Vec<u8>, String> {
    let hex = if word == "-" { "" } else { word };
    let pairs = hex.as_bytes().chunks(2).map(|pair| std::str::from_utf8(pair).unwrap_or(""));
    pairs.map(|pair| u8::from_str_radix(pair, 16).map_err(|_| format!("no hex: {pair}"))).collect()
}

/// The bytes with these runs written over them.
fn changed(before: &[u8], runs: &str) -> Result<Vec<u8>, String> {
    let mut after = before.to_vec();
    for run in runs.split(',').filter(|&run| run != ".") {
        let (offset, new) = run.split_once(':').ok_or(format!("no run: {run}"))?;
        let offset: usize = offset.parse().map_err(|_| format!("no offset: {offset}"))?;
        let new = bytes(new)?;
        after.get_mut(offset..offset + new.len()).ok_or("a run past the end")?.copy_from_slice(&new);
    }
    Ok(after)
}
