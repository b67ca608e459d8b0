//! A work area read out: processes, stacks as values, variables, and variable memory as a picture. Of any 1,056 bytes.

use crate::dis;
use crate::layout::*;
use crate::literal;
use crate::picture;
use crate::value::{self, Value};
use kernel::words;

/// The whole readout. With the disc it shows the instruction at PC and the name of the open file.
pub fn text(area: &[u8], disc: Option<&[u8]>) -> String {
    let used: Vec<Record> = records(area).filter(|record| record.state() != ENDED || record.id() != 0).collect();
    let ended = used.iter().filter(|record| record.state() == ENDED).count();
    let live = used.iter().filter(|record| record.is_live()).count();
    let variables = variables(area);
    let count = area[VARIABLE_COUNT];
    let next = word(area, NEXT_ID);
    let mut text =
        format!("live processes: {live}, ended: {ended}, variables: {count} of {MAX_VARIABLES}, next ID: {next}\n");
    for (index, &record) in used.iter().enumerate() {
        text += if index == 0 { "\n" } else { "" };
        text += &process(record, disc);
    }
    text += &table(area, &variables);
    text += &memory(&variables);
    text
}

/// A slot that was used since boot.
fn process(record: Record, disc: Option<&[u8]>) -> String {
    let mut text = format!("slot {}: {} (ID {}), ", record.slot, name_text(record.name()), record.id());
    match record.state() {
        RUNNING => text += "running",
        PAUSED => text += "paused",
        ENDED if record.fault() == 0 => return text + "ended\n",
        ENDED => return text + &format!("ended by fault {}: {}\n", record.fault(), words::fault(record.fault())),
        state => text += &format!("state {state} is unknown"),
    }
    text += &format!(", share {}\n  PC {} of {}", record.share(), record.pc(), record.code_length());
    if let Some(instruction) = disc.and_then(|disc| instruction(record, disc)) {
        text += &format!(": {instruction}");
    }
    if record.loop_place() != NO_LOOP {
        text += &format!("\n  loop at {}", record.loop_place());
    }
    if record.file_length() != 0 {
        let (name, offset, length) = (open_file(record, disc), record.file_offset(), record.file_length());
        text += &format!("\n  file {name}, offset {offset} of {length}");
    }
    text + &format!("\n  stack: {}\n", stack(record))
}

/// The instruction that the next turn finds, if its code is on the disc.
fn instruction(record: Record, disc: &[u8]) -> Option<String> {
    let code = record.code(disc)?;
    if record.pc() == code.len() {
        return Some("the code's end".into());
    }
    (record.pc() < code.len()).then(|| dis::instruction_text(code, record.pc()))
}

/// The open file by its name, or where it lies if the name is not known.
fn open_file(record: Record, disc: Option<&[u8]>) -> String {
    let entry = disc.and_then(|disc| record.open_file(&entries(disc)));
    entry.map_or(format!("at {}", record.file_start()), |entry| literal::text(trimmed(entry.name)))
}

/// Bottom first, with what damage left of SP.
fn stack(record: Record) -> String {
    let values: Vec<String> = value::stack(record.stack()).iter().map(Value::to_string).collect();
    match (record.sp(), values.is_empty()) {
        (_, true) => "empty".into(),
        (sp, _) if sp > STACK_LEN => format!("{} (SP is {sp})", values.join(", ")),
        _ => values.join(", "),
    }
}

/// The counted variables, each with its letter in the picture.
fn table(area: &[u8], variables: &[Variable]) -> String {
    if variables.is_empty() {
        return String::new();
    }
    let row = |variable: &Variable| {
        let letter = picture::letter(variable.index);
        let name = literal::variable(variable.name);
        let (address, size) = (variable.address, variable.size);
        let (owner, value) = (owner(area, variable), value_text(area, variable));
        format!("{letter}  {name:<4}  {address:>7}  {size:>4}  {owner:<22}  {value}\n")
    };
    let rows: String = variables.iter().map(row).collect();
    format!("\n   name  address  size  process                 type and value\n{rows}")
}

fn owner(area: &[u8], variable: &Variable) -> String {
    let id = variable.id;
    live_record(area, id).map_or(format!("none (ID {id})"), |record| format!("{} (ID {id})", name_text(record.name())))
}

/// A variable's type and value, or its bytes where they are no value.
fn value_text(area: &[u8], variable: &Variable) -> String {
    let kind = match value::type_name(variable.kind) {
        "?" => format!("type {}", variable.kind),
        name => name.to_string(),
    };
    let bytes = variable.bytes(area);
    match bytes.and_then(|bytes| Value::of(variable.kind, bytes)) {
        Some(value) => value.to_string(),
        None => format!("{kind}, no value: {}", bytes.map_or("outside variable memory".into(), first_bytes)),
    }
}

/// Bytes that are no value, eight at most.
fn first_bytes(bytes: &[u8]) -> String {
    let shown: Vec<String> = bytes.iter().take(8).map(u8::to_string).collect();
    let more = if bytes.len() > shown.len() { " .." } else { "" };
    format!("bytes {}{more}", shown.join(" "))
}

fn memory(variables: &[Variable]) -> String {
    let runs = free_memory(variables);
    let (free, longest) = (runs.iter().map(|run| run.len()).sum::<usize>(), longest(&runs));
    let picture = picture::memory(variables);
    format!("\nvariable memory: {free} of {MEMORY_LEN} bytes free, the longest free run {longest}\n{picture}")
}
