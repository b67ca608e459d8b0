//! A label for each wording, so that a test can say that all were reached.

use workbench::cause::file::Refused;
use workbench::cause::operand::Found;
use workbench::cause::{fetch, file, jump, number, operand, room, variable, Cause, Reason};
use workbench::value::{Unread, Value};

pub const ALL: [&str; 59] = [
    "inside",
    "1 byte",
    "1 not built",
    "1 DELAY",
    "2 end",
    "2 none left",
    "2 some left",
    "2 no zero",
    "3 past the end",
    "3 before the start",
    "3 no loop",
    "4 pushes",
    "4 replaces",
    "5 empty",
    "5 held only one",
    "5 held only several",
    "5 short number",
    "5 bare number",
    "5 WHILE's byte",
    "5 no length",
    "5 short text",
    "5 bare text",
    "6 on top: value",
    "6 second: value",
    "6 third or more: value",
    "6 bare type",
    "6 bare type, WHILE's byte",
    "6 WHILE's byte",
    "6 another byte",
    "6 empty text",
    "6 unended text",
    "6 inner zero",
    "7 divisor",
    "7 range",
    "8 type",
    "8 NaN",
    "8 root",
    "8 exponent",
    "8 WHILE",
    "9 has none",
    "9 has others",
    "9 has none, a neighbour does",
    "9 has others, a neighbour does",
    "10 entries",
    "10 in pieces",
    "10 in pieces, replaced",
    "10 all taken",
    "11 none open",
    "12 some left",
    "12 none left",
    "12 no zero, some left",
    "12 no zero, none left",
    "13 name's length",
    "13 name's byte",
    "13 size",
    "13 negative CHAR",
    "13 NaN",
    "13 ten files",
    "13 no run",
];

/// The label of the reason, and whether the offset lies inside an instruction.
pub fn of(cause: &Cause) -> Vec<&'static str> {
    let inside = cause.inside.as_ref().map(|_| "inside");
    [of_reason(&cause.reason)].into_iter().chain(inside).collect()
}

fn of_reason(reason: &Reason) -> &'static str {
    match reason {
        Reason::Fetch(reason) => of_fetch(reason),
        Reason::Operand(reason) => of_operand(reason),
        Reason::Number(reason) => of_number(reason),
        Reason::Variable(reason) => of_variable(reason),
        Reason::File(reason) => of_file(reason),
        Reason::Room(room::Reason { popped: 0, .. }) => "4 pushes",
        Reason::Room(_) => "4 replaces",
        Reason::Jump(jump::Reason::PastEnd { .. }) => "3 past the end",
        Reason::Jump(jump::Reason::BeforeStart { .. }) => "3 before the start",
        Reason::Jump(jump::Reason::NoLoop) => "3 no loop",
    }
}

fn of_fetch(reason: &fetch::Reason) -> &'static str {
    match reason {
        fetch::Reason::NoInstruction(_) => "1 byte",
        fetch::Reason::NotBuilt("DELAY") => "1 DELAY",
        fetch::Reason::NotBuilt(_) => "1 not built",
        fetch::Reason::CodeEnded { .. } => "2 end",
        fetch::Reason::ArgumentsCutOff { left: 0, .. } => "2 none left",
        fetch::Reason::ArgumentsCutOff { .. } => "2 some left",
        fetch::Reason::NoZero => "2 no zero",
    }
}

fn of_operand(reason: &operand::Reason) -> &'static str {
    match (&reason.found, reason.above.len(), reason.pushed_at) {
        (Found::Value(_), 0, _) => "6 on top: value",
        (Found::Value(_), 1, _) => "6 second: value",
        (Found::Value(_), ..) => "6 third or more: value",
        (Found::BareType(_), _, Some(_)) => "6 bare type, WHILE's byte",
        (Found::BareType(_), _, None) => "6 bare type",
        (Found::Unread(unread), above, pushed_at) => of_unread(unread, above, pushed_at.is_some()),
    }
}

fn of_unread(unread: &Unread, above: usize, is_pushed: bool) -> &'static str {
    match unread {
        Unread::Nothing if above == 0 => "5 empty",
        Unread::Nothing if above == 1 => "5 held only one",
        Unread::Nothing => "5 held only several",
        Unread::NoType(_) if is_pushed => "6 WHILE's byte",
        Unread::NoType(_) => "6 another byte",
        Unread::ShortNumber { .. } if is_pushed => "5 WHILE's byte",
        Unread::ShortNumber { left: 0, .. } => "5 bare number",
        Unread::ShortNumber { .. } => "5 short number",
        Unread::NoLength => "5 no length",
        Unread::ShortText { left: 0, .. } => "5 bare text",
        Unread::ShortText { .. } => "5 short text",
        Unread::EmptyText => "6 empty text",
        Unread::UnendedText(_) => "6 unended text",
        Unread::InnerZero(_) => "6 inner zero",
    }
}

fn is_nan(value: &Value) -> bool {
    matches!(value, Value::Float(bits) if f32::from_bits(*bits).is_nan())
}

fn of_number(reason: &number::Reason) -> &'static str {
    match reason {
        number::Reason::DivisorZero { .. } => "7 divisor",
        number::Reason::EmptyRange(_) => "7 range",
        number::Reason::OutsideType { value, .. } if is_nan(value) => "8 NaN",
        number::Reason::OutsideType { .. } => "8 type",
        number::Reason::NegativeRoot(_) => "8 root",
        number::Reason::Exponent(_) => "8 exponent",
        number::Reason::WhileTooLong { .. } => "8 WHILE",
    }
}

fn of_variable(reason: &variable::Reason) -> &'static str {
    match reason {
        variable::Reason::NoVariable { own, neighbour, .. } => match (own.is_empty(), neighbour.is_some()) {
            (true, false) => "9 has none",
            (false, false) => "9 has others",
            (true, true) => "9 has none, a neighbour does",
            (false, true) => "9 has others, a neighbour does",
        },
        variable::Reason::NoEntry { .. } => "10 entries",
        variable::Reason::NoMemory { free: 0, .. } => "10 all taken",
        variable::Reason::NoMemory { replaced: 0, .. } => "10 in pieces",
        variable::Reason::NoMemory { .. } => "10 in pieces, replaced",
    }
}

fn of_file(reason: &file::Reason) -> &'static str {
    match reason {
        file::Reason::NoOpenFile(_) => "11 none open",
        file::Reason::Ended { file, .. } if file.left == 0 => "12 none left",
        file::Reason::Ended { .. } => "12 some left",
        file::Reason::NoZero(file) if file.left == 0 => "12 no zero, none left",
        file::Reason::NoZero(_) => "12 no zero, some left",
        file::Reason::New { refused, .. } => of_refused(refused),
    }
}

fn of_refused(refused: &Refused) -> &'static str {
    match refused {
        Refused::NameLength(_) => "13 name's length",
        Refused::NameByte(_) => "13 name's byte",
        Refused::Size { size: Value::Char(i8::MIN..=-1), .. } => "13 negative CHAR",
        Refused::Size { size, .. } if is_nan(size) => "13 NaN",
        Refused::Size { .. } => "13 size",
        Refused::TenFiles => "13 ten files",
        Refused::NoRun { .. } => "13 no run",
    }
}
