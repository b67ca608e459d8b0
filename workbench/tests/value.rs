//! Stacks as typed values, held against the kernel: what PRINT takes is the topmost value, and where it faults there is
//! none.

mod field;
mod random;

use field::record_at;
use kernel::sizes::{AREA_LEN, SHORT_DISC, TURN_OUTPUT};
use random::Random;
use workbench::layout::{Record, ENDED, STACK_LEN};
use workbench::value::{self, Unread, Value, CHAR, FLOAT, INT, STRING};

const PRINT: u8 = 51;

/// A box with one process that has nothing to do but PRINT.
fn printing() -> (Vec<u8>, Vec<u8>) {
    let (mut disc, mut area) = (vec![0; SHORT_DISC], vec![0; AREA_LEN]);
    assert_eq!(kernel::format(&mut disc, &mut area), 0);
    assert_eq!(kernel::store(&mut disc, b"print", &[PRINT; STACK_LEN + 1]), 0);
    assert_eq!(kernel::run(&disc, &mut area, b"print"), 1);
    (disc, area)
}

/// Values whole and spoilt, raw bytes, and lengths and types in wrong places.
fn stack(random: &mut Random) -> Vec<u8> {
    let mut stack = Vec::new();
    while !random.one_in(6) {
        stack.extend(piece(random));
    }
    if random.one_in(2) && !stack.is_empty() {
        let place = stack.len() - 1 - random.below(stack.len().min(4));
        stack[place] = random.byte() % 6;
    }
    let over = stack.len().saturating_sub(STACK_LEN);
    stack.drain(..over);
    stack
}

fn piece(random: &mut Random) -> Vec<u8> {
    match random.below(6) {
        0 => vec![random.byte()],
        1 => vec![random.byte() % 6],
        2 => vec![random.byte(), CHAR],
        3 => vec![random.byte(), random.byte(), INT],
        4 => vec![random.byte(), random.byte(), random.byte(), random.byte(), FLOAT],
        _ => {
            let mut text: Vec<u8> = (0..random.below(9)).map(|_| random.byte().max(1)).collect();
            text.extend([0, text.len() as u8 + 1, STRING]);
            text
        }
    }
}

/// "PRINT: CHAR one byte; INT decimal; STRING without its zero". Of a FLOAT it is not said here.
fn printed(value: &Value) -> Option<Vec<u8>> {
    match value {
        Value::Char(x) => Some(vec![*x as u8]),
        Value::Int(x) => Some(x.to_string().into_bytes()),
        Value::Text(text) => Some(text.clone()),
        Value::Float(_) | Value::Byte(_) => None,
    }
}

/// PRINTs as long as the kernel does, each beside the next value of the stack from its top. Returns its fault.
fn print_all(disc: &mut [u8], area: &mut [u8], stack: &[u8]) -> u8 {
    let record = record_at(0);
    area[record + 30] = stack.len() as u8;
    area[record + 32..][..stack.len()].copy_from_slice(stack);
    let mut rest = stack;
    for value in value::stack(stack).iter().rev() {
        let (top, below) = value::top(rest).expect("a byte");
        assert_eq!(top, *value);
        let mut out = [0; TURN_OUTPUT];
        let length = kernel::turn(disc, area, 0, 0, &mut out);
        let after = Record::of(area, 0);
        if let Value::Byte(byte) = top {
            assert_eq!((after.state(), Some(&byte), below.len()), (ENDED, rest.last(), rest.len() - 1), "{rest:?}");
            return after.fault();
        }
        assert_eq!((after.is_live(), after.stack()), (true, below), "{rest:?}");
        let written = &out[..usize::try_from(length).expect("a length")];
        assert_eq!(printed(&top).unwrap_or(written.to_vec()), written, "{rest:?}");
        rest = below;
    }
    assert_eq!((kernel::turn(disc, area, 0, 0, &mut [0; TURN_OUTPUT]), value::top(rest)), (0, None));
    assert_eq!(Record::of(area, 0).state(), ENDED, "nothing is left to print");
    Record::of(area, 0).fault()
}

/// Of an instruction that takes any value: "5 nothing there, 6 a type not taken here, 5 too few bytes below it, 6
/// malformed string".
fn fault(unread: &Unread) -> u8 {
    match unread {
        Unread::Nothing | Unread::ShortNumber { .. } | Unread::NoLength | Unread::ShortText { .. } => 5,
        Unread::NoType(_) | Unread::EmptyText | Unread::UnendedText(_) | Unread::InnerZero(_) => 6,
    }
}

#[test]
fn typed_stacks_are_the_kernels() {
    let (disc, area) = printing();
    let mut random = Random(0x57AC);
    let mut faults = [0; 7];
    for _ in 0..20_000 {
        let stack = stack(&mut random);
        let fault = print_all(&mut disc.clone(), &mut area.clone(), &stack);
        assert!(fault == 5 || fault == 6, "fault {fault} of {stack:?}");
        faults[usize::from(fault)] += 1;
    }
    assert!(faults[5] > 4000 && faults[6] > 4000, "{faults:?}");
}

#[test]
fn why_there_is_no_value_is_the_kernels_fault() {
    let (disc, area) = printing();
    let mut random = Random(0x57AD);
    let mut met = std::collections::BTreeSet::new();
    for _ in 0..20_000 {
        let stack = stack(&mut random);
        let Err(unread) = value::read(&stack) else { continue };
        assert_eq!(print_all(&mut disc.clone(), &mut area.clone(), &stack), fault(&unread), "{stack:?}");
        met.insert(format!("{unread:?}").split([' ', '(']).next().map(str::to_string));
    }
    assert_eq!(met.len(), 8, "{met:?}");
}
