//! Explained faults are the kernel's, and each is explained in the words that stand here.

mod cause_support;
mod field;
mod random;

use cause_support::bench::Bench;
use cause_support::opcode::*;
use cause_support::routines::*;
use cause_support::{guide, label, state};
use field::record_at;
use kernel::sizes::{LONG_DISC, SHORT_DISC, TURN_OUTPUT};
use kernel::words;
use random::Random;
use std::collections::BTreeSet;
use workbench::layout::VARIABLES;
use workbench::layout::{Record, DATA_START, ENDED, RECORDS, RUNNING};
use workbench::{cause, instruction};

/// One turn in the kernel and the explanation before it: the same fault, at PC, or none in either.
fn compare(state: &state::State) -> (Option<u8>, u8, Option<cause::Cause>) {
    let before = Record::of(&state.area, state.slot);
    let code = before.code(&state.disc).expect("a good record");
    let byte = code.get(before.pc()).copied();
    let explained = cause::of_turn(&state.disc, &state.area, state.slot);
    let (mut disc, mut area) = (state.disc.clone(), state.area.clone());
    let number = kernel::turn(&mut disc, &mut area, state.slot as u32, state.clock, &mut [0; TURN_OUTPUT]);
    assert!(number >= 0, "the state is good: {number}");
    let after = Record::of(&area, state.slot);
    let fault = if after.state() == ENDED { after.fault() } else { 0 };
    let shown = byte.and_then(instruction::of_byte).map(|instruction| instruction.mnemonic);
    let told = explained.as_ref().map_or(0, |cause| cause.fault);
    assert_eq!(told, fault, "{shown:?} at {} with {:?}: {explained:?}", before.pc(), before.stack());
    if let Some(cause) = &explained {
        assert_eq!(cause.offset, before.pc());
    }
    (byte, fault, explained)
}

#[test]
fn explained_faults_are_the_kernels() {
    let mut random = Random(0x1A2B_3C4D);
    let mut pairs = BTreeSet::new();
    let mut labels = BTreeSet::new();
    for _ in 0..100_000 {
        let (byte, fault, explained) = compare(&state::of(&mut random));
        if let (Some(byte @ 1..=69), 1..) = (byte, fault) {
            pairs.insert((byte, fault));
        }
        labels.extend(explained.iter().flat_map(label::of));
    }
    assert_eq!(pairs, guide::faults(), "each fault of the guide's table, and no other, was met");
    assert_eq!(labels, BTreeSet::from(label::ALL), "each wording was met");
}

/// A routine that runs alone on a short disc: its words, and their labels.
fn explained(routine: &Routine) -> Vec<&'static str> {
    let (id, cause) = Bench::new(SHORT_DISC).ended("blink", routine.code);
    let told = cause::sentence("blink", id, &cause);
    let Routine { fault, offset, words, .. } = routine;
    assert_eq!(told, format!("blink (ID 1) ended by fault {fault} at offset {offset}: {words}"));
    label::of(&cause)
}

/// What a routine's end is explained with in a box that was made ready for it.
fn explained_in(mut bench: Bench, code: &[u8], sentence: &str) -> Vec<&'static str> {
    let (id, cause) = bench.ended("blink", code);
    assert_eq!(cause::sentence("blink", id, &cause), sentence);
    label::of(&cause)
}

/// Pushes a value and sets it, `count` times, as variables from A on.
fn sets(count: u8, push: &[u8]) -> Vec<u8> {
    (0..count).flat_map(|index| [push, &[SET, b'A' + index]].concat()).collect()
}

fn neighbours() -> Vec<Vec<&'static str>> {
    let set_n = [CHAR, 1, SET, b'n', LOOP, ENDLOOP];
    let lamp = || {
        let mut bench = Bench::new(SHORT_DISC);
        bench.neighbour("lamp", &set_n, 3);
        bench
    };
    let words = "lamp (ID 1) has one of that name, but each process has only its own variables";
    let alone =
        "blink (ID 2) ended by fault 9 at offset 0: GET finds no variable n: this process has none; SET it first";
    let other = "blink (ID 2) ended by fault 9 at offset 4: GET finds no variable n: this process has the variable m";
    vec![
        explained_in(lamp(), &[GET, b'n'], &format!("{alone}. {words}")),
        explained_in(lamp(), &[CHAR, 1, SET, b'm', GET, b'n'], &format!("{other}. {words}")),
    ]
}

fn memories() -> Vec<Vec<&'static str>> {
    let mut labels = Vec::new();
    let mut entries = Bench::new(SHORT_DISC);
    entries.neighbour("lamp", &[sets(23, &[INT, 0, 1]), vec![LOOP, ENDLOOP]].concat(), 47);
    labels.push(explained_in(
        entries,
        &[sets(3, &[CHAR, 1]), vec![STOP]].concat(),
        "blink (ID 2) ended by fault 10 at offset 10: SET has no entry for the variable C: all 25 are taken, 2 by this \
         process",
    ));
    // eight strings of 30 bytes and one of 15 leave one byte; the ninth is then to be longer
    let long: Vec<u8> = [&[STRING], &[b'x'; 29][..], &[0]].concat();
    let short: Vec<u8> = [&[STRING], &[b'y'; 14][..], &[0]].concat();
    let full = [sets(8, &long), short.clone(), vec![SET, b'i']].concat();
    labels.push(explained_in(
        Bench::new(SHORT_DISC),
        &[full.clone(), long, vec![SET, b'i']].concat(),
        "blink (ID 1) ended by fault 10 at offset 313: SET wants 30 bytes of memory in a row for the variable i: 16 \
         are free with the old variable's 15, at most 16 in a row",
    ));
    labels.push(explained_in(
        Bench::new(SHORT_DISC),
        &[&full[..], &[INT, 0, 1, SET, b'j']].concat(),
        "blink (ID 1) ended by fault 10 at offset 285: SET wants 2 bytes of memory in a row for the variable j: 1 is \
         free, at most 1 in a row",
    ));
    labels.push(explained_in(
        Bench::new(SHORT_DISC),
        &[&full[..], &[CHAR, 1, SET, b'j', CHAR, 1, SET, b'k']].concat(),
        "blink (ID 1) ended by fault 10 at offset 288: SET wants 1 byte of memory in a row for the variable k: all 256 \
         are taken",
    ));
    labels
}

fn discs() -> Vec<Vec<&'static str>> {
    let mut files = Bench::new(SHORT_DISC);
    (0..9).for_each(|index| files.store(&format!("f{index}"), &[1]));
    let open = [STRING, b'l', 0, CHAR, 6, OPEN, STOP];
    let open_long = [STRING, b'l', 0, INT, 15, 96, OPEN, STOP];
    vec![
        explained_in(
            files,
            &open,
            "blink (ID 1) ended by fault 13 at offset 5: OPEN finds no file \"l\" and can make none: there are ten \
             files already",
        ),
        explained_in(
            Bench::new(LONG_DISC),
            &open_long,
            "blink (ID 1) ended by fault 13 at offset 6: OPEN finds no file \"l\" and can make none of the size INT \
             3936: a file has 1 to 3935 bytes",
        ),
    ]
}

#[test]
fn each_fault_is_explained() {
    let routines = [FETCH, INSIDE, OPERAND, SPOILT, NUMBER, STATE, OTHER].concat();
    let mut labels: BTreeSet<&str> = routines.iter().flat_map(explained).collect();
    labels.extend([neighbours(), memories(), discs()].concat().concat());
    assert_eq!(labels, BTreeSet::from(label::ALL), "each wording has its routine");
}

/// The sentence of the issue, word for word.
#[test]
fn a_sentence_names_program_id_fault_and_offset() {
    let mut bench = Bench::new(SHORT_DISC);
    bench.neighbour("a", &[LOOP, ENDLOOP], 1);
    bench.neighbour("b", &[LOOP, ENDLOOP], 1);
    let code = [INT, 0, 1, PRINTLN, INT, 0, 1, STRING, b'a', b'b', b'c', 0, PLUS];
    explained_in(
        bench,
        &code,
        "blink (ID 3) ended by fault 6 at offset 12: PLUS takes numbers; on top of the stack lay the string \"abc\"",
    );
}

/// Of all short texts, the one of a fault's number has the most words of the guide's.
#[test]
fn short_texts_are_the_guides() {
    let meanings = guide::meanings();
    assert_eq!(meanings.len(), 13);
    for (fault, meaning) in meanings {
        let shared = |other: &u8| {
            let words: BTreeSet<&str> = words::fault(*other).split(' ').collect();
            meaning.split(' ').filter(|word| words.contains(word)).count()
        };
        assert_eq!((1..=13).max_by_key(shared), Some(fault), "{meaning}");
    }
}

#[test]
fn what_is_no_turn_is_not_explained() {
    let mut bench = Bench::new(SHORT_DISC);
    bench.start("blink", &[PLUS]);
    let (disc, area) = (&bench.disc, &mut bench.area);
    assert!(cause::of_turn(disc, area, 0).is_some());
    assert!(cause::of_turn(disc, area, 1).is_none(), "the slot is ended");
    assert!(cause::of_turn(disc, area, 10).is_none(), "there is no such slot");
    assert!(cause::of_turn(&disc[1..], area, 0).is_none());
    assert!(cause::of_turn(disc, &area[1..], 0).is_none());
    assert_eq!(kernel::suspend(disc, area, 1), 0);
    assert!(cause::of_turn(disc, area, 0).is_none(), "the process is paused");
}

/// Buffers that are not good have no turn; whatever is said of them, it does not panic.
#[test]
fn damaged_buffers_do_no_harm() {
    let mut random = Random(0x5E6F);
    for _ in 0..20_000 {
        let mut state = state::of(&mut random);
        let record = record_at(state.slot);
        for _ in 0..1 + random.below(3) {
            let field = if random.one_in(2) {
                record + 16 + random.below(16)
            } else {
                VARIABLES + random.below(RECORDS - VARIABLES)
            };
            state.area[field] = random.byte();
            state.disc[random.below(DATA_START)] = random.byte();
        }
        state.area[record + 14] = RUNNING;
        if let Some(cause) = cause::of_turn(&state.disc, &state.area, state.slot) {
            assert!(!cause.words.is_empty());
        }
    }
}
