//! What is wrong with a disc or a work area, held against the kernel: a broken clause is found exactly where it answers
//! −2 or −3.

mod field;
mod random;
mod support;

use field::{put_word, record_at};
use kernel::sizes::*;
use random::Random;
use std::collections::BTreeSet;
use support::damage;
use support::state::{self, State};
use workbench::good;
use workbench::good::area::Clause as AreaClause;
use workbench::good::disc::Clause as DiscClause;
use workbench::good::name::BadName;
use workbench::good::process::ProcessClause;
use workbench::good::variable::VariableClause;
use workbench::layout::*;

/// The kinds of clauses that were the only one found in some state.
type Alone = BTreeSet<&'static str>;

const DISC_KINDS: [&str; 10] = [
    "count",
    "name: empty",
    "name: filling",
    "name: letter",
    "name: long",
    "empty",
    "start",
    "end",
    "same name",
    "overlap",
];

const AREA_KINDS: [&str; 24] = [
    "variable count",
    "next ID",
    "zeros",
    "state",
    "share",
    "ID",
    "same ID",
    "SP",
    "PC",
    "loop",
    "file offset",
    "name: empty",
    "name: filling",
    "name: letter",
    "name: long",
    "no program",
    "program",
    "open file",
    "type",
    "size",
    "variable end",
    "owner",
    "same variable",
    "variable overlap",
];

fn name_kind(bad: &BadName) -> &'static str {
    match bad {
        BadName::Empty => "name: empty",
        BadName::Long => "name: long",
        BadName::Letter { .. } => "name: letter",
        BadName::Filling { .. } => "name: filling",
    }
}

fn disc_kind(clause: &DiscClause) -> &'static str {
    match clause {
        DiscClause::Count { .. } => "count",
        DiscClause::Name(_, bad) => name_kind(bad),
        DiscClause::Empty(_) => "empty",
        DiscClause::Start(_) => "start",
        DiscClause::End { .. } => "end",
        DiscClause::SameName(..) => "same name",
        DiscClause::Overlap(..) => "overlap",
    }
}

fn area_kind(clause: &AreaClause) -> &'static str {
    match clause {
        AreaClause::VariableCount(_) => "variable count",
        AreaClause::NextId(_) => "next ID",
        AreaClause::Zeros { .. } => "zeros",
        AreaClause::State(_) => "state",
        AreaClause::Process(_, clause) => process_kind(clause),
        AreaClause::Variable(_, clause) => variable_kind(clause),
    }
}

fn process_kind(clause: &ProcessClause) -> &'static str {
    match clause {
        ProcessClause::Share => "share",
        ProcessClause::Id { .. } => "ID",
        ProcessClause::SameId { .. } => "same ID",
        ProcessClause::StackPointer => "SP",
        ProcessClause::Pc => "PC",
        ProcessClause::Loop => "loop",
        ProcessClause::FileOffset => "file offset",
        ProcessClause::Name(bad) => name_kind(bad),
        ProcessClause::NoProgram => "no program",
        ProcessClause::Program(_) => "program",
        ProcessClause::OpenFile => "open file",
    }
}

fn variable_kind(clause: &VariableClause) -> &'static str {
    match clause {
        VariableClause::Type => "type",
        VariableClause::Size => "size",
        VariableClause::End => "variable end",
        VariableClause::Owner => "owner",
        VariableClause::SameName { .. } => "same variable",
        VariableClause::Overlap(_) => "variable overlap",
    }
}

/// Compares the clauses with the kernel's answers. Returns how many of disc and work area were judged not good.
fn hold(state: &State, disc_alone: &mut Alone, area_alone: &mut Alone) -> usize {
    let clauses = good::disc(&state.disc);
    let words: Vec<String> = clauses.iter().map(ToString::to_string).collect();
    assert_eq!(clauses.is_empty(), kernel::free_space(&state.disc) != -2, "{words:?}");
    if let [clause] = clauses.as_slice() {
        disc_alone.insert(disc_kind(clause));
    }
    if !clauses.is_empty() {
        return 1;
    }
    let clauses = good::area(&state.disc, &state.area);
    let words: Vec<String> = clauses.iter().map(ToString::to_string).collect();
    let number = kernel::list(&state.disc, &state.area, &mut [0; LIST_OUTPUT]);
    assert_eq!(clauses.is_empty(), number != -3, "{words:?}");
    if let [clause] = clauses.as_slice() {
        area_alone.insert(area_kind(clause));
    }
    let needs_disc = |clause: &&AreaClause| matches!(clause, AreaClause::Process(_, clause) if clause.needs_disc());
    let by_itself = clauses.len() - clauses.iter().filter(needs_disc).count();
    assert_eq!(good::area_alone(&state.area).len(), by_itself, "{words:?}");
    usize::from(!clauses.is_empty())
}

/// Both sets of kinds, thrown away.
fn hold_only(state: &State) -> usize {
    hold(state, &mut Alone::new(), &mut Alone::new())
}

#[test]
fn what_is_good_has_no_broken_clause() {
    let mut random = Random(1);
    let (mut live, mut variables) = (0, 0);
    for _ in 0..1500 {
        let state = state::any(&mut random);
        assert_eq!(hold_only(&state), 0);
        live += records(&state.area).filter(Record::is_live).count();
        variables += usize::from(state.area[VARIABLE_COUNT]);
    }
    assert!(live > 3000 && variables > 3000, "{live} live processes, {variables} variables");
}

#[test]
fn every_kind_of_clause_is_found_alone_where_one_field_is_damaged() {
    let mut random = Random(2);
    let (mut discs, mut areas, mut bad) = (Alone::new(), Alone::new(), 0);
    for _ in 0..2000 {
        let whole = state::any(&mut random);
        for damage in 0..60 {
            let mut state = whole.clone();
            match damage % 3 {
                0 => damage::disc_field(&mut random, &mut state),
                _ => damage::area_field(&mut random, &mut state),
            }
            bad += hold(&state, &mut discs, &mut areas);
        }
    }
    assert!((30_000..90_000).contains(&bad), "{bad} of 120000 states are not good");
    assert_eq!(discs, BTreeSet::from(DISC_KINDS));
    assert_eq!(areas, BTreeSet::from(AREA_KINDS));
}

#[test]
fn every_byte_changed() {
    let mut random = Random(3);
    let mut bad = 0;
    for _ in 0..8 {
        let mut state = state::any(&mut random);
        for at in 0..DATA_START {
            let whole = state.disc[at];
            for byte in [0, 1, 255, whole.wrapping_add(1), whole ^ 128, random.byte()] {
                state.disc[at] = byte;
                bad += hold_only(&state);
            }
            state.disc[at] = whole;
        }
        for at in (0..MEMORY_LEN).step_by(16).chain(MEMORY_LEN..AREA_LEN) {
            let whole = state.area[at];
            for byte in [0, 1, 255, whole.wrapping_sub(1), whole ^ 128, random.byte()] {
                state.area[at] = byte;
                bad += hold_only(&state);
            }
            state.area[at] = whole;
        }
    }
    assert!(bad > 4000, "{bad} states are not good");
}

#[test]
fn several_damages_at_once() {
    let mut random = Random(4);
    let mut bad = 0;
    for _ in 0..1000 {
        let whole = state::any(&mut random);
        for _ in 0..20 {
            let mut state = whole.clone();
            for _ in 0..random.within(1, 5) {
                match random.below(4) {
                    0 => damage::disc_field(&mut random, &mut state),
                    1 => {
                        let at = random.below(AREA_LEN);
                        state.area[at] = random.byte();
                    }
                    _ => damage::area_field(&mut random, &mut state),
                }
            }
            bad += hold_only(&state);
        }
    }
    assert!((10_000..19_000).contains(&bad), "{bad} of 20000 states are not good");
}

#[test]
fn all_bytes_alike_or_random() {
    let mut random = Random(5);
    for length in [SHORT_DISC, LONG_DISC] {
        for byte in [0, 1, 10, 33, 65, 255] {
            hold_only(&State { disc: vec![byte; length], area: vec![byte; AREA_LEN] });
            hold_only(&State { disc: vec![0; length], area: vec![byte; AREA_LEN] });
        }
        for _ in 0..1000 {
            let mut state = State { disc: vec![0; length], area: vec![0; AREA_LEN] };
            random.fill(&mut state.area);
            hold_only(&state);
            random.fill(&mut state.disc);
            state.disc[FILE_COUNT] %= 12;
            hold_only(&state);
        }
    }
}

/// Two files, "down" of 20 bytes at 161 and "log" of 50 at 181; down (ID 1) running in slot 0 with the log open, and
/// "log" (ID 2) paused in slot 1; variables n (INT at 0) and x (STRING at 2 to 5) of down.
fn worked() -> State {
    let mut code = vec![2, 0, 3, 5, 110, 3, 97, 98, 99, 0, 5, 120, 67];
    code.resize(20, 67);
    let mut state = State::with_files(&[("down", &code), ("log", &[1; 50])]);
    state.start(&["down", "log"]);
    assert_eq!(kernel::suspend(&state.disc, &mut state.area, 2), 0);
    state.turns(0, 4);
    put_word(&mut state.area, record_at(0) + 24, 181);
    put_word(&mut state.area, record_at(0) + 26, 50);
    assert_eq!(hold_only(&state), 0);
    state
}

/// What is found after a change of the worked state, of the disc or else of the work area.
fn found(change: impl Fn(&mut State)) -> String {
    let mut state = worked();
    change(&mut state);
    assert_eq!(hold_only(&state), 1);
    let disc: Vec<String> = good::disc(&state.disc).iter().map(ToString::to_string).collect();
    if !disc.is_empty() {
        return disc.join("\n");
    }
    let area: Vec<String> = good::area(&state.disc, &state.area).iter().map(ToString::to_string).collect();
    area.join("\n")
}

fn disc_byte(at: usize, byte: u8) -> String {
    found(|state| state.disc[at] = byte)
}

fn disc_word(at: usize, word: usize) -> String {
    found(|state| put_word(&mut state.disc, at, word))
}

fn area_byte(at: usize, byte: u8) -> String {
    found(|state| state.area[at] = byte)
}

fn area_word(at: usize, word: usize) -> String {
    found(|state| put_word(&mut state.area, at, word))
}

#[test]
fn clauses_of_a_disc_in_words() {
    assert_eq!(disc_byte(160, 11), "the file count, byte 160, is 11; a disc has at most 10 files");
    assert_eq!(
        found(|state| state.disc.fill(255)),
        "the file count, byte 160, is 255; a disc has at most 10 files; all bytes are hex FF, as in an EEPROM that \
         was never formatted"
    );
    assert_eq!(
        disc_byte(160, 3),
        "entry 2: its name is empty\nentry 2: its length is 0; a file has at least 1 byte\n\
         entry 2: it begins at byte 0; data begin at 161"
    );
    assert_eq!(disc_byte(17, 32), "entry 1 (\"l g\"): byte 1 of its name is 32; a name has bytes of 33 to 126");
    assert_eq!(
        disc_byte(22, 1),
        "entry 1 (\"log\"): byte 6 of its name is 1, after a zero; all bytes there must be zeros"
    );
    assert_eq!(
        found(|state| state.disc[16..28].fill(b'l')),
        "entry 1 (\"llllllllllll\"): its name has 12 bytes; a name has at most 11"
    );
    assert_eq!(disc_word(16 + 14, 0), "entry 1 (\"log\"): its length is 0; a file has at least 1 byte");
    assert_eq!(disc_word(12, 141), "entry 0 (\"down\"): it begins at byte 141; data begin at 161");
    assert_eq!(disc_word(16 + 12, 975), "entry 1 (\"log\"): it ends at byte 1024; the last of the disc is 1023");
    assert_eq!(found(|state| state.disc.copy_within(0..12, 16)), "entry 1 (\"down\") has the name of entry 0");
    assert_eq!(
        disc_word(16 + 12, 180),
        "entry 1 (\"log\"): bytes 180 to 229 overlap those of entry 0 (\"down\"), 161 to 180"
    );
}

#[test]
fn clauses_of_a_work_area_in_words() {
    assert_eq!(area_byte(406, 26), "the variable count, byte 406, is 26; there are at most 25 variables");
    assert_eq!(area_word(407, 0), "the next ID, bytes 407 and 408, is 0; it must be 1 to 32768");
    assert_eq!(area_byte(411, 7), "byte 411 is 7; bytes 409 to 415 must be zeros");
    assert_eq!(
        area_byte(record_at(3) + 14, 65),
        "slot 3: its state is 65; it must be 114 ('r', running), 112 ('p', paused) or 0 (ended)"
    );
    assert_eq!(area_word(record_at(1) + 12, 3), "slot 1 (log, ID 3): its ID is not from 1 to below the next ID, 3");
    assert_eq!(area_word(record_at(1) + 12, 1), "slot 1 (log, ID 1): slot 0 has the same ID");
}

#[test]
fn clauses_of_a_process_in_words() {
    let at = record_at(0);
    assert_eq!(area_byte(at + 31, 9), "slot 0 (down, ID 1): its share is 9; a share is at most 8");
    assert_eq!(area_byte(at + 30, 33), "slot 0 (down, ID 1): SP is 33; a stack has 32 bytes");
    assert_eq!(area_word(at + 20, 21), "slot 0 (down, ID 1): PC is 21, beyond its code of 20 bytes");
    assert_eq!(area_word(at + 22, 40), "slot 0 (down, ID 1): its loop place is 40, beyond its code of 20 bytes");
    assert_eq!(area_word(at + 28, 51), "slot 0 (down, ID 1): its file offset is 51, beyond its open file of 50 bytes");
    assert_eq!(area_word(record_at(1) + 28, 1), "slot 1 (log, ID 2): its file offset is 1, and no file is open");
    assert_eq!(
        area_byte(at + 11, 1),
        "slot 0 (down, ID 1): byte 11 of its name is 1, after a zero; all bytes there must be zeros"
    );
    assert_eq!(area_byte(at, b't'), "slot 0 (town, ID 1): the disc has no file of its name");
    assert_eq!(
        area_word(at + 16, 200),
        "slot 0 (down, ID 1): its code is 20 bytes at 200; the disc has that file with 20 at 161"
    );
    assert_eq!(
        area_word(at + 24, 182),
        "slot 0 (down, ID 1): its open file is 50 bytes at 182; the disc has no such file"
    );
}

#[test]
fn clauses_of_a_variable_in_words() {
    assert_eq!(area_byte(257, 5), "variable 0 (n of ID 1): its type is 5; types are 1 to 4");
    assert_eq!(area_byte(259, 1), "variable 0 (n of ID 1): its size is 1; type 2 (INT) has size 2");
    assert_eq!(area_byte(265, 31), "variable 1 (x of ID 1): its size is 31; a STRING has 1 to 30 bytes");
    assert_eq!(area_byte(264, 253), "variable 1 (x of ID 1): it ends at byte 256; the last of memory is 255");
    assert_eq!(area_word(266, 9), "variable 1 (x of ID 9): no live process has that ID");
    assert_eq!(area_byte(262, b'n'), "variable 1 (n of ID 1): variable 0 has the same name and ID");
    assert_eq!(
        area_byte(264, 1),
        "variable 1 (x of ID 1): bytes 1 to 4 overlap those of variable 0 (n of ID 1), 0 to 1"
    );
    assert_eq!(
        found(|state| state.area[256..258].copy_from_slice(&[200, 0])),
        "variable 0 (200 of ID 1): its type is 0; types are 1 to 4"
    );
}
