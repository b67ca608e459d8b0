//! When the work area is good, and the refusals that every operation tries first.

use crate::answer::{need, Refusal};
use crate::directory;
use crate::layout::*;
use crate::records;
use crate::runs;
use crate::variables;
use std::ops::Range;

/// Refusals 1 and 2 of an operation that has the disc only.
pub fn need_disc(disc: &[u8]) -> Result<(), Refusal> {
    need(is_disc_len(disc.len()), Refusal::WrongLength)?;
    need(directory::good(disc), Refusal::BadDisc)
}

/// Refusals 1, 2 and 3 of an operation that has both buffers; both lengths come before 2.
pub fn need_buffers(disc: &[u8], area: &[u8]) -> Result<(), Refusal> {
    need(is_disc_len(disc.len()) && area.len() == AREA_LEN, Refusal::WrongLength)?;
    need(directory::good(disc), Refusal::BadDisc)?;
    need(good(disc, area), Refusal::BadArea)
}

/// "A good area has …", clause by clause.
pub fn good(disc: &[u8], area: &[u8]) -> bool {
    good_header(area)
        && records::all().all(|record| good_record(disc, area, record))
        && distinct_ids(area)
        && good_variables(area)
}

/// "at most 25 variables", "its seven zeros", "next ID 1 to 32768".
fn good_header(area: &[u8]) -> bool {
    variables::count(area) <= MAX_VARIABLES
        && area[ZEROS..ZEROS + ZEROS_LEN].iter().all(|&byte| byte == 0)
        && (1..=MAX_NEXT_ID).contains(&word(area, NEXT_ID))
}

/// "known states"; "all of an ended record but its state" is not read.
fn good_record(disc: &[u8], area: &[u8], record: usize) -> bool {
    match area[record + STATE] {
        ENDED => true,
        RUNNING | PAUSED => {
            good_registers(area, record) && good_code(disc, area, record) && good_open(disc, area, record)
        }
        _ => false,
    }
}

/// Document 02, Q-9: "The spare byte holds 1 to 8, with zero as one". Document 01: "live IDs from 1 to next ID − 1", "SP
/// at most 32, PC, loop (unless none) and file offset at most their lengths".
fn good_registers(area: &[u8], record: usize) -> bool {
    let field = |at: usize| word(area, record + at);
    area[record + SPARE] <= MAX_SHARE
        && (1..word(area, NEXT_ID)).contains(&field(ID))
        && usize::from(area[record + SP]) <= STACK_LEN
        && field(PC) <= field(CODE_LENGTH)
        && (field(LOOP_PC) == NO_LOOP || field(LOOP_PC) <= field(CODE_LENGTH))
        && field(FILE_OFFSET) <= field(FILE_LENGTH)
}

/// The disc bytes that two fields of a record, start and length, name.
fn span(area: &[u8], start: usize, length: usize) -> Range<usize> {
    word(area, start)..word(area, start) + word(area, length)
}

/// "code equal to the directory's file of that name".
fn good_code(disc: &[u8], area: &[u8], record: usize) -> bool {
    let name = &area[record..record + NAME_LEN];
    let code = span(area, record + CODE_START, record + CODE_LENGTH);
    (0..directory::count(disc))
        .any(|index| directory::name(disc, index) == name && directory::range(disc, index) == code)
}

/// "an open file equal to some directory file"; "file length 2 (0: none open)".
fn good_open(disc: &[u8], area: &[u8], record: usize) -> bool {
    let file = span(area, record + FILE_START, record + FILE_LENGTH);
    file.is_empty() || directory::ranges(disc).any(|range| range == file)
}

/// "distinct live IDs".
fn distinct_ids(area: &[u8]) -> bool {
    records::live(area).all(|record| {
        records::live(area).all(|other| other == record || records::id(area, other) != records::id(area, record))
    })
}

/// "Its counted variables belong to live processes, are disjoint inside memory, have distinct (name, ID)".
fn good_variables(area: &[u8]) -> bool {
    (0..variables::count(area)).all(|index| good_variable(area, index) && apart_from_earlier(area, index))
}

/// "size 1, 2, 4 for types 1, 2, 4, or 1 to 30 for type 3".
fn good_variable(area: &[u8], index: usize) -> bool {
    let size = variables::range(area, index).len();
    let sized = match variables::kind(area, index) {
        kind @ (1 | 2 | 4) => size == usize::from(kind),
        3 => (1..=30).contains(&size),
        _ => false,
    };
    sized
        && variables::range(area, index).end <= MEMORY_LEN
        && records::of_id(area, variables::id(area, index) as u32).is_some()
}

/// Whether a variable shares neither bytes nor (name, ID) with those before it.
fn apart_from_earlier(area: &[u8], index: usize) -> bool {
    (0..index).all(|earlier| {
        runs::disjoint(&variables::range(area, earlier), &variables::range(area, index))
            && variables::key(area, earlier) != variables::key(area, index)
    })
}
