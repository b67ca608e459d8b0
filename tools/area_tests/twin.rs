//! A second implementation of the tests of disc and work area, straight from document 01, in place on the bytes.

const SHORT_DISC: usize = 1024;
const LONG_DISC: usize = 4096;
const AREA_LENGTH: usize = 1056;
const COUNT_AT: usize = 160;
const DATA_START: usize = 161;

pub const PASS: u32 = 0;
pub const WRONG_LENGTH: u32 = 1;
pub const BAD_DISC: u32 = 2;
pub const BAD_AREA: u32 = 3;

fn word(bytes: &[u8], at: usize) -> usize {
    bytes[at] as usize + bytes[at + 1] as usize * 256
}

// ---- the disc
fn entry(disc: &[u8], i: usize) -> &[u8] {
    &disc[i * 16..i * 16 + 16]
}

// "A name is 1 to 11 bytes of 33 to 126, zero-filled."
fn good_name(field: &[u8]) -> bool {
    let len = field.iter().position(|&b| b == 0).unwrap_or(12);
    (1..=11).contains(&len) && field[..len].iter().all(|b| (33..=126).contains(b)) && field[len..].iter().all(|&b| b == 0)
}

fn apart(start: usize, len: usize, other: usize, other_len: usize) -> bool {
    start + len <= other || other + other_len <= start
}

// "A good disc has distinct names, lengths from 1, and disjoint files inside the data bytes."
fn good_disc(disc: &[u8]) -> bool {
    let count = disc[COUNT_AT] as usize;
    if count > 10 {
        return false;
    }
    for i in 0..count {
        let e = entry(disc, i);
        let (start, len) = (word(e, 12), word(e, 14));
        if !good_name(&e[..12]) || len < 1 || start < DATA_START || start + len > disc.len() {
            return false;
        }
        for j in 0..i {
            let d = entry(disc, j);
            if d[..12] == e[..12] || !apart(word(d, 12), word(d, 14), start, len) {
                return false;
            }
        }
    }
    true
}

// ---- the work area
fn record(area: &[u8], i: usize) -> &[u8] {
    &area[416 + i * 64..480 + i * 64]
}

fn live(record: &[u8]) -> bool {
    record[14] == b'r' || record[14] == b'p'
}

// Document 02, Q-9: a live record's spare byte is at most 8; "live IDs from 1 to next ID − 1, [..] SP at most 32, PC, loop (unless none)
// and file offset at most their lengths, code equal to the directory's file of that name, an open file equal to some
// directory file"
fn good_live(disc: &[u8], next: usize, r: &[u8]) -> bool {
    let count = disc[COUNT_AT] as usize;
    let (id, len, pc, lp) = (word(r, 12), word(r, 18), word(r, 20), word(r, 22));
    if id < 1 || id >= next || r[31] > 8 || r[30] > 32 || pc > len || (lp != 0xFFFF && lp > len) {
        return false;
    }
    if !(0..count).any(|i| entry(disc, i)[..12] == r[..12] && entry(disc, i)[12..16] == r[16..20]) {
        return false;
    }
    let (file_len, offset) = (word(r, 26), word(r, 28));
    if file_len == 0 {
        return offset == 0;
    }
    offset <= file_len && (0..count).any(|i| entry(disc, i)[12..16] == r[24..28])
}

fn good_records(disc: &[u8], area: &[u8]) -> bool {
    let next = word(area, 407);
    for i in 0..10 {
        let r = record(area, i);
        if r[14] == 0 {
            continue;
        }
        if !live(r) || !good_live(disc, next, r) {
            return false;
        }
        for j in 0..i {
            let q = record(area, j);
            if live(q) && word(q, 12) == word(r, 12) {
                return false;
            }
        }
    }
    true
}

// "size 1, 2, 4 for types 1, 2, 4, or 1 to 30 for type 3"
fn good_size(kind: u8, size: u8) -> bool {
    match kind {
        1 | 2 | 4 => size == kind,
        3 => (1..=30).contains(&size),
        _ => false,
    }
}

// "Its counted variables belong to live processes, are disjoint inside memory, have distinct (name, ID)"
fn good_variables(area: &[u8]) -> bool {
    let count = area[406] as usize;
    if count > 25 {
        return false;
    }
    for i in 0..count {
        let e = &area[256 + i * 6..262 + i * 6];
        let (address, size, owner) = (e[2] as usize, e[3] as usize, word(e, 4));
        if !good_size(e[1], e[3]) || address + size > 256 {
            return false;
        }
        if !(0..10).any(|s| live(record(area, s)) && word(record(area, s), 12) == owner) {
            return false;
        }
        for j in 0..i {
            let d = &area[256 + j * 6..262 + j * 6];
            if !apart(d[2] as usize, d[3] as usize, address, size) || (d[0] == e[0] && word(d, 4) == owner) {
                return false;
            }
        }
    }
    true
}

fn good_area(disc: &[u8], area: &[u8]) -> bool {
    let next = word(area, 407);
    area[409..416].iter().all(|&b| b == 0)
        && (1..=32768).contains(&next)
        && good_records(disc, area)
        && good_variables(area)
}

/// "1: a buffer has the wrong length. 2: disc not good. 3: work area not good."
#[inline(never)]
pub fn check(disc: &[u8], area: &[u8]) -> u32 {
    if !(disc.len() == SHORT_DISC || disc.len() == LONG_DISC) || area.len() != AREA_LENGTH {
        return WRONG_LENGTH;
    }
    if !good_disc(disc) {
        return BAD_DISC;
    }
    if !good_area(disc, area) {
        return BAD_AREA;
    }
    PASS
}
