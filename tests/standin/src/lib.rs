//! The C functions of the first kernel, answered by the second implementation: a stand-in to try the harness with, and
//! the body of every planted mutant.

use second::number;
use std::slice::{from_raw_parts, from_raw_parts_mut};

/// # Safety
/// Each pointer is valid for as many bytes as the length after it says, and lent buffers do not overlap.
#[no_mangle]
pub unsafe extern "C" fn arduinos_format(disc: *mut u8, disc_len: usize, area: *mut u8, area_len: usize) -> i32 {
    number(second::format(from_raw_parts_mut(disc, disc_len), from_raw_parts_mut(area, area_len)))
}

/// # Safety
/// As [`arduinos_format`].
#[no_mangle]
pub unsafe extern "C" fn arduinos_boot(area: *mut u8, area_len: usize) -> i32 {
    number(second::boot(from_raw_parts_mut(area, area_len)))
}

/// # Safety
/// As [`arduinos_format`].
#[no_mangle]
pub unsafe extern "C" fn arduinos_store(
    disc: *mut u8,
    disc_len: usize,
    name: *const u8,
    name_len: usize,
    data: *const u8,
    data_len: usize,
) -> i32 {
    let disc = from_raw_parts_mut(disc, disc_len);
    number(second::store(disc, from_raw_parts(name, name_len), from_raw_parts(data, data_len)))
}

/// # Safety
/// As [`arduinos_format`].
#[no_mangle]
pub unsafe extern "C" fn arduinos_retrieve(
    disc: *const u8,
    disc_len: usize,
    name: *const u8,
    name_len: usize,
    out: *mut u8,
    out_len: usize,
) -> i32 {
    let disc = from_raw_parts(disc, disc_len);
    number(second::retrieve(disc, from_raw_parts(name, name_len), from_raw_parts_mut(out, out_len)))
}

/// # Safety
/// As [`arduinos_format`].
#[no_mangle]
pub unsafe extern "C" fn arduinos_erase(
    disc: *mut u8,
    disc_len: usize,
    area: *const u8,
    area_len: usize,
    name: *const u8,
    name_len: usize,
) -> i32 {
    let disc = from_raw_parts_mut(disc, disc_len);
    number(second::erase(disc, from_raw_parts(area, area_len), from_raw_parts(name, name_len)))
}

/// # Safety
/// As [`arduinos_format`].
#[no_mangle]
pub unsafe extern "C" fn arduinos_files(disc: *const u8, disc_len: usize, out: *mut u8, out_len: usize) -> i32 {
    number(second::files(from_raw_parts(disc, disc_len), from_raw_parts_mut(out, out_len)))
}

/// # Safety
/// As [`arduinos_format`].
#[no_mangle]
pub unsafe extern "C" fn arduinos_free_space(disc: *const u8, disc_len: usize) -> i32 {
    number(second::free_space(from_raw_parts(disc, disc_len)))
}

/// # Safety
/// As [`arduinos_format`].
#[no_mangle]
pub unsafe extern "C" fn arduinos_run(
    disc: *const u8,
    disc_len: usize,
    area: *mut u8,
    area_len: usize,
    name: *const u8,
    name_len: usize,
) -> i32 {
    let disc = from_raw_parts(disc, disc_len);
    number(second::run(disc, from_raw_parts_mut(area, area_len), from_raw_parts(name, name_len)))
}

/// # Safety
/// As [`arduinos_format`].
#[no_mangle]
pub unsafe extern "C" fn arduinos_suspend(
    disc: *const u8,
    disc_len: usize,
    area: *mut u8,
    area_len: usize,
    id: u32,
) -> i32 {
    number(second::suspend(from_raw_parts(disc, disc_len), from_raw_parts_mut(area, area_len), id))
}

/// # Safety
/// As [`arduinos_format`].
#[no_mangle]
pub unsafe extern "C" fn arduinos_resume(
    disc: *const u8,
    disc_len: usize,
    area: *mut u8,
    area_len: usize,
    id: u32,
) -> i32 {
    number(second::resume(from_raw_parts(disc, disc_len), from_raw_parts_mut(area, area_len), id))
}

/// # Safety
/// As [`arduinos_format`].
#[no_mangle]
pub unsafe extern "C" fn arduinos_kill(
    disc: *const u8,
    disc_len: usize,
    area: *mut u8,
    area_len: usize,
    id: u32,
) -> i32 {
    number(second::kill(from_raw_parts(disc, disc_len), from_raw_parts_mut(area, area_len), id))
}

/// # Safety
/// As [`arduinos_format`].
#[no_mangle]
pub unsafe extern "C" fn arduinos_share(
    disc: *const u8,
    disc_len: usize,
    area: *mut u8,
    area_len: usize,
    id: u32,
    share: u32,
) -> i32 {
    number(second::share(from_raw_parts(disc, disc_len), from_raw_parts_mut(area, area_len), id, share))
}

/// # Safety
/// As [`arduinos_format`].
#[no_mangle]
pub unsafe extern "C" fn arduinos_list(
    disc: *const u8,
    disc_len: usize,
    area: *const u8,
    area_len: usize,
    out: *mut u8,
    out_len: usize,
) -> i32 {
    let disc = from_raw_parts(disc, disc_len);
    number(second::list(disc, from_raw_parts(area, area_len), from_raw_parts_mut(out, out_len)))
}

/// # Safety
/// As [`arduinos_format`].
#[no_mangle]
pub unsafe extern "C" fn arduinos_turn(
    disc: *mut u8,
    disc_len: usize,
    area: *mut u8,
    area_len: usize,
    slot: u32,
    clock: u32,
    out: *mut u8,
    out_len: usize,
) -> i32 {
    let disc = from_raw_parts_mut(disc, disc_len);
    let area = from_raw_parts_mut(area, area_len);
    number(second::turn(disc, area, slot, clock, from_raw_parts_mut(out, out_len)))
}

/// # Safety
/// As [`arduinos_format`].
#[no_mangle]
pub unsafe extern "C" fn arduinos_round(
    disc: *mut u8,
    disc_len: usize,
    area: *mut u8,
    area_len: usize,
    clock: u32,
    out: *mut u8,
    out_len: usize,
) -> i32 {
    let disc = from_raw_parts_mut(disc, disc_len);
    let area = from_raw_parts_mut(area, area_len);
    number(second::round(disc, area, clock, from_raw_parts_mut(out, out_len)))
}
