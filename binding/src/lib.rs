//! The proved kernel through its C functions: include/arduinos.h for Rust.
//!
//! The functions are linked into a program by `link.rs`, its package's build script. All that calls them here is
//! `#[inline]`, so that this package has no object that needs the static library: a program that makes no call is
//! linked without one.

mod c;
pub mod call;
pub mod sizes;
pub mod words;

// Each function below lends its slices as pointer and length; Rust's borrows keep them apart, and none is null.

#[inline]
pub fn format(disc: &mut [u8], area: &mut [u8]) -> i32 {
    unsafe { c::arduinos_format(disc.as_mut_ptr(), disc.len(), area.as_mut_ptr(), area.len()) }
}

#[inline]
pub fn boot(area: &mut [u8]) -> i32 {
    unsafe { c::arduinos_boot(area.as_mut_ptr(), area.len()) }
}

#[inline]
pub fn store(disc: &mut [u8], name: &[u8], data: &[u8]) -> i32 {
    unsafe { c::arduinos_store(disc.as_mut_ptr(), disc.len(), name.as_ptr(), name.len(), data.as_ptr(), data.len()) }
}

#[inline]
pub fn retrieve(disc: &[u8], name: &[u8], out: &mut [u8]) -> i32 {
    unsafe { c::arduinos_retrieve(disc.as_ptr(), disc.len(), name.as_ptr(), name.len(), out.as_mut_ptr(), out.len()) }
}

#[inline]
pub fn erase(disc: &mut [u8], area: &[u8], name: &[u8]) -> i32 {
    unsafe { c::arduinos_erase(disc.as_mut_ptr(), disc.len(), area.as_ptr(), area.len(), name.as_ptr(), name.len()) }
}

#[inline]
pub fn files(disc: &[u8], out: &mut [u8]) -> i32 {
    unsafe { c::arduinos_files(disc.as_ptr(), disc.len(), out.as_mut_ptr(), out.len()) }
}

#[inline]
pub fn free_space(disc: &[u8]) -> i32 {
    unsafe { c::arduinos_free_space(disc.as_ptr(), disc.len()) }
}

#[inline]
pub fn run(disc: &[u8], area: &mut [u8], name: &[u8]) -> i32 {
    unsafe { c::arduinos_run(disc.as_ptr(), disc.len(), area.as_mut_ptr(), area.len(), name.as_ptr(), name.len()) }
}

#[inline]
pub fn suspend(disc: &[u8], area: &mut [u8], id: u32) -> i32 {
    unsafe { c::arduinos_suspend(disc.as_ptr(), disc.len(), area.as_mut_ptr(), area.len(), id) }
}

#[inline]
pub fn resume(disc: &[u8], area: &mut [u8], id: u32) -> i32 {
    unsafe { c::arduinos_resume(disc.as_ptr(), disc.len(), area.as_mut_ptr(), area.len(), id) }
}

#[inline]
pub fn kill(disc: &[u8], area: &mut [u8], id: u32) -> i32 {
    unsafe { c::arduinos_kill(disc.as_ptr(), disc.len(), area.as_mut_ptr(), area.len(), id) }
}

#[inline]
pub fn share(disc: &[u8], area: &mut [u8], id: u32, share: u32) -> i32 {
    unsafe { c::arduinos_share(disc.as_ptr(), disc.len(), area.as_mut_ptr(), area.len(), id, share) }
}

#[inline]
pub fn list(disc: &[u8], area: &[u8], out: &mut [u8]) -> i32 {
    unsafe { c::arduinos_list(disc.as_ptr(), disc.len(), area.as_ptr(), area.len(), out.as_mut_ptr(), out.len()) }
}

#[inline]
pub fn turn(disc: &mut [u8], area: &mut [u8], slot: u32, clock: u32, out: &mut [u8]) -> i32 {
    unsafe {
        c::arduinos_turn(
            disc.as_mut_ptr(),
            disc.len(),
            area.as_mut_ptr(),
            area.len(),
            slot,
            clock,
            out.as_mut_ptr(),
            out.len(),
        )
    }
}

#[inline]
pub fn round(disc: &mut [u8], area: &mut [u8], clock: u32, out: &mut [u8]) -> i32 {
    unsafe {
        c::arduinos_round(
            disc.as_mut_ptr(),
            disc.len(),
            area.as_mut_ptr(),
            area.len(),
            clock,
            out.as_mut_ptr(),
            out.len(),
        )
    }
}
