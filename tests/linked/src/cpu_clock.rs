//! The processor time of this thread, so that other programs on the machine count less.

use std::ffi::{c_int, c_long};

#[repr(C)]
struct Timespec {
    seconds: c_long,
    nanoseconds: c_long,
}

extern "C" {
    fn clock_gettime(clock: c_int, time: *mut Timespec) -> c_int;
}

/// Linux's number for the thread's processor clock.
const CLOCK_THREAD_CPUTIME_ID: c_int = 3;

/// Nanoseconds that this thread has spent on a processor.
pub fn nanoseconds() -> u64 {
    let mut time = Timespec { seconds: 0, nanoseconds: 0 };
    // The pointer is valid for the call.
    let failed = unsafe { clock_gettime(CLOCK_THREAD_CPUTIME_ID, &mut time) };
    assert_eq!(failed, 0, "the system has no processor clock");
    time.seconds as u64 * 1_000_000_000 + time.nanoseconds as u64
}
