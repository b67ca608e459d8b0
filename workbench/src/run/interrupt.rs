//! Ctrl-C ends a run after the round that is going on, so that its record is whole and what was asked for is saved.

use std::sync::atomic::{AtomicBool, Ordering};

static CAUGHT: AtomicBool = AtomicBool::new(false);

#[cfg(unix)]
mod signals {
    use super::{AtomicBool, Ordering, CAUGHT};

    const SIGINT: i32 = 2;
    static SET: AtomicBool = AtomicBool::new(false);

    extern "C" {
        fn signal(number: i32, handler: extern "C" fn(i32)) -> usize;
    }

    extern "C" fn catch(_number: i32) {
        CAUGHT.store(true, Ordering::Relaxed);
    }

    pub fn watch() {
        if !SET.swap(true, Ordering::Relaxed) {
            // The handler only stores a flag, which a signal handler may do.
            unsafe { signal(SIGINT, catch) };
        }
    }
}

/// From here on Ctrl-C is noted and does not end the program.
pub fn watch() {
    #[cfg(unix)]
    signals::watch();
}

pub fn caught() -> bool {
    CAUGHT.load(Ordering::Relaxed)
}
