//! The end of the server by a signal: what systemd and a terminal send.

use std::sync::atomic::{AtomicBool, Ordering};

static ASKED: AtomicBool = AtomicBool::new(false);
const INTERRUPT: i32 = 2;
const TERMINATE: i32 = 15;

extern "C" {
    fn signal(number: i32, handler: extern "C" fn(i32)) -> usize;
}

extern "C" fn note(_: i32) {
    ASKED.store(true, Ordering::Relaxed);
}

pub fn catch() {
    for number in [INTERRUPT, TERMINATE] {
        // SAFETY: the C library's function; the handler only stores to an atomic.
        unsafe { signal(number, note) };
    }
}

pub fn asked_to_stop() -> bool {
    ASKED.load(Ordering::Relaxed)
}
