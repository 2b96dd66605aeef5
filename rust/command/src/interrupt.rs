//! Ctrl-C, and what else asks a process to end: a run in slices stops after its
//! slice. All the unsafe code of the command is here.

#![allow(unsafe_code)]

use std::sync::atomic::{AtomicBool, Ordering};

/// The signals, by the numbers that every Unix gives them.
const SIGINT: i32 = 2;
const SIGTERM: i32 = 15;
/// What a signal does where no handler is set, and that it is ignored.
const DEFAULT: usize = 0;
const IGNORED: usize = 1;

static ASKED: AtomicBool = AtomicBool::new(false);

extern "C" {
    fn signal(number: i32, handler: usize) -> usize;
}

/// From here on the first of these signals is kept to be [asked](asked) for. The
/// second ends the process.
pub fn watch() {
    set(note as extern "C" fn(i32) as usize);
}

/// Whether the process was asked to end.
pub fn asked() -> bool {
    ASKED.load(Ordering::Relaxed)
}

extern "C" fn note(_: i32) {
    ASKED.store(true, Ordering::Relaxed);
    set(DEFAULT);
}

/// A signal that was ignored stays so: whoever started the process said it.
///
/// Sound: a handler is `note`, which has the type that the system calls and does
/// only what a handler may, an atomic store and calls of `signal`; or one of the
/// system's own.
fn set(handler: usize) {
    for number in [SIGINT, SIGTERM] {
        unsafe {
            if signal(number, handler) == IGNORED {
                signal(number, IGNORED);
            }
        }
    }
}
