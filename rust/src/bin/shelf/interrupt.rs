//! Asked to stop, a command ends between two files and tidies up.

use std::sync::atomic::{AtomicBool, Ordering};

/// Linux's numbers of these signals.
const HANG_UP: i32 = 1;
const INTERRUPT: i32 = 2;
const TERMINATE: i32 = 15;
const FILE_SIZE: i32 = 25;

/// What stands for a handler: the system's own way, or none.
const DEFAULT: usize = 0;
const IGNORED: usize = 1;

static ASKED: AtomicBool = AtomicBool::new(false);

extern "C" {
    fn signal(number: i32, handler: usize) -> usize;
}

extern "C" fn ask(number: i32) {
    ASKED.store(true, Ordering::Relaxed);
    if number == INTERRUPT {
        // Whoever interrupts twice will not wait: the next one ends the
        // command at once. `signal` may be called here (POSIX).
        unsafe { signal(INTERRUPT, DEFAULT) };
    }
}

/// From now on these signals only set a mark. What may wait for somebody, as
/// reading a pipe does, has to be done before.
pub fn heed() {
    let handler = ask as extern "C" fn(i32) as usize;
    // Setting an atomic and a handler is all that the handler does, which is
    // allowed in one.
    unsafe {
        for number in [HANG_UP, INTERRUPT, TERMINATE] {
            // Whoever started the command with a signal ignored, as `nohup`
            // does, wants it to go on.
            if signal(number, handler) == IGNORED {
                signal(number, IGNORED);
            }
        }
        // A write beyond the limit on a file's size then fails like others.
        signal(FILE_SIZE, IGNORED);
    }
}

/// Whether the command was asked to stop.
pub fn asked() -> bool {
    ASKED.load(Ordering::Relaxed)
}
