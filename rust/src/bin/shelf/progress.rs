//! How far long work is, on standard error.

use std::io::{self, IsTerminal, Write};
use std::time::{Duration, Instant};

/// On a terminal one line is renewed; elsewhere lines add up, so they come
/// less often.
const ON_TERMINAL: Duration = Duration::from_millis(200);
const ELSEWHERE: Duration = Duration::from_secs(5);

pub struct Progress {
    all: usize,
    done: usize,
    last: Instant,
    on_terminal: bool,
    quiet: bool,
    shown: bool,
}

impl Progress {
    pub fn of(all: usize, quiet: bool) -> Progress {
        Progress {
            all,
            done: 0,
            last: Instant::now(),
            on_terminal: io::stderr().is_terminal(),
            quiet,
            shown: false,
        }
    }

    /// One more is done.
    pub fn step(&mut self) {
        self.done += 1;
        let pause = if self.on_terminal {
            ON_TERMINAL
        } else {
            ELSEWHERE
        };
        // A terminal's line says at the end how many there were.
        let is_due = self.last.elapsed() >= pause || self.on_terminal && self.done == self.all;
        if self.quiet || !is_due {
            return;
        }
        self.last = Instant::now();
        self.shown = true;
        let end = if self.on_terminal { '\r' } else { '\n' };
        // Progress that cannot be shown stops no work.
        let _ = write!(io::stderr(), "{} of {} files{end}", self.done, self.all);
    }

    /// Leaves the terminal's line free for what follows.
    pub fn end(&self) {
        if self.shown && self.on_terminal {
            let _ = writeln!(io::stderr());
        }
    }
}
