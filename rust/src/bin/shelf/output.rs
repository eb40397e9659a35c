//! Standard output, with every error that the system reports. Rust's own
//! passes over one that is closed.

use std::fs::File;
use std::io::{self, LineWriter, Write};
use std::os::fd::AsFd;
use std::sync::atomic::{AtomicBool, Ordering};

const OUTPUT: i32 = 1;

/// Asks for what is known of an open file; the answer does not matter here.
const GET_FLAGS: i32 = 3;

extern "C" {
    fn fcntl(file: i32, command: i32, ...) -> i32;
}

static IS_CLOSED: AtomicBool = AtomicBool::new(false);

/// Runs before `main`, and so before Rust opens something else in the place of
/// a standard output that is closed.
#[used]
#[link_section = ".init_array"]
static LOOK: extern "C" fn() = look;

extern "C" fn look() {
    // Asking changes nothing.
    let flags = unsafe { fcntl(OUTPUT, GET_FLAGS) };
    IS_CLOSED.store(flags < 0, Ordering::Relaxed);
}

/// Standard output, line by line.
pub struct Output(LineWriter<File>);

impl Output {
    pub fn open() -> io::Result<Output> {
        if IS_CLOSED.load(Ordering::Relaxed) {
            return Err(io::Error::other("it is closed"));
        }
        let file = io::stdout().as_fd().try_clone_to_owned()?;
        Ok(Output(LineWriter::new(file.into())))
    }
}

impl Write for Output {
    fn write(&mut self, bytes: &[u8]) -> io::Result<usize> {
        self.0.write(bytes)
    }

    fn flush(&mut self) -> io::Result<()> {
        self.0.flush()
    }
}
