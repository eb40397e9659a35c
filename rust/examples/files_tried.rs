//! Prints what `crates/files_tried` prints for the same files, from the plain
//! implementation.

use shelf::files_tried::page;
use std::io::{self, Write};

fn main() -> io::Result<()> {
    io::stdout().write_all(&page()?)
}
