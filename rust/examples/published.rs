//! Prints what `crates/published` prints for the same list, from the plain
//! implementation.

use shelf::published::page;
use std::io;

fn main() -> io::Result<()> {
    print!("{}", page()?);
    Ok(())
}
