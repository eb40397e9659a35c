//! A file's bytes, as far as the verdict needs them.

use crate::disk;
use crate::trouble::Trouble;
use shelf::library::{LAST_RECORD, LINE};
use shelf::sha256::{Digest, Hasher};
use std::fs::{File, Metadata};
use std::io::{self, ErrorKind, Read};
use std::path::Path;

/// The longest line that can be padded, with its end: 80 bytes, CR LF.
const LONGEST: usize = LINE + 1;

/// What follows changes no verdict. As the file stands, record 100,000 has
/// begun; for the padding, a line is above 80 bytes or line 100,000 has begun.
const MOST: usize = LAST_RECORD * LONGEST + 1;

/// How much of a long file's rest is held at once.
const PART: usize = 1 << 16;

/// The name that stands for standard input, or output.
pub const STANDARD: &str = "-";

pub struct Loaded {
    pub bytes: Vec<u8>,
    /// The file's whole length.
    length: u64,
}

impl Loaded {
    /// The whole 81-byte blocks of the file.
    pub fn records(&self) -> u64 {
        self.length / LINE as u64
    }
}

/// Reads a file as far as a verdict needs it, so that a very long one fills
/// no memory; `-` is standard input.
pub fn load(path: &Path) -> Result<Loaded, Trouble> {
    if path == Path::new(STANDARD) {
        let mut bytes = Vec::new();
        let read = io::stdin().lock().take(MOST as u64).read_to_end(&mut bytes);
        read.map_err(Trouble::on(Path::new("standard input")))?;
        let length = bytes.len() as u64;
        return Ok(Loaded { bytes, length });
    }
    let opened = File::open(path).and_then(|file| {
        let known = file.metadata()?;
        Ok((file, known))
    });
    let read = opened.and_then(|(mut file, known)| read(&mut file, &known));
    read.map_err(Trouble::on(path))
}

fn read(file: &mut File, known: &Metadata) -> io::Result<Loaded> {
    if known.is_dir() {
        return Err(ErrorKind::IsADirectory.into());
    }
    let bytes = disk::read_up_to(file, known, MOST)?;
    // A pipe or device has no length but that of what it gave.
    let length = known.len().max(bytes.len() as u64);
    Ok(Loaded { bytes, length })
}

/// Reads an opened file as far as a verdict needs it, and gives the digest of
/// the whole. Nothing if `stop` says so before the end.
pub fn load_and_digest(
    file: &mut File,
    known: &Metadata,
    stop: impl Fn() -> bool,
) -> io::Result<Option<(Loaded, Digest)>> {
    let loaded = read(file, known)?;
    let mut hasher = Hasher::new();
    hasher.add(&loaded.bytes);
    if loaded.bytes.len() == MOST {
        let mut part = vec![0; PART];
        loop {
            let length = match file.read(&mut part) {
                Err(error) if error.kind() == ErrorKind::Interrupted => continue,
                read => read?,
            };
            if length == 0 {
                break;
            }
            if stop() {
                return Ok(None);
            }
            hasher.add(&part[..length]);
        }
    }
    Ok(Some((loaded, hasher.digest())))
}
