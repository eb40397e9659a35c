//! What stops a command that is no verdict: wrong words, files that cannot
//! be read or written.

use crate::names;
use std::fmt::{self, Display, Formatter};
use std::io::{self, ErrorKind, Write};
use std::path::Path;

#[derive(Clone, Debug)]
pub struct Trouble(String);

impl Trouble {
    pub fn new(what: impl Into<String>) -> Trouble {
        Trouble(what.into())
    }

    /// The words of the command are wrong.
    pub fn usage(what: impl Display) -> Trouble {
        Trouble(format!("{what}\n`shelf help` says how to call it"))
    }

    pub fn about(path: &Path, what: impl Display) -> Trouble {
        Trouble(format!("{}: {what}", names::shown(path)))
    }

    /// Gives what makes a trouble of an error met on a file.
    pub fn on(path: &Path) -> impl FnOnce(io::Error) -> Trouble + '_ {
        move |error| Trouble::about(path, in_words(&error))
    }

    pub fn standard_output(error: io::Error) -> Trouble {
        Trouble(format!("standard output: {}", in_words(&error)))
    }

    /// Nothing is left to be done if even this cannot be written.
    pub fn tell(&self) {
        let _ = writeln!(io::stderr(), "shelf: {self}");
    }
}

impl Display for Trouble {
    fn fmt(&self, formatter: &mut Formatter<'_>) -> fmt::Result {
        formatter.write_str(&self.0)
    }
}

fn in_words(error: &io::Error) -> String {
    let words = match error.kind() {
        ErrorKind::NotFound => "there is no such file or folder",
        ErrorKind::PermissionDenied => "no permission",
        ErrorKind::StorageFull => "the disk is full",
        ErrorKind::QuotaExceeded => "the disk quota is used up",
        ErrorKind::FileTooLarge => "the file is larger than may be written here",
        ErrorKind::ReadOnlyFilesystem => "the disk can only be read",
        ErrorKind::IsADirectory => "it is a folder, not a file",
        ErrorKind::NotADirectory => "a part of the path is a file, not a folder",
        ErrorKind::BrokenPipe => "nobody reads it",
        _ => return error.to_string(),
    };
    words.to_string()
}
