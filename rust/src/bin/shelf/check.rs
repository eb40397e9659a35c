//! `shelf check FILE..`

use crate::arguments::Check;
use crate::deposit::{self, Deposit};
use crate::disk::Folder;
use crate::load;
use crate::status::Status;
use crate::trouble::Trouble;
use crate::walk::{self, Sort};
use crate::{json, names, report};
use shelf::library::{Fault, Verdict};
use std::ffi::OsStr;
use std::io::{self, Read, Write};
use std::os::unix::ffi::OsStrExt;
use std::path::{Path, PathBuf};

/// How much of a file is judged, and what is said of one that is good.
pub struct Extent {
    judge: fn(&[u8]) -> Result<Verdict, Fault>,
    pub accepted: &'static str,
    /// What a refused one would be with its lines filled.
    would_be: &'static str,
    /// What became of the references, where that has to be said.
    pub references: Option<&'static str>,
}

const WHOLE: Extent = Extent {
    judge: deposit::judged,
    accepted: "accepted",
    would_be: report::ACCEPTED,
    references: None,
};

/// Nobody is to take this for acceptance: a file may still name stations that
/// it does not define.
const FORM: Extent = Extent {
    judge: deposit::formed,
    accepted: "form accepted, references not judged",
    would_be: "its form would be accepted",
    references: Some("not judged"),
};

/// Judges each file and goes on after one that cannot be read.
pub fn run(order: &Check, out: &mut dyn Write) -> Result<Status, Trouble> {
    let listed = match &order.files_from {
        Some(list) => names_in(list, order.zero_ends)?,
        None => Vec::new(),
    };
    let mut desk = Desk {
        order,
        extent: if order.form { &FORM } else { &WHOLE },
        out,
        worst: Status::Accepted,
    };
    for path in order.files.iter().chain(&listed) {
        desk.path(path)?;
    }
    Ok(desk.worst)
}

/// The names in a list of them.
fn names_in(list: &Path, zero_ends: bool) -> Result<Vec<PathBuf>, Trouble> {
    let mut bytes = Vec::new();
    if list == Path::new(load::STANDARD) {
        let read = io::stdin().lock().read_to_end(&mut bytes);
        read.map_err(Trouble::on(Path::new("standard input")))?;
    } else {
        bytes = std::fs::read(list).map_err(Trouble::on(list))?;
    }
    let end = if zero_ends { 0 } else { b'\n' };
    let names = bytes.split(|byte| *byte == end);
    let names = names.filter(|name| !name.is_empty());
    Ok(names.map(|name| OsStr::from_bytes(name).into()).collect())
}

struct Desk<'a> {
    order: &'a Check,
    extent: &'static Extent,
    out: &'a mut dyn Write,
    worst: Status,
}

impl Desk<'_> {
    /// Judges a file, or every file below a folder.
    fn path(&mut self, path: &Path) -> Result<(), Trouble> {
        if path == Path::new(load::STANDARD) || !path.is_dir() {
            return self.file(path);
        }
        let found = Folder::open(path).map_err(Trouble::on(path));
        let entries = match found.and_then(|folder| walk::below(&folder)) {
            Ok(found) => found.entries,
            Err(trouble) => return self.not_judged(path, &trouble, Status::Trouble),
        };
        for entry in entries {
            let path = path.join(&entry.name);
            match entry.sort {
                Sort::File => self.file(&path)?,
                Sort::Other(why) => {
                    let trouble = Trouble::about(&path, format!("not judged: {why}"));
                    self.not_judged(&path, &trouble, Status::Refused)?;
                }
                Sort::Shut(trouble) => self.not_judged(&path, &trouble, Status::Trouble)?,
            }
        }
        Ok(())
    }

    fn file(&mut self, path: &Path) -> Result<(), Trouble> {
        let deposit = match Deposit::load(path, self.order.pad) {
            Ok(deposit) => deposit,
            Err(trouble) => return self.not_judged(path, &trouble, Status::Trouble),
        };
        let extent = self.extent;
        let judged = deposit.ask(extent.judge);
        if judged.is_err() {
            self.worst = self.worst.max(Status::Refused);
        } else if self.order.quiet {
            return Ok(());
        }
        match (&judged, self.order.json) {
            (_, true) => json::verdict(self.out, path, &deposit, extent, &judged),
            (Ok(verdict), false) => {
                report::accepted(self.out, path, extent.accepted, &verdict.counts)
            }
            (Err(refusal), false) => {
                report::refused_file(self.out, path, &deposit, refusal, extent.would_be)
            }
        }
        .map_err(Trouble::standard_output)
    }

    fn not_judged(&mut self, path: &Path, why: &Trouble, status: Status) -> Result<(), Trouble> {
        self.worst = self.worst.max(status);
        why.tell();
        if self.order.json {
            let name = format!("{}: ", names::shown(path));
            let why = why.to_string();
            let why = why.strip_prefix(&name).unwrap_or(&why);
            json::not_judged(self.out, path, why).map_err(Trouble::standard_output)?;
        }
        Ok(())
    }
}
