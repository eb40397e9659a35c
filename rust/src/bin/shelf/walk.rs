//! Every file below a folder.

use crate::disk::{self, Folder, Id, Kept};
use crate::drafts;
use crate::trouble::Trouble;
use std::collections::{BTreeMap, HashMap};
use std::ffi::{OsStr, OsString};
use std::fs::FileType;
use std::io;
use std::path::{Path, PathBuf};

/// Something below the folder that is no folder, or a folder that cannot be
/// looked into.
pub struct Entry {
    /// Its path from the folder on.
    pub name: PathBuf,
    pub sort: Sort,
}

pub enum Sort {
    File,
    /// What is not judged, and why.
    Other(&'static str),
    /// A folder that cannot be looked into.
    Shut(Trouble),
}

/// What stands below a folder.
#[derive(Default)]
pub struct Found {
    /// In the order of their names.
    pub entries: Vec<Entry>,
    /// The folder itself, by an empty name, and every folder below it.
    pub folders: BTreeMap<PathBuf, Kept>,
    ids: HashMap<Id, PathBuf>,
}

impl Found {
    /// Whether it is the folder or one below it, under whatever name.
    pub fn has(&self, folder: Id) -> bool {
        self.ids.contains_key(&folder)
    }
}

/// All entries below a folder. Links are not followed: what they lead to may
/// lie elsewhere, or be met twice.
pub fn below(root: &Folder) -> Result<Found, Trouble> {
    let mut found = Found::default();
    let mut folders = vec![PathBuf::new()];
    while let Some(name) = folders.pop() {
        match names_in(root, &name, &mut found) {
            Ok(names) => {
                for (part, kind) in names {
                    let name = name.join(&part);
                    if kind.is_dir() {
                        folders.push(name);
                    } else {
                        let sort = sort_of(&part, kind);
                        found.entries.push(Entry { name, sort });
                    }
                }
            }
            Err(sort) if !name.as_os_str().is_empty() => found.entries.push(Entry { name, sort }),
            Err(Sort::Shut(trouble)) => return Err(trouble),
            Err(_) => return Err(Trouble::about(root.path(), "it cannot be looked into")),
        }
    }
    found
        .entries
        .sort_by(|one, other| one.name.cmp(&other.name));
    Ok(found)
}

/// Looks into one folder, unless it was met under another name: a folder
/// mounted below itself would never come to an end.
fn names_in(
    root: &Folder,
    name: &Path,
    found: &mut Found,
) -> Result<Vec<(OsString, FileType)>, Sort> {
    let shut = |error: io::Error| Sort::Shut(Trouble::on(&root.path().join(name))(error));
    let folder = root.below(name).map_err(shut)?;
    let known = folder.known().map_err(shut)?;
    if found.has(Id::of(&known)) {
        return Err(Sort::Other("a folder that was met under another name"));
    }
    let names = folder.names().map_err(shut)?;
    found.ids.insert(Id::of(&known), name.to_path_buf());
    found.folders.insert(name.to_path_buf(), Kept::of(&known));
    Ok(names)
}

fn sort_of(name: &OsStr, kind: FileType) -> Sort {
    if !kind.is_file() {
        Sort::Other(disk::other(kind))
    } else if drafts::is_draft(name) {
        Sort::Other("a draft that a run left when it was cut short")
    } else {
        Sort::File
    }
}
