//! Files that are written under a passing name in their own folder and then
//! put in place whole, so that no name ever holds half a file.

use crate::disk::{self, Folder, Id, Kept, Opened};
use crate::trouble::Trouble;
use std::ffi::{OsStr, OsString};
use std::fs::{self, File};
use std::io::{self, ErrorKind, Seek, Write};
use std::os::unix::fs::MetadataExt;
use std::path::Path;
use std::process;

const BEGIN: &str = ".shelf-";
const END: &str = ".tmp";

/// How many passing names are tried.
const TRIES: u32 = 1_000;

/// Whether a name is one that drafts have: `.shelf-NUMBER-NUMBER.tmp`.
pub fn is_draft(name: &OsStr) -> bool {
    let numbers = |name: &str| {
        let middle = name.strip_prefix(BEGIN)?.strip_suffix(END)?;
        let (one, other) = middle.split_once('-')?;
        let digits = |word: &str| !word.is_empty() && word.bytes().all(|b| b.is_ascii_digit());
        (digits(one) && digits(other)).then_some(())
    };
    name.to_str().and_then(numbers).is_some()
}

/// A file on its way. It is removed again unless it is put in place.
struct Draft<'a> {
    folder: &'a Folder,
    name: OsString,
    file: File,
    id: Id,
    is_placed: bool,
}

impl Draft<'_> {
    /// Begins a file with these rights, as far as the user grants them.
    fn begin(folder: &Folder, rights: u32) -> io::Result<Draft<'_>> {
        for number in 0..TRIES {
            let name = OsString::from(format!("{BEGIN}{}-{number}{END}", process::id()));
            match folder.create(&name, rights) {
                Ok(file) => {
                    let draft = Draft {
                        folder,
                        name,
                        id: Id::of(&file.metadata()?),
                        file,
                        is_placed: false,
                    };
                    // Held, so that no other run takes it for one that was
                    // left; one may have done so, and removed it, just before.
                    // Where a disk has no locks, no run removes a draft.
                    let _ = draft.file.lock();
                    if folder.is_at(&draft.name, draft.id)? {
                        return Ok(draft);
                    }
                }
                Err(error) if error.kind() == ErrorKind::AlreadyExists => (),
                Err(error) => return Err(error),
            }
        }
        Err(ErrorKind::AlreadyExists.into())
    }

    fn id(&self) -> Id {
        self.id
    }

    fn add(&mut self, bytes: &[u8]) -> io::Result<()> {
        self.file.write_all(bytes)
    }

    /// Takes over rights and time.
    fn keep(&self, kept: Kept) -> io::Result<()> {
        disk::keep(&self.file, kept)
    }

    /// Sees to it that the disk has all that was added.
    fn flush(&self) -> io::Result<()> {
        self.file.sync_all()
    }

    /// What the disk gives back of what was written.
    fn read_back(&mut self) -> io::Result<Vec<u8>> {
        self.file.rewind()?;
        let known = self.file.metadata()?;
        disk::read_all(&mut self.file, &known)
    }

    /// Gives the file its name, in one step. Unless it may be replaced, a
    /// file that is there stays: `AlreadyExists`.
    fn place(mut self, target: &OsStr, replace: bool) -> io::Result<()> {
        self.folder.give_name(&self.name, target, replace)?;
        self.is_placed = true;
        Ok(())
    }
}

impl Drop for Draft<'_> {
    fn drop(&mut self) {
        if !self.is_placed {
            let _ = self.folder.remove(&self.name);
        }
    }
}

/// The rights of a file that takes over none: the user's mask does the rest.
const ALL_MAY: u32 = 0o666;

/// Writes a file to `target`. What the disk gives back must pass `compare`,
/// or nothing is put in place. Gives what `compare` gave, and which file it
/// is; nothing if another was there first.
pub fn write<T>(
    folder: &Folder,
    target: &OsStr,
    bytes: &[u8],
    replace: bool,
    kept: Option<Kept>,
    compare: impl Fn(&[u8]) -> Result<T, String>,
) -> Result<Option<(T, Id)>, Trouble> {
    let path = folder.named(target);
    let on = || Trouble::on(&path);
    let rights = kept.map_or(ALL_MAY, |kept| kept.rights());
    let mut draft = Draft::begin(folder, rights).map_err(on())?;
    draft.add(bytes).map_err(on())?;
    if let Some(kept) = kept {
        draft.keep(kept).map_err(on())?;
    }
    draft.flush().map_err(on())?;
    let written = draft.read_back().map_err(on())?;
    let compared = compare(&written).map_err(|what| {
        let what = format!("not put in place, since what was written {what}");
        Trouble::about(&path, what)
    })?;
    let id = draft.id();
    match draft.place(target, replace) {
        Err(error) if error.kind() == ErrorKind::AlreadyExists => Ok(None),
        placed => placed.map_err(on()).map(|()| Some((compared, id))),
    }
}

/// Whether a file may be put at `target`. Unless it may be replaced, nothing
/// may stand there; what is no regular file is never replaced.
pub fn is_free(folder: &Folder, target: &OsStr, replace: bool) -> Result<(), Trouble> {
    let path = folder.named(target);
    match folder.find(target).map_err(Trouble::on(&path))? {
        Some(there) if !there.is_file() => {
            let what = "not written over: it is no regular file";
            Err(Trouble::about(&path, what))
        }
        Some(_) if !replace => Err(is_there(&path)),
        _ => Ok(()),
    }
}

pub fn is_there(target: &Path) -> Trouble {
    let what = "there is one already (--replace lets it be written over)";
    Trouble::about(target, what)
}

/// Removes a draft that a run of this user left when it was cut short. One
/// that a run still holds, or another user's, stays. Says whether it is gone.
pub fn remove_left(folder: &Folder, name: &OsStr) -> bool {
    let Ok(own) = fs::metadata("/proc/self") else {
        return false;
    };
    match folder.file(name) {
        Ok(Opened::File(file, known)) if known.uid() == own.uid() => {
            file.try_lock().is_ok() && folder.remove(name).is_ok()
        }
        _ => false,
    }
}
