//! The new folder: which place each moved file has there. Every folder is
//! opened step by step, and none that belongs to the old folder is ever
//! written into, under whatever name it is met.

use crate::disk::{self, Folder, Id, Opened};
use crate::trouble::Trouble;
use crate::walk::{self, Found};
use crate::{drafts, names};
use shelf::sha256::Digest;
use std::collections::{BTreeMap, BTreeSet, HashMap};
use std::ffi::{OsStr, OsString};
use std::io::ErrorKind;
use std::path::{Path, PathBuf};
use std::rc::Rc;

/// The nearest folder that is there, and the names still to be made below it,
/// down to the new folder.
struct Ground {
    folder: Folder,
    missing: Vec<OsString>,
}

pub struct Places<'a> {
    /// The old folder, and what was found below it.
    old: &'a Found,
    ground: Ground,
    /// The new folder, once it is there.
    root: Option<Folder>,
    /// The folder that was opened last: the next file mostly stands there too.
    last: Option<(PathBuf, Rc<Folder>)>,
    /// Which moved file has a place.
    taken: HashMap<Id, PathBuf>,
}

impl<'a> Places<'a> {
    /// Looks at the new folder; nothing is written. Neither folder may be
    /// inside the other, where files would be judged that the move has just
    /// written.
    pub fn look(new: &Path, old: &Folder, found: &'a Found) -> Result<Places<'a>, Trouble> {
        let ground = Ground::of(new)?;
        let above_new = ground.folder.and_above().map_err(Trouble::on(new))?;
        let above_old = old.and_above().map_err(Trouble::on(old.path()))?;
        let is_there = ground.missing.is_empty();
        let is_in_old = above_new.iter().any(|id| found.has(*id));
        if is_in_old || is_there && above_old.contains(&above_new[0]) {
            let what = "the old and the new folder must be apart, neither in the other";
            return Err(Trouble::about(new, what));
        }
        let root = is_there.then(|| ground.folder.again()).transpose();
        Ok(Places {
            old: found,
            ground,
            root: root.map_err(Trouble::on(new))?,
            last: None,
            taken: HashMap::new(),
        })
    }

    /// Removes the drafts of runs that were cut short. Gives their names.
    pub fn tidy(&mut self) -> Vec<PathBuf> {
        // What cannot be looked into holds nothing that could be removed.
        let found = self.root.as_ref().map(walk::below).and_then(Result::ok);
        let mut removed = Vec::new();
        for entry in found.unwrap_or_default().entries {
            let (folder, name) = disk::apart(&entry.name);
            if !drafts::is_draft(name) {
                continue;
            }
            if let Ok(Some(folder)) = self.folder(folder) {
                if drafts::remove_left(&folder, name) {
                    removed.push(folder.named(name));
                }
            }
        }
        removed
    }

    /// A folder below the new one, if it is there.
    pub fn folder(&mut self, name: &Path) -> Result<Option<Rc<Folder>>, Trouble> {
        self.open(name, false)
    }

    /// A folder below the new one; made if it is not there.
    pub fn made(&mut self, name: &Path) -> Result<Rc<Folder>, Trouble> {
        if self.root.is_none() {
            self.root = Some(self.ground.make(self.old)?);
        }
        let folder = self.open(name, true)?;
        folder.ok_or_else(|| Trouble::about(name, "it could not be made"))
    }

    fn open(&mut self, name: &Path, make: bool) -> Result<Option<Rc<Folder>>, Trouble> {
        if self.last.as_ref().is_none_or(|(last, _)| last != name) {
            let Some(root) = &self.root else {
                return Ok(None);
            };
            let mut folder = root.again().map_err(Trouble::on(root.path()))?;
            let mut path = PathBuf::new();
            for part in disk::steps(name) {
                path.push(part);
                match self.step(&folder, part, &path, make)? {
                    Some(next) => folder = next,
                    None => return Ok(None),
                }
            }
            self.last = Some((name.to_path_buf(), Rc::new(folder)));
        }
        Ok(self.last.as_ref().map(|(_, folder)| folder.clone()))
    }

    /// One step down, into a folder that is none of the old ones.
    fn step(
        &self,
        folder: &Folder,
        part: &OsStr,
        path: &Path,
        make: bool,
    ) -> Result<Option<Folder>, Trouble> {
        let shown = folder.named(part);
        let next = match folder.folder(part) {
            Err(error) if error.kind() == ErrorKind::NotFound => {
                if !make {
                    return Ok(None);
                }
                folder.make(part, self.old.folders.get(path))
            }
            other => other,
        };
        let next = next.map_err(Trouble::on(&shown))?;
        apart_from(self.old, next).map(Some)
    }

    /// Sees that no other moved file has this place.
    pub fn is_free(&self, place: Id, name: &Path) -> Result<(), Trouble> {
        match self.taken.get(&place) {
            Some(other) if other != name => {
                let [name, other] = [name, other].map(names::shown);
                Err(Trouble::new(format!(
                    "{name} and {other} have one place below the new folder"
                )))
            }
            _ => Ok(()),
        }
    }

    /// Notes that a moved file has this place, and no other may have it.
    pub fn take(&mut self, place: Id, name: &Path) -> Result<(), Trouble> {
        self.is_free(place, name)?;
        self.taken.insert(place, name.to_path_buf());
        Ok(())
    }

    /// Forgets all places, so that each can be taken once more.
    pub fn begin_last_look(&mut self) {
        self.taken.clear();
        self.last = None;
    }

    /// Sees once more that a moved file is there under its name, that no
    /// other is the same, and that it holds the bytes that were verified.
    pub fn look_again(&mut self, name: &Path, digest: Digest) -> Result<(), Trouble> {
        let (folder, part) = disk::apart(name);
        let gone = || Trouble::about(name, "it is no longer there");
        let folder = self.folder(folder)?.ok_or_else(gone)?;
        let shown = folder.named(part);
        let (mut file, known) = match folder.file(part).map_err(Trouble::on(&shown))? {
            Opened::File(file, known) => (file, known),
            Opened::Other(what) => return Err(Trouble::about(&shown, what)),
        };
        self.take(Id::of(&known), name)?;
        let bytes = disk::read_all(&mut file, &known).map_err(Trouble::on(&shown))?;
        if Digest::of(&bytes) != digest {
            let what = "it no longer holds what was verified";
            return Err(Trouble::about(&shown, what));
        }
        Ok(())
    }

    /// Gives the folders of the moved files their rights and times, where
    /// they hold nothing else, and flushes them, up to the new folder. That
    /// one, if it was there before, is the archive's own.
    pub fn finish(&mut self, moved: &[&Path]) -> Result<(), Trouble> {
        let held = names_held(moved);
        // The deepest first: a folder's own time changes none above it.
        let mut folders = held.iter().rev();
        folders.try_for_each(|(name, parts)| self.finish_folder(name, parts))
    }

    fn finish_folder(&mut self, name: &Path, parts: &BTreeSet<&OsStr>) -> Result<(), Trouble> {
        let kept = self.old.folders.get(name).copied();
        let is_given = name.as_os_str().is_empty() && self.ground.missing.is_empty();
        // One that is gone is found out by the last look.
        let Ok(Some(folder)) = self.folder(name) else {
            return Ok(());
        };
        let on = || Trouble::on(folder.path());
        let names = folder.names().map_err(on())?;
        let is_own = !is_given && names.iter().all(|(name, _)| parts.contains(&name[..]));
        if let Some(kept) = kept.filter(|_| is_own) {
            if let Err(error) = folder.keep(kept) {
                // No file is lost by this.
                let what = format!("its rights and time are not those it had: {error}");
                Trouble::about(folder.path(), what).tell();
            }
        }
        folder.flush().map_err(on())
    }
}

/// Sees that a folder is none of the old ones.
fn apart_from(old: &Found, folder: Folder) -> Result<Folder, Trouble> {
    let id = folder.id().map_err(Trouble::on(folder.path()))?;
    if old.has(id) {
        let what = "it is a folder of the old one";
        return Err(Trouble::about(folder.path(), what));
    }
    Ok(folder)
}

/// The names that the moved files need in each folder.
fn names_held<'a>(moved: &[&'a Path]) -> BTreeMap<&'a Path, BTreeSet<&'a OsStr>> {
    let mut held: BTreeMap<&Path, BTreeSet<&OsStr>> = BTreeMap::new();
    for file in moved {
        for path in file
            .ancestors()
            .take_while(|path| path.file_name().is_some())
        {
            let (folder, name) = disk::apart(path);
            held.entry(folder).or_default().insert(name);
        }
    }
    held
}

impl Ground {
    fn of(new: &Path) -> Result<Ground, Trouble> {
        let mut missing = Vec::new();
        let mut path = new;
        loop {
            match Folder::open(path) {
                Ok(folder) => {
                    missing.reverse();
                    return Ok(Ground { folder, missing });
                }
                // A link that leads nowhere is no name to be made.
                Err(error)
                    if error.kind() == ErrorKind::NotFound && path.symlink_metadata().is_err() =>
                {
                    let name = path.file_name();
                    let name = name.ok_or_else(|| Trouble::on(new)(error))?;
                    missing.push(name.to_os_string());
                    path = path.parent().unwrap_or(Path::new(""));
                }
                Err(error) => return Err(Trouble::on(new)(error)),
            }
        }
    }

    /// Makes the new folder and those above it that are missing.
    fn make(&self, old: &Found) -> Result<Folder, Trouble> {
        let mut folder = self
            .folder
            .again()
            .map_err(Trouble::on(self.folder.path()))?;
        for (number, name) in self.missing.iter().enumerate() {
            let is_new = number + 1 == self.missing.len();
            let kept = old.folders.get(Path::new("")).filter(|_| is_new);
            let shown = folder.named(name);
            let next = folder.make(name, kept).map_err(Trouble::on(&shown))?;
            folder.flush().map_err(Trouble::on(folder.path()))?;
            folder = apart_from(old, next)?;
        }
        Ok(folder)
    }
}
