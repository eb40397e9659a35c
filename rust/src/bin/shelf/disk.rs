//! Folders held open. What is tested and what is then written is one place,
//! whatever is renamed or linked meanwhile: every name is looked up in the
//! folder that was opened, and no link is followed.

use std::ffi::{OsStr, OsString};
use std::fs::{self, DirBuilder, File, FileType, Metadata, OpenOptions, Permissions};
use std::io::{self, ErrorKind, Read};
use std::os::fd::AsRawFd;
use std::os::unix::fs::{DirBuilderExt, MetadataExt, OpenOptionsExt, PermissionsExt};
use std::path::{Component, Path, PathBuf};
use std::time::SystemTime;

/// Linux's numbers: a link is not followed; a pipe keeps nobody waiting.
const NO_FOLLOW: i32 = if cfg!(any(target_arch = "aarch64", target_arch = "arm")) {
    0o100_000
} else {
    0o400_000
};
const NO_WAIT: i32 = 0o4_000;

/// Read, write and search for owner, group and others.
const RIGHTS: u32 = 0o777;
/// These, and those that let a program run as another user.
const ALL_BITS: u32 = 0o7777;
/// Without these the owner could not put anything into a folder.
const OWNER_WORKS: u32 = 0o700;
/// Without this the owner could not look at a file again.
const OWNER_READS: u32 = 0o400;

/// Which file or folder it is, whatever its names.
#[derive(Clone, Copy, Debug, PartialEq, Eq, Hash, PartialOrd, Ord)]
pub struct Id {
    device: u64,
    inode: u64,
}

impl Id {
    pub fn of(known: &Metadata) -> Id {
        Id {
            device: known.dev(),
            inode: known.ino(),
        }
    }
}

/// What a moved file or folder keeps.
#[derive(Clone, Copy, Debug)]
pub struct Kept {
    rights: u32,
    modified: Option<SystemTime>,
}

impl Kept {
    pub fn of(known: &Metadata) -> Kept {
        Kept {
            rights: known.mode() & RIGHTS,
            modified: known.modified().ok(),
        }
    }

    /// Those of a file that was written: its owner can read it.
    pub fn rights(&self) -> u32 {
        self.rights | OWNER_READS
    }
}

/// Something that is no folder: a file to be read, or what is not judged.
pub enum Opened {
    File(File, Metadata),
    Other(&'static str),
}

/// Why something that is no regular file is not judged.
pub fn other(kind: FileType) -> &'static str {
    if kind.is_symlink() {
        "a symbolic link, not followed"
    } else {
        "no regular file"
    }
}

pub struct Folder {
    open: File,
    /// Its name in messages.
    path: PathBuf,
}

impl Folder {
    /// Opens a folder by the words of the command: links are followed. No
    /// words are the folder that the command runs in.
    pub fn open(path: &Path) -> io::Result<Folder> {
        let there = match path.as_os_str().is_empty() {
            true => Path::new("."),
            false => path,
        };
        // A pipe would keep whoever opens it waiting.
        if !fs::metadata(there)?.is_dir() {
            return Err(io::Error::other("it is a file, not a folder"));
        }
        let open = File::open(there)?;
        let path = path.to_path_buf();
        Ok(Folder { open, path })
    }

    pub fn path(&self) -> &Path {
        &self.path
    }

    /// A name in this folder, for messages.
    pub fn named(&self, name: &OsStr) -> PathBuf {
        self.path.join(name)
    }

    /// Where the system finds a name in this very folder.
    fn at(&self, name: impl AsRef<OsStr>) -> PathBuf {
        Path::new("/proc/self/fd")
            .join(self.open.as_raw_fd().to_string())
            .join(name.as_ref())
    }

    pub fn known(&self) -> io::Result<Metadata> {
        self.open.metadata()
    }

    pub fn id(&self) -> io::Result<Id> {
        Ok(Id::of(&self.known()?))
    }

    /// This folder and all above it.
    pub fn and_above(&self) -> io::Result<Vec<Id>> {
        let mut found = vec![self.id()?];
        let mut path = self.at("..");
        loop {
            let next = Id::of(&fs::metadata(&path)?);
            // Above the topmost folder stands itself.
            if found.last() == Some(&next) {
                return Ok(found);
            }
            found.push(next);
            path.push("..");
        }
    }

    /// What a name stands for; of a link, the link itself.
    pub fn look(&self, name: &OsStr) -> io::Result<Metadata> {
        fs::symlink_metadata(self.at(name))
    }

    /// What stands under a name, if something does.
    pub fn find(&self, name: &OsStr) -> io::Result<Option<Metadata>> {
        match self.look(name) {
            Ok(known) => Ok(Some(known)),
            Err(error) if error.kind() == ErrorKind::NotFound => Ok(None),
            Err(error) => Err(error),
        }
    }

    /// Whether it is this very file that stands under a name.
    pub fn is_at(&self, name: &OsStr, file: Id) -> io::Result<bool> {
        Ok(self.find(name)?.is_some_and(|known| Id::of(&known) == file))
    }

    /// Opens a folder in this one.
    pub fn folder(&self, name: &OsStr) -> io::Result<Folder> {
        let kind = self.look(name)?.file_type();
        if kind.is_symlink() {
            return Err(io::Error::other("it is a symbolic link, not followed"));
        }
        let open = self.read_only(name)?;
        if !open.metadata()?.is_dir() {
            return Err(ErrorKind::NotADirectory.into());
        }
        let path = self.named(name);
        Ok(Folder { open, path })
    }

    /// Opens a folder by its path from here on, step by step.
    pub fn below(&self, path: &Path) -> io::Result<Folder> {
        let mut folder = self.again()?;
        for name in steps(path) {
            folder = folder.folder(name)?;
        }
        Ok(folder)
    }

    pub fn again(&self) -> io::Result<Folder> {
        let open = self.open.try_clone()?;
        let path = self.path.clone();
        Ok(Folder { open, path })
    }

    /// Opens a file of this folder.
    pub fn file(&self, name: &OsStr) -> io::Result<Opened> {
        let kind = self.look(name)?.file_type();
        if !kind.is_file() {
            return Ok(Opened::Other(other(kind)));
        }
        match self.read_only(name) {
            Ok(open) => {
                let known = open.metadata()?;
                if known.is_file() {
                    return Ok(Opened::File(open, known));
                }
                Ok(Opened::Other(other(known.file_type())))
            }
            // It may have become something else since.
            Err(error) => match self.look(name)?.file_type() {
                kind if kind.is_file() => Err(error),
                kind => Ok(Opened::Other(other(kind))),
            },
        }
    }

    fn read_only(&self, name: &OsStr) -> io::Result<File> {
        OpenOptions::new()
            .read(true)
            .custom_flags(NO_FOLLOW | NO_WAIT)
            .open(self.at(name))
    }

    /// A new file, to be written and read back.
    pub fn create(&self, name: &OsStr, rights: u32) -> io::Result<File> {
        OpenOptions::new()
            .read(true)
            .write(true)
            .create_new(true)
            .mode(rights)
            .open(self.at(name))
    }

    /// Makes a folder, unless another run has just done so. It has the rights
    /// of the one that it stands for; its owner can work in it.
    pub fn make(&self, name: &OsStr, kept: Option<&Kept>) -> io::Result<Folder> {
        let rights = kept.map_or(RIGHTS, |kept| kept.rights | OWNER_WORKS);
        match DirBuilder::new().mode(rights).create(self.at(name)) {
            Err(error) if error.kind() != ErrorKind::AlreadyExists => Err(error),
            _ => self.folder(name),
        }
    }

    /// The names in this folder, and what each is.
    pub fn names(&self) -> io::Result<Vec<(OsString, FileType)>> {
        fs::read_dir(self.at(""))?
            .map(|entry| {
                let entry = entry?;
                Ok((entry.file_name(), entry.file_type()?))
            })
            .collect()
    }

    /// Another name, over what may stand there.
    pub fn rename(&self, from: &OsStr, to: &OsStr) -> io::Result<()> {
        fs::rename(self.at(from), self.at(to))
    }

    /// Gives a file its name, in one step. Unless it may be replaced, a file
    /// that is there stays: `AlreadyExists`.
    pub fn give_name(&self, from: &OsStr, to: &OsStr, replace: bool) -> io::Result<()> {
        if replace {
            return self.rename(from, to);
        }
        // Unlike renaming, linking fails if another put a file there since.
        match fs::hard_link(self.at(from), self.at(to)) {
            Ok(()) => {
                // It has its name, whatever becomes of the passing one.
                let _ = self.remove(from);
                Ok(())
            }
            Err(error) if error.kind() == ErrorKind::AlreadyExists => Err(error),
            Err(_) if self.find(to)?.is_some() => Err(ErrorKind::AlreadyExists.into()),
            // Some disks have no links.
            Err(_) => self.rename(from, to),
        }
    }

    pub fn remove(&self, name: &OsStr) -> io::Result<()> {
        fs::remove_file(self.at(name))
    }

    /// Sees to it that the disk has the names that were put here.
    pub fn flush(&self) -> io::Result<()> {
        match self.open.sync_all() {
            // Some disks cannot flush a folder.
            Err(error) if error.kind() == ErrorKind::InvalidInput => Ok(()),
            other => other,
        }
    }

    pub fn keep(&self, kept: Kept) -> io::Result<()> {
        set(&self.open, kept.rights, kept.modified)
    }
}

/// Gives a file that was written the rights and the time of its source.
pub fn keep(file: &File, kept: Kept) -> io::Result<()> {
    set(file, kept.rights(), kept.modified)
}

fn set(file: &File, rights: u32, modified: Option<SystemTime>) -> io::Result<()> {
    if file.metadata()?.mode() & ALL_BITS != rights {
        file.set_permissions(Permissions::from_mode(rights))?;
    }
    match modified {
        Some(modified) => file.set_modified(modified),
        None => Ok(()),
    }
}

/// The names of a path from a folder on.
pub fn steps(path: &Path) -> impl Iterator<Item = &OsStr> {
    path.components().filter_map(|component| match component {
        Component::Normal(name) => Some(name),
        _ => None,
    })
}

/// The folder and the name of a path from a folder on.
pub fn apart(path: &Path) -> (&Path, &OsStr) {
    let folder = path.parent().unwrap_or(Path::new(""));
    (folder, path.file_name().unwrap_or_default())
}

/// Reads a file up to so many bytes. Its length is known, so that no room has
/// to be looked for.
pub fn read_up_to(file: &mut File, known: &Metadata, most: usize) -> io::Result<Vec<u8>> {
    let length = usize::try_from(known.len()).unwrap_or(most);
    // One more, so that the end is found without asking for more room.
    let mut bytes = Vec::with_capacity(length.min(most) + 1);
    file.take(most as u64).read_to_end(&mut bytes)?;
    Ok(bytes)
}

pub fn read_all(file: &mut File, known: &Metadata) -> io::Result<Vec<u8>> {
    read_up_to(file, known, usize::MAX)
}
