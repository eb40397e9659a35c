//! A folder to work in, and the command run there.

use shelf::plain;
use std::ffi::OsStr;
use std::fs;
use std::io::Write;
use std::os::unix::fs::PermissionsExt;
use std::os::unix::process::{CommandExt, ExitStatusExt};
use std::path::{Path, PathBuf};
use std::process::{Command, Output, Stdio};
use std::{env, process};

/// What stands for a handler where the system does as it always does.
const DEFAULT: usize = 0;
/// The signals that a program can be started with ignored.
const SIGNALS: std::ops::RangeInclusive<i32> = 1..=31;
/// The rights that a new file has not.
const MASK: u32 = 0o022;
/// Asks that a program run by root has no more rights than its owner.
const SET_SECURE_BITS: i32 = 28;
const NO_ROOT: u64 = 1;

extern "C" {
    fn signal(number: i32, handler: usize) -> usize;
    fn umask(mask: u32) -> u32;
    fn prctl(option: i32, ...) -> i32;
}

/// A folder of the test's own, removed at its end.
pub struct Desk {
    folder: PathBuf,
}

/// What a run of the command ended with.
pub struct Ran {
    /// Below zero the signal that ended it.
    pub status: i32,
    pub out: String,
    pub err: String,
}

impl Desk {
    pub fn new(name: &str) -> Desk {
        // Every test sets the same, whatever the caller of the tests had.
        unsafe { umask(MASK) };
        let folder = env::temp_dir().join(format!("shelf-{}-{name}", process::id()));
        fs::create_dir_all(&folder).unwrap();
        let folder = folder.canonicalize().unwrap();
        Desk { folder }
    }

    pub fn path(&self, name: impl AsRef<Path>) -> PathBuf {
        self.folder.join(name)
    }

    /// Puts a file there, and its folders.
    pub fn put(&self, name: impl AsRef<Path>, bytes: &[u8]) {
        let path = self.path(name);
        fs::create_dir_all(path.parent().unwrap()).unwrap();
        fs::write(path, bytes).unwrap();
    }

    pub fn get(&self, name: impl AsRef<Path>) -> Vec<u8> {
        fs::read(self.path(name)).unwrap()
    }

    pub fn has(&self, name: impl AsRef<Path>) -> bool {
        fs::symlink_metadata(self.path(name)).is_ok()
    }

    /// Every file below a folder, drafts too, in order.
    pub fn files(&self, name: &str) -> Vec<String> {
        let folder = self.path(name);
        let mut found = Vec::new();
        let mut folders = vec![folder.clone()];
        while let Some(next) = folders.pop() {
            for entry in fs::read_dir(next).into_iter().flatten() {
                let entry = entry.unwrap();
                if entry.file_type().is_ok_and(|kind| kind.is_dir()) {
                    folders.push(entry.path());
                } else {
                    let path = entry.path();
                    let name = path.strip_prefix(&folder).unwrap();
                    found.push(name.to_string_lossy().into_owned());
                }
            }
        }
        found.sort();
        found
    }

    /// The command, ready to be run in the folder.
    pub fn command<W: AsRef<OsStr>>(&self, words: &[W]) -> Command {
        let mut command = self.program(env!("CARGO_BIN_EXE_shelf"));
        command.args(words);
        command
    }

    /// A program in the folder, with nothing of what the caller of the tests
    /// did with signals, environment or standard input.
    pub fn program(&self, program: &str) -> Command {
        let mut command = Command::new(program);
        command.current_dir(&self.folder).stdin(Stdio::null());
        command
            .env_clear()
            .envs(env::var_os("PATH").map(|path| ("PATH", path)));
        // Setting signals and a mask is allowed between fork and exec.
        unsafe {
            command.pre_exec(|| {
                for number in SIGNALS {
                    signal(number, DEFAULT);
                }
                umask(MASK);
                Ok(())
            });
        }
        command
    }

    pub fn run<W: AsRef<OsStr>>(&self, words: &[W]) -> Ran {
        Ran::of(self.command(words).output().unwrap())
    }

    /// Runs the command with something on its standard input.
    pub fn fed(&self, words: &[&str], input: &[u8]) -> Ran {
        let mut command = self.command(words);
        command.stdin(Stdio::piped()).stdout(Stdio::piped());
        let mut child = command.stderr(Stdio::piped()).spawn().unwrap();
        child.stdin.take().unwrap().write_all(input).unwrap();
        Ran::of(child.wait_with_output().unwrap())
    }

    /// Runs the command with no more rights than its owner has: root would be
    /// let through everywhere.
    pub fn run_without_rights(&self, words: &[&str]) -> Ran {
        let mut command = self.command(words);
        unsafe {
            command.pre_exec(|| {
                // Whoever may not ask for this has no such rights to lose.
                prctl(SET_SECURE_BITS, NO_ROOT, 0u64, 0u64, 0u64);
                Ok(())
            });
        }
        Ran::of(command.output().unwrap())
    }

    pub fn mode(&self, name: &str, mode: u32) {
        fs::set_permissions(self.path(name), fs::Permissions::from_mode(mode)).unwrap();
    }

    /// Runs a line of the shell in the folder; `shelf` is the command.
    pub fn shell(&self, line: &str) -> Ran {
        let line = format!(
            "shelf() {{ {} \"$@\"; }}; {line}",
            env!("CARGO_BIN_EXE_shelf")
        );
        let mut command = self.program("sh");
        command.arg("-c").arg(line);
        Ran::of(command.output().unwrap())
    }

    /// Runs a line of the shell where something is mounted for it alone. It
    /// needs a name space of its own, which not every machine gives.
    pub fn mounted(&self, mount: &str, line: &str) -> Option<Ran> {
        let given = self.program("unshare").args(["-rm", "true"]).output();
        if !given.is_ok_and(|given| given.status.success()) {
            eprintln!("nothing can be mounted here: not tried");
            return None;
        }
        let line = line.replace("shelf ", concat!(env!("CARGO_BIN_EXE_shelf"), " "));
        Some(self.shell(&format!("unshare -rm sh -c '{mount} && {line}'")))
    }
}

impl Drop for Desk {
    fn drop(&mut self) {
        let _ = fs::remove_dir_all(&self.folder);
    }
}

impl Ran {
    pub fn of(output: Output) -> Ran {
        let status = output.status;
        Ran {
            status: status.code().unwrap_or_else(|| -status.signal().unwrap()),
            out: String::from_utf8(output.stdout).unwrap(),
            err: String::from_utf8(output.stderr).unwrap(),
        }
    }

    /// Looks at the status, and says all if it is another.
    pub fn ended(self, status: i32) -> Ran {
        assert_eq!(self.status, status, "out: {} err: {}", self.out, self.err);
        self
    }
}

/// The house style of an accepted file, by the plain implementation.
pub fn house(file: &[u8]) -> Vec<u8> {
    let mut out = vec![0; file.len()];
    let checked = plain::rewrite(file, &mut vec![0; plain::TABLE_WORDS], &mut out);
    assert_eq!(checked.fault, plain::Fault::ACCEPTED);
    out
}
