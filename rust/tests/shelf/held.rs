//! A command held still, or ended, at a known point: right after a known
//! change of the disk, whatever the machine's speed.

use crate::desk::{Desk, Ran};
use std::env;
use std::ffi::CStr;
use std::fs::{self, File};
use std::os::fd::{AsRawFd, FromRawFd};
use std::os::unix::fs::OpenOptionsExt;
use std::path::PathBuf;
use std::process::{self, Child, Command, Stdio};
use std::sync::OnceLock;

/// Linux's numbers.
pub const INTERRUPT: i32 = 2;
pub const HANG_UP: i32 = 1;
pub const KILL: i32 = 9;
pub const TERMINATE: i32 = 15;
const CONTINUE: i32 = 18;
const STOP: i32 = 19;

/// Asks to be told of a command that is held still, too.
const ALSO_HELD: i32 = 2;

extern "C" {
    fn kill(process: i32, signal: i32) -> i32;
    fn waitpid(process: i32, status: *mut i32, options: i32) -> i32;
    fn ioctl(file: i32, request: u64, ...) -> i32;
    fn posix_openpt(flags: i32) -> i32;
    fn unlockpt(file: i32) -> i32;
    fn ptsname_r(file: i32, name: *mut u8, room: usize) -> i32;
}

/// Asks how many bytes of a pipe nobody has read yet.
const WAITING: u64 = 0x541b;

pub fn waiting_bytes(pipe: &File) -> i32 {
    let mut bytes = 0i32;
    assert_eq!(unsafe { ioctl(pipe.as_raw_fd(), WAITING, &mut bytes) }, 0);
    bytes
}

/// Reads, writes, and is nobody's own terminal.
const OPEN_TERMINAL: i32 = 0o2 | 0o400;

/// Both ends of a terminal: the one a person sits at, and the program's.
pub fn terminal() -> (File, File) {
    unsafe {
        let ours = posix_openpt(OPEN_TERMINAL);
        assert!(ours >= 0 && unlockpt(ours) == 0);
        let mut name = [0; 64];
        assert_eq!(ptsname_r(ours, name.as_mut_ptr(), name.len()), 0);
        let name = CStr::from_bytes_until_nul(&name).unwrap().to_str().unwrap();
        let theirs = File::options()
            .read(true)
            .write(true)
            .custom_flags(0o400)
            .open(name);
        (File::from_raw_fd(ours), theirs.unwrap())
    }
}

/// The library of preload.rs. It is compiled once, by the compiler beside the
/// cargo that runs the tests.
fn preload() -> &'static PathBuf {
    static BUILT: OnceLock<PathBuf> = OnceLock::new();
    BUILT.get_or_init(|| {
        let folder = PathBuf::from(env!("CARGO_TARGET_TMPDIR"));
        let library = folder.join("libpreload.so");
        let passing = folder.join(format!("libpreload-{}.so", process::id()));
        let rustc = env::var_os("CARGO").map(|cargo| PathBuf::from(cargo).with_file_name("rustc"));
        let rustc = rustc
            .filter(|rustc| rustc.is_file())
            .unwrap_or("rustc".into());
        let source = concat!(env!("CARGO_MANIFEST_DIR"), "/tests/shelf/preload.rs");
        let built = Command::new(rustc)
            .args([
                "--edition=2021",
                "--crate-type=cdylib",
                "-Copt-level=2",
                "-o",
            ])
            .args([passing.as_os_str(), source.as_ref()])
            .output()
            .unwrap();
        assert!(
            built.status.success(),
            "{}",
            String::from_utf8_lossy(&built.stderr)
        );
        // Other tests may use one that is there just now.
        fs::rename(passing, &library).unwrap();
        library
    })
}

/// Lets a command write a line for every change of the disk.
pub fn logged(command: &mut Command, log: PathBuf) {
    command.env("LD_PRELOAD", preload()).env("STOP_LOG", log);
}

/// Ends a command right after so many changes of the disk. Gives what became
/// of it.
pub fn killed_after(mut command: Command, changes: usize) -> Ran {
    stop(&mut command, "any", &changes.to_string(), KILL);
    Ran::of(command.output().unwrap())
}

fn stop(command: &mut Command, call: &str, numbers: &str, signal: i32) {
    command.env("LD_PRELOAD", preload());
    command.env("STOP_ON", call).env("STOP_AT", numbers);
    command.env("STOP_BY", signal.to_string());
}

/// A command that stands still right after such a call.
pub struct Held(Option<Child>);

impl Held {
    /// Holds it after the calls with these numbers, one after the other.
    pub fn after(mut command: Command, call: &str, numbers: &str) -> Held {
        stop(&mut command, call, numbers, STOP);
        command.stdout(Stdio::piped()).stderr(Stdio::piped());
        let held = Held(Some(command.spawn().unwrap()));
        held.wait();
        held
    }

    fn wait(&self) {
        let id = self.0.as_ref().unwrap().id() as i32;
        let mut status = 0;
        assert_eq!(unsafe { waitpid(id, &mut status, ALSO_HELD) }, id);
        assert_eq!(status & 0xff, 0x7f, "it ended before it could be held");
    }

    pub fn send(&self, signal: i32) {
        send(self.0.as_ref().unwrap(), signal);
    }

    /// Lets it go on to where it is held next.
    pub fn next(&self) {
        self.send(CONTINUE);
        self.wait();
    }

    /// Lets it go on, to its end.
    pub fn on(mut self) -> Ran {
        self.send(CONTINUE);
        Ran::of(self.0.take().unwrap().wait_with_output().unwrap())
    }
}

impl Drop for Held {
    /// Nothing is left behind by a test that failed.
    fn drop(&mut self) {
        if let Some(child) = &mut self.0 {
            let _ = child.kill();
            let _ = child.wait();
        }
    }
}

pub fn send(child: &Child, signal: i32) {
    assert_eq!(unsafe { kill(child.id() as i32, signal) }, 0);
}

/// The lines of a log, each without the folder of the desk.
pub fn changes(desk: &Desk, log: &str) -> Vec<String> {
    let log = fs::read_to_string(desk.path(log)).unwrap();
    let folder = format!("{}/", desk.path("").display()).replace("//", "/");
    log.lines().map(|line| line.replace(&folder, "")).collect()
}
