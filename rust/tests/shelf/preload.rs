//! Loaded in front of the C library into a command that a test runs. It notes
//! every call that changes the disk and, right after a known one, ends the
//! command or holds it still. The command itself knows nothing of it.
//!
//! `STOP_ON` is the call counted (or `any`), `STOP_AT` its numbers, from 1 on,
//! `STOP_BY` the signal's number; `STOP_LOG` a file for a line each.

use std::env;
use std::ffi::{c_char, c_int, c_uint, c_void, CStr, CString};
use std::os::unix::ffi::OsStrExt;
use std::sync::atomic::{AtomicU64, Ordering};

extern "C" {
    fn dlsym(handle: *mut c_void, name: *const c_char) -> *mut c_void;
    fn raise(signal: c_int) -> c_int;
    fn readlink(path: *const c_char, to: *mut c_char, room: usize) -> isize;
}

/// The definition that comes after this library's.
const NEXT: *mut c_void = -1isize as *mut c_void;

const CREATES: c_int = 0o100;
/// Writes, adds at the end, creates.
const LOG: c_int = 0o1 | 0o2_000 | CREATES;

static CALLS: AtomicU64 = AtomicU64::new(0);

macro_rules! next {
    ($name:ident($($kind:ty),*) -> $answer:ty) => {{
        let name = concat!(stringify!($name), "\0");
        let found = dlsym(NEXT, name.as_ptr().cast());
        std::mem::transmute::<*mut c_void, unsafe extern "C" fn($($kind),*) -> $answer>(found)
    }};
}

/// A call of the C library by its name, and what it has changed.
macro_rules! watch {
    ($name:ident($($word:ident: $kind:ty),*) -> $answer:ty, $changed:expr) => {
        #[no_mangle]
        pub unsafe extern "C" fn $name($($word: $kind),*) -> $answer {
            let answer = next!($name($($kind),*) -> $answer)($($word),*);
            if let Some(changed) = $changed {
                after(stringify!($name), &changed);
            }
            answer
        }
    };
}

watch!(open64(path: *const c_char, flags: c_int, rights: c_uint) -> c_int,
    (flags & CREATES != 0).then(|| at(path)));
watch!(write(file: c_int, bytes: *const c_void, length: usize) -> isize,
    (file > 2).then(|| opened(file)));
watch!(ftruncate64(file: c_int, length: i64) -> c_int, Some(opened(file)));
watch!(fchmod(file: c_int, rights: c_uint) -> c_int, Some(opened(file)));
watch!(futimens(file: c_int, times: *const c_void) -> c_int, Some(opened(file)));
watch!(fsync(file: c_int) -> c_int, Some(opened(file)));
watch!(mkdir(path: *const c_char, rights: c_uint) -> c_int, Some(at(path)));
watch!(unlink(path: *const c_char) -> c_int, Some(at(path)));
watch!(rename(from: *const c_char, to: *const c_char) -> c_int,
    Some([at(from), at(to)].join(&b' ')));
watch!(linkat(a: c_int, from: *const c_char, b: c_int, to: *const c_char, flags: c_int) -> c_int,
    Some([at(from), at(to)].join(&b' ')));

unsafe fn after(name: &str, changed: &[u8]) {
    if let Some(log) = env::var_os("STOP_LOG") {
        let line = [name.as_bytes(), b" ", changed, b"\n"].concat();
        let path = CString::new(log.as_bytes()).unwrap();
        let file = next!(open64(*const c_char, c_int, c_uint) -> c_int)(path.as_ptr(), LOG, 0o600);
        next!(write(c_int, *const c_void, usize) -> isize)(file, line.as_ptr().cast(), line.len());
        next!(close(c_int) -> c_int)(file);
    }
    let word = |name| env::var(name).unwrap_or_default();
    let counted = word("STOP_ON");
    if counted == "any" || counted == name {
        let call = CALLS.fetch_add(1, Ordering::Relaxed) + 1;
        if word("STOP_AT").split(',').any(|number| number == call.to_string()) {
            raise(word("STOP_BY").parse().unwrap());
        }
    }
}

/// The name of an open file.
unsafe fn opened(file: c_int) -> Vec<u8> {
    let path = CString::new(format!("/proc/self/fd/{file}")).unwrap();
    let mut name = vec![0u8; 4_096];
    let length = readlink(path.as_ptr(), name.as_mut_ptr().cast(), name.len());
    name.truncate(length.max(0) as usize);
    name
}

/// A path; one in a folder that is held open, by that folder's name.
unsafe fn at(path: *const c_char) -> Vec<u8> {
    let path = CStr::from_ptr(path).to_string_lossy().into_owned();
    let held = path.strip_prefix("/proc/self/fd/");
    match held.and_then(|held| held.split_once('/')) {
        Some((file, name)) => {
            let folder = opened(file.parse().unwrap_or(-1));
            [&folder[..], name.as_bytes()].join(&b'/')
        }
        None => path.into_bytes(),
    }
}
