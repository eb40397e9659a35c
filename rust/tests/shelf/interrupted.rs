//! A move that is asked to stop.

use crate::desk::{house, Desk, Ran};
use crate::held::{send, waiting_bytes, Held, HANG_UP, INTERRUPT, TERMINATE};
use shelf::{generate, sample};
use std::fs::File;
use std::io::Write;
use std::os::fd::OwnedFd;
use std::os::unix::process::CommandExt;
use std::process::{Command, Stdio};
use std::thread::yield_now;

const FILES: usize = 12;

const MOVE: [&str; 5] = ["move", "old", "new", "--ledger", "ledger.tsv"];

/// What stands for a handler where a signal is ignored.
const IGNORED: usize = 1;

extern "C" {
    fn signal(number: i32, handler: usize) -> usize;
}

fn deposited(name: &str) -> Desk {
    let desk = Desk::new(name);
    for number in 0..FILES {
        let file = generate::accepted(number as u64, 11 + number);
        desk.put(format!("old/{}/{number:02}.b", number / 4), &file);
    }
    desk
}

/// Every file that has its name is whole and in house style. Gives how many.
fn whole(desk: &Desk) -> usize {
    let named = desk.files("new");
    for name in &named {
        let before = desk.get(format!("old/{name}"));
        assert!(desk.get(format!("new/{name}")) == house(&before), "{name}");
    }
    named.len()
}

/// A file gets its name by its only link, so this is after the third file.
#[test]
fn asked_to_stop_it_tidies_up_and_names_what_was_not_reached() {
    for signal in [INTERRUPT, TERMINATE, HANG_UP] {
        let desk = deposited(&format!("stop-{signal}"));
        let held = Held::after(desk.command(&MOVE), "linkat", "3");
        held.send(signal);
        let ran = held.on().ended(2);
        assert_eq!(
            ran.err,
            "shelf: interrupted: 9 files were not reached: the ledger names them\n\
             shelf: not every file could be judged and moved: see the ledger\n"
        );
        // No line for each.
        assert_eq!(
            ran.out,
            "12 files below old: 3 accepted, 0 refused, 0 not judged, 9 failed\n"
        );
        // No draft is left.
        assert_eq!(whole(&desk), 3);
        let ledger = String::from_utf8(desk.get("ledger.tsv")).unwrap();
        assert_eq!(ledger.lines().count(), 1 + FILES + 4);
        assert_eq!(ledger.matches("\taccepted\t").count(), 3);
        assert_eq!(ledger.matches("\tfailed: not reached\t-\t-\n").count(), 9);
        let words = ["move", "old", "new", "--ledger", "second.tsv"];
        desk.run(&words).ended(0);
        assert_eq!(whole(&desk), FILES);
    }
}

#[test]
fn asked_to_stop_after_the_last_file_it_was_not_interrupted() {
    let desk = deposited("stop-last");
    let held = Held::after(desk.command(&MOVE), "linkat", "12");
    held.send(INTERRUPT);
    let ran = held.on().ended(0);
    assert_eq!(ran.err, "");
    assert_eq!(whole(&desk), FILES);
}

/// The second write of a file is its row; the first file that is not reached
/// has only a row.
#[test]
fn interrupted_twice_it_ends_at_once() {
    let desk = deposited("stop-twice");
    let held = Held::after(desk.command(&MOVE), "write", "5,6");
    held.send(INTERRUPT);
    held.next();
    held.send(INTERRUPT);
    held.on().ended(-INTERRUPT);
    assert_eq!(whole(&desk), 2);
    assert!(!desk.has("ledger.tsv"));
    let ledger = String::from_utf8(desk.get("ledger.tsv.unfinished")).unwrap();
    assert_eq!(ledger.matches("\taccepted\t").count(), 2);
    assert_eq!(ledger.matches("\tfailed: not reached\t").count(), 1);
}

/// As under `nohup`.
#[test]
fn a_signal_that_was_ignored_stays_so() {
    for number in [INTERRUPT, TERMINATE, HANG_UP] {
        let desk = deposited(&format!("ignored-{number}"));
        let mut command = desk.command(&MOVE);
        unsafe {
            command.pre_exec(move || {
                signal(number, IGNORED);
                Ok(())
            });
        }
        let held = Held::after(command, "linkat", "3");
        held.send(number);
        held.on().ended(0);
        assert_eq!(whole(&desk), FILES);
    }
}

/// Nothing has been begun while a pipe or a terminal is read, so the system's
/// own way to end a command is good enough. The signal comes when the command
/// has taken a byte and waits for more; one that only marks it would then find
/// the end of its input, and end in another way.
#[test]
fn waiting_for_input_it_ends_on_the_first_signal() {
    let desk = Desk::new("stop-input");
    desk.put("good.b", &sample::file());
    let made = Command::new("mkfifo").arg(desk.path("pipe")).status();
    assert!(made.unwrap().success());
    for words in [
        &["rewrite", "pipe", "out.b"][..],
        &["rewrite", "-", "out.b"],
        &["pad", "-", "out.b"],
        &["check", "-"],
        &["check", "good.b", "pipe"],
        &["check", "--files-from", "-"],
        &["sheet", "-"],
        &["show", "pipe", "1"],
    ] {
        for number in [INTERRUPT, TERMINATE, HANG_UP] {
            // Open for reading too, so that there is always somebody to write
            // to.
            let pipe = File::options()
                .read(true)
                .write(true)
                .open(desk.path("pipe"))
                .unwrap();
            let mut command = desk.command(words);
            command.stdin(Stdio::piped()).stdout(Stdio::null());
            let mut child = command.spawn().unwrap();
            let input = File::from(OwnedFd::from(child.stdin.take().unwrap()));
            let (read, _other) = match words.contains(&"pipe") {
                true => (pipe, input),
                false => (input, pipe),
            };
            (&read).write_all(b"x").unwrap();
            while waiting_bytes(&read) > 0 {
                assert!(child.try_wait().unwrap().is_none(), "{words:?}");
                yield_now();
            }
            send(&child, number);
            drop((read, _other));
            let ended = child.wait_with_output().unwrap();
            assert_eq!(Ran::of(ended).status, -number, "{words:?}");
        }
    }
    assert!(!desk.has("out.b"));
}
