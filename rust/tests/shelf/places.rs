//! `shelf move`: no file takes the place of another, and none is written below
//! the old folder, by whatever name it is met.

use crate::deposits::{example, trimmed};
use crate::desk::{house, Desk};
use crate::held::{changes, logged, Held};
use shelf::{generate, sample};
use std::fs;
use std::os::unix::fs::symlink;
use std::process::Command;

const MOVE: [&str; 5] = ["move", "old", "new", "--ledger", "ledger.tsv"];
const REPLACE: [&str; 6] = ["move", "old", "new", "--ledger", "ledger.tsv", "--replace"];

/// Two files whose names differ in a capital only.
fn capitals(name: &str) -> Desk {
    let desk = Desk::new(name);
    desk.put("old/D/x.b", &generate::accepted(1, 20));
    desk.put("old/d/x.b", &generate::accepted(2, 30));
    fs::create_dir_all(desk.path("new/D")).unwrap();
    desk
}

#[test]
fn a_link_makes_no_two_files_one() {
    let desk = capitals("place-link");
    symlink("D", desk.path("new/d")).unwrap();
    let ran = desk.run(&REPLACE).ended(2);
    assert!(ran
        .out
        .contains("d/x.b: failed: new/d: it is a symbolic link, not followed\n"));
    assert!(ran.out.contains("2 files below old: 1 accepted"));
    assert_eq!(desk.get("new/D/x.b"), house(&desk.get("old/D/x.b")));
}

/// A folder that is mounted twice stands for a disk that does not tell
/// capitals apart: two names, one place, and no link.
#[test]
fn two_names_for_one_place() {
    let desk = capitals("place-mounted");
    fs::create_dir(desk.path("new/d")).unwrap();
    let mount = "mount --bind new/D new/d";
    let line = "shelf move old new --ledger ledger.tsv --replace; echo $?";
    if let Some(ran) = desk.mounted(mount, line) {
        let said = "d/x.b: failed: d/x.b and D/x.b have one place below the new folder\n";
        assert!(ran.out.starts_with(said), "{}", ran.out);
        assert!(ran.out.ends_with("\n2\n"), "{}", ran.out);
        assert_eq!(desk.get("new/D/x.b"), house(&desk.get("old/D/x.b")));
        let ledger = String::from_utf8(desk.get("ledger.tsv")).unwrap();
        assert!(ledger.contains("TOTAL accepted\t20\t20\t"));
    }
    // A ledger that would come to stand there is refused at the start.
    let line = "shelf move old new --ledger new/d/x.b --replace; echo $?; ls -A new/D";
    fs::remove_file(desk.path("new/D/x.b")).ok();
    if let Some(ran) = desk.mounted(mount, line) {
        let said = "shelf: new/d/x.b: the ledger would take the place of a file\n";
        assert_eq!(ran.err, said);
        assert_eq!(ran.out, "2\n");
    }
}

#[test]
fn two_names_of_one_file_that_is_there() {
    let desk = Desk::new("place-names");
    for name in ["old/a.b", "old/b.b"] {
        desk.put(name, &sample::file());
    }
    desk.put("new/a.b", &house(&sample::file()));
    fs::hard_link(desk.path("new/a.b"), desk.path("new/b.b")).unwrap();
    let ran = desk.run(&MOVE).ended(2);
    let said = "b.b: failed: b.b and a.b have one place below the new folder\n";
    assert!(ran.out.contains(said), "{}", ran.out);
}

#[test]
fn the_ledger_takes_no_files_place() {
    let desk = Desk::new("place-ledger");
    desk.put("old/a/f.b", &sample::file());
    desk.put("old/good.b", &sample::file());
    desk.put("new/b/kept", b"kept");
    symlink("b", desk.path("new/a")).unwrap();
    symlink("old/a", desk.path("link")).unwrap();
    let place = "the ledger would take the place of a file";
    let below = "the ledger must not stand below the old folder";
    for (ledger, said) in [
        ("old/l.tsv", below),
        ("old/a/l.tsv", below),
        ("link/l.tsv", below),
        ("new/good.b", place),
        ("new/a", "not written over: it is no regular file"),
        ("new", "not written over: it is no regular file"),
        ("none/l.tsv", "there is no such file or folder"),
        ("old/good.b/l", "it is a file, not a folder"),
        ("..", "it is a folder, not a file"),
    ] {
        for replace in [&[][..], &["--replace"]] {
            let words = ["move", "old", "new", "--ledger", ledger];
            let ran = desk.run(&[&words[..], replace].concat()).ended(2);
            assert_eq!(ran.err, format!("shelf: {ledger}: {said}\n"));
        }
    }
    let there = ["link", "new/a", "new/b/kept", "old/a/f.b", "old/good.b"];
    assert_eq!(desk.files("."), there);
    // Nor a folder's, nor that of a file by its passing name.
    fs::remove_file(desk.path("new/a")).unwrap();
    desk.put("old/l.unfinished", b"");
    for ledger in ["new/a", "new/l"] {
        let ran = desk
            .run(&["move", "old", "new", "--ledger", ledger])
            .ended(2);
        assert_eq!(ran.err, format!("shelf: {ledger}: {place}\n"));
    }
    assert_eq!(desk.files("new"), ["b/kept"]);
    // Beside the files it may stand.
    let words = ["move", "old", "new", "--ledger", "new/b/f.b"];
    desk.run(&words).ended(1);
    assert_eq!(desk.files("new"), ["a/f.b", "b/f.b", "b/kept", "good.b"]);
}

/// What stands under the ledger's passing name and is no ledger, as a deposit
/// that was moved there, keeps its name.
#[test]
fn only_a_ledger_is_kept_aside() {
    let desk = Desk::new("place-aside");
    let file = sample::file();
    desk.put("old/l.unfinished", &file);
    desk.put("other/good.b", &file);
    desk.run(&MOVE).ended(0);
    for old in ["old", "other"] {
        for replace in [&[][..], &["--replace"]] {
            let words = ["move", old, "new", "--ledger", "new/l"];
            let ran = desk.run(&[&words[..], replace].concat()).ended(2);
            assert_eq!(
                ran.err,
                "shelf: new/l.unfinished: there is one already, and it is no ledger\n"
            );
        }
    }
    assert_eq!(desk.files("new"), ["l.unfinished"]);
    assert_eq!(desk.get("new/l.unfinished"), house(&file));
    // One of which not even the titles were written is kept aside too.
    desk.put("empty.tsv.unfinished", b"");
    let words = ["move", "other", "new", "--ledger", "empty.tsv"];
    desk.run(&words).ended(0);
    assert!(desk.has("empty.tsv") && desk.has("empty.tsv.unfinished.1"));
}

/// A run with padding and one without know each other's ledger.
#[test]
fn a_ledger_with_another_last_column_is_kept_aside() {
    let desk = Desk::new("place-padding");
    desk.put("old/good.b", &sample::file());
    for (number, first, then) in [(1, &["--pad"][..], &[][..]), (2, &[], &["--pad"])] {
        let words = |more| [&MOVE[..], more, &["--replace"]].concat();
        desk.run(&words(first)).ended(0);
        let left = desk.get("ledger.tsv");
        fs::rename(desk.path("ledger.tsv"), desk.path("ledger.tsv.unfinished")).unwrap();
        desk.run(&words(then)).ended(0);
        let aside = format!("ledger.tsv.unfinished.{number}");
        assert!(desk.get(aside) == left);
        assert!(desk.get("ledger.tsv") != left);
    }
}

/// Through a link in the new folder the ledger stood in a moved file's place.
#[test]
fn the_ledger_stands_where_it_was_put() {
    let desk = Desk::new("place-ledger-link");
    desk.put("old/a/f.b", &sample::file());
    fs::create_dir_all(desk.path("new/b")).unwrap();
    symlink("b", desk.path("new/a")).unwrap();
    let words = ["move", "old", "new", "--ledger", "new/b/f.b", "--replace"];
    let ran = desk.run(&words).ended(2);
    assert!(ran
        .out
        .contains("a/f.b: failed: new/a: it is a symbolic link, not followed"));
    let ledger = String::from_utf8(desk.get("new/b/f.b")).unwrap();
    assert!(ledger.starts_with("file\trecords in\t"));
}

#[test]
fn nothing_is_made_below_the_old_folder() {
    let desk = Desk::new("place-old");
    let file = sample::file();
    desk.put("old/sub/deep/good.b", &file);
    desk.put("old/other/good.b", &file);
    fs::create_dir_all(desk.path("new")).unwrap();
    symlink("../old/other", desk.path("new/sub")).unwrap();
    symlink("../old/sub", desk.path("new/other")).unwrap();
    let ran = desk.run(&REPLACE).ended(2);
    assert!(ran
        .out
        .contains("2 files below old: 0 accepted, 0 refused, 0 not judged, 2 failed"));
    assert!(!desk.has("old/other/deep"));
    assert_eq!(desk.get("old/other/good.b"), file);
    assert_eq!(desk.files("old"), ["other/good.b", "sub/deep/good.b"]);
}

#[test]
fn the_old_folder_mounted_as_the_new_one() {
    let desk = Desk::new("place-bind");
    let file = sample::file();
    desk.put("old/sub/deep/good.b", &file);
    desk.put("old/other/good.b", &file);
    fs::create_dir_all(desk.path("new/sub")).unwrap();
    let apart = "the old and the new folder must be apart, neither in the other";
    let belongs = "it is a folder of the old one";
    for (mount, said) in [
        ("mount --bind old new", apart),
        ("mount --bind old/sub new", apart),
        ("mount --bind old/other new/sub", belongs),
        ("mount --bind old new/sub", belongs),
        ("mount --bind new old/sub", apart),
    ] {
        let line = "shelf move old new --ledger l.tsv --replace; echo $?";
        if let Some(ran) = desk.mounted(mount, line) {
            let all = [&ran.out[..], &ran.err].concat();
            assert!(
                all.contains(said) && ran.out.ends_with("2\n"),
                "{mount}: {all}"
            );
            assert_eq!(desk.files("old"), ["other/good.b", "sub/deep/good.b"]);
            assert_eq!(desk.get("old/other/good.b"), file, "{mount}");
            assert_eq!(desk.files("old/sub"), ["deep/good.b"], "{mount}");
        }
    }
}

/// A folder mounted below itself would never come to an end.
#[test]
fn an_old_folder_below_itself() {
    let desk = Desk::new("place-round");
    desk.put("old/good.b", &sample::file());
    fs::create_dir_all(desk.path("old/round")).unwrap();
    let line = "shelf move old new --ledger l.tsv; echo $?";
    if let Some(ran) = desk.mounted("mount --bind old old/round", line) {
        let said = "round: not judged: a folder that was met under another name\n";
        assert!(ran.out.starts_with(said), "{}", ran.out);
        assert!(ran.out.ends_with("\n1\n"));
    }
}

#[test]
fn another_runs_ledger() {
    let desk = Desk::new("place-busy");
    desk.put("old/a.b", &sample::file());
    desk.put("other/b.b", &sample::file());
    let held = Held::after(desk.command(&MOVE), "write", "1");
    let words = [
        "move",
        "other",
        "new",
        "--ledger",
        "ledger.tsv",
        "--replace",
    ];
    let ran = desk.run(&words).ended(2);
    assert_eq!(ran.err, "shelf: ledger.tsv: another run is writing it\n");
    assert!(!desk.has("new"));
    held.on().ended(0);
    assert_eq!(desk.files("new"), ["a.b"]);
    assert!(!desk.has("ledger.tsv.unfinished"));
}

/// Both write their drafts before either names its file.
#[test]
fn two_moves_at_once() {
    let desk = Desk::new("place-two");
    desk.put("old/a/one.b", &sample::file());
    desk.put("old/two.b", &generate::accepted(4, 40));
    // The titles, then the first file's draft.
    let held = Held::after(desk.command(&MOVE), "write", "2");
    let words = ["move", "old", "new", "--ledger", "second.tsv"];
    let ran = desk.run(&words).ended(0);
    assert_eq!(ran.err, "", "a draft that a run holds is not removed");
    let ran = held.on().ended(0);
    assert!(ran.out.contains("2 files below old: 2 accepted"));
    let ledger = String::from_utf8(desk.get("ledger.tsv")).unwrap();
    assert_eq!(ledger.matches("\taccepted, there already\t").count(), 2);
    assert_eq!(desk.files("new"), ["a/one.b", "two.b"]);
}

#[test]
fn drafts_that_were_left() {
    let desk = Desk::new("place-drafts");
    desk.put("old/good.b", &sample::file());
    desk.put("old/.shelf-7-0.tmp", &sample::file());
    desk.put("new/.shelf-12-0.tmp", b"half a fi");
    desk.put("new/deep/.shelf-12-3.tmp", b"half a fi");
    desk.put("new/.shelf-12.tmp", b"somebody's own");
    let ran = desk.run(&MOVE).ended(1);
    assert_eq!(
        ran.err,
        "shelf: new/.shelf-12-0.tmp: left by a run that was cut short, removed\n\
         shelf: new/deep/.shelf-12-3.tmp: left by a run that was cut short, removed\n"
    );
    assert!(ran
        .out
        .contains(".shelf-7-0.tmp: not judged: a draft that a run left when it was cut short\n"));
    assert_eq!(desk.files("new"), [".shelf-12.tmp", "good.b"]);
    assert!(desk.has("old/.shelf-7-0.tmp"));
}

#[test]
fn what_becomes_something_else_before_its_turn() {
    let desk = Desk::new("place-becomes");
    for name in ["a.b", "b.b", "c.b", "d/e.b", "f.b"] {
        desk.put(format!("old/{name}"), &sample::file());
    }
    let held = Held::after(desk.command(&MOVE), "write", "1");
    for name in ["old/b.b", "old/c.b", "old/f.b"] {
        fs::remove_file(desk.path(name)).unwrap();
    }
    let made = Command::new("mkfifo").arg(desk.path("old/b.b")).status();
    assert!(made.unwrap().success());
    symlink("a.b", desk.path("old/c.b")).unwrap();
    fs::rename(desk.path("old/d"), desk.path("moved")).unwrap();
    symlink("../moved", desk.path("old/d")).unwrap();
    let ran = held.on().ended(2);
    assert!(ran.out.contains("b.b: not judged: no regular file\n"));
    assert!(ran
        .out
        .contains("c.b: not judged: a symbolic link, not followed\n"));
    assert!(ran
        .out
        .contains("d/e.b: failed: old/d/e.b: it is a symbolic link, not followed\n"));
    assert!(ran
        .out
        .contains("f.b: failed: old/f.b: there is no such file or folder\n"));
    assert_eq!(desk.files("new"), ["a.b"]);
}

/// Success is claimed only for what is there at the end.
#[test]
fn the_last_look() {
    let desk = Desk::new("place-last");
    for name in ["a/1.b", "a/2.b", "a/3.b", "a/4.b"] {
        desk.put(format!("old/{name}"), &sample::file());
    }
    let held = Held::after(desk.command(&MOVE), "linkat", "4");
    fs::remove_file(desk.path("new/a/1.b")).unwrap();
    desk.put("new/a/2.b", &sample::file());
    fs::remove_file(desk.path("new/a/3.b")).unwrap();
    fs::hard_link(desk.path("new/a/4.b"), desk.path("new/a/3.b")).unwrap();
    let ran = held.on().ended(2);
    for said in [
        "a/1.b: failed: at the last look: new/a/1.b: there is no such file or folder\n",
        "a/2.b: failed: at the last look: new/a/2.b: it no longer holds what was verified\n",
        "a/4.b: failed: at the last look: a/4.b and a/3.b have one place below the new folder\n",
        "4 files below old: 1 accepted, 0 refused, 0 not judged, 3 failed\n",
    ] {
        assert!(ran.out.contains(said), "{}", ran.out);
    }
    assert!(!ran.out.contains("every accepted file moved"));
    let ledger = String::from_utf8(desk.get("ledger.tsv")).unwrap();
    assert!(ledger.contains("TOTAL accepted\t24\t24\t"));
    assert!(ledger.contains("TOTAL failed\t72\t0\t"));
}

/// The row of a file that was padded, moved and lost still says what padding
/// did.
#[test]
fn the_last_look_at_a_padded_file() {
    let desk = Desk::new("place-last-padded");
    desk.put("old/short.b", &trimmed(&example()));
    let command = desk.command(&[&MOVE[..], &["--pad"]].concat());
    let held = Held::after(command, "linkat", "1");
    fs::remove_file(desk.path("new/short.b")).unwrap();
    held.on().ended(2);
    let ledger = String::from_utf8(desk.get("ledger.tsv")).unwrap();
    let rows: Vec<&str> = ledger.lines().collect();
    assert!(rows[1].starts_with("short.b\t34\t34\t") && rows[1].ends_with("\tchanged"));
    assert!(rows[2].starts_with("short.b\t34\t0\t") && rows[2].ends_with("\t-\tchanged"));
    assert!(rows[2].contains("\tfailed: at the last look: "));
}

/// Before a name is given, the disk has what it names; before the ledger says
/// so, the disk has the name.
#[test]
fn everything_is_flushed_before_it_is_claimed() {
    let desk = Desk::new("place-flushed");
    desk.put("old/a/deep/one.b", &sample::file());
    desk.put("old/b/two.b", &sample::file());
    let mut command = desk.command(&["move", "old", "x/new", "--ledger", "ledger.tsv"]);
    logged(&mut command, desk.path("log"));
    let output = command.output().unwrap();
    assert!(output.status.success());
    let log = changes(&desk, "log");
    let at = |wanted: &str| {
        log.iter()
            .rposition(|line| line.starts_with(wanted))
            .unwrap()
    };
    let ledger = at("linkat ledger.tsv.unfinished ledger.tsv");
    assert!(at("fsync ledger.tsv.unfinished") < ledger);
    for folder in ["x/new/a/deep", "x/new/b"] {
        let named = at(&format!("linkat {folder}/.shelf-"));
        let flushed = log[..named]
            .iter()
            .rposition(|line| line.starts_with("fsync"))
            .unwrap();
        assert!(
            log[flushed].starts_with(&format!("fsync {folder}/.shelf-")),
            "{log:?}"
        );
        assert!(at(&format!("fsync {folder}")) > named);
    }
    for folder in ["x/new/a/deep", "x/new/a", "x/new/b", "x/new"] {
        let flushed = log
            .iter()
            .rposition(|line| *line == format!("fsync {folder}"));
        let flushed = flushed.unwrap();
        assert!(at(&format!("mkdir {folder}")) < flushed && flushed < ledger);
    }
    let flushed = |folder: &str| log.iter().any(|line| *line == format!("fsync {folder}"));
    assert!(flushed("x"), "{log:?}");
}
