//! `shelf move`: what is moved, what is left, what is refused to be done.

use crate::deposits::{example, forms, height_lost, too_long, trimmed, with_cr_lf, ADVICE};
use crate::desk::{house, Desk};
use crate::held::terminal;
use shelf::{generate, sample};
use std::fs::{self, File, Permissions};
use std::io::Read;
use std::os::unix::fs::{symlink, MetadataExt, PermissionsExt};
use std::process::{Command, Stdio};
use std::time::{Duration, UNIX_EPOCH};

const MOVE: [&str; 5] = ["move", "old", "new", "--ledger", "ledger.tsv"];

fn again(ledger: &str) -> [&str; 5] {
    ["move", "old", "new", "--ledger", ledger]
}

#[test]
fn every_accepted_file_in_nested_folders() {
    let desk = Desk::new("move");
    let names = ["one.b", "a/two.b", "a/b/c/three.b", "z/.hidden"];
    for (seed, name) in (0..).zip(names) {
        desk.put(
            format!("old/{name}"),
            &generate::accepted(seed, 20 + seed as usize),
        );
    }
    fs::create_dir(desk.path("old/empty")).unwrap();
    let ran = desk.run(&MOVE).ended(0);
    assert_eq!(
        ran.out,
        "4 files below old: 4 accepted, 0 refused, 0 not judged, 0 failed\n\
         every accepted file moved: 86 records in, 86 records out\n"
    );
    for name in names {
        let before = desk.get(format!("old/{name}"));
        assert_eq!(desk.get(format!("new/{name}")), house(&before), "{name}");
    }
    // Nothing else is written, and nothing taken away.
    assert_eq!(desk.files("new").len(), 4);
    assert_eq!(desk.files("old").len(), 4);
    assert!(!desk.has("new/empty"));
}

#[test]
fn refused_files_are_named_and_stay() {
    let desk = Desk::new("move-refused");
    desk.put("old/good.b", &sample::file());
    desk.put("old/bad.b", &sample::with(&sample::file(), 18, 24, " "));
    desk.put("old/empty.b", b"");
    let ran = desk.run(&MOVE).ended(1);
    assert_eq!(
        ran.out,
        "bad.b: refused, fault 10, record 18, column 24: a field well formed that disagrees \
         with an earlier one\n\
         empty.b: refused, fault 8, record 1, column 1: the file ends where a record must \
         follow\n\
         3 files below old: 1 accepted, 2 refused, 0 not judged, 0 failed\n\
         every accepted file moved: 24 records in, 24 records out\n"
    );
    assert_eq!(desk.files("new"), ["good.b"]);
}

#[test]
fn padded_files_are_judged_moved_and_compared() {
    let desk = Desk::new("move-pad");
    desk.put("old/a/crlf.b", &with_cr_lf(&example()));
    desk.put("old/good.b", &example());
    desk.put("old/long.b", &too_long());
    desk.put("old/lost.b", &trimmed(&height_lost()));
    desk.put("old/short.b", &trimmed(&example()));
    let ran = desk.run(&[&MOVE[..], &["--pad"]].concat()).ended(1);
    let refused = "long.b: refused by the padding, fault 5, line 7, column 81: line 7 has more \
                   than 80 bytes, so the file cannot be padded\n\
                   lost.b: refused, fault 10, record 30, column 24: a field well formed that \
                   disagrees with an earlier one\n";
    let totals = "5 files below old: 3 accepted, 2 refused, 0 not judged, 0 failed\n\
                  every accepted file moved: 102 records in, 102 records out\n";
    assert_eq!(ran.out, [refused, totals].concat());
    assert_eq!(ran.err, "");
    assert_eq!(desk.files("new"), ["a/crlf.b", "good.b", "short.b"]);
    for name in desk.files("new") {
        assert!(
            desk.get(format!("new/{name}")) == house(&example()),
            "{name}"
        );
    }
    // Nothing below the old folder is padded, and a second run finds all there.
    assert!(desk.get("old/short.b") == trimmed(&example()));
    let words = [&again("second.tsv")[..], &["--pad", "--quiet"]].concat();
    assert_eq!(desk.run(&words).ended(1).out, refused);
    let ledger = String::from_utf8(desk.get("second.tsv")).unwrap();
    assert_eq!(ledger.matches("\taccepted, there already\t").count(), 3);
}

#[test]
fn a_refused_file_that_padding_would_help_is_told_so() {
    let desk = Desk::new("move-advice");
    let forms = forms();
    for (number, (form, _)) in forms.iter().enumerate() {
        desk.put(format!("old/{number:02}.b"), form);
    }
    let ran = desk.run(&MOVE).ended(1);
    let mut lines = ran.out.lines();
    for (number, (_, helps)) in forms.iter().enumerate() {
        let refused = format!("{number:02}.b: refused, fault ");
        assert!(lines.next().unwrap().starts_with(&refused), "{}", ran.out);
        if *helps {
            assert_eq!(lines.next().unwrap(), format!("    {}", ADVICE.trim_end()));
        }
    }
    assert!(lines
        .next()
        .unwrap()
        .starts_with("13 files below old: 0 accepted"));
    // The ledger is as it is without a word of padding.
    let ledger = String::from_utf8(desk.get("ledger.tsv")).unwrap();
    assert!(ledger.lines().all(|row| row.split('\t').count() == 23));
}

#[test]
fn nothing_accepted_makes_no_folder() {
    let desk = Desk::new("move-none");
    desk.put("old/bad.b", b"bad");
    desk.run(&MOVE).ended(1);
    assert!(!desk.has("new") && desk.has("ledger.tsv"));
}

#[test]
fn a_second_run_finds_what_is_there_and_changes_nothing() {
    let desk = Desk::new("move-twice");
    desk.put("old/a/good.b", &sample::file());
    desk.put("old/other.b", &generate::accepted(7, 30));
    desk.run(&MOVE).ended(0);
    let made = |name| fs::metadata(desk.path(name)).unwrap().modified().unwrap();
    let before = made("new/a/good.b");
    let ran = desk.run(&again("second.tsv")).ended(0);
    assert!(ran.out.contains("54 records in, 54 records out"));
    assert_eq!(made("new/a/good.b"), before);
    let ledger = String::from_utf8(desk.get("second.tsv")).unwrap();
    assert_eq!(ledger.matches("\taccepted, there already\t").count(), 2);
    // The first ledger is not written over unless told, and this shows
    // before anything is moved.
    let kept = desk.get("ledger.tsv");
    desk.put("old/later.b", &sample::file());
    let ran = desk.run(&MOVE).ended(2);
    assert!(ran
        .err
        .starts_with("shelf: ledger.tsv: there is one already"));
    assert_eq!(desk.get("ledger.tsv"), kept);
    assert!(!desk.has("new/later.b"));
    desk.run(&[&MOVE[..], &["--replace"]].concat()).ended(0);
    assert!(desk.has("new/later.b"));
    assert_ne!(desk.get("ledger.tsv"), kept);
}

#[test]
fn another_file_that_is_there_is_written_over_only_if_told() {
    let desk = Desk::new("move-over");
    desk.put("old/a.b", &sample::file());
    desk.put("old/b.b", &generate::accepted(7, 30));
    desk.put("new/a.b", b"kept");
    let ran = desk.run(&MOVE).ended(2);
    assert!(ran
        .out
        .contains("a.b: failed: new/a.b: there is one already"));
    assert!(!ran.out.contains("every accepted file moved"));
    assert!(ran.err.contains("not every file could be judged and moved"));
    assert_eq!(desk.get("new/a.b"), b"kept");
    assert_eq!(desk.get("new/b.b"), house(&desk.get("old/b.b")));
    let words = [&again("second.tsv")[..], &["--replace"]].concat();
    desk.run(&words).ended(0);
    assert_eq!(desk.get("new/a.b"), house(&sample::file()));
    assert_eq!(desk.files("new"), ["a.b", "b.b"]);
}

#[test]
fn folders_in_each_other_are_refused() {
    let desk = Desk::new("move-inside");
    desk.put("old/deep/good.b", &sample::file());
    symlink("old", desk.path("link")).unwrap();
    for (old, new) in [
        ("old", "old"),
        ("old", "old/new"),
        ("old", "old/deep/new/newer"),
        ("old/deep", "old"),
        ("old", "."),
        ("old", "link/new"),
        ("link", "old/new"),
        ("old", "elsewhere/../old/new"),
    ] {
        let ran = desk.run(&["move", old, new, "--ledger", "l.tsv"]).ended(2);
        assert!(!ran.err.is_empty() && ran.out.is_empty(), "{old} {new}");
    }
    assert_eq!(desk.files("."), ["link", "old/deep/good.b"]);
    // A name that only begins alike is no folder inside.
    desk.run(&["move", "old", "old2", "--ledger", "l.tsv"])
        .ended(0);
}

#[test]
fn folders_that_are_missing_empty_or_files() {
    let desk = Desk::new("move-folders");
    desk.put("file.b", &sample::file());
    fs::create_dir_all(desk.path("empty/deep")).unwrap();
    for (old, new, said) in [
        ("none", "new", "none: there is no such file or folder"),
        ("file.b", "new", "file.b: it is a file, not a folder"),
        ("empty", "file.b", "file.b: it is a file, not a folder"),
        (
            "empty",
            "new",
            "empty: nothing to move: there is no file below it",
        ),
    ] {
        let ran = desk.run(&["move", old, new, "--ledger", "l.tsv"]).ended(2);
        assert_eq!(ran.err, format!("shelf: {said}\n"));
    }
    assert_eq!(desk.files("."), ["file.b"]);
}

#[test]
fn links_and_pipes_are_named_and_not_followed() {
    let desk = Desk::new("move-links");
    desk.put("old/good.b", &sample::file());
    desk.put("outside/secret.b", &sample::file());
    symlink("../outside", desk.path("old/folder")).unwrap();
    symlink("../outside/secret.b", desk.path("old/link.b")).unwrap();
    symlink("nowhere", desk.path("old/dangling")).unwrap();
    symlink("..", desk.path("old/around")).unwrap();
    let made = Command::new("mkfifo").arg(desk.path("old/pipe")).status();
    assert!(made.unwrap().success());
    let ran = desk.run(&MOVE).ended(1);
    for name in ["folder", "link.b", "dangling", "around"] {
        let said = format!("{name}: not judged: a symbolic link, not followed\n");
        assert!(ran.out.contains(&said), "{}", ran.out);
    }
    assert!(ran.out.contains("pipe: not judged: no regular file\n"));
    assert!(ran
        .out
        .contains("6 files below old: 1 accepted, 0 refused, 5 not judged, 0 failed"));
    assert_eq!(desk.files("new"), ["good.b"]);
}

#[test]
fn what_cannot_be_read_is_named_and_stops_no_other() {
    let desk = Desk::new("move-shut");
    desk.put("old/a-shut/good.b", &sample::file());
    desk.put("old/b-secret.b", &sample::file());
    desk.put("old/c-good.b", &sample::file());
    desk.put("room/.keep", b"");
    desk.mode("old/a-shut", 0o000);
    desk.mode("old/b-secret.b", 0o000);
    desk.mode("room", 0o777);
    let words = ["move", "old", "room/new", "--ledger", "room/l.tsv"];
    let ran = desk.run_without_rights(&words).ended(2);
    desk.mode("old/a-shut", 0o755);
    assert!(ran
        .out
        .contains("a-shut: failed: old/a-shut: no permission\n"));
    assert!(ran
        .out
        .contains("b-secret.b: failed: old/b-secret.b: no permission\n"));
    assert!(ran
        .out
        .contains("3 files below old: 1 accepted, 0 refused, 0 not judged, 2 failed"));
    assert_eq!(desk.files("room/new"), ["c-good.b"]);
}

/// A pipe where a file is to stand keeps nobody waiting.
#[test]
fn a_pipe_where_a_file_is_to_stand() {
    let desk = Desk::new("move-pipe");
    desk.put("old/good.b", &sample::file());
    fs::create_dir(desk.path("new")).unwrap();
    let made = Command::new("mkfifo").arg(desk.path("new/good.b")).status();
    assert!(made.unwrap().success());
    let ran = desk.run(&[&MOVE[..], &["--replace"]].concat()).ended(2);
    assert!(ran.out.contains("not written over: it is no regular file"));
}

#[test]
fn a_file_where_a_folder_is_needed() {
    let desk = Desk::new("move-blocked");
    desk.put("old/a/good.b", &sample::file());
    desk.put("old/b.b", &sample::file());
    desk.put("new/a", b"kept");
    let ran = desk.run(&MOVE).ended(2);
    assert!(ran.out.contains("a/good.b: failed: new/a: "), "{}", ran.out);
    assert_eq!(desk.get("new/a"), b"kept");
    assert_eq!(desk.files("new"), ["a", "b.b"]);
}

#[test]
fn a_dry_run_writes_the_ledger_only() {
    let desk = Desk::new("move-dry");
    desk.put("old/a/good.b", &sample::file());
    desk.put("old/bad.b", b"bad");
    desk.put("old/there.b", &sample::file());
    desk.put("old/other.b", &sample::file());
    let words = [&MOVE[..], &["--dry-run"]].concat();
    let ran = desk.run(&words).ended(1);
    assert!(ran.out.ends_with(
        "4 files below old: 3 accepted, 1 refused, 0 not judged, 0 failed\n\
         a dry run: nothing was written but the ledger\n"
    ));
    assert!(!desk.has("new"));
    let ledger = String::from_utf8(desk.get("ledger.tsv")).unwrap();
    assert_eq!(
        ledger
            .matches("\taccepted, not written: a dry run\t")
            .count(),
        3
    );
    assert!(ledger.contains("a/good.b\t24\t0\t"));
    // What stands in the way is found too.
    desk.put("new/there.b", &house(&sample::file()));
    desk.put("new/other.b", b"other");
    desk.put("new/.shelf-1-1.tmp", b"draft");
    let words = [&again("second.tsv")[..], &["--dry-run"]].concat();
    let ran = desk.run(&words).ended(2);
    assert!(ran
        .out
        .contains("other.b: failed: new/other.b: there is one already"));
    let ledger = String::from_utf8(desk.get("second.tsv")).unwrap();
    assert!(ledger.contains("\taccepted, there already\t"));
    assert_eq!(desk.files("new"), [".shelf-1-1.tmp", "other.b", "there.b"]);
}

#[test]
fn quiet_says_only_what_was_not_moved() {
    let desk = Desk::new("move-quiet");
    desk.put("old/good.b", &sample::file());
    let ran = desk.run(&[&MOVE[..], &["--quiet"]].concat()).ended(0);
    assert_eq!((ran.out.as_str(), ran.err.as_str()), ("", ""));
    desk.put("old/bad.b", b"bad");
    let ran = desk
        .run(&[&again("l.tsv")[..], &["--quiet"]].concat())
        .ended(1);
    assert_eq!(ran.out.lines().count(), 1);
    assert!(ran.out.starts_with("bad.b: refused, fault 3"));
}

/// A deposit's date matters to an archive.
#[test]
fn rights_and_times_are_kept() {
    let desk = Desk::new("move-kept");
    desk.put("old/a/deep/good.b", &sample::file());
    desk.put("old/b/good.b", &sample::file());
    desk.put("new/b/other", b"of the archive");
    let names = ["a/deep/good.b", "b/good.b", "a/deep", "a", "b", ""];
    let then = |number: usize| UNIX_EPOCH + Duration::new(86_400 * 365 * 30 + number as u64, 5);
    for (number, name) in names.iter().enumerate() {
        let path = desk.path(format!("old/{name}"));
        let file = File::open(path).unwrap();
        let mode = if number < 2 { 0o640 } else { 0o2750 };
        file.set_permissions(Permissions::from_mode(mode)).unwrap();
        file.set_modified(then(number)).unwrap();
    }
    let known = |name: &str| fs::metadata(desk.path(format!("new/{name}"))).unwrap();
    let (before, rights) = (known("b").modified().unwrap(), known("b").mode());
    desk.run(&MOVE).ended(0);
    for (number, name) in names.iter().enumerate().take(4) {
        let known = known(name);
        assert_eq!(known.modified().unwrap(), then(number), "{name}");
        let mode = if number < 2 { 0o640 } else { 0o750 };
        assert_eq!(known.mode() & 0o7777, mode, "{name}");
    }
    // A folder that holds something else is the archive's own.
    assert_eq!(known("b").mode(), rights);
    assert!(known("b").modified().unwrap() >= before);
    assert!(known("").modified().unwrap() >= before);
}

#[test]
fn a_terminal_shows_how_far_it_is() {
    let desk = Desk::new("move-terminal");
    desk.put("old/one.b", &sample::file());
    desk.put("old/two.b", &sample::file());
    for (ledger, quiet, shown) in [
        ("one.tsv", &[][..], "2 of 2 files\r"),
        ("two.tsv", &["--quiet"], ""),
    ] {
        let (mut ours, theirs) = terminal();
        let mut command = desk.command(&[&again(ledger)[..], quiet].concat());
        let status = command
            .stdout(Stdio::null())
            .stderr(theirs)
            .status()
            .unwrap();
        assert!(status.success());
        drop(command);
        let mut said = Vec::new();
        // With nobody left on the other side the end of a terminal is an
        // error.
        let _ = ours.read_to_end(&mut said);
        assert!(String::from_utf8_lossy(&said).starts_with(shown));
        assert_eq!(said.is_empty(), shown.is_empty());
    }
}
