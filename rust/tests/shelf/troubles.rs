//! Files that cannot be read, folders that cannot be written to, full disks.

use crate::desk::{Desk, Ran};
use shelf::{generate, sample};

#[test]
fn files_that_are_not_there_and_folders() {
    let desk = Desk::new("missing");
    desk.put("folder/good.b", &sample::file());
    for words in [
        &["check", "none.b"][..],
        &["sheet", "none.b"],
        &["show", "none.b", "1"],
        &["rewrite", "none.b", "out.b"],
        &["pad", "none.b", "out.b"],
    ] {
        let ran = desk.run(words).ended(2);
        assert_eq!(ran.err, "shelf: none.b: there is no such file or folder\n");
    }
    let ran = desk.run(&["sheet", "folder"]).ended(2);
    assert_eq!(ran.err, "shelf: folder: it is a folder, not a file\n");
    let ran = desk.run(&["check", "folder/good.b/x"]).ended(2);
    assert!(ran
        .err
        .contains("a part of the path is a file, not a folder"));
    let ran = desk
        .run(&["rewrite", "folder/good.b", "none/out.b"])
        .ended(2);
    assert_eq!(
        ran.err,
        "shelf: none/out.b: there is no such file or folder\n"
    );
    assert_eq!(desk.files("."), ["folder/good.b"]);
}

#[test]
fn no_permission() {
    let desk = Desk::new("permission");
    desk.put("secret.b", &sample::file());
    desk.put("good.b", &sample::file());
    desk.mode("secret.b", 0o000);
    desk.mode("good.b", 0o644);
    let ran = desk
        .run_without_rights(&["check", "secret.b", "good.b"])
        .ended(2);
    assert_eq!(ran.err, "shelf: secret.b: no permission\n");
    assert!(ran.out.starts_with("good.b: accepted"));
    // The folder can be read and not written to.
    desk.put("shut/other.b", b"");
    desk.mode("shut", 0o555);
    let words = ["rewrite", "good.b", "shut/out.b"];
    let ran = desk.run_without_rights(&words).ended(2);
    assert_eq!(ran.err, "shelf: shut/out.b: no permission\n");
    desk.mode("shut", 0o755);
    assert_eq!(desk.files("shut"), ["other.b"]);
}

#[test]
fn standard_output_on_a_full_disk() {
    let desk = Desk::new("full-output");
    desk.put("good.b", &sample::file());
    for line in [
        "shelf check good.b > /dev/full",
        "shelf sheet good.b > /dev/full",
        "shelf show good.b 5 > /dev/full",
        "shelf pull good.b 5 > /dev/full",
        "shelf help > /dev/full",
    ] {
        let ran = desk.shell(line).ended(2);
        assert_eq!(
            ran.err, "shelf: standard output: the disk is full\n",
            "{line}"
        );
    }
    for line in [
        "check good.b",
        "sheet good.b",
        "show good.b 5",
        "help",
        "--version",
    ] {
        let ran = desk.shell(&format!("shelf {line} >&-")).ended(2);
        assert_eq!(ran.err, "shelf: standard output: it is closed\n", "{line}");
        let ran = desk.shell(&format!("shelf {line} 1< good.b")).ended(2);
        assert!(ran.err.starts_with("shelf: standard output: "), "{line}");
    }
    for verb in ["rewrite", "pad"] {
        let ran = desk.shell(&format!("shelf {verb} good.b - > /dev/full"));
        ran.ended(2);
        let ran = desk.shell(&format!("shelf {verb} good.b out.b >&-"));
        ran.ended(2);
    }
    assert!(!desk.has("out.b"));
    // The move itself is done, and its ledger written, but not reported.
    desk.put("old/good.b", &sample::file());
    desk.shell("shelf move old new --ledger l.tsv > /dev/full")
        .ended(2);
    assert!(desk.has("new/good.b") && desk.has("l.tsv"));
}

/// A write that fails half way leaves nothing behind.
#[test]
fn a_limit_on_the_size_of_files() {
    let desk = Desk::new("limit");
    desk.put("in.b", &generate::accepted(5, 2_000));
    desk.put("out.b", b"kept");
    for verb in ["rewrite", "pad"] {
        let line = format!("ulimit -f 8; shelf {verb} in.b out.b --replace");
        let ran = desk.shell(&line).ended(2);
        assert_eq!(
            ran.err,
            "shelf: out.b: the file is larger than may be written here\n"
        );
        assert_eq!(desk.get("out.b"), b"kept");
    }
    assert_eq!(desk.files("."), ["in.b", "out.b"]);
}

/// Runs a line with a small disk of its own at `disk`; the limit above is the
/// same path through the command.
fn on_a_small_disk(desk: &Desk, line: &str) -> Option<Ran> {
    desk.mounted("mount -t tmpfs -o size=64k none disk", line)
}

#[test]
fn a_full_disk_leaves_nothing_half_written() {
    let desk = Desk::new("full-disk");
    desk.put("disk/none", b"");
    desk.put("old/a-small.b", &sample::file());
    desk.put("old/b-large.b", &generate::accepted(6, 2_000));
    let line = "shelf rewrite old/b-large.b disk/out.b; echo $?; ls -A disk";
    if let Some(ran) = on_a_small_disk(&desk, line) {
        assert_eq!(ran.err, "shelf: disk/out.b: the disk is full\n");
        assert_eq!(ran.out, "2\n");
    }
    let line = "shelf move old disk/new --ledger l.tsv; echo $?; ls -A disk/new";
    if let Some(ran) = on_a_small_disk(&desk, line) {
        assert!(ran
            .out
            .contains("b-large.b: failed: disk/new/b-large.b: the disk is full\n"));
        assert!(ran
            .out
            .contains("2 files below old: 1 accepted, 0 refused, 0 not judged, 1 failed"));
        assert!(ran.out.ends_with("2\na-small.b\n"), "{}", ran.out);
        assert!(!ran.out.contains("every accepted file moved"));
        let ledger = String::from_utf8(desk.get("l.tsv")).unwrap();
        assert!(ledger.contains("b-large.b\t2000\t0\t"));
    }
    // A ledger that finds no room is trouble too, and no half of it stays.
    let line =
        "head -c 65000 /dev/zero > disk/x; shelf move old new --ledger disk/l; echo $?; ls disk";
    if let Some(ran) = on_a_small_disk(&desk, line) {
        assert_eq!(ran.err, "shelf: disk/l: the disk is full\n");
        assert_eq!(ran.out, "2\nx\n");
    }
}
