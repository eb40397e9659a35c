//! Wrong words.

use crate::desk::Desk;
use std::ffi::OsStr;
use std::os::unix::ffi::OsStrExt;

#[test]
fn wrong_words_end_with_2_and_say_what_is_wrong() {
    let desk = Desk::new("usage");
    for (words, what) in [
        (&[][..], "no command was given"),
        (&["frobnicate"], "there is no command frobnicate"),
        (&["check"], "check needs at least one file"),
        (&["sheet"], "sheet needs one file"),
        (&["sheet", "a", "b"], "sheet needs one file"),
        (&["show", "a"], "show needs a file and a record number"),
        (&["show", "a", "x"], "x is no record number"),
        (&["show", "a", "-1"], "there is no option -1"),
        (&["show", "a", "+1"], "+1 is no record number"),
        (&["show", "a", ""], "is no record number"),
        (
            &["show", "a", "4294967296"],
            "4294967296 is no record number",
        ),
        (
            &["pull", "a"],
            "pull needs a file and at least one record number",
        ),
        (
            &["pull"],
            "pull needs a file and at least one record number",
        ),
        (
            &["pull", "a", "--station"],
            "pull needs a file and at least one station number",
        ),
        (&["pull", "a", "x"], "x is no record number"),
        (&["pull", "a", "1", "+2"], "+2 is no record number"),
        (&["pull", "a", "1", ""], "is no record number"),
        (&["pull", "a", "1-"], "1- is no record number"),
        (&["pull", "a", "1-2-3"], "1-2-3 is no record number"),
        (&["pull", "a", "-3"], "there is no option -3"),
        (&["pull", "a", "--", "-3"], "-3 is no record number"),
        (
            &["pull", "a", "4294967296"],
            "4294967296 is no record number",
        ),
        (
            &["pull", "a", "60-40"],
            "60-40 is no range of record numbers, which go up to 99999",
        ),
        (
            &["pull", "a", "1-100000"],
            "1-100000 is no range of record numbers, which go up to 99999",
        ),
        (&["pull", "a", "--station", "x"], "x is no station number"),
        (
            &["pull", "a", "--station", "1-10000"],
            "1-10000 is no range of station numbers, which go up to 9999",
        ),
        (&["pull", "a", "1", "--replace"], "pull takes no --replace"),
        (&["show", "a", "1", "--station"], "show takes no --station"),
        (&["rewrite", "a"], "rewrite needs two files"),
        (&["pad", "a"], "pad needs two files"),
        (&["pad", "a", "b", "c"], "pad needs two files"),
        (&["pad", "a", "b", "--pad"], "pad takes no --pad"),
        (&["rewrite", "a", "b", "--pad=yes"], "--pad takes no value"),
        (&["help", "--pad"], "help takes no --pad"),
        (&["move", "a", "b"], "move needs --ledger FILE"),
        (&["move", "a", "b", "--ledger"], "--ledger needs a file"),
        (
            &["move", "a", "--ledger", "c"],
            "move needs an old and a new",
        ),
        (
            &["move", "a", "b", "--ledger", "c", "--ledger", "d"],
            "--ledger was given twice",
        ),
        (&["check", "a", "--replace"], "check takes no --replace"),
        (
            &["rewrite", "a", "b", "--ledger", "c"],
            "rewrite takes no --ledger",
        ),
        (&["check", "--quickly", "a"], "there is no option --quickly"),
        (&["check", "--json=yes", "a"], "--json takes no value"),
        (&["check", "-0", "a"], "-0 goes with --files-from"),
        (&["check", "--form"], "check needs at least one file"),
        (&["check", "--form=yes", "a"], "--form takes no value"),
        (&["sheet", "a", "--form"], "sheet takes no --form"),
        (&["rewrite", "a", "b", "--form"], "rewrite takes no --form"),
        (
            &["move", "a", "b", "--ledger", "c", "--form"],
            "move takes no --form",
        ),
        (&["move", "a", "b", "--ledger="], "--ledger needs a file"),
        (&["sheet", "a", "--json"], "sheet takes no --json"),
        (&["help", "check", "move"], "help takes one command"),
    ] {
        let ran = desk.run(words).ended(2);
        assert!(ran.err.contains(what), "{words:?}: {}", ran.err);
        assert!(ran.err.contains("`shelf help` says how to call it"));
        assert_eq!(ran.out, "");
    }
    assert_eq!(desk.files("."), [""; 0]);
}

#[test]
fn help_is_given_when_asked_for() {
    let desk = Desk::new("help");
    for words in [&["help"][..], &["--help"], &["-h"]] {
        let ran = desk.run(words).ended(0);
        for verb in [
            "check", "sheet", "show", "pull", "pad", "rewrite", "move", "help",
        ] {
            assert!(ran.out.contains(&format!("shelf {verb} ")));
        }
        assert!(ran.out.lines().all(|line| line.len() < 100));
        assert_eq!(ran.err, "");
    }
}

#[test]
fn help_on_each_command() {
    let desk = Desk::new("help-each");
    for (verb, option) in [
        ("check", "--files-from FILE"),
        ("check", "--pad "),
        ("check", "--form "),
        ("sheet", "--pad "),
        ("show", "--pad "),
        ("pull", "--station "),
        ("pull", "--pad "),
        ("pad", "--replace"),
        ("rewrite", "--replace"),
        ("rewrite", "--pad "),
        ("move", "--pad "),
        ("move", "--dry-run"),
        ("help", "--help"),
    ] {
        let page = desk.run(&["help", verb]).ended(0).out;
        assert!(page.starts_with(&format!("shelf {verb} ")), "{page}");
        assert!(page.contains(&format!("\n{option}")), "{page}");
        for words in [[verb, "--help"], [verb, "-h"]] {
            assert_eq!(desk.run(&words).ended(0).out, page);
        }
    }
    for words in [["help", "frobnicate"], ["frobnicate", "--help"]] {
        let ran = desk.run(&words).ended(2);
        assert!(ran
            .err
            .starts_with("shelf: there is no command frobnicate\n"));
        assert_eq!(ran.out, "");
    }
}

#[test]
fn the_version_says_which_library_it_is() {
    let desk = Desk::new("version");
    let first = desk.run(&["--version"]).ended(0).out;
    let named = format!("shelf {}\nlibrary: ", env!("CARGO_PKG_VERSION"));
    let library = first.strip_prefix(&named).unwrap();
    if shelf::library::IS_STANDIN {
        assert_eq!(library, "a stand-in, not the proved one\n");
    } else {
        let archive = concat!(
            env!("CARGO_MANIFEST_DIR"),
            "/../crates/export/out/libexport.a"
        );
        let said = desk.shell(&format!("sha256sum < '{archive}'")).ended(0).out;
        let digest = said.split(' ').next().unwrap();
        assert_eq!(library, format!("libexport.a, sha-256 {digest}\n"));
    }
    assert_eq!(desk.run(&["move", "--version"]).ended(0).out, first);
}

#[test]
fn a_command_that_is_no_text_is_shown_with_its_bytes() {
    let desk = Desk::new("bytes");
    let ran = desk.run(&[OsStr::from_bytes(b"\xff\n")]).ended(2);
    assert!(ran.err.contains("there is no command \\xFF\\n\n"));
}

#[test]
fn names_behind_two_dashes_may_begin_with_one() {
    let desk = Desk::new("dashes");
    desk.put("-x.b", &shelf::sample::file());
    let ran = desk.run(&["check", "--", "-x.b"]).ended(0);
    assert!(ran.out.starts_with("-x.b: accepted, 24 records:"));
}
