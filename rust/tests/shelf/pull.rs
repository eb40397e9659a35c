//! `shelf pull`

use crate::deposits::{example, height_lost, too_long, trimmed, with_cr_lf, ADVICE};
use crate::desk::{house, Desk};
use shelf::plain::LINE;
use shelf::{generate, sample};
use std::fs;

/// What is said where padding would have helped.
const HELP: &str =
    "    with --pad, which fills its lines to 80 columns, all of them could be pulled\n";

/// Lines of a file, by their numbers.
fn lines(file: &[u8], numbers: &[usize]) -> String {
    let line = |&number: &usize| &file[LINE * (number - 1)..LINE * number];
    let lines: Vec<u8> = numbers.iter().flat_map(line).copied().collect();
    String::from_utf8(lines).unwrap()
}

fn blank() -> String {
    format!("{:80}\n", "")
}

#[test]
fn records_come_in_house_style_in_the_order_asked_for() {
    let desk = Desk::new("pull");
    desk.put("good.b", &sample::file());
    let ran = desk.run(&["pull", "good.b", "18", "17", "7"]).ended(0);
    assert_eq!(
        ran.out,
        "000180*86*0345  0012345A12Y88NGS   -0332506  -001234B  Aset by hand             \n\
         000170*80*0345Lighthouse 2                  38531512345N077020100000W       MI  \n\
         000070*27*00121911050930                               01543                    \n"
    );
    assert_eq!(ran.err, "");
    let styled = house(&sample::file());
    for (words, numbers) in [
        (&["1"][..], &[1][..]),
        (&["24"], &[24]),
        (&["5", "5", "5"], &[5, 5, 5]),
        (&["2-4"], &[2, 3, 4]),
        (&["9-9"], &[9]),
        (&["20-22", "3", "21-22"], &[20, 21, 22, 3, 21, 22]),
        (&["007"], &[7]),
    ] {
        let words = [&["pull", "good.b"], words].concat();
        let ran = desk.run(&words).ended(0);
        assert_eq!(ran.out, lines(&styled, numbers), "{words:?}");
        assert_eq!(ran.err, "", "{words:?}");
    }
}

#[test]
fn all_records_are_the_rewritten_file() {
    let desk = Desk::new("pull-all");
    for (records, range) in [(27, "1-27"), (9_000, "1-9000")] {
        let file = generate::accepted(61, records);
        desk.put("in.b", &file);
        desk.run(&["rewrite", "in.b", "out.b", "--replace"])
            .ended(0);
        let ran = desk.run(&["pull", "in.b", range]).ended(0);
        assert!(ran.out.as_bytes() == desk.get("out.b"), "{records}");
        assert_eq!(ran.err, "");
    }
}

/// A blank line stands in its place, it is named, and the others are there.
#[test]
fn a_record_that_cannot_be_read() {
    let desk = Desk::new("pull-bad");
    let file = sample::with(&sample::file(), 7, 56, "1.543");
    desk.put("bad.b", &file);
    let styled = house(&sample::file());
    let expected = lines(&styled, &[6]) + &blank() + &lines(&styled, &[8]) + &blank();
    let ran = desk.run(&["pull", "bad.b", "6-8", "7"]).ended(1);
    assert_eq!(ran.out, expected);
    let shown = desk.run(&["show", "bad.b", "7"]).ended(1).out;
    assert!(shown.starts_with("bad.b: refused, fault 9, record 7, column 57\n"));
    assert_eq!(ran.err, shown.repeat(2));
    // Good records of the same file are no trouble.
    assert_eq!(desk.run(&["pull", "bad.b", "6", "8-24"]).ended(0).err, "");
}

#[test]
fn records_that_are_not_there() {
    let desk = Desk::new("pull-gone");
    desk.put("good.b", &sample::file());
    let styled = house(&sample::file());
    let gone = |records: &str| {
        format!(
            "good.b: {records}: fault 13, there is no such record; the file has 24 whole records\n"
        )
    };
    for (words, good, said) in [
        (&["0"][..], &[][..], gone("record 0")),
        (&["25"], &[], gone("record 25")),
        (&["100000"], &[], gone("record 100000")),
        (&["4294967295"], &[], gone("record 4294967295")),
        (&["23-30"], &[23, 24], gone("records 25-30")),
        (&["24", "25-26", "27"], &[24], gone("records 25-27")),
        (
            &["30", "25", "26"],
            &[],
            gone("record 30") + &gone("records 25-26"),
        ),
        (
            &["4294967295", "0"],
            &[],
            gone("record 4294967295") + &gone("record 0"),
        ),
    ] {
        let words = [&["pull", "good.b"], words].concat();
        let ran = desk.run(&words).ended(1);
        let (there, rest) = ran.out.split_at(LINE * good.len());
        assert_eq!(there, lines(&styled, good), "{words:?}");
        assert_eq!(rest, blank().repeat(rest.len() / LINE), "{words:?}");
        assert!(!rest.is_empty());
        assert_eq!(ran.err, said, "{words:?}");
    }
    desk.put("empty.b", b"");
    let ran = desk.run(&["pull", "empty.b", "1-99999"]).ended(1);
    assert!(ran.out == blank().repeat(99_999));
    let said = "empty.b: records 1-99999: fault 13, there is no such record; the file has 0 whole records\n";
    assert_eq!(ran.err, said);
}

/// The file is not judged as a whole.
#[test]
fn records_of_a_refused_file() {
    let desk = Desk::new("pull-refused");
    let file = sample::file();
    let behind = &file[LINE..];
    desk.put("tail.b", behind);
    assert!(desk
        .run(&["check", "tail.b"])
        .ended(1)
        .out
        .contains("fault 7"));
    let ran = desk.run(&["pull", "tail.b", "1-23"]).ended(0);
    assert_eq!(ran.err, "");
    let styled = house(&file);
    for (number, line) in (1..).zip(ran.out.lines()) {
        let expected = lines(&styled, &[number + 1]);
        assert_eq!(&line[..6], format!("{:06}", 10 * number));
        assert_eq!(line[6..], expected[6..80]);
    }
    // A cut last line has begun.
    desk.put("cut.b", &file[..file.len() - 1]);
    let ran = desk.run(&["pull", "cut.b", "24", "25"]).ended(1);
    assert_eq!(ran.out, blank() + &blank());
    assert!(ran
        .err
        .starts_with("cut.b: refused, fault 3, record 24, column 81\n"));
}

#[test]
fn stations() {
    let desk = Desk::new("pull-station");
    let file = example();
    desk.put("bay.b", &file);
    // Stations 1 to 3 have their *80* and *86* in records 25 to 30.
    for (words, numbers) in [
        (&["1"][..], &[25, 26][..]),
        (&["3", "1"], &[29, 30, 25, 26]),
        (&["1-3"], &[25, 26, 27, 28, 29, 30]),
        (&["2", "2"], &[27, 28, 27, 28]),
    ] {
        for words in [
            [&["pull", "bay.b", "--station"], words].concat(),
            [&["pull", "--station", "bay.b"], words].concat(),
        ] {
            let ran = desk.run(&words).ended(0);
            assert_eq!(ran.out, lines(&file, numbers), "{words:?}");
            assert!(ran
                .out
                .lines()
                .all(|line| ["*80*", "*86*"].contains(&&line[6..10])));
            assert_eq!(ran.err, "");
        }
    }
}

#[test]
fn stations_that_are_not_defined() {
    let desk = Desk::new("pull-no-station");
    let file = example();
    desk.put("bay.b", &file);
    let lacks = |stations: &str| format!("bay.b: {stations}: defined by no record of this file\n");
    for (words, numbers, said) in [
        (&["0"][..], &[][..], lacks("station 0")),
        (&["4"], &[], lacks("station 4")),
        (&["2-9999"], &[27, 28, 29, 30], lacks("stations 4-9999")),
        (
            &["9", "2", "4-5"],
            &[27, 28],
            lacks("station 9") + &lacks("stations 4-5"),
        ),
        // Words of the table that are an instrument's and an antenna's.
        (
            &["10008", "11004"],
            &[],
            lacks("station 10008") + &lacks("station 11004"),
        ),
        (
            &["4294967295", "0"],
            &[],
            lacks("station 4294967295") + &lacks("station 0"),
        ),
    ] {
        let words = [&["pull", "bay.b", "--station"], words].concat();
        let ran = desk.run(&words).ended(1);
        assert_eq!(ran.out, lines(&file, numbers), "{words:?}");
        assert_eq!(ran.err, said, "{words:?}");
    }
}

/// Only an accepted file has a table.
#[test]
fn stations_of_a_refused_file() {
    let desk = Desk::new("pull-refused-station");
    desk.put("lost.b", &height_lost());
    let ran = desk.run(&["pull", "lost.b", "--station", "1"]).ended(1);
    assert_eq!(ran.out, "");
    assert_eq!(ran.err, desk.run(&["check", "lost.b"]).ended(1).out);
    // Its records can be pulled by their numbers.
    let ran = desk.run(&["pull", "lost.b", "25-26"]).ended(0);
    assert_eq!(ran.out, lines(&example(), &[25, 26]));
    desk.put("trimmed.b", &trimmed(&example()));
    let ran = desk.run(&["pull", "trimmed.b", "--station", "1"]).ended(1);
    assert_eq!(ran.out, "");
    assert!(ran.err.ends_with(ADVICE), "{}", ran.err);
}

#[test]
fn padded_first() {
    let desk = Desk::new("pull-pad");
    let file = example();
    for form in [
        trimmed(&file),
        with_cr_lf(&file),
        with_cr_lf(&trimmed(&file)),
    ] {
        desk.put("in.b", &form);
        let ran = desk.run(&["pull", "--pad", "in.b", "2-3", "34"]).ended(0);
        assert_eq!(ran.out, lines(&file, &[2, 3, 34]));
        assert_eq!(ran.err, "");
        let ran = desk
            .run(&["pull", "--pad", "in.b", "--station", "2"])
            .ended(0);
        assert_eq!(ran.out, lines(&file, &[27, 28]));
        // Without it, it is said that it would help, where it would.
        let ran = desk.run(&["pull", "in.b", "2-3"]).ended(1);
        assert!(ran.err.ends_with(HELP), "{}", ran.err);
        let ran = desk.run(&["pull", "in.b", "2-3", "35"]).ended(1);
        assert!(!ran.err.contains("--pad"), "{}", ran.err);
        assert!(desk.get("in.b") == form);
    }
    desk.put("long.b", &too_long());
    for words in [
        &["pull", "--pad", "long.b", "1"][..],
        &["pull", "--pad", "long.b", "--station", "1"],
    ] {
        let ran = desk.run(words).ended(1);
        assert_eq!(ran.out, "");
        assert!(ran
            .err
            .starts_with("long.b: refused by the padding, fault 5, line 7"));
    }
    let ran = desk.run(&["pull", "--pad", "in.b", "35"]).ended(1);
    assert!(ran.err.ends_with("the file has 34 whole records\n"));
}

#[test]
fn from_standard_input() {
    let desk = Desk::new("pull-input");
    let ran = desk.fed(&["pull", "-", "25"], &example()).ended(0);
    assert_eq!(ran.out, lines(&example(), &[25]));
    let ran = desk
        .fed(&["pull", "-", "--station", "4"], &example())
        .ended(1);
    assert_eq!(ran.err, "-: station 4: defined by no record of this file\n");
}

/// What is read of a file stays as it is, and nothing else is made.
#[test]
fn nothing_is_written() {
    let desk = Desk::new("pull-reads");
    desk.put("good.b", &sample::file());
    desk.mode("good.b", 0o444);
    desk.run(&["pull", "good.b", "1-30"]).ended(1);
    assert_eq!(desk.files("."), ["good.b"]);
    assert!(desk.get("good.b") == sample::file());
    let ran = desk.run(&["pull", "gone.b", "1"]).ended(2);
    assert_eq!(ran.err, "shelf: gone.b: there is no such file or folder\n");
    fs::create_dir(desk.path("folder")).unwrap();
    let ran = desk.run(&["pull", "folder", "1"]).ended(2);
    assert_eq!(ran.err, "shelf: folder: it is a folder, not a file\n");
}
