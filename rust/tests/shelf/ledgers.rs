//! The ledger of a move: its rows, its totals, its names.

use crate::deposits::{example, height_lost, too_long, trimmed, with_cr_lf};
use crate::desk::Desk;
use shelf::plain::layout::KINDS;
use shelf::{generate, plain, sample};
use std::ffi::OsStr;
use std::os::unix::ffi::OsStrExt;
use std::os::unix::fs::symlink;
use std::path::Path;

/// Moves what is below `old` and gives the ledger's rows by columns.
fn ledger(desk: &Desk, status: i32) -> Vec<Vec<String>> {
    let words = ["move", "old", "new", "--ledger", "ledger.tsv"];
    desk.run(&words).ended(status);
    let text = String::from_utf8(desk.get("ledger.tsv")).unwrap();
    assert!(text.ends_with('\n'));
    text.lines()
        .map(|line| line.split('\t').map(str::to_string).collect())
        .collect()
}

#[test]
fn a_row_for_each_file_and_totals_at_the_end() {
    let desk = Desk::new("ledger");
    let good = generate::accepted(8, 60);
    desk.put("old/a/good.b", &good);
    desk.put("old/b.b", &sample::file());
    desk.put("old/cut.b", &good[..81 * 40 + 7]);
    desk.put(
        "old/undefined.b",
        &sample::with(&sample::file(), 5, 33, "  9"),
    );
    let rows = ledger(&desk, 1);
    let titles = [&["file", "records in", "records out"], &KINDS[..]].concat();
    let titles = [&titles[..], &["fault", "record", "column", "outcome"]].concat();
    assert_eq!(rows[0][..21], titles);
    assert_eq!(rows[0][21..], ["sha-256 in", "sha-256 out"]);
    assert!(rows.iter().all(|row| row.len() == 23));
    let names: Vec<&str> = rows[1..].iter().map(|row| row[0].as_str()).collect();
    let files = ["a/good.b", "b.b", "cut.b", "undefined.b"];
    let totals = [
        "TOTAL accepted",
        "TOTAL refused",
        "TOTAL not judged",
        "TOTAL failed",
    ];
    assert_eq!(names, [files, totals].concat());

    let counts = plain::form(&good).counts;
    let counts = counts.map(|count| count.to_string());
    assert_eq!(rows[1][1..3], ["60", "60"]);
    assert_eq!(rows[1][3..17], counts);
    assert_eq!(rows[1][17..21], ["0", "0", "0", "accepted"]);
    assert_eq!(rows[3][1..3], ["40", "0"]);
    assert!(rows[3][3..17].iter().all(|count| count == "0"));
    assert_eq!(rows[3][17..21], ["3", "41", "8", "refused"]);
    assert_eq!(rows[4][1..3], ["24", "0"]);
    assert_eq!(rows[4][17..21], ["12", "5", "33", "refused"]);

    // The totals are the sums of the rows of their outcome.
    assert_eq!(rows[5][1..3], ["84", "84"]);
    let counts = |row: usize| rows[row][3..17].iter().map(|count| count.parse().unwrap());
    let sums = counts(1)
        .zip(counts(2))
        .map(|(one, other): (u32, u32)| one + other);
    assert!(counts(5).eq(sums));
    assert_eq!(rows[5][17..], ["-", "-", "-", "2 files", "-", "-"]);
    assert_eq!(rows[6][1..3], ["64", "0"]);
    assert_eq!(rows[6][20], "2 files");
    assert_eq!(rows[7][20], "0 files");
    assert_eq!(rows[8][20], "0 files");
}

/// The digest of a file, by ordinary tools.
fn digest(desk: &Desk, name: &str) -> String {
    let ran = desk.shell(&format!("sha256sum < {name}")).ended(0);
    ran.out.split(' ').next().unwrap().to_string()
}

/// One column more, the last; the digest of a file read is of its own bytes.
#[test]
fn what_padding_did_is_in_the_last_column() {
    let desk = Desk::new("ledger-pad");
    for (name, file) in [
        ("crlf.b", with_cr_lf(&example())),
        ("good.b", example()),
        ("long.b", too_long()),
        ("lost.b", trimmed(&height_lost())),
        ("short.b", trimmed(&example())),
    ] {
        desk.put(format!("old/{name}"), &file);
    }
    symlink("good.b", desk.path("old/link.b")).unwrap();
    let words = ["move", "--pad", "old", "new", "--ledger", "ledger.tsv"];
    desk.run(&words).ended(1);
    let read = |name: &str| digest(&desk, &format!("old/{name}"));
    // The example stands in house style.
    let written = read("good.b");
    let titles = "file\trecords in\trecords out\tAA\t10\t11\t12\t25\t26\t27\t70\t72\t80\t86\t91\
                  \t92\t93\tfault\trecord\tcolumn\toutcome\tsha-256 in\tsha-256 out\tpadding";
    let moved = "34\t34\t2\t1\t1\t1\t4\t3\t9\t2\t2\t3\t3\t1\t1\t1\t0\t0\t0\taccepted";
    let none = "0\t0\t0\t0\t0\t0\t0\t0\t0\t0\t0\t0\t0\t0";
    let rows = [
        titles.to_string(),
        format!("crlf.b\t{moved}\t{}\t{written}\tchanged", read("crlf.b")),
        format!("good.b\t{moved}\t{written}\t{written}\tunchanged"),
        format!(
            "link.b\t0\t0\t{none}\t-\t-\t-\tnot judged: a symbolic link, not followed\t-\t-\t-"
        ),
        format!(
            "long.b\t0\t0\t{none}\t5\t7\t81\trefused\t{}\t-\trefused",
            read("long.b")
        ),
        format!(
            "lost.b\t34\t0\t{none}\t10\t30\t24\trefused\t{}\t-\tchanged",
            read("lost.b")
        ),
        format!("short.b\t{moved}\t{}\t{written}\tchanged", read("short.b")),
        "TOTAL accepted\t102\t102\t6\t3\t3\t3\t12\t9\t27\t6\t6\t9\t9\t3\t3\t3\t-\t-\t-\t3 files\
         \t-\t-\t-"
            .to_string(),
        format!("TOTAL refused\t34\t0\t{none}\t-\t-\t-\t2 files\t-\t-\t-"),
        format!("TOTAL not judged\t0\t0\t{none}\t-\t-\t-\t1 files\t-\t-\t-"),
        format!("TOTAL failed\t0\t0\t{none}\t-\t-\t-\t0 files\t-\t-\t-"),
    ];
    let ledger = String::from_utf8(desk.get("ledger.tsv")).unwrap();
    assert_eq!(ledger, rows.join("\n") + "\n");
    assert_eq!(against(&desk), "crlf.b: OK\ngood.b: OK\nshort.b: OK\n");
}

/// Holds what is below `new` against the ledger, as the documents say it.
fn against(desk: &Desk) -> String {
    let line = "awk -F '\\t' '$21 ~ /^accepted/ { print $23 \"  \" $1 }' ../ledger.tsv";
    let ran = desk.shell(&format!("cd new; {line} | sha256sum -c"));
    ran.ended(0).out
}

/// A member can hold any file against the ledger with ordinary tools.
#[test]
fn digests_are_those_of_sha256sum() {
    let desk = Desk::new("ledger-digests");
    desk.put("old/good.b", &generate::accepted(3, 70));
    desk.put("old/empty.b", b"");
    desk.put("old/long.b", &generate::accepted(9, 100_003));
    desk.put("old/refused.b", &sample::file()[..500]);
    let rows = ledger(&desk, 1);
    for row in &rows[1..5] {
        assert_eq!(row[21], digest(&desk, &format!("old/{}", row[0])));
    }
    assert_eq!(rows[2][0], "good.b");
    assert_eq!(rows[2][22], digest(&desk, "new/good.b"));
    for row in [1, 3, 4] {
        assert_eq!(rows[row][22], "-");
    }
    assert_eq!(against(&desk), "good.b: OK\n");
}

#[test]
fn on_standard_output_with_the_report_beside_it() {
    let desk = Desk::new("ledger-output");
    desk.put("old/good.b", &sample::file());
    desk.put("old/bad.b", b"bad");
    for word in ["--ledger=-", "--ledger=ledger.tsv"] {
        let ran = desk.run(&["move", "old", "new", word]).ended(1);
        let ledger = match word {
            "--ledger=-" => ran.out,
            _ => String::from_utf8(desk.get("ledger.tsv")).unwrap(),
        };
        assert_eq!(ledger.lines().count(), 1 + 2 + 4);
        if word == "--ledger=-" {
            assert!(ran
                .err
                .starts_with("bad.b: refused, fault 3, record 1, column 4: "));
            assert!(ran.err.contains("2 files below old: 1 accepted, 1 refused"));
        }
    }
    assert_eq!(
        desk.files("."),
        ["ledger.tsv", "new/good.b", "old/bad.b", "old/good.b"]
    );
}

/// What was moved is said even where the ledger cannot say it; the rows that
/// it has are whole, and stay.
#[test]
fn a_ledger_that_cannot_be_finished() {
    let desk = Desk::new("ledger-cut");
    for number in 10..60 {
        desk.put(format!("old/{number}.b"), &generate::accepted(number, 11));
    }
    let ran = desk
        .shell("ulimit -f 16; shelf move old new --ledger l.tsv")
        .ended(2);
    let moved = desk.files("new");
    assert!((10..50).contains(&moved.len()), "{moved:?}");
    let said = format!(
        "the ledger is not finished; {} of 50 files were moved\n",
        moved.len()
    );
    assert!(ran
        .err
        .starts_with("shelf: l.tsv: the file is larger than may be written here\n"));
    assert!(ran.err.contains(&said) && ran.out.starts_with(&said));
    for name in &moved {
        assert!(ran.err.contains(&format!("shelf: moved: {name}\n")));
        assert!(ran.out.contains(&format!("\nmoved: {name}\n")));
    }
    assert!(!desk.has("l.tsv"));
    let ledger = String::from_utf8(desk.get("l.tsv.unfinished")).unwrap();
    assert!(ledger.ends_with('\n'));
    assert_eq!(ledger.lines().count(), 1 + moved.len() - 1);
    // The next run keeps what this one has written, and finishes.
    let ran = desk
        .run(&["move", "old", "new", "--ledger", "l.tsv"])
        .ended(0);
    let said = "shelf: l.tsv.unfinished: left by a run that was cut short, kept as \
                l.tsv.unfinished.1\n";
    assert_eq!(ran.err, said);
    assert_eq!(
        String::from_utf8(desk.get("l.tsv.unfinished.1")).unwrap(),
        ledger
    );
    assert!(desk.has("l.tsv") && !desk.has("l.tsv.unfinished"));
}

#[test]
fn names_with_tabs_line_feeds_and_other_bytes_keep_to_their_column() {
    let desk = Desk::new("ledger-names");
    let names: [(&[u8], &str); 5] = [
        (b"tab\there.b", "tab\\there.b"),
        (b"two\nlines.b", "two\\nlines.b"),
        (b"\xff\xfe.b", "\\xFF\\xFE.b"),
        (b"back\\slash.b", "back\\\\slash.b"),
        (b"TOTAL accepted", "TOTAL accepted"),
    ];
    let name = |bytes| Path::new("old").join(OsStr::from_bytes(bytes));
    for (bytes, _) in names {
        desk.put(name(bytes), &sample::file());
    }
    let rows = ledger(&desk, 0);
    assert_eq!(rows.len(), 1 + names.len() + 4);
    for (bytes, shown) in names {
        let moved = Path::new("new").join(OsStr::from_bytes(bytes));
        assert!(desk.has(moved), "{shown}");
        let found = rows[1..=names.len()].iter().filter(|row| row[0] == shown);
        assert_eq!(found.count(), 1, "{shown}");
    }
    assert_eq!(rows[1 + names.len()][20], "5 files");
}

#[test]
fn files_at_the_limit() {
    let desk = Desk::new("ledger-limit");
    desk.put("old/full.b", &generate::accepted(9, 99_999));
    desk.put("old/long.b", &generate::accepted(9, 100_003));
    let rows = ledger(&desk, 1);
    assert_eq!(rows[1][1..3], ["99999", "99999"]);
    assert_eq!(rows[2][1..3], ["100003", "0"]);
    assert_eq!(rows[2][17..21], ["2", "100000", "1", "refused"]);
}
