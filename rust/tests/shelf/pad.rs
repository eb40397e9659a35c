//! `shelf pad`, and `--pad` for check, sheet, show and rewrite.

use crate::deposits::{example, forms, height_lost, stored, too_long, trimmed, with_cr_lf, ADVICE};
use crate::desk::{house, Desk};
use crate::held::{changes, killed_after, logged, Held, KILL};
use shelf::generate;
use shelf::plain::layout::KINDS;
use std::fs::{self, File};

/// What is said of a seventh line of 83 bytes.
const TOO_LONG: &str = "refused by the padding, fault 5, line 7, column 81\n    \
     line 7 has more than 80 bytes, so the file cannot be padded\n    \
     000070*27*00012311110102                               01543                    \n    \
     \x20                                                                               ^\n";

#[test]
fn the_trimmed_example_is_what_it_is_called() {
    let file = stored("padding/tuburan-bay-trimmed.bfile");
    assert!(file == with_cr_lf(&trimmed(&example())));
}

#[test]
fn a_padded_file_is_the_one_that_it_was() {
    let desk = Desk::new("pad");
    let file = example();
    let mut forms = vec![file.clone(), file[..file.len() - 1].to_vec()];
    forms.extend([
        trimmed(&file),
        with_cr_lf(&file),
        with_cr_lf(&trimmed(&file)),
    ]);
    for form in forms {
        desk.put("in.b", &form);
        let ran = desk.run(&["pad", "in.b", "out.b"]).ended(0);
        assert_eq!(ran.out, "in.b: padded, 34 lines written to out.b\n");
        assert_eq!(ran.err, "");
        assert!(desk.get("out.b") == file);
        assert!(desk.get("in.b") == form);
        assert_eq!(desk.files("."), ["in.b", "out.b"]);
        fs::remove_file(desk.path("out.b")).unwrap();
    }
}

/// Lines that no record has, and carriage returns that end none, are copied.
#[test]
fn padding_judges_nothing_else() {
    let desk = Desk::new("pad-any");
    let line = |text: &str| format!("{text:<80}\n");
    for (input, lines) in [
        ("", &[][..]),
        ("\n", &[""]),
        ("\r\n\n", &["", ""]),
        ("a", &["a"]),
        ("a\rb\r\r\n\tc\r", &["a\rb\r", "\tc\r"]),
    ] {
        desk.put("in.b", input.as_bytes());
        let words = ["pad", "in.b", "out.b", "--replace"];
        let said = format!("in.b: padded, {} lines written to out.b\n", lines.len());
        assert_eq!(desk.run(&words).ended(0).out, said);
        let padded: String = lines.iter().map(|text| line(text)).collect();
        assert_eq!(desk.get("out.b"), padded.as_bytes(), "{input:?}");
    }
}

#[test]
fn what_cannot_be_padded_is_not_written() {
    let desk = Desk::new("pad-refused");
    desk.put("in.b", &too_long());
    desk.put("old.b", b"kept");
    let said = format!("in.b: {TOO_LONG}");
    for words in [
        &["pad", "in.b", "out.b"][..],
        &["pad", "in.b", "old.b", "--replace", "--quiet"],
        &["rewrite", "--pad", "in.b", "out.b"],
        &["check", "--pad", "in.b"],
        &["check", "--pad", "--quiet", "in.b"],
        &["show", "--pad", "in.b", "1"],
    ] {
        let ran = desk.run(words).ended(1);
        assert_eq!(ran.out, said, "{words:?}");
        assert_eq!(ran.err, "");
    }
    for verb in [&["pad"][..], &["rewrite", "--pad"]] {
        let ran = desk.run(&[verb, &["in.b", "-"]].concat()).ended(1);
        assert_eq!((&ran.out[..], ran.err), ("", said.clone()));
    }
    assert_eq!(desk.get("old.b"), b"kept");
    assert_eq!(desk.files("."), ["in.b", "old.b"]);
}

/// The earliest line first, and its number before its length.
#[test]
fn which_line_is_refused() {
    let desk = Desk::new("pad-lines");
    let full = "x".repeat(80);
    let lines = "\n".repeat(99_999);
    for (input, said) in [
        (format!("{full}\r\n{full}\n{full}"), None),
        (format!("{full}\r"), Some("fault 5, line 1, column 81")),
        (format!("{full}\r\r\n"), Some("fault 5, line 1, column 81")),
        (format!("\n\n{full}x"), Some("fault 5, line 3, column 81")),
        (lines.clone(), None),
        (lines.clone() + "\n", Some("fault 2, line 100000, column 1")),
        (
            lines.clone() + &full + "x",
            Some("fault 2, line 100000, column 1"),
        ),
        (
            format!("{full}x\n{lines}"),
            Some("fault 5, line 1, column 81"),
        ),
    ] {
        desk.put("in.b", input.as_bytes());
        let ran = desk.run(&["pad", "in.b", "out.b", "--replace", "--quiet"]);
        match said {
            None => assert_eq!(ran.ended(0).out, ""),
            Some(said) => {
                let said = format!("in.b: refused by the padding, {said}\n");
                assert!(ran.ended(1).out.starts_with(&said));
            }
        }
    }
}

#[test]
fn standard_input_and_output() {
    let desk = Desk::new("pad-dash");
    let (file, short) = (example(), with_cr_lf(&trimmed(&example())));
    for (words, out) in [
        (&["pad", "-", "-"][..], &file),
        (&["rewrite", "--pad", "-", "-"], &house(&file)),
    ] {
        let ran = desk.fed(words, &short).ended(0);
        assert!(ran.out.as_bytes() == out, "{words:?}");
        assert_eq!(ran.err, "");
    }
    let ran = desk.fed(&["pad", "-", "out.b"], &short).ended(0);
    assert_eq!(ran.out, "-: padded, 34 lines written to out.b\n");
    assert!(desk.get("out.b") == file);
    let ran = desk.fed(&["check", "--pad", "-"], &short).ended(0);
    assert!(ran.out.starts_with("-: accepted, 34 records: AA 2"));
    let ran = desk.fed(&["pad", "-", "-"], b"").ended(0);
    assert_eq!((&ran.out[..], &ran.err[..]), ("", ""));
    let ran = desk.fed(&["pad", "-", "-"], &too_long()).ended(1);
    assert_eq!((&ran.out[..], ran.err), ("", format!("-: {TOO_LONG}")));
}

#[test]
fn a_file_that_is_there_is_padded_over_only_if_told() {
    let desk = Desk::new("pad-over");
    desk.put("in.b", &trimmed(&example()));
    desk.put("out.b", b"kept");
    let ran = desk.run(&["pad", "in.b", "out.b"]).ended(2);
    let said = "shelf: out.b: there is one already (--replace lets it be written over)\n";
    assert_eq!((&ran.out[..], &ran.err[..]), ("", said));
    assert_eq!(desk.get("out.b"), b"kept");
    // Also over itself.
    let words = ["pad", "--replace", "--quiet", "in.b", "in.b"];
    assert_eq!(desk.run(&words).ended(0).out, "");
    assert!(desk.get("in.b") == example());
    assert_eq!(desk.files("."), ["in.b", "out.b"]);
}

/// The draft is changed on the disk before it is read back.
#[test]
fn what_the_disk_does_not_give_back_gets_no_name() {
    let desk = Desk::new("pad-back");
    desk.put("in.b", &trimmed(&example()));
    let held = Held::after(desk.command(&["pad", "in.b", "out.b"]), "write", "1");
    let names = desk.files(".");
    let draft = names.iter().find(|name| name.starts_with(".shelf-"));
    desk.put(draft.unwrap(), &height_lost());
    let ran = held.on().ended(2);
    assert_eq!(ran.out, "");
    assert_eq!(
        ran.err,
        "shelf: out.b: not put in place, since what was written is not the padded file\n"
    );
    assert_eq!(desk.files("."), ["in.b"]);
}

#[test]
fn it_is_flushed_before_it_is_named_and_killed_at_any_point_it_is_whole() {
    let desk = Desk::new("pad-killed");
    desk.put("in.b", &trimmed(&example()));
    let mut command = desk.command(&["pad", "in.b", "out.b"]);
    logged(&mut command, desk.path("log"));
    assert!(command.output().unwrap().status.success());
    let log = changes(&desk, "log");
    let at = |wanted: &str| log.iter().position(|line| line.starts_with(wanted));
    assert!(at("write .shelf-") < at("fsync .shelf-"), "{log:?}");
    assert!(at("fsync .shelf-") < at("linkat .shelf-"), "{log:?}");
    let mut named = 0;
    for change in 1..=log.len() {
        let _ = fs::remove_file(desk.path("out.b"));
        let ran = killed_after(desk.command(&["pad", "in.b", "out.b"]), change);
        assert_eq!(ran.status, -KILL);
        if desk.has("out.b") {
            named += 1;
            assert!(desk.get("out.b") == example());
        }
    }
    assert!(0 < named && named < log.len());
}

/// Records, columns and the line shown are those of the padded file.
#[test]
fn a_verdict_on_the_padded_file() {
    let desk = Desk::new("pad-verdict");
    desk.put("good.b", &with_cr_lf(&trimmed(&example())));
    desk.put("bad.b", &with_cr_lf(&trimmed(&height_lost())));
    desk.put("blank.b", b"\r\n");
    let ran = desk.run(&["check", "--pad", "good.b", "bad.b", "blank.b"]);
    let blank = " ".repeat(80);
    let expected = format!(
        "good.b: accepted, 34 records: AA 2 10 1 11 1 12 1 25 4 26 3 27 9 70 2 72 2 80 3 86 3 91 \
         1 92 1 93 1\n\
         bad.b: refused, fault 10, record 30, column 24\n    \
         a field well formed that disagrees with an earlier one: orthometric height code in \
         column 24 must be blank exactly when its height is missing\n    \
         000300*86*0003         C  N        0063090G  0062590B  A                        \n    \
         \x20                      ^\n\
         blank.b: refused, fault 6, record 1, column 7\n    \
         columns 7-10 hold no known code\n    \
         {blank}\n    \
         \x20     ^\n"
    );
    assert_eq!(ran.ended(1).out, expected);
    let ran = desk.run(&["check", "--pad", "--quiet", "good.b"]).ended(0);
    assert_eq!((&ran.out[..], &ran.err[..]), ("", ""));
}

/// An object of `--json`; `fault` is number, record, column and records, and
/// `end` what follows the text.
fn object(name: &str, fault: [u32; 4], counts: [u32; 14], text: &str, end: &str) -> String {
    let [number, record, column, records] = fault;
    let counts = KINDS.iter().zip(counts);
    let counts: Vec<String> = counts
        .map(|(kind, count)| format!("\"{kind}\":{count}"))
        .collect();
    format!(
        "{{\"name\":\"{name}\",\"number\":{number},\"record\":{record},\"column\":{column},\
         \"records\":{records},\"counts\":{{{}}},\"text\":\"{text}\"{end}}}\n",
        counts.join(",")
    )
}

#[test]
fn json_says_what_padding_did_or_would_do() {
    let desk = Desk::new("pad-json");
    desk.put("good.b", &example());
    desk.put("short.b", &trimmed(&example()));
    desk.put("lost.b", &trimmed(&height_lost()));
    desk.put("long.b", &too_long());
    let all = [2, 1, 1, 1, 4, 3, 9, 2, 2, 3, 3, 1, 1, 1];
    let accepted = |name, end| object(name, [0, 0, 0, 34], all, "accepted", end);
    let refused = |name, fault, text, end| object(name, fault, [0; 14], text, end);
    let words = ["check", "--json", "good.b", "short.b", "lost.b", "long.b"];
    let ran = desk.run(&[&words[..], &["--pad"]].concat()).ended(1);
    let code = "a field well formed that disagrees with an earlier one: orthometric height code \
                in column 24 must be blank exactly when its height is missing";
    let line = "line 7 has more than 80 bytes, so the file cannot be padded";
    let expected = [
        accepted("good.b", ",\"padding\":\"unchanged\""),
        accepted("short.b", ",\"padding\":\"changed\""),
        refused("lost.b", [10, 30, 24, 34], code, ",\"padding\":\"changed\""),
        refused("long.b", [5, 7, 81, 0], line, ",\"padding\":\"refused\""),
    ];
    assert_eq!(ran.out, expected.concat());
    let ran = desk.run(&words).ended(1);
    let byte = "a byte that is not printable: 0A hexadecimal (a line feed: the line is too short)";
    let expected = [
        accepted("good.b", ""),
        refused(
            "short.b",
            [4, 1, 61, 24],
            byte,
            ",\"padding\":\"would help\"",
        ),
        refused("lost.b", [4, 1, 61, 24], byte, ""),
        refused("long.b", [4, 1, 61, 24], byte, ""),
    ];
    assert_eq!(ran.out, expected.concat());
}

#[test]
fn advice_where_padding_is_all_that_is_needed() {
    let desk = Desk::new("pad-advice");
    for (number, (form, helps)) in forms().into_iter().enumerate() {
        desk.put("in.b", &form);
        let advised = format!("    {ADVICE}");
        for words in [&["check", "in.b"][..], &["rewrite", "in.b", "out.b"]] {
            let ran = desk.run(words).ended(1);
            assert_eq!(ran.out.ends_with(&advised), helps, "{number}: {}", ran.out);
            assert_eq!(ran.out.matches("--pad").count(), usize::from(helps));
            assert_eq!(ran.err, "");
        }
        let ran = desk.run(&["rewrite", "in.b", "-"]).ended(1);
        assert_eq!(ran.err.ends_with(&advised), helps, "{number}");
        assert_eq!(ran.out, "");
        // The sheet's own lines are fixed.
        let ran = desk.run(&["sheet", "in.b"]).ended(1);
        let said = format!("shelf: in.b: {ADVICE}");
        assert_eq!(
            ran.err,
            if helps { said } else { String::new() },
            "{number}"
        );
        assert_eq!(ran.out.lines().count(), 1);
        let ran = desk.run(&["check", "--json", "in.b"]).ended(1);
        let said = ",\"padding\":\"would help\"}\n";
        assert_eq!(ran.out.ends_with(said), helps, "{number}");
        assert_eq!(ran.out.contains("padding"), helps, "{number}");
        // As it was said, so it is; and padded there is nothing to advise.
        let ran = desk.run(&["check", "--pad", "in.b"]);
        assert_eq!(ran.status, if helps { 0 } else { 1 }, "{number}");
        assert!(!ran.out.contains("--pad"));
    }
    assert_eq!(desk.files("."), ["in.b"]);
}

#[test]
fn accepted_files_get_no_advice() {
    let desk = Desk::new("pad-accepted");
    desk.put("in.b", &example());
    for words in [
        &["check", "in.b"][..],
        &["check", "--json", "in.b"],
        &["sheet", "in.b"],
        &["rewrite", "in.b", "out.b"],
    ] {
        let ran = desk.run(words).ended(0);
        assert!(!ran.out.contains("pad") && ran.err.is_empty(), "{words:?}");
    }
}

/// A file of CR LF lines is longer than one of as many records.
#[test]
fn files_of_99_999_lines() {
    let desk = Desk::new("pad-limit");
    let file = generate::accepted(1, 99_999);
    let full = with_cr_lf(&file);
    desk.put("full.b", &full);
    let ran = desk.run(&["check", "full.b"]).ended(1);
    assert!(ran.out.ends_with(ADVICE), "{}", ran.out);
    let ran = desk.run(&["check", "--pad", "full.b"]).ended(0);
    assert!(ran.out.starts_with("full.b: accepted, 99999 records:"));
    let words = ["rewrite", "--pad", "full.b", "out.b"];
    let ran = desk.run(&words).ended(0);
    let said = "full.b: accepted, 99999 records written to out.b\n";
    assert_eq!(ran.out, said);
    assert!(desk.get("out.b") == house(&file));
    // As much of the line is drawn as was read.
    let short = "\n".repeat(99_999).into_bytes();
    for (lines, more, drawn) in [
        (&full, "\n", ""),
        (&full, "x", "    x\n    ^\n"),
        (&full, "xy\r\nz", "    x\n    ^\n"),
        (&short, "xy\r\nz", "    xy\n    ^\n"),
    ] {
        desk.put("more.b", &[lines, more.as_bytes()].concat());
        let ran = desk.run(&["check", "more.b"]).ended(1);
        assert!(!ran.out.contains("--pad"), "{}", ran.out);
        let ran = desk.run(&["check", "--pad", "more.b"]).ended(1);
        let expected = format!(
            "more.b: refused by the padding, fault 2, line 100000, column 1\n    \
             a line 100,000 has begun, so the file cannot be padded\n{drawn}"
        );
        assert_eq!(ran.out, expected);
    }
}

#[test]
fn a_very_long_file_fills_no_memory() {
    let desk = Desk::new("pad-huge");
    let huge = File::create(desk.path("huge.b")).unwrap();
    huge.set_len(1 << 40).unwrap();
    let ran = desk.run(&["check", "--pad", "huge.b"]).ended(1);
    let said = "huge.b: refused by the padding, fault 5, line 1, column 81\n";
    assert!(ran.out.starts_with(said));
    desk.run(&["pad", "huge.b", "out.b"]).ended(1);
    assert!(!desk.has("out.b"));
}

#[test]
fn the_sheet_of_the_padded_file() {
    let desk = Desk::new("pad-sheet");
    let sheet = String::from_utf8(stored("tuburan-bay.sheet")).unwrap();
    desk.put("in.b", &with_cr_lf(&trimmed(&example())));
    let ran = desk.run(&["sheet", "--pad", "in.b"]).ended(0);
    assert_eq!((ran.out, &ran.err[..]), (sheet, ""));
    desk.put("lost.b", &trimmed(&height_lost()));
    let ran = desk.run(&["sheet", "--pad", "lost.b"]).ended(1);
    assert_eq!((&ran.out[..], &ran.err[..]), ("FILE\t34\t10\t30\t24\n", ""));
    desk.put("long.b", &too_long());
    let ran = desk.run(&["sheet", "--pad", "long.b"]).ended(1);
    assert_eq!(ran.out, "FILE\t0\t5\t7\t81\n");
    assert_eq!(ran.err, format!("long.b: {TOO_LONG}"));
}

/// The limit is the padded file's: 65,600 bytes may be good, and fewer than
/// 64,800 too many.
#[test]
fn the_sheet_goes_by_the_padded_length() {
    let desk = Desk::new("pad-sheet-limit");
    let too_large = "FILE\t0\t1\t0\t0\n";
    desk.put("full.b", &with_cr_lf(&generate::accepted(4, 800)));
    assert_eq!(desk.get("full.b").len(), 65_600);
    let ran = desk.run(&["sheet", "--pad", "full.b"]).ended(0);
    assert!(ran.out.starts_with("FILE\t800\t0\t0\t0\nKIND\tAA\t2\n"));
    let ran = desk.run(&["sheet", "full.b"]).ended(1);
    assert_eq!(ran.out, too_large);
    assert_eq!(ran.err, format!("shelf: full.b: {ADVICE}"));
    let more = trimmed(&generate::accepted(4, 801));
    assert!(more.len() < 64_800);
    for form in [more, with_cr_lf(&generate::accepted(4, 801))] {
        desk.put("more.b", &form);
        let ran = desk.run(&["sheet", "--pad", "more.b"]).ended(1);
        assert_eq!((&ran.out[..], &ran.err[..]), (too_large, ""));
        assert_eq!(desk.run(&["sheet", "more.b"]).ended(1).err, "");
    }
}

#[test]
fn a_record_of_the_padded_file() {
    let desk = Desk::new("pad-show");
    desk.put("in.b", &with_cr_lf(&trimmed(&height_lost())));
    let ran = desk.run(&["show", "--pad", "in.b", "13"]).ended(0);
    let comment = format!("{:<70}", "Receiver restarted at 0255.");
    let expected = format!(
        "in.b, record 13: *26* occupation comment\n    \
         columns 1-6   sequence number             130\n    \
         columns 11-80 comment                     \"{comment}\"\n"
    );
    assert_eq!(ran.out, expected);
    let ran = desk.run(&["show", "--pad", "in.b", "35"]).ended(1);
    assert_eq!(
        ran.out,
        "in.b: refused, fault 13, record 35, column 0\n    \
         there is no such record\n    the file has 34 whole records\n"
    );
    // As it stands there are 24, and record 30 is the one that is bad.
    let advice = "    with --pad, which fills its lines to 80 columns, the record could be shown\n";
    for (record, helps) in [("13", true), ("29", true), ("30", false), ("35", false)] {
        let ran = desk.run(&["show", "in.b", record]).ended(1);
        assert_eq!(ran.out.ends_with(advice), helps, "{}", ran.out);
        assert_eq!(ran.out.contains("--pad"), helps);
    }
}

#[test]
fn the_house_style_of_the_padded_file() {
    let desk = Desk::new("pad-rewrite");
    let file = generate::accepted(2, 300);
    for form in [trimmed(&file), with_cr_lf(&file), file.clone()] {
        desk.put("in.b", &form);
        let words = ["rewrite", "--pad", "in.b", "out.b", "--replace"];
        let ran = desk.run(&words).ended(0);
        let said = "in.b: accepted, 300 records written to out.b\n";
        assert_eq!(ran.out, said);
        assert!(desk.get("out.b") == house(&file));
        assert!(desk.get("in.b") == form);
    }
    desk.put("in.b", &trimmed(&height_lost()));
    let ran = desk.run(&["rewrite", "--pad", "in.b", "new.b"]).ended(1);
    assert!(ran
        .out
        .starts_with("in.b: refused, fault 10, record 30, column 24\n"));
    assert_eq!(desk.files("."), ["in.b", "out.b"]);
}
