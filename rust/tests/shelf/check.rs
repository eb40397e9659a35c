//! `shelf check`

use crate::deposits::network;
use crate::desk::{house, Desk};
use shelf::{generate, sample};
use std::ffi::OsStr;
use std::fs::{self, File};
use std::os::unix::ffi::OsStrExt;
use std::os::unix::fs::symlink;

#[test]
fn an_accepted_file_and_its_counts() {
    let desk = Desk::new("accepted");
    desk.put("good.b", &sample::file());
    let ran = desk.run(&["check", "good.b"]).ended(0);
    assert_eq!(
        ran.out,
        "good.b: accepted, 24 records: AA 2 10 1 11 1 12 1 25 2 26 1 27 5 70 2 72 2 80 2 86 2 \
         91 1 92 1 93 1\n"
    );
    assert_eq!(ran.err, "");
}

#[test]
fn a_refused_file_with_a_caret_under_the_column() {
    let desk = Desk::new("caret");
    desk.put("bad.b", &sample::with(&sample::file(), 5, 28, "7  "));
    let ran = desk.run(&["check", "bad.b"]).ended(1);
    let record = "      *25*  12T3669Aab~ J B7    003".to_string() + &" ".repeat(45);
    let expected = format!(
        "bad.b: refused, fault 9, record 5, column 29\n    \
         a field not of its kind or range: instrument in columns 28-30 must be a number from 1 \
         to 999, blanks only in front; column 29 could have held a digit\n    {record}\n    {}^\n",
        " ".repeat(28)
    );
    assert_eq!(ran.out, expected);
}

/// Each fault that a file can have: what is said, and the caret's column.
#[test]
fn every_fault_in_words() {
    let desk = Desk::new("faults");
    let good = sample::file();
    let long = generate::accepted(2, 100_000);
    for (file, said, caret) in [
        (
            long,
            "fault 2, record 100000, column 1\n    a record 100,000 has begun\n",
            Some(1),
        ),
        (
            good[..100].to_vec(),
            "the last line is not whole: it has 19 bytes",
            Some(20),
        ),
        (
            sample::with(&good, 3, 40, "\t"),
            "not printable: 09 hexadecimal (a tab)",
            Some(40),
        ),
        (
            sample::with(&good, 3, 81, "\r"),
            "0D hexadecimal (a carriage return",
            Some(81),
        ),
        (
            sample::with(&good, 3, 81, "x"),
            "the line is too long",
            Some(81),
        ),
        (
            sample::with(&good, 3, 7, "*13*"),
            "columns 7-10 hold no known code\n",
            Some(7),
        ),
        (
            sample::with(&good, 3, 7, "*86*"),
            "may not come here: *86* (heights) after *10* (project title)",
            Some(7),
        ),
        (
            good[81..].to_vec(),
            "*10* (project title) at the beginning, where a job code comes",
            Some(7),
        ),
        (
            good[..81].to_vec(),
            "the file ends where a record must follow\n",
            None,
        ),
        (Vec::new(), "fault 8, record 1, column 1\n", None),
        (
            sample::with(&good, 9, 1, "00000x"),
            "sequence number in columns 1-6 must be a number from 1 to 999999",
            Some(6),
        ),
        (
            sample::with(&good, 7, 11, "0345"),
            "station in columns 11-14 must be the station of the *25* of its group",
            Some(11),
        ),
        (
            sample::with(&good, 18, 24, " "),
            "code in column 24 must be blank exactly when its height is missing",
            Some(24),
        ),
        (
            sample::repeated_station(),
            "an *80* repeats a station number: station 0345",
            Some(11),
        ),
        (
            sample::with(&good, 5, 33, "  9"),
            "antenna in columns 33-35 is defined by no record of this file",
            Some(33),
        ),
    ] {
        desk.put("bad.b", &file);
        let ran = desk.run(&["check", "bad.b"]).ended(1);
        assert!(ran.out.contains(said), "{}", ran.out);
        let last = ran.out.lines().last().unwrap();
        let pointed = last.ends_with('^').then(|| last.len() - 4);
        assert_eq!(pointed, caret, "{}", ran.out);
    }
}

/// Records 25 and 26 of the deposit are of receiver 13, 24 is of 12.
#[test]
fn a_receiver_of_two_records_and_one_that_falls() {
    let desk = Desk::new("receivers");
    desk.put("net.b", &network());
    let ran = desk.run(&["check", "net.b"]).ended(0);
    assert_eq!(
        ran.out,
        "net.b: accepted, 48 records: AA 2 10 1 12 1 25 6 26 1 27 12 70 4 72 3 80 4 86 4 91 4 \
         92 5 93 1\n"
    );
    for number in ["012", " 12", "  1"] {
        desk.put("net.b", &sample::with(&network(), 26, 11, number));
        let ran = desk.run(&["check", "net.b"]).ended(1);
        let record = format!("000260*70*{number}113      LEICA GEOSYSTEMS{:24}", "");
        let expected = format!(
            "net.b: refused, fault 10, record 26, column 11\n    a field well formed that \
             disagrees with an earlier one: instrument in columns 11-13 must be not below the \
             instrument of the *70* before it\n    {record}GS18    3701188   \n    {:>11}\n",
            '^'
        );
        assert_eq!(ran.out, expected);
    }
}

#[test]
fn several_files_and_the_worst_of_their_verdicts() {
    let desk = Desk::new("several");
    desk.put("good.b", &sample::file());
    desk.put("bad.b", b"");
    desk.run(&["check", "good.b", "good.b"]).ended(0);
    let ran = desk.run(&["check", "bad.b", "good.b"]).ended(1);
    assert!(ran.out.contains("bad.b: refused") && ran.out.contains("good.b: accepted"));
    // One that is not there hides no other.
    let ran = desk.run(&["check", "none.b", "bad.b", "good.b"]).ended(2);
    assert_eq!(ran.err, "shelf: none.b: there is no such file or folder\n");
    assert!(ran.out.contains("bad.b: refused") && ran.out.contains("good.b: accepted"));
}

#[test]
fn files_of_99_999_records_are_taken_and_longer_ones_fill_no_memory() {
    let desk = Desk::new("long");
    desk.put("full.b", &generate::accepted(1, 99_999));
    let ran = desk.run(&["check", "full.b"]).ended(0);
    assert!(ran.out.starts_with("full.b: accepted, 99999 records:"));
    let huge = File::create(desk.path("huge.b")).unwrap();
    huge.set_len(1 << 40).unwrap();
    let ran = desk.run(&["check", "huge.b"]).ended(1);
    assert!(ran.out.contains("fault 4, record 1, column 1"));
}

#[test]
fn names_of_any_bytes_can_be_judged_and_are_shown_on_one_line() {
    let desk = Desk::new("names");
    let name = OsStr::from_bytes(b"a\tb\nc\\d\xff.b");
    desk.put(name, b"");
    let ran = desk.run(&[OsStr::new("check"), name]).ended(1);
    assert!(ran
        .out
        .starts_with("a\\tb\\nc\\\\d\\xFF.b: refused, fault 8"));
}

#[test]
fn a_dash_is_standard_input_and_output() {
    let desk = Desk::new("dash");
    let file = sample::file();
    let ran = desk.fed(&["check", "-"], &file).ended(0);
    assert!(ran.out.starts_with("-: accepted, 24 records"));
    let ran = desk.fed(&["sheet", "-"], &file).ended(0);
    assert!(ran.out.starts_with("FILE\t24\t0\t0\t0\n"));
    let ran = desk.fed(&["show", "-", "17"], &file).ended(0);
    assert!(ran.out.starts_with("-, record 17: *80* control point\n"));
    let ran = desk.fed(&["rewrite", "-", "-"], &file).ended(0);
    assert_eq!(ran.out.as_bytes(), house(&file));
    assert_eq!(ran.err, "");
    let ran = desk.fed(&["rewrite", "-", "-"], &file[81..]).ended(1);
    assert_eq!(ran.out, "");
    assert!(ran
        .err
        .starts_with("-: refused, fault 7, record 1, column 7\n"));
    // A file of that name is asked for by its folder.
    desk.put("-", &file);
    assert!(desk
        .run(&["check", "./-"])
        .ended(0)
        .out
        .starts_with("./-: accepted"));
    assert_eq!(desk.files("."), ["-"]);
}

#[test]
fn folders_and_lists_of_names() {
    let desk = Desk::new("lists");
    desk.put("folder/a/good.b", &sample::file());
    desk.put("folder/bad.b", b"bad");
    desk.put("two\nlines", &sample::file());
    let ran = desk.run(&["check", "folder"]).ended(1);
    assert!(ran.out.starts_with("folder/a/good.b: accepted"));
    assert!(ran.out.contains("\nfolder/bad.b: refused, fault 3"));
    desk.put("list", b"folder/a/good.b\n\nfolder\nnone.b\n");
    let ran = desk.run(&["check", "--files-from", "list"]).ended(2);
    assert_eq!(ran.out.matches(": accepted").count(), 2);
    assert_eq!(ran.err, "shelf: none.b: there is no such file or folder\n");
    let words = ["check", "--files-from=-", "-0"];
    let ran = desk.fed(&words, b"two\nlines\0folder/a/good.b").ended(0);
    assert!(ran.out.starts_with("two\\nlines: accepted"));
    assert_eq!(ran.out.lines().count(), 2);
    // What is not judged is named.
    symlink("bad.b", desk.path("folder/link")).unwrap();
    fs::remove_file(desk.path("folder/bad.b")).unwrap();
    let ran = desk.run(&["check", "folder"]).ended(1);
    assert_eq!(
        ran.err,
        "shelf: folder/link: not judged: a symbolic link, not followed\n"
    );
    desk.run(&["check", "--files-from", "nowhere"]).ended(2);
}

#[test]
fn quiet_says_only_what_was_refused() {
    let desk = Desk::new("check-quiet");
    desk.put("good.b", &sample::file());
    desk.put("bad.b", b"bad");
    let ran = desk.run(&["check", "--quiet", "good.b"]).ended(0);
    assert_eq!((&ran.out[..], &ran.err[..]), ("", ""));
    let ran = desk.run(&["check", "--quiet", "good.b", "bad.b"]).ended(1);
    assert!(ran.out.starts_with("bad.b: refused, fault 3"));
}

/// The counts of the sample, and those of a refused file, as JSON has them.
pub const COUNTED: &str = "\"AA\":2,\"10\":1,\"11\":1,\"12\":1,\"25\":2,\"26\":1,\"27\":5,\
                           \"70\":2,\"72\":2,\"80\":2,\"86\":2,\"91\":1,\"92\":1,\"93\":1";
pub const NOT_COUNTED: &str = "\"AA\":0,\"10\":0,\"11\":0,\"12\":0,\"25\":0,\"26\":0,\"27\":0,\
                               \"70\":0,\"72\":0,\"80\":0,\"86\":0,\"91\":0,\"92\":0,\"93\":0";

/// The shape that the README documents.
#[test]
fn one_json_object_for_each_file() {
    let desk = Desk::new("json");
    desk.put("good.b", &sample::file());
    desk.put("b\"ad.b", &sample::with(&sample::file(), 18, 24, " "));
    let ran = desk
        .run(&["check", "--json", "good.b", "b\"ad.b", "none.b"])
        .ended(2);
    let expected = format!(
        "{{\"name\":\"good.b\",\"number\":0,\"record\":0,\"column\":0,\"records\":24,\
         \"counts\":{{{COUNTED}}},\"text\":\"accepted\"}}\n\
         {{\"name\":\"b\\\"ad.b\",\"number\":10,\"record\":18,\"column\":24,\"records\":24,\
         \"counts\":{{{NOT_COUNTED}}},\"text\":\"a field well formed that disagrees with an earlier \
         one: orthometric height code in column 24 must be blank exactly when its height is \
         missing\"}}\n\
         {{\"name\":\"none.b\",\"error\":\"there is no such file or folder\"}}\n"
    );
    assert_eq!(ran.out, expected);
}
