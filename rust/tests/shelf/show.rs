//! `shelf show`

use crate::desk::Desk;
use shelf::sample;

fn shown(record: &str) -> String {
    let desk = Desk::new(&format!("show-{record}"));
    desk.put("good.b", &sample::file());
    desk.run(&["show", "good.b", record]).ended(0).out
}

#[test]
fn a_control_point() {
    assert_eq!(
        shown("17"),
        "good.b, record 17: *80* control point\n    \
         columns 1-6   sequence number             missing\n    \
         columns 11-14 station                     345\n    \
         columns 15-44 name of the mark            \"Lighthouse 2                  \"\n    \
         columns 45-55 latitude                    38 deg 53 min 15.12345 sec N\n    \
         columns 57-68 longitude                   77 deg 02 min 01.00000 sec W\n    \
         columns 77-78 state or country            \"MI\"\n"
    );
}

#[test]
fn heights_and_missing_heights() {
    let text = shown("18");
    for line in [
        "columns 17-23 orthometric height          12.345 m",
        "column 24     orthometric height code     \"A\"",
        "columns 36-42 geoid height                -33.250 m",
        "columns 46-52 ellipsoid height            -1.234 m",
        "columns 57-80 comment                     \"set by hand             \"",
    ] {
        assert!(text.contains(line), "{text}");
    }
    // A blank height is missing, not 0, though the comment is blank too.
    let text = shown("20");
    assert!(text.contains("orthometric height          missing\n"));
    assert!(text.contains("ellipsoid height            missing\n"));
    assert!(!text.contains(" m\n"));
}

#[test]
fn every_record_of_the_sample() {
    for (record, line) in [
        ("1", "good.b, record 1: *A1* job code\n"),
        ("1", "sequence number             10\n"),
        ("2", "*10* project title\n"),
        ("4", "field operations ended      2020-02\n"),
        ("4", "chief of party's initials   \"A C\"\n"),
        (
            "5",
            "maker T, day 366, digit of the year 9, session A, mark \"ab~ \"\n",
        ),
        ("6", "comment                     \"Rained; see {log} ~"),
        ("7", "date of observation         191105 (YYMMDD)\n"),
        ("7", "time of observation         0930 (HHMM)\n"),
        ("7", "antenna height              1.543 m\n"),
        ("13", "equipment code              45\n"),
        ("15", "radome code                 \"NONE\"\n"),
        ("23", "*93* variance factors\n"),
    ] {
        assert!(shown(record).contains(line), "record {record}");
    }
}

#[test]
fn records_that_are_not_there_or_not_good() {
    let desk = Desk::new("show-refused");
    desk.put("bad.b", &sample::with(&sample::file(), 7, 56, "1.543"));
    for record in ["0", "25", "100000", "4294967295"] {
        let ran = desk.run(&["show", "bad.b", record]).ended(1);
        let said = format!("bad.b: refused, fault 13, record {record}, column 0\n");
        assert!(ran.out.starts_with(&said), "{}", ran.out);
        assert!(ran
            .out
            .contains("there is no such record\n    the file has 24 whole records"));
    }
    let ran = desk.run(&["show", "bad.b", "7"]).ended(1);
    assert!(ran.out.contains("fault 9, record 7, column 57"));
    assert!(ran
        .out
        .contains("antenna height in columns 56-60 must be a height"));
    // The others can still be shown.
    desk.run(&["show", "bad.b", "8"]).ended(0);
}
