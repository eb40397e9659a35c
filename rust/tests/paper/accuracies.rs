//! The accuracy records *91* *92* *93* by the request that types them and the
//! tables it names: values and house style, both ends of each range with the
//! value beside it, two stations that differ, stations that are defined.

use crate::pointing::{judged, named, refused, Place};
use crate::pointing::{CORRELATIONS, DEVIATIONS, FACTORS};
use crate::sample::*;
use shelf::plain::{form, read, write, MISSING};

/// The sample's *91* of station 345, its *92* from 12 to 345, its *93*.
const NETWORK: usize = 21;
const LOCAL: usize = 22;

/// What stands in a field: the value read, and its house style.
fn taken((record, first, last): Place, text: &str) -> (i64, String) {
    let file = with(&file(), record, first, text);
    let values = read(&file, record as u64).unwrap().values;
    let word = WORDS
        .iter()
        .find(|word| (word.0, word.1) == (record, first));
    let house = columns(&house(&file), record, first, last - first + 1);
    (values[word.unwrap().2], house)
}

/// Record, first column and place among the words of each figure.
const WORDS: [(usize, usize, usize); 10] = [
    (21, 21, 1),
    (21, 31, 2),
    (21, 41, 3),
    (21, 51, 4),
    (22, 23, 2),
    (22, 33, 3),
    (22, 43, 4),
    (22, 53, 5),
    (23, 11, 0),
    (23, 19, 1),
];

/// Each of these texts is read as this value and written so.
fn good(place: Place, texts: &[(&str, i64, &str)]) {
    for &(text, value, house) in texts {
        assert_eq!(
            taken(place, text),
            (value, house.into()),
            "{place:?} {text:?}"
        );
    }
}

/// Each of these texts is fault 9, so many columns behind the field's first.
fn bad(place: Place, texts: &[(&str, usize)]) {
    for &(text, behind) in texts {
        named(place, &[(text, place.1 + behind)]);
    }
}

#[test]
fn a_deviation_is_a_number_up_to_nine_digits() {
    for place in DEVIATIONS {
        good(
            place,
            &[
                ("0000000000", 0, "0000000000"),
                ("         0", 0, "0000000000"),
                ("         1", 1, "0000000001"),
                ("      1234", 1_234, "0000001234"),
                (" 999999998", 999_999_998, "0999999998"),
                (" 999999999", 999_999_999, "0999999999"),
                ("0999999999", 999_999_999, "0999999999"),
            ],
        );
        bad(
            place,
            &[
                ("1000000000", 0),
                ("9999999999", 0),
                ("4294967296", 0),
                ("5         ", 0),
                ("-000000001", 0),
                ("+000000001", 0),
                (".000000001", 0),
                ("0 00000001", 1),
                ("01        ", 2),
                ("     12.34", 7),
                ("        -1", 8),
                ("        1 ", 9),
                ("         -", 9),
                ("         A", 9),
                ("          ", 9),
            ],
        );
    }
}

#[test]
fn a_correlation_is_signed_and_goes_from_its_least_to_its_most() {
    for place in CORRELATIONS {
        good(
            place,
            &[
                ("-099999990", -99_999_990, "-099999990"),
                (" -99999990", -99_999_990, "-099999990"),
                ("-099999989", -99_999_989, "-099999989"),
                ("-050000000", -50_000_000, "-050000000"),
                (" -50000000", -50_000_000, "-050000000"),
                ("        -1", -1, "-000000001"),
                ("-000000000", 0, "0000000000"),
                ("        -0", 0, "0000000000"),
                ("         0", 0, "0000000000"),
                ("         1", 1, "0000000001"),
                ("  50000000", 50_000_000, "0050000000"),
                ("0050000000", 50_000_000, "0050000000"),
                (" 099999998", 99_999_998, "0099999998"),
                ("0099999999", 99_999_999, "0099999999"),
            ],
        );
    }
}

#[test]
fn a_correlation_is_named_where_it_leaves_its_kind_or_range() {
    for place in CORRELATIONS {
        bad(
            place,
            &[
                ("1000000000", 0),
                ("9999999999", 0),
                ("+050000000", 0),
                (".500000000", 0),
                ("0100000000", 1),
                (" 100000000", 1),
                ("-100000000", 1),
                ("-999999999", 1),
                ("--50000000", 1),
                ("- 50000000", 1),
                ("-         ", 1),
                ("0-50000000", 1),
                ("0 50000000", 1),
                ("-.50000000", 1),
                (" - 5000000", 2),
                (" -.5000000", 2),
                ("     0.500", 6),
                ("       -  ", 8),
                ("-09999999 ", 9),
                ("-099999991", 9),
                ("-099999999", 9),
                (" -99999991", 9),
                (" -99999999", 9),
                ("         -", 9),
                ("          ", 9),
            ],
        );
    }
}

#[test]
fn a_factor_is_a_number_from_1_up_to_four_digits() {
    for place in FACTORS {
        good(
            place,
            &[
                ("       1", 1, "00000001"),
                ("00000002", 2, "00000002"),
                ("    1000", 1_000, "00001000"),
                (" 0009998", 9_998, "00009998"),
                ("    9999", 9_999, "00009999"),
            ],
        );
        bad(
            place,
            &[
                ("00000000", 7),
                ("       0", 7),
                ("        ", 7),
                ("       -", 7),
                ("0000999 ", 7),
                ("    1.00", 5),
                ("    .950", 4),
                ("    -001", 4),
                // A digit but zero in the first four columns.
                ("00010000", 3),
                ("   1.000", 3),
                ("  010000", 3),
                ("00100000", 2),
                (" 9      ", 1),
                ("10000000", 0),
                ("99999999", 0),
            ],
        );
    }
}

#[test]
fn the_scaled_code_is_y_or_n_and_not_blank() {
    for (record, column) in [(NETWORK, 65), (LOCAL, 67)] {
        for code in ["Y", "N"] {
            let file = with(&file(), record, column, code);
            assert_eq!(verdict(&file), ACCEPTED);
            let values = read(&file, record as u64).unwrap().values;
            assert_eq!(values.last(), Some(&i64::from(code.as_bytes()[0])));
            assert_eq!(columns(&house(&file), record, column, 1), code);
        }
        bad((record, column, column), &[(" ", 0), ("y", 0), ("X", 0)]);
    }
}

#[test]
fn comments_keep_every_blank_and_have_no_words() {
    for (record, first, width) in [(NETWORK, 66, 15), (LOCAL, 68, 13), (23, 27, 54)] {
        let words = read(&file(), record as u64).unwrap().values;
        for text in ["~", " ", " a "] {
            let text = format!("{text:>width$}");
            let file = with(&file(), record, first, &text);
            assert_eq!(verdict(&file), ACCEPTED);
            assert_eq!(read(&file, record as u64).unwrap().values, words);
            assert_eq!(columns(&house(&file), record, first, width), text);
        }
    }
}

/// 10 at the second station if it equals the first, by its value.
#[test]
fn where_a_record_names_two_they_differ() {
    for first in ["0012", "  12", " 012"] {
        for second in ["0012", "  12", " 012"] {
            let one = with(&file(), LOCAL, 11, first);
            let file = with(&one, LOCAL, 17, second);
            assert_eq!(verdict(&file), (10, 22, 17));
            let fault = read(&file, 22).unwrap_err();
            assert_eq!((fault.number, fault.record, fault.column), (10, 22, 17));
        }
    }
    // Either may be any of the two.
    let turned = with(&with(&file(), LOCAL, 11, " 345"), LOCAL, 17, "0012");
    assert_eq!(verdict(&turned), ACCEPTED);
    // 9 before 10 in a field, 10 before what stands further right.
    assert_eq!(refused(LOCAL, 17, "  1x"), [9, 22, 20]);
    assert_eq!(refused(LOCAL, 16, "x0012"), [9, 22, 16]);
    let both = with(&with(&file(), LOCAL, 17, "0012"), LOCAL, 23, "x");
    assert_eq!(judged(&both), [10, 22, 17]);
}

#[test]
fn each_station_they_name_must_be_defined() {
    let file = file();
    for (record, first) in [(NETWORK, 11), (LOCAL, 11), (LOCAL, 17)] {
        for station in ["0001", "  13", "9999"] {
            let undefined = with(&file, record, first, station);
            assert_eq!(verdict(&undefined), (12, record as u64, first as u64));
            // A record by itself names what it likes.
            assert!(read(&undefined, record as u64).is_ok());
        }
    }
    // The lowest column, and the earliest record.
    let both = with(&with(&file, LOCAL, 11, "0013"), LOCAL, 17, "0014");
    assert_eq!(verdict(&both), (12, 22, 11));
    assert_eq!(verdict(&with(&both, NETWORK, 11, "0013")), (12, 21, 11));
    assert_eq!(verdict(&with(&both, 5, 33, "009")), (12, 5, 33));
    // The number of an instrument or antenna defines no station.
    assert_eq!(verdict(&with(&file, NETWORK, 11, "   7")), (12, 21, 11));
    assert_eq!(verdict(&with(&file, NETWORK, 11, " 444")), (12, 21, 11));
}

/// 11 and 12 by record, and both after all others.
#[test]
fn a_repeated_station_goes_before_an_undefined_one_behind_it() {
    let mut lines = lines();
    lines.insert(20, point("0345"));
    lines.insert(21, no_heights("0345"));
    lines[22] = network("0013");
    assert_eq!(verdict(&lines.concat()), (11, 21, 11));
    let earlier = with(&lines.concat(), 5, 28, "009");
    assert_eq!(verdict(&earlier), (12, 5, 28));
    lines[23] = local("  12", "0012");
    assert_eq!(verdict(&lines.concat()), (10, 24, 17));
    lines.pop();
    lines[23] = local("  12", "0345");
    assert_eq!(verdict(&lines.concat()), (8, 26, 1));
}

#[test]
fn a_station_and_a_pair_may_come_again() {
    let mut lines = lines();
    let again = [network("0012"), network("  12"), network(" 345")];
    lines.splice(20..20, again);
    lines.insert(24, local("0345", "  12"));
    lines.insert(24, local("  12", "0345"));
    assert_eq!(verdict(&lines.concat()), ACCEPTED);
    let counts = form(&lines.concat()).counts;
    assert_eq!(counts[11..], [4, 3, 1]);
}

/// They enter the meaning by value: another dress of one value is the same
/// file, another value is not.
#[test]
fn house_style_is_by_value() {
    let before = house(&file());
    let mut other = file();
    for (record, first, text) in [
        (21, 11, "0345"),
        (21, 21, "0000000123"),
        (21, 41, "-012345678"),
        (22, 11, " 012"),
        (22, 33, "0000000000"),
        (22, 43, " 050000000"),
        (23, 11, "00001000"),
    ] {
        other = with(&other, record, first, text);
    }
    assert_ne!(other, file());
    assert_eq!(house(&other), before);
    for (record, first, width) in [(21, 21, 10), (21, 41, 10), (22, 17, 4), (23, 19, 8)] {
        let text = columns(&before, record, first, width);
        assert_eq!(columns(&house(&before), record, first, width), text);
    }
    for (record, first, text) in [
        (21, 21, "       124"),
        (21, 41, " -12345677"),
        (22, 43, " -50000000"),
        (22, 67, "Y"),
        (23, 19, "00002346"),
        (23, 80, "."),
    ] {
        assert_ne!(house(&with(&file(), record, first, text)), before);
    }
}

/// The request's own examples of house style, through write.
#[test]
fn written_as_the_tables_say() {
    let figures = [1_234, 0, -50_000_000, 999_999_999];
    let values = [&[12][..], &figures, &[i64::from(b'Y')]].concat();
    let comment: &[u8] = b"by hand        ";
    let mut out = [b'#'; 81];
    let fault = write(&mut out, 11, Some(10), &values, [comment, b"", b""]);
    assert_eq!(fault.number, 0);
    let expected =
        "000010*91*0012      00000012340000000000-0500000000999999999    Yby hand        \n";
    assert_eq!(String::from_utf8_lossy(&out), expected);
    let mut missing = values.clone();
    missing[3] = MISSING;
    let fault = write(&mut out, 11, Some(10), &missing, [comment, b"", b""]);
    assert_eq!((fault.number, fault.column), (9, 41));
}
