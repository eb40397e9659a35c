//! A field not of its kind or range: the caret under the character, and what
//! could have stood there.

use crate::deposits::{example, trimmed, with_cr_lf};
use crate::desk::Desk;
use shelf::{plain, sample};
use std::ops::RangeInclusive;

/// A record of the sample and the first column of a field in it.
pub type Place = (usize, usize);

/// What check says of `bad.b`: the field's own words, and behind them what the
/// column could have held, if anything is said of it.
fn refusal(file: &[u8], record: usize, column: usize, words: &str, could: &str) -> String {
    let line = &file[81 * (record - 1)..][..80];
    let could = match could {
        "" => String::new(),
        _ => format!("; column {column} could have held {could}"),
    };
    format!(
        "bad.b: refused, fault 9, record {record}, column {column}\n    \
         a field not of its kind or range: {words}{could}\n    \
         {}\n    {:>column$}\n",
        String::from_utf8_lossy(line),
        '^'
    )
}

/// Each text put into the sample there: the column that is named, and what is
/// said that it could have held.
pub fn pointed(name: &str, place: Place, words: &str, cases: &[(&str, usize, &str)]) {
    let desk = Desk::new(&format!("pointing-{name}"));
    let (record, first) = place;
    for (text, column, could) in cases {
        let file = sample::with(&sample::file(), record, first, text);
        desk.put("bad.b", &file);
        let ran = desk.run(&["check", "bad.b"]).ended(1);
        let expected = refusal(&file, record, *column, words, could);
        assert_eq!(ran.out, expected, "{text:?}");
        assert_eq!(ran.err, "");
    }
}

#[test]
fn a_station() {
    pointed(
        "station",
        (17, 11),
        "station in columns 11-14 must be a number from 1 to 9999, blanks only in front",
        &[
            ("0000", 14, "a digit 1 to 9"),
            ("    ", 14, "a digit 1 to 9"),
            ("  00", 14, "a digit 1 to 9"),
            ("000x", 14, "a digit 1 to 9"),
            ("001x", 14, "a digit"),
            ("1 23", 12, "a digit"),
            ("0 12", 12, "a digit"),
            ("12  ", 13, "a digit"),
            ("x123", 11, "a blank or a digit"),
            (" -12", 12, "a blank or a digit"),
        ],
    );
}

/// 0 is good there.
#[test]
fn a_time() {
    pointed(
        "time",
        (7, 21),
        "time of observation in columns 21-24 must be a number HHMM, blanks only in front",
        &[("    ", 24, "a digit"), ("9:30", 22, "a digit")],
    );
}

/// It may be all blank.
#[test]
fn a_sequence_number() {
    pointed(
        "sequence",
        (9, 1),
        "sequence number in columns 1-6 must be a number from 1 to 999999, blanks only in \
         front; or all blank",
        &[
            ("000000", 6, "a digit 1 to 9"),
            ("00000x", 6, "a digit 1 to 9"),
            ("     0", 6, "a blank or a digit 1 to 9"),
            ("10    ", 3, "a digit"),
            ("  x   ", 3, "a blank or a digit"),
            ("x     ", 1, "a blank or a digit"),
        ],
    );
}

#[test]
fn a_latitude() {
    pointed(
        "latitude",
        (17, 45),
        "latitude in columns 45-55 must be eleven digits DDMMSSsssss, at most 90 degrees",
        &[
            ("91000000000", 46, "0"),
            ("99595999999", 46, "0"),
            ("90000000001", 55, "0"),
            ("38600000000", 47, "a digit 0 to 5"),
            ("38536000000", 49, "a digit 0 to 5"),
            ("3853151234O", 55, "a digit"),
            ("38 31512345", 47, "a digit 0 to 5"),
            (" 8531512345", 45, "a digit"),
            ("           ", 45, "a digit"),
        ],
    );
}

#[test]
fn a_longitude() {
    pointed(
        "longitude",
        (17, 57),
        "longitude in columns 57-68 must be twelve digits DDDMMSSsssss, at most 180 degrees",
        &[
            ("181000000000", 59, "0"),
            ("180000000001", 68, "0"),
            ("190000000000", 58, "a digit 0 to 8"),
            ("200000000000", 57, "0 or 1"),
            (" 77020100000", 57, "0 or 1"),
            ("077600000000", 60, "a digit 0 to 5"),
            ("0770201.0000", 64, "a digit"),
        ],
    );
}

#[test]
fn a_height() {
    pointed(
        "height",
        (18, 17),
        "orthometric height in columns 17-23 must be a height in millimetres: blanks, perhaps \
         a minus, digits; or all blank",
        &[
            ("12 3456", 19, "a digit"),
            ("12.3456", 19, "a digit"),
            ("      -", 23, "a blank or a digit"),
            ("     - ", 23, "a digit"),
            (" --1234", 19, "a digit"),
            ("  +1234", 19, "a blank, a minus or a digit"),
            ("x001234", 17, "a blank, a minus or a digit"),
        ],
    );
}

/// It cannot be missing.
#[test]
fn an_antenna_height() {
    pointed(
        "antenna-height",
        (7, 56),
        "antenna height in columns 56-60 must be a height in millimetres: blanks, perhaps a \
         minus, digits",
        &[
            ("     ", 60, "a digit"),
            ("    -", 60, "a digit"),
            ("1.543", 57, "a digit"),
        ],
    );
}

#[test]
fn a_month() {
    pointed(
        "month",
        (4, 11),
        "field operations began in columns 11-16 must be six digits YYYYMM, month 01 to 12",
        &[
            ("201913", 16, "a digit 0 to 2"),
            ("201900", 16, "a digit 1 to 9"),
            ("201920", 15, "0 or 1"),
            ("2019 1", 15, "0 or 1"),
            ("000001", 14, "a digit 1 to 9"),
            (" 01911", 11, "a digit"),
        ],
    );
}

/// That it would end before it began has no say in what could have stood there.
#[test]
fn a_month_that_has_to_agree() {
    pointed(
        "agrees",
        (4, 17),
        "field operations ended in columns 17-22 must be six digits YYYYMM, month 01 to 12",
        &[("x02002", 17, "a digit"), ("000002", 20, "a digit 1 to 9")],
    );
}

#[test]
fn a_media_identifier() {
    pointed(
        "media",
        (5, 15),
        "media identifier in columns 15-24 must be a letter, three digits 001 to 366, a digit, \
         a letter or digit, four characters",
        &[
            ("T3679Aab~ ", 18, "a digit 0 to 6"),
            ("T3709Aab~ ", 17, "a digit 0 to 6"),
            ("T4009Aab~ ", 16, "a digit 0 to 3"),
            ("T0009Aab~ ", 18, "a digit 1 to 9"),
            ("T366-Aab~ ", 19, "a digit"),
            ("T3669aab~ ", 20, "a digit or a letter A to Z"),
            ("t3669Aab~ ", 15, "a letter A to Z"),
        ],
    );
}

#[test]
fn two_columns_that_go_together() {
    pointed(
        "pair",
        (18, 25),
        "order and class in columns 25-26 must be two digits or two blanks",
        &[
            ("1 ", 26, "a digit"),
            (" 1", 26, "a blank"),
            ("x1", 25, "a blank or a digit"),
        ],
    );
    pointed(
        "datum",
        (18, 28),
        "datum in columns 28-29 must be letters A-Z and digits, or all blank",
        &[
            ("8 ", 29, "a digit or a letter A to Z"),
            (" 8", 29, "a blank"),
            ("-8", 28, "a blank, a digit or a letter A to Z"),
        ],
    );
}

#[test]
fn letters() {
    pointed(
        "letters",
        (17, 77),
        "state or country in columns 77-78 must be letters A-Z",
        &[("M1", 78, "a letter A to Z"), (" I", 77, "a letter A to Z")],
    );
    pointed(
        "initials",
        (5, 25),
        "observer's initials in columns 25-27 must be letters A-Z or spaces",
        &[("J.B", 26, "a blank or a letter A to Z")],
    );
}

#[test]
fn a_spacer() {
    pointed(
        "spacer",
        (17, 70),
        "spacer in columns 70-76 must be blank",
        &[("   0   ", 73, "a blank")],
    );
}

#[test]
fn of_titles_and_names_there_is_nothing_short_to_say() {
    pointed(
        "title",
        (2, 11),
        "title in columns 11-80 must be A-Z, 0-9, space and * , ' = ) ( - . + \\ /",
        &[("NORTH shore", 17, ""), ("#", 11, "")],
    );
    pointed(
        "name",
        (4, 26),
        "chief of party's name in columns 26-43 must be A-Z, 0-9, space and * , ' = ) ( - . + /",
        &[("COOPER \\", 33, "")],
    );
}

#[test]
fn of_one_column_the_fields_own_words_say_it() {
    for (place, words, text) in [
        (
            (4, 76),
            "survey method in column 76 must be the digit 4",
            "5",
        ),
        (
            (18, 24),
            "orthometric height code in column 24 must be letters A-Z or spaces",
            "1",
        ),
        (
            (17, 56),
            "letter of the latitude in column 56 must be N or S",
            " ",
        ),
    ] {
        let (_, column) = place;
        let name = format!("column-{column}");
        pointed(&name, place, words, &[(text, column, "")]);
    }
}

const BAD_LATITUDE: &str =
    "latitude in columns 45-55 must be eleven digits DDMMSSsssss, at most 90 degrees";

/// Degrees 91 in record 17.
fn bad_latitude() -> Vec<u8> {
    sample::with(&sample::file(), 17, 45, "91")
}

#[test]
fn rewrite_and_show_say_the_same() {
    let desk = Desk::new("pointing-same");
    let file = bad_latitude();
    desk.put("bad.b", &file);
    let said = refusal(&file, 17, 46, BAD_LATITUDE, "0");
    for words in [
        &["check", "--quiet", "bad.b"][..],
        &["rewrite", "bad.b", "out.b"],
        &["show", "bad.b", "17"],
    ] {
        let ran = desk.run(words).ended(1);
        assert_eq!((&ran.out, &ran.err[..]), (&said, ""), "{words:?}");
    }
    let ran = desk.run(&["rewrite", "bad.b", "-"]).ended(1);
    assert_eq!((&ran.out[..], ran.err), ("", said));
    assert_eq!(desk.files("."), ["bad.b"]);
}

/// Whatever stands around it.
#[test]
fn show_judges_a_record_by_itself() {
    let desk = Desk::new("pointing-show");
    let file = sample::with(&bad_latitude(), 18, 11, "1 23");
    let file = [&file[81 * 16..], b"rest"].concat();
    desk.put("bad.b", &file);
    let station = "station in columns 11-14 must be a number from 1 to 9999, blanks only in front";
    for (record, column, words, could) in [(1, 46, BAD_LATITUDE, "0"), (2, 12, station, "a digit")]
    {
        let ran = desk.run(&["show", "bad.b", &record.to_string()]).ended(1);
        assert_eq!(ran.out, refusal(&file, record, column, words, could));
    }
}

#[test]
fn json_has_the_same_words() {
    let desk = Desk::new("pointing-json");
    desk.put("bad.b", &bad_latitude());
    let ran = desk.run(&["check", "--json", "bad.b"]).ended(1);
    let head = "{\"name\":\"bad.b\",\"number\":9,\"record\":17,\"column\":46,\"records\":24,";
    let text = format!(
        "\"text\":\"a field not of its kind or range: {BAD_LATITUDE}; column 46 could have held \
         0\"}}\n"
    );
    assert!(ran.out.starts_with(head), "{}", ran.out);
    assert!(ran.out.ends_with(&text), "{}", ran.out);
}

/// The sheet's line and a move's have no room for more than the column.
#[test]
fn sheet_and_move_name_the_column() {
    let desk = Desk::new("pointing-column");
    desk.put("old/bad.b", &bad_latitude());
    let ran = desk.run(&["sheet", "old/bad.b"]).ended(1);
    let said = ("FILE\t24\t9\t17\t46\n", "");
    assert_eq!((&ran.out[..], &ran.err[..]), said);
    let words = ["move", "old", "new", "--ledger", "ledger.tsv", "--quiet"];
    let ran = desk.run(&words).ended(1);
    let said = "bad.b: refused, fault 9, record 17, column 46: a field not of its kind or range\n";
    assert_eq!((&ran.out[..], &ran.err[..]), (said, ""));
    let ledger = String::from_utf8(desk.get("ledger.tsv")).unwrap();
    assert!(ledger.contains("\t9\t17\t46\trefused\t"), "{ledger}");
}

/// The line is the padded file's, also where the column is a blank that the
/// file as it stands has not.
#[test]
fn a_padded_line() {
    let desk = Desk::new("pointing-pad");
    let latitude = sample::with(&example(), 25, 45, "106");
    let antenna = sample::with(&example(), 5, 33, "   ");
    for (file, record, column, words, could) in [
        (latitude, 25, 47, BAD_LATITUDE, "a digit 0 to 5"),
        (
            antenna,
            5,
            35,
            "antenna in columns 33-35 must be a number from 1 to 999, blanks only in front",
            "a digit 1 to 9",
        ),
    ] {
        desk.put("bad.b", &with_cr_lf(&trimmed(&file)));
        let said = refusal(&file, record, column, words, could);
        let number = record.to_string();
        for words in [
            &["check", "--pad", "bad.b"][..],
            &["rewrite", "--pad", "bad.b", "out.b"],
            &["show", "--pad", "bad.b", &number],
        ] {
            assert_eq!(desk.run(words).ended(1).out, said, "{words:?}");
        }
    }
}

#[test]
fn of_a_well_formed_field_nothing_more_is_said() {
    let desk = Desk::new("pointing-formed");
    let good = sample::file();
    for (file, said) in [
        (
            sample::with(&good, 4, 17, "201910"),
            "fault 10, record 4, column 17\n    \
             a field well formed that disagrees with an earlier one: field operations ended in \
             columns 17-22 must be not before the month in columns 11-16\n",
        ),
        (
            sample::with(&good, 5, 28, "  9"),
            "fault 12, record 5, column 28\n    \
             a *25*, *91* or *92* names an undefined number: instrument in columns 28-30 is \
             defined by no record of this file\n",
        ),
    ] {
        desk.put("bad.b", &file);
        let ran = desk.run(&["check", "bad.b"]).ended(1);
        assert!(ran.out.contains(said), "{}", ran.out);
    }
}

/// Where nothing is said: titles, names, and fields of one column.
const SILENT: [(usize, RangeInclusive<usize>); 14] = [
    (2, 11..=80),
    (3, 11..=80),
    (4, 26..=43),
    (4, 47..=64),
    (4, 76..=76),
    (17, 56..=56),
    (17, 69..=69),
    (18, 24..=24),
    (18, 27..=27),
    (18, 43..=43),
    (18, 53..=53),
    (18, 56..=56),
    (21, 65..=65),
    (22, 67..=67),
];

/// The sample with a bad field.
struct Bad {
    file: Vec<u8>,
    record: usize,
    /// The column that read names of it.
    column: usize,
}

impl Bad {
    fn of(file: Vec<u8>, record: usize) -> Option<Bad> {
        let fault = plain::read(&file, record as u64).err()?;
        let column = fault.column as usize;
        let bad = Bad {
            file,
            record,
            column,
        };
        (fault.number == 9).then_some(bad)
    }

    /// Each column of each kind of record with another character in it, where
    /// that makes a field bad.
    fn all() -> Vec<Bad> {
        let kinds = [1, 2, 3, 4, 5, 6, 7, 13, 15, 17, 18, 21, 22, 23];
        let mut all = Vec::new();
        for record in kinds {
            for column in (1..=6).chain(11..=80) {
                let texts = ["~", " ", "0", "-", "A"].into_iter();
                all.extend(texts.filter_map(|text| {
                    let file = sample::with(&sample::file(), record, column, text);
                    Bad::of(file, record)
                }));
            }
        }
        all
    }

    /// The characters with which its column would not be named.
    fn could(&self) -> Vec<u8> {
        let named = |character: &u8| {
            let text = char::from(*character).to_string();
            let file = sample::with(&self.file, self.record, self.column, &text);
            Bad::of(file, self.record).is_some_and(|bad| bad.column == self.column)
        };
        (b' '..=b'~')
            .filter(|character| !named(character))
            .collect()
    }

    fn is_silent(&self) -> bool {
        SILENT
            .iter()
            .any(|(record, columns)| *record == self.record && columns.contains(&self.column))
    }
}

/// The characters that words name.
fn characters(words: &str) -> Vec<u8> {
    let words = words.replace(", ", " or ");
    let parts = words.split(" or ").map(|part| match part {
        "a blank" => b' '..=b' ',
        "a minus" => b'-'..=b'-',
        "a digit" => b'0'..=b'9',
        _ => {
            let ends = part.trim_start_matches("a digit ");
            let ends = ends.trim_start_matches("a letter ").as_bytes();
            ends[0]..=ends[ends.len() - 1]
        }
    });
    parts.flatten().collect()
}

#[test]
fn what_is_said_is_what_could_have_stood() {
    let desk = Desk::new("pointing-all");
    let all = Bad::all();
    for (number, bad) in all.iter().enumerate() {
        desk.put(format!("all/{number:04}.b"), &bad.file);
    }
    let ran = desk.run(&["check", "all"]).ended(1);
    let lines: Vec<&str> = ran.out.lines().collect();
    assert_eq!(lines.len(), 4 * all.len());
    for (number, (bad, lines)) in all.iter().zip(lines.chunks(4)).enumerate() {
        let Bad { record, column, .. } = bad;
        let head = format!("all/{number:04}.b: refused, fault 9, record {record}, column {column}");
        let caret = format!("    {:>column$}", '^');
        assert_eq!([lines[0], lines[3]], [&head[..], &caret]);
        let said = lines[1].split_once(&format!("; column {column} could have held "));
        let could = said.map(|(_, words)| characters(words));
        let expected = (!bad.is_silent()).then(|| bad.could());
        assert_eq!(could, expected, "{head}: {}", lines[1]);
    }
}
