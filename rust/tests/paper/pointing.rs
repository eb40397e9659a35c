//! Fault 9 of what is read names the first column at which no acceptable
//! field begins with the characters up to there: sentence by sentence, of the
//! plain implementation and of the library.

use crate::sample::*;
use shelf::calls::{
    Calls, FORM_WORDS, KIND_WORD, READ_WORDS, REFERENCES_WORDS, REWRITE_WORDS, WRITE_WORDS,
};
use shelf::library::Library;
use shelf::plain::layout::long_texts;
use shelf::plain::{sheet, Plain, MISSING};

pub const SIDES: [(&str, &dyn Calls); 2] = [("plain", &Plain), ("library", &Library)];

/// A record of the sample with the first and last column of a field.
pub type Place = (usize, usize, usize);

/// Numbers from 1: stations, instruments, antennas, the equipment code.
const NUMBERS: [Place; 12] = [
    (5, 11, 14),
    (5, 28, 30),
    (5, 33, 35),
    (7, 11, 14),
    (13, 11, 13),
    (13, 14, 16),
    (15, 11, 13),
    (17, 11, 14),
    (18, 11, 14),
    (21, 11, 14),
    (22, 11, 14),
    (22, 17, 20),
];
/// Numbers from 0: date and time.
const NUMBERS_FROM_0: [Place; 2] = [(7, 15, 20), (7, 21, 24)];
/// Numbers of fewer digits than columns: they have tests of their own, with
/// the other figures of accuracies.
pub const DEVIATIONS: [Place; 6] = [
    (21, 21, 30),
    (21, 31, 40),
    (21, 51, 60),
    (22, 23, 32),
    (22, 33, 42),
    (22, 53, 62),
];
pub const CORRELATIONS: [Place; 2] = [(21, 41, 50), (22, 43, 52)];
pub const FACTORS: [Place; 2] = [(23, 11, 18), (23, 19, 26)];
const ANTENNA_HEIGHT: Place = (7, 56, 60);
/// These may be missing.
const HEIGHTS: [Place; 3] = [(18, 17, 23), (18, 36, 42), (18, 46, 52)];
const MONTHS: [Place; 2] = [(4, 11, 16), (4, 17, 22)];
const MEDIA: Place = (5, 15, 24);
const LATITUDE: Place = (17, 45, 55);
const LONGITUDE: Place = (17, 57, 68);
/// Two digits or two blanks, and two letters or digits or two blanks.
const PAIRS: [Place; 2] = [(18, 25, 26), (18, 28, 29)];
/// Each column by its set, with what is good in it; a code beside a height
/// may be blank.
const BY_SETS: [(&str, &[Place]); 12] = [
    (LETTERS, &[(4, 77, 78), (15, 33, 36), (17, 77, 78)]),
    (
        LETTERS_OR_SPACE,
        &[
            (4, 23, 25),
            (4, 44, 46),
            (5, 25, 27),
            (18, 24, 24),
            (18, 53, 53),
            (18, 56, 56),
        ],
    ),
    (LETTERS_DIGITS_OR_SPACE, &[(18, 43, 43)]),
    (TITLE, &[(2, 11, 80), (3, 11, 80)]),
    (NAME, &[(4, 26, 43), (4, 47, 64)]),
    (
        " ",
        &[
            (4, 65, 75),
            (4, 79, 80),
            (5, 31, 32),
            (5, 36, 80),
            (7, 25, 55),
            (7, 61, 80),
            (13, 17, 22),
            (13, 41, 62),
            (15, 14, 16),
            (15, 37, 44),
            (15, 65, 80),
            (17, 70, 76),
            (17, 79, 80),
            (18, 15, 16),
            (18, 44, 45),
            (18, 54, 55),
            (21, 15, 20),
            (21, 61, 64),
            (22, 15, 16),
            (22, 21, 22),
            (22, 63, 66),
        ],
    ),
    ("4", &[(4, 76, 76)]),
    ("NS", &[(17, 56, 56)]),
    ("EW", &[(17, 69, 69)]),
    ("YN ", &[(18, 27, 27)]),
    ("YN", &[(21, 65, 65), (22, 67, 67)]),
    (
        PRINTABLE,
        &[
            (1, 11, 80),
            (6, 11, 80),
            (13, 23, 40),
            (13, 63, 70),
            (13, 71, 80),
            (15, 17, 32),
            (15, 45, 64),
            (17, 15, 44),
            (18, 30, 35),
            (18, 57, 80),
            (21, 66, 80),
            (22, 68, 80),
            (23, 27, 80),
        ],
    ),
];

const LETTERS: &str = "ABCDEFGHIJKLMNOPQRSTUVWXYZ";
const LETTERS_OR_SPACE: &str = "ABCDEFGHIJKLMNOPQRSTUVWXYZ ";
const LETTERS_DIGITS_OR_SPACE: &str = "ABCDEFGHIJKLMNOPQRSTUVWXYZ0123456789 ";
const TITLE: &str = "ABCDEFGHIJKLMNOPQRSTUVWXYZ0123456789*,'=)(-.+\\/ ";
const NAME: &str = "ABCDEFGHIJKLMNOPQRSTUVWXYZ0123456789*,'=)(-.+/ ";
const PRINTABLE: &str = " !\"#$%&'()*+,-./0123456789:;<=>?@ABCDEFGHIJKLMNOPQRSTUVWXYZ[\\]^_`\
                         abcdefghijklmnopqrstuvwxyz{|}~";

/// Number, record and column of read, which both sides give.
pub fn read_says(file: &[u8], record: u32) -> [u32; 3] {
    let [plain, library] = SIDES.map(|(_, side)| {
        let mut answer = [99; READ_WORDS];
        side.read(file, record, &mut answer);
        [answer[0] as u32, answer[1] as u32, answer[2] as u32]
    });
    assert_eq!(plain, library, "{}", file.escape_ascii());
    plain
}

/// Number, record and column of a file's first fault, of which both sides say
/// their parts.
pub fn judged(file: &[u8]) -> [u32; 3] {
    let first = verdict(file);
    let words = |(number, record, column): Found| [number, record as u32, column as u32];
    let [form, references] = parts(first).map(words);
    let mut table = [0; 12_000];
    for (name, side) in SIDES {
        let mut answer = [99; FORM_WORDS];
        side.form(file, &mut answer);
        assert_eq!(answer[..3], form, "form of {name}");
        let mut answer = [99; REFERENCES_WORDS];
        side.references(file, &mut table, &mut answer);
        assert_eq!(answer, references, "references of {name}");
        let mut answer = [99; REWRITE_WORDS];
        let mut out = vec![0; file.len()];
        side.rewrite(file, &mut table, &mut out, &mut answer);
        assert_eq!(answer[..3], words(first), "rewrite of {name}");
    }
    words(first)
}

/// What form, references, rewrite, read and the sheet say of the sample with
/// some columns of a record replaced.
pub fn refused(record: usize, first: usize, text: &str) -> [u32; 3] {
    let file = with(&file(), record, first, text);
    let fault = judged(&file);
    let about = format!("record {record} column {first} {text:?}");
    assert_eq!(read_says(&file, record as u32), fault, "{about}");
    let [number, at, column] = fault;
    let line = format!("FILE\t24\t{number}\t{at}\t{column}\n");
    assert_eq!(sheet(&file), line.as_bytes(), "{about}");
    fault
}

/// Each of these texts at the start of a field is fault 9 at this column.
pub fn named((record, first, _): Place, texts: &[(&str, usize)]) {
    for (text, column) in texts {
        assert_eq!(
            refused(record, first, text),
            [9, record as u32, *column as u32],
            "record {record} column {first} {text:?}"
        );
    }
}

#[test]
fn degrees_91_in_a_latitude_is_column_46_and_station_0000_is_column_14() {
    named(LATITUDE, &[("91000000000", 46)]);
    for record in [5, 7, 17, 18, 21, 22] {
        named((record, 11, 14), &[("0000", 14)]);
    }
}

/// Every column from 11 on of each of the fourteen kinds is in one of the
/// places above, and in one only.
#[test]
fn every_field_of_every_kind_is_held() {
    assert!(PRINTABLE.bytes().eq(b' '..=b'~'));
    let sets = BY_SETS
        .iter()
        .flat_map(|(_, places)| places.iter().copied());
    let others = [ANTENNA_HEIGHT, MEDIA, LATITUDE, LONGITUDE];
    let places: Vec<Place> = sets
        .chain(NUMBERS)
        .chain(NUMBERS_FROM_0)
        .chain(DEVIATIONS)
        .chain(CORRELATIONS)
        .chain(FACTORS)
        .chain(HEIGHTS)
        .chain(MONTHS)
        .chain(PAIRS)
        .chain(others)
        .collect();
    for record in [1, 2, 3, 4, 5, 6, 7, 13, 15, 17, 18, 21, 22, 23] {
        let mut columns: Vec<usize> = places
            .iter()
            .filter(|place| place.0 == record)
            .flat_map(|&(_, first, last)| first..=last)
            .collect();
        columns.sort_unstable();
        assert!(columns.into_iter().eq(11..=80), "record {record}");
    }
}

#[test]
fn a_number_that_is_blank_or_0_is_named_at_its_last_column() {
    for (record, first, last) in NUMBERS {
        let width = last - first + 1;
        let zero = format!("{:>width$}", 0);
        let place = (record, first, last);
        named(place, &[(&" ".repeat(width), last)]);
        named(place, &[(&"0".repeat(width), last), (&zero, last)]);
    }
    for (record, first, last) in NUMBERS_FROM_0 {
        let blanks = " ".repeat(last - first + 1);
        named((record, first, last), &[(&blanks, last)]);
    }
}

#[test]
fn a_number_is_named_where_it_stops_being_one() {
    for (record, first, last) in NUMBERS.into_iter().chain(NUMBERS_FROM_0) {
        let width = last - first + 1;
        for at in 0..width {
            for bad in ["-", "+", ".", "/", ":", "A", "a", "~"] {
                // Behind digits, behind blanks, and with more of both behind.
                for (before, behind) in [("1", "1"), (" ", "1"), (" ", " "), ("0", " ")] {
                    let text = before.repeat(at) + bad + &behind.repeat(width - at - 1);
                    named((record, first, last), &[(&text, first + at)]);
                }
            }
            if at > 0 {
                let text = "7".repeat(at) + &" ".repeat(width - at);
                named((record, first, last), &[(&text, first + at)]);
            }
        }
    }
}

#[test]
fn a_sequence_number_is_read_too() {
    for record in 1..=24 {
        let texts = [
            ("000000", 6),
            ("     0", 6),
            ("10    ", 3),
            ("1     ", 2),
            ("12345 ", 6),
            ("  1 23", 4),
            ("-00001", 1),
            ("     -", 6),
            ("00 001", 3),
            ("99999x", 6),
        ];
        named((record, 1, 6), &texts);
    }
    // Blank it is missing, which it may be.
    assert_eq!(judged(&with(&file(), 9, 1, "      ")), [0, 0, 0]);
}

#[test]
fn a_height_is_named_where_it_stops_being_one() {
    for place in HEIGHTS {
        let first = place.1;
        let texts = [
            ("12 3456", first + 2),
            ("12.3456", first + 2),
            ("      -", first + 6),
            ("- 12345", first + 1),
            ("--12345", first + 1),
            ("  - 123", first + 3),
            ("  --123", first + 3),
            ("0-33250", first + 1),
            ("+012345", first),
            ("12345  ", first + 5),
            ("123456 ", first + 6),
            ("-      ", first + 1),
            ("     - ", first + 6),
            ("      A", first + 6),
        ];
        named(place, &texts);
    }
    // Blank it is missing, and its code is at fault.
    assert_eq!(refused(18, 17, "       "), [10, 18, 24]);
}

#[test]
fn an_antenna_height_that_is_blank_is_named_at_its_last_column() {
    let texts = [
        ("     ", 60),
        ("    -", 60),
        ("1.543", 57),
        ("1 543", 57),
        (" -  1", 58),
        ("-1-11", 58),
        ("1234 ", 60),
        ("+1234", 56),
    ];
    named(ANTENNA_HEIGHT, &texts);
}

#[test]
fn a_month_is_named_by_its_year_and_its_two_digits() {
    for place in MONTHS {
        let first = place.1;
        let texts = [
            ("      ", first),
            (" 20191", first),
            ("2 1911", first + 1),
            ("20X911", first + 2),
            ("201.11", first + 3),
            // There is no year 0000, and 0001 begins like it.
            ("000001", first + 3),
            ("0000  ", first + 3),
            // No month begins with 2 to 9.
            ("201920", first + 4),
            ("201951", first + 4),
            ("201991", first + 4),
            ("2019 1", first + 4),
            ("2019-1", first + 4),
            ("2019  ", first + 4),
            ("201900", first + 5),
            ("201913", first + 5),
            ("201919", first + 5),
            ("20191 ", first + 5),
            ("20190A", first + 5),
        ];
        named(place, &texts);
    }
}

/// Whether an end is acceptable is told by itself, not by the beginning.
#[test]
fn an_end_is_named_by_its_own_kind_and_range() {
    named((4, 11, 22), &[("2024012023X1", 21)]);
    named((4, 11, 22), &[("202401202313", 22)]);
    named((4, 11, 22), &[("2024010000 1", 20)]);
    // Well formed it disagrees, at its first column.
    assert_eq!(refused(4, 11, "202401202312"), [10, 4, 17]);
}

#[test]
fn a_latitude_is_named_where_it_leaves_its_range() {
    let texts = [
        ("           ", 45),
        (" 8531512345", 45),
        ("3 531512345", 46),
        ("91000000000", 46),
        ("99595999999", 46),
        ("9X000000000", 46),
        ("90600000000", 47),
        ("90100000000", 47),
        ("90010000000", 48),
        ("90001000000", 49),
        ("90000100000", 50),
        ("90000010000", 51),
        ("90000001000", 52),
        ("90000000100", 53),
        ("90000000010", 54),
        ("90000000001", 55),
        ("9000000000 ", 55),
        // Sixty minutes, sixty seconds, and what else begins like them.
        ("38601512345", 47),
        ("38991512345", 47),
        ("38536012345", 49),
        ("38539912345", 49),
        ("38 31512345", 47),
        ("385 1512345", 48),
        ("3853151.345", 52),
        ("3853151234.", 55),
    ];
    named(LATITUDE, &texts);
}

#[test]
fn a_longitude_is_named_where_it_leaves_its_range() {
    let texts = [
        ("            ", 57),
        (" 77020100000", 57),
        ("200000000000", 57),
        ("999999999999", 57),
        ("190000000000", 58),
        ("1X0000000000", 58),
        ("181000000000", 59),
        ("189595999999", 59),
        ("180600000000", 60),
        ("180100000000", 60),
        ("180010000000", 61),
        ("180001000000", 62),
        ("180000100000", 63),
        ("180000010000", 64),
        ("180000001000", 65),
        ("180000000100", 66),
        ("180000000010", 67),
        ("180000000001", 68),
        ("18000000000 ", 68),
        ("077600100000", 60),
        ("077026000000", 62),
        ("179609999999", 60),
        ("0770201000-0", 67),
    ];
    named(LONGITUDE, &texts);
}

#[test]
fn the_letter_of_an_angle_is_a_field_of_its_own() {
    named((17, 56, 56), &[("E", 56), (" ", 56), ("n", 56)]);
    named((17, 69, 69), &[("N", 69), (" ", 69), ("w", 69)]);
    // Bad digits go first, whatever their letter is.
    named(LATITUDE, &[("90000000001X", 55)]);
    named(LONGITUDE, &[("180000000001X", 68)]);
    // At the ends of the ranges the letter alone is bad.
    named(LATITUDE, &[("90000000000E", 56)]);
    named(LONGITUDE, &[("180000000000N", 69)]);
}

#[test]
fn a_media_identifier_is_named_by_its_parts() {
    let texts = [
        ("          ", 15),
        ("1", 15),
        ("t", 15),
        (" ", 15),
        ("T400", 16),
        ("T999", 16),
        ("T 12", 16),
        ("TA12", 16),
        ("T370", 17),
        ("T399", 17),
        ("T3 1", 17),
        ("T367", 18),
        ("T369", 18),
        ("T000", 18),
        ("T00 ", 18),
        ("T12 ", 18),
        ("T12A", 18),
        ("T366 ", 19),
        ("T366A", 19),
        ("T3669 ", 20),
        ("T3669a", 20),
        ("T3669-", 20),
    ];
    named(MEDIA, &texts);
    for good in ["T366", "T001", "A0990Z    ", "Z30000~~~~"] {
        assert_eq!(judged(&with(&file(), 5, 15, good)), [0, 0, 0]);
    }
}

#[test]
fn half_a_pair_is_named_at_its_second_column() {
    let [order, datum] = PAIRS;
    named(
        order,
        &[("1 ", 26), (" 1", 26), ("1A", 26), ("1:", 26), (" A", 26)],
    );
    named(order, &[("A1", 25), ("A ", 25), ("/0", 25), ("-1", 25)]);
    named(
        datum,
        &[("8 ", 29), (" 8", 29), ("A ", 29), (" Z", 29), ("8:", 29)],
    );
    named(
        datum,
        &[("8a", 29), ("a8", 28), ("aa", 28), ("a ", 28), ("@A", 28)],
    );
}

/// Of letters, texts and blanks the first column that is not of its set is
/// named, whatever stands behind it.
#[test]
fn a_column_that_is_not_of_its_set_is_named() {
    let lines = lines();
    for (good, places) in BY_SETS {
        for &(record, first, last) in places {
            for column in first..=last {
                each_of_a_column(&lines[record - 1], good, column, last);
            }
        }
    }
    named((2, 80, 80), &[("a", 80)]);
    named((15, 33, 36), &[("N0NE", 34), ("    ", 33), ("NON ", 36)]);
    named((17, 77, 78), &[("  ", 77), ("R1", 78)]);
    named((5, 36, 80), &[(".", 36)]);
    named((5, 80, 80), &[(".", 80)]);
}

/// Every character in one column of a good record.
fn each_of_a_column(record: &[u8], good: &str, column: usize, last: usize) {
    for character in PRINTABLE.bytes() {
        let mut line = record.to_vec();
        line[column - 1] = character;
        let fault = read_says(&line, 1);
        if good.as_bytes().contains(&character) {
            assert_ne!(fault[0], 9, "column {column}: {line:?}");
            continue;
        }
        assert_eq!(fault, [9, 1, column as u32], "{line:?}");
        // The same character up to the field's last column.
        line[column - 1..last].fill(character);
        assert_eq!(read_says(&line, 1), fault, "{line:?}");
    }
}

#[test]
fn fault_9_keeps_its_place_in_the_order() {
    let good = file();
    // From the left by field, not by the column that is named: a station bad
    // at its last column goes before an identifier bad at its first.
    let both = with(&with(&good, 5, 11, "0000"), 5, 15, " ");
    assert_eq!(judged(&both), [9, 5, 14]);
    assert_eq!(judged(&with(&both, 5, 1, "000000")), [9, 5, 6]);
    // After 6 and 7, which stay at column 7.
    let sequence = with(&good, 5, 1, "     x");
    assert_eq!(judged(&with(&sequence, 5, 7, "*13*")), [6, 5, 7]);
    assert_eq!(judged(&with(&sequence, 5, 7, "*86*")), [7, 5, 7]);
    assert_eq!(read_says(&with(&sequence, 5, 7, "*1**"), 5), [6, 5, 7]);
    // Before 10 in a field, after 10 in a field further left.
    assert_eq!(judged(&with(&good, 7, 11, "034x")), [9, 7, 14]);
    let both = with(&with(&good, 7, 11, "0345"), 7, 15, "19110x");
    assert_eq!(judged(&both), [10, 7, 11]);
    // Before 11, 12 and what is wrong with later records.
    let undefined = with(&good, 5, 28, "009");
    assert_eq!(judged(&with(&undefined, 20, 15, " x")), [9, 20, 16]);
    let later = with(&with(&good, 7, 15, "      "), 8, 80, "\t");
    assert_eq!(judged(&later), [9, 7, 20]);
}

#[test]
fn fault_10_keeps_its_fields_first_column() {
    let good = file();
    for (record, first, text) in [
        (4, 17, "201910"),
        (7, 11, "0013"),
        (14, 11, "006"),
        (16, 11, "  3"),
        (18, 11, "0012"),
        (22, 17, "  12"),
    ] {
        let file = with(&good, record, first, text);
        assert_eq!(judged(&file), [10, record as u32, first as u32]);
    }
    for (record, first, text) in [(18, 24, " "), (18, 27, " "), (20, 43, "6"), (20, 53, "B")] {
        assert_eq!(
            refused(record, first, text),
            [10, record as u32, first as u32]
        );
    }
}

/// Write names the field's first column of what read names further right.
#[test]
fn write_names_the_fields_first_column() {
    let character = i64::from;
    // Record, word among the values, value, the field's first column.
    for (record, word, value, first) in [
        (4, 0, 201_913, 11),
        (4, 1, 202_000, 17),
        (4, 4, character(b'a'), 23),
        (4, 9, character(b'1'), 77),
        (5, 0, 0, 11),
        (5, 2, 367, 15),
        (5, 4, character(b'a'), 15),
        (5, 11, character(b'b'), 25),
        (5, 12, 0, 28),
        (5, 13, 1_000, 33),
        (7, 1, 1_000_000, 15),
        (7, 3, MISSING, 56),
        (13, 1, 0, 14),
        (15, 2, character(b'0'), 33),
        (17, 1, 32_400_000_001, 45),
        (17, 2, 64_800_000_001, 57),
        (18, 1, 10_000_000, 17),
        (18, 4, character(b' '), 25),
        (18, 7, character(b'a'), 28),
        (18, 8, -1_000_000, 36),
        (21, 1, 1_000_000_000, 21),
        (21, 3, -99_999_991, 41),
        (21, 3, MISSING, 41),
        (21, 5, character(b' '), 65),
        (22, 1, 0, 17),
        (22, 4, 100_000_000, 43),
        (22, 5, -1, 53),
        (23, 0, 0, 11),
        (23, 1, 10_000, 19),
    ] {
        let (mut values, texts) = as_read(record);
        values[2 + word] = value;
        write_names(&values, &texts, first);
    }
    for record in 1..=24 {
        let (mut values, texts) = as_read(record);
        values[1] = 0;
        write_names(&values, &texts, 1);
    }
    for (record, text, first) in [(2, 0, 11), (3, 0, 11), (4, 0, 26), (4, 1, 47)] {
        let (values, mut texts) = as_read(record);
        *texts[text].last_mut().unwrap() = b'a';
        write_names(&values, &texts, first);
    }
}

/// The values and texts of a record of the sample, as write takes them.
fn as_read(record: usize) -> (Vec<i64>, [Vec<u8>; 3]) {
    let file = file();
    let mut answer = [0; READ_WORDS];
    Plain.read(&file, record as u32, &mut answer);
    let values = answer[KIND_WORD..].to_vec();
    let mut texts = [const { Vec::new() }; 3];
    let places = long_texts(values[0] as usize);
    for (text, (first, width)) in texts.iter_mut().zip(places) {
        *text = columns(&file, record, first, width).into_bytes();
    }
    (values, texts)
}

fn write_names(values: &[i64], texts: &[Vec<u8>; 3], first: u32) {
    for (name, side) in SIDES {
        let mut out = [b'#'; 81];
        let mut answer = [99; WRITE_WORDS];
        let [one, two, three] = texts;
        side.write(&mut out, values, [one, two, three], &mut answer);
        assert_eq!(answer, [9, 0, first], "{name}: {values:?}");
        assert_eq!(out, [b'#'; 81], "{name}");
    }
}
