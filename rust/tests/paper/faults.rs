//! Each fault number with its exact record and column.

use crate::sample::*;
use shelf::generate;
use shelf::plain::{form, references, rewrite, Checked, Fault};

#[test]
fn the_sample_is_accepted_with_its_counts_and_table() {
    let accepted = Fault {
        number: 0,
        record: 0,
        column: 0,
    };
    let formed = Checked {
        fault: accepted,
        counts: COUNTS,
    };
    assert_eq!(form(&file()), formed);
    let mut table = vec![9; 12_001];
    assert_eq!(references(&file(), &mut table), accepted);
    let mut expected = vec![0; 12_001];
    expected[12] = 19;
    expected[345] = 17;
    expected[10_007] = 13;
    expected[10_008] = 14;
    expected[11_003] = 15;
    expected[11_444] = 16;
    expected[12_000] = 9;
    assert_eq!(table, expected);
    assert_eq!(verdict(&file()), ACCEPTED);
}

#[test]
fn fault_1_goes_by_lengths_and_touches_nothing() {
    let refused = Checked {
        fault: Fault {
            number: 1,
            record: 0,
            column: 0,
        },
        counts: [0; 14],
    };
    let file = file();
    for bytes in [&file[..], b"", b"\xff"] {
        let mut short = vec![5; 11_999];
        assert_eq!(references(bytes, &mut short), refused.fault);
        let mut out = vec![6; bytes.len()];
        assert_eq!(rewrite(bytes, &mut short, &mut out), refused);
        assert!(short.iter().all(|&word| word == 5));
        assert!(out.iter().all(|&byte| byte == 6));
    }
    let mut table = vec![5; 12_000];
    let mut out = vec![6; file.len() - 1];
    assert_eq!(rewrite(&file, &mut table, &mut out), refused);
    assert!(table.iter().all(|&word| word == 5));
    assert!(out.iter().all(|&byte| byte == 6));
    // An empty output is long enough for an empty file.
    let checked = rewrite(b"", &mut table, &mut []);
    assert_eq!(checked.fault.number, 8);
    assert!(table.iter().all(|&word| word == 0));
}

#[test]
fn fault_2_when_record_100_000_has_begun() {
    let full = generate::accepted(2, 99_999);
    assert_eq!(full.len(), 81 * 99_999);
    assert_eq!(verdict(&full), ACCEPTED);
    // Before 4, 3 and 7 of that record.
    assert_eq!(verdict(&[&full[..], b"\xff"].concat()), (2, 100_000, 1));
    assert_eq!(verdict(&[full.clone(), job()].concat()), (2, 100_000, 1));
    // But after a fault of an earlier record, the last included.
    let mut earlier = [&full[..], b"x"].concat();
    earlier[81 * 99_999 - 1] = b'x';
    assert_eq!(verdict(&earlier), (5, 99_999, 81));
    // 99,999 records after which one must follow.
    let longer = generate::accepted(3, 100_000);
    assert_eq!(verdict(&longer), (2, 100_000, 1));
    assert_eq!(verdict(&longer[..81 * 99_999]), (8, 100_000, 1));
}

#[test]
fn fault_3_when_the_last_line_is_short() {
    let file = file();
    for whole in [0, 1, 13, 23] {
        for bytes in [1, 6, 40, 79, 80] {
            let cut = &file[..81 * whole + bytes];
            assert_eq!(verdict(cut), (3, whole as u64 + 1, bytes as u64 + 1));
        }
    }
    // A short line after the last job code is no other.
    assert_eq!(verdict(&[&file[..], b"\x20"].concat()), (3, 25, 2));
}

#[test]
fn fault_4_for_a_byte_that_is_not_printable() {
    for byte in [0x00, 0x09, 0x0a, 0x0d, 0x1f, 0x7f, 0x80, 0xc3, 0xff] {
        for column in [1, 7, 11, 80] {
            for record in [1, 6, 24] {
                let mut bad = file();
                bad[81 * (record - 1) + column - 1] = byte;
                assert_eq!(verdict(&bad), (4, record as u64, column as u64));
            }
        }
    }
    // The ends of the printable bytes are good in a comment.
    for byte in [0x20, 0x7e] {
        let mut good = file();
        good[81 * 5 + 79] = byte;
        assert_eq!(verdict(&good), ACCEPTED);
    }
    // In a short line it is the lower column.
    assert_eq!(verdict(&[&file()[..81], b"000020\t"].concat()), (4, 2, 7));
    // Two in a line: the first.
    let mut two = file();
    two[81 * 3 + 50] = 0;
    two[81 * 3 + 49] = 0;
    assert_eq!(verdict(&two), (4, 4, 50));
}

#[test]
fn fault_5_when_column_81_is_no_line_feed() {
    for byte in [b'\r', b' ', b'x', 0x00, 0xff] {
        let mut bad = file();
        bad[81 * 4 - 1] = byte;
        assert_eq!(verdict(&bad), (5, 4, 81));
    }
    // CR LF throughout shows in the first record.
    let text = String::from_utf8(file()).unwrap();
    assert_eq!(verdict(text.replace('\n', "\r\n").as_bytes()), (5, 1, 81));
    // Column 80 goes first.
    let mut both = file();
    both[81 * 4 - 1] = b'\r';
    both[81 * 4 - 2] = b'\t';
    assert_eq!(verdict(&both), (4, 4, 80));
}

#[test]
fn fault_6_for_an_unknown_code() {
    let unknown = [
        "*13*", "*71*", "*28*", "*00*", "*81*", "*90*", "*94*", "*1A*", "*a1*", "*Aa*", "*A *",
        "* A*", "*A-*", "*  *", "A1* ", " *A1", "*10 ", " 10*", "    ", "****", "*1**",
    ];
    for code in unknown {
        for record in [1, 2, 13, 24] {
            let bad = with(&file(), record, 7, code);
            assert_eq!(verdict(&bad), (6, record as u64, 7), "{code}");
        }
    }
    // Also after the end, where no code may come.
    let after = [file(), line(&[(7, "*13*")])].concat();
    assert_eq!(verdict(&after), (6, 25, 7));
}

#[test]
fn faults_6_and_7_go_before_a_bad_sequence_number() {
    let unknown = with(&with(&file(), 2, 1, "00000x"), 2, 7, "*13*");
    assert_eq!(verdict(&unknown), (6, 2, 7));
    let misplaced = with(&with(&file(), 2, 1, "00000x"), 2, 7, "*12*");
    assert_eq!(verdict(&misplaced), (7, 2, 7));
    let after = [file(), line(&[(1, "00000x"), (7, "*A1*")])].concat();
    assert_eq!(verdict(&after), (7, 25, 7));
}

#[test]
fn fault_8_for_an_empty_file() {
    assert_eq!(verdict(b""), (8, 1, 1));
}

#[test]
fn fault_9_for_a_bad_sequence_number() {
    for (bad, column) in [
        ("000000", 6),
        ("     0", 6),
        ("1     ", 2),
        ("  1 23", 4),
        ("-00001", 1),
        ("+00001", 1),
        ("0001.0", 5),
        ("00000A", 6),
    ] {
        for record in 1..=24 {
            let file = with(&file(), record, 1, bad);
            assert_eq!(verdict(&file), (9, record as u64, column), "{bad}");
        }
    }
    for good in ["      ", "000001", "     1", " 00012", "999999"] {
        assert_eq!(verdict(&with(&file(), 7, 1, good)), ACCEPTED, "{good}");
    }
}

/// Record, first column replaced, text, column of the fault.
const BAD_FIELDS: [(usize, usize, &str, u64); 109] = [
    // *10* and *11*
    (2, 80, "a", 80),
    (2, 11, "_", 11),
    (2, 40, "\"", 40),
    (3, 11, ";", 11),
    (3, 80, "~", 80),
    // *12*
    (4, 11, "      ", 11),
    (4, 11, "201900", 16),
    (4, 11, "201913", 16),
    (4, 11, "000001", 14),
    (4, 11, " 20191", 11),
    (4, 11, "2019 1", 15),
    (4, 11, "2019-1", 15),
    (4, 17, "      ", 17),
    (4, 17, "202013", 22),
    (4, 17, "202000", 22),
    (4, 17, "20200 ", 22),
    (4, 23, "1", 23),
    (4, 25, "a", 25),
    (4, 26, "\\", 26),
    (4, 43, "a", 43),
    (4, 46, ".", 46),
    (4, 47, "\\", 47),
    (4, 64, "_", 64),
    (4, 65, ".", 65),
    (4, 75, "0", 75),
    (4, 76, " ", 76),
    (4, 76, "5", 76),
    (4, 77, " ", 77),
    (4, 78, "1", 78),
    (4, 79, "X", 79),
    (4, 80, "X", 80),
    // *25*
    (5, 11, "    ", 14),
    (5, 11, "1 2 ", 12),
    (5, 11, "12  ", 13),
    (5, 11, "  -1", 13),
    (5, 15, " ", 15),
    (5, 15, "1", 15),
    (5, 15, "t", 15),
    (5, 16, "000", 18),
    (5, 16, "367", 18),
    (5, 16, " 12", 16),
    (5, 16, "12 ", 18),
    (5, 19, " ", 19),
    (5, 19, "A", 19),
    (5, 20, " ", 20),
    (5, 20, "a", 20),
    (5, 25, "1", 25),
    (5, 27, "b", 27),
    (5, 28, "   ", 30),
    (5, 28, "000", 30),
    (5, 28, "7  ", 29),
    (5, 31, "0", 31),
    (5, 32, "0", 32),
    (5, 33, "  0", 35),
    (5, 33, "   ", 35),
    (5, 36, ".", 36),
    (5, 80, ".", 80),
    // *27*
    (7, 11, "0000", 14),
    (7, 15, "      ", 20),
    (7, 15, "19110 ", 20),
    (7, 15, "-91105", 15),
    (7, 21, "    ", 24),
    (7, 21, "09:0", 23),
    (7, 25, "1", 25),
    (7, 55, "-", 55),
    (7, 56, "     ", 60),
    (7, 56, "1.543", 57),
    (7, 56, "    -", 60),
    (7, 56, "1 543", 57),
    (7, 61, "0", 61),
    (7, 80, "0", 80),
    // *70*
    (13, 11, "   ", 13),
    (13, 11, "000", 13),
    (13, 14, "   ", 16),
    (13, 14, "000", 16),
    (13, 14, "A45", 14),
    (13, 17, "x", 17),
    (13, 22, "x", 22),
    (13, 41, "x", 41),
    (13, 62, "x", 62),
    // *72*
    (15, 11, "00A", 13),
    (15, 14, "1", 14),
    (15, 16, "1", 16),
    (15, 33, " ", 33),
    (15, 36, "5", 36),
    (15, 37, "x", 37),
    (15, 44, "x", 44),
    (15, 65, "x", 65),
    (15, 80, "x", 80),
    // *80*
    (17, 11, "000 ", 14),
    (17, 45, " 8531512345", 45),
    (17, 45, "38601512345", 47),
    (17, 45, "38536012345", 49),
    (17, 45, "3853151234.", 55),
    (17, 56, "E", 56),
    (17, 56, " ", 56),
    (17, 57, " 77020100000", 57),
    (17, 57, "077600100000", 60),
    (17, 57, "077026000000", 62),
    (17, 57, "181000000000", 59),
    (17, 69, "N", 69),
    (17, 70, "x", 70),
    (17, 76, "x", 76),
    (17, 77, " ", 77),
    (17, 78, "i", 78),
    (17, 79, "x", 79),
    // *86*, its station and blanks
    (18, 11, "   x", 14),
    (18, 16, "x", 16),
    (18, 24, "a", 24),
];

/// The rest of *86*.
const BAD_HEIGHT_FIELDS: [(usize, usize, &str, u64); 24] = [
    (18, 17, "12.3450", 19),
    (18, 24, "5", 24),
    (18, 25, "1 ", 26),
    (18, 25, " 1", 26),
    (18, 25, "A1", 25),
    (18, 27, "X", 27),
    (18, 27, "y", 27),
    (18, 28, "8 ", 29),
    (18, 28, " 8", 29),
    (18, 28, "8a", 29),
    (18, 36, "0- 1250", 37),
    (18, 36, "0-33250", 37),
    (18, 43, "-", 43),
    (18, 43, "b", 43),
    (18, 44, "x", 44),
    (18, 45, "x", 45),
    (18, 46, "  1234 ", 52),
    (18, 53, "6", 53),
    (18, 54, "x", 54),
    (18, 55, "x", 55),
    (18, 56, "6", 56),
    (18, 56, "a", 56),
    // Malformed goes before disagreeing: these heights are missing.
    (20, 24, "a", 24),
    (20, 53, "6", 53),
];

#[test]
fn fault_9_for_a_bad_field() {
    for (record, first, text, column) in BAD_FIELDS.into_iter().chain(BAD_HEIGHT_FIELDS) {
        let bad = with(&file(), record, first, text);
        assert_eq!(
            verdict(&bad),
            (9, record as u64, column),
            "record {record} column {first} {text:?}"
        );
    }
}

/// What is good although it may not look so.
const GOOD_FIELDS: [(usize, usize, &str); 30] = [
    (2, 11, "\\"),
    (4, 11, "000101"),
    (4, 11, "202002"),
    (4, 17, "999912"),
    (4, 23, "   "),
    (4, 26, "                  "),
    (5, 15, "A0010Z    "),
    (5, 15, "Z36600~~~~"),
    (5, 25, "   "),
    (6, 11, "~"),
    (7, 15, "     0"),
    (7, 15, "999999"),
    (7, 21, "9999"),
    (7, 21, "   0"),
    (7, 56, "-9999"),
    (7, 56, "99999"),
    (7, 56, "   -0"),
    (13, 14, "  1"),
    (13, 23, "                  "),
    // Instrument 7 again, in each dress.
    (14, 11, "007"),
    (14, 11, " 07"),
    (14, 11, "  7"),
    (15, 17, "                "),
    (17, 15, "                              "),
    (17, 45, "00595959999"),
    (18, 25, "  "),
    (18, 28, "  "),
    (18, 28, "Z9"),
    (18, 43, "Q"),
    (18, 56, " "),
];

#[test]
fn good_fields_are_taken() {
    for (record, first, text) in GOOD_FIELDS {
        let good = with(&file(), record, first, text);
        assert_eq!(
            verdict(&good),
            ACCEPTED,
            "record {record} column {first} {text:?}"
        );
    }
}

/// Record, first column replaced, text, column of the fault.
const DISAGREEING: [(usize, usize, &str, u64); 21] = [
    // The end before the beginning.
    (4, 17, "201910", 17),
    (4, 17, "000112", 17),
    // A *27* of another station, though that station is defined.
    (7, 11, "0345", 11),
    (9, 11, "0013", 11),
    (11, 11, "0012", 11),
    // Instrument 7, then one below it.
    (14, 11, "001", 11),
    (14, 11, "  6", 11),
    // Antenna 3, then 3 again, and one below it.
    (16, 11, "  3", 11),
    (16, 11, "002", 11),
    // An *86* of another station.
    (18, 11, "0012", 11),
    (20, 11, " 345", 11),
    // Heights with no code.
    (18, 24, " ", 24),
    (18, 27, " ", 27),
    (18, 43, " ", 43),
    (18, 53, " ", 53),
    // Codes with no height.
    (20, 27, "N", 27),
    (20, 43, "6", 43),
    (20, 53, "B", 53),
    // A *92* of one station: 12 and 12, 345 and 345.
    (22, 17, "0012", 17),
    (22, 17, "  12", 17),
    (22, 11, "0345", 17),
];

#[test]
fn fault_10_for_a_field_that_disagrees() {
    for (record, first, text, column) in DISAGREEING {
        let bad = with(&file(), record, first, text);
        assert_eq!(
            verdict(&bad),
            (10, record as u64, column),
            "record {record} column {first} {text:?}"
        );
    }
    // A height taken away leaves its first code behind.
    let file = file();
    assert_eq!(verdict(&with(&file, 18, 17, "       ")), (10, 18, 24));
    assert_eq!(verdict(&with(&file, 18, 36, "       ")), (10, 18, 43));
    assert_eq!(verdict(&with(&file, 18, 46, "       ")), (10, 18, 53));
}

#[test]
fn fields_are_judged_from_the_left() {
    let file = file();
    // A foreign station (10 at 11) goes before a bad date (9 at 20).
    let both = with(&with(&file, 7, 11, "0345"), 7, 15, "19110x");
    assert_eq!(verdict(&both), (10, 7, 11));
    // The sequence number goes before the station.
    assert_eq!(verdict(&with(&both, 7, 1, "000000")), (9, 7, 6));
    // A falling instrument goes before its equipment code, and one that
    // repeats leaves it to be judged.
    let both = with(&with(&file, 14, 11, "006"), 14, 14, "xxx");
    assert_eq!(verdict(&both), (10, 14, 11));
    let equal = with(&both, 14, 11, "007");
    assert_eq!(verdict(&equal), (9, 14, 14));
    // A code without height goes before a malformed pair, and after a
    // malformed height.
    let both = with(&with(&file, 20, 24, "A"), 20, 25, "1 ");
    assert_eq!(verdict(&both), (10, 20, 24));
    assert_eq!(verdict(&with(&both, 20, 17, "      -")), (9, 20, 23));
    // The end before the beginning goes before bad initials.
    let both = with(&with(&file, 4, 17, "201910"), 4, 23, "1");
    assert_eq!(verdict(&both), (10, 4, 17));
    // The earlier record goes first whatever the fault.
    let two = with(&with(&file, 20, 11, "000x"), 18, 80, "\t");
    assert_eq!(verdict(&two), (4, 18, 80));
    let two = with(&with(&file, 7, 11, "000x"), 18, 80, "\t");
    assert_eq!(verdict(&two), (9, 7, 14));
}

#[test]
fn fault_11_when_a_station_is_defined_again() {
    let mut lines = lines();
    lines.insert(20, point(" 345"));
    lines.insert(21, no_heights("0345"));
    assert_eq!(verdict(&lines.concat()), (11, 21, 11));
    // The first repeated one, not the first defined.
    lines.insert(20, point("0012"));
    lines.insert(21, no_heights("0012"));
    assert_eq!(verdict(&lines.concat()), (11, 21, 11));
    // Any earlier-numbered fault later in the file goes first.
    let last = lines.len();
    let mut bad = lines.concat();
    bad[81 * last - 1] = b' ';
    assert_eq!(verdict(&bad), (5, last as u64, 81));
}

#[test]
fn fault_12_when_a_25_names_what_is_undefined() {
    let file = file();
    assert_eq!(verdict(&with(&file, 5, 28, "009")), (12, 5, 28));
    assert_eq!(verdict(&with(&file, 5, 33, "  9")), (12, 5, 33));
    let both = with(&with(&file, 5, 28, "009"), 5, 33, "  9");
    assert_eq!(verdict(&both), (12, 5, 28));
    let two = with(&with(&file, 10, 28, "009"), 5, 33, "  9");
    assert_eq!(verdict(&two), (12, 5, 33));
    let undefined = undefined_station();
    assert_eq!(verdict(&undefined), (12, 10, 11));
    let three = with(&with(&undefined, 10, 28, "009"), 10, 33, "  9");
    assert_eq!(verdict(&three), (12, 10, 11));
    // An instrument's number does not define an antenna, nor a station.
    assert_eq!(verdict(&with(&file, 5, 33, "  7")), (12, 5, 33));
    assert_eq!(verdict(&with(&file, 5, 28, "345")), (12, 5, 28));
}

#[test]
fn fault_12_goes_before_11_by_its_record() {
    let repeated = repeated_station();
    assert_eq!(verdict(&with(&repeated, 10, 33, "005")), (12, 10, 33));
    // A station defined twice is defined for its *25*.
    assert_eq!(verdict(&repeated), (11, 21, 11));
}
