//! Write: house style, and each refusal with its column.

use crate::sample::{line, ACCEPTED};
use shelf::plain::{write, MISSING};

const SEVENTY: &[u8] = b"                                                                      ";

/// A kind with good values and texts, and some of its columns.
type Case = (i64, &'static [i64], [&'static [u8]; 3], &'static [u64]);

/// The verdict, and the line written. A refusal must leave the output alone,
/// and a record must leave alone what is beyond it.
fn written(
    kind: i64,
    sequence: Option<i64>,
    values: &[i64],
    texts: [&[u8]; 3],
) -> ((u32, u64, u64), Vec<u8>) {
    let mut out = vec![b'#'; 83];
    let fault = write(&mut out, kind, sequence, values, texts);
    assert_eq!(out[81..], *b"##");
    if fault.number != 0 {
        assert!(out.iter().all(|&byte| byte == b'#'));
    }
    out.truncate(81);
    ((fault.number, fault.record, fault.column), out)
}

fn verdict(kind: i64, values: &[i64], texts: [&[u8]; 3]) -> (u32, u64, u64) {
    written(kind, None, values, texts).0
}

fn good(kind: i64, sequence: Option<i64>, values: &[i64], texts: [&[u8]; 3]) -> Vec<u8> {
    let (verdict, line) = written(kind, sequence, values, texts);
    assert_eq!(verdict, ACCEPTED);
    line
}

const fn c(byte: u8) -> i64 {
    byte as i64
}

const JOB: [i64; 2] = [c(b'A'), c(b'1')];
const PROJECT: [i64; 10] = [
    201_911,
    202_002,
    c(b'A'),
    c(b' '),
    c(b'C'),
    c(b' '),
    c(b' '),
    c(b' '),
    c(b'M'),
    c(b'I'),
];
const PROJECT_TEXTS: [&[u8]; 3] = [
    b"COOPER A          ",
    b"                  ",
    b"not looked at",
];
const OCCUPATION: [i64; 14] = [
    12,
    c(b'T'),
    5,
    0,
    c(b'A'),
    c(b'a'),
    c(b'b'),
    c(b'~'),
    c(b' '),
    c(b'J'),
    c(b' '),
    c(b'B'),
    7,
    3,
];
const MEASUREMENT: [i64; 4] = [12, 191_105, 930, -500];
const INSTRUMENT: [i64; 2] = [7, 45];
const INSTRUMENT_TEXTS: [&[u8]; 3] = [b"Maker & Sons      ", b"Model 3 ", b"sn-00012  "];
const ANTENNA: [i64; 5] = [3, c(b'N'), c(b'O'), c(b'N'), c(b'E')];
const ANTENNA_TEXTS: [&[u8]; 3] = [b"TRM55971.00     ", b"UNK                 ", b""];
const POINT: [i64; 5] = [345, 13_999_512_345, -27_732_100_000, c(b'M'), c(b'I')];
const POINT_TEXTS: [&[u8]; 3] = [b"Lighthouse 2                  ", b"", b""];
const HEIGHTS: [i64; 13] = [
    345,
    12_345,
    c(b'A'),
    c(b'1'),
    c(b'2'),
    c(b'Y'),
    c(b'8'),
    c(b'8'),
    -33_250,
    c(b'6'),
    -1_234,
    c(b'B'),
    c(b'A'),
];
const NO_HEIGHTS: [i64; 13] = [
    345,
    MISSING,
    c(b' '),
    c(b' '),
    c(b' '),
    c(b' '),
    c(b' '),
    c(b' '),
    MISSING,
    c(b' '),
    MISSING,
    c(b' '),
    c(b' '),
];
const HEIGHTS_TEXTS: [&[u8]; 3] = [b"NGS   ", b"set by hand             ", b""];

const NETWORK: [i64; 6] = [345, 123, 98, -12_345_678, 256, c(b'Y')];
const NETWORK_TEXTS: [&[u8]; 3] = [b"{scaled}  a&b ~", b"", b""];
const LOCAL: [i64; 7] = [12, 345, 999_999_999, 0, 50_000_000, 123_456, c(b'N')];
const LOCAL_TEXTS: [&[u8]; 3] = [b"Not scaled; ~", b"", b""];
const FACTOR: [i64; 2] = [1_000, 2_345];
const FACTOR_TEXTS: [&[u8]; 3] = [
    b"horizontal & vertical                                ~",
    b"",
    b"",
];

fn changed<const N: usize>(values: [i64; N], at: usize, value: i64) -> [i64; N] {
    let mut values = values;
    values[at] = value;
    values
}

#[test]
fn every_kind_is_written_in_house_style() {
    let nothing: &[u8] = b"";
    let mut text = [b' '; 70];
    text[69] = b'~';
    assert_eq!(
        good(0, Some(1), &JOB, [&text, nothing, nothing]),
        line(&[(1, "000001"), (7, "*A1*"), (80, "~")])
    );
    assert_eq!(
        good(5, Some(999_999), &[], [&text, nothing, nothing]),
        line(&[(1, "999999"), (7, "*26*"), (80, "~")])
    );
    text[69] = b'\\';
    for (kind, code) in [(1, "*10*"), (2, "*11*")] {
        assert_eq!(
            good(kind, None, &[], [&text, nothing, nothing]),
            line(&[(7, code), (80, "\\")])
        );
    }
    assert_eq!(
        good(3, Some(40), &PROJECT, PROJECT_TEXTS),
        line(&[
            (1, "000040"),
            (7, "*12*"),
            (11, "201911202002A C"),
            (26, "COOPER A"),
            (76, "4MI")
        ])
    );
    assert_eq!(
        good(4, None, &OCCUPATION, [nothing; 3]),
        line(&[(7, "*25*"), (11, "0012T0050Aab~ J B007"), (33, "003")])
    );
    assert_eq!(
        good(6, None, &MEASUREMENT, [nothing; 3]),
        line(&[(7, "*27*"), (11, "00121911050930"), (56, "-0500")])
    );
    assert_eq!(
        good(7, None, &INSTRUMENT, INSTRUMENT_TEXTS),
        line(&[
            (7, "*70*"),
            (11, "007045"),
            (23, "Maker & Sons"),
            (63, "Model 3"),
            (71, "sn-00012")
        ])
    );
    assert_eq!(
        good(8, None, &ANTENNA, ANTENNA_TEXTS),
        line(&[
            (7, "*72*"),
            (11, "003"),
            (17, "TRM55971.00"),
            (33, "NONE"),
            (45, "UNK")
        ])
    );
    assert_eq!(
        good(9, None, &POINT, POINT_TEXTS),
        line(&[
            (7, "*80*"),
            (11, "0345Lighthouse 2"),
            (45, "38531512345N077020100000W"),
            (77, "MI")
        ])
    );
    assert_eq!(
        good(10, None, &HEIGHTS, HEIGHTS_TEXTS),
        line(&[
            (7, "*86*"),
            (11, "0345"),
            (17, "0012345A12Y88NGS"),
            (36, "-0332506"),
            (46, "-001234B"),
            (56, "Aset by hand")
        ])
    );
    assert_eq!(
        good(10, None, &NO_HEIGHTS, HEIGHTS_TEXTS),
        line(&[(7, "*86*"), (11, "0345"), (30, "NGS"), (57, "set by hand")])
    );
}

#[test]
fn accuracies_are_written_in_house_style() {
    let figures = "00000001230000000098-0123456780000000256";
    assert_eq!(
        good(11, None, &NETWORK, NETWORK_TEXTS),
        line(&[(7, "*91*0345"), (21, figures), (65, "Y{scaled}  a&b ~")])
    );
    let figures = "0999999999000000000000500000000000123456";
    assert_eq!(
        good(12, Some(220), &LOCAL, LOCAL_TEXTS),
        line(&[
            (1, "000220*92*0012  0345"),
            (23, figures),
            (67, "NNot scaled; ~")
        ])
    );
    assert_eq!(
        good(13, None, &FACTOR, FACTOR_TEXTS),
        line(&[(7, "*93*0000100000002345horizontal & vertical"), (80, "~")])
    );
}

/// Each figure at both ends of its range, and beside them.
#[test]
fn ends_of_the_accuracies() {
    let deviations = [
        (0, true),
        (999_999_999, true),
        (-1, false),
        (1_000_000_000, false),
    ];
    let correlations = [
        (-99_999_990, true),
        (99_999_999, true),
        (0, true),
        (-99_999_991, false),
        (100_000_000, false),
    ];
    let stations = [
        (1, true),
        (9_999, true),
        (0, false),
        (10_000, false),
        (-1, false),
    ];
    let factors = [
        (1, true),
        (9_999, true),
        (0, false),
        (10_000, false),
        (-1, false),
    ];
    let codes = [
        (c(b'Y'), true),
        (c(b'N'), true),
        (c(b' '), false),
        (c(b'y'), false),
    ];
    let rows: [&[(i64, bool)]; 5] = [&stations, &deviations, &correlations, &factors, &codes];
    let [station, deviation, correlation, factor, code] = rows;
    for (word, ends, column) in [
        (0, station, 11),
        (1, deviation, 21),
        (2, deviation, 31),
        (3, correlation, 41),
        (4, deviation, 51),
        (5, code, 65),
    ] {
        ends_of_a_word(11, &NETWORK, NETWORK_TEXTS, word, ends, column);
    }
    for (word, ends, column) in [
        (0, station, 11),
        (1, station, 17),
        (2, deviation, 23),
        (3, deviation, 33),
        (4, correlation, 43),
        (5, deviation, 53),
        (6, code, 67),
    ] {
        ends_of_a_word(12, &LOCAL, LOCAL_TEXTS, word, ends, column);
    }
    for (word, column) in [(0, 11), (1, 19)] {
        ends_of_a_word(13, &FACTOR, FACTOR_TEXTS, word, factor, column);
    }
}

/// Values of one word, and whether each is good; the others are fault 9 at
/// its field's first column, as is what only looks good in fewer bits, and
/// what is missing.
fn ends_of_a_word(
    kind: i64,
    values: &[i64],
    texts: [&[u8]; 3],
    word: usize,
    ends: &[(i64, bool)],
    column: u64,
) {
    let far = [MISSING, i64::MAX, MISSING + 1].map(|value| (value, false));
    let cut = ends.iter().map(|&(value, _)| (value + (1 << 32), false));
    for (value, is_good) in ends.iter().copied().chain(far).chain(cut) {
        let mut values = values.to_vec();
        values[word] = value;
        let expected = if is_good { ACCEPTED } else { (9, 0, column) };
        assert_eq!(verdict(kind, &values, texts), expected, "{values:?}");
    }
}

#[test]
fn fault_10_for_a_forepoint_that_is_the_standpoint() {
    assert_eq!(
        verdict(12, &changed(LOCAL, 1, 12), LOCAL_TEXTS),
        (10, 0, 17)
    );
    assert_eq!(
        verdict(12, &changed(LOCAL, 0, 345), LOCAL_TEXTS),
        (10, 0, 17)
    );
    // Two that are no stations are fault 9, the first of them at 11.
    let none = changed(changed(LOCAL, 0, 0), 1, 0);
    assert_eq!(verdict(12, &none, LOCAL_TEXTS), (9, 0, 11));
    let large = changed(LOCAL, 1, 10_000);
    assert_eq!(verdict(12, &large, LOCAL_TEXTS), (9, 0, 17));
    // It goes before what is wrong further right.
    let both = changed(changed(LOCAL, 1, 12), 2, 1_000_000_000);
    assert_eq!(verdict(12, &both, LOCAL_TEXTS), (10, 0, 17));
    assert_eq!(verdict(12, &changed(LOCAL, 1, 12), [b""; 3]), (10, 0, 17));
}

#[test]
fn fault_1_goes_first() {
    for length in [0, 1, 80] {
        let mut out = vec![b'#'; length];
        let fault = write(&mut out, 99, Some(0), &[], [b""; 3]);
        assert_eq!((fault.number, fault.record, fault.column), (1, 0, 0));
        assert!(out.iter().all(|&byte| byte == b'#'));
    }
    let mut out = vec![b'#'; 81];
    let fault = write(&mut out, 5, Some(7), &[], [SEVENTY, b"", b""]);
    assert_eq!(fault.number, 0);
    assert_eq!(out, line(&[(1, "000007"), (7, "*26*")]));
}

#[test]
fn sequence_number_kind_and_job_code() {
    for sequence in [0, -1, 1_000_000, i64::MIN, i64::MAX] {
        // Column 1 goes before a kind that is none.
        for kind in [5, 14] {
            let (verdict, _) = written(kind, Some(sequence), &[], [SEVENTY; 3]);
            assert_eq!(verdict, (9, 0, 1));
        }
    }
    for kind in [-1, 14, i64::MIN, i64::MAX] {
        assert_eq!(verdict(kind, &JOB, [SEVENTY; 3]), (9, 0, 7));
    }
    for (first, second) in [
        (b'1', b'0'),
        (b'a', b'1'),
        (b'A', b' '),
        (b'A', b'a'),
        (b' ', b'A'),
        (b'A', b'\n'),
    ] {
        let job = [c(first), c(second)];
        assert_eq!(verdict(0, &job, [SEVENTY; 3]), (9, 0, 7));
    }
    assert_eq!(
        verdict(0, &[c(b'A') + 256, c(b'1')], [SEVENTY; 3]),
        (9, 0, 7)
    );
    assert_eq!(
        verdict(0, &[c(b'A') - 256, c(b'1')], [SEVENTY; 3]),
        (9, 0, 7)
    );
    // The job code goes before its text.
    assert_eq!(verdict(0, &[c(b'A')], [b""; 3]), (9, 0, 7));
    assert_eq!(verdict(0, &JOB, [b""; 3]), (9, 0, 11));
}

#[test]
fn ends_of_the_ranges() {
    let nothing: [&[u8]; 3] = [b""; 3];
    for (station, expected) in [
        (1, ACCEPTED),
        (9_999, ACCEPTED),
        (0, (9, 0, 11)),
        (10_000, (9, 0, 11)),
        (-1, (9, 0, 11)),
        (MISSING, (9, 0, 11)),
    ] {
        assert_eq!(
            verdict(6, &changed(MEASUREMENT, 0, station), nothing),
            expected
        );
    }
    for (date, expected) in [
        (0, ACCEPTED),
        (999_999, ACCEPTED),
        (1_000_000, (9, 0, 15)),
        (-1, (9, 0, 15)),
        (MISSING, (9, 0, 15)),
    ] {
        assert_eq!(
            verdict(6, &changed(MEASUREMENT, 1, date), nothing),
            expected
        );
    }
    for (time, expected) in [
        (0, ACCEPTED),
        (9_999, ACCEPTED),
        (10_000, (9, 0, 21)),
        (MISSING, (9, 0, 21)),
    ] {
        assert_eq!(
            verdict(6, &changed(MEASUREMENT, 2, time), nothing),
            expected
        );
    }
    for (height, expected) in [
        (-9_999, ACCEPTED),
        (99_999, ACCEPTED),
        (-10_000, (9, 0, 56)),
        (100_000, (9, 0, 56)),
        (MISSING, (9, 0, 56)),
        (i64::MAX, (9, 0, 56)),
    ] {
        assert_eq!(
            verdict(6, &changed(MEASUREMENT, 3, height), nothing),
            expected
        );
    }
    for (height, expected) in [
        (-999_999, ACCEPTED),
        (9_999_999, ACCEPTED),
        (0, ACCEPTED),
        (-1_000_000, (9, 0, 17)),
        (10_000_000, (9, 0, 17)),
        (i64::MIN + 1, (9, 0, 17)),
    ] {
        assert_eq!(
            verdict(10, &changed(HEIGHTS, 1, height), HEIGHTS_TEXTS),
            expected
        );
    }
    for (latitude, expected) in [
        (32_400_000_000, ACCEPTED),
        (-32_400_000_000, ACCEPTED),
        (32_400_000_001, (9, 0, 45)),
        (-32_400_000_001, (9, 0, 45)),
        (MISSING, (9, 0, 45)),
        (i64::MAX, (9, 0, 45)),
    ] {
        assert_eq!(
            verdict(9, &changed(POINT, 1, latitude), POINT_TEXTS),
            expected
        );
    }
    for (longitude, expected) in [
        (64_800_000_000, ACCEPTED),
        (-64_799_999_999, ACCEPTED),
        (64_800_000_001, (9, 0, 57)),
        (-64_800_000_000, (9, 0, 57)),
        (MISSING, (9, 0, 57)),
    ] {
        assert_eq!(
            verdict(9, &changed(POINT, 2, longitude), POINT_TEXTS),
            expected
        );
    }
    for (number, expected) in [
        (1, ACCEPTED),
        (999, ACCEPTED),
        (0, (9, 0, 11)),
        (1_000, (9, 0, 11)),
    ] {
        assert_eq!(
            verdict(7, &changed(INSTRUMENT, 0, number), INSTRUMENT_TEXTS),
            expected
        );
        assert_eq!(
            verdict(8, &changed(ANTENNA, 0, number), ANTENNA_TEXTS),
            expected
        );
    }
    for (code, expected) in [
        (1, ACCEPTED),
        (999, ACCEPTED),
        (0, (9, 0, 14)),
        (1_000, (9, 0, 14)),
    ] {
        assert_eq!(
            verdict(7, &changed(INSTRUMENT, 1, code), INSTRUMENT_TEXTS),
            expected
        );
    }
}

#[test]
fn angles_are_split_and_signed() {
    let angles = |latitude, longitude| {
        let values = changed(changed(POINT, 1, latitude), 2, longitude);
        let line = good(9, None, &values, POINT_TEXTS);
        String::from_utf8(line[44..69].to_vec()).unwrap()
    };
    assert_eq!(angles(0, 0), "00000000000N000000000000E");
    assert_eq!(angles(-1, -1), "00000000001S000000000001W");
    assert_eq!(
        angles(32_400_000_000, 64_800_000_000),
        "90000000000N180000000000E"
    );
    assert_eq!(
        angles(-32_400_000_000, -64_799_999_999),
        "90000000000S179595999999W"
    );
}

#[test]
fn media_identifier_dates_and_codes() {
    let nothing: [&[u8]; 3] = [b""; 3];
    for (at, value) in [
        (1, c(b' ')),
        (1, c(b'1')),
        (2, 0),
        (2, 367),
        (2, -1),
        (3, 10),
        (3, -1),
        (3, c(b'5')),
        (4, c(b' ')),
        (4, c(b'a')),
        (5, 0x1f),
        (8, 0x7f),
        (8, MISSING),
    ] {
        assert_eq!(
            verdict(4, &changed(OCCUPATION, at, value), nothing),
            (9, 0, 15)
        );
    }
    for (at, value, column) in [
        (9, c(b'1'), 25),
        (11, c(b'a'), 25),
        (12, 0, 28),
        (12, 1_000, 28),
        (13, 0, 33),
        (13, MISSING, 33),
    ] {
        assert_eq!(
            verdict(4, &changed(OCCUPATION, at, value), nothing),
            (9, 0, column)
        );
    }
    for (at, value, column) in [
        (0, 99, 11),
        (0, 201_900, 11),
        (0, 201_913, 11),
        (0, 1_000_001, 11),
        (0, -201_911, 11),
        (0, MISSING, 11),
        (1, 202_000, 17),
        (1, 12, 17),
        (2, c(b'1'), 23),
        (4, 0, 23),
        (5, c(b'-'), 44),
        (8, c(b' '), 77),
        (9, c(b'i'), 77),
    ] {
        assert_eq!(
            verdict(3, &changed(PROJECT, at, value), PROJECT_TEXTS),
            (9, 0, column)
        );
    }
    for (at, value) in [(1, c(b' ')), (4, c(b'e')), (4, 300)] {
        assert_eq!(
            verdict(8, &changed(ANTENNA, at, value), ANTENNA_TEXTS),
            (9, 0, 33)
        );
    }
    for (at, value, column) in [
        (2, c(b'1'), 24),
        (2, c(b'a'), 24),
        (3, c(b' '), 25),
        (4, c(b'A'), 25),
        (5, c(b'X'), 27),
        (6, c(b' '), 28),
        (7, c(b'a'), 28),
        (9, c(b'-'), 43),
        (11, c(b'1'), 53),
        (12, c(b'1'), 56),
    ] {
        assert_eq!(
            verdict(10, &changed(HEIGHTS, at, value), HEIGHTS_TEXTS),
            (9, 0, column)
        );
    }
}

#[test]
fn fault_10_for_months_and_height_codes() {
    assert_eq!(
        verdict(3, &changed(PROJECT, 1, 201_910), PROJECT_TEXTS),
        (10, 0, 17)
    );
    assert_eq!(
        verdict(3, &changed(PROJECT, 1, 201_911), PROJECT_TEXTS),
        ACCEPTED
    );
    for (at, column) in [(2, 24), (5, 27), (9, 43), (11, 53)] {
        let without = changed(HEIGHTS, at, c(b' '));
        assert_eq!(verdict(10, &without, HEIGHTS_TEXTS), (10, 0, column));
    }
    for (at, code, column) in [(2, b'A', 24), (5, b'N', 27), (9, b'6', 43), (11, b'B', 53)] {
        let alone = changed(NO_HEIGHTS, at, c(code));
        assert_eq!(verdict(10, &alone, HEIGHTS_TEXTS), (10, 0, column));
        // Malformed goes first.
        let bad = changed(NO_HEIGHTS, at, c(b'.'));
        assert_eq!(verdict(10, &bad, HEIGHTS_TEXTS), (9, 0, column));
    }
    for (at, column) in [(1, 24), (8, 43), (10, 53)] {
        let without = changed(HEIGHTS, at, MISSING);
        assert_eq!(verdict(10, &without, HEIGHTS_TEXTS), (10, 0, column));
    }
}

#[test]
fn texts_have_the_exact_width_and_their_characters() {
    let cases: [Case; 9] = [
        (0, &JOB, [SEVENTY, b"", b""], &[11]),
        (3, &PROJECT, PROJECT_TEXTS, &[26, 47]),
        (7, &INSTRUMENT, INSTRUMENT_TEXTS, &[23, 63, 71]),
        (8, &ANTENNA, ANTENNA_TEXTS, &[17, 45]),
        (9, &POINT, POINT_TEXTS, &[15]),
        (10, &HEIGHTS, HEIGHTS_TEXTS, &[30, 57]),
        (11, &NETWORK, NETWORK_TEXTS, &[66]),
        (12, &LOCAL, LOCAL_TEXTS, &[68]),
        (13, &FACTOR, FACTOR_TEXTS, &[27]),
    ];
    for (kind, values, texts, starts) in cases {
        for slot in 0..3 {
            let expected = match starts.get(slot) {
                Some(column) => (9, 0, *column),
                None => ACCEPTED,
            };
            let wide = [texts[slot], b" "].concat();
            let mut bad = texts[slot].to_vec();
            bad.pop();
            let narrow = bad.clone();
            bad.push(b'\n');
            for text in [wide, narrow, bad] {
                let mut texts = texts;
                texts[slot] = &text;
                assert_eq!(verdict(kind, values, texts), expected);
            }
        }
    }
    let mut title = SEVENTY.to_vec();
    title[0] = b'a';
    assert_eq!(verdict(1, &[], [&title, b"", b""]), (9, 0, 11));
    assert_eq!(verdict(5, &[], [&title, b"", b""]), ACCEPTED);
    let backslash: &[u8] = b"\\                 ";
    assert_eq!(
        verdict(3, &PROJECT, [backslash, PROJECT_TEXTS[1], b""]),
        (9, 0, 26)
    );
    assert_eq!(
        verdict(3, &PROJECT, [PROJECT_TEXTS[0], backslash, b""]),
        (9, 0, 47)
    );
}

/// The first column of the field of each word.
#[test]
fn too_few_words_are_fault_9_at_the_first_field_that_lacks_one() {
    let cases: [Case; 11] = [
        (0, &JOB, [SEVENTY, b"", b""], &[7, 7]),
        (
            3,
            &PROJECT,
            PROJECT_TEXTS,
            &[11, 17, 23, 23, 23, 44, 44, 44, 77, 77],
        ),
        (
            4,
            &OCCUPATION,
            [b"", b"", b""],
            &[11, 15, 15, 15, 15, 15, 15, 15, 15, 25, 25, 25, 28, 33],
        ),
        (6, &MEASUREMENT, [b"", b"", b""], &[11, 15, 21, 56]),
        (7, &INSTRUMENT, INSTRUMENT_TEXTS, &[11, 14]),
        (8, &ANTENNA, ANTENNA_TEXTS, &[11, 33, 33, 33, 33]),
        (9, &POINT, POINT_TEXTS, &[11, 45, 57, 77, 77]),
        (
            10,
            &HEIGHTS,
            HEIGHTS_TEXTS,
            &[11, 17, 24, 25, 25, 27, 28, 28, 36, 43, 46, 53, 56],
        ),
        (11, &NETWORK, NETWORK_TEXTS, &[11, 21, 31, 41, 51, 65]),
        (12, &LOCAL, LOCAL_TEXTS, &[11, 17, 23, 33, 43, 53, 67]),
        (13, &FACTOR, FACTOR_TEXTS, &[11, 19]),
    ];
    for (kind, values, texts, starts) in cases {
        assert_eq!(values.len(), starts.len());
        assert_eq!(verdict(kind, values, texts), ACCEPTED);
        for (words, column) in starts.iter().enumerate() {
            assert_eq!(verdict(kind, &values[..words], texts), (9, 0, *column));
        }
        // Words beyond those are not looked at.
        let more = [values, &[MISSING]].concat();
        assert_eq!(verdict(kind, &more, texts), ACCEPTED);
    }
}
