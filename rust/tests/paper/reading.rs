//! Read and field.

use crate::sample::*;
use shelf::plain::{field, read, Fault, Reading, MISSING};

fn fault(number: u32, record: u64, column: u64) -> Fault {
    Fault {
        number,
        record,
        column,
    }
}

fn letters(text: &str) -> Vec<i64> {
    text.bytes().map(i64::from).collect()
}

/// Kind, sequence number and values of every record of the sample.
#[test]
fn the_sample_reads_as_printed() {
    let file = file();
    let expected = |kind, sequence, values: Vec<Vec<i64>>| Reading {
        kind,
        sequence,
        values: values.concat(),
    };
    let reading = |record| read(&file, record).unwrap();
    assert_eq!(reading(1), expected(0, Some(10), vec![letters("A1")]));
    assert_eq!(reading(2), expected(1, None, vec![]));
    assert_eq!(reading(3), expected(2, None, vec![]));
    assert_eq!(
        reading(4),
        expected(
            3,
            Some(40),
            vec![vec![201_911, 202_002], letters("A C   MI")]
        )
    );
    assert_eq!(
        reading(5),
        expected(
            4,
            None,
            vec![
                vec![12],
                letters("T"),
                vec![366, 9],
                letters("Aab~ J B"),
                vec![7, 3]
            ]
        )
    );
    assert_eq!(reading(6), expected(5, None, vec![]));
    assert_eq!(
        reading(7),
        expected(6, None, vec![vec![12, 191_105, 930, 1_543]])
    );
    assert_eq!(reading(14), expected(7, None, vec![vec![8, 45]]));
    assert_eq!(
        reading(16),
        expected(8, None, vec![vec![444], letters("NONE")])
    );
    // 77 degrees 2 minutes 1 second west: 77 x 3600 + 121 = 277,321 seconds.
    assert_eq!(
        reading(17),
        expected(
            9,
            None,
            vec![vec![345, 13_999_512_345, -27_732_100_000], letters("MI")]
        )
    );
    assert_eq!(
        reading(18),
        expected(
            10,
            None,
            vec![
                vec![345, 12_345],
                letters("A12Y88"),
                vec![-33_250],
                letters("6"),
                vec![-1_234],
                letters("BA")
            ]
        )
    );
    assert_eq!(
        reading(20),
        expected(
            10,
            None,
            vec![
                vec![12, MISSING],
                letters("      "),
                vec![MISSING],
                letters(" "),
                vec![MISSING],
                letters("  ")
            ]
        )
    );
    assert_eq!(
        reading(21),
        expected(
            11,
            None,
            vec![vec![345, 123, 98, -12_345_678, 256], letters("Y")]
        )
    );
    let figures = vec![12, 345, 999_999_999, 0, 50_000_000, 123_456];
    assert_eq!(reading(22), expected(12, None, vec![figures, letters("N")]));
    assert_eq!(reading(23), expected(13, None, vec![vec![1_000, 2_345]]));
    assert_eq!(reading(24), expected(0, Some(10), vec![letters("A1")]));
}

#[test]
fn fault_13_for_a_record_that_is_not_there() {
    let file = file();
    for record in [0, 25, 26, 99_999, 100_000, u64::MAX] {
        assert_eq!(read(&file, record), Err(fault(13, record, 0)));
    }
    assert_eq!(read(b"", 1), Err(fault(13, 1, 0)));
    // Record 100,000 is out of reach even where the file goes on.
    let long = comment().repeat(100_000);
    assert_eq!(read(&long, 99_999).unwrap().kind, 5);
    assert_eq!(read(&long, 100_000), Err(fault(13, 100_000, 0)));
}

#[test]
fn read_judges_a_record_by_itself() {
    let file = file();
    // A short last line has begun.
    assert_eq!(read(&file[..81 * 3 + 40], 4), Err(fault(3, 4, 41)));
    assert_eq!(read(&file[..81 * 4 - 1], 4), Err(fault(3, 4, 81)));
    assert_eq!(
        read(&[&file[..81], b"  \x01"].concat(), 2),
        Err(fault(4, 2, 3))
    );
    let mut bad = file.clone();
    bad[80] = b'\r';
    assert_eq!(read(&bad, 1), Err(fault(5, 1, 81)));
    assert_eq!(read(&bad, 2).unwrap().kind, 1);
    assert_eq!(read(&with(&file, 2, 7, "*13*"), 2), Err(fault(6, 2, 7)));
    assert_eq!(read(&with(&file, 2, 1, "000000"), 2), Err(fault(9, 2, 6)));
    // Disagreement inside a record is judged, between records it is not.
    assert_eq!(
        read(&with(&file, 4, 17, "201910"), 4),
        Err(fault(10, 4, 17))
    );
    assert_eq!(read(&with(&file, 20, 43, "6"), 20), Err(fault(10, 20, 43)));
    assert_eq!(
        read(&with(&file, 22, 17, "  12"), 22),
        Err(fault(10, 22, 17))
    );
    assert_eq!(read(&with(&file, 7, 11, "0345"), 7).unwrap().values[0], 345);
    assert_eq!(read(&with(&file, 14, 11, "001"), 14).unwrap().values[0], 1);
    assert_eq!(read(&with(&file, 21, 11, "0001"), 21).unwrap().values[0], 1);
    // Nor is its place.
    let reversed: Vec<u8> = lines().into_iter().rev().flatten().collect();
    assert_eq!(read(&reversed, 5).unwrap(), read(&file, 20).unwrap());
}

#[test]
fn field_gives_the_callers_own_columns() {
    let file = file();
    assert_eq!(field(&file, 1, 11), (10, 70));
    assert_eq!(field(&file, 17, 45), (81 * 16 + 44, 11));
    assert_eq!(field(&file, 17, 15), (81 * 16 + 14, 30));
    assert_eq!(field(&file, 5, 15), (81 * 4 + 14, 10));
}

/// Every row of the tables from column 11 on, and nothing else.
#[test]
fn field_starts_where_the_tables_say() {
    let whole = vec![(11, 70)];
    let rows = [
        (1, whole.clone()),
        (2, whole.clone()),
        (3, whole.clone()),
        (
            4,
            vec![
                (11, 6),
                (17, 6),
                (23, 3),
                (26, 18),
                (44, 3),
                (47, 18),
                (65, 11),
                (76, 1),
                (77, 2),
                (79, 2),
            ],
        ),
        (
            5,
            vec![
                (11, 4),
                (15, 10),
                (25, 3),
                (28, 3),
                (31, 2),
                (33, 3),
                (36, 45),
            ],
        ),
        (6, whole.clone()),
        (
            7,
            vec![(11, 4), (15, 6), (21, 4), (25, 31), (56, 5), (61, 20)],
        ),
        (
            13,
            vec![
                (11, 3),
                (14, 3),
                (17, 6),
                (23, 18),
                (41, 22),
                (63, 8),
                (71, 10),
            ],
        ),
        (
            15,
            vec![
                (11, 3),
                (14, 3),
                (17, 16),
                (33, 4),
                (37, 8),
                (45, 20),
                (65, 16),
            ],
        ),
        (
            17,
            vec![
                (11, 4),
                (15, 30),
                (45, 11),
                (56, 1),
                (57, 12),
                (69, 1),
                (70, 7),
                (77, 2),
                (79, 2),
            ],
        ),
        (
            18,
            vec![
                (11, 4),
                (15, 2),
                (17, 7),
                (24, 1),
                (25, 2),
                (27, 1),
                (28, 2),
                (30, 6),
                (36, 7),
                (43, 1),
                (44, 2),
                (46, 7),
                (53, 1),
                (54, 2),
                (56, 1),
                (57, 24),
            ],
        ),
        (
            21,
            vec![
                (11, 4),
                (15, 6),
                (21, 10),
                (31, 10),
                (41, 10),
                (51, 10),
                (61, 4),
                (65, 1),
                (66, 15),
            ],
        ),
        (
            22,
            vec![
                (11, 4),
                (15, 2),
                (17, 4),
                (21, 2),
                (23, 10),
                (33, 10),
                (43, 10),
                (53, 10),
                (63, 4),
                (67, 1),
                (68, 13),
            ],
        ),
        (23, vec![(11, 8), (19, 8), (27, 54)]),
        (24, whole),
    ];
    let file = file();
    for (record, starts) in rows {
        assert_eq!(starts.iter().map(|(_, width)| width).sum::<usize>(), 70);
        for column in 0..=200 {
            let expected = match starts.iter().find(|(first, _)| *first == column) {
                Some((first, width)) => (81 * (record - 1) + first - 1, *width),
                None => (0, 0),
            };
            let found = field(&file, record as u64, column as u64);
            assert_eq!(found, expected, "record {record} column {column}");
        }
    }
}

#[test]
fn field_is_empty_where_read_refuses() {
    let file = file();
    assert_eq!(field(&file, 0, 11), (0, 0));
    assert_eq!(field(&file, 25, 11), (0, 0));
    assert_eq!(field(&file, u64::MAX, 11), (0, 0));
    assert_eq!(field(&file, 1, u64::MAX), (0, 0));
    // One bad field hides the others of its record, and of no other.
    let bad = with(&file, 17, 79, "x");
    assert_eq!(field(&bad, 17, 11), (0, 0));
    assert_eq!(field(&bad, 18, 11), (81 * 17 + 10, 4));
}
