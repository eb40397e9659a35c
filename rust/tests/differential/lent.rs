//! Tables, outputs and answers of every length that matters.

use crate::sides::Sides;
use shelf::calls::{
    FIELD_WORDS, FORM_WORDS, READ_WORDS, REFERENCES_WORDS, REWRITE_WORDS, WRITE_WORDS,
};
use shelf::generate;
use shelf::plain::{LINE, TABLE_WORDS};
use shelf::sample;

const TABLES: [usize; 6] = [0, 1, 11_998, TABLE_WORDS - 1, TABLE_WORDS, TABLE_WORDS + 77];

/// Accepted ones and one of each fault that a file can have.
fn files() -> Vec<Vec<u8>> {
    let good = sample::file();
    let mut files = vec![
        good.clone(),
        generate::accepted(41, 11),
        Vec::new(),
        vec![b' '],
        good[..good.len() - 1].to_vec(),
        good[..good.len() - LINE].to_vec(),
        sample::with(&good, 3, 20, "\t"),
        sample::with(&good, 3, 81, "\r"),
        sample::with(&good, 3, 7, "*13*"),
        sample::with(&good, 3, 7, "*86*"),
        sample::with(&good, 5, 28, "  x"),
        sample::with(&good, 7, 11, "0345"),
        sample::repeated_station(),
        sample::with(&good, 5, 33, "  9"),
    ];
    // Fault 1 goes before all that the bytes say.
    files.push(vec![0xff; 3 * LINE]);
    files
}

/// The files and all that begins them, by whole records.
#[test]
fn form() {
    let mut sides = Sides::new();
    let mut faults = [0; 15];
    for file in files() {
        for end in (0..file.len()).step_by(LINE).chain([file.len()]) {
            for answers in 0..=FORM_WORDS + 4 {
                let [number, ..] = sides.form_lent(&file[..end], answers);
                if answers >= FORM_WORDS {
                    faults[number as usize] += 1;
                }
            }
        }
    }
    sides.tried(5_000);
    for number in [0, 3, 4, 5, 6, 7, 8, 9, 10] {
        assert!(faults[number] > 0, "fault {number}");
    }
}

/// Refusal 1 goes before 14, and 14 before 11 and 12.
#[test]
fn references() {
    let mut sides = Sides::new();
    let mut faults = [0; 15];
    for file in files() {
        sides.judge(&file);
        for words in TABLES {
            for answers in 0..=REWRITE_WORDS + 4 {
                let [number, record, column] = sides.references_lent(&file, words, answers);
                if answers >= REFERENCES_WORDS {
                    faults[number as usize] += 1;
                    assert_eq!(number == 1, words < TABLE_WORDS);
                    assert!(number == 11 || number == 12 || [record, column] == [0, 0]);
                }
            }
        }
    }
    sides.tried(1_500);
    for number in [0, 1, 11, 12, 14] {
        assert!(faults[number] > 0, "fault {number}");
    }
    for number in 3..=10 {
        assert!(sides.not_formed(number) > 0, "fault {number} of form");
    }
}

#[test]
fn rewrite() {
    let mut sides = Sides::new();
    for file in files() {
        let length = file.len();
        let rooms = [
            0,
            LINE.min(length),
            length.saturating_sub(LINE),
            length.saturating_sub(1),
            length,
            length + 1,
            length + LINE,
        ];
        for words in TABLES {
            for room in rooms {
                for answers in [0, 1, 3, REWRITE_WORDS - 1, REWRITE_WORDS, REWRITE_WORDS + 4] {
                    sides.rewrite_lent(&file, words, room, answers);
                }
            }
        }
    }
    sides.tried(3_000);
}

#[test]
fn read_and_field() {
    let mut sides = Sides::new();
    for file in files() {
        for record in [0, 1, 2, 3, 5, 7, 20, 24, 25, 100_000] {
            for answers in 0..=READ_WORDS + 4 {
                sides.read_lent(&file, record, answers);
            }
            for answers in 0..=FIELD_WORDS + 4 {
                for column in [0, 10, 11, 15, 80] {
                    sides.field(&file, record, column, answers);
                }
            }
        }
    }
    sides.tried(8_000);
}

#[test]
fn write() {
    let mut sides = Sides::new();
    let blanks = [b' '; 70];
    // A comment that is written, a bad sequence number, kind and text.
    for (kind, sequence, width) in [(5, 7, 70), (5, 0, 70), (14, 7, 70), (5, 7, 69)] {
        for room in 0..=LINE + 4 {
            for answers in 0..=WRITE_WORDS + 4 {
                sides.write_lent(
                    &[kind, sequence],
                    [&blanks[..width], b"", b""],
                    room,
                    answers,
                );
            }
        }
    }
    sides.tried(2_000);
}
