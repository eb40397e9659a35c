//! Field: every column of every record.

use crate::sides::Sides;
use crate::{files, least};
use shelf::calls::FIELD_WORDS;
use shelf::plain::layout::FIELDS;
use shelf::plain::LINE;
use shelf::sample;

/// Every record of a few files, one record of others.
#[test]
fn every_column() {
    Sides::over(
        files::damaged,
        least::FIELDS,
        |sides, file, record| match record % 8 {
            0 if file.len() < 15 * LINE => every_field(sides, file),
            1 => every_field_of(sides, file, record),
            _ => (),
        },
    );
}

/// In a good file the fields cover columns 11-80 of each record.
#[test]
fn good_fields_are_found() {
    let mut sides = Sides::new();
    let file = sample::file();
    let mut found = 0;
    for record in 1..=24 {
        let mut covered = 0;
        for column in 0..=LINE as u32 {
            let [offset, length] = sides.field(&file, record, column, FIELD_WORDS);
            if length > 0 {
                found += 1;
                assert_eq!(offset, 81 * u64::from(record - 1) + u64::from(column) - 1);
            }
            covered += length;
        }
        assert_eq!(covered, 70);
    }
    sides.tried(24 * 82);
    assert!(found > FIELDS.len());
}

fn every_field(sides: &mut Sides, file: &[u8]) {
    let last = (file.len() / LINE) as u32;
    for record in (0..=last + 1).chain([100_000, u32::MAX]) {
        every_field_of(sides, file, record);
    }
}

fn every_field_of(sides: &mut Sides, file: &[u8], record: u32) {
    for column in (0..=83).chain([255, 267, 65_547, u32::MAX]) {
        sides.field(file, record, column, FIELD_WORDS);
    }
}
