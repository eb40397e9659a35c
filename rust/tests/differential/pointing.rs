//! The column of fault 9, in form and in read, and what references says: each
//! character of good records
//! in another dress than the sample's, whose own bytes are tried with the
//! other families, and every beginning of every field.

use crate::files::Family;
use crate::judging::Judged;
use crate::least;
use crate::sides::Sides;
use shelf::plain::layout::{kind_of, Field, Form, FIELDS};
use shelf::plain::LINE;
use shelf::sample;
use std::ops::RangeInclusive;

/// What is not printable is fault 4.
const PRINTABLE: RangeInclusive<u8> = b' '..=b'~';

/// A record's number in the sample, and a good line to stand there.
type Placed = (usize, Vec<u8>);

/// Lines that fill what the sample's leave out, leave out what they fill, and
/// stand at the ends of ranges; the *86* have one height each.
fn in_other_dress() -> Vec<Placed> {
    let line = |record, parts: &[(usize, &str)]| (record, sample::line(parts));
    let angles = "00595999999S179000000000W";
    let least = "0999999999         0-0999999900000000001";
    let most = "         00000000001 0999999990999999999";
    vec![
        line(2, &[(1, "999999*10*"), (80, "\\")]),
        line(4, &[(7, "*12*000101999912"), (44, "ABC"), (76, "4ZZ")]),
        line(5, &[(7, "*25*0012Z0010Z       008  444")]),
        line(7, &[(7, "*27* 012     0   0"), (56, "-9999")]),
        line(13, &[(1, "000130*70*  7999")]),
        line(15, &[(1, "   150*72*003"), (33, "ABCD")]),
        line(17, &[(7, "*80* 345"), (45, angles), (77, "ZZ")]),
        line(18, &[(7, "*86*0345"), (17, "-000000Z"), (27, "N")]),
        line(18, &[(7, "*86* 345"), (25, "00"), (36, "    -70Z")]),
        line(18, &[(7, "*86* 345"), (28, "A9"), (46, "9999999A")]),
        line(21, &[(7, "*91*0012"), (21, least), (65, "N")]),
        line(22, &[(1, "   220*92* 345    12"), (23, most), (67, "Y")]),
        line(23, &[(7, "*93*       1    9999"), (80, "~")]),
    ]
}

/// The sample's records of each kind; of *86* one with all heights and one
/// with none.
fn as_in_the_sample() -> Vec<Placed> {
    let lines = sample::lines();
    let records = [1, 2, 3, 4, 5, 6, 7, 13, 15, 17, 18, 20, 21, 22, 23];
    let placed = records.map(|record| (record, lines[record - 1].clone()));
    placed.to_vec()
}

/// Hands over the sample with each of these lines in its place, and where that
/// is.
fn placed(lines: Vec<Placed>, change: &mut dyn FnMut(&mut [u8], usize)) {
    let good = sample::file();
    for (record, line) in lines {
        let start = LINE * (record - 1);
        let mut file = good.clone();
        file[start..start + LINE].copy_from_slice(&line);
        change(&mut file, start);
    }
}

fn record_at(start: usize) -> u32 {
    (start / LINE + 1) as u32
}

fn every_character(try_file: &mut dyn FnMut(&[u8], u32)) {
    placed(in_other_dress(), &mut |file, start| {
        for at in start..start + LINE - 1 {
            let held = file[at];
            for character in PRINTABLE {
                file[at] = character;
                try_file(file, record_at(start));
            }
            file[at] = held;
        }
    });
}

/// What fills a field behind its beginning; none leaves what was there.
const FILLINGS: [Option<u8>; 5] = [None, Some(b' '), Some(b'0'), Some(b'9'), Some(b'A')];

/// Each beginning of each field that is not good whatever it holds, then each
/// character, then each filling up to the field's last column.
fn beginnings(try_file: &mut dyn FnMut(&[u8], u32)) {
    placed(as_in_the_sample(), &mut |file, start| {
        let kind = kind_of(&file[start + 6..start + 10]).unwrap();
        let rows = FIELDS[kind].iter().filter(|row| !takes_all(row, row.first));
        let rows = rows.map(|row| (row.first, row.width));
        for (first, width) in [(1, 6)].into_iter().chain(rows) {
            let from = start + first - 1;
            let good = file[from..from + width].to_vec();
            for (length, character, filling) in changes(width) {
                let field = &mut file[from..from + width];
                field[length] = character;
                if let Some(filling) = filling {
                    field[length + 1..].fill(filling);
                }
                try_file(file, record_at(start));
                file[from..from + width].copy_from_slice(&good);
            }
        }
    });
}

fn changes(width: usize) -> impl Iterator<Item = (usize, u8, Option<u8>)> {
    let characters = (0..width).flat_map(|length| PRINTABLE.map(move |one| (length, one)));
    characters.flat_map(|(length, one)| FILLINGS.map(|filling| (length, one, filling)))
}

fn read(family: Family, least: u64) -> Sides {
    Sides::over(family, least, |sides, file, record| {
        sides.read(file, record)
    })
}

#[test]
fn lines_in_other_dress_are_good() {
    let lines = in_other_dress().len() as u32;
    let unchanged: Family = |try_file| {
        placed(in_other_dress(), &mut |file, start| {
            try_file(file, record_at(start))
        });
    };
    let Judged { form, references } = Judged::over(unchanged, 1);
    assert_eq!([form.faults(0), references.faults(0)], [lines; 2]);
    assert_eq!(read(unchanged, 1).faults(0), lines);
}

#[test]
fn every_character_judged() {
    let Judged { form, references } = Judged::over(every_character, least::CHARACTERS);
    assert!(form.faults(9) > 30_000 && form.faults(10) > 100);
    assert!(references.not_formed(9) > 30_000 && references.faults(12) > 100);
}

#[test]
fn every_character_read() {
    let sides = read(every_character, least::CHARACTERS);
    assert!(sides.faults(9) > 30_000 && sides.faults(10) > 100);
}

/// Judging takes longer than a reading: it gets one of the fillings behind
/// each beginning and character, by turns.
#[test]
fn beginnings_judged() {
    let mut judged = Judged::new();
    let mut number = 0;
    beginnings(&mut |file, _| {
        let (turn, filling) = (number / FILLINGS.len(), number % FILLINGS.len());
        number += 1;
        if filling == turn % FILLINGS.len() {
            judged.judge(file);
        }
    });
    judged.tried(least::BEGINNINGS / 5);
    every_column_was_named(&judged.form);
    assert!(judged.references.not_formed(9) > 50_000 && judged.references.faults(12) > 100);
}

#[test]
fn beginnings_read() {
    every_column_was_named(&read(beginnings, least::BEGINNINGS));
}

/// Every column at which a field can go wrong was named, for each kind, and
/// no other.
pub fn every_column_was_named(sides: &Sides) {
    for (kind, fields) in FIELDS.iter().enumerate() {
        for column in 1..=6 {
            assert!(sides.faults_at(9, kind, column) > 0);
        }
        for field in fields.iter() {
            for column in field.first..field.first + field.width {
                let named = sides.faults_at(9, kind, column) > 0;
                let good = takes_all(field, column);
                assert_ne!(named, good, "kind {kind} column {column}");
            }
        }
    }
}

/// Whether a column of a field may hold every character.
fn takes_all(field: &Field, column: usize) -> bool {
    match field.form {
        Form::Text(set) => PRINTABLE.into_iter().all(|byte| set.holds(byte)),
        Form::Media => column >= field.first + 6,
        _ => false,
    }
}
