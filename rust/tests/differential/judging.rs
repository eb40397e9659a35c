//! Form and references on the same files, each with what it answered.

use crate::files::{self, Family};
use crate::least;
use crate::pointing::every_column_was_named;
use crate::sides::Sides;
use shelf::plain::layout::{
    ANTENNA, FACTOR, FIELDS, INSTRUMENT, LOCAL, NETWORK, OCCUPATION, POINT,
};

pub struct Judged {
    pub form: Sides,
    pub references: Sides,
}

impl Judged {
    pub fn new() -> Judged {
        Judged {
            form: Sides::new(),
            references: Sides::new(),
        }
    }

    pub fn judge(&mut self, file: &[u8]) {
        let formed = self.form.form(file);
        self.references.references(file, formed);
    }

    /// That each call was tried often enough, and that form knew nothing of
    /// references and references no single fault of form.
    pub fn tried(&self, least: u64) {
        let Judged { form, references } = self;
        form.tried(least);
        references.tried(least);
        assert!(form.are_all(&[0, 2, 3, 4, 5, 6, 7, 8, 9, 10]));
        assert!(references.are_all(&[0, 11, 12, 14]));
    }

    pub fn over(family: Family, least: u64) -> Judged {
        let mut judged = Judged::new();
        family(&mut |file, _| judged.judge(file));
        judged.tried(least);
        judged
    }
}

#[test]
fn every_byte() {
    let Judged { form, references } = Judged::over(files::every_byte, least::EVERY_BYTE);
    every_column_was_named(&form);
    for kind in 0..FIELDS.len() {
        // A bad byte in columns 7-10 leaves a record without a kind.
        for column in (1..=6).chain(11..=80) {
            assert!(form.faults_at(4, kind, column) > 0);
        }
    }
    assert!(references.faults(0) > 50_000 && references.not_formed(9) > 50_000);
    // A *25* of another station than its *27* is not good in form.
    for (kind, column) in [
        (OCCUPATION, 28),
        (OCCUPATION, 33),
        (NETWORK, 11),
        (LOCAL, 11),
        (LOCAL, 17),
    ] {
        let count = references.faults_at(12, kind, column);
        assert!(count > 10, "{kind}, {column}");
    }
}

#[test]
fn filled() {
    let Judged { form, references } = Judged::over(files::filled, least::FILLED);
    assert!(form.faults(0) > 5_000 && form.faults(10) > 1_000);
    assert!(references.faults(12) > 100 && references.not_formed(10) > 1_000);
}

#[test]
fn angles() {
    let Judged { form, references } = Judged::over(files::angles, least::ANGLES);
    assert!(form.faults(0) > 100);
    for column in 45..=69 {
        assert!(form.faults_at(9, POINT, column) > 100);
    }
    assert!(references.faults(0) > 100 && references.not_formed(9) > 2_500);
}

#[test]
fn figures() {
    let Judged { form, references } = Judged::over(files::figures, least::FIGURES);
    assert!(form.faults(0) > 1_000 && form.faults(10) > 0);
    for (kind, columns) in [(NETWORK, 21..=60), (LOCAL, 23..=62), (FACTOR, 11..=26)] {
        for column in columns {
            assert!(form.faults_at(9, kind, column) > 100, "{kind}, {column}");
        }
    }
    assert!(references.faults(0) > 1_000 && references.faults(12) > 100);
}

/// What is undefined or defined twice is good in form; which of 11 and 12 is
/// named, and where.
#[test]
fn references() {
    let Judged { form, references } = Judged::over(files::references, least::REFERENCES);
    // In a third of the files the *92* is of one station.
    assert!(form.faults(0) == 162 && form.faults_at(10, LOCAL, 17) == 81);
    assert!(references.faults(0) > 0 && references.not_formed(10) == 81);
    assert!(references.faults_at(11, POINT, 11) > 0);
    for (kind, column) in [(OCCUPATION, 11), (NETWORK, 11), (LOCAL, 11), (LOCAL, 17)] {
        let count = references.faults_at(12, kind, column);
        assert!(count > 0, "{kind}, {column}");
    }
}

/// *70* that repeat, fall and come back.
#[test]
fn receivers() {
    let Judged { form, references } = Judged::over(files::receivers, least::RECEIVERS);
    assert!(form.faults(0) > 1_000 && form.faults_at(10, INSTRUMENT, 11) > 1_000);
    assert!(form.faults_at(10, ANTENNA, 11) > 200);
    for column in [12, 13, 16, 22] {
        assert!(form.faults_at(9, INSTRUMENT, column) > 100, "{column}");
    }
    assert!(references.faults(0) > 300 && references.faults_at(12, OCCUPATION, 28) > 200);
}

#[test]
fn two_bytes() {
    let Judged { form, references } = Judged::over(files::two_bytes, least::TWO_BYTES);
    assert!(form.faults(4) > 10_000 && form.faults(9) > 10_000);
    assert!(references.faults(0) > 5_000 && references.faults(14) > 50_000);
}

/// Every fault that form can name but 2, for which files have to be long.
#[test]
fn damaged() {
    let Judged { form, references } = Judged::over(files::damaged, least::DAMAGED);
    assert!(form.faults(0) > 500);
    for number in 3..=10 {
        let [formed, not_formed] = [form.faults(number), references.not_formed(number)];
        assert!(formed > 500 && not_formed == formed, "fault {number}");
    }
    for kind in [INSTRUMENT, ANTENNA] {
        assert!(form.faults_at(10, kind, 11) > 100, "{kind}");
    }
    for number in [0, 11, 12, 14] {
        assert!(references.faults(number) > 500, "fault {number}");
    }
}

#[test]
fn cut() {
    let Judged { form, references } = Judged::over(files::cut, least::CUT);
    for number in [3, 4, 5, 8] {
        let [formed, not_formed] = [form.faults(number), references.not_formed(number)];
        assert!(formed > 50 && not_formed == formed, "fault {number}");
    }
}

#[test]
fn order() {
    let Judged { form, references } = Judged::over(files::order, least::ORDER);
    assert!(form.faults(7) > 5_000 && form.faults(0) > 500 && form.faults(10) > 500);
    assert!(references.faults(0) > 500 && references.not_formed(7) > 5_000);
}
