//! The column of fault 9 found as the request says it, without a rule of
//! thumb: of all the strings over some characters those that are acceptable
//! are kept, and a bad one is named at its first beginning that none of them
//! has.
//!
//! The characters of each test are such that what can be completed at all can
//! be completed with them.

use crate::pointing::read_says;
use crate::sample::lines;
use std::collections::HashSet;
use std::ops::RangeInclusive;

/// Every string of so many of these characters.
fn strings(width: usize, characters: &str) -> Vec<String> {
    let mut all = vec![String::new()];
    for _ in 0..width {
        all = all
            .iter()
            .flat_map(|start| characters.chars().map(move |next| format!("{start}{next}")))
            .collect();
    }
    all
}

/// Puts each of these into the columns from `first` on of a record of the
/// sample, and reads it.
fn hold(record: usize, first: usize, fields: &[String], acceptable: impl Fn(&str) -> bool) {
    let mut line = lines()[record - 1].clone();
    let good: Vec<bool> = fields.iter().map(|field| acceptable(field)).collect();
    let kept = fields.iter().zip(&good).filter(|(_, &good)| good);
    let beginnings: HashSet<&str> = kept
        .flat_map(|(field, _)| (1..=field.len()).map(move |length| &field[..length]))
        .collect();
    assert!(!beginnings.is_empty() && good.contains(&false));
    for (field, good) in fields.iter().zip(good) {
        line[first - 1..first - 1 + field.len()].copy_from_slice(field.as_bytes());
        let fault = read_says(&line, 1);
        let about = || format!("record {record} column {first} {field:?}");
        if good {
            assert_ne!(fault[0], 9, "{}", about());
        } else {
            let of_none = |length: &usize| !beginnings.contains(&field[..*length]);
            let length = (1..=field.len()).find(of_none).unwrap();
            assert_eq!(fault, [9, 1, (first + length - 1) as u32], "{}", about());
        }
    }
}

/// Every printable character.
fn printable() -> String {
    (' '..='~').collect()
}

fn is_digits(text: &str) -> bool {
    !text.is_empty() && text.bytes().all(|byte| byte.is_ascii_digit())
}

/// The number that some digits spell, if they are digits.
fn value(text: &str) -> Option<u64> {
    text.parse().ok().filter(|_| is_digits(text))
}

fn without_blanks(text: &str) -> &str {
    text.trim_start_matches(' ')
}

fn is_number_from(least: u64, text: &str) -> bool {
    is_number_of(least..=u64::MAX, text)
}

fn is_number_of(range: RangeInclusive<u64>, text: &str) -> bool {
    value(without_blanks(text)).is_some_and(|number| range.contains(&number))
}

fn is_height(text: &str) -> bool {
    let written = without_blanks(text);
    is_digits(written.strip_prefix('-').unwrap_or(written))
}

fn is_blank(text: &str) -> bool {
    without_blanks(text).is_empty()
}

fn is_in(set: &str, text: &str) -> bool {
    text.chars().all(|character| set.contains(character))
}

const LETTERS: &str = "ABCDEFGHIJKLMNOPQRSTUVWXYZ";
const LETTERS_AND_DIGITS: &str = "ABCDEFGHIJKLMNOPQRSTUVWXYZ0123456789";

#[test]
fn stations() {
    let some = strings(4, " 0123456789-A.");
    hold(5, 11, &some, |text| is_number_from(1, text));
    let few = strings(4, " 01A");
    for (record, first) in [(7, 11), (17, 11), (18, 11), (21, 11), (22, 11), (22, 17)] {
        hold(record, first, &few, |text| is_number_from(1, text));
    }
}

#[test]
fn instruments_antennas_and_equipment() {
    let some = strings(3, " 0123456789-+.AZa:/");
    hold(5, 28, &some, |text| is_number_from(1, text));
    let few = strings(3, " 019A");
    for (record, first) in [(5, 33), (13, 11), (13, 14), (15, 11)] {
        hold(record, first, &few, |text| is_number_from(1, text));
    }
}

#[test]
fn dates_and_times() {
    let dates = strings(6, " 01A");
    hold(7, 15, &dates, |text| is_number_from(0, text));
    let times = strings(4, " 0129-:");
    hold(7, 21, &times, |text| is_number_from(0, text));
}

#[test]
fn sequence_numbers() {
    let some = strings(6, " 01-A");
    for record in [1, 4, 18] {
        hold(record, 1, &some, |text| {
            is_blank(text) || is_number_from(1, text)
        });
    }
}

#[test]
fn heights() {
    hold(7, 56, &strings(5, " -019A"), is_height);
    let some = strings(7, " -0A");
    for first in [17, 36, 46] {
        hold(18, first, &some, |text| is_blank(text) || is_height(text));
    }
}

#[test]
fn deviations() {
    let is_deviation = |text: &str| is_number_of(0..=999_999_999, text);
    hold(21, 21, &strings(10, " 01"), is_deviation);
    let some = with_tails(strings(4, " 019-."));
    for (record, first) in [(21, 31), (21, 51), (22, 23), (22, 33), (22, 53)] {
        hold(record, first, &some, is_deviation);
    }
}

#[test]
fn correlations() {
    let is_correlation = |text: &str| match without_blanks(text).strip_prefix('-') {
        Some(digits) => value(digits).is_some_and(|number| number <= 99_999_990),
        None => is_number_of(0..=99_999_999, text),
    };
    hold(21, 41, &strings(10, " -0"), is_correlation);
    let some = with_tails(strings(4, " -019+."));
    for (record, first) in [(21, 41), (22, 43)] {
        hold(record, first, &some, is_correlation);
    }
}

/// Four columns with six behind them: figures at the ends of their ranges and
/// beside them, and what is good up to some column.
fn with_tails(heads: Vec<String>) -> Vec<String> {
    let tails = [
        "000000", "000001", "999999", "999990", "999991", "      ", "     0", "     1", "99999 ",
        "99999-", "-00000", "-00001", "    -0", "     -", "   -00", "   -0 ", "0 0000", "00.000",
    ];
    let with_tail = |head: String| tails.map(|tail| head.clone() + tail);
    heads.into_iter().flat_map(with_tail).collect()
}

#[test]
fn factors() {
    let is_factor = |text: &str| is_number_of(1..=9_999, text);
    hold(23, 11, &strings(8, " 01A"), is_factor);
    hold(23, 19, &strings(8, " 09"), is_factor);
}

#[test]
fn months() {
    let is_month = |text: &str| {
        let year = value(&text[..4]).is_some_and(|year| year >= 1);
        year && value(&text[4..]).is_some_and(|month| (1..=12).contains(&month))
    };
    let some = strings(6, "01239 A");
    for first in [11, 17] {
        hold(4, first, &some, is_month);
    }
    // Both digits of the month, whatever they are.
    let all = strings(2, &printable()).into_iter();
    let all: Vec<String> = all.map(|month| format!("2019{month}")).collect();
    hold(4, 11, &all, is_month);
}

#[test]
fn media_identifiers() {
    let is_media = |text: &str| {
        is_in(LETTERS, &text[..1])
            && value(&text[1..4]).is_some_and(|day| (1..=366).contains(&day))
            && is_digits(&text[4..5])
            && is_in(LETTERS_AND_DIGITS, &text[5..6])
    };
    hold(5, 15, &strings(10, "A1 "), is_media);
    let days = strings(3, " 0123456789A-").into_iter();
    let days: Vec<String> = days.map(|day| format!("T{day}9Aab~ ")).collect();
    hold(5, 15, &days, is_media);
}

/// Degrees, minutes and whole seconds, then decimals that are good, are good
/// up to their last column, and are not.
fn angles(heads: Vec<String>) -> Vec<String> {
    let decimals = ["00000", "00001", "99999", "0000.", "9999 ", " 0000"];
    let with_decimals = |head: String| decimals.map(|decimals| head.clone() + decimals);
    heads.into_iter().flat_map(with_decimals).collect()
}

fn is_angle(most: u64, text: &str) -> bool {
    let (degrees, rest) = text.split_at(text.len() - 9);
    let below_60 = |text| value(text).is_some_and(|number| number < 60);
    is_digits(text)
        && below_60(&rest[..2])
        && below_60(&rest[2..4])
        && value(degrees)
            .is_some_and(|degrees| degrees < most || (degrees == most && is_in("0", rest)))
}

#[test]
fn latitudes() {
    let some = angles(strings(6, "0569x"));
    hold(17, 45, &some, |text| is_angle(90, text));
}

#[test]
fn longitudes() {
    let some = angles(strings(7, "0168"));
    hold(17, 57, &some, |text| is_angle(180, text));
    let degrees = strings(3, "0123456789 A").into_iter();
    let degrees = degrees.map(|degrees| degrees + "0000").collect();
    hold(17, 57, &angles(degrees), |text| is_angle(180, text));
}

#[test]
fn pairs() {
    let all = strings(2, &printable());
    hold(18, 25, &all, |text| is_digits(text) || is_blank(text));
    hold(18, 28, &all, |text| {
        is_in(LETTERS_AND_DIGITS, text) || is_blank(text)
    });
}

#[test]
fn letters() {
    let all = strings(2, &printable());
    for record in [4, 17] {
        hold(record, 77, &all, |text| is_in(LETTERS, text));
    }
    hold(15, 33, &strings(4, " AZa0@["), |text| is_in(LETTERS, text));
    let initials = strings(3, " AZa0@[");
    for (record, first) in [(4, 23), (4, 44), (5, 25)] {
        hold(record, first, &initials, |text| {
            is_in(LETTERS, &text.replace(' ', ""))
        });
    }
}

/// The fields of one column: codes, letters of angles, the survey method.
#[test]
fn single_columns() {
    let all = strings(1, &printable());
    let letter_or_blank = |text: &str| is_blank(text) || is_in(LETTERS, text);
    for first in [24, 53, 56] {
        hold(18, first, &all, letter_or_blank);
    }
    hold(18, 43, &all, |text| {
        is_blank(text) || is_in(LETTERS_AND_DIGITS, text)
    });
    hold(18, 27, &all, |text| is_in("YN ", text));
    for (record, first) in [(21, 65), (22, 67)] {
        hold(record, first, &all, |text| is_in("YN", text));
    }
    hold(17, 56, &all, |text| is_in("NS", text));
    hold(17, 69, &all, |text| is_in("EW", text));
    hold(4, 76, &all, |text| text == "4");
}
