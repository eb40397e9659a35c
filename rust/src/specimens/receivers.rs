//! Files with more than one *70* of an instrument: the small file, whose *70*
//! are records 7 and 8, with others in their place or with some columns
//! replaced.

use super::changed::{of_rows, Row};
use super::survey::*;
use super::Specimen;

pub fn accepted() -> Vec<Specimen> {
    vec![
        Specimen::good(
            "accepted_70_twice",
            "*70* of instrument 7 twice, alike in nothing else, the second padded: numbers may repeat, word 10,007 is the first, record 7, and both are rewritten 007",
            small_with(&[(8, 11, "  7")]),
        ),
        Specimen::good(
            "accepted_70_twice_to_the_byte",
            "the same *70* of instrument 7 twice, its sequence number too: they need not differ either; word 10,007 is record 7",
            twice(7),
        ),
        Specimen::good(
            "accepted_70_three_in_other_dress",
            "*70* of instrument 7 three times, `  7`, `007` and ` 07`, then one of `  8`: they never fall by their values, word 10,007 is record 7 and word 10,008 record 10, and they are rewritten 007, 007, 007 and 008",
            with_instruments(&["  7", "007", " 07", "  8"]),
        ),
        Specimen::good(
            "accepted_70_repeated_at_the_ends",
            "*70* of instruments 1, 1, 7, 7, 7, 999 and 999: words 10,001, 10,007 and 10,999 are records 7, 9 and 12",
            with_instruments(&["001", "  1", "007", "007", "  7", "999", "999"]),
        ),
        Specimen::good(
            "accepted_25_of_a_repeated_70",
            "two *25*, of instruments 7 and 8, and *70* of 7, 8, 8 and 8: one that has three *70* is defined; word 10,008 is record 11",
            named_twice(),
        ),
        Specimen::good(
            "accepted_70_a_thousand",
            "1,000 *70*, more than there are numbers: 400 of instrument 7 and 600 of 8; every one is counted, words 10,007 and 10,008 are records 7 and 407",
            with_instruments(&[["007"; 400].as_slice(), &["  8"; 600]].concat()),
        ),
    ]
}

pub fn refused() -> Vec<Specimen> {
    let mut all = of_rows(ROWS, small_with);
    all.extend(falls());
    all
}

/// The small file with its *70* replaced by others of these numbers. Each
/// has another equipment code and other texts.
fn with_instruments(numbers: &[&str]) -> Vec<u8> {
    let makers = ["Trimble", "Leica Geosystems", "unknown", ""];
    let more = numbers.iter().enumerate().map(|(at, number)| {
        let code = format!("{:>3}", 45 + at % 900);
        let serial = format!("5049K{at:05}");
        instrument(number, &code, [makers[at % 4], "NetR9", &serial])
    });
    let mut lines = small();
    lines.splice(6..8, more);
    lines.concat()
}

/// The small file with one of its records there twice.
fn twice(number: usize) -> Vec<u8> {
    let again = small()[number - 1].clone();
    small_before(number, &[again])
}

/// A second group, of instrument 8, and two *70* of it behind its own.
fn named_twice() -> Vec<u8> {
    let group = [
        occupation("0012", "T3153B0012", "  8", "004"),
        measurement("0012", "231111", "1102", "01543"),
        measurement("0012", "231111", "1230", "01542"),
    ];
    let again = [
        instrument("  8", "113", ["Leica Geosystems", "GS18", "3701188"]),
        instrument("008", "114", ["Leica Geosystems", "GS18", ""]),
    ];
    let mut lines = small();
    lines.splice(8..8, again);
    lines.splice(6..6, group);
    lines.concat()
}

fn falls() -> Vec<Specimen> {
    vec![
        Specimen::bad(
            "fault_10_70_falling_after_repeated",
            (10, 10, 11),
            "*70* of instruments 7, 7, 7 and 6: behind a number that repeats comes none below it, not even by one",
            with_instruments(&["007", "007", "007", "006"]),
        ),
        Specimen::bad(
            "fault_10_70_coming_back",
            (10, 9, 11),
            "*70* of instruments 7, 8 and 7: those of one number stand together, so the last falls",
            with_instruments(&["007", "008", "007"]),
        ),
        Specimen::bad(
            "fault_10_70_falling_across_ten",
            (10, 10, 11),
            "*70* of instruments 7, `010`, ` 10` and `  9`: the last falls by its value",
            with_instruments(&["007", "010", " 10", "  9"]),
        ),
        Specimen::bad(
            "fault_10_70_falling_from_the_last",
            (10, 10, 11),
            "*70* of instruments 7, 999, 999 and 998: by one, from the last number",
            with_instruments(&["007", "999", "999", "998"]),
        ),
        Specimen::bad(
            "fault_07_70_after_72",
            (7, 10, 7),
            "a second *70* of instrument 7 behind the first *72*: after a *72* comes a *72* or an *80*",
            small_before(10, &[small()[6].clone()]),
        ),
    ]
}

const ROWS: &[Row] = &[
    (
        "fault_10_72_repeated_after_repeated_70",
        (10, 10, 11),
        &[(8, 11, "007"), (10, 11, "  3")],
        "*70* of instrument 7 twice, *72* of antenna 3 twice: only the *72* rise strictly",
    ),
    (
        "fault_10_70_falling_before_09",
        (10, 8, 11),
        &[(8, 11, "006"), (8, 14, "000")],
        "*70* of instrument 6 behind that of 7, its equipment code 0: fields are judged from the left",
    ),
    (
        "fault_09_70_repeated_equipment_code_0",
        (9, 8, 16),
        &[(8, 11, "007"), (8, 14, "000")],
        "a second *70* of instrument 7, its equipment code 0: the number is good, and 001 begins with two zeros",
    ),
    (
        "fault_09_70_repeated_spacer_filled",
        (9, 8, 22),
        &[(8, 11, "  7"), (8, 22, "x")],
        "a second *70* of instrument 7, a letter in the last of the blank columns 17-22",
    ),
    (
        "fault_09_70_falling_to_0",
        (9, 8, 13),
        &[(8, 11, "000")],
        "*70* of instrument 0 behind that of 7: 9 goes before 10, and 001 begins with two zeros",
    ),
    (
        "fault_09_70_repeated_to_the_left",
        (9, 8, 12),
        &[(8, 11, "7  ")],
        "*70* behind that of instrument 7, its number `7  `: no number has a blank behind a digit",
    ),
    (
        "fault_12_instrument_beside_repeated",
        (12, 4, 28),
        &[(8, 11, "007"), (4, 28, "008")],
        "*25* with instrument 8, and two *70*, both of 7: they define 7 alone",
    ),
];
