//! Files whose *91*, *92* and *93* are what is tried: the adjusted file with
//! some columns replaced, and accepted ones.

use super::changed::{of_rows, Row};
use super::survey::*;
use super::Specimen;

pub fn refused() -> Vec<Specimen> {
    let parts = [NETWORK, LOCAL, FACTORS, PRECEDENCE, REFERENCES];
    let mut all: Vec<Specimen> = parts
        .into_iter()
        .flat_map(|rows| of_rows(rows, adjusted_with))
        .collect();
    all.push(Specimen::bad(
        "fault_07_two_93",
        (7, 19, 7),
        "a second *93*: after the first comes the job code",
        twice(18),
    ));
    all
}

pub fn accepted() -> Vec<Specimen> {
    vec![
        Specimen::good(
            "accepted_accuracies_at_their_ends",
            "deviations of 0 and 999,999,999, correlations of -99,999,990 and 99,999,999, factors of 1 and 9,999, comments of every column: nothing is wrong, and they are rewritten as they stand",
            at_their_ends(),
        ),
        Specimen::good(
            "accepted_accuracies_in_other_dress",
            "the same figures with blanks before them, a correlation of minus zero and one of -50: rewritten zero filled, the least -099999990, minus zero 0000000000, the other -000000050",
            in_other_dress(),
        ),
        Specimen::good(
            "accepted_accuracies_of_one_station",
            "three *91* of station 12, the pair of stations in two *92* and turned round in a third, no *93*: a station and a pair may come again",
            of_one_station(),
        ),
        Specimen::good(
            "accepted_only_a_93",
            "a *93* behind the last *86*: no *91* and no *92* need come before",
            only_a_factor(),
        ),
        Specimen::good(
            "slip_accuracies_with_blank_comments",
            "*91*, *92* and *93* have no comment: they are records all the same, and counted",
            adjusted_with(&[
                (15, 66, "               "),
                (17, 68, "             "),
                (18, 27, "                      "),
            ]),
        ),
    ]
}

/// The adjusted file with one of its records there twice.
fn twice(number: usize) -> Vec<u8> {
    let mut lines = adjusted();
    let again = lines[number - 1].clone();
    lines.insert(number, again);
    lines.concat()
}

/// The adjusted file with other accuracies.
fn with_accuracies(accuracies: &[Vec<u8>]) -> Vec<u8> {
    let mut lines = adjusted();
    lines.splice(14..18, accuracies.iter().cloned());
    numbered(lines).concat()
}

fn at_their_ends() -> Vec<u8> {
    let least = ["0000000000", "0999999999", "-099999990", "0000000000"];
    let most = ["0999999999", "0000000000", "0099999999", "0999999999"];
    with_accuracies(&[
        network("0012", least, "Y", " !\"#$%&'()*+,-."),
        network("0013", most, "N", "abcdefghijklmn~"),
        local(["0013", "0012"], least, "N", " {|}~[\\]^_` @"),
        local(["0012", "0013"], most, "Y", "0123456789:;<"),
        factor(
            "00000001",
            "00009999",
            "from column 27 up to 80: its blanks  are kept as well.",
        ),
    ])
}

fn in_other_dress() -> Vec<u8> {
    let least = ["         0", " 999999999", " -99999990", "        00"];
    let most = ["0999999999", " 000000000", "  99999999", " 999999999"];
    let zero = ["         1", "        02", "        -0", "       003"];
    let negative = ["         0", "         0", "       -50", "         0"];
    with_accuracies(&[
        network("  12", least, "Y", ""),
        network(" 013", most, "N", ""),
        local(["  13", " 012"], zero, "N", ""),
        local(["0012", "  13"], negative, "Y", ""),
        factor("       1", "    9999", ""),
    ])
}

fn of_one_station() -> Vec<u8> {
    let figures = ["0000000062", "0000000058", "-012345678", "0000000110"];
    with_accuracies(&[
        network("0012", figures, "Y", "first"),
        network("  12", figures, "N", "again"),
        network("0012", figures, "Y", "first"),
        local(["0012", "0013"], figures, "Y", ""),
        local(["  12", "  13"], figures, "N", ""),
        local(["0013", "0012"], figures, "N", "turned round"),
    ])
}

fn only_a_factor() -> Vec<u8> {
    small_before(13, &[factor("    1000", "    1000", "")])
}

/// Records 15 and 16.
const NETWORK: &[Row] = &[
    (
        "fault_09_91_station_0",
        (9, 15, 14),
        &[(15, 11, "0000")],
        "*91*, station 0: they start at 1, and 0001 begins with three zeros",
    ),
    (
        "fault_09_91_spacer_filled",
        (9, 15, 20),
        &[(15, 20, "0")],
        "*91*, a digit in the last of the blank columns 15-20",
    ),
    (
        "fault_09_91_deviation_of_ten_digits",
        (9, 15, 21),
        &[(15, 21, "1000000000")],
        "*91*, a north deviation of 1,000,000,000: nine digits are printed for ten columns, so none begins with a 1",
    ),
    (
        "fault_09_91_deviation_with_point",
        (9, 15, 28),
        &[(15, 21, "      0.62")],
        "*91*, a north deviation with a written point: decimals are implied",
    ),
    (
        "fault_09_91_deviation_blank",
        (9, 15, 40),
        &[(15, 31, "          ")],
        "*91*, east deviation missing: the source does not call it optional; blanks begin a number, and its last column is a digit",
    ),
    (
        "fault_09_91_deviation_negative",
        (9, 15, 57),
        &[(15, 51, "      -110")],
        "*91*, an ellipsoid height deviation with a minus: only the correlation has a sign",
    ),
    (
        "fault_09_91_correlation_of_one",
        (9, 15, 42),
        &[(15, 41, "0100000000")],
        "*91*, correlation of 1: the most is 99,999,999, and no correlation begins with 01",
    ),
    (
        "fault_09_91_correlation_of_minus_one",
        (9, 15, 42),
        &[(15, 41, "-100000000")],
        "*91*, correlation of -1: behind a minus in the first column comes a zero",
    ),
    (
        "fault_09_91_correlation_below_the_least",
        (9, 15, 50),
        &[(15, 41, "-099999991")],
        "*91*, correlation of -99,999,991: the least is -99,999,990, which begins with the same nine characters",
    ),
    (
        "fault_09_91_correlation_blank",
        (9, 16, 50),
        &[(16, 41, "          ")],
        "*91*, correlation missing: the source does not call it optional",
    ),
    (
        "fault_09_91_correlation_of_a_minus_only",
        (9, 16, 50),
        &[(16, 41, "         -")],
        "*91*, correlation with no digit: its last column is one",
    ),
    (
        "fault_09_91_correlation_with_plus",
        (9, 16, 41),
        &[(16, 41, "+050000000")],
        "*91*, correlation with a plus: the only sign is the minus",
    ),
    (
        "fault_09_91_correlation_with_point",
        (9, 16, 43),
        &[(16, 41, " -.5000000")],
        "*91*, correlation with a written point: behind the minus come digits",
    ),
    (
        "fault_09_91_correlation_with_blank_after_minus",
        (9, 16, 42),
        &[(16, 41, "-  5000000")],
        "*91*, correlation with blanks between minus and digits: blanks stand before the minus only",
    ),
    (
        "fault_09_91_scaled_code_blank",
        (9, 16, 65),
        &[(16, 65, " ")],
        "*91*, scaled code missing: it is Y or N",
    ),
];

/// Record 17.
const LOCAL: &[Row] = &[
    (
        "fault_09_92_standpoint_with_blank_behind",
        (9, 17, 13),
        &[(17, 11, "12  ")],
        "*92*, standpoint with blanks behind its digits",
    ),
    (
        "fault_09_92_forepoint_blank",
        (9, 17, 20),
        &[(17, 17, "    ")],
        "*92*, no forepoint: blanks begin a number, and its last column is a digit",
    ),
    (
        "fault_09_92_spacer_filled",
        (9, 17, 21),
        &[(17, 21, "-")],
        "*92*, a minus in the first of the blank columns 21-22",
    ),
    (
        "fault_09_92_correlation_with_blank_inside",
        (9, 17, 44),
        &[(17, 43, "0 50000000")],
        "*92*, correlation with a blank behind its first digit",
    ),
    (
        "fault_09_92_height_deviation_all_nines",
        (9, 17, 53),
        &[(17, 53, "9999999999")],
        "*92*, an ellipsoid height deviation of ten nines: the most is nine, and 32 bits could not hold it",
    ),
    (
        "fault_09_92_scaled_code",
        (9, 17, 67),
        &[(17, 67, "y")],
        "*92*, a small letter as scaled code",
    ),
    (
        "fault_10_92_of_one_station",
        (10, 17, 17),
        &[(17, 17, "  12")],
        "*92* from station 12 to station 12, padded: where a record names two they differ",
    ),
];

/// Record 18.
const FACTORS: &[Row] = &[
    (
        "fault_09_93_factor_0",
        (9, 18, 18),
        &[(18, 11, "00000000")],
        "*93*, horizontal factor 0: they start at 1, and 00000001 begins with seven zeros",
    ),
    (
        "fault_09_93_factor_of_ten",
        (9, 18, 14),
        &[(18, 11, "00010000")],
        "*93*, horizontal factor 10,000: the most is 9,999, which has nothing but zeros or blanks in columns 11-14",
    ),
    (
        "fault_09_93_factor_with_point",
        (9, 18, 14),
        &[(18, 11, "   1.000")],
        "*93*, horizontal factor with a written point: the digit before the point stands too far left already",
    ),
    (
        "fault_09_93_factor_below_one_with_point",
        (9, 18, 23),
        &[(18, 19, "    .950")],
        "*93*, vertical factor that begins with a point",
    ),
    (
        "fault_09_93_factor_blank",
        (9, 18, 26),
        &[(18, 19, "        ")],
        "*93*, vertical factor missing: the source does not call it optional",
    ),
];

/// Which fault is named of several.
const PRECEDENCE: &[Row] = &[
    (
        "fault_07_91_before_09",
        (7, 18, 7),
        &[(18, 7, "*91*0000")],
        "a *91* of station 0 behind the *92*: 7 goes before 9",
    ),
    (
        "fault_09_92_before_10_further_right",
        (9, 17, 16),
        &[(17, 16, "x0012")],
        "*92* of one station, with a letter in the second of the blank columns 15-16: fields are judged from the left",
    ),
    (
        "fault_10_92_before_09_further_right",
        (10, 17, 17),
        &[(17, 17, "0012"), (17, 23, "0.40      ")],
        "*92* of one station, with a written point in its north deviation: fields are judged from the left",
    ),
    (
        "fault_10_92_before_12_of_25",
        (10, 17, 17),
        &[(4, 28, "009"), (17, 17, "0012")],
        "an undefined instrument in record 4, and a *92* of one station: 12 waits for all others",
    ),
    (
        "fault_10_92_before_12_of_its_own",
        (10, 17, 17),
        &[(17, 11, "0014"), (17, 17, "  14")],
        "*92* from station 14 to station 14, which no *80* defines: 12 waits for all others",
    ),
    (
        "fault_11_before_12_of_91",
        (11, 13, 11),
        &[(13, 11, "0012"), (14, 11, "0012"), (15, 11, "0014")],
        "a second *80* of station 12 in record 13, a *91* of an undefined station in record 15: the earliest record first",
    ),
    (
        "fault_12_of_25_before_12_of_91",
        (12, 4, 33),
        &[(4, 33, "009"), (15, 11, "0014")],
        "an undefined antenna in record 4, a *91* of an undefined station in record 15: the earliest record first",
    ),
    (
        "slip_undefined_station_of_91_then_malformed",
        (9, 18, 18),
        &[(15, 11, "0014"), (18, 11, "       0")],
        "a *91* of an undefined station, and a horizontal factor of 0 in the *93*: the malformed record is named",
    ),
];

/// Fault 12.
const REFERENCES: &[Row] = &[
    (
        "fault_12_91_station",
        (12, 16, 11),
        &[(16, 11, "0014")],
        "*91* of station 14, which no *80* defines",
    ),
    (
        "fault_12_91_station_is_an_instrument",
        (12, 15, 11),
        &[(15, 11, "   7")],
        "*91* of station 7: a *70* has that number, but no *80*",
    ),
    (
        "fault_12_92_standpoint",
        (12, 17, 11),
        &[(17, 11, "0014")],
        "*92* from station 14, which no *80* defines",
    ),
    (
        "fault_12_92_forepoint",
        (12, 17, 17),
        &[(17, 17, "  14")],
        "*92* to station 14, which no *80* defines",
    ),
    (
        "fault_12_92_both",
        (12, 17, 11),
        &[(17, 11, "0015"), (17, 17, "0014")],
        "*92* from station 15 to station 14, neither defined: the lowest column first",
    ),
    (
        "fault_12_91_before_92",
        (12, 15, 11),
        &[(15, 11, "0014"), (17, 11, "0014")],
        "*91* and *92* of station 14, which no *80* defines: the earliest record first",
    ),
];
