//! Refused files that are the small file with some columns replaced.

use super::survey::{small_with, Change};
use super::Specimen;

/// Name; fault number, record and column; the changes; what it is. Fault 9
/// stands at the first column at which no acceptable field begins so, 10 and
/// 12 at their field's first: neither need be a changed one.
pub type Row = (
    &'static str,
    (u32, u64, u64),
    &'static [Change],
    &'static str,
);

pub fn specimens() -> Vec<Specimen> {
    of_rows(ROWS, small_with)
}

/// The files of some rows, each made by `with` from its changes.
pub fn of_rows(rows: &[Row], with: fn(&[Change]) -> Vec<u8>) -> Vec<Specimen> {
    rows.iter()
        .map(|&(name, verdict, changes, why)| Specimen::bad(name, verdict, why, with(changes)))
        .collect()
}

const ROWS: &[Row] = &[
    (
        "fault_04_tab_in_title",
        (4, 2, 18),
        &[(2, 18, "\t")],
        "a tab, 09 hexadecimal, in column 18 of the *10*: 4 goes before 9",
    ),
    (
        "fault_05_line_of_81_columns",
        (5, 2, 81),
        &[(2, 81, " ")],
        "the *10* has a blank in column 81",
    ),
    (
        "fault_06_code_not_kept",
        (6, 3, 7),
        &[(3, 7, "*13*")],
        "*13* in place of the *12*: two digits, but no record kept",
    ),
    (
        "fault_06_lower_case_job_code",
        (6, 1, 7),
        &[(1, 7, "*c3*")],
        "*c3*: a job code starts with A-Z",
    ),
    (
        "fault_06_asterisk_lost",
        (6, 4, 7),
        &[(4, 7, "*25 ")],
        "`*25 `: column 10 is no asterisk",
    ),
    (
        "fault_07_other_last_job_code",
        (7, 13, 7),
        &[(13, 7, "*C4*")],
        "the file starts with *C3* and ends with *C4*: a known code, but not the first record's",
    ),
    (
        "fault_07_before_09",
        (7, 3, 7),
        &[(3, 1, "000000*26*")],
        "a *26* after the *10*, with the sequence number 0: 7 goes before 9 in column 1",
    ),
    (
        "fault_09_sequence_number_0",
        (9, 2, 6),
        &[(2, 1, "000000")],
        "*10*, sequence number 0: it is blank or 1 to 999999, and 000001 begins with five zeros",
    ),
    (
        "fault_09_sequence_number_to_the_left",
        (9, 3, 3),
        &[(3, 1, "30    ")],
        "*12*, sequence number with blanks behind its two digits",
    ),
    (
        "fault_09_lower_case_title",
        (9, 2, 18),
        &[(2, 18, "b")],
        "*10*, a small letter in column 18 of the title",
    ),
    (
        "fault_09_behind_every_title_character",
        (9, 2, 59),
        &[(2, 11, "ABCDEFGHIJKLMNOPQRSTUVWXYZ0123456789*,'=)(-.+\\/ a")],
        "*10*, behind the 48 characters of a title as 001 prints them a small letter, in column 59",
    ),
    (
        "fault_09_month_13",
        (9, 3, 16),
        &[(3, 11, "202313")],
        "*12*, begun in month 13: behind a 1 comes 0, 1 or 2",
    ),
    (
        "fault_09_month_blank",
        (9, 3, 17),
        &[(3, 17, "      ")],
        "*12*, end of the field work missing: no month begins with a blank",
    ),
    (
        "fault_09_backslash_in_name",
        (9, 3, 30),
        &[(3, 30, "\\")],
        "*12*, a backslash in column 30, which only the titles may have",
    ),
    (
        "fault_09_behind_every_mark_of_a_name",
        (9, 3, 37),
        &[(3, 26, "*,'=(-.+)/ n")],
        "*12*, behind the eleven marks of a name as 001 prints them a small letter, in column 37",
    ),
    (
        "fault_09_survey_method",
        (9, 3, 76),
        &[(3, 76, "3")],
        "*12*, survey method 3: it is always 4",
    ),
    (
        "fault_09_station_0",
        (9, 4, 14),
        &[(4, 11, "0000")],
        "*25*, station 0: they start at 1, and 0001 begins with three zeros",
    ),
    (
        "fault_09_day_367",
        (9, 4, 18),
        &[(4, 15, "T3673A0012")],
        "*25*, media identifier of day 367: the last is 366",
    ),
    (
        "fault_09_spacer_filled",
        (9, 4, 32),
        &[(4, 32, "x")],
        "*25*, a letter in the second of the blank columns 31-32",
    ),
    (
        "fault_09_antenna_height_blank",
        (9, 5, 60),
        &[(5, 56, "     ")],
        "*27*, height missing: only those of an *86* may be; blanks begin a height, and its last column is a digit",
    ),
    (
        "fault_09_equipment_code_0",
        (9, 7, 16),
        &[(7, 14, "000")],
        "*70*, equipment code 0: they start at 1, and 001 begins with two zeros",
    ),
    (
        "fault_09_radome_with_digit",
        (9, 9, 34),
        &[(9, 33, "N0NE")],
        "*72*, a digit among the letters of the radome",
    ),
    (
        "fault_09_latitude_past_the_pole",
        (9, 11, 55),
        &[(11, 45, "90000000001")],
        "*80*, latitude above 90 degrees by its last decimal",
    ),
    (
        "fault_09_latitude_with_blank",
        (9, 11, 45),
        &[(11, 45, " 1434512345")],
        "*80*, a blank in place of the first digit of the latitude",
    ),
    (
        "fault_09_letter_of_latitude",
        (9, 11, 56),
        &[(11, 56, "E")],
        "*80*, good digits with the letter E: the letter is a field of its own",
    ),
    (
        "fault_09_sixty_seconds",
        (9, 11, 62),
        &[(11, 57, "123016000000")],
        "*80*, longitude with 60 whole seconds: they begin with 0 to 5",
    ),
    (
        "fault_09_longitude_past_the_half_turn",
        (9, 11, 68),
        &[(11, 57, "180000000001")],
        "*80*, longitude above 180 degrees by its last decimal",
    ),
    (
        "fault_09_state_with_digit",
        (9, 11, 78),
        &[(11, 77, "R1")],
        "*80*, a digit among the letters of the country",
    ),
    (
        "fault_09_height_with_blank_inside",
        (9, 12, 19),
        &[(12, 17, "12 3456")],
        "*86*, a blank among the digits of the orthometric height",
    ),
    (
        "fault_09_half_a_digit_pair",
        (9, 12, 26),
        &[(12, 25, "2 ")],
        "*86*, a digit and a blank: both are digits or both blank, and a digit may come first",
    ),
    (
        "fault_09_indicator",
        (9, 12, 27),
        &[(12, 27, "X")],
        "*86*, neither Y nor N in column 27",
    ),
    (
        "fault_09_height_of_a_minus_only",
        (9, 12, 42),
        &[(12, 36, "      -")],
        "*86*, geoid height with no digit: its last column is one",
    ),
    (
        "fault_09_ellipsoid_code_digit",
        (9, 12, 53),
        &[(12, 53, "1")],
        "*86*, a digit as code of the ellipsoid height",
    ),
    (
        "fault_09_before_10_further_right",
        (9, 12, 19),
        &[(12, 17, "12.3456"), (12, 24, " ")],
        "*86* with a malformed orthometric height and no code for it: fields are judged from the left",
    ),
    (
        "fault_10_27_of_other_station",
        (10, 6, 11),
        &[(6, 11, "0013")],
        "*27* of station 13 in the group of station 12",
    ),
    (
        "fault_10_86_of_other_station",
        (10, 12, 11),
        &[(12, 11, "0013")],
        "*86* of station 13 behind the *80* of station 12",
    ),
    (
        "fault_10_70_falling",
        (10, 8, 11),
        &[(8, 11, "006")],
        "*70* of instrument 6 behind that of 7",
    ),
    (
        "fault_10_72_falling",
        (10, 10, 11),
        &[(10, 11, "002")],
        "*72* of antenna 2 behind that of 3",
    ),
    (
        "fault_10_72_repeated",
        (10, 10, 11),
        &[(10, 11, "003")],
        "*72* of antenna 3 twice: they rise strictly",
    ),
    (
        "fault_10_end_before_beginning",
        (10, 3, 17),
        &[(3, 17, "202310")],
        "*12* from November 2023 to October 2023",
    ),
    (
        "fault_10_code_without_orthometric_height",
        (10, 12, 24),
        &[(12, 17, "       ")],
        "*86*, code A with no orthometric height",
    ),
    (
        "fault_10_orthometric_height_without_code",
        (10, 12, 24),
        &[(12, 24, " ")],
        "*86*, orthometric height with no code",
    ),
    (
        "fault_10_indicator_without_orthometric_height",
        (10, 12, 27),
        &[(12, 17, "        ")],
        "*86*, column 27 is Y with no orthometric height and no code",
    ),
    (
        "fault_10_orthometric_height_without_indicator",
        (10, 12, 27),
        &[(12, 27, " ")],
        "*86*, orthometric height with column 27 blank",
    ),
    (
        "fault_10_code_without_geoid_height",
        (10, 12, 43),
        &[(12, 36, "       ")],
        "*86*, code 9 with no geoid height",
    ),
    (
        "fault_10_geoid_height_without_code",
        (10, 12, 43),
        &[(12, 43, " ")],
        "*86*, geoid height with no code",
    ),
    (
        "fault_10_code_without_ellipsoid_height",
        (10, 12, 53),
        &[(12, 46, "       ")],
        "*86*, code B with no ellipsoid height",
    ),
    (
        "fault_10_ellipsoid_height_without_code",
        (10, 12, 53),
        &[(12, 53, " ")],
        "*86*, ellipsoid height with no code",
    ),
    (
        "fault_10_before_09_further_right",
        (10, 6, 11),
        &[(6, 11, "0013"), (6, 15, "2311X1")],
        "*27* of another station, with a letter in its date: fields are judged from the left",
    ),
    (
        "fault_12_station",
        (12, 4, 11),
        &[(4, 11, "0013"), (5, 11, "0013"), (6, 11, "0013")],
        "*25* and *27* of station 13, which no *80* defines",
    ),
    (
        "fault_12_instrument",
        (12, 4, 28),
        &[(4, 28, "009"), (4, 33, "009")],
        "*25* with instrument 9, which no *70* defines; its antenna is undefined too, in a higher column",
    ),
    (
        "fault_12_antenna",
        (12, 4, 33),
        &[(4, 33, "  9")],
        "*25* with antenna 9, which no *72* defines",
    ),
    (
        "slip_undefined_station_then_malformed",
        (9, 12, 16),
        &[(4, 11, "0013"), (5, 11, "0013"), (6, 11, "0013"), (12, 16, "x")],
        "an undefined station in record 4, and a letter in the second of the blank columns 15-16 of the *86*: the malformed record is named",
    ),
];
