//! Refused files whose lines or bytes are more or fewer than they should be,
//! or come in another order. Fault 2 needs 100,000 records and fault 1 a
//! short table or output; neither is a file of this size.

use super::survey::*;
use super::Specimen;

pub fn specimens() -> Vec<Specimen> {
    [
        last_lines(),
        bytes(),
        after_the_last(),
        places(),
        ends(),
        references(),
    ]
    .into_iter()
    .flatten()
    .collect()
}

/// Fault 3.
fn last_lines() -> Vec<Specimen> {
    let whole = small().concat();
    vec![
        Specimen::bad(
            "fault_03_short_last_line",
            (3, 13, 41),
            "the last line has 40 bytes, all printable: 40 + 1",
            whole[..81 * 12 + 40].to_vec(),
        ),
        Specimen::bad(
            "fault_03_no_last_line_feed",
            (3, 13, 81),
            "the last line has 80 columns and no line feed: 80 + 1",
            whole[..81 * 13 - 1].to_vec(),
        ),
    ]
}

/// Faults 4 and 5.
fn bytes() -> Vec<Specimen> {
    let whole = small().concat();
    let mut short_line = whole.clone();
    short_line.remove(81 + 79);
    let returns = small()
        .iter()
        .flat_map(|line| [&line[..80], b"\r\n"].concat())
        .collect();
    vec![
        Specimen::bad(
            "fault_04_line_of_79_columns",
            (4, 2, 80),
            "the *10* has lost its last column: its line feed stands in column 80",
            short_line,
        ),
        Specimen::bad(
            "fault_04_delete_in_column_80",
            (4, 12, 80),
            "7F hexadecimal in column 80 of the *86*: the last printable byte is 7E",
            with_byte(&whole, 81 * 11 + 79, 0x7f),
        ),
        Specimen::bad(
            "fault_04_before_03",
            (4, 13, 30),
            "the last line has 40 bytes, and E9 hexadecimal in column 30: the lowest column is 4's",
            with_byte(&whole[..81 * 12 + 40], 81 * 12 + 29, 0xe9),
        ),
        Specimen::bad(
            "fault_05_carriage_returns",
            (5, 1, 81),
            "every line ends in CR LF: the CR stands in column 81",
            returns,
        ),
    ]
}

fn with_byte(file: &[u8], place: usize, byte: u8) -> Vec<u8> {
    let mut file = file.to_vec();
    file[place] = byte;
    file
}

/// Something behind the last job code.
fn after_the_last() -> Vec<Specimen> {
    let and = |more: &[u8]| [&small().concat()[..], more].concat();
    vec![
        Specimen::bad(
            "fault_03_one_byte_after_the_last",
            (3, 14, 2),
            "a blank after the last record: record 14 has begun with 1 byte",
            and(b" "),
        ),
        Specimen::bad(
            "fault_06_before_07",
            (6, 14, 7),
            "a *99* after the last job code: 6 goes before 7",
            and(&record(&[(7, "*99*")])),
        ),
        Specimen::bad(
            "fault_07_record_after_the_last",
            (7, 14, 7),
            "a *93* after the last job code: nothing may come there",
            and(&factor("00001000", "00001000", "")),
        ),
    ]
}

/// Fault 7.
fn places() -> Vec<Specimen> {
    let third = measurement("0012", "231111", "1015", "01543");
    let fourth = measurement("0012", "231111", "1130", "01543");
    let mut accuracies = adjusted()[15..17].to_vec();
    accuracies.reverse();
    vec![
        Specimen::bad(
            "fault_07_fourth_27",
            (7, 8, 7),
            "a group with four *27*: after the third comes a *25* or a *70*",
            small_before(7, &[third, fourth]),
        ),
        Specimen::bad(
            "fault_07_only_one_27",
            (7, 6, 7),
            "a *70* after the first *27* of a group: a second *27* must come",
            small_without(6),
        ),
        Specimen::bad(
            "fault_07_no_first_job_code",
            (7, 1, 7),
            "the file starts with its *10*",
            small_without(1),
        ),
        Specimen::bad(
            "fault_07_80_without_86",
            (7, 12, 7),
            "two *80* on end: after an *80* comes an *86*",
            small_before(12, &[second_point("0013")]),
        ),
        Specimen::bad(
            "fault_07_91_after_92",
            (7, 14, 7),
            "a *92*, then a *91*: the accuracies come in order",
            small_before(13, &accuracies),
        ),
    ]
}

/// Fault 8.
fn ends() -> Vec<Specimen> {
    let undefined = small_with(&[(4, 11, "0013"), (5, 11, "0013"), (6, 11, "0013")]);
    vec![
        Specimen::bad(
            "fault_08_empty",
            (8, 1, 1),
            "no byte at all: a job code must follow",
            Vec::new(),
        ),
        Specimen::bad(
            "fault_08_first_job_code_only",
            (8, 2, 1),
            "one record: a *10* must follow",
            job(),
        ),
        Specimen::bad(
            "fault_08_last_job_code_lost",
            (8, 13, 1),
            "the last record is the *86*: record 13 must follow",
            small_without(13),
        ),
        Specimen::bad(
            "fault_08_before_12",
            (8, 13, 1),
            "an undefined station, and the last record is lost: 12 waits for all others",
            undefined[..81 * 12].to_vec(),
        ),
    ]
}

/// Fault 11.
fn references() -> Vec<Specimen> {
    let again = [second_point("  12"), heights("0012", &[])];
    let mut both = small();
    both.splice(12..12, again.clone());
    both[3] = occupation("0012", "T3153A0012", "009", "003");
    vec![
        Specimen::bad(
            "fault_11_station_defined_twice",
            (11, 13, 11),
            "a second *80* of station 12, padded: the second is at fault",
            small_before(13, &again),
        ),
        Specimen::bad(
            "fault_12_before_11",
            (12, 4, 28),
            "an undefined instrument in record 4, a second *80* in record 13: the earliest record first",
            both.concat(),
        ),
    ]
}
