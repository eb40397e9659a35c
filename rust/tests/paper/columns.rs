//! The columns to try, P1 to P12, and those that are only run.

use crate::sample::*;
use shelf::plain::read;

const POINT: usize = 17;
const HEIGHTS: usize = 18;

/// A latitude with its letter: value and house style.
fn latitude(text: &str) -> (i64, String) {
    let file = with(&file(), POINT, 45, text);
    let value = read(&file, POINT as u64).unwrap().values[1];
    (value, columns(&house(&file), POINT, 45, 12))
}

fn longitude(text: &str) -> (i64, String) {
    let file = with(&file(), POINT, 57, text);
    let value = read(&file, POINT as u64).unwrap().values[2];
    (value, columns(&house(&file), POINT, 57, 13))
}

/// An orthometric height: value and house style.
fn height(text: &str) -> (i64, String) {
    let file = with(&file(), HEIGHTS, 17, text);
    let value = read(&file, HEIGHTS as u64).unwrap().values[1];
    (value, columns(&house(&file), HEIGHTS, 17, 7))
}

/// The verdict on a file with these columns, which read shares for a record.
fn refused(record: usize, first: usize, text: &str) -> (u32, u64, u64) {
    let file = with(&file(), record, first, text);
    let fault = read(&file, record as u64).unwrap_err();
    let verdict = verdict(&file);
    assert_eq!(verdict, (fault.number, fault.record, fault.column));
    verdict
}

#[test]
fn p1_southern_zero_is_zero_and_written_north() {
    assert_eq!(latitude("00000000000S"), (0, "00000000000N".into()));
}

#[test]
fn p2_a_northern_latitude() {
    assert_eq!(
        latitude("38531512345N"),
        (13_999_512_345, "38531512345N".into())
    );
}

#[test]
fn p3_ninety_degrees_are_good() {
    assert_eq!(
        latitude("90000000000N"),
        (32_400_000_000, "90000000000N".into())
    );
    assert_eq!(
        latitude("90000000000S"),
        (-32_400_000_000, "90000000000S".into())
    );
}

#[test]
fn p4_above_ninety_degrees_is_fault_9() {
    assert_eq!(refused(POINT, 45, "90000000001N"), (9, 17, 55));
}

#[test]
fn p5_180_west_is_180_east() {
    assert_eq!(
        longitude("180000000000W"),
        (64_800_000_000, "180000000000E".into())
    );
    assert_eq!(
        longitude("180000000000E"),
        (64_800_000_000, "180000000000E".into())
    );
    assert_eq!(refused(POINT, 57, "180000000001E"), (9, 17, 68));
    assert_eq!(
        longitude("179595999999W"),
        (-64_799_999_999, "179595999999W".into())
    );
}

#[test]
fn p6_the_smallest_western_longitude() {
    assert_eq!(longitude("000000000001W"), (-1, "000000000001W".into()));
    assert_eq!(longitude("000000000000W"), (0, "000000000000E".into()));
}

#[test]
fn p7_a_minus_inside_a_height() {
    assert_eq!(height("  -1234"), (-1_234, "-001234".into()));
}

#[test]
fn p8_minus_zero_is_zero() {
    assert_eq!(height("-000000"), (0, "0000000".into()));
}

#[test]
fn p9_the_ends_of_a_height() {
    assert_eq!(height("-999999"), (-999_999, "-999999".into()));
    assert_eq!(height("9999999"), (9_999_999, "9999999".into()));
    assert_eq!(height("      7"), (7, "0000007".into()));
}

#[test]
fn p10_a_blank_inside_a_height_is_fault_9() {
    assert_eq!(refused(HEIGHTS, 17, "12 3456"), (9, 18, 19));
    assert_eq!(refused(HEIGHTS, 17, "      -"), (9, 18, 23));
    assert_eq!(refused(HEIGHTS, 17, "- 12345"), (9, 18, 18));
    assert_eq!(refused(HEIGHTS, 17, "--12345"), (9, 18, 18));
    assert_eq!(refused(HEIGHTS, 17, "+012345"), (9, 18, 17));
    assert_eq!(refused(HEIGHTS, 17, "12345  "), (9, 18, 22));
}

#[test]
fn p11_a_padded_station_is_written_zero_filled() {
    let file = file();
    assert_eq!(columns(&file, 5, 11, 4), "  12");
    assert_eq!(read(&file, 5).unwrap().values[0], 12);
    assert_eq!(columns(&house(&file), 5, 11, 4), "0012");
}

#[test]
fn p12_station_zero_is_fault_9() {
    assert_eq!(refused(5, 11, "0000"), (9, 5, 14));
}

#[test]
fn a_third_measurement_is_good_and_a_fourth_is_fault_7() {
    let mut lines = lines();
    // Record 9 is the third of its group already.
    assert_eq!(verdict(&lines.concat()), ACCEPTED);
    lines.insert(9, measurement("0012"));
    assert_eq!(verdict(&lines.concat()), (7, 10, 7));
}

#[test]
fn a_code_without_its_height_is_fault_10() {
    assert_eq!(refused(20, 24, "A"), (10, 20, 24));
}
