//! The slips the paper has seen.

use crate::sample::*;
use shelf::plain::{form, read, references, MISSING};

#[test]
fn a_blank_comment_is_a_record_all_the_same() {
    let file = with(&file(), 6, 11, &" ".repeat(70));
    assert_eq!(form(&file).counts, COUNTS);
    assert_eq!(read(&file, 6).unwrap().kind, 5);
    assert_eq!(columns(&house(&file), 6, 1, 10), "000060*26*");
    // A bad character in it would not be passed over either.
    let mut bad = file.clone();
    bad[81 * 5 + 79] = 0x7f;
    assert_eq!(verdict(&bad), (4, 6, 80));
}

#[test]
fn a_blank_height_is_missing_and_not_zero() {
    let file = file();
    assert_eq!(read(&file, 20).unwrap().values[1], MISSING);
    assert_eq!(columns(&house(&file), 20, 17, 7), "       ");
    let zero = with(&with(&file, 20, 17, "      0A"), 20, 27, "N");
    assert_eq!(read(&zero, 20).unwrap().values[1], 0);
    assert_eq!(columns(&house(&zero), 20, 17, 7), "0000000");
}

#[test]
fn half_a_metre_below_keeps_its_sign() {
    let orthometric = with(&file(), 18, 17, "   -500");
    assert_eq!(read(&orthometric, 18).unwrap().values[1], -500);
    assert_eq!(columns(&house(&orthometric), 18, 17, 7), "-000500");
    let antenna = with(&file(), 7, 56, " -500");
    assert_eq!(read(&antenna, 7).unwrap().values, [12, 191_105, 930, -500]);
    assert_eq!(columns(&house(&antenna), 7, 56, 5), "-0500");
}

#[test]
fn a_25_may_name_a_station_defined_later() {
    // Records 5 and 10 name stations 12 and 345 of records 19 and 17.
    let mut table = vec![0; 12_000];
    assert_eq!(references(&file(), &mut table).number, 0);
    assert_eq!((table[12], table[345]), (19, 17));
}

#[test]
fn an_undefined_station_waits_for_the_malformed_record() {
    let undefined = undefined_station();
    assert_eq!(verdict(&undefined), (12, 10, 11));
    let malformed = with(&undefined, 20, 15, "x");
    assert_eq!(verdict(&malformed), (9, 20, 15));
    let unended = &undefined[..81 * 23];
    assert_eq!(verdict(unended), (8, 24, 1));
}
