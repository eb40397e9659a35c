//! Read: each record that was changed, and records that are not there.

use crate::files::{self, Family};
use crate::least;
use crate::sides::Sides;
use shelf::plain::LINE;

fn read(family: Family, least: u64) -> Sides {
    Sides::over(family, least, |sides, file, record| {
        sides.read(file, record)
    })
}

#[test]
fn every_byte() {
    let sides = read(files::every_byte, least::EVERY_BYTE);
    assert!([0, 4, 5, 6, 9, 10]
        .iter()
        .all(|&number| sides.faults(number) > 50));
}

#[test]
fn filled() {
    assert!(read(files::filled, least::FILLED).faults(10) > 500);
}

#[test]
fn angles() {
    assert!(read(files::angles, least::ANGLES).faults(0) > 100);
}

#[test]
fn figures() {
    let sides = read(files::figures, least::FIGURES);
    assert!(sides.faults(0) > 1_000 && sides.faults(10) > 0);
}

/// A record by itself refers to nothing.
#[test]
fn references() {
    let sides = read(files::references, least::REFERENCES);
    assert!(sides.faults(0) > 100 && sides.faults(10) > 50);
}

/// A *70* by itself may have any number.
#[test]
fn receivers() {
    let sides = read(files::receivers, least::RECEIVERS);
    assert!(sides.faults(0) > 1_000 && sides.faults(9) > 1_000);
    assert_eq!(sides.faults(10), 0);
}

#[test]
fn two_bytes() {
    assert!(read(files::two_bytes, least::TWO_BYTES).faults(10) > 100);
}

/// Every record of accepted and damaged files, and those that are not there.
#[test]
fn damaged() {
    let sides = Sides::over(files::damaged, least::READ_RECORDS, |sides, file, _| {
        if file.len() < 60 * LINE {
            every_record(sides, file);
        }
    });
    for number in [0, 3, 4, 5, 6, 9, 10, 13] {
        assert!(sides.faults(number) > 500, "fault {number}");
    }
}

#[test]
fn cut() {
    let sides = read(files::cut, least::CUT);
    assert!([3, 4, 5, 13]
        .iter()
        .all(|&number| sides.faults(number) > 50));
}

/// Reading does not ask what stands before.
#[test]
fn order() {
    let sides = read(files::order, least::ORDER);
    assert_eq!(sides.faults(7), 0);
    assert!(sides.faults(0) > 10_000);
}

fn every_record(sides: &mut Sides, file: &[u8]) {
    let last = (file.len() / LINE) as u32;
    // The first bytes of the last two, cut to 32 bits, lie in the file.
    let far = [99_999, 100_000, u32::MAX, 53_024_288, 53_024_289];
    for record in (0..=last + 2).chain(far) {
        sides.read(file, record);
    }
}
