//! Rewrite, on the files that form and references are tried on; enough of them
//! are accepted.

use crate::files::{self, Family};
use crate::least;
use crate::sides::Sides;

fn rewritten(family: Family, least: u64) -> u32 {
    Sides::over(family, least, |sides, file, _| sides.rewrite(file)).faults(0)
}

#[test]
fn every_byte() {
    assert!(rewritten(files::every_byte, least::EVERY_BYTE) > 50_000);
}

#[test]
fn filled() {
    assert!(rewritten(files::filled, least::FILLED) > 5_000);
}

#[test]
fn angles() {
    assert!(rewritten(files::angles, least::ANGLES) > 100);
}

#[test]
fn figures() {
    assert!(rewritten(files::figures, least::FIGURES) > 1_000);
}

#[test]
fn references() {
    assert!(rewritten(files::references, least::REFERENCES) > 0);
}

#[test]
fn receivers() {
    assert!(rewritten(files::receivers, least::RECEIVERS) > 300);
}

#[test]
fn two_bytes() {
    assert!(rewritten(files::two_bytes, least::TWO_BYTES) > 5_000);
}

#[test]
fn damaged() {
    assert!(rewritten(files::damaged, least::DAMAGED) > 5_000);
}

#[test]
fn cut() {
    assert!(rewritten(files::cut, least::CUT) >= 3);
}

#[test]
fn order() {
    assert!(rewritten(files::order, least::ORDER) > 500);
}

/// Rewrite answers what form and references answer together.
fn together(family: Family, least: u64) -> Sides {
    let sides = Sides::over(family, 3 * least, |sides, file, _| sides.together(file));
    assert_eq!(sides.faults(14), 0);
    sides
}

#[test]
fn damaged_and_judged_by_both() {
    let sides = together(files::damaged, least::DAMAGED);
    for number in [0, 3, 4, 5, 6, 7, 8, 9, 10, 11, 12] {
        assert!(sides.faults(number) > 500, "fault {number}");
    }
}

#[test]
fn order_and_references_judged_by_both() {
    assert!(together(files::order, least::ORDER).faults(0) > 500);
    assert!(together(files::references, least::REFERENCES).faults(12) > 50);
    assert!(together(files::receivers, least::RECEIVERS).faults(12) > 200);
}
