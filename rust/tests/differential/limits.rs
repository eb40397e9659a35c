//! Files about as long as a file may be.

use crate::files::with_instruments;
use crate::sides::Sides;
use shelf::calls::FIELD_WORDS;
use shelf::plain::layout::INSTRUMENT;
use shelf::plain::{LAST_RECORD, LINE};
use shelf::{generate, sample};

const LAST: usize = LAST_RECORD as usize;

/// Form, references, rewrite, and read and field about the last records.
fn try_all(sides: &mut Sides, file: &[u8]) {
    sides.judge(file);
    sides.rewrite(file);
    for record in [1, 50_000, 99_998, 99_999, 100_000, 100_001] {
        sides.read(file, record);
        sides.field(file, record, 11, FIELD_WORDS);
    }
}

#[test]
fn records_99_999() {
    let mut sides = Sides::new();
    for seed in [31, 32] {
        let mut file = generate::accepted(seed, LAST);
        try_all(&mut sides, &file);
        for (column, byte) in [(81, b'\r'), (80, b'\t'), (7, b' '), (1, b'-'), (1, b' ')] {
            let at = file.len() - LINE + column - 1;
            let held = file[at];
            file[at] = byte;
            try_all(&mut sides, &file);
            file[at] = held;
        }
        for end in [file.len() - 1, file.len() - LINE, file.len() - LINE + 1] {
            try_all(&mut sides, &file[..end]);
        }
        for behind in [&b" "[..], b"\n", b"\xff"] {
            try_all(&mut sides, &[&file, behind].concat());
        }
    }
    sides.tried(300);
    for number in [0, 2, 3, 4, 5, 6, 8, 9, 13, 14] {
        assert!(sides.faults(number) > 0, "fault {number}");
    }
    assert!(sides.not_formed(2) >= 6);
}

#[test]
fn records_100_000_and_more() {
    let mut sides = Sides::new();
    for more in [1, 2, 3] {
        let file = generate::accepted(33, LAST + more);
        try_all(&mut sides, &file);
        try_all(&mut sides, &file[..LAST * LINE + 1]);
        // A record must follow, and none has begun.
        try_all(&mut sides, &file[..LAST * LINE]);
    }
    sides.tried(100);
    assert!(sides.faults(2) >= 6 && sides.faults(8) >= 3);
    assert!(sides.not_formed(2) >= 6 && sides.not_formed(8) >= 3);
}

/// As many *70* of one number as a file can have, one of another behind them,
/// and one more record.
#[test]
fn one_instrument_throughout() {
    let mut sides = Sides::new();
    let others = sample::lines().len() - 2;
    for last in ["007", "  8", "006"] {
        for records in [LAST, LAST + 1] {
            let numbers = [&vec!["007"; records - others - 1][..], &[last]].concat();
            try_all(&mut sides, &with_instruments(&numbers));
        }
    }
    sides.tried(80);
    assert!(sides.faults(0) >= 4 && sides.faults_at(10, INSTRUMENT, 11) == 4);
    assert!(sides.faults(2) >= 4);
}

/// Damage among the first records of a long file, where the rest has to be
/// passed over, and references that only the end decides.
#[test]
fn long_files_damaged() {
    let mut sides = Sides::new();
    let good = generate::accepted(34, LAST);
    let mut dice = generate::Dice::new(35);
    for way in generate::DAMAGES {
        let mut file = good.clone();
        generate::damage(&mut dice, &mut file, way);
        sides.judge(&file);
        sides.rewrite(&file);
    }
    sides.tried(3 * generate::DAMAGES.len() as u64);
}
