//! Pull: lists of records that are there and of others, with outputs and fault
//! lists that are long enough and others.

use crate::files::{self, Family};
use crate::least;
use crate::sides::Sides;
use shelf::calls::PULL_WORDS;
use shelf::generate::{self, Damage, Dice, Mostly};
use shelf::library;
use shelf::plain::layout::long_texts;
use shelf::plain::{LAST_RECORD, LINE};
use shelf::sample;

const LAST: usize = LAST_RECORD as usize;

/// The fault numbers that an entry can have: those of read.
const OF_ENTRIES: [usize; 8] = [0, 3, 4, 5, 6, 9, 10, 13];

/// Numbers of which no file has a record to read. Counted in 32 bits, the last
/// of them would start at byte 32.
const IN_NO_FILE: [u32; 6] = [0, 100_000, 100_001, u32::MAX, 53_024_288, 53_024_289];

/// How many records of a file have begun.
fn begun(file: &[u8]) -> u32 {
    file.len().div_ceil(LINE) as u32
}

/// All records of a file in order, some that are not there, and some again. No
/// record of the file stands at the place that has its own number.
fn all_and_others(file: &[u8], changed: u32) -> Vec<u32> {
    let last = begun(file);
    let others = [last + 1, 100_000, changed, 1];
    (0..=last).chain(others).collect()
}

/// So many records, mostly of the file: in no order, and some of them again.
fn some_records(dice: &mut Dice, file: &[u8], entries: usize) -> Vec<u32> {
    let last = begun(file);
    let mut before = 1;
    let mut entry = || {
        before = match dice.below(12) {
            0 => dice.pick(&IN_NO_FILE),
            1 => dice.pick(&[last, last + 1, last + 2, 99_999]),
            2 => before,
            3 => dice.roll() as u32,
            _ => dice.between(1, i64::from(last.max(1))) as u32,
        };
        before
    };
    (0..entries).map(|_| entry()).collect()
}

/// What can be done to a record without moving those behind it.
const OF_ONE_RECORD: [Damage; 6] = [
    Damage::AnyByte,
    Damage::PrintableByte,
    Damage::FieldFill,
    Damage::Code,
    Damage::Sequence,
    Damage::DisagreeingFields,
];

/// An accepted file, a damaged one, or one of which many records are damaged:
/// a list finds a single bad record too seldom.
fn some_file(dice: &mut Dice, seed: u64) -> Vec<u8> {
    let (mut file, times) = match seed % 4 {
        0 => (generate::accepted(seed, 11 + seed as usize % 90), 0),
        1 => (generate::case(seed), 20),
        _ => (generate::case(seed), 0),
    };
    for _ in 0..times {
        let way = dice.pick(&OF_ONE_RECORD);
        generate::damage(dice, &mut file, way);
    }
    file
}

/// That these came in fault lists, each more often than so many times, and
/// that nothing came which an entry cannot have.
fn came(sides: &Sides, numbers: &[usize], times: u32) {
    assert!(sides.are_all(&OF_ENTRIES));
    for &number in numbers {
        let count = sides.faults(number);
        assert!(count > times, "fault {number}: {count}");
    }
}

fn pulled(family: Family, least: u64) -> Sides {
    Sides::over(family, least, |sides, file, record| {
        sides.pull(file, &all_and_others(file, record));
    })
}

#[test]
fn every_byte() {
    let sides = pulled(files::every_byte, least::EVERY_BYTE);
    came(&sides, &[0, 4, 5, 6, 9, 10, 13], 200);
}

#[test]
fn filled() {
    let sides = pulled(files::filled, least::FILLED);
    came(&sides, &[0, 6, 9, 10, 13], 1_500);
}

#[test]
fn angles() {
    let sides = pulled(files::angles, least::ANGLES);
    came(&sides, &[0, 4, 9, 13], 10_000);
}

#[test]
fn figures() {
    let sides = pulled(files::figures, least::FIGURES);
    came(&sides, &[0, 4, 9, 13], 10_000);
    assert!(sides.faults(10) > 0);
}

/// A record by itself refers to nothing.
#[test]
fn references() {
    let sides = pulled(files::references, least::REFERENCES);
    came(&sides, &[0, 10, 13], 100);
}

/// A *70* by itself may have any number.
#[test]
fn receivers() {
    let sides = pulled(files::receivers, least::RECEIVERS);
    came(&sides, &[0, 9, 13], 1_000);
    assert_eq!(sides.faults(10), 0);
}

#[test]
fn two_bytes() {
    let sides = pulled(files::two_bytes, least::TWO_BYTES);
    came(&sides, &[0, 4, 5, 6, 9, 10, 13], 200);
}

#[test]
fn damaged() {
    let sides = pulled(files::damaged, least::DAMAGED);
    came(&sides, &OF_ENTRIES, 1_000);
}

#[test]
fn cut() {
    let sides = pulled(files::cut, least::CUT);
    came(&sides, &[0, 3, 4, 5, 13], 150);
}

/// A list does not ask what stands before a record.
#[test]
fn order() {
    let sides = pulled(files::order, least::ORDER);
    came(&sides, &[0, 6, 10, 13], 500);
}

/// With so many bytes of output, places of a fault list and words of an answer.
/// The answer is 1 exactly where one of the first two is short; gives whether
/// it is.
fn try_lent(sides: &mut Sides, file: &[u8], records: &[u32], lent: [usize; 3]) -> bool {
    let [room, places, answers] = lent;
    let is_short = room < LINE * records.len() || places < records.len();
    let answer = sides.pull_lent(file, records, lent);
    if answers >= PULL_WORDS {
        assert_eq!(answer, [u32::from(is_short), 0, 0], "{lent:?}");
    }
    is_short
}

/// With all that is needed and more, and then so many times with lengths about
/// those that are needed. Gives how often they were short.
fn try_lengths(
    sides: &mut Sides,
    dice: &mut Dice,
    file: &[u8],
    records: &[u32],
    times: usize,
) -> usize {
    sides.pull(file, records);
    let exact = [LINE * records.len(), records.len(), PULL_WORDS];
    let mut short = 0;
    for _ in 0..times {
        let lent = exact.map(|exact| about(dice, exact));
        short += usize::from(try_lent(sides, file, records, lent));
    }
    short
}

/// One less than is needed, as much, one more, or none.
fn about(dice: &mut Dice, exact: usize) -> usize {
    dice.pick(&[
        exact,
        exact,
        exact + 1,
        exact + 1,
        exact.saturating_sub(1),
        0,
    ])
}

/// Outputs, fault lists and answers of every length that matters.
#[test]
fn lent() {
    let mut sides = Sides::new();
    let good = sample::file();
    let files = [&good[..], &sample::with(&good, 7, 11, "0000"), b"", b"\xff"];
    for records in [&[][..], &[7], &[0], &[24, 1], &[25, 7, 24]] {
        let entries = records.len();
        for file in files {
            for room in 0..=LINE * entries + 3 {
                for places in 0..=entries + 2 {
                    for answers in 0..=PULL_WORDS + 4 {
                        try_lent(&mut sides, file, records, [room, places, answers]);
                    }
                }
            }
        }
    }
    sides.tried(least::PULL_LENT);
    came(&sides, &[0, 4, 9, 13], 50);
}

/// Lists of few entries over accepted and damaged files.
#[test]
fn random() {
    let mut sides = Sides::new();
    let mut dice = Dice::new(61);
    let mut short = 0;
    for seed in (0..6_000).filter(|seed| seed % 64 != 63) {
        let file = some_file(&mut dice, seed);
        for entries in [0, 1, 2, 3 + dice.below(20), 40 + dice.below(20)] {
            let records = some_records(&mut dice, &file, entries);
            short += try_lengths(&mut sides, &mut dice, &file, &records, 5);
        }
    }
    sides.tried(least::PULL_RANDOM);
    assert!(short > 50_000 && sides.faults(0) > 100_000);
    came(&sides, &OF_ENTRIES, 1_000);
}

/// Lists of about 1,000 entries, and of more than a file may have records.
#[test]
fn long_lists() {
    let mut sides = Sides::new();
    let mut dice = Dice::new(62);
    let mut short = 0;
    for seed in (0..300).filter(|seed| seed % 64 != 63) {
        let file = some_file(&mut dice, seed);
        let entries = 990 + dice.below(20);
        let records = some_records(&mut dice, &file, entries);
        short += try_lengths(&mut sides, &mut dice, &file, &records, 5);
    }
    for file in [
        sample::with(&sample::file(), 18, 24, " "),
        generate::accepted(63, 40)[..39 * LINE + 40].to_vec(),
        generate::accepted(64, LAST),
    ] {
        let records = some_records(&mut dice, &file, 150_000);
        short += try_lengths(&mut sides, &mut dice, &file, &records, 3);
    }
    sides.tried(1_700);
    assert!(short > 500);
    came(&sides, &OF_ENTRIES, 1_000);
}

/// Files of 99,999 records and of more, whole, damaged and cut about their
/// ends.
#[test]
fn long_files() {
    let mut sides = Sides::new();
    let near: Vec<u32> = (99_995..=100_005).chain(IN_NO_FILE).chain([1]).collect();
    for records in [LAST, LAST + 1, LAST + 2] {
        let mut file = generate::accepted(65, records);
        for end in file.len() - 3 * LINE..=file.len() {
            sides.pull(&file[..end], &near);
        }
        let last = LINE * (LAST - 1);
        for (column, byte) in [(81, b'\r'), (80, b'\t'), (7, b' '), (1, b'-'), (1, b' ')] {
            let held = file[last + column - 1];
            file[last + column - 1] = byte;
            sides.pull(&file, &near);
            file[last + column - 1] = held;
        }
        sides.pull(&file, &all_and_others(&file, LAST as u32));
    }
    sides.tried(3 * (244 + 5 + 1));
    came(&sides, &[0, 3, 13], 100);
    came(&sides, &[4, 5, 6, 9], 2);
}

/// All records of an accepted file, in order, are its rewriting.
#[test]
fn all_records_in_order_are_the_rewriting() {
    let mut sides = Sides::new();
    let mut is_rewriting = |file: &[u8]| {
        let records: Vec<u32> = (1..=begun(file)).collect();
        let (verdict, rewritten) = library::rewrite(file);
        assert!(verdict.is_accepted());
        assert!(sides.pull(file, &records).0 == rewritten);
        let numbers = vec![0; records.len()];
        assert!(library::pull(file, &records) == (rewritten, numbers));
    };
    for seed in 0..1_500 {
        is_rewriting(&generate::accepted(seed, 11 + seed as usize % 150));
    }
    for mostly in [
        Mostly::Comments,
        Mostly::Network,
        Mostly::Local,
        Mostly::Groups,
        Mostly::Equipment,
        Mostly::Points,
    ] {
        is_rewriting(&generate::accepted_mostly(66, mostly, 2_000));
    }
    is_rewriting(&generate::accepted(67, LAST));
    sides.tried(1_507);
    assert!(sides.are_all(&[0]));
}

/// A good line, read alone, is its record with another sequence number; the
/// others are blank and have the number that read gives.
#[test]
fn pulled_lines_read_back() {
    let mut sides = Sides::new();
    for seed in (0..5_000).filter(|seed| seed % 64 != 63) {
        let file = generate::case(seed);
        let records = all_and_others(&file, 1 + seed as u32 % 50);
        let (lines, numbers) = sides.pull(&file, &records);
        for (at, line) in lines.chunks(LINE).enumerate() {
            reads_back(&file, records[at], line, numbers[at]);
        }
    }
    sides.tried(4_900);
    came(&sides, &OF_ENTRIES, 100);
}

fn reads_back(file: &[u8], record: u32, line: &[u8], number: u32) {
    match library::read(file, record) {
        Ok(held) => {
            assert_eq!(number, 0);
            let pulled = library::read(line, 1).unwrap();
            assert_eq!(pulled.sequence, Some(10 * i64::from(record)));
            assert_eq!((pulled.kind, pulled.values), (held.kind, held.values));
            for (first, _) in long_texts(held.kind) {
                let first = first as u32;
                let text = library::field(file, record, first);
                assert_eq!(library::field(line, 1, first), text);
            }
        }
        Err(fault) => {
            assert_eq!(number, fault.number);
            assert_eq!(line, [&[b' '; LINE - 1][..], b"\n"].concat());
        }
    }
}
