//! Write: values as read gives them, and what fits no field.

use crate::least;
use crate::sides::Sides;
use shelf::generate::{self, Dice};
use shelf::plain::layout::{long_texts, JOB, KINDS};
use shelf::plain::{field, read, LINE, MISSING};
use shelf::sample;

/// What is given to write: the kind, the sequence number and the values, and
/// the texts beside them.
#[derive(Clone)]
struct Given {
    values: Vec<i64>,
    texts: [Vec<u8>; 3],
}

impl Given {
    /// What read and field give of a good record.
    fn of(file: &[u8], record: u64) -> Given {
        let reading = read(file, record).expect("a good record");
        let sequence = reading.sequence.map_or(-1, i64::from);
        let values = [&[reading.kind as i64, sequence], &reading.values[..]].concat();
        let mut texts = [Vec::new(), Vec::new(), Vec::new()];
        for (text, (first, _)) in texts.iter_mut().zip(long_texts(reading.kind)) {
            let (offset, length) = field(file, record, first as u64);
            text.extend_from_slice(&file[offset..offset + length]);
        }
        Given { values, texts }
    }

    fn kind(&self) -> usize {
        self.values[0] as usize
    }

    fn try_on(&self, sides: &mut Sides) -> u32 {
        let [first, second, third] = &self.texts;
        sides.write(&self.values, [first, second, third])
    }
}

/// One or more good ones of each kind.
fn given() -> Vec<Given> {
    let file = sample::file();
    (1..=24).map(|record| Given::of(&file, record)).collect()
}

/// Values about the ends of every range, and those that only differ from a
/// good one in bits that a narrower word would lose.
fn telling_values() -> Vec<i64> {
    let mut values: Vec<i64> = (-130..=400).collect();
    for end in [
        999,
        9_999,
        99_999,
        999_999,
        9_999_999,
        99_999_990,
        99_999_999,
        999_999_999,
        9_999_999_999,
        100,
        101,
        112,
        113,
        1_912,
        201_911,
        201_912,
        201_913,
        202_000,
        202_001,
        202_002,
        202_013,
        202_099,
        999_900,
        999_912,
        999_913,
        1_000_001,
        32_400_000_000,
        64_800_000_000,
        3_600_000_000,
        359_999_999,
        5_999_999,
        i64::from(i32::MAX),
        i64::from(u32::MAX),
        1 << 32,
        1 << 48,
        i64::MAX - 1,
    ] {
        for value in [end - 1, end, end + 1] {
            values.extend([value, -value]);
        }
    }
    // Good once cut to 8, 16 or 32 bits.
    for value in [1, 65, 12, 366, 4_711, 201_911] {
        values.extend([value + (1 << 8), value + (1 << 16), value + (1 << 32)]);
        values.extend([value - (1 << 8), value - (1 << 32), value + (1 << 62)]);
    }
    values.extend([MISSING, MISSING + 1]);
    values
}

#[test]
fn every_word() {
    let mut sides = Sides::new();
    let telling = telling_values();
    for good in given() {
        assert_eq!(good.try_on(&mut sides), 0);
        for word in 0..good.values.len() {
            let mut changed = good.clone();
            for &value in &telling {
                changed.values[word] = value;
                changed.try_on(&mut sides);
            }
        }
    }
    sides.tried(least::WRITE_WORDS);
    assert!(sides.faults(0) > 10_000 && sides.faults(10) > 100);
    for kind in 0..KINDS.len() {
        assert!(sides.faults_at(9, kind, 1) > 0);
    }
    assert!(sides.faults_at(9, JOB, 7) > 0);
}

/// The kind and the sequence number together: which of them is named.
#[test]
fn every_kind_and_sequence() {
    let mut sides = Sides::new();
    let text = [b' '; 70];
    let sequences = [-2, -1, 0, 1, 999_999, 1_000_000, MISSING, i64::MAX, 1 << 32];
    for kind in (-3..=20).chain([256, 261, 1 << 32, (1 << 32) + 5, MISSING, i64::MAX]) {
        for sequence in sequences {
            for count in 0..=3 {
                let values = &[kind, sequence, 65][..count];
                sides.write(values, [&text, b"", b""]);
            }
        }
    }
    sides.tried(1_000);
    // Three kinds are one text, and three of the sequence numbers are good.
    assert!(sides.faults(0) >= 3 * 3);
    assert!(sides.faults_at(9, KINDS.len(), 1) > 0 && sides.faults_at(9, KINDS.len(), 7) > 0);
}

/// Counts below what the kind needs, and above.
#[test]
fn every_count() {
    let mut sides = Sides::new();
    for good in given() {
        for count in 0..=good.values.len() {
            let mut short = good.clone();
            short.values.truncate(count);
            let number = short.try_on(&mut sides);
            assert_eq!(number == 0, count == good.values.len());
        }
        let mut long = good.clone();
        long.values.extend([i64::MAX, -1, 0]);
        assert_eq!(long.try_on(&mut sides), 0);
    }
    sides.tried(200);
    assert!(sides.faults_at(9, 4, 33) > 0 && sides.faults_at(9, 10, 56) > 0);
}

/// Each column of each text as each byte, and texts of every width.
#[test]
fn every_text() {
    let mut sides = Sides::new();
    for good in given() {
        for text in 0..long_texts(good.kind()).len() {
            let mut changed = good.clone();
            for column in 0..good.texts[text].len() {
                for byte in 0..=255 {
                    changed.texts[text][column] = byte;
                    changed.try_on(&mut sides);
                }
                changed.texts[text][column] = good.texts[text][column];
            }
            for width in (0..=90).chain([255, 256, 256 + 70]) {
                changed.texts[text].resize(width, b' ');
                changed.try_on(&mut sides);
            }
        }
        // A text that the kind does not have is not looked at.
        let mut more = good.clone();
        for text in &mut more.texts[long_texts(good.kind()).len()..] {
            text.push(0xff);
        }
        assert_eq!(more.try_on(&mut sides), 0);
    }
    sides.tried(least::WRITE_TEXTS);
}

/// Records of made-up files, some of their words and texts changed at once.
#[test]
fn mixed() {
    let mut sides = Sides::new();
    let mut dice = Dice::new(51);
    let telling = telling_values();
    for seed in 0..500 {
        let file = generate::accepted(seed, 11 + seed as usize % 40);
        for record in 1..=(file.len() / LINE) as u64 {
            let good = Given::of(&file, record);
            assert_eq!(good.try_on(&mut sides), 0);
            for _ in 0..20 {
                let mut changed = good.clone();
                for _ in 0..1 + dice.below(2) {
                    change(&mut dice, &mut changed, &telling);
                }
                changed.try_on(&mut sides);
            }
        }
    }
    sides.tried(least::WRITE_MIXED);
    assert!(sides.faults(0) > 20_000 && sides.faults(10) > 1_000);
}

fn change(dice: &mut Dice, given: &mut Given, telling: &[i64]) {
    let word = dice.below(given.values.len());
    let text = dice.below(3);
    match dice.below(12) {
        0 => given.values.truncate(word.max(1)),
        1 => given.texts[text].push(b' '),
        2 if !given.texts[text].is_empty() => {
            let column = dice.below(given.texts[text].len());
            given.texts[text][column] = dice.below(256) as u8;
        }
        3 => given.values[word] = MISSING,
        4 => given.values[word] = dice.roll() as i64,
        5 => given.values[word] = (dice.roll() >> dice.below(64)) as i64,
        6..=8 => given.values[word] = dice.between(0x20, 0x7e),
        _ => given.values[word] = dice.pick(telling),
    }
}
