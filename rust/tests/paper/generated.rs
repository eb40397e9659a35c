//! Generated files, accepted and damaged.

use crate::sample::{columns, house, verdict, ACCEPTED};
use shelf::generate::{self, Damage, Dice, Mostly, DAMAGES, FEWEST};
use shelf::plain::layout::{long_texts, KINDS};
use shelf::plain::{field, form, read, references, rewrite, write, Fault};
use std::collections::BTreeMap;

/// Accepted files of many sizes.
fn files() -> impl Iterator<Item = Vec<u8>> {
    (0..400).map(|seed| generate::accepted(seed, 11 + (seed as usize * 7) % 150))
}

#[test]
fn generated_files_have_the_size_asked_for_and_are_accepted() {
    let mut seen = [0; 14];
    for (seed, file) in files().enumerate() {
        let records = 11 + (seed * 7) % 150;
        assert_eq!(file.len(), 81 * records);
        assert_eq!(verdict(&file), ACCEPTED, "seed {seed}");
        let counts = form(&file).counts;
        assert_eq!(counts.iter().sum::<u32>(), records as u32);
        // Counted another way: the codes as they stand in the file.
        for (kind, code) in KINDS.iter().enumerate().skip(1) {
            let found = (1..=records).filter(|&record| columns(&file, record, 8, 2) == *code);
            assert_eq!(counts[kind], found.count() as u32);
            seen[kind] += counts[kind];
        }
        assert_eq!(counts[0], 2);
    }
    assert!(seen[1..].iter().all(|&count| count > 50), "{seen:?}");
}

#[test]
fn files_of_one_kind_are_accepted_and_have_few_other_records() {
    for (mostly, kinds, most) in [
        (Mostly::Comments, &["26"][..], 10_000),
        (Mostly::Network, &["91"], 10_000),
        (Mostly::Local, &["92"], 10_000),
        (Mostly::Groups, &["25", "27"], 10_000),
        (Mostly::Equipment, &["70", "72"], 2 * 999 + 9),
        (Mostly::Points, &["80", "86"], 10_000),
    ] {
        for records in [FEWEST, 12, 13, 14, 500, 10_000] {
            let file = generate::accepted_mostly(7, mostly, records);
            assert_eq!(verdict(&file), ACCEPTED, "{mostly:?}, {records}");
            let found = file.len() / 81;
            // Groups and pairs are whole.
            assert!(found <= records && found + 3 > records.min(most));
            let others = (1..=found)
                .filter(|&record| !kinds.contains(&columns(&file, record, 8, 2).as_str()));
            // A *92* needs a second *80* with its *86*.
            assert!(others.count() <= FEWEST + 2, "{mostly:?}, {records}");
        }
    }
}

/// A code, and what some of its records are to have, found in columns.
type Dress = (&'static str, &'static str, fn(&str) -> bool);

const DRESSES: [Dress; 11] = [
    ("25", "padded station", |line| part(line, 11, 1) == " "),
    ("27", "blank sequence", |line| part(line, 1, 6) == "      "),
    ("86", "minus inside", |line| {
        part(line, 17, 7).rfind('-') > Some(0)
    }),
    ("86", "minus zero", |line| part(line, 17, 7) == "-000000"),
    ("86", "missing height", |line| {
        part(line, 17, 7) == "       "
    }),
    ("80", "south", |line| part(line, 56, 1) == "S"),
    ("80", "180 W", |line| part(line, 57, 13) == "180000000000W"),
    ("91", "padded deviation", |line| part(line, 21, 1) == " "),
    ("91", "minus inside", |line| {
        part(line, 41, 10).rfind('-') > Some(0)
    }),
    ("91", "least correlation", |line| {
        part(line, 42, 9).ends_with("99999990")
    }),
    ("92", "minus zero", |line| {
        part(line, 43, 10).trim_start().trim_end_matches('0') == "-"
    }),
];

/// Columns of a line, from `first` on.
fn part(line: &str, first: usize, width: usize) -> &str {
    &line[first - 1..first - 1 + width]
}

#[test]
fn every_dress_occurs() {
    let lines: Vec<String> = files()
        .flat_map(|file| file.chunks(81).map(<[u8]>::to_vec).collect::<Vec<_>>())
        .map(|line| String::from_utf8(line).unwrap())
        .collect();
    for (code, dress, is_so) in DRESSES {
        let found = lines
            .iter()
            .filter(|line| part(line, 8, 2) == code && is_so(line));
        let count = found.count();
        assert!(count > 10, "{code} {dress}: {count}");
    }
}

#[test]
fn rewriting_keeps_the_meaning_and_rewriting_again_changes_nothing() {
    for file in files() {
        let rewritten = house(&file);
        assert_eq!(verdict(&rewritten), ACCEPTED);
        assert_eq!(house(&rewritten), rewritten);
        for record in 1..=file.len() as u64 / 81 {
            let before = read(&file, record).unwrap();
            let after = read(&rewritten, record).unwrap();
            assert_eq!(after.kind, before.kind);
            assert_eq!(after.values, before.values);
            assert_eq!(after.sequence, Some(10 * record as u32));
            for (first, _) in long_texts(before.kind) {
                assert_eq!(
                    slice(&file, record, first),
                    slice(&rewritten, record, first)
                );
            }
        }
    }
}

/// The dress of a file is no part of its meaning: files that differ only in
/// sequence numbers are rewritten alike.
#[test]
fn sequence_numbers_do_not_show_in_house_style() {
    for file in files() {
        let mut other = file.clone();
        for line in other.chunks_exact_mut(81) {
            line[..6].copy_from_slice(b"   123");
        }
        assert_ne!(other, file);
        assert_eq!(house(&other), house(&file));
    }
}

fn slice(file: &[u8], record: u64, first: usize) -> &[u8] {
    let (offset, length) = field(file, record, first as u64);
    assert!(length > 4);
    &file[offset..offset + length]
}

#[test]
fn writing_what_was_read_gives_the_house_style() {
    for file in files() {
        let rewritten = house(&file);
        for record in 1..=file.len() as u64 / 81 {
            let reading = read(&file, record).unwrap();
            let mut texts: [&[u8]; 3] = [b""; 3];
            for (slot, (first, _)) in long_texts(reading.kind).into_iter().enumerate() {
                texts[slot] = slice(&file, record, first);
            }
            let mut out = [0; 81];
            let sequence = Some(10 * record as i64);
            let fault = write(
                &mut out,
                reading.kind as i64,
                sequence,
                &reading.values,
                texts,
            );
            assert_eq!(fault, Fault::ACCEPTED);
            let start = 81 * (record as usize - 1);
            assert_eq!(out[..], rewritten[start..start + 81]);
        }
    }
}

#[test]
fn the_table_names_each_definition() {
    for file in files() {
        let mut table = vec![0; 12_000];
        references(&file, &mut table);
        let mut defined = BTreeMap::new();
        for record in 1..=file.len() as u64 / 81 {
            let reading = read(&file, record).unwrap();
            let start = match reading.kind {
                7 => 10_000,
                8 => 11_000,
                9 => 0,
                _ => continue,
            };
            let number = (start, reading.values[0]);
            let first = *defined.entry(number).or_insert(record);
            let word = table[start + reading.values[0] as usize];
            assert_eq!(u64::from(word), first);
            // Only a *70* may come again.
            assert!(first == record || reading.kind == 7);
        }
        let used = table.iter().filter(|&&word| word != 0).count();
        assert_eq!(used, defined.len());
    }
}

/// The lengths of the runs of *70* of one number, in the order of the file.
fn runs(file: &[u8]) -> Vec<usize> {
    let instruments: Vec<i64> = (1..=file.len() as u64 / 81)
        .map(|record| read(file, record).unwrap())
        .filter(|reading| reading.kind == 7)
        .map(|reading| reading.values[0])
        .collect();
    let runs = instruments.chunk_by(|one, next| one == next);
    runs.map(<[i64]>::len).collect()
}

#[test]
fn instruments_have_one_two_three_and_many_records() {
    let all: Vec<usize> = files().flat_map(|file| runs(&file)).collect();
    for (lengths, least) in [(1..=1, 300), (2..=2, 100), (3..=3, 30), (4..=99, 20)] {
        let count = all.iter().filter(|run| lengths.contains(*run)).count();
        assert!(count > least, "{lengths:?}: {count}");
    }
    // The longest files have them too.
    let long = runs(&generate::accepted(1, 99_999));
    assert!((1..=3).all(|length| long.contains(&length)), "{long:?}");
}

/// Where a *70* disagrees it falls, by one or by more.
#[test]
fn a_damaged_instrument_falls() {
    let mut falls = [0; 2];
    for seed in 0..4_000 {
        let good = generate::accepted(seed, 11 + seed as usize % 60);
        let mut file = good.clone();
        generate::damage(&mut Dice::new(seed), &mut file, Damage::Disagreeing);
        let fault = form(&file).fault;
        let instrument = |file: &[u8], record| match read(file, record).unwrap() {
            reading if reading.kind == 7 => Some(reading.values[0]),
            _ => None,
        };
        let changed = (1..=file.len() as u64 / 81)
            .filter(|&record| instrument(&file, record) != instrument(&good, record));
        for record in changed {
            let [before, here] = [record - 1, record].map(|record| instrument(&file, record));
            assert!(here < before, "seed {seed}");
            assert_eq!((fault.number, fault.record, fault.column), (10, record, 11));
            falls[usize::from(before > here.map(|number| number + 1))] += 1;
        }
    }
    assert!(falls.iter().all(|&count| count > 50), "{falls:?}");
}

#[test]
fn damage_brings_every_fault_often() {
    let mut faults = [0; 15];
    for seed in 0..4_000 {
        // The long ones have their own test.
        if seed % 64 != 63 {
            faults[verdict(&generate::case(seed)).0 as usize] += 1;
        }
    }
    for number in 3..=12 {
        assert!(faults[number] >= 80, "fault {number}: {faults:?}");
    }
    assert!(faults[0] >= 80, "{faults:?}");
    assert_eq!([1, 2, 13, 14].map(|number| faults[number]), [0; 4]);
}

#[test]
fn files_at_the_limit_bring_fault_2() {
    let mut faults = [0; 15];
    for number in 0..24 {
        let file = generate::case(64 * number + 63);
        assert!(file.len() >= 81 * 99_999);
        let fault = form(&file).fault;
        faults[fault.number as usize] += 1;
        if fault.number == 2 {
            assert_eq!((fault.record, fault.column), (100_000, 1));
        }
    }
    assert!(
        faults[2] >= 6 && faults[8] >= 1 && faults[0] >= 1,
        "{faults:?}"
    );
}

/// What form says of a record, read says too, unless it is about its place
/// among the others.
#[test]
fn form_and_read_agree_about_damaged_files() {
    let mut compared = 0;
    for seed in 0..3_000 {
        if seed % 64 == 63 {
            continue;
        }
        let file = generate::case(seed);
        let fault = form(&file).fault;
        let good_before = match fault.number {
            0 => file.len() as u64 / 81,
            _ => fault.record - 1,
        };
        for record in 1..=good_before {
            assert!(read(&file, record).is_ok(), "seed {seed} record {record}");
        }
        if matches!(fault.number, 3..=6 | 9) {
            assert_eq!(read(&file, fault.record), Err(fault), "seed {seed}");
            compared += 1;
        }
    }
    assert!(compared > 1_000, "{compared}");
}

#[test]
fn the_same_seed_gives_the_same_file_and_another_does_not() {
    assert_eq!(generate::accepted(5, 60), generate::accepted(5, 60));
    assert_ne!(generate::accepted(5, 60), generate::accepted(6, 60));
    assert_eq!(generate::case(5), generate::case(5));
}

#[test]
fn damage_of_any_way_never_stops_the_shelf() {
    let mut good = 0;
    for seed in 0..2_000 {
        let mut dice = Dice::new(seed);
        let mut file = generate::accepted(seed, 11 + seed as usize % 30);
        for _ in 0..2 {
            let way = dice.pick(&DAMAGES);
            generate::damage(&mut dice, &mut file, way);
        }
        let mut out = vec![0; file.len()];
        let checked = rewrite(&file, &mut vec![0; 12_000], &mut out);
        if checked.fault.number == 0 {
            assert_eq!(verdict(&out), ACCEPTED, "seed {seed}");
            good += 1;
        }
    }
    assert!(good > 20, "{good}");
}
