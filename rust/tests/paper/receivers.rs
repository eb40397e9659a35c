//! An instrument with more than one *70* (02, T-04): "Instrument numbers may
//! repeat, standing together, and never fall. The table word holds the first
//! such record. An instrument is defined by at least one *70*; other numbers
//! keep their rule."

use crate::sample::*;
use shelf::plain::{form, read, references};

/// The record of the first *70*.
const FIRST: usize = 13;

/// The *70* of an instrument; `serial` tells it from the others.
fn numbered(number: &str, serial: usize) -> Vec<u8> {
    let mut line = instrument(number);
    line[70..80].copy_from_slice(format!("{serial:<10}").as_bytes());
    line
}

/// The sample with *70* of these numbers, as they are printed, in the place
/// of its two. Its *25* name instrument 7.
fn with_numbers<S: AsRef<str>>(numbers: &[S]) -> Vec<u8> {
    let mut lines = lines();
    let more = numbers.iter().enumerate();
    lines.splice(
        FIRST - 1..FIRST + 1,
        more.map(|(at, number)| numbered(number.as_ref(), at)),
    );
    lines.concat()
}

/// The same of numbers zero filled, the *25* naming the first of them.
fn with_values(numbers: &[u32]) -> Vec<u8> {
    let printed: Vec<String> = numbers
        .iter()
        .map(|number| format!("{number:03}"))
        .collect();
    let file = with_numbers(&printed);
    let file = with(&file, 5, 28, &printed[0]);
    with(&file, 10, 28, &printed[0])
}

/// The words of instruments that are not 0: number and record.
fn words(file: &[u8]) -> Vec<(usize, u32)> {
    let mut table = vec![77; 12_000];
    assert_eq!(references(file, &mut table).number, 0);
    let words = (0..1_000).map(|number| (number, table[10_000 + number]));
    words.filter(|&(_, word)| word != 0).collect()
}

/// Of numbers of *70*: the first that is below the one before it.
fn first_fall(numbers: &[u32]) -> Option<usize> {
    (1..numbers.len()).find(|&at| numbers[at] < numbers[at - 1])
}

#[test]
fn an_equal_number_is_taken_and_one_below_is_not() {
    for number in 1..=999 {
        assert_eq!(verdict(&with_values(&[number, number])), ACCEPTED);
        assert_eq!(verdict(&with_values(&[number, number, number])), ACCEPTED);
        if number < 999 {
            assert_eq!(verdict(&with_values(&[number, number + 1])), ACCEPTED);
            let falling = with_values(&[number + 1, number]);
            assert_eq!(verdict(&falling), (10, 14, 11), "{number}");
            let falling = with_values(&[number + 1, number + 1, number]);
            assert_eq!(verdict(&falling), (10, 15, 11), "{number}");
        }
    }
    assert_eq!(verdict(&with_values(&[1, 1, 999, 999])), ACCEPTED);
    assert_eq!(verdict(&with_values(&[999, 999, 1])), (10, 15, 11));
}

/// Every four of four numbers: never falling is all that is asked, and what
/// comes back after another has fallen.
#[test]
fn every_four_of_four_numbers() {
    let mut refused = 0;
    for case in 0..4_usize.pow(4) {
        let numbers: Vec<u32> = (0..4)
            .map(|place| [1, 7, 8, 999][case / 4_usize.pow(place) % 4])
            .collect();
        let file = with_values(&numbers);
        let Some(at) = first_fall(&numbers) else {
            assert_eq!(verdict(&file), ACCEPTED, "{numbers:?}");
            let mut firsts: Vec<(usize, u32)> = Vec::new();
            for (&number, record) in numbers.iter().zip(FIRST as u32..) {
                if firsts.iter().all(|&(known, _)| known != number as usize) {
                    firsts.push((number as usize, record));
                }
            }
            assert_eq!(words(&file), firsts, "{numbers:?}");
            continue;
        };
        assert_eq!(verdict(&file), (10, (FIRST + at) as u64, 11), "{numbers:?}");
        refused += 1;
    }
    // 35 of them do not fall: so many ways there are to choose four, in
    // order, with repeats.
    assert_eq!(refused, 256 - 35);
}

#[test]
fn a_number_that_comes_back_is_refused() {
    assert_eq!(verdict(&with_numbers(&["007", "008", "007"])), (10, 15, 11));
    assert_eq!(
        verdict(&with_numbers(&["  7", "  7", "  8", "  7"])),
        (10, 16, 11)
    );
    assert_eq!(
        verdict(&with_numbers(&["006", "007", "006", "006"])),
        (10, 15, 11)
    );
}

#[test]
fn the_table_word_is_the_first_of_several() {
    assert_eq!(words(&with_numbers(&["007"])), [(7, 13)]);
    assert_eq!(words(&with_numbers(&["007", "007"])), [(7, 13)]);
    assert_eq!(words(&with_numbers(&["007", "007", "007"])), [(7, 13)]);
    let runs = ["001", "001", "007", "  7", " 07", "999", "999"];
    assert_eq!(words(&with_numbers(&runs)), [(1, 13), (7, 15), (999, 18)]);
    // What stands behind has moved on by a record for each *70*.
    let mut table = vec![0; 12_000];
    references(&with_numbers(&runs), &mut table);
    assert_eq!((table[11_003], table[345], table[12]), (20, 22, 24));
}

/// Numbers are compared by their values and not as they are printed.
#[test]
fn the_dress_of_a_number_has_no_say() {
    for second in ["007", " 07", "  7"] {
        for first in ["007", " 07", "  7"] {
            assert_eq!(
                verdict(&with_numbers(&[first, second, "  8", "009", " 10"])),
                ACCEPTED
            );
        }
        let falling = with_numbers(&["007", "  8", second]);
        assert_eq!(verdict(&falling), (10, 15, 11));
        let falling = with_numbers(&[second, " 10", "010", "  9"]);
        assert_eq!(verdict(&falling), (10, 16, 11));
    }
}

#[test]
fn records_of_one_number_need_not_agree_nor_differ() {
    let file = with_numbers(&["007", "007"]);
    assert_eq!(
        verdict(&with(&file, 14, 1, &columns(&file, 13, 1, 80))),
        ACCEPTED
    );
    for (first, width) in [(14, 3), (23, 18), (63, 8), (71, 10)] {
        let other = with(&file, 14, first, &"9".repeat(width));
        assert_eq!(verdict(&other), ACCEPTED, "column {first}");
    }
}

#[test]
fn one_record_is_enough_to_define_and_none_is_not() {
    for numbers in [&["007"][..], &["007", "007"], &["006", "007", "007", "007"]] {
        assert_eq!(verdict(&with_numbers(numbers)), ACCEPTED);
    }
    for numbers in [&["006"][..], &["006", "006"], &["006", "006", "008", "008"]] {
        assert_eq!(verdict(&with_numbers(numbers)), (12, 5, 28));
    }
    // The second group's, with the first one's defined twice.
    let file = with(&with_numbers(&["007", "007"]), 10, 28, "008");
    assert_eq!(verdict(&file), (12, 10, 28));
    // Of a file with a fall and an undefined number the fall is named.
    assert_eq!(verdict(&with_numbers(&["006", "006", "005"])), (10, 15, 11));
}

/// More of them than there are numbers.
#[test]
fn every_record_is_counted() {
    for copies in [1, 2, 3, 50, 999, 1_000, 5_000] {
        let file = with_numbers(&vec!["007"; copies]);
        assert_eq!(verdict(&file), ACCEPTED);
        let counts = form(&file).counts;
        let mut expected = COUNTS;
        expected[7] = copies as u32;
        assert_eq!(counts, expected);
        assert_eq!(words(&file), [(7, 13)]);
        let longer = [&vec!["007"; copies][..], &["006"]].concat();
        let at = (FIRST + copies) as u64;
        assert_eq!(verdict(&with_numbers(&longer)), (10, at, 11));
    }
}

#[test]
fn rewriting_keeps_all_of_them_in_order() {
    let numbers = ["  7", "007", " 07", "008", "  8"];
    let file = with_numbers(&numbers);
    let rewritten = house(&file);
    assert_eq!(rewritten.len(), file.len());
    for (at, number) in ["007", "007", "007", "008", "008"].iter().enumerate() {
        let record = FIRST + at;
        assert_eq!(columns(&rewritten, record, 7, 7), format!("*70*{number}"));
        assert_eq!(columns(&rewritten, record, 71, 10), format!("{at:<10}"));
        assert_eq!(
            columns(&rewritten, record, 1, 6),
            format!("{:06}", 10 * record)
        );
        let record = record as u64;
        let [before, after] = [&file, &rewritten].map(|file| read(file, record).unwrap());
        assert_eq!((after.kind, after.values), (before.kind, before.values));
    }
    assert_eq!(words(&rewritten), words(&file));
}

/// Which column is named is as it was: 9 before 10 in the number itself, 10 at
/// 11 before a 9 further right, and a number that repeats leaves that 9.
#[test]
fn the_columns_of_other_faults_stay() {
    let number = |text| with(&with_numbers(&["007", "007"]), 14, 11, text);
    for (text, column) in [
        ("000", 13),
        ("7  ", 12),
        ("   ", 13),
        ("x07", 11),
        ("-07", 11),
    ] {
        assert_eq!(verdict(&number(text)), (9, 14, column), "{text:?}");
    }
    for (first, text, column) in [(14, "000", 16), (17, "     0", 22), (41, "x", 41)] {
        for equal in ["007", "  7", "008"] {
            let file = with(&number(equal), 14, first, text);
            assert_eq!(verdict(&file), (9, 14, column), "{equal:?} {text:?}");
        }
        let file = with(&number("  6"), 14, first, text);
        assert_eq!(verdict(&file), (10, 14, 11), "{text:?}");
    }
}

/// Every three of three antennas: they rise strictly, also behind *70* that
/// repeat.
#[test]
fn antennas_keep_their_rule() {
    for case in 0..27_usize {
        let numbers = [0, 1, 2].map(|place| 3 + case / 3_usize.pow(place) % 3);
        let mut lines = lines();
        lines[13] = instrument("007");
        let antennas = numbers.map(|number| antenna(&format!("{number:03}")));
        lines.splice(14..16, antennas);
        let file = lines.concat();
        let named = format!("{:03}", numbers[0]);
        let file = with(&with(&file, 5, 33, &named), 10, 33, &named);
        let bad = (1..3).find(|&at| numbers[at] <= numbers[at - 1]);
        let expected = bad.map_or(ACCEPTED, |at| (10, 15 + at as u64, 11));
        assert_eq!(verdict(&file), expected, "{numbers:?}");
    }
}

/// A record by itself is compared with no other.
#[test]
fn reading_compares_nothing() {
    let file = with_numbers(&["007", "007", "006"]);
    for (record, number) in [(13, 7), (14, 7), (15, 6)] {
        assert_eq!(read(&file, record).unwrap().values[0], number);
    }
}
