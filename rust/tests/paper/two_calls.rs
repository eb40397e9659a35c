//! Form and references, sentence by sentence (02, T-05), of the plain
//! implementation and of the library.

use crate::pointing::SIDES;
use crate::sample::*;
use shelf::calls::{FORM_WORDS, REFERENCES_WORDS, REWRITE_WORDS};
use shelf::generate;
use shelf::plain::sheet;

/// What stands in an answer and in a table before a call.
const BEFORE: u32 = 99;

const GOOD: [u32; 3] = [0, 0, 0];
const NOT_GOOD: [u32; 3] = [14, 0, 0];

/// Both sides accept the form, with these counts.
fn formed(file: &[u8], counts: [u32; 14]) {
    says_form(file, GOOD, counts);
}

/// Both sides refuse the form with this fault, and references for it.
fn not_formed(file: &[u8], fault: [u32; 3]) {
    says_form(file, fault, [0; 14]);
    refers(file, NOT_GOOD);
    rewrites(file, fault);
}

fn says_form(file: &[u8], fault: [u32; 3], counts: [u32; 14]) {
    for (name, side) in SIDES {
        let mut answer = [BEFORE; FORM_WORDS + 2];
        side.form(file, &mut answer);
        assert_eq!(answer[..3], fault, "{name}");
        assert_eq!(answer[3..17], counts, "{name}");
        assert_eq!(answer[17..], [BEFORE; 2], "{name}");
    }
}

/// References gives this fault. A refusal leaves a table of zeros, acceptance
/// one of records, and neither touches what is beyond it.
fn refers(file: &[u8], fault: [u32; 3]) {
    for (name, side) in SIDES {
        let mut answer = [BEFORE; REFERENCES_WORDS + 2];
        let mut table = [BEFORE; 12_003];
        side.references(file, &mut table, &mut answer);
        assert_eq!(answer[..3], fault, "{name}");
        assert_eq!(answer[3..], [BEFORE; 2], "{name}");
        let filled = table[..12_000].iter().any(|&word| word != 0);
        assert_eq!(filled, fault == GOOD, "{name}");
        assert_eq!(table[12_000..], [BEFORE; 3], "{name}");
    }
}

/// Rewrite and the sheet name the first fault of all, which is never 14.
fn rewrites(file: &[u8], fault: [u32; 3]) {
    for (name, side) in SIDES {
        let mut answer = [BEFORE; REWRITE_WORDS];
        let mut out = vec![0; file.len()];
        side.rewrite(file, &mut [0; 12_000], &mut out, &mut answer);
        assert_eq!(answer[..3], fault, "{name}");
    }
    if file.len() <= 64_800 {
        let [number, record, column] = fault;
        let line = format!("FILE\t{}\t{number}\t{record}\t{column}", file.len() / 81);
        let printed = String::from_utf8(sheet(file)).unwrap();
        assert_eq!(printed.lines().next(), Some(&line[..]));
    }
}

#[test]
fn a_good_file_is_good_to_both() {
    formed(&file(), COUNTS);
    refers(&file(), GOOD);
    rewrites(&file(), GOOD);
}

#[test]
fn an_empty_file_is_not_good_in_form() {
    not_formed(b"", [8, 1, 1]);
    let one = format!("000010*A1*{}\n", " ".repeat(70));
    not_formed(one.as_bytes(), [8, 2, 1]);
}

/// "Crews want to test an evening's file before the station numbers are
/// agreed."
#[test]
fn form_takes_an_undefined_number_and_references_does_not() {
    formed(&undefined_station(), COUNTS);
    refers(&undefined_station(), [12, 10, 11]);
    rewrites(&undefined_station(), [12, 10, 11]);
    for (record, first, text) in [
        (5, 28, "009"),
        (5, 33, "  9"),
        (21, 11, "0013"),
        (22, 11, "0013"),
        (22, 17, "9999"),
    ] {
        let file = with(&file(), record, first, text);
        let fault = [12, record as u32, first as u32];
        formed(&file, COUNTS);
        refers(&file, fault);
        rewrites(&file, fault);
    }
}

#[test]
fn form_takes_a_repeated_station_and_counts_it() {
    let mut counts = COUNTS;
    counts[9] += 1;
    counts[10] += 1;
    formed(&repeated_station(), counts);
    refers(&repeated_station(), [11, 21, 11]);
    rewrites(&repeated_station(), [11, 21, 11]);
    // The earliest record first, whichever of 11 and 12.
    let both = with(&repeated_station(), 10, 33, "005");
    formed(&both, counts);
    refers(&both, [12, 10, 33]);
    rewrites(&both, [12, 10, 33]);
}

/// What compares a record with one before it is of form: only what is defined
/// elsewhere is not.
#[test]
fn form_still_compares_records() {
    for (record, first, text) in [
        (7, 11, "0345"),
        (14, 11, "006"),
        (16, 11, "003"),
        (18, 11, "0012"),
        (22, 17, "0012"),
    ] {
        let file = with(&file(), record, first, text);
        not_formed(&file, [10, record as u32, first as u32]);
    }
}

/// "The second call judges form itself, so nobody can skip it": each of 2 to
/// 10 is 14 there.
#[test]
fn every_fault_of_form_is_14_to_references() {
    let good = file();
    let full = generate::accepted(2, 99_999);
    for (file, fault) in [
        ([&full[..], b" "].concat(), [2, 100_000, 1]),
        (good[..100].to_vec(), [3, 2, 20]),
        (with(&good, 3, 40, "\t"), [4, 3, 40]),
        (with(&good, 3, 81, "\r"), [5, 3, 81]),
        (with(&good, 3, 7, "*13*"), [6, 3, 7]),
        (with(&good, 3, 7, "*86*"), [7, 3, 7]),
        (good[..81 * 23].to_vec(), [8, 24, 1]),
        (with(&good, 5, 28, "000"), [9, 5, 30]),
        (with(&good, 7, 11, "0345"), [10, 7, 11]),
    ] {
        not_formed(&file, fault);
    }
}

/// "14 .., then 11 and 12 as before": the later malformed record goes first.
#[test]
fn a_malformed_record_behind_an_undefined_station() {
    not_formed(&with(&undefined_station(), 20, 15, "x"), [9, 20, 15]);
    not_formed(&undefined_station()[..81 * 23], [8, 24, 1]);
    let last = with(&repeated_station(), 26, 7, "*A2*");
    not_formed(&last, [7, 26, 7]);
}

/// "the second answers 1, then new number 14": a short table goes before all
/// that the bytes say, and stays.
#[test]
fn a_short_table_goes_before_14() {
    let bad = with(&file(), 5, 11, "0000");
    for words in [0, 1, 11_999] {
        for file in [&file()[..], b"", &bad, &undefined_station(), b"\xff"] {
            for (name, side) in SIDES {
                let mut answer = [BEFORE; REFERENCES_WORDS];
                let mut table = vec![BEFORE; words];
                side.references(file, &mut table, &mut answer);
                assert_eq!(answer, [1, 0, 0], "{name}");
                assert!(table.iter().all(|&word| word == BEFORE), "{name}");
            }
        }
    }
}

#[test]
fn an_answer_that_is_too_short_means_that_nothing_is_touched() {
    for (name, side) in SIDES {
        for answers in 0..FORM_WORDS {
            let mut answer = vec![BEFORE; answers];
            side.form(&file(), &mut answer);
            assert!(answer.iter().all(|&word| word == BEFORE), "{name}");
        }
        for answers in 0..REFERENCES_WORDS {
            for file in [&file()[..], b"", &undefined_station()] {
                let mut answer = vec![BEFORE; answers];
                let mut table = vec![BEFORE; 12_000];
                side.references(file, &mut table, &mut answer);
                assert!(answer.iter().all(|&word| word == BEFORE), "{name}");
                assert!(table.iter().all(|&word| word == BEFORE), "{name}");
            }
        }
    }
}
