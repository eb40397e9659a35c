//! The library's answers as values say what its words say.

use shelf::calls::{Calls, FileCalls, FORM_WORDS, READ_WORDS, REFERENCES_WORDS, REWRITE_WORDS};
use shelf::library::{self, Fault, Library, Verdict, TABLE_WORDS};
use shelf::plain::layout::long_texts;
use shelf::{generate, sample};

/// Form and references one by one, and then together what rewrite says.
#[test]
fn form_references_and_rewrite() {
    for seed in (0..2_000).filter(|seed| seed % 64 != 63) {
        let file = generate::case(seed);
        let mut words = [0; FORM_WORDS];
        Library.form(&file, &mut words);
        says(&library::form(&file), &words);
        let mut words = [0; REFERENCES_WORDS];
        Library.references(&file, &mut vec![0; TABLE_WORDS], &mut words);
        is(library::references(&file), &words);
        let mut words = [0; REWRITE_WORDS];
        let mut out = vec![0; file.len()];
        Library.rewrite(&file, &mut vec![0; TABLE_WORDS], &mut out, &mut words);
        let verdict = library::judge(&file);
        says(&verdict, &words);
        assert_eq!(library::rewrite(&file), (verdict, out));
    }
}

fn says(verdict: &Verdict, words: &[u32]) {
    is(verdict.fault, &words[..3]);
    assert_eq!(verdict.counts, words[3..]);
    assert_eq!(verdict.is_accepted(), words[0] == 0);
}

fn is(fault: Fault, words: &[u32]) {
    assert_eq!([fault.number, fault.record, fault.column], words);
}

#[test]
fn read_and_field() {
    let file = sample::with(&sample::file(), 7, 56, "1.543");
    let refused = library::read(&file, 7).unwrap_err();
    assert_eq!((refused.number, refused.record, refused.column), (9, 7, 57));
    assert_eq!(library::field(&file, 7, 11), b"");
    assert_eq!(library::field(&file, 5, 15), b"T3669Aab~ ");
    for number in (1..=24).filter(|&number| number != 7) {
        let mut words = [0; READ_WORDS];
        Library.read(&file, number, &mut words);
        let record = library::read(&file, number).unwrap();
        assert_eq!(record.kind as i64, words[3]);
        assert_eq!(record.sequence.unwrap_or(-1), words[4]);
        assert_eq!(record.values, words[5..]);
    }
}

/// What was read is written back in house style.
#[test]
fn write() {
    let (_, house) = library::rewrite(&sample::file());
    for (number, line) in (1..).zip(house.chunks(81)) {
        let record = library::read(&house, number).unwrap();
        let sequence = record.sequence.unwrap();
        let values = [&[record.kind as i64, sequence], &record.values[..]].concat();
        let mut texts: [&[u8]; 3] = [b""; 3];
        for (text, (first, _)) in texts.iter_mut().zip(long_texts(record.kind)) {
            *text = library::field(&house, number, first as u32);
        }
        let mut out = [0; 81];
        let fault = library::write(&mut out, &values, texts);
        assert_eq!((fault.number, fault.record, fault.column), (0, 0, 0));
        assert_eq!(out, line);
        let short = library::write(&mut out[..80], &values, texts);
        assert_eq!(short.number, 1);
        let bad = library::write(&mut out, &[record.kind as i64, 0], texts);
        assert_eq!((bad.number, bad.record, bad.column), (9, 0, 1));
    }
}
