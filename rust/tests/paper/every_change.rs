//! Every change of one byte of good accuracy records, and every beginning of
//! each of their fields with what may stand behind it, held against the rules
//! said another way: a field begins well when the numbers that begin so and
//! the numbers of its range have one in common.

use crate::pointing::{self, read_says};
use crate::sample::{file, line, with};
use std::ops::RangeInclusive;

#[derive(Clone, Copy)]
enum Kind {
    Blank,
    Number(i64, i64),
    Signed(i64, i64),
    YesOrNo,
    Text,
}

/// First and last column, and what stands there.
type Row = (usize, usize, Kind);

const STATION: Kind = Kind::Number(1, 9_999);
const DEVIATION: Kind = Kind::Number(0, 999_999_999);
const CORRELATION: Kind = Kind::Signed(-99_999_990, 99_999_999);
const FACTOR: Kind = Kind::Number(1, 9_999);

const NETWORK_ROWS: [Row; 9] = [
    (11, 14, STATION),
    (15, 20, Kind::Blank),
    (21, 30, DEVIATION),
    (31, 40, DEVIATION),
    (41, 50, CORRELATION),
    (51, 60, DEVIATION),
    (61, 64, Kind::Blank),
    (65, 65, Kind::YesOrNo),
    (66, 80, Kind::Text),
];
const LOCAL_ROWS: [Row; 11] = [
    (11, 14, STATION),
    (15, 16, Kind::Blank),
    (17, 20, STATION),
    (21, 22, Kind::Blank),
    (23, 32, DEVIATION),
    (33, 42, DEVIATION),
    (43, 52, CORRELATION),
    (53, 62, DEVIATION),
    (63, 66, Kind::Blank),
    (67, 67, Kind::YesOrNo),
    (68, 80, Kind::Text),
];
const FACTOR_ROWS: [Row; 3] = [(11, 18, FACTOR), (19, 26, FACTOR), (27, 80, Kind::Text)];

/// Whether some acceptable field of this width begins so.
fn begins(kind: Kind, text: &[u8], width: usize) -> bool {
    let after = width - text.len();
    let written = without_blanks(text);
    match kind {
        Kind::Blank => text.iter().all(|&byte| byte == b' '),
        Kind::Number(least, most) => common(spelled(written, after), least..=most),
        // Zero is in each range, so what is blank goes on without a minus too.
        Kind::Signed(least, most) => match written.strip_prefix(b"-") {
            Some(digits) => common(spelled(digits, after), -most..=-least),
            None => common(spelled(written, after), least..=most),
        },
        Kind::YesOrNo => text == b"Y" || text == b"N",
        Kind::Text => true,
    }
}

fn without_blanks(text: &[u8]) -> &[u8] {
    let blanks = text.iter().take_while(|&&byte| byte == b' ').count();
    &text[blanks..]
}

/// The least and the most that some digits spell with so many more behind
/// them, if they are digits and all together one at least.
fn spelled(digits: &[u8], after: usize) -> Option<RangeInclusive<i64>> {
    let with = |filling: &[u8]| -> Option<i64> {
        let all = [digits, &filling.repeat(after)].concat();
        let all = all.iter().all(u8::is_ascii_digit).then_some(all)?;
        String::from_utf8(all).ok()?.parse().ok()
    };
    Some(with(b"0")?..=with(b"9")?)
}

fn station(line: &[u8], first: usize) -> Option<RangeInclusive<i64>> {
    spelled(without_blanks(&line[first - 1..first + 3]), 0)
}

fn common(begun: Option<RangeInclusive<i64>>, range: RangeInclusive<i64>) -> bool {
    begun.is_some_and(|begun| begun.start() <= range.end() && range.start() <= begun.end())
}

/// Number, record and column for a line that stands by itself.
fn expected(line: &[u8], rows: &[Row]) -> [u32; 3] {
    let outside = |&byte: &u8| !(0x20..=0x7e).contains(&byte);
    if let Some(at) = line[..80].iter().position(outside) {
        return [4, 1, at as u32 + 1];
    }
    for &(first, last, kind) in rows {
        let field = &line[first - 1..last];
        let bad = |length: &usize| !begins(kind, &field[..*length], field.len());
        if let Some(length) = (1..=field.len()).find(bad) {
            return [9, 1, (first + length - 1) as u32];
        }
        if first == 17 && station(line, 11) == station(line, 17) {
            return [10, 1, 17];
        }
    }
    [0, 0, 0]
}

/// Good lines of each kind, in house style, padded, and at the ends of ranges;
/// the record of the sample that each may stand for.
fn good_lines() -> Vec<(usize, Vec<u8>, &'static [Row])> {
    let network = |parts: &[(usize, &str)]| (21, line(parts), &NETWORK_ROWS[..]);
    let local = |parts: &[(usize, &str)]| (22, line(parts), &LOCAL_ROWS[..]);
    let factor = |parts: &[(usize, &str)]| (23, line(parts), &FACTOR_ROWS[..]);
    let house = "00000001230000000098-0123456780000000256";
    let padded = "       123         0  -5000000        17";
    let ends = "0999999999 999999999-0999999900000000000";
    let zeros = "         0000000000000000000000000000000";
    vec![
        network(&[(7, "*91*0012"), (21, house), (65, "Y"), (66, "a ~")]),
        network(&[(7, "*91* 345"), (21, padded), (65, "N")]),
        network(&[(7, "*91*  12"), (21, ends), (65, "N")]),
        local(&[(7, "*92*0012  0345"), (23, house), (67, "Y"), (68, "~")]),
        local(&[(7, "*92* 345    12"), (23, padded), (67, "N")]),
        local(&[(7, "*92*  12     2"), (23, zeros), (67, "N")]),
        factor(&[(7, "*93*0000100000002345"), (27, "by hand ~")]),
        factor(&[(7, "*93*       1    9999"), (80, "~")]),
    ]
}

/// Read says what is expected; gives its fault number.
fn held(line: &[u8], rows: &[Row]) -> u32 {
    let fault = expected(line, rows);
    assert_eq!(read_says(line, 1), fault, "{}", line.escape_ascii());
    fault[0]
}

/// Each of these places with each of these bytes.
fn pairs<B: Copy>(
    places: impl Iterator<Item = usize>,
    bytes: impl Iterator<Item = B> + Clone,
) -> impl Iterator<Item = (usize, B)> {
    places.flat_map(move |place| bytes.clone().map(move |byte| (place, byte)))
}

#[test]
fn every_byte_of_good_records() {
    let mut faults = [0; 11];
    for (_, good, rows) in good_lines() {
        assert_eq!(held(&good, rows), 0);
        let changed = pairs(10..80, 0..=255).map(|(at, byte)| {
            let mut line = good.clone();
            line[at] = byte;
            line
        });
        changed.for_each(|line| faults[held(&line, rows) as usize] += 1);
    }
    assert!(faults[9] > 30_000 && faults[10] >= 3, "{faults:?}");
}

/// Each beginning of each field, then each character, then what was there, and
/// then blanks or one digit up to the field's last column.
#[test]
fn every_beginning_of_good_records() {
    for (_, good, rows) in good_lines() {
        let typed = rows.iter().filter(|row| !matches!(row.2, Kind::Text));
        typed.for_each(|row| every_beginning(&good, rows, row));
    }
}

fn every_beginning(good: &[u8], rows: &[Row], &(first, last, _): &Row) {
    for (at, character) in pairs(first - 1..last, b' '..=b'~') {
        let mut line = good.to_vec();
        line[at] = character;
        held(&line, rows);
        b" 019".iter().for_each(|&filling| {
            line[at + 1..last].fill(filling);
            held(&line, rows);
        });
    }
}

/// Form says what read says, and references refuses what read cannot know of: a
/// station that no *80* defines.
#[test]
fn every_character_of_good_records_in_their_file() {
    let mut undefined = 0;
    for (record, good, rows) in good_lines() {
        let columns = String::from_utf8(good[..80].to_vec()).unwrap();
        let file = with(&file(), record, 1, &columns);
        undefined += pairs(11..=80, ' '..='~')
            .map(|(column, character)| with(&file, record, column, &character.to_string()))
            .filter(|changed| judged(changed, record, rows) == 12)
            .count();
    }
    assert!(undefined > 100, "{undefined}");
}

/// What is expected of the file's only record that may be bad is said; gives
/// its fault number.
fn judged(file: &[u8], record: usize, rows: &[Row]) -> u32 {
    let line = &file[81 * (record - 1)..81 * record];
    let fault = match expected(line, rows) {
        [0, ..] => reference(line, record as u32),
        [number, _, column] => [number, record as u32, column],
    };
    assert_eq!(pointing::judged(file), fault, "{}", line.escape_ascii());
    fault[0]
}

/// The sample defines stations 12 and 345.
fn reference(line: &[u8], record: u32) -> [u32; 3] {
    let columns: &[usize] = match record {
        21 => &[11],
        22 => &[11, 17],
        _ => &[],
    };
    let is_undefined = |&&first: &&usize| {
        let station = station(line, first);
        station != Some(12..=12) && station != Some(345..=345)
    };
    match columns.iter().find(is_undefined) {
        Some(&first) => [12, record, first as u32],
        None => [0, 0, 0],
    }
}
