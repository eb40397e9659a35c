//! One record by its kind: the row's test, and what a row cannot say.
//!
//! Numbers are compared as they are printed. A blank differs from a zero in
//! one bit, so setting it gives the digits of house style.

use super::rows::{fits, Line};
use crate::plain::layout::{
    ANTENNA, FACTOR, HEIGHTS, INSTRUMENT, JOB, LOCAL, MEASUREMENT, NETWORK, OCCUPATION, POINT,
    PROJECT,
};

/// Four digits, the first in the lowest byte.
pub type Digits = u32;

/// What makes a blank a zero, in each of eight columns.
pub const FILL: u64 = 0x1010_1010_1010_1010;
pub const ZEROS: u64 = u64::from_le_bytes(*b"00000000");
const BLANKS: u64 = u64::from_le_bytes(*b"        ");
/// The columns of a sequence number in a word from column 1 on.
pub const SIX: u64 = 0x0000_ffff_ffff_ffff;

/// Eight columns from `first` on, counted from 1; the first is the lowest
/// byte.
#[inline(always)]
pub fn eight(line: &Line, first: usize) -> u64 {
    let mut bytes = [0; 8];
    bytes.copy_from_slice(&line[first - 1..first + 7]);
    u64::from_le_bytes(bytes)
}

#[inline(always)]
fn four(line: &Line, first: usize) -> u32 {
    let mut bytes = [0; 4];
    bytes.copy_from_slice(&line[first - 1..first + 3]);
    u32::from_le_bytes(bytes)
}

/// A number of four columns.
#[inline(always)]
fn station(line: &Line, first: usize) -> Digits {
    four(line, first) | FILL as u32
}

/// A number of three columns, with a zero before it.
#[inline(always)]
fn equipment(line: &Line, first: usize) -> Digits {
    (four(line, first - 1) & !0xff) | FILL as u32 | u32::from(b'0')
}

/// The number that four digits spell.
#[inline(always)]
pub fn value(digits: Digits) -> usize {
    let digits = digits & 0x0f0f_0f0f;
    let pairs = digits * 10 + (digits >> 8);
    ((pairs & 0xff) * 100 + ((pairs >> 16) & 0xff)) as usize
}

/// Numbers of one width compare as they are printed.
#[inline(always)]
pub fn is_above(digits: Digits, other: Digits) -> bool {
    digits.swap_bytes() > other.swap_bytes()
}

#[inline(always)]
fn is_positive(digits: Digits) -> bool {
    digits != ZEROS as u32
}

/// Blank, or not zero.
#[inline(always)]
fn good_sequence(line: &Line) -> bool {
    let columns = eight(line, 1) & SIX;
    let is_positive = (columns | (FILL & SIX)) != (ZEROS & SIX);
    is_positive | (columns == (BLANKS & SIX))
}

/// Not one of the characters between the digits and the letters.
#[inline(always)]
fn outside_gap(byte: u8) -> bool {
    !(b'9' + 1..b'A').contains(&byte)
}

/// What every record is asked; of a comment, which is all text, it is all.
#[inline(always)]
pub fn formed<const KIND: usize>(line: &Line) -> bool {
    fits::<KIND>(line) & good_sequence(line)
}

/// The job-code record that opens or closes a file.
pub fn job(line: &Line) -> bool {
    formed::<JOB>(line)
        && line[7].is_ascii_uppercase()
        && (line[8].is_ascii_uppercase() || line[8].is_ascii_digit())
}

/// *10* and *11*.
pub fn title<const KIND: usize>(line: &Line) -> bool {
    formed::<KIND>(line) & all_title(&line[10..80])
}

/// *12*.
pub fn project(line: &Line) -> bool {
    let [begin, end] = [&line[10..16], &line[16..22]];
    let names = [&line[25..43], &line[46..64]];
    formed::<PROJECT>(line)
        && is_month(begin)
        && is_month(end)
        && begin <= end
        && names
            .iter()
            .all(|name| all_title(name) && !name.contains(&b'\\'))
}

/// Of six digits, whether they are a year from 0001 on and a month 01-12.
fn is_month(digits: &[u8]) -> bool {
    digits[..4] != *b"0000" && (*b"01"..=*b"12").contains(&[digits[4], digits[5]])
}

/// The title's characters: blanks, `'` to `9`, `=`, letters and backslash.
fn all_title(columns: &[u8]) -> bool {
    columns.iter().fold(true, |good, &byte| {
        let signs_or_digits = (b'\''..=b'9').contains(&byte);
        let others = (byte == b' ') | (byte == b'=') | (byte == b'\\');
        good & (signs_or_digits | byte.is_ascii_uppercase() | others)
    })
}

/// The numbers that a *25* names.
pub struct Named {
    pub station: Digits,
    pub instrument: Digits,
    pub antenna: Digits,
}

/// *25*.
#[inline(always)]
pub fn occupation(line: &Line) -> Option<Named> {
    let named = Named {
        station: station(line, 11),
        instrument: equipment(line, 28),
        antenna: equipment(line, 33),
    };
    // The maker's letter before the day is left out.
    let day = (four(line, 15) & !0xff).swap_bytes();
    let [least, most] = [*b"\x00001", *b"\x00366"].map(u32::from_be_bytes);
    let good = formed::<OCCUPATION>(line)
        & is_positive(named.station)
        & is_positive(named.instrument)
        & is_positive(named.antenna)
        & (least <= day)
        & (day <= most)
        & outside_gap(line[19]);
    good.then_some(named)
}

/// *27*, of its group's station.
#[inline(always)]
pub fn measurement(line: &Line, group: Digits) -> bool {
    formed::<MEASUREMENT>(line) & (station(line, 11) == group)
}

/// *70*.
#[inline(always)]
pub fn instrument(line: &Line) -> Option<Digits> {
    let number = equipment(line, 11);
    let good = formed::<INSTRUMENT>(line) & is_positive(number) & is_positive(equipment(line, 14));
    good.then_some(number)
}

/// *72*.
#[inline(always)]
pub fn antenna(line: &Line) -> Option<Digits> {
    let number = equipment(line, 11);
    (formed::<ANTENNA>(line) & is_positive(number)).then_some(number)
}

/// *80*.
#[inline(always)]
pub fn point(line: &Line) -> Option<Digits> {
    let number = station(line, 11);
    let good = formed::<POINT>(line)
        & is_positive(number)
        & at_most(eight(line, 45), eight(line, 48), b"90000000")
        & at_most(eight(line, 57), eight(line, 61), b"18000000");
    good.then_some(number)
}

/// Whether the digits of an angle, its first eight and its last eight, are no
/// more than `most` and zeros.
#[inline(always)]
fn at_most(first: u64, last: u64, most: &[u8; 8]) -> bool {
    let [first, most] = [first.swap_bytes(), u64::from_be_bytes(*most)];
    (first < most) | ((first == most) & (last == ZEROS))
}

/// *86*, of its point's station.
#[inline(always)]
pub fn heights(line: &Line, point: Digits) -> bool {
    formed::<HEIGHTS>(line)
        & (station(line, 11) == point)
        & outside_gap(line[27])
        & outside_gap(line[28])
        & outside_gap(line[42])
        & codes_agree(line)
}

/// Whether 24 and 27 are blank as 23 is, 43 as 42, 53 as 52, and 25 as 26,
/// 28 as 29. A height is missing exactly when its last column is blank.
#[inline(always)]
fn codes_agree(line: &Line) -> bool {
    // Digits and letters have one of these two bits, blanks have neither.
    let held = |columns: u64| (columns | (columns >> 2)) & FILL;
    let unlike = |columns: u64, away: usize| columns ^ (columns >> (8 * away));
    let codes = held(eight(line, 23));
    let [geoid, ellipsoid] = [held(eight(line, 42)), held(eight(line, 52))];
    let pairs = unlike(codes, 1) & u64::from_le_bytes([0x10, 0, 0x10, 0, 0, 0x10, 0, 0]);
    let firsts = unlike(codes, 4) | unlike(geoid, 1) | unlike(ellipsoid, 1);
    (pairs | (firsts & 0x10)) == 0
}

/// *91*.
#[inline(always)]
pub fn network(line: &Line) -> Option<Digits> {
    let number = station(line, 11);
    let good = formed::<NETWORK>(line) & is_positive(number) & good_correlation(line, 41);
    good.then_some(number)
}

/// *92*: standpoint and forepoint, which differ.
#[inline(always)]
pub fn local(line: &Line) -> Option<[Digits; 2]> {
    let [from, to] = [station(line, 11), station(line, 17)];
    let good = formed::<LOCAL>(line)
        & is_positive(from)
        & is_positive(to)
        & (from != to)
        & good_correlation(line, 43);
    good.then_some([from, to])
}

/// Whether a correlation is none of the nine below the least: the row takes
/// every one of eight digits, and only these nines with a minus are too many.
#[inline(always)]
fn good_correlation(line: &Line, first: usize) -> bool {
    let is_negative = (line[first - 1] == b'-') | (line[first] == b'-');
    let least = u64::from_be_bytes(*b"99999990");
    !is_negative | (eight(line, first + 2).swap_bytes() <= least)
}

/// *93*.
pub fn factor(line: &Line) -> bool {
    let is_positive = |first| eight(line, first) | FILL != ZEROS;
    formed::<FACTOR>(line) & is_positive(11) & is_positive(19)
}
