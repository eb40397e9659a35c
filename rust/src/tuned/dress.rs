//! An accepted file in house style. Nothing is judged here.

use super::judge::{eight, FILL, SIX, ZEROS};
use super::rows::{copy_filled, Line};
use crate::plain::layout::{
    ANTENNA, FACTOR, HEIGHTS, INSTRUMENT, LOCAL, MEASUREMENT, NETWORK, OCCUPATION, POINT,
};
use crate::plain::LINE;

/// Puts an accepted file into an output of its length.
pub fn dress(file: &[u8], out: &mut [u8]) {
    let mut sequence = Sequence::new();
    let (lines, _) = file.as_chunks::<LINE>();
    let (places, _) = out.as_chunks_mut::<LINE>();
    for (line, place) in lines.iter().zip(places) {
        dress_line(line, place);
        put_eight(place, 1, (eight(line, 1) & !SIX) | sequence.next());
    }
}

/// All but the sequence number.
#[inline(always)]
fn dress_line(line: &Line, out: &mut Line) {
    match [line[7], line[8]] {
        [b'2', b'5'] => copy_filled::<OCCUPATION>(line, out),
        [b'2', b'7'] => {
            copy_filled::<MEASUREMENT>(line, out);
            height::<5>(line, out, 56);
        }
        [b'7', b'0'] => copy_filled::<INSTRUMENT>(line, out),
        [b'7', b'2'] => copy_filled::<ANTENNA>(line, out),
        [b'8', b'0'] => {
            copy_filled::<POINT>(line, out);
            let latitude = [eight(line, 45), eight(line, 48)];
            let longitude = [eight(line, 57), eight(line, 61)];
            out[55] = if is_zero(latitude) { b'N' } else { line[55] };
            let either = is_zero(longitude) | is_half_turn(longitude);
            out[68] = if either { b'E' } else { line[68] };
        }
        [b'8', b'6'] => {
            copy_filled::<HEIGHTS>(line, out);
            height::<7>(line, out, 17);
            height::<7>(line, out, 36);
            height::<7>(line, out, 46);
        }
        [b'9', b'1'] => {
            copy_filled::<NETWORK>(line, out);
            correlation(line, out, 41);
        }
        [b'9', b'2'] => {
            copy_filled::<LOCAL>(line, out);
            correlation(line, out, 43);
        }
        [b'9', b'3'] => copy_filled::<FACTOR>(line, out),
        _ => *out = *line,
    }
}

/// Of an angle's first and last eight digits.
#[inline(always)]
fn is_zero([first, last]: [u64; 2]) -> bool {
    (first == ZEROS) & (last == ZEROS)
}

/// 180 W is 180 E; no accepted longitude is above it.
#[inline(always)]
fn is_half_turn([first, _]: [u64; 2]) -> bool {
    first == u64::from_le_bytes(*b"18000000")
}

/// Blanks, perhaps a minus, then digits, in a word of columns.
struct Signed {
    /// A bit for each column that holds no digit.
    no_digit: u64,
    has_minus: bool,
    /// What each digit is worth, 0 in the other columns.
    values: u64,
}

impl Signed {
    /// Of the columns in `ours`.
    #[inline(always)]
    fn of(columns: u64, ours: u64) -> Signed {
        let held = columns & ours;
        // Only digits have this bit, and of blanks and minus only the minus
        // has the lowest.
        let no_digit = !held & FILL & ours;
        Signed {
            no_digit,
            has_minus: held & (no_digit >> 4) != 0,
            values: held & 0x0f0f_0f0f_0f0f_0f0f & !(no_digit - (no_digit >> 4)),
        }
    }
}

/// A height of so many columns: its minus first, its blanks zeros, no minus
/// before zero; blank if it is missing. All heights go one way here, since
/// which dress comes next cannot be foreseen.
#[inline(always)]
fn height<const WIDTH: usize>(line: &Line, out: &mut Line, first: usize) {
    let ours = u64::MAX >> (64 - 8 * WIDTH);
    let columns = eight(line, first);
    let held = Signed::of(columns, ours);
    let has_sign = held.has_minus & (held.values != 0);
    let sign = if has_sign { b'0' ^ b'-' } else { 0 };
    let digits = (held.values | (ZEROS & ours)) ^ u64::from(sign);
    let is_missing = held.no_digit >> (8 * WIDTH - 4) != 0;
    let dressed = if is_missing { columns & ours } else { digits };
    put_eight(out, first, dressed | (columns & !ours));
}

/// The same of a correlation, which has ten columns, is never missing, and
/// has no digit but zeros in the first two.
#[inline(always)]
fn correlation(line: &Line, out: &mut Line, first: usize) {
    let held = Signed::of(eight(line, first + 2), u64::MAX);
    let has_minus = held.has_minus | (line[first - 1] == b'-') | (line[first] == b'-');
    let has_sign = has_minus & (held.values != 0);
    out[first - 1] = if has_sign { b'-' } else { b'0' };
    out[first] = b'0';
    put_eight(out, first + 2, held.values | ZEROS);
}

#[inline(always)]
fn put_eight(out: &mut Line, first: usize, columns: u64) {
    out[first - 1..first + 7].copy_from_slice(&columns.to_le_bytes());
}

/// The sequence numbers of house style, 10, 20, 30 .., as columns 1-6.
struct Sequence {
    /// Columns 1-3 and 6.
    hundreds: u64,
    number: u32,
}

/// The digits of 0 to 99 as columns 4 and 5.
const PAIRS: [u64; 100] = {
    let mut pairs = [0; 100];
    let mut number = 0;
    while number < 100 {
        let [tens, ones] = [number as u64 / 10, number as u64 % 10];
        pairs[number] = ((tens + 0x30) << 24) | ((ones + 0x30) << 32);
        number += 1;
    }
    pairs
};

impl Sequence {
    fn new() -> Sequence {
        Sequence {
            hundreds: Sequence::of_hundreds(0),
            number: 0,
        }
    }

    fn of_hundreds(hundreds: u32) -> u64 {
        let digits = [hundreds / 100, hundreds / 10 % 10, hundreds % 10].map(u64::from);
        let columns = digits[0] | (digits[1] << 8) | (digits[2] << 16);
        columns | (ZEROS & 0x0000_ff00_00ff_ffff)
    }

    #[inline(always)]
    fn next(&mut self) -> u64 {
        self.number += 1;
        let pair = self.number % 100;
        if pair == 0 {
            self.hundreds = Sequence::of_hundreds(self.number / 100);
        }
        self.hundreds | PAIRS[pair as usize]
    }
}
