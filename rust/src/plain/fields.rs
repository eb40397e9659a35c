//! How a field is read, and how its value is written in house style.
//!
//! Nothing here knows in which record or column a field stands.

use std::cmp::Ordering;

/// Hundred-thousandths of a second in a degree.
pub const DEGREE: i64 = 60 * MINUTE;
const MINUTE: i64 = 60 * SECOND;
const SECOND: i64 = 100_000;

/// A field that is not of its kind.
#[derive(Clone, Copy, Debug, PartialEq, Eq)]
pub struct Malformed;

/// What one column of a code or text may hold.
#[derive(Clone, Copy, Debug, PartialEq, Eq)]
pub enum Set {
    Letter,
    LetterOrSpace,
    Digit,
    LetterOrDigit,
    YesOrNo,
    /// The project title's characters, *10* and *11*.
    Title,
    /// The same without the backslash, *12*.
    Name,
    Printable,
}

impl Set {
    pub fn holds(self, byte: u8) -> bool {
        match self {
            Set::Letter => byte.is_ascii_uppercase(),
            Set::LetterOrSpace => byte.is_ascii_uppercase() || byte == b' ',
            Set::Digit => byte.is_ascii_digit(),
            Set::LetterOrDigit => byte.is_ascii_uppercase() || byte.is_ascii_digit(),
            Set::YesOrNo => byte == b'Y' || byte == b'N',
            Set::Title => byte == b'\\' || Set::Name.holds(byte),
            Set::Name => {
                byte.is_ascii_uppercase() || byte.is_ascii_digit() || b"*,'=)(-.+/ ".contains(&byte)
            }
            Set::Printable => (0x20..=0x7e).contains(&byte),
        }
    }

    pub fn holds_all(self, columns: &[u8]) -> bool {
        match self {
            Set::Printable => all_printable(columns),
            _ => columns.iter().all(|&byte| self.holds(byte)),
        }
    }
}

/// Every line goes through here, so it looks at all columns without stopping
/// at the first bad one: that way many are compared at once.
pub fn all_printable(columns: &[u8]) -> bool {
    columns
        .iter()
        .fold(true, |good, &byte| good & Set::Printable.holds(byte))
}

/// Spaces only. No field has more than 80 columns.
pub fn is_blank(columns: &[u8]) -> bool {
    *columns == [b' '; 80][..columns.len()]
}

/// Blanks, then digits up to the last column. All blank is missing.
pub fn number(columns: &[u8]) -> Result<Option<i64>, Malformed> {
    let digits = after_blanks(columns);
    if digits.is_empty() {
        return Ok(None);
    }
    all_digits(digits).map(Some)
}

/// Blanks, perhaps a minus, then digits up to the last column. All blank is
/// missing, which is not the same as 0.
pub fn signed(columns: &[u8]) -> Result<Option<i64>, Malformed> {
    let written = after_blanks(columns);
    match written.strip_prefix(b"-") {
        Some(digits) => all_digits(digits).map(|value| Some(-value)),
        None => number(written),
    }
}

/// Degrees, two columns of minutes, two of seconds, five of decimals, every
/// one a digit. The value is without sign: the letter comes after.
pub fn angle(columns: &[u8], most: i64) -> Result<i64, Malformed> {
    let (degrees, rest) = columns.split_at(columns.len() - 9);
    let degrees = all_digits(degrees)?;
    let minutes = all_digits(&rest[..2])?;
    let seconds = all_digits(&rest[2..4])?;
    let decimals = all_digits(&rest[4..])?;
    if minutes >= 60 || seconds >= 60 {
        return Err(Malformed);
    }
    let value = degrees * DEGREE + minutes * MINUTE + seconds * SECOND + decimals;
    if value > most {
        return Err(Malformed);
    }
    Ok(value)
}

/// A year and month YYYYMM, six digits. Gives the number they spell.
pub fn month(columns: &[u8]) -> Result<i64, Malformed> {
    let value = all_digits(columns)?;
    if is_month(value) {
        Ok(value)
    } else {
        Err(Malformed)
    }
}

/// Year 0001 to 9999 and month 01 to 12.
pub fn is_month(value: i64) -> bool {
    (1..=9999).contains(&(value / 100)) && (1..=12).contains(&(value % 100))
}

/// Digits only and at least one. No field has more than ten of them, and ten
/// need more than 32 bits.
pub fn all_digits(columns: &[u8]) -> Result<i64, Malformed> {
    if columns.is_empty() {
        return Err(Malformed);
    }
    let mut value = 0;
    for &byte in columns {
        if !byte.is_ascii_digit() {
            return Err(Malformed);
        }
        value = 10 * value + i64::from(byte - b'0');
    }
    Ok(value)
}

fn after_blanks(columns: &[u8]) -> &[u8] {
    let blanks = columns.iter().take_while(|&&byte| byte == b' ').count();
    &columns[blanks..]
}

/// Zero filled to the width of `columns`; the value must fit.
pub fn put_number(columns: &mut [u8], value: u64) {
    let mut left = value;
    for column in columns.iter_mut().rev() {
        *column = b'0' + (left % 10) as u8;
        left /= 10;
    }
}

/// A negative value has its minus in the first column, zero never has one.
pub fn put_signed(columns: &mut [u8], value: i64) {
    let digits = if value < 0 {
        columns[0] = b'-';
        &mut columns[1..]
    } else {
        columns
    };
    put_number(digits, value.unsigned_abs());
}

/// The digits of an angle; its sign is the letter's matter.
pub fn put_angle(columns: &mut [u8], value: i64) {
    let size = value.abs();
    let (degrees, rest) = columns.split_at_mut(columns.len() - 9);
    put_number(degrees, (size / DEGREE) as u64);
    put_number(&mut rest[..2], (size % DEGREE / MINUTE) as u64);
    put_number(&mut rest[2..4], (size % MINUTE / SECOND) as u64);
    put_number(&mut rest[4..], (size % SECOND) as u64);
}

/// The letter of an angle: zero is written as if north or east.
pub fn letter(value: i64, positive: u8, negative: u8) -> u8 {
    match value.cmp(&0) {
        Ordering::Less => negative,
        Ordering::Equal | Ordering::Greater => positive,
    }
}
