//! The field tables: every row from column 11 on, in column order.

use super::fields::{Set, DEGREE};

/// The codes of the fourteen kinds, in the order of the counts.
pub const KINDS: [&str; 14] = [
    "AA", "10", "11", "12", "25", "26", "27", "70", "72", "80", "86", "91", "92", "93",
];

pub const JOB: usize = 0;
pub const TITLE: usize = 1;
pub const TITLE_MORE: usize = 2;
pub const PROJECT: usize = 3;
pub const OCCUPATION: usize = 4;
pub const COMMENT: usize = 5;
pub const MEASUREMENT: usize = 6;
pub const INSTRUMENT: usize = 7;
pub const ANTENNA: usize = 8;
pub const POINT: usize = 9;
pub const HEIGHTS: usize = 10;
pub const NETWORK: usize = 11;
pub const LOCAL: usize = 12;
pub const FACTOR: usize = 13;

/// The largest latitude, 90 degrees.
pub const MOST_LATITUDE: i64 = 90 * DEGREE;
/// The largest longitude, 180 degrees; 180 W is the same and is written E.
pub const MOST_LONGITUDE: i64 = 180 * DEGREE;

#[derive(Clone, Copy, Debug, PartialEq, Eq)]
pub enum Form {
    /// Spaces only.
    Blank,
    /// The survey method, always `4`.
    Four,
    /// A number of this range; none of them may be missing.
    Number { least: i64, most: i64 },
    /// The same, and not the number of as many columns from `other` on.
    NumberUnlike { least: i64, most: i64, other: usize },
    /// A number of this range that has a minus where it is negative: the
    /// height rule at any width. Blank is missing where it is optional.
    Signed {
        least: i64,
        most: i64,
        optional: bool,
    },
    /// The code of the height that starts in column `height`: a character
    /// of the set, or blank exactly when that height is missing.
    HeightCode { set: Set, height: usize },
    /// The digits of an angle. Its letter is the next field.
    Angle { most: i64 },
    /// The letter of the angle that ends in the column before.
    AngleLetter { positive: u8, negative: u8 },
    /// YYYYMM.
    Month,
    /// YYYYMM, not before the month that starts in column `from`.
    MonthFrom { from: usize },
    /// Maker, day of the year, digit of the year, session, four characters.
    Media,
    /// At most four columns, each by the set: a word for each character.
    Code(Set),
    /// The same, or every column blank.
    CodeOrBlank(Set),
    /// More than four columns, each by the set: no words.
    Text(Set),
}

/// The width of every height that has a code.
pub const CODED_HEIGHT_WIDTH: usize = 7;

#[derive(Clone, Copy, Debug, PartialEq, Eq)]
pub struct Field {
    /// The first column, counted from 1 as on paper.
    pub first: usize,
    pub width: usize,
    pub form: Form,
}

const fn row(first: usize, last: usize, form: Form) -> Field {
    Field {
        first,
        width: last - first + 1,
        form,
    }
}

const fn number(least: i64, most: i64) -> Form {
    Form::Number { least, most }
}

/// A height in millimetres: the minus takes the place of a digit.
const fn height(least: i64, most: i64, optional: bool) -> Form {
    Form::Signed {
        least,
        most,
        optional,
    }
}

const fn height_code(set: Set, height: usize) -> Form {
    Form::HeightCode { set, height }
}

const fn angle_letter(positive: u8, negative: u8) -> Form {
    Form::AngleLetter { positive, negative }
}

const STATION: Form = number(1, 9_999);
/// Instruments, antennas and the equipment code.
const EQUIPMENT: Form = number(1, 999);
/// YYMMDD and HHMM of a *27*: numbers without a calendar.
const DATE: Form = number(0, 999_999);
const TIME: Form = number(0, 9_999);
const HEIGHT: Form = height(-999_999, 9_999_999, true);
/// The antenna's height of a *27*, which the source does not call optional.
const ANTENNA_HEIGHT: Form = height(-9_999, 99_999, false);
/// The forepoint of a *92*, whose standpoint is another.
const FOREPOINT: Form = Form::NumberUnlike {
    least: 1,
    most: 9_999,
    other: 11,
};
/// A standard deviation in hundredths of a centimetre: nine digits printed
/// for ten columns.
const DEVIATION: Form = number(0, 999_999_999);
/// A correlation in hundred-millionths, from -.9999999 to .99999999 as
/// printed.
const CORRELATION: Form = Form::Signed {
    least: -99_999_990,
    most: 99_999_999,
    optional: false,
};
/// A variance factor in thousandths: four digits printed for eight columns.
const VARIANCE_FACTOR: Form = number(1, 9_999);
const LATITUDE: Form = Form::Angle {
    most: MOST_LATITUDE,
};
const LONGITUDE: Form = Form::Angle {
    most: MOST_LONGITUDE,
};

/// The rows of each kind, in the order of [`KINDS`].
pub static FIELDS: [&[Field]; 14] = [
    // Job-code records: kept as printable bytes.
    &[row(11, 80, Form::Text(Set::Printable))],
    // *10* and *11*
    &[row(11, 80, Form::Text(Set::Title))],
    &[row(11, 80, Form::Text(Set::Title))],
    // *12*
    &[
        row(11, 16, Form::Month),
        row(17, 22, Form::MonthFrom { from: 11 }),
        row(23, 25, Form::Code(Set::LetterOrSpace)),
        row(26, 43, Form::Text(Set::Name)),
        row(44, 46, Form::Code(Set::LetterOrSpace)),
        row(47, 64, Form::Text(Set::Name)),
        row(65, 75, Form::Blank),
        row(76, 76, Form::Four),
        row(77, 78, Form::Code(Set::Letter)),
        row(79, 80, Form::Blank),
    ],
    // *25*
    &[
        row(11, 14, STATION),
        row(15, 24, Form::Media),
        row(25, 27, Form::Code(Set::LetterOrSpace)),
        row(28, 30, EQUIPMENT),
        row(31, 32, Form::Blank),
        row(33, 35, EQUIPMENT),
        row(36, 80, Form::Blank),
    ],
    // *26*
    &[row(11, 80, Form::Text(Set::Printable))],
    // *27*
    &[
        row(11, 14, STATION),
        row(15, 20, DATE),
        row(21, 24, TIME),
        row(25, 55, Form::Blank),
        row(56, 60, ANTENNA_HEIGHT),
        row(61, 80, Form::Blank),
    ],
    // *70*
    &[
        row(11, 13, EQUIPMENT),
        row(14, 16, EQUIPMENT),
        row(17, 22, Form::Blank),
        row(23, 40, Form::Text(Set::Printable)),
        row(41, 62, Form::Blank),
        row(63, 70, Form::Text(Set::Printable)),
        row(71, 80, Form::Text(Set::Printable)),
    ],
    // *72*
    &[
        row(11, 13, EQUIPMENT),
        row(14, 16, Form::Blank),
        row(17, 32, Form::Text(Set::Printable)),
        row(33, 36, Form::Code(Set::Letter)),
        row(37, 44, Form::Blank),
        row(45, 64, Form::Text(Set::Printable)),
        row(65, 80, Form::Blank),
    ],
    // *80*
    &[
        row(11, 14, STATION),
        row(15, 44, Form::Text(Set::Printable)),
        row(45, 55, LATITUDE),
        row(56, 56, angle_letter(b'N', b'S')),
        row(57, 68, LONGITUDE),
        row(69, 69, angle_letter(b'E', b'W')),
        row(70, 76, Form::Blank),
        row(77, 78, Form::Code(Set::Letter)),
        row(79, 80, Form::Blank),
    ],
    // *86*
    &[
        row(11, 14, STATION),
        row(15, 16, Form::Blank),
        row(17, 23, HEIGHT),
        row(24, 24, height_code(Set::Letter, 17)),
        row(25, 26, Form::CodeOrBlank(Set::Digit)),
        row(27, 27, height_code(Set::YesOrNo, 17)),
        row(28, 29, Form::CodeOrBlank(Set::LetterOrDigit)),
        row(30, 35, Form::Text(Set::Printable)),
        row(36, 42, HEIGHT),
        row(43, 43, height_code(Set::LetterOrDigit, 36)),
        row(44, 45, Form::Blank),
        row(46, 52, HEIGHT),
        row(53, 53, height_code(Set::Letter, 46)),
        row(54, 55, Form::Blank),
        row(56, 56, Form::Code(Set::LetterOrSpace)),
        row(57, 80, Form::Text(Set::Printable)),
    ],
    // *91*
    &[
        row(11, 14, STATION),
        row(15, 20, Form::Blank),
        row(21, 30, DEVIATION),
        row(31, 40, DEVIATION),
        row(41, 50, CORRELATION),
        row(51, 60, DEVIATION),
        row(61, 64, Form::Blank),
        row(65, 65, Form::Code(Set::YesOrNo)),
        row(66, 80, Form::Text(Set::Printable)),
    ],
    // *92*
    &[
        row(11, 14, STATION),
        row(15, 16, Form::Blank),
        row(17, 20, FOREPOINT),
        row(21, 22, Form::Blank),
        row(23, 32, DEVIATION),
        row(33, 42, DEVIATION),
        row(43, 52, CORRELATION),
        row(53, 62, DEVIATION),
        row(63, 66, Form::Blank),
        row(67, 67, Form::Code(Set::YesOrNo)),
        row(68, 80, Form::Text(Set::Printable)),
    ],
    // *93*
    &[
        row(11, 18, VARIANCE_FACTOR),
        row(19, 26, VARIANCE_FACTOR),
        row(27, 80, Form::Text(Set::Printable)),
    ],
];

/// The kind that columns 7-10 name, if they hold a known code.
pub fn kind_of(code: &[u8]) -> Option<usize> {
    match code {
        [b'*', first, second, b'*'] => match [*first, *second] {
            [b'1', b'0'] => Some(TITLE),
            [b'1', b'1'] => Some(TITLE_MORE),
            [b'1', b'2'] => Some(PROJECT),
            [b'2', b'5'] => Some(OCCUPATION),
            [b'2', b'6'] => Some(COMMENT),
            [b'2', b'7'] => Some(MEASUREMENT),
            [b'7', b'0'] => Some(INSTRUMENT),
            [b'7', b'2'] => Some(ANTENNA),
            [b'8', b'0'] => Some(POINT),
            [b'8', b'6'] => Some(HEIGHTS),
            [b'9', b'1'] => Some(NETWORK),
            [b'9', b'2'] => Some(LOCAL),
            [b'9', b'3'] => Some(FACTOR),
            _ if is_job_code(*first, *second) => Some(JOB),
            _ => None,
        },
        _ => None,
    }
}

/// A letter followed by a letter or digit.
pub fn is_job_code(first: u8, second: u8) -> bool {
    Set::Letter.holds(first) && Set::LetterOrDigit.holds(second)
}

/// First column and width of the long texts of a kind, in column order.
pub fn long_texts(kind: usize) -> Vec<(usize, usize)> {
    FIELDS[kind]
        .iter()
        .filter(|field| matches!(field.form, Form::Text(_)))
        .map(|field| (field.first, field.width))
        .collect()
}
