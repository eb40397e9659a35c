//! Which characters each column of a kind takes, as constants.
//!
//! The rows are made by the compiler from the plain implementation's field
//! tables, so that the layout is said once in `rust/`.

use crate::plain::fields::Set;
use crate::plain::layout::{Form, FIELDS, JOB, KINDS};
use crate::plain::COLUMNS;

/// A record with its line feed.
pub type Line = [u8; COLUMNS + 1];

/// Columns that are tested side by side, in one register.
const LANES: usize = 16;
const BLOCKS: usize = COLUMNS / LANES;

/// What one column takes: a range of characters and two more. Unless it holds
/// the first of these two, the next column must be `close` or above: so the
/// blanks of a number, and the minus of a signed one, stand before its digits.
#[derive(Clone, Copy)]
struct Column {
    low: u8,
    high: u8,
    also: u8,
    other: u8,
    close: u8,
}

/// The same of all columns.
struct Rows {
    low: [u8; COLUMNS],
    span: [u8; COLUMNS],
    also: [u8; COLUMNS],
    other: [u8; COLUMNS],
    close: [u8; COLUMNS],
}

const fn range(low: u8, high: u8) -> Column {
    Column {
        low,
        high,
        also: low,
        other: low,
        close: 0,
    }
}

const PRINTABLE: Column = range(b' ', b'~');
const DIGIT: Column = range(b'0', b'9');

impl Column {
    const fn or(self, also: u8, other: u8) -> Column {
        Column {
            also,
            other,
            ..self
        }
    }

    const fn or_space(self) -> Column {
        self.or(b' ', b' ')
    }

    /// A column before the last of a number, signed or not.
    const fn padded(self, mark: u8) -> Column {
        Column {
            close: b'0',
            ..self.or(b' ', mark)
        }
    }
}

/// What a column of a set takes. Sets that are no range are taken as the
/// range around them, and `judge` looks at their gaps.
const fn of_set(set: Set) -> Column {
    match set {
        Set::Letter => range(b'A', b'Z'),
        Set::LetterOrSpace => range(b'A', b'Z').or_space(),
        Set::Digit => DIGIT,
        Set::LetterOrDigit => range(b'0', b'Z'),
        Set::YesOrNo => range(b'Y', b'Y').or(b'N', b'N'),
        Set::Title | Set::Name | Set::Printable => PRINTABLE,
    }
}

/// The digit that stands for so many places: zero where no number up to
/// `most`, which is all nines, has as many.
const fn digit_below(most: i64, places: usize) -> Column {
    if most < 10_i64.pow(places as u32 - 1) {
        range(b'0', b'0')
    } else {
        DIGIT
    }
}

/// Column `at` of a field of this width, counted from 0.
const fn of_field(form: Form, at: usize, width: usize) -> Column {
    let is_last = at + 1 == width;
    match form {
        Form::Blank => range(b' ', b' '),
        Form::Four => range(b'4', b'4'),
        Form::Signed { optional: true, .. } if is_last => DIGIT.or_space(),
        Form::Number { .. } | Form::NumberUnlike { .. } | Form::Signed { .. } if is_last => DIGIT,
        Form::Number { most, .. } | Form::NumberUnlike { most, .. } => {
            digit_below(most, width - at).padded(b' ')
        }
        Form::Signed { most, .. } => digit_below(most, width - at).padded(b'-'),
        Form::HeightCode {
            set: Set::YesOrNo, ..
        } => range(b'Y', b'Y').or(b' ', b'N'),
        Form::HeightCode { set, .. } | Form::CodeOrBlank(set) => of_set(set).or_space(),
        // The tens of minutes and of seconds.
        Form::Angle { .. } if at + 9 == width || at + 7 == width => range(b'0', b'5'),
        Form::Angle { .. } | Form::Month | Form::MonthFrom { .. } => DIGIT,
        Form::AngleLetter { positive, negative } => {
            range(positive, positive).or(negative, negative)
        }
        Form::Media => match at {
            0 => of_set(Set::Letter),
            1..=4 => DIGIT,
            5 => of_set(Set::LetterOrDigit),
            _ => PRINTABLE,
        },
        Form::Code(set) | Form::Text(set) => of_set(set),
    }
}

impl Rows {
    const fn put(&mut self, at: usize, column: Column) {
        self.low[at] = column.low;
        self.span[at] = column.high - column.low;
        self.also[at] = column.also;
        self.other[at] = column.other;
        self.close[at] = column.close;
    }

    /// Columns 1-6 may be blank as a whole; 7-10 hold the code, but that of a
    /// job code can be any printable here.
    const fn of_kind(kind: usize) -> Rows {
        let mut rows = Rows {
            low: [0; COLUMNS],
            span: [0; COLUMNS],
            also: [0; COLUMNS],
            other: [0; COLUMNS],
            close: [0; COLUMNS],
        };
        let mut at = 0;
        while at < 5 {
            rows.put(at, DIGIT.padded(b' '));
            at += 1;
        }
        rows.put(5, DIGIT.or_space());
        let [first, second] = match KINDS[kind].as_bytes() {
            [first, second] if kind != JOB => [range(*first, *first), range(*second, *second)],
            _ => [PRINTABLE, PRINTABLE],
        };
        rows.put(6, range(b'*', b'*'));
        rows.put(7, first);
        rows.put(8, second);
        rows.put(9, range(b'*', b'*'));
        let mut row = 0;
        while row < FIELDS[kind].len() {
            let field = FIELDS[kind][row];
            let mut at = 0;
            while at < field.width {
                rows.put(field.first - 1 + at, of_field(field.form, at, field.width));
                at += 1;
            }
            row += 1;
        }
        rows
    }
}

/// What makes a blank a zero, in the columns of a kind's numbers.
const fn fills(kind: usize) -> [u8; COLUMNS] {
    let mut fills = [0; COLUMNS];
    let mut row = 0;
    while row < FIELDS[kind].len() {
        let field = FIELDS[kind][row];
        let mut at = 0;
        while at < field.width
            && matches!(field.form, Form::Number { .. } | Form::NumberUnlike { .. })
        {
            fills[field.first - 1 + at] = b' ' ^ b'0';
            at += 1;
        }
        row += 1;
    }
    fills
}

/// A kind's rows. They are constants of a type, so that each test is compiled
/// for its kind and costs nothing where a row is the same all along.
struct Kind<const KIND: usize>;

impl<const KIND: usize> Kind<KIND> {
    const ROWS: Rows = Rows::of_kind(KIND);
    const FILLS: [u8; COLUMNS] = fills(KIND);
}

/// Whether every column of a line is what the kind's row takes, and the line
/// feed is there. No column ends the test, and each turn takes one column of
/// each block: so the turns of sixteen columns can be made one.
#[inline(always)]
pub fn fits<const KIND: usize>(line: &Line) -> bool {
    let mut good = true;
    for lane in 0..LANES {
        for block in 0..BLOCKS {
            good &= column_fits(&Kind::<KIND>::ROWS, line, block * LANES + lane);
        }
    }
    good & (line[COLUMNS] == b'\n')
}

#[inline(always)]
fn column_fits(rows: &Rows, line: &Line, at: usize) -> bool {
    let byte = line[at];
    let in_range = byte.wrapping_sub(rows.low[at]) <= rows.span[at];
    let first_of_two = byte == rows.also[at];
    let second_of_two = byte == rows.other[at];
    let closed = first_of_two | (line[at + 1] >= rows.close[at]);
    (in_range | first_of_two | second_of_two) & closed
}

/// Copies a line, the blanks of the kind's numbers made zeros.
#[inline(always)]
pub fn copy_filled<const KIND: usize>(line: &Line, out: &mut Line) {
    let mut dressed = *line;
    for (byte, fill) in dressed.iter_mut().zip(Kind::<KIND>::FILLS) {
        let is_blank = u8::from(*byte == b' ');
        *byte |= fill & is_blank.wrapping_neg();
    }
    *out = dressed;
}
