//! The names of the kinds and of their fields, and what may stand in each,
//! for people to read. The library alone judges.

use shelf::library::KINDS;

/// What each kind of record is, in the order of the counts.
pub const KIND_NAMES: [&str; 14] = [
    "job code",
    "project title",
    "project title, continued",
    "project information",
    "occupation header",
    "occupation comment",
    "occupation measurement",
    "instrument",
    "antenna",
    "control point",
    "heights",
    "network accuracy",
    "local accuracy",
    "variance factors",
];

/// How a field's words are shown, and what may stand in it.
#[derive(Clone, Copy, Debug, PartialEq, Eq)]
pub enum Form {
    /// Columns 1-6, which a reading gives apart from its words.
    Sequence,
    Number {
        least: u32,
        most: u32,
    },
    /// YYMMDD, without a calendar.
    Date,
    /// HHMM, without a clock.
    Time,
    /// A whole number of the last decimal that it is shown with.
    Decimal {
        places: usize,
        unit: &'static str,
        what: &'static str,
    },
    Latitude,
    Longitude,
    /// The letter of the angle before it.
    Letter(&'static str),
    Month,
    Media,
    /// A word for each character.
    Code(&'static str),
    /// No words.
    Text(&'static str),
    Four,
    Blank,
}

#[derive(Clone, Copy, Debug)]
pub struct Field {
    pub first: u32,
    pub last: u32,
    pub name: &'static str,
    pub form: Form,
    /// What it has to agree with, if with anything.
    pub agrees: &'static str,
}

impl Field {
    const fn agreeing(self, agrees: &'static str) -> Field {
        Field { agrees, ..self }
    }

    pub const fn width(&self) -> usize {
        (self.last - self.first + 1) as usize
    }

    /// How many words of a reading are this field's.
    pub const fn words(&self) -> usize {
        match self.form {
            Form::Media => 8,
            Form::Code(_) => self.width(),
            Form::Sequence | Form::Letter(_) | Form::Text(_) | Form::Four | Form::Blank => 0,
            _ => 1,
        }
    }

    /// What may stand in the field.
    pub fn expected(&self) -> String {
        let words = match self.form {
            Form::Number { least, most } => {
                return format!("a number from {least} to {most}, blanks only in front");
            }
            Form::Sequence => "a number from 1 to 999999, blanks only in front; or all blank",
            Form::Code(what) | Form::Text(what) | Form::Letter(what) => what,
            Form::Decimal { what, .. } => what,
            Form::Date => "a number YYMMDD, blanks only in front",
            Form::Time => "a number HHMM, blanks only in front",
            Form::Latitude => "eleven digits DDMMSSsssss, at most 90 degrees",
            Form::Longitude => "twelve digits DDDMMSSsssss, at most 180 degrees",
            Form::Month => "six digits YYYYMM, month 01 to 12",
            Form::Media => {
                "a letter, three digits 001 to 366, a digit, a letter or digit, four characters"
            }
            Form::Four => "the digit 4",
            Form::Blank => "blank",
        };
        words.to_string()
    }
}

const fn row(first: u32, last: u32, name: &'static str, form: Form) -> Field {
    Field {
        first,
        last,
        name,
        form,
        agrees: "",
    }
}

const fn blank(first: u32, last: u32) -> Field {
    row(first, last, "spacer", Form::Blank)
}

const fn text(first: u32, last: u32, name: &'static str) -> Field {
    row(first, last, name, Form::Text("printable characters"))
}

const fn code(first: u32, last: u32, name: &'static str, what: &'static str) -> Field {
    row(first, last, name, Form::Code(what))
}

const fn decimal(places: usize, unit: &'static str, what: &'static str) -> Form {
    Form::Decimal { places, unit, what }
}

const fn height(first: u32, name: &'static str) -> Field {
    row(first, first + 6, name, HEIGHT)
}

const fn deviation(first: u32, name: &'static str) -> Field {
    row(first, first + 9, name, DEVIATION)
}

const fn correlation(first: u32) -> Field {
    row(first, first + 9, "correlation coefficient", CORRELATION)
}

const fn station(first: u32, name: &'static str) -> Field {
    let form = Form::Number {
        least: 1,
        most: 9_999,
    };
    row(first, first + 3, name, form)
}

const fn equipment(first: u32, name: &'static str) -> Field {
    let form = Form::Number {
        least: 1,
        most: 999,
    };
    row(first, first + 2, name, form)
}

const SEQUENCE: Field = row(1, 6, "sequence number", Form::Sequence);
const TITLE: Field = row(
    11,
    80,
    "title",
    Form::Text("A-Z, 0-9, space and * , ' = ) ( - . + \\ /"),
);
const NAME: &str = "A-Z, 0-9, space and * , ' = ) ( - . + /";
const LETTERS: &str = "letters A-Z";
const LETTERS_OR_SPACES: &str = "letters A-Z or spaces";
const WITH_ITS_HEIGHT: &str = "blank exactly when its height is missing";
const SCALED: &str = "Y or N";
const HEIGHT: Form = decimal(
    3,
    " m",
    "a height in millimetres: blanks, perhaps a minus, digits; or all blank",
);
const ANTENNA_HEIGHT: Form = decimal(
    3,
    " m",
    "a height in millimetres: blanks, perhaps a minus, digits",
);
const DEVIATION: Form = decimal(
    2,
    " cm",
    "a number of hundredths of a centimetre from 0 to 999999999, blanks only in front",
);
const CORRELATION: Form = decimal(
    8,
    "",
    "a number of hundred-millionths from -99999990 to 99999999: blanks, perhaps a minus, digits",
);
const FACTOR: Form = decimal(
    3,
    "",
    "a number of thousandths from 1 to 9999, blanks only in front",
);

/// The fields from column 11 on of each kind, in the order of the counts.
static FIELDS: [&[Field]; 14] = [
    &[text(11, 80, "text")],
    &[TITLE],
    &[TITLE],
    &[
        row(11, 16, "field operations began", Form::Month),
        row(17, 22, "field operations ended", Form::Month)
            .agreeing("not before the month in columns 11-16"),
        code(23, 25, "chief of party's initials", LETTERS_OR_SPACES),
        row(26, 43, "chief of party's name", Form::Text(NAME)),
        code(44, 46, "second chief's initials", LETTERS_OR_SPACES),
        row(47, 64, "second chief's name", Form::Text(NAME)),
        blank(65, 75),
        row(76, 76, "survey method", Form::Four),
        code(77, 78, "state or country", LETTERS),
        blank(79, 80),
    ],
    &[
        station(11, "station"),
        row(15, 24, "media identifier", Form::Media),
        code(25, 27, "observer's initials", LETTERS_OR_SPACES),
        equipment(28, "instrument"),
        blank(31, 32),
        equipment(33, "antenna"),
        blank(36, 80),
    ],
    &[text(11, 80, "comment")],
    &[
        station(11, "station").agreeing("the station of the *25* of its group"),
        row(15, 20, "date of observation", Form::Date),
        row(21, 24, "time of observation", Form::Time),
        blank(25, 55),
        row(56, 60, "antenna height", ANTENNA_HEIGHT),
        blank(61, 80),
    ],
    &[
        equipment(11, "instrument").agreeing("not below the instrument of the *70* before it"),
        equipment(14, "equipment code"),
        blank(17, 22),
        text(23, 40, "manufacturer"),
        blank(41, 62),
        text(63, 70, "model"),
        text(71, 80, "serial number"),
    ],
    &[
        equipment(11, "antenna").agreeing("above the antenna of the *72* before it"),
        blank(14, 16),
        text(17, 32, "antenna code"),
        code(33, 36, "radome code", LETTERS),
        blank(37, 44),
        text(45, 64, "serial number"),
        blank(65, 80),
    ],
    &[
        station(11, "station"),
        text(15, 44, "name of the mark"),
        row(45, 55, "latitude", Form::Latitude),
        row(56, 56, "letter of the latitude", Form::Letter("N or S")),
        row(57, 68, "longitude", Form::Longitude),
        row(69, 69, "letter of the longitude", Form::Letter("E or W")),
        blank(70, 76),
        code(77, 78, "state or country", LETTERS),
        blank(79, 80),
    ],
    &[
        station(11, "station").agreeing("the station of the *80* before it"),
        blank(15, 16),
        height(17, "orthometric height"),
        code(24, 24, "orthometric height code", LETTERS_OR_SPACES).agreeing(WITH_ITS_HEIGHT),
        code(25, 26, "order and class", "two digits or two blanks"),
        code(27, 27, "database indicator", "Y, N or blank").agreeing(WITH_ITS_HEIGHT),
        code(28, 29, "datum", "letters A-Z and digits, or all blank"),
        text(30, 35, "organization"),
        height(36, "geoid height"),
        code(43, 43, "geoid height code", "A-Z, 0-9 or blank").agreeing(WITH_ITS_HEIGHT),
        blank(44, 45),
        height(46, "ellipsoid height"),
        code(53, 53, "ellipsoid height code", LETTERS_OR_SPACES).agreeing(WITH_ITS_HEIGHT),
        blank(54, 55),
        code(56, 56, "ellipsoid datum", LETTERS_OR_SPACES),
        text(57, 80, "comment"),
    ],
    &[
        station(11, "station"),
        blank(15, 20),
        deviation(21, "north standard deviation"),
        deviation(31, "east standard deviation"),
        correlation(41),
        deviation(51, "ellipsoid height standard deviation"),
        blank(61, 64),
        code(65, 65, "scaled code", SCALED),
        text(66, 80, "comment"),
    ],
    &[
        station(11, "standpoint station"),
        blank(15, 16),
        station(17, "forepoint station")
            .agreeing("another than the standpoint station in columns 11-14"),
        blank(21, 22),
        deviation(23, "north standard deviation"),
        deviation(33, "east standard deviation"),
        correlation(43),
        deviation(53, "ellipsoid height standard deviation"),
        blank(63, 66),
        code(67, 67, "scaled code", SCALED),
        text(68, 80, "comment"),
    ],
    &[
        row(11, 18, "horizontal factor", FACTOR),
        row(19, 26, "vertical factor", FACTOR),
        text(27, 80, "comment"),
    ],
];

pub fn fields(kind: usize) -> &'static [Field] {
    FIELDS[kind]
}

/// The field that holds a column, columns 1-6 too.
pub fn holding(kind: usize, column: u32) -> Option<Field> {
    let mut all = [SEQUENCE].iter().chain(FIELDS[kind]);
    all.find(|field| (field.first..=field.last).contains(&column))
        .copied()
}

/// The kind that a line's columns 7-10 name.
pub fn kind_of(line: &[u8]) -> Option<usize> {
    let [b'*', first, second, b'*'] = *line.get(6..10)? else {
        return None;
    };
    let code = [first, second];
    match KINDS.iter().position(|known| known.as_bytes() == code) {
        // AA is the name of the kind; as a code it is a job code like others.
        Some(kind) => Some(kind),
        None if first.is_ascii_uppercase()
            && (second.is_ascii_uppercase() || second.is_ascii_digit()) =>
        {
            Some(0)
        }
        None => None,
    }
}

#[cfg(test)]
mod tests {
    use super::{fields, KIND_NAMES};
    use shelf::plain::layout::{self, Form};
    use shelf::{library, sample};

    #[test]
    fn the_fields_cover_every_record_as_the_layouts_do() {
        for kind in 0..KIND_NAMES.len() {
            let named = fields(kind)
                .iter()
                .map(|field| (field.first as usize, field.width()));
            let rows = layout::FIELDS[kind]
                .iter()
                .map(|field| (field.first, field.width));
            assert!(named.eq(rows), "kind {kind}");
        }
    }

    #[test]
    fn a_range_in_words_is_the_layouts() {
        let kinds = (0..KIND_NAMES.len()).map(|kind| (fields(kind), layout::FIELDS[kind]));
        for (named, row) in kinds.flat_map(|(named, rows)| named.iter().zip(rows)) {
            let (Form::Number { least, most }
            | Form::NumberUnlike { least, most, .. }
            | Form::Signed { least, most, .. }) = row.form
            else {
                continue;
            };
            let words = named.expected();
            let range = format!(" from {least} to {most}");
            assert_eq!(words.contains(" from "), words.contains(&range), "{words}");
        }
    }

    /// The words of a reading that the fields take are all that are used.
    #[test]
    fn the_fields_take_every_word() {
        let file = sample::file();
        for number in 1..=24 {
            let record = library::read(&file, number).unwrap();
            let code = if record.kind == 0 { 2 } else { 0 };
            let taken: usize = fields(record.kind).iter().map(|field| field.words()).sum();
            let (used, rest) = record.values.split_at(code + taken);
            assert!(used.last() != Some(&0) && rest.iter().all(|&word| word == 0));
        }
    }
}
