//! One record by itself: reading its fields, its house style, writing it.

use super::fields::{self, Malformed};
use super::layout::{self, Field, Form, CODED_HEIGHT_WIDTH, FIELDS, JOB, KINDS, MOST_LONGITUDE};
use super::{pointing, Fault, COLUMNS, LAST_RECORD, LINE, MISSING};

/// A fault of one record: its number and column.
pub(super) type At = (u32, usize);

/// A record as read: its kind in the order of [`KINDS`], its sequence number
/// and its values from column 11 on in column order. A job-code record has
/// the two characters of its code first.
#[derive(Clone, Debug, PartialEq, Eq)]
pub struct Reading {
    pub kind: usize,
    pub sequence: Option<u32>,
    pub values: Vec<i64>,
}

/// What the number in column 11 is compared with. The comparison belongs to
/// that field, so it is made before the fields to its right are judged.
#[derive(Clone, Copy)]
pub(super) enum Compare {
    Nothing,
    Same(i64),
    NotBelow(i64),
    Above(i64),
}

/// The 80 columns of a record; `rest` is the file from its first byte on.
pub(super) fn line(rest: &[u8]) -> Result<&[u8], At> {
    let columns = &rest[..rest.len().min(COLUMNS)];
    if !fields::all_printable(columns) {
        let good = columns
            .iter()
            .take_while(|&&byte| fields::Set::Printable.holds(byte));
        return Err((4, good.count() + 1));
    }
    match rest.get(COLUMNS) {
        None => Err((3, rest.len() + 1)),
        Some(b'\n') => Ok(columns),
        Some(_) => Err((5, LINE)),
    }
}

/// The kind of a line of 80 columns.
pub(super) fn kind(line: &[u8]) -> Result<usize, At> {
    layout::kind_of(&line[6..10]).ok_or((6, 7))
}

/// Columns `first` to `first + width - 1`, counted from 1.
pub(super) fn columns(line: &[u8], first: usize, width: usize) -> &[u8] {
    &line[first - 1..first - 1 + width]
}

/// Judges columns 1-6 and 11-80 from the left. Puts the values in `values`
/// and gives the sequence number.
pub(super) fn judge(
    line: &[u8],
    kind: usize,
    compare: Compare,
    values: &mut Vec<i64>,
) -> Result<Option<u32>, At> {
    values.clear();
    let sequence = judge_sequence(&line[..6])?;
    if kind == JOB {
        values.extend([i64::from(line[7]), i64::from(line[8])]);
    }
    for field in FIELDS[kind] {
        judge_field(line, field, values)?;
        if field.first == 11 {
            let agrees = match compare {
                Compare::Nothing => true,
                Compare::Same(number) => values[0] == number,
                Compare::NotBelow(number) => values[0] >= number,
                Compare::Above(number) => values[0] > number,
            };
            if !agrees {
                return Err((10, 11));
            }
        }
    }
    Ok(sequence)
}

fn judge_sequence(held: &[u8]) -> Result<Option<u32>, At> {
    sequence(held).map_err(|Malformed| {
        let column = pointing::column(1, held, |tried| sequence(tried).is_ok());
        (9, column)
    })
}

/// Blank or a number from 1, of six columns.
fn sequence(held: &[u8]) -> Result<Option<u32>, Malformed> {
    match fields::number(held)? {
        Some(0) => Err(Malformed),
        sequence => Ok(sequence.map(|number| number as u32)),
    }
}

/// By its own kind and range first, then by the fields it goes with.
fn judge_field(line: &[u8], field: &Field, values: &mut Vec<i64>) -> Result<(), At> {
    let held = columns(line, field.first, field.width);
    take(field.form, held, values).map_err(|Malformed| {
        let mut values = Vec::new();
        // What it disagrees with has no say in how it could go on.
        let column = pointing::column(field.first, held, |tried| {
            values.clear();
            take(field.form, tried, &mut values).is_ok()
        });
        (9, column)
    })?;
    require(agrees(line, field), (10, field.first))
}

/// Whether a field of its kind and range goes with the one before it that it
/// is held against. Fields are judged from the left, so that one is known to
/// be well formed.
#[inline(always)]
fn agrees(line: &[u8], field: &Field) -> bool {
    let held = columns(line, field.first, field.width);
    match field.form {
        // A height is missing exactly when it is blank.
        Form::HeightCode { height, .. } => {
            (held == b" ") == fields::is_blank(columns(line, height, CODED_HEIGHT_WIDTH))
        }
        // Both are six digits, so they compare as they are printed.
        Form::MonthFrom { from } => held >= columns(line, from, field.width),
        // Blanks and zeros before a number are no part of it.
        Form::NumberUnlike { other, .. } => {
            fields::number(held) != fields::number(columns(line, other, field.width))
        }
        _ => true,
    }
}

/// Takes the values of a field that is of its kind and range. Inlined, since
/// the search for a column asks it too, and a good field is not to be judged
/// any slower for that.
#[inline(always)]
fn take(form: Form, held: &[u8], values: &mut Vec<i64>) -> Result<(), Malformed> {
    match form {
        Form::Blank => require(fields::is_blank(held), Malformed)?,
        Form::Four => require(held == b"4", Malformed)?,
        Form::Number { least, most } | Form::NumberUnlike { least, most, .. } => {
            let value = fields::number(held)?.ok_or(Malformed)?;
            require((least..=most).contains(&value), Malformed)?;
            values.push(value);
        }
        Form::Signed {
            least,
            most,
            optional,
        } => {
            let value = fields::signed(held)?;
            let good = value.map_or(optional, |value| (least..=most).contains(&value));
            require(good, Malformed)?;
            values.push(value.unwrap_or(MISSING));
        }
        Form::HeightCode { set, .. } | Form::CodeOrBlank(set) => {
            require(fields::is_blank(held) || set.holds_all(held), Malformed)?;
            push_characters(held, values);
        }
        Form::Angle { most } => values.push(fields::angle(held, most)?),
        Form::AngleLetter { positive, negative } => {
            require(held[0] == positive || held[0] == negative, Malformed)?;
            // The digits before it gave the last value.
            match values.last_mut() {
                Some(value) if held[0] == negative && *value != MOST_LONGITUDE => *value = -*value,
                _ => (),
            }
        }
        Form::Month | Form::MonthFrom { .. } => values.push(fields::month(held)?),
        Form::Media => take_media(held, values)?,
        Form::Code(set) => {
            require(set.holds_all(held), Malformed)?;
            push_characters(held, values);
        }
        Form::Text(set) => require(set.holds_all(held), Malformed)?,
    }
    Ok(())
}

fn take_media(held: &[u8], values: &mut Vec<i64>) -> Result<(), Malformed> {
    let (maker, day, year, session) = (held[0], &held[1..4], held[4], held[5]);
    let day = fields::all_digits(day)?;
    let good = fields::Set::Letter.holds(maker)
        && (1..=366).contains(&day)
        && year.is_ascii_digit()
        && fields::Set::LetterOrDigit.holds(session);
    require(good, Malformed)?;
    values.push(i64::from(maker));
    values.push(day);
    values.push(i64::from(year - b'0'));
    values.push(i64::from(session));
    // Printable, as the whole line was found to be.
    push_characters(&held[6..], values);
    Ok(())
}

fn require<F>(good: bool, fault: F) -> Result<(), F> {
    if good {
        Ok(())
    } else {
        Err(fault)
    }
}

fn push_characters(held: &[u8], values: &mut Vec<i64>) {
    values.extend(held.iter().map(|&byte| i64::from(byte)));
}

/// Reads one record of a file by its number, judged by itself.
pub fn read(file: &[u8], record: u64) -> Result<Reading, Fault> {
    let fault = |(number, column): At| Fault {
        number,
        record,
        column: column as u64,
    };
    let rest = rest_from(file, record).ok_or_else(|| fault((13, 0)))?;
    read_line(rest).map_err(fault)
}

fn read_line(rest: &[u8]) -> Result<Reading, At> {
    let line = line(rest)?;
    let kind = kind(line)?;
    let mut values = Vec::new();
    let sequence = judge(line, kind, Compare::Nothing, &mut values)?;
    Ok(Reading {
        kind,
        sequence,
        values,
    })
}

/// Where a record starts that has a number from 1, in bytes from the file's
/// first.
pub(super) fn start_of(record: u64) -> usize {
    LINE * (record as usize - 1)
}

/// The file from the first byte of a record on, if that record has begun.
fn rest_from(file: &[u8], record: u64) -> Option<&[u8]> {
    if record == 0 || record > LAST_RECORD {
        return None;
    }
    let start = start_of(record);
    if start < file.len() {
        Some(&file[start..])
    } else {
        None
    }
}

/// Where in the file a record's field is that starts in `column`: offset and
/// length, or (0, 0) if read refuses the record or no field starts there.
pub fn field(file: &[u8], record: u64, column: u64) -> (usize, usize) {
    let Ok(reading) = read(file, record) else {
        return (0, 0);
    };
    for field in FIELDS[reading.kind] {
        if field.first as u64 == column {
            return (start_of(record) + field.first - 1, field.width);
        }
    }
    (0, 0)
}

/// Puts an accepted line of 80 columns into house style. Only numbers, signed
/// or not, and the letters of angles have more than one dress; everything
/// else stays as it is, a missing height too.
pub(super) fn dress(out: &mut [u8], line: &[u8], kind: usize, sequence: u64) {
    out[..COLUMNS].copy_from_slice(line);
    out[COLUMNS] = b'\n';
    fields::put_number(&mut out[..6], sequence);
    for field in FIELDS[kind] {
        let held = columns(line, field.first, field.width);
        let place = &mut out[field.first - 1..field.first - 1 + field.width];
        match field.form {
            Form::Number { .. } | Form::NumberUnlike { .. } | Form::Signed { .. } => {
                if let Ok(Some(value)) = fields::signed(held) {
                    fields::put_signed(place, value);
                }
            }
            Form::AngleLetter { positive, .. } => {
                // A zero of either letter is zero, and 180 W is 180 E.
                let digits = match positive {
                    b'N' => columns(line, 45, 11),
                    _ => columns(line, 57, 12),
                };
                let zero = digits.iter().all(|&byte| byte == b'0');
                if zero || digits == b"180000000000" {
                    place[0] = positive;
                }
            }
            _ => (),
        }
    }
}

/// Writes one record of 81 bytes. `values` are in the order `read` gives
/// them, `texts` are the long texts in column order.
pub fn write(
    out: &mut [u8],
    kind: i64,
    sequence: Option<i64>,
    values: &[i64],
    texts: [&[u8]; 3],
) -> Fault {
    if out.len() < LINE {
        return Fault::TOO_SHORT;
    }
    match compose(kind, sequence, values, texts) {
        Ok(line) => {
            out[..LINE].copy_from_slice(&line);
            Fault::ACCEPTED
        }
        Err((number, column)) => Fault {
            number,
            record: 0,
            column: column as u64,
        },
    }
}

/// Everything is judged from the left, and the line is only handed back when
/// the last column is good.
fn compose(
    kind: i64,
    sequence: Option<i64>,
    values: &[i64],
    texts: [&[u8]; 3],
) -> Result<[u8; LINE], At> {
    let mut line = [b' '; LINE];
    line[COLUMNS] = b'\n';
    match sequence {
        None => (),
        Some(number) if (1..=999_999).contains(&number) => {
            fields::put_number(&mut line[..6], number as u64)
        }
        Some(_) => return Err((9, 1)),
    }
    if !(0..KINDS.len() as i64).contains(&kind) {
        return Err((9, 7));
    }
    let kind = kind as usize;
    let mut words = values.iter().copied();
    let mut texts = texts.into_iter();

    line[6] = b'*';
    line[9] = b'*';
    if kind == JOB {
        for place in &mut line[7..9] {
            *place = character(words.next()).ok_or((9, 7))?;
        }
        require(layout::is_job_code(line[7], line[8]), (9, 7))?;
    } else {
        line[7..9].copy_from_slice(KINDS[kind].as_bytes());
    }
    for field in FIELDS[kind] {
        compose_field(&mut line, field, &mut words, &mut texts)?;
    }
    Ok(line)
}

fn compose_field<'a>(
    line: &mut [u8; LINE],
    field: &Field,
    words: &mut impl Iterator<Item = i64>,
    texts: &mut impl Iterator<Item = &'a [u8]>,
) -> Result<(), At> {
    put_field(line, field, words, texts).ok_or((9, field.first))?;
    require(agrees(line, field), (10, field.first))
}

/// `None` if what is given is not of the field's kind or range.
fn put_field<'a>(
    line: &mut [u8; LINE],
    field: &Field,
    words: &mut impl Iterator<Item = i64>,
    texts: &mut impl Iterator<Item = &'a [u8]>,
) -> Option<()> {
    let (place, after) = line[field.first - 1..].split_at_mut(field.width);
    match field.form {
        Form::Blank | Form::AngleLetter { .. } => (),
        Form::Four => place[0] = b'4',
        Form::Number { least, most } | Form::NumberUnlike { least, most, .. } => {
            let value = words.next().filter(|value| (least..=most).contains(value));
            fields::put_number(place, value? as u64);
        }
        Form::Signed {
            least,
            most,
            optional,
        } => match words.next()? {
            MISSING => return optional.then_some(()),
            value if (least..=most).contains(&value) => fields::put_signed(place, value),
            _ => return None,
        },
        // The letter's own field takes no word: the sign is written here.
        Form::Angle { most } => after[0] = put_angle(place, most, words.next()?)?,
        Form::Month | Form::MonthFrom { .. } => {
            let value = words.next().filter(|&value| fields::is_month(value));
            fields::put_number(place, value? as u64);
        }
        Form::Media => put_media(place, words)?,
        Form::Code(set) => put_characters(place, words, |held| set.holds_all(held))?,
        Form::CodeOrBlank(set) | Form::HeightCode { set, .. } => {
            let good = |held: &[u8]| fields::is_blank(held) || set.holds_all(held);
            put_characters(place, words, good)?;
        }
        Form::Text(set) => {
            let text = texts.next().filter(|text| text.len() == field.width)?;
            place.copy_from_slice(text);
            return set.holds_all(text).then_some(());
        }
    }
    Some(())
}

/// Gives the letter of the angle.
fn put_angle(place: &mut [u8], most: i64, value: i64) -> Option<u8> {
    let is_longitude = most == MOST_LONGITUDE;
    // 180 W is 180 E, so the longitude at the negative end is no value.
    let least = if is_longitude { -most + 1 } else { -most };
    if !(least..=most).contains(&value) {
        return None;
    }
    fields::put_angle(place, value);
    let (positive, negative) = if is_longitude {
        (b'E', b'W')
    } else {
        (b'N', b'S')
    };
    Some(fields::letter(value, positive, negative))
}

fn put_media(place: &mut [u8], words: &mut impl Iterator<Item = i64>) -> Option<()> {
    let maker = character(words.next())?;
    let day = words.next()?;
    let year = words.next()?;
    let session = character(words.next())?;
    let good = fields::Set::Letter.holds(maker)
        && (1..=366).contains(&day)
        && (0..=9).contains(&year)
        && fields::Set::LetterOrDigit.holds(session);
    if !good {
        return None;
    }
    place[0] = maker;
    fields::put_number(&mut place[1..4], day as u64);
    fields::put_number(&mut place[4..5], year as u64);
    place[5] = session;
    put_characters(&mut place[6..], words, |_| true)
}

/// A word for each column; printable, and then good by the field's own rule.
fn put_characters(
    place: &mut [u8],
    words: &mut impl Iterator<Item = i64>,
    good: impl Fn(&[u8]) -> bool,
) -> Option<()> {
    for column in place.iter_mut() {
        *column = character(words.next())?;
    }
    good(place).then_some(())
}

/// The printable character a word stands for.
fn character(word: Option<i64>) -> Option<u8> {
    let byte = u8::try_from(word?).ok()?;
    fields::Set::Printable.holds(byte).then_some(byte)
}
