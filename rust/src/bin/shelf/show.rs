//! `shelf show FILE RECORD`: one record's values with their units.

use crate::arguments::Single;
use crate::deposit::{Deposit, Refusal};
use crate::fields::{self, Field, Form, KIND_NAMES};
use crate::status::Status;
use crate::trouble::Trouble;
use crate::{names, report};
use shelf::library::{self, Record, KINDS, MISSING};
use std::io::{self, Write};
use std::path::Path;

/// Hundred-thousandths of a second in a degree, a minute and a second.
const DEGREE: u64 = 60 * MINUTE;
const MINUTE: u64 = 60 * SECOND;
const SECOND: u64 = 100_000;
/// The width that the names of most kinds have room in.
const USUAL_NAME: usize = 27;

pub fn run(order: &Single, number: u32, out: &mut dyn Write) -> Result<Status, Trouble> {
    let path = &order.file;
    let deposit = Deposit::load(path, order.pad)?;
    match deposit.ask(|file| library::read(file, number)) {
        Ok(record) => {
            show(out, path, &deposit.bytes, number, &record).map_err(Trouble::standard_output)?;
            Ok(Status::Accepted)
        }
        Err(refusal) => {
            refused(out, path, &deposit, &refusal).map_err(Trouble::standard_output)?;
            Ok(Status::Refused)
        }
    }
}

fn refused(
    out: &mut dyn Write,
    path: &Path,
    deposit: &Deposit,
    refusal: &Refusal,
) -> io::Result<()> {
    report::refused(out, path, deposit, refusal)?;
    if refusal.fault.number == 13 {
        writeln!(out, "    the file has {} whole records", deposit.records)?;
    }
    report::advise(out, refusal, "the record could be shown")
}

fn show(
    out: &mut dyn Write,
    path: &Path,
    file: &[u8],
    number: u32,
    record: &Record,
) -> io::Result<()> {
    let name = names::shown(path);
    let (code, words) = code(record);
    let kind_name = KIND_NAMES[record.kind];
    writeln!(out, "{name}, record {number}: *{code}* {kind_name}")?;
    let sequence = record.sequence.map(|sequence| sequence.to_string());
    let sequence = sequence.unwrap_or_else(|| "missing".to_string());
    let mut rows = vec![(report::columns(1, 6), "sequence number", sequence)];
    let text = |column| library::field(file, number, column);
    rows.extend(values(record.kind, words, text));
    listed(out, &rows)
}

/// The record's code, and the words of its fields.
fn code(record: &Record) -> (String, &[i64]) {
    let (job, rest) = record.values.split_at(2);
    match record.kind {
        0 => (characters(job.iter().copied()), rest),
        kind => (KINDS[kind].to_string(), &record.values),
    }
}

/// Columns, name and value of a field.
type Row = (String, &'static str, String);

/// The fields that have a value; `text` gives the columns of one by its first.
fn values<'a>(kind: usize, words: &[i64], text: impl Fn(u32) -> &'a [u8]) -> Vec<Row> {
    let mut words = words.iter().copied();
    let mut rows = Vec::new();
    for field in fields::fields(kind) {
        let held: Vec<i64> = words.by_ref().take(field.words()).collect();
        let value = value(field, &held, text(field.first));
        let columns = report::columns(field.first, field.last);
        rows.extend(value.map(|value| (columns, field.name, value)));
    }
    rows
}

/// Rows below each other; the values begin in one column behind the names.
fn listed(out: &mut dyn Write, rows: &[Row]) -> io::Result<()> {
    let longest = rows.iter().map(|(_, name, _)| name.len());
    let width = longest.fold(USUAL_NAME, usize::max) + 1;
    for (columns, name, value) in rows {
        writeln!(out, "    {columns:<14}{name:<width$}{value}")?;
    }
    Ok(())
}

/// A field's value, if it has one of its own.
fn value(field: &Field, words: &[i64], text: &[u8]) -> Option<String> {
    let value = match (field.form, words) {
        (Form::Text(_), _) => quoted(&String::from_utf8_lossy(text)),
        (Form::Code(_), codes) => quoted(&characters(codes.iter().copied())),
        (Form::Media, [maker, day, year, session, mark @ ..]) => format!(
            "maker {}, day {day}, digit of the year {year}, session {}, mark {}",
            characters([*maker]),
            characters([*session]),
            quoted(&characters(mark.iter().copied()))
        ),
        (Form::Number { .. }, [number]) => number.to_string(),
        (Form::Date, [number]) => format!("{number:06} (YYMMDD)"),
        (Form::Time, [number]) => format!("{number:04} (HHMM)"),
        (Form::Month, [month]) => format!("{:04}-{:02}", month / 100, month % 100),
        (Form::Decimal { places, unit, .. }, [value]) => decimal(*value, places, unit),
        (Form::Latitude, [angle]) => degrees(*angle, ["N", "S"]),
        (Form::Longitude, [angle]) => degrees(*angle, ["E", "W"]),
        _ => return None,
    };
    Some(value)
}

/// Each word is the character of that number.
fn characters(words: impl IntoIterator<Item = i64>) -> String {
    let character = |word| u8::try_from(word).map_or('?', char::from);
    words.into_iter().map(character).collect()
}

/// In quotes, since a text keeps every blank.
fn quoted(text: &str) -> String {
    format!("\"{text}\"")
}

/// So many of the last decimal; the sign stays where the whole part is zero.
fn decimal(value: i64, places: usize, unit: &str) -> String {
    if value == MISSING {
        return "missing".to_string();
    }
    let sign = if value < 0 { "-" } else { "" };
    let digits = format!("{:0width$}", value.unsigned_abs(), width = places + 1);
    let (whole, decimals) = digits.split_at(digits.len() - places);
    format!("{sign}{whole}.{decimals}{unit}")
}

fn degrees(angle: i64, [positive, negative]: [&str; 2]) -> String {
    let letter = if angle < 0 { negative } else { positive };
    let size = angle.unsigned_abs();
    format!(
        "{} deg {:02} min {:02}.{:05} sec {letter}",
        size / DEGREE,
        size % DEGREE / MINUTE,
        size % MINUTE / SECOND,
        size % SECOND
    )
}

#[cfg(test)]
mod tests {
    use super::{decimal, degrees, MISSING};

    #[test]
    fn heights_in_metres() {
        for (height, shown) in [
            (12_345, "12.345 m"),
            (-500, "-0.500 m"),
            (0, "0.000 m"),
            (-999_999, "-999.999 m"),
            (9_999_999, "9999.999 m"),
            (MISSING, "missing"),
        ] {
            assert_eq!(decimal(height, 3, " m"), shown);
        }
    }

    #[test]
    fn deviations_in_centimetres() {
        for (deviation, shown) in [
            (0, "0.00 cm"),
            (1, "0.01 cm"),
            (99, "0.99 cm"),
            (100, "1.00 cm"),
            (1_234, "12.34 cm"),
            (999_999_999, "9999999.99 cm"),
        ] {
            assert_eq!(decimal(deviation, 2, " cm"), shown);
        }
    }

    #[test]
    fn correlations_and_factors_have_no_unit() {
        for (correlation, shown) in [
            (-99_999_990, "-0.99999990"),
            (-50_000_000, "-0.50000000"),
            (-1, "-0.00000001"),
            (0, "0.00000000"),
            (99_999_999, "0.99999999"),
        ] {
            assert_eq!(decimal(correlation, 8, ""), shown);
        }
        for (factor, shown) in [(1, "0.001"), (1_000, "1.000"), (9_999, "9.999")] {
            assert_eq!(decimal(factor, 3, ""), shown);
        }
    }

    #[test]
    fn angles_in_degrees() {
        assert_eq!(
            degrees(13_999_512_345, ["N", "S"]),
            "38 deg 53 min 15.12345 sec N"
        );
        assert_eq!(degrees(-1, ["E", "W"]), "0 deg 00 min 00.00001 sec W");
        assert_eq!(
            degrees(64_800_000_000, ["E", "W"]),
            "180 deg 00 min 00.00000 sec E"
        );
    }
}
