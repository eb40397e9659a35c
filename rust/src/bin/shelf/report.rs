//! Verdicts in words, with the record and a caret under the column.

use crate::deposit::{Deposit, Padding, Refusal};
use crate::fields::{self, Field, KIND_NAMES};
use crate::{could, names};
use shelf::library::{Fault, KINDS, LINE};
use std::io::{self, Write};
use std::path::Path;

/// What each fault number means.
const MEANINGS: [&str; 15] = [
    "accepted",
    "more than is taken",
    "a record 100,000 has begun",
    "the last line is not whole",
    "a byte that is not printable",
    "column 81 holds no line feed",
    "columns 7-10 hold no known code",
    "a known code that may not come here",
    "the file ends where a record must follow",
    "a field not of its kind or range",
    "a field well formed that disagrees with an earlier one",
    "an *80* repeats a station number",
    "a *25*, *91* or *92* names an undefined number",
    "there is no such record",
    "the form is not good",
];

/// What padding would do for a whole file.
pub const ACCEPTED: &str = "it would be accepted";

pub fn meaning(refusal: &Refusal) -> String {
    let Fault { number, record, .. } = refusal.fault;
    match (refusal.is_by_padding(), number) {
        (true, 2) => "a line 100,000 has begun, so the file cannot be padded".to_string(),
        (true, 5) => format!("line {record} has more than 80 bytes, so the file cannot be padded"),
        _ => {
            let meaning = MEANINGS.get(number as usize).copied();
            meaning.unwrap_or("an unknown fault").to_string()
        }
    }
}

/// Who refused, with number, record or line, and column.
pub fn headline(refusal: &Refusal) -> String {
    let Fault {
        number,
        record,
        column,
    } = refusal.fault;
    let (by, place) = match refusal.is_by_padding() {
        true => (" by the padding", "line"),
        false => ("", "record"),
    };
    format!("refused{by}, fault {number}, {place} {record}, column {column}")
}

/// What is said of a good file, and how many records of each kind it has.
pub fn accepted(
    out: &mut dyn Write,
    path: &Path,
    what: &str,
    counts: &[u32; 14],
) -> io::Result<()> {
    let records: u32 = counts.iter().sum();
    write!(out, "{}: {what}, {records} records:", names::shown(path))?;
    for (code, count) in KINDS.iter().zip(counts) {
        if *count > 0 {
            write!(out, " {code} {count}")?;
        }
    }
    writeln!(out)
}

/// The refusal of a whole file, with advice.
pub fn refused_file(
    out: &mut dyn Write,
    path: &Path,
    deposit: &Deposit,
    refusal: &Refusal,
    then: &str,
) -> io::Result<()> {
    refused(out, path, deposit, refusal)?;
    advise(out, refusal, then)
}

/// A refusal: number, record and column, what it means, and the record.
pub fn refused(
    out: &mut dyn Write,
    path: &Path,
    deposit: &Deposit,
    refusal: &Refusal,
) -> io::Result<()> {
    let Fault { record, column, .. } = refusal.fault;
    let file = &deposit.bytes;
    writeln!(out, "{}: {}", names::shown(path), headline(refusal))?;
    writeln!(out, "    {}", explained(file, refusal))?;
    let line = match refusal.is_by_padding() {
        true => line_as_it_stands(file, record),
        false => line(file, record),
    };
    drawn(out, line, column)
}

/// Puts the advice, if there is any, under a refusal.
pub fn advise(out: &mut dyn Write, refusal: &Refusal, then: &str) -> io::Result<()> {
    match advice(refusal, then) {
        Some(advice) => writeln!(out, "    {advice}"),
        None => Ok(()),
    }
}

/// What is said where padding would have helped; `then` is what it would do.
pub fn advice(refusal: &Refusal, then: &str) -> Option<String> {
    let helps = refusal.padding == Some(Padding::WouldHelp);
    helps.then(|| format!("with --pad, which fills its lines to 80 columns, {then}"))
}

/// The meaning of a refusal, with what can be said of this one.
pub fn explained(file: &[u8], refusal: &Refusal) -> String {
    let meaning = meaning(refusal);
    if refusal.is_by_padding() {
        return meaning;
    }
    let fault = refusal.fault;
    let line = line(file, fault.record);
    let detail = match fault.number {
        3 => Some(format!("it has {} bytes", fault.column - 1)),
        4 | 5 => line
            .get(fault.column as usize - 1)
            .map(|&byte| byte_named(byte)),
        7 => Some(misplaced(file, fault.record)),
        9 | 10 | 12 => of_field(line, fault),
        11 => line
            .get(10..14)
            .map(|held| format!("station {}", held.escape_ascii())),
        _ => None,
    };
    match detail {
        Some(detail) => format!("{meaning}: {detail}"),
        None => meaning,
    }
}

fn byte_named(byte: u8) -> String {
    let name = match byte {
        b'\t' => " (a tab)",
        b'\n' => " (a line feed: the line is too short)",
        b'\r' => " (a carriage return: lines end in a line feed alone)",
        0x20..=0x7e => " (a printable character: the line is too long)",
        0x80.. => " (no ASCII character)",
        _ => "",
    };
    format!("{byte:02X} hexadecimal{name}")
}

fn misplaced(file: &[u8], record: u32) -> String {
    let here = code_of(line(file, record));
    match record {
        1 => format!("{here} at the beginning, where a job code comes"),
        _ => format!("{here} after {}", code_of(line(file, record - 1))),
    }
}

fn code_of(line: &[u8]) -> String {
    let code = line.get(6..10).unwrap_or(b"");
    match fields::kind_of(line) {
        Some(kind) => format!("{} ({})", code.escape_ascii(), KIND_NAMES[kind]),
        None => code.escape_ascii().to_string(),
    }
}

fn of_field(line: &[u8], fault: Fault) -> Option<String> {
    let field = fields::holding(fields::kind_of(line)?, fault.column)?;
    let state = match fault.number {
        9 => must_be(line, &field, fault.column),
        10 => format!("must be {}", field.agrees),
        _ => "is defined by no record of this file".to_string(),
    };
    let columns = columns(field.first, field.last);
    Some(format!("{} in {columns} {state}", field.name))
}

/// What a bad field must be, and what the column that is named could have
/// held. It is named in the words too: a caret under a blank is hard to count.
fn must_be(line: &[u8], field: &Field, column: u32) -> String {
    let expected = field.expected();
    match could::have_held(line, field, column) {
        Some(could) => format!("must be {expected}; column {column} could have held {could}"),
        None => format!("must be {expected}"),
    }
}

/// "column 24" or "columns 11-14".
pub fn columns(first: u32, last: u32) -> String {
    if first == last {
        format!("column {first}")
    } else {
        format!("columns {first}-{last}")
    }
}

/// The line's 80 columns, and a caret under the one that is meant.
fn drawn(out: &mut dyn Write, line: &[u8], column: u32) -> io::Result<()> {
    if line.is_empty() || column == 0 {
        return Ok(());
    }
    let shown: String = line
        .iter()
        .take(LINE - 1)
        .map(|&byte| match byte {
            0x20..=0x7e => char::from(byte),
            _ => '?',
        })
        .collect();
    writeln!(out, "    {shown}")?;
    writeln!(out, "    {:>width$}", '^', width = column as usize)
}

/// The bytes of a record, up to 81.
fn line(file: &[u8], record: u32) -> &[u8] {
    let start = LINE * (record as usize).saturating_sub(1);
    let rest = file.get(start..).unwrap_or(b"");
    &rest[..rest.len().min(LINE)]
}

/// A line of a file that the padding refused, without its end.
fn line_as_it_stands(file: &[u8], number: u32) -> &[u8] {
    let mut lines = file.split_inclusive(|byte| *byte == b'\n');
    let line = lines.nth(number as usize - 1).unwrap_or(b"");
    let ended = line.strip_suffix(b"\r\n").or(line.strip_suffix(b"\n"));
    ended.unwrap_or(line)
}
