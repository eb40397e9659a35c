//! Prints what `crates/records_tried` prints for the same input, from the plain implementation.

use shelf::plain::layout::{Form, FIELDS};
use shelf::plain::{self, Fault, Reading, LINE, MISSING};
use std::io::{self, Read, Write};

/// Printed for a kind whose record has no values.
const NAMES: [&str; 14] = [
    "",
    "title ",
    "continuation ",
    "",
    "",
    "comment ",
    "",
    "",
    "",
    "",
    "",
    "",
    "",
    "",
];

const POINT_NAME: &[u8] = b"HILL 1931                     ";
const PERSON_NAME: &[u8] = b"CRUZ J D          ";
const SPACE: i64 = b' ' as i64;

fn main() -> io::Result<()> {
    let mut file = Vec::new();
    io::stdin().read_to_end(&mut file)?;
    let out = &mut io::stdout().lock();
    show(out, &file, 0)?;
    for record in 1..=file.len().div_ceil(LINE) as u64 {
        show(out, &file, record)?;
    }
    show(out, &file, 100_000)?;
    write_refused(out)
}

fn show(out: &mut impl Write, file: &[u8], record: u64) -> io::Result<()> {
    write!(out, "{record} ")?;
    match plain::read(file, record) {
        Err(fault) => {
            show_fault(out, fault)?;
            writeln!(out)
        }
        Ok(reading) => {
            show_values(out, &reading)?;
            show_fields(out, file, record)?;
            write_back(out, file, record, &reading)
        }
    }
}

fn show_fault(out: &mut impl Write, fault: Fault) -> io::Result<()> {
    let Fault {
        number,
        record,
        column,
    } = fault;
    writeln!(out, "refused {number} {record} {column} ")
}

fn show_values(out: &mut impl Write, reading: &Reading) -> io::Result<()> {
    match reading.sequence {
        None => write!(out, "missing ")?,
        Some(number) => write!(out, "{number} ")?,
    }
    write!(out, "{}", NAMES[reading.kind])?;
    for &value in &reading.values {
        if value == MISSING {
            write!(out, "missing ")?;
        } else {
            write!(out, "{value} ")?;
        }
    }
    writeln!(out)
}

fn show_fields(out: &mut impl Write, file: &[u8], record: u64) -> io::Result<()> {
    for column in 0..83 {
        let (_, width) = plain::field(file, record, column);
        if width > 0 {
            write!(out, "{column} + {width} ")?;
        }
    }
    writeln!(out)
}

/// Written from what was read, in 82 bytes, the last of which stays.
fn write_back(out: &mut impl Write, file: &[u8], record: u64, reading: &Reading) -> io::Result<()> {
    let mut texts: [&[u8]; 3] = [b""; 3];
    let long = FIELDS[reading.kind]
        .iter()
        .filter(|field| matches!(field.form, Form::Text(_)));
    for (text, field) in texts.iter_mut().zip(long) {
        let (start, width) = plain::field(file, record, field.first as u64);
        *text = &file[start..start + width];
    }
    let mut line = [b'.'; LINE + 1];
    let sequence = reading.sequence.map(i64::from);
    plain::write(
        &mut line,
        reading.kind as i64,
        sequence,
        &reading.values,
        texts,
    );
    out.write_all(&line)?;
    writeln!(out)
}

/// Values of which most are refused; two bytes of the output, then the answer.
fn write_refused(out: &mut impl Write) -> io::Result<()> {
    for (sequence, station, latitude, longitude, name) in [
        (None, 0, 0, 0, POINT_NAME),
        (None, 10_000, 0, 0, POINT_NAME),
        (None, 1, 32_400_000_001, 0, POINT_NAME),
        (None, 1, -32_400_000_001, 0, POINT_NAME),
        (None, 1, 0, 64_800_000_001, POINT_NAME),
        (None, 1, 0, -64_800_000_000, POINT_NAME),
        (None, 1, -32_400_000_000, -64_799_999_999, POINT_NAME),
        (None, 1, 0, 64_800_000_000, b"HILL 1931"),
        (None, 1, 0, 0, b"HILL\t1931                     "),
        (Some(0), 0, 0, 0, POINT_NAME),
        (Some(1_000_000), 1, 0, 0, POINT_NAME),
        (Some(999_999), 1, 0, 0, POINT_NAME),
    ] {
        let values = [station, latitude, longitude, b'M'.into(), b'D'.into()];
        refused(out, 82, 9, sequence, &values, [name, b""])?;
    }
    for code in [b"A1", b"10", b"a1", b"A "] {
        refused(out, 82, 0, None, &code.map(i64::from), [&[b' '; 70], b""])?;
    }
    for (began, ended) in [
        (202401, 202401),
        (202402, 202401),
        (202413, 202401),
        (202401, 99),
    ] {
        let codes = b"JDCJDCMD".map(i64::from);
        let values = [&[began, ended], &codes[..]].concat();
        refused(out, 82, 3, None, &values, [PERSON_NAME, PERSON_NAME])?;
    }
    for height in [-9_999, -10_000, 99_999, 100_000] {
        refused(out, 82, 6, None, &[1, 240_201, 1315, height], [b"", b""])?;
    }
    for (orthometric, code, indicator, geoid, model) in [
        (MISSING, b' ', b' ', MISSING, b' '),
        (MISSING, b'A', b' ', MISSING, b' '),
        (0, b'A', b' ', MISSING, b' '),
        (-1_000_000, b'A', b'Y', MISSING, b' '),
        (-999_999, b'A', b'Y', -500, b' '),
        (10_000_000, b'A', b'Y', -500, b'6'),
    ] {
        let mut values = vec![1, orthometric, code.into(), SPACE, SPACE, indicator.into()];
        values.extend([SPACE, SPACE, geoid, model.into(), MISSING, SPACE, SPACE]);
        refused(out, 82, 10, None, &values, [&[b' '; 6], &[b' '; 24]])?;
    }
    networks_refused(out)?;
    locals_refused(out)?;
    factors_refused(out)?;
    refused(out, 80, 0, Some(0), &b"aa".map(i64::from), [b"", b""])
}

fn networks_refused(out: &mut impl Write) -> io::Result<()> {
    for (north, east, correlation, up, code) in [
        (999_999_999, 0, -99_999_990, 0, b'Y'),
        (1_000_000_000, 0, 0, 0, b'Y'),
        (0, 1_000_000_000, 0, 0, b'Y'),
        (0, 0, -99_999_991, 0, b'Y'),
        (0, 0, 99_999_999, 999_999_999, b'N'),
        (0, 0, 100_000_000, 0, b'N'),
        (0, 0, 0, 1_000_000_000, b'N'),
        (0, 0, 0, 0, b' '),
    ] {
        let values = [1, north, east, correlation, up, code.into()];
        refused(out, 82, 11, None, &values, [&[b' '; 15], b""])?;
    }
    Ok(())
}

fn locals_refused(out: &mut impl Write) -> io::Result<()> {
    for (standpoint, forepoint, north, comment) in [
        (1, 2, 0, 13),
        (1, 1, 0, 13),
        (0, 0, 0, 13),
        (1, 10_000, 0, 13),
        (1, 1, 1_000_000_000, 13),
        (1, 2, 0, 12),
    ] {
        let values = [standpoint, forepoint, north, 0, 0, 0, b'N'.into()];
        refused(out, 82, 12, None, &values, [&[b' '; 13][..comment], b""])?;
    }
    Ok(())
}

fn factors_refused(out: &mut impl Write) -> io::Result<()> {
    for values in [[1, 9_999], [0, 1], [10_000, 1], [1, 0], [1, 10_000]] {
        refused(out, 82, 13, None, &values, [&[b' '; 54], b""])?;
    }
    Ok(())
}

fn refused(
    out: &mut impl Write,
    room: usize,
    kind: i64,
    sequence: Option<i64>,
    values: &[i64],
    [first, second]: [&[u8]; 2],
) -> io::Result<()> {
    let mut line = vec![b'.'; room];
    let fault = plain::write(&mut line, kind, sequence, values, [first, second, b""]);
    out.write_all(&[line[0], line[room.min(LINE) - 1]])?;
    if fault == Fault::ACCEPTED {
        writeln!(out, "written")
    } else {
        show_fault(out, fault)
    }
}
