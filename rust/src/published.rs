//! The published examples: the list that `crates/published` runs, put to the
//! plain implementation.

use crate::plain::layout::{long_texts, Field, Form, FIELDS, JOB};
use crate::plain::{
    field, form, read, references, rewrite, sheet, write, Checked, Fault, Reading, LINE, MISSING,
    TABLE_WORDS,
};
use std::path::{Path, PathBuf};
use std::{fs, io};

/// A line of the list: seven cells parted by tabs.
#[derive(Clone, Debug, PartialEq, Eq)]
pub struct Example {
    pub name: String,
    pub call: String,
    pub file: String,
    pub record: usize,
    pub column: usize,
    pub given: String,
    pub should: String,
}

/// Where the list and its files are.
pub fn folder() -> PathBuf {
    Path::new(env!("CARGO_MANIFEST_DIR")).join("../crates/published")
}

/// The list as it stands, headings and all.
pub fn list() -> io::Result<String> {
    fs::read_to_string(folder().join("data/examples.txt"))
}

impl Example {
    /// The example of a line; a heading is none.
    pub fn of(line: &str) -> Option<Example> {
        if line.starts_with('#') {
            return None;
        }
        let cells: Vec<&str> = line.split('\t').collect();
        let [name, call, file, record, column, given, should] = cells[..] else {
            panic!("seven cells: {line}");
        };
        Some(Example {
            name: name.into(),
            call: call.into(),
            file: file.into(),
            record: record.parse().expect("a record"),
            column: column.parse().expect("a column"),
            given: given.into(),
            should: should.into(),
        })
    }

    /// Its file, with the columns given put into their place.
    pub fn bytes(&self) -> io::Result<Vec<u8>> {
        let mut file = fs::read(folder().join("data").join(&self.file))?;
        if !self.given.is_empty() {
            let start = self.start();
            file[start..start + self.given.len()].copy_from_slice(self.given.as_bytes());
        }
        Ok(file)
    }

    fn start(&self) -> usize {
        LINE * (self.record - 1) + self.column - 1
    }

    /// What comes out.
    pub fn answer(&self) -> io::Result<String> {
        let file = &self.bytes()?;
        Ok(match self.call.as_str() {
            "read" => match read(file, self.record as u64) {
                Ok(reading) => value(&reading, self.column),
                Err(fault) => refusal(fault),
            },
            "field" => {
                let (start, width) = field(file, self.record as u64, self.column as u64);
                quoted(&file[start..start + width])
            }
            "write" => match written(file, self.record as u64) {
                Ok(line) => self.columns(&line, self.column - 1),
                Err(fault) => refusal(fault),
            },
            "form" => verdict(form(file)),
            "references" => match references(file, &mut [0; TABLE_WORDS]) {
                Fault::ACCEPTED => "accepted".into(),
                fault => refusal(fault),
            },
            "rewrite" => {
                let mut out = vec![b'.'; file.len()];
                let fault = rewrite(file, &mut [0; TABLE_WORDS], &mut out).fault;
                if fault == Fault::ACCEPTED {
                    self.columns(&out, self.start())
                } else {
                    refusal(fault)
                }
            }
            "list" => String::from_utf8_lossy(&sheet(file))
                .replace('\t', "<tab>")
                .replace('\n', "<line feed>"),
            other => panic!("no such call: {other}"),
        })
    }

    /// The line that is printed of it.
    fn shown(&self, came: &str) -> String {
        let Example {
            name,
            call,
            given,
            should,
            ..
        } = self;
        let columns = match given.as_str() {
            "" => String::new(),
            given => format!(" `{given}`"),
        };
        let word = if came == should { "same" } else { "DIFFERS" };
        format!("{name}, {call}{columns} | {came} | {should} | {word}\n")
    }

    /// As many columns as were given.
    fn columns(&self, bytes: &[u8], start: usize) -> String {
        quoted(&bytes[start..start + self.given.len()])
    }
}

fn quoted(columns: &[u8]) -> String {
    format!("`{}`", String::from_utf8_lossy(columns))
}

fn refusal(fault: Fault) -> String {
    let Fault {
        number,
        record,
        column,
    } = fault;
    format!("fault {number} record {record} column {column}")
}

fn verdict(checked: Checked) -> String {
    if checked.fault != Fault::ACCEPTED {
        return refusal(checked.fault);
    }
    let counts = checked.counts.map(|count| count.to_string());
    format!("accepted, counts {}", counts.join(" "))
}

/// How many words of a reading a field has.
fn words(field: &Field) -> usize {
    match field.form {
        Form::Blank | Form::Four | Form::AngleLetter { .. } | Form::Text(_) => 0,
        Form::Media => 8,
        Form::Code(_) | Form::CodeOrBlank(_) => field.width,
        _ => 1,
    }
}

/// The value of the field that starts in a column: columns 1-6 are the
/// sequence number, and columns 7-10 of a job-code record its code.
fn value(reading: &Reading, column: usize) -> String {
    if column == 1 {
        return reading
            .sequence
            .map_or("missing".into(), |number| number.to_string());
    }
    let mut before = 0;
    if reading.kind == JOB {
        if column == 7 {
            return characters(&reading.values[..2]);
        }
        before = 2;
    }
    for field in FIELDS[reading.kind] {
        let held = &reading.values[before..before + words(field)];
        if field.first == column {
            return shown(field.form, held);
        }
        before += held.len();
    }
    panic!("no field starts in column {column}")
}

fn shown(form: Form, held: &[i64]) -> String {
    match form {
        Form::Code(_) | Form::CodeOrBlank(_) | Form::HeightCode { .. } => characters(held),
        _ if held == [MISSING] => "missing".into(),
        _ => held[0].to_string(),
    }
}

fn characters(held: &[i64]) -> String {
    let bytes: Vec<u8> = held.iter().map(|&word| word as u8).collect();
    quoted(&bytes)
}

/// A record written from the values and texts that are read from it.
fn written(file: &[u8], record: u64) -> Result<[u8; LINE], Fault> {
    let reading = read(file, record)?;
    let mut texts: [&[u8]; 3] = [b""; 3];
    for (text, (first, _)) in texts.iter_mut().zip(long_texts(reading.kind)) {
        let (start, width) = field(file, record, first as u64);
        *text = &file[start..start + width];
    }
    let mut line = [b'.'; LINE];
    let sequence = reading.sequence.map(i64::from);
    let kind = reading.kind as i64;
    match write(&mut line, kind, sequence, &reading.values, texts) {
        Fault::ACCEPTED => Ok(line),
        fault => Err(fault),
    }
}

/// What `crates/published` prints.
pub fn page() -> io::Result<String> {
    let mut page = String::new();
    let (mut run, mut differ) = (0, 0);
    for line in list()?.lines() {
        let Some(example) = Example::of(line) else {
            page += &format!("{line}\n");
            continue;
        };
        let came = example.answer()?;
        let same = came == example.should;
        page += &example.shown(&came);
        run += 1;
        differ += usize::from(!same);
    }
    page += &format!("{run} examples, {differ} differ\n");
    Ok(page)
}
