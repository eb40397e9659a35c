//! The plain shelf by hand: form, references, read, pull, rewrite, print a
//! sheet, make a file.

use shelf::generate;
use shelf::plain::layout::{FIELDS, KINDS};
use shelf::plain::{self, Checked, Fault, COLUMNS, LINE, MISSING, TABLE_WORDS};
use std::env;
use std::fs;
use std::io::{self, Write};
use std::num::ParseIntError;
use std::process::ExitCode;
use std::str::FromStr;

const USAGE: &str = "\
plain form FILE
plain references FILE
plain sheet FILE
plain rewrite IN OUT
plain read FILE RECORD
plain pull FILE RECORD..
plain generate SEED RECORDS OUT";

fn main() -> ExitCode {
    let words: Vec<String> = env::args().skip(1).collect();
    let words: Vec<&str> = words.iter().map(String::as_str).collect();
    match run(&words) {
        Ok(good) if good => ExitCode::SUCCESS,
        Ok(_) => ExitCode::FAILURE,
        Err(trouble) => {
            eprintln!("{trouble}");
            ExitCode::from(2)
        }
    }
}

/// False when the file, or a record that was asked for, was refused.
fn run(words: &[&str]) -> Result<bool, String> {
    match words {
        ["form", file] => {
            let checked = plain::form(&load(file)?);
            print_checked(&checked);
            Ok(checked.fault == Fault::ACCEPTED)
        }
        ["references", file] => {
            let mut table = vec![0; TABLE_WORDS];
            let fault = plain::references(&load(file)?, &mut table);
            print_fault(fault);
            if fault == Fault::ACCEPTED {
                print_table(&table);
            }
            Ok(fault == Fault::ACCEPTED)
        }
        ["sheet", file] => {
            let sheet = plain::sheet(&load(file)?);
            io::stdout()
                .write_all(&sheet)
                .map_err(|trouble| trouble.to_string())?;
            Ok(true)
        }
        ["rewrite", from, to] => {
            let file = load(from)?;
            let mut out = vec![0; file.len()];
            let checked = plain::rewrite(&file, &mut vec![0; TABLE_WORDS], &mut out);
            print_checked(&checked);
            if checked.fault != Fault::ACCEPTED {
                return Ok(false);
            }
            store(to, &out)?;
            Ok(true)
        }
        ["read", file, record] => {
            let file = load(file)?;
            let record = number(record)?;
            match plain::read(&file, record) {
                Ok(reading) => {
                    print_reading(&file, record, &reading);
                    Ok(true)
                }
                Err(fault) => {
                    print_fault(fault);
                    Ok(false)
                }
            }
        }
        ["pull", file, records @ ..] => {
            let records = records.iter().map(|record| number(record));
            let records = records.collect::<Result<Vec<u32>, String>>()?;
            Ok(print_pulled(&load(file)?, &records))
        }
        ["generate", seed, records, to] => {
            store(to, &generate::accepted(number(seed)?, number(records)?))?;
            Ok(true)
        }
        _ => Err(USAGE.to_string()),
    }
}

fn number<T: FromStr<Err = ParseIntError>>(word: &str) -> Result<T, String> {
    word.parse().map_err(|trouble| format!("{word}: {trouble}"))
}

fn load(name: &str) -> Result<Vec<u8>, String> {
    fs::read(name).map_err(|trouble| format!("{name}: {trouble}"))
}

fn store(name: &str, bytes: &[u8]) -> Result<(), String> {
    fs::write(name, bytes).map_err(|trouble| format!("{name}: {trouble}"))
}

fn print_fault(fault: Fault) {
    println!(
        "fault {} record {} column {}",
        fault.number, fault.record, fault.column
    );
}

fn print_checked(checked: &Checked) {
    print_fault(checked.fault);
    if checked.fault == Fault::ACCEPTED {
        for (code, count) in KINDS.iter().zip(checked.counts) {
            println!("kind {code} count {count}");
        }
    }
}

/// The words that are not 0.
fn print_table(table: &[u32]) {
    for (word, record) in table.iter().enumerate() {
        if *record != 0 {
            println!("word {word} record {record}");
        }
    }
}

fn print_reading(file: &[u8], record: u64, reading: &plain::Reading) {
    println!("kind {} code {}", reading.kind, KINDS[reading.kind]);
    match reading.sequence {
        Some(sequence) => println!("sequence {sequence}"),
        None => println!("sequence missing"),
    }
    for value in &reading.values {
        if *value == MISSING {
            println!("value missing");
        } else {
            println!("value {value}");
        }
    }
    for row in FIELDS[reading.kind] {
        let (offset, length) = plain::field(file, record, row.first as u64);
        let held = String::from_utf8_lossy(&file[offset..offset + length]);
        println!("field {} width {length} [{held}]", row.first);
    }
}

/// Each line with its fault number behind a bar. False when one was refused.
fn print_pulled(file: &[u8], records: &[u32]) -> bool {
    let mut out = vec![0; LINE * records.len()];
    let mut faults = vec![0; records.len()];
    plain::pull(file, records, &mut out, &mut faults);
    for (line, number) in out.chunks(LINE).zip(&faults) {
        let line = String::from_utf8_lossy(&line[..COLUMNS]);
        println!("{line}| fault {number}");
    }
    faults.iter().all(|&number| number == 0)
}
