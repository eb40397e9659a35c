//! What is printed of records pulled.

use super::{differing, rewritten, show_changed, show_fault, BYTE, WORD};
use crate::plain::{pull, LINE};
use crate::specimens::PULLS;
use std::fs;
use std::io::{self, Write};
use std::path::Path;

pub fn lists(out: &mut impl Write, data: &Path) -> io::Result<()> {
    writeln!(out)?;
    for list in &PULLS {
        let (room, places) = list.lent();
        lent(out, data, &list.file_name(), list.records, room, places)?;
    }
    for name in [
        "accepted_all_kinds.bfile",
        "dress_other.bfile",
        "accepted_accuracies_in_other_dress.bfile",
        "accepted_70_three_in_other_dress.bfile",
    ] {
        compare(out, data, name)?;
    }
    Ok(())
}

/// Records pulled into an output of so many bytes, and their faults into so
/// many places.
fn lent(
    out: &mut impl Write,
    data: &Path,
    name: &str,
    records: &[u32],
    room: usize,
    places: usize,
) -> io::Result<()> {
    let file = fs::read(data.join(name))?;
    let mut output = vec![BYTE; room];
    let mut faults = vec![WORD; places];
    let fault = pull(&file, records, &mut output, &mut faults);
    write!(out, "pulled from {name}, records")?;
    show_words(out, records)?;
    write!(out, "pull ")?;
    show_fault(out, fault)?;
    write!(out, "fault list")?;
    show_words(out, &faults)?;
    show_changed(out, &output)?;
    if fault.number == 0 {
        let lines = String::from_utf8_lossy(&output[..LINE * records.len()]);
        write!(out, "{}", lines.replace('\n', "|\n"))?;
    }
    writeln!(out)
}

fn show_words(out: &mut impl Write, words: &[u32]) -> io::Result<()> {
    for word in words {
        write!(out, " {word}")?;
    }
    writeln!(out)
}

/// All records of a file, pulled in order, and the file rewritten.
fn compare(out: &mut impl Write, data: &Path, name: &str) -> io::Result<()> {
    let file = fs::read(data.join(name))?;
    let records: Vec<u32> = (1..=(file.len() / LINE) as u32).collect();
    let mut output = vec![BYTE; 65_536];
    pull(&file, &records, &mut output, &mut vec![WORD; records.len()]);
    let differ = differing(&output, &rewritten(&file));
    writeln!(
        out,
        "{name}, all records pulled and rewritten: bytes that differ {differ}"
    )
}
