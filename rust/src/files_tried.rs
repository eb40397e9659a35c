//! What `crates/files_tried` prints, from the plain implementation and the
//! same files.

mod padding;
mod pulling;

use crate::plain::{form, references, rewrite, Checked, Fault};
use std::fs;
use std::io::{self, Write};
use std::path::{Path, PathBuf};

/// Every word of a table and every byte of an output before a call.
const WORD: u32 = 7_777_777;
const BYTE: u8 = 255;

/// Where the program and its files are.
pub fn folder() -> PathBuf {
    Path::new(env!("CARGO_MANIFEST_DIR")).join("../crates/files_tried")
}

/// All that is printed.
pub fn page() -> io::Result<Vec<u8>> {
    let data = &folder().join("data");
    let mut page = Vec::new();
    let out = &mut page;
    for name in fs::read_to_string(folder().join("args"))?.lines() {
        whole(out, name, &fs::read(data.join(name))?)?;
    }
    lengths(out, data, "accepted_all_kinds.bfile")?;
    lengths(out, data, "fault_09_station_0.bfile")?;
    compare(out, data, "dress_house.bfile", "dress_other.bfile")?;
    compare(out, data, "dress_house.bfile", "dress_other_meaning.bfile")?;
    padding::inputs(out, data)?;
    pulling::lists(out, data)?;
    Ok(page)
}

/// The three calls, with a word and a record more lent than they need.
fn whole(out: &mut impl Write, name: &str, file: &[u8]) -> io::Result<()> {
    writeln!(out, "file {name}, bytes {}", file.len())?;
    let mut table = vec![WORD; 12_001];
    show_judged(out, file, &mut table)?;
    show_table(out, &table)?;

    let mut other = vec![WORD; 12_001];
    let mut output = vec![BYTE; file.len() + 81];
    let checked = rewrite(file, &mut other, &mut output);
    write!(out, "rewrite ")?;
    show_checked(out, checked)?;
    let differ = differing(&table, &other);
    writeln!(out, "words other than after references: {differ}")?;
    if checked.fault == Fault::ACCEPTED {
        let (rewritten, beyond) = output.split_at(file.len());
        show_rewritten(out, rewritten)?;
        show_kept(out, "bytes beyond", beyond, BYTE)?;
    } else {
        show_kept(out, "bytes of the output", &output, BYTE)?;
    }
    writeln!(out)
}

/// What form and references say.
fn show_judged(out: &mut impl Write, file: &[u8], table: &mut [u32]) -> io::Result<()> {
    write!(out, "form ")?;
    show_checked(out, form(file))?;
    show_references(out, file, table)
}

fn show_references(out: &mut impl Write, file: &[u8], table: &mut [u32]) -> io::Result<()> {
    write!(out, "references ")?;
    show_fault(out, references(file, table))
}

/// How many bytes of a lent output are no longer what it was filled with.
fn show_changed(out: &mut impl Write, output: &[u8]) -> io::Result<()> {
    let room = output.len();
    let changed = output.iter().filter(|&&byte| byte != BYTE).count();
    let kept = room - changed;
    writeln!(
        out,
        "bytes of the output: {changed} changed, {kept} of {room} unchanged"
    )
}

fn show_fault(out: &mut impl Write, fault: Fault) -> io::Result<()> {
    let Fault {
        number,
        record,
        column,
    } = fault;
    writeln!(out, "fault {number} record {record} column {column}")
}

fn show_checked(out: &mut impl Write, checked: Checked) -> io::Result<()> {
    show_fault(out, checked.fault)?;
    write!(out, "counts")?;
    for count in checked.counts {
        write!(out, " {count}")?;
    }
    writeln!(out)
}

fn show_table(out: &mut impl Write, table: &[u32]) -> io::Result<()> {
    let filled: Vec<usize> = (0..12_000).filter(|&place| table[place] != 0).collect();
    write!(out, "words not 0:")?;
    for &place in filled.iter().take(12) {
        write!(out, " {place}={}", table[place])?;
    }
    let last = table[12_000];
    writeln!(out, " ({} in all); word 12000={last}", filled.len())
}

/// A file of up to fifty records whole, and of every one a sum of sums.
fn show_rewritten(out: &mut impl Write, bytes: &[u8]) -> io::Result<()> {
    let mut sum = 0_u64;
    let mut sums = 0_u64;
    for &byte in bytes {
        sum += u64::from(byte);
        sums += sum;
    }
    writeln!(out, "rewritten bytes {}, sum of sums {sums}", bytes.len())?;
    if bytes.len() <= 4_050 {
        out.write_all(bytes)?;
    }
    Ok(())
}

fn show_kept<T: PartialEq>(
    out: &mut impl Write,
    what: &str,
    lent: &[T],
    before: T,
) -> io::Result<()> {
    let kept = lent.iter().filter(|&one| *one == before).count();
    writeln!(out, "{what}: {kept} of {} unchanged", lent.len())
}

fn differing<T: PartialEq>(one: &[T], other: &[T]) -> usize {
    one.iter().zip(other).filter(|(a, b)| a != b).count()
}

/// A word or a byte too few, then exactly enough.
fn lengths(out: &mut impl Write, data: &Path, name: &str) -> io::Result<()> {
    let file = &fs::read(data.join(name))?;
    writeln!(out, "lengths, {name}\n")?;
    let mut table = vec![WORD; 11_999];
    writeln!(out, "a table of 11999 words")?;
    show_references(out, file, &mut table)?;
    show_kept(out, "words of the table", &table, WORD)?;
    lent(out, file, 11_999, file.len())?;
    writeln!(out, "an output of a byte less than the file")?;
    lent(out, file, 12_000, file.len() - 1)?;
    writeln!(
        out,
        "a table of 12000 words and an output as long as the file"
    )?;
    lent(out, file, 12_000, file.len())
}

fn lent(out: &mut impl Write, file: &[u8], words: usize, bytes: usize) -> io::Result<()> {
    let mut table = vec![WORD; words];
    let mut output = vec![BYTE; bytes];
    write!(out, "rewrite ")?;
    show_checked(out, rewrite(file, &mut table, &mut output))?;
    show_kept(out, "words of the table", &table, WORD)?;
    show_kept(out, "bytes of the output", &output, BYTE)?;
    writeln!(out)
}

fn compare(out: &mut impl Write, data: &Path, one: &str, other: &str) -> io::Result<()> {
    let first = rewritten(&fs::read(data.join(one))?);
    let second = rewritten(&fs::read(data.join(other))?);
    let differ = differing(&first, &second);
    writeln!(
        out,
        "{one} and {other} rewritten: bytes that differ {differ}"
    )
}

fn rewritten(file: &[u8]) -> Vec<u8> {
    let mut output = vec![BYTE; 65_536];
    rewrite(file, &mut vec![0; 12_000], &mut output);
    output
}
