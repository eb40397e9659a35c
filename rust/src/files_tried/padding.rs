//! What is printed of the padding step.

use super::{differing, rewritten, show_changed, show_checked, show_fault, show_judged, BYTE};
use crate::plain::{pad, rewrite, LINE, TABLE_WORDS};
use crate::specimens;
use std::fs;
use std::io::{self, Write};
use std::path::Path;

/// The bytes lent to each input: a line more than the longest of them has.
const ROOM: usize = 2_754;

const WHOLE: &str = "accepted_all_kinds.bfile";
const RETURNS: &str = "padding_trimmed_cr_lf.bfile";

pub fn inputs(out: &mut impl Write, data: &Path) -> io::Result<()> {
    writeln!(out)?;
    for input in specimens::inputs() {
        lent(out, data, &input.file_name(), ROOM)?;
    }
    lent(out, data, RETURNS, 33 * LINE - 1)?;
    lent(out, data, RETURNS, 33 * LINE)?;
    for name in [
        "padding_trimmed_lf.bfile",
        RETURNS,
        "padding_trimmed_mixed.bfile",
        WHOLE,
    ] {
        compare(out, data, name)?;
    }
    compare_rewritten(out, data)
}

/// An input padded into an output of so many bytes.
fn lent(out: &mut impl Write, data: &Path, name: &str, room: usize) -> io::Result<()> {
    let input = fs::read(data.join(name))?;
    let mut output = vec![BYTE; room];
    let padded = pad(&input, &mut output);
    writeln!(out, "input {name}, bytes {}, output {room}", input.len())?;
    write!(out, "pad ")?;
    show_fault(out, padded.fault)?;
    writeln!(out, "lines {}", padded.lines)?;
    show_changed(out, &output)?;
    if padded.fault.number == 0 {
        show_padded(out, &output[..padded.lines as usize * LINE])?;
    }
    writeln!(out)
}

/// Up to four lines are printed; whether more are the right ones is seen
/// where they are compared.
fn show_padded(out: &mut impl Write, lines: &[u8]) -> io::Result<()> {
    if lines.len() <= 4 * LINE {
        let shown = String::from_utf8_lossy(lines);
        let shown = shown.replace('\r', "\\r").replace('\n', "|\n");
        write!(out, "{shown}")?;
    }
    show_judged(out, lines, &mut [0; TABLE_WORDS])
}

fn compare(out: &mut impl Write, data: &Path, name: &str) -> io::Result<()> {
    let mut whole = fs::read(data.join(WHOLE))?;
    whole.resize(65_536, BYTE);
    let mut output = vec![BYTE; 65_536];
    pad(&fs::read(data.join(name))?, &mut output);
    let differ = differing(&whole, &output);
    writeln!(out, "{name} padded and {WHOLE}: bytes that differ {differ}")
}

/// The padded lines rewritten, and the file that they came from.
fn compare_rewritten(out: &mut impl Write, data: &Path) -> io::Result<()> {
    let mut padded = vec![BYTE; 33 * LINE];
    pad(&fs::read(data.join(RETURNS))?, &mut padded);
    let mut output = vec![BYTE; 65_536];
    let checked = rewrite(&padded, &mut [0; TABLE_WORDS], &mut output);
    write!(out, "{RETURNS} padded, rewrite ")?;
    show_checked(out, checked)?;
    let differ = differing(&output, &rewritten(&fs::read(data.join(WHOLE))?));
    writeln!(out, "and {WHOLE} rewritten: bytes that differ {differ}")
}
