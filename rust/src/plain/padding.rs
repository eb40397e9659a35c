//! The padding step: every line of an input filled with blanks.

use super::{Fault, COLUMNS, LAST_RECORD, LINE};

/// What padding hands back: how many lines the output got, 0 on a refusal.
#[derive(Clone, Copy, Debug, PartialEq, Eq)]
pub struct Padded {
    pub fault: Fault,
    pub lines: u32,
}

/// Puts the lines of an input into `out`, each filled with blanks to 80
/// columns and ended by one line feed.
pub fn pad(input: &[u8], out: &mut [u8]) -> Padded {
    match judge(input, out.len()) {
        Ok(count) => {
            for (line, place) in lines(input).zip(out.chunks_exact_mut(LINE)) {
                place.fill(b' ');
                place[..line.len()].copy_from_slice(line);
                place[COLUMNS] = b'\n';
            }
            Padded {
                fault: Fault::ACCEPTED,
                lines: count as u32,
            }
        }
        Err(fault) => Padded { fault, lines: 0 },
    }
}

/// The lines of an input without their ends.
fn lines(input: &[u8]) -> impl Iterator<Item = &[u8]> {
    input
        .split_inclusive(|&byte| byte == b'\n')
        .map(without_end)
}

/// A carriage return belongs to an end only where a line feed follows it.
fn without_end(line: &[u8]) -> &[u8] {
    match line.strip_suffix(b"\n") {
        Some(line) => line.strip_suffix(b"\r").unwrap_or(line),
        None => line,
    }
}

/// Judges line by line, and only then whether the output has room for them.
/// Gives the number of lines.
fn judge(input: &[u8], room: usize) -> Result<usize, Fault> {
    let mut count = 0;
    for (record, line) in (1..).zip(lines(input)) {
        let fault = |number, column| Fault {
            number,
            record,
            column,
        };
        if record > LAST_RECORD {
            return Err(fault(2, 1));
        }
        if line.len() > COLUMNS {
            return Err(fault(5, LINE as u64));
        }
        count += 1;
    }
    if room < LINE * count {
        return Err(Fault::TOO_SHORT);
    }
    Ok(count)
}
