//! The deposit sheet.

use super::layout::KINDS;
use super::walk::judge;
use super::{Fault, LINE, TABLE_WORDS};

/// The most bytes the sheet program takes: 800 records.
const MOST_INPUT: usize = 64_800;

/// The exact text the sheet program prints for this input.
pub fn sheet(input: &[u8]) -> Vec<u8> {
    let (blocks, judged) = if input.len() > MOST_INPUT {
        (0, Err(Fault::TOO_SHORT))
    } else {
        (input.len() / LINE, judge(input, &mut [0; TABLE_WORDS]))
    };
    let Fault {
        number,
        record,
        column,
    } = judged.err().unwrap_or(Fault::ACCEPTED);
    let mut text = format!("FILE\t{blocks}\t{number}\t{record}\t{column}\n");
    if let Ok(counts) = judged {
        for (code, count) in KINDS.iter().zip(counts) {
            text.push_str(&format!("KIND\t{code}\t{count}\n"));
        }
    }
    text.into_bytes()
}
