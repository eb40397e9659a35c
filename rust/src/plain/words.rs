//! The plain shelf in the word form of the library's header.

use super::{field, form, pad, pull, read, references, rewrite, write, Checked, Fault, LINE};
use crate::calls::{
    Calls, FileCalls, FIELD_WORDS, FIRST_GIVEN_VALUE, FIRST_VALUE_WORD, FORM_WORDS, KIND_WORD,
    NO_KIND, NO_SEQUENCE, PAD_WORDS, PULL_WORDS, READ_WORDS, REFERENCES_WORDS, REWRITE_WORDS,
    SEQUENCE_WORD, WRITE_WORDS,
};

/// The plain implementation behind the interface it shares with the library.
pub struct Plain;

impl FileCalls for Plain {
    fn form(&self, file: &[u8], answer: &mut [u32]) {
        put_checked(answer, FORM_WORDS, || form(file));
    }

    fn references(&self, file: &[u8], table: &mut [u32], answer: &mut [u32]) {
        put_fault(answer, || references(file, table));
    }

    fn rewrite(&self, file: &[u8], table: &mut [u32], out: &mut [u8], answer: &mut [u32]) {
        put_checked(answer, REWRITE_WORDS, || rewrite(file, table, out));
    }
}

impl Calls for Plain {
    fn read(&self, file: &[u8], record: u32, answer: &mut [i64]) {
        let Some(answer) = answer.get_mut(..READ_WORDS) else {
            return;
        };
        answer.fill(0);
        match read(file, u64::from(record)) {
            Ok(reading) => {
                answer[KIND_WORD] = reading.kind as i64;
                answer[SEQUENCE_WORD] = reading.sequence.map_or(NO_SEQUENCE, i64::from);
                answer[FIRST_VALUE_WORD..][..reading.values.len()].copy_from_slice(&reading.values);
            }
            Err(fault) => {
                for (word, part) in answer.iter_mut().zip(fault_words(&fault)) {
                    *word = i64::from(part);
                }
                answer[KIND_WORD] = NO_KIND;
            }
        }
    }

    fn field(&self, file: &[u8], record: u32, column: u32, answer: &mut [u64]) {
        if let Some(answer) = answer.get_mut(..FIELD_WORDS) {
            let (offset, length) = field(file, u64::from(record), u64::from(column));
            answer.copy_from_slice(&[offset as u64, length as u64]);
        }
    }

    fn write(&self, out: &mut [u8], values: &[i64], texts: [&[u8]; 3], answer: &mut [u32]) {
        let Some(answer) = answer.get_mut(..WRITE_WORDS) else {
            return;
        };
        let fault = match values {
            [kind, sequence, ..] => {
                let sequence = Some(*sequence).filter(|&number| number != NO_SEQUENCE);
                write(out, *kind, sequence, &values[FIRST_GIVEN_VALUE..], texts)
            }
            _ if out.len() < LINE => Fault::TOO_SHORT,
            // The leftmost column without a word is the sequence number's.
            _ => Fault {
                number: 9,
                record: 0,
                column: 1,
            },
        };
        answer.copy_from_slice(&fault_words(&fault));
    }

    fn pad(&self, input: &[u8], out: &mut [u8], answer: &mut [u32]) {
        if let Some(answer) = answer.get_mut(..PAD_WORDS) {
            let padded = pad(input, out);
            let [number, record, column] = fault_words(&padded.fault);
            answer.copy_from_slice(&[number, record, column, padded.lines]);
        }
    }

    fn pull(
        &self,
        file: &[u8],
        records: &[u32],
        out: &mut [u8],
        faults: &mut [u32],
        answer: &mut [u32],
    ) {
        if let Some(answer) = answer.get_mut(..PULL_WORDS) {
            answer.copy_from_slice(&fault_words(&pull(file, records, out, faults)));
        }
    }
}

/// No record number here is above 32 bits: read is asked for one of 32 bits,
/// and the others stop at 100,000.
fn fault_words(fault: &Fault) -> [u32; 3] {
    [fault.number, fault.record as u32, fault.column as u32]
}

/// Makes a call of which a fault is the answer, if there is room for it.
pub(crate) fn put_fault(answer: &mut [u32], call: impl FnOnce() -> Fault) {
    if let Some(answer) = answer.get_mut(..REFERENCES_WORDS) {
        answer.copy_from_slice(&fault_words(&call()));
    }
}

/// Makes a call of which a fault and counts are the answer, if there is room
/// for these words.
pub(crate) fn put_checked(answer: &mut [u32], words: usize, call: impl FnOnce() -> Checked) {
    if let Some(answer) = answer.get_mut(..words) {
        let checked = call();
        let (fault, counts) = answer.split_at_mut(3);
        fault.copy_from_slice(&fault_words(&checked.fault));
        counts.copy_from_slice(&checked.counts);
    }
}
