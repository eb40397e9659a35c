//! Form, references and rewrite written for speed: what the benchmark holds the
//! library against, beside the plain implementation. Nothing of it is proved.
//!
//! Only good files are judged here, in one pass: a record is good when each of
//! its columns is in the row of its kind (`rows`, sixteen columns at once)
//! and when a few words of columns are as they should (`judge`). A file with
//! a fault, or with too little lent, is handed to the plain implementation,
//! which names the fault: so times are compared on accepted files alone. That
//! no good file is handed over, and no other kept, is what the differential
//! tests ask of [`formed`] and [`accepted`].
//!
//! Besides naming faults, what is shared with the plain implementation is its
//! field tables. There is no `unsafe`: the loops over columns are written so
//! that the compiler puts them into vector registers by itself.

mod dress;
mod judge;
mod rows;
mod walk;

use crate::calls::{FileCalls, FORM_WORDS, REWRITE_WORDS};
use crate::plain::{self, put_checked, put_fault, Checked, Fault};

pub use walk::{accepted, formed};

/// The tuned implementation of the three calls that take a whole file.
pub struct Tuned;

impl FileCalls for Tuned {
    fn form(&self, file: &[u8], answer: &mut [u32]) {
        put_checked(answer, FORM_WORDS, || form(file));
    }

    fn references(&self, file: &[u8], table: &mut [u32], answer: &mut [u32]) {
        put_fault(answer, || references(file, table));
    }

    fn rewrite(&self, file: &[u8], table: &mut [u32], out: &mut [u8], answer: &mut [u32]) {
        put_checked(answer, REWRITE_WORDS, || rewrite(file, table, out));
    }
}

/// Judges form and order.
pub fn form(file: &[u8]) -> Checked {
    match formed(file) {
        Some(counts) => Checked::accepted(counts),
        None => plain::form(file),
    }
}

/// Judges references, and form with them.
pub fn references(file: &[u8], table: &mut [u32]) -> Fault {
    match accepted(file, table) {
        Some(_) => Fault::ACCEPTED,
        None => plain::references(file, table),
    }
}

/// Judges a file and puts it into `out` in house style. A refusal must leave
/// the output as it was, so nothing is written before the last record is
/// judged; and with too little output the table stays, so it is not judged.
pub fn rewrite(file: &[u8], table: &mut [u32], out: &mut [u8]) -> Checked {
    if out.len() >= file.len() {
        if let Some(counts) = accepted(file, table) {
            dress::dress(file, &mut out[..file.len()]);
            return Checked::accepted(counts);
        }
    }
    plain::rewrite(file, table, out)
}
