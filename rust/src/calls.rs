//! The eight calls in the word form of `include/shelf.h`.
//!
//! The proved library and the implementations in Rust answer through this one
//! interface, so that they are compared word by word and byte by byte.

/// Form answers number, record, column and fourteen counts.
pub const FORM_WORDS: usize = 17;
/// References answers number, record and column.
pub const REFERENCES_WORDS: usize = 3;
/// Rewrite answers number, record, column and fourteen counts.
pub const REWRITE_WORDS: usize = 17;
/// Read answers number, record, column, kind, sequence number and values.
pub const READ_WORDS: usize = 32;
/// Field answers offset and length.
pub const FIELD_WORDS: usize = 2;
/// Write answers number, record and column.
pub const WRITE_WORDS: usize = 3;
/// Pad answers number, record, column and lines.
pub const PAD_WORDS: usize = 4;
/// Pull answers number, record and column.
pub const PULL_WORDS: usize = 3;

/// Where the kind stands in an answer of read.
pub const KIND_WORD: usize = 3;
/// Where the sequence number stands in an answer of read.
pub const SEQUENCE_WORD: usize = 4;
/// Where the values start in an answer of read.
pub const FIRST_VALUE_WORD: usize = 5;
/// Where the values start among those given to write, after the kind and
/// the sequence number.
pub const FIRST_GIVEN_VALUE: usize = 2;

/// The kind of a record that read refuses.
pub const NO_KIND: i64 = -1;
/// A missing sequence number, in an answer of read or given to write.
pub const NO_SEQUENCE: i64 = -1;

/// The calls that take a whole file, which the tuned implementation has too.
/// With an answer shorter than the call's own, a call touches nothing.
pub trait FileCalls {
    fn form(&self, file: &[u8], answer: &mut [u32]);

    fn references(&self, file: &[u8], table: &mut [u32], answer: &mut [u32]);

    fn rewrite(&self, file: &[u8], table: &mut [u32], out: &mut [u8], answer: &mut [u32]);
}

/// All eight calls.
pub trait Calls: FileCalls {
    fn read(&self, file: &[u8], record: u32, answer: &mut [i64]);

    fn field(&self, file: &[u8], record: u32, column: u32, answer: &mut [u64]);

    /// `values` are the kind, the sequence number and the values as read
    /// gives them; `texts` the long texts in column order.
    fn write(&self, out: &mut [u8], values: &[i64], texts: [&[u8]; 3], answer: &mut [u32]);

    fn pad(&self, input: &[u8], out: &mut [u8], answer: &mut [u32]);

    /// `records` are the entries of the list; `faults` is the fault list.
    fn pull(
        &self,
        file: &[u8],
        records: &[u32],
        out: &mut [u8],
        faults: &mut [u32],
        answer: &mut [u32],
    );
}
