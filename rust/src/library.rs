//! The proved library, called safely.
//!
//! [`Library`] has the eight calls in the word form of `include/shelf.h`; the
//! functions below it give the same answers as values, for the command line.

use crate::calls::{
    Calls, FileCalls, FIELD_WORDS, FIRST_VALUE_WORD, FORM_WORDS, KIND_WORD, NO_SEQUENCE, PAD_WORDS,
    PULL_WORDS, READ_WORDS, REFERENCES_WORDS, REWRITE_WORDS, SEQUENCE_WORD, WRITE_WORDS,
};

/// Words of the station table.
pub const TABLE_WORDS: usize = 12_000;
/// A record with its line feed.
pub const LINE: usize = 81;
/// The last record that a file may have.
pub const LAST_RECORD: usize = 99_999;
/// The codes of the fourteen kinds, in the order of the counts.
pub const KINDS: [&str; 14] = [
    "AA", "10", "11", "12", "25", "26", "27", "70", "72", "80", "86", "91", "92", "93",
];
/// A missing height among the values of a record.
pub const MISSING: i64 = i64::MIN;

/// Whether the calls go to the stand-in and not to the proved library.
pub const IS_STANDIN: bool = cfg!(feature = "standin");

extern "C" {
    fn shelf_form(file: *const u8, len: usize, answer: *mut u32, answers: usize);
    fn shelf_references(
        file: *const u8,
        len: usize,
        table: *mut u32,
        words: usize,
        answer: *mut u32,
        answers: usize,
    );
    fn shelf_rewrite(
        file: *const u8,
        len: usize,
        table: *mut u32,
        words: usize,
        out: *mut u8,
        room: usize,
        answer: *mut u32,
        answers: usize,
    );
    fn shelf_read(file: *const u8, len: usize, record: u32, answer: *mut i64, answers: usize);
    fn shelf_field(
        file: *const u8,
        len: usize,
        record: u32,
        column: u32,
        answer: *mut u64,
        answers: usize,
    );
    fn shelf_write(
        out: *mut u8,
        room: usize,
        values: *const i64,
        count: usize,
        first: *const u8,
        first_len: usize,
        second: *const u8,
        second_len: usize,
        third: *const u8,
        third_len: usize,
        answer: *mut u32,
        answers: usize,
    );
    fn shelf_pad(
        input: *const u8,
        len: usize,
        out: *mut u8,
        room: usize,
        answer: *mut u32,
        answers: usize,
    );
    fn shelf_pull(
        file: *const u8,
        len: usize,
        records: *const u32,
        entries: usize,
        out: *mut u8,
        room: usize,
        faults: *mut u32,
        places: usize,
        answer: *mut u32,
        answers: usize,
    );
}

/// The library's calls in word form. Each is safe because the header's calls
/// take every length, and slices are what it asks for: not null, aligned,
/// and none that is written overlaps another.
pub struct Library;

impl FileCalls for Library {
    fn form(&self, file: &[u8], answer: &mut [u32]) {
        unsafe { shelf_form(file.as_ptr(), file.len(), answer.as_mut_ptr(), answer.len()) }
    }

    fn references(&self, file: &[u8], table: &mut [u32], answer: &mut [u32]) {
        unsafe {
            shelf_references(
                file.as_ptr(),
                file.len(),
                table.as_mut_ptr(),
                table.len(),
                answer.as_mut_ptr(),
                answer.len(),
            )
        }
    }

    fn rewrite(&self, file: &[u8], table: &mut [u32], out: &mut [u8], answer: &mut [u32]) {
        unsafe {
            shelf_rewrite(
                file.as_ptr(),
                file.len(),
                table.as_mut_ptr(),
                table.len(),
                out.as_mut_ptr(),
                out.len(),
                answer.as_mut_ptr(),
                answer.len(),
            )
        }
    }
}

impl Calls for Library {
    fn read(&self, file: &[u8], record: u32, answer: &mut [i64]) {
        unsafe {
            shelf_read(
                file.as_ptr(),
                file.len(),
                record,
                answer.as_mut_ptr(),
                answer.len(),
            )
        }
    }

    fn field(&self, file: &[u8], record: u32, column: u32, answer: &mut [u64]) {
        unsafe {
            shelf_field(
                file.as_ptr(),
                file.len(),
                record,
                column,
                answer.as_mut_ptr(),
                answer.len(),
            )
        }
    }

    fn write(&self, out: &mut [u8], values: &[i64], texts: [&[u8]; 3], answer: &mut [u32]) {
        let [first, second, third] = texts;
        unsafe {
            shelf_write(
                out.as_mut_ptr(),
                out.len(),
                values.as_ptr(),
                values.len(),
                first.as_ptr(),
                first.len(),
                second.as_ptr(),
                second.len(),
                third.as_ptr(),
                third.len(),
                answer.as_mut_ptr(),
                answer.len(),
            )
        }
    }

    fn pad(&self, input: &[u8], out: &mut [u8], answer: &mut [u32]) {
        unsafe {
            shelf_pad(
                input.as_ptr(),
                input.len(),
                out.as_mut_ptr(),
                out.len(),
                answer.as_mut_ptr(),
                answer.len(),
            )
        }
    }

    fn pull(
        &self,
        file: &[u8],
        records: &[u32],
        out: &mut [u8],
        faults: &mut [u32],
        answer: &mut [u32],
    ) {
        unsafe {
            shelf_pull(
                file.as_ptr(),
                file.len(),
                records.as_ptr(),
                records.len(),
                out.as_mut_ptr(),
                out.len(),
                faults.as_mut_ptr(),
                faults.len(),
                answer.as_mut_ptr(),
                answer.len(),
            )
        }
    }
}

/// Number, record and column; number 0 is acceptance.
#[derive(Clone, Copy, Debug, PartialEq, Eq)]
pub struct Fault {
    pub number: u32,
    pub record: u32,
    pub column: u32,
}

impl Fault {
    fn of([number, record, column]: [u32; 3]) -> Fault {
        Fault {
            number,
            record,
            column,
        }
    }
}

/// What form and rewrite say of a file.
#[derive(Clone, Copy, Debug, PartialEq, Eq)]
pub struct Verdict {
    pub fault: Fault,
    pub counts: [u32; 14],
}

impl Verdict {
    pub fn is_accepted(&self) -> bool {
        self.fault.number == 0
    }

    fn of([number, record, column, counts @ ..]: [u32; FORM_WORDS]) -> Verdict {
        let fault = Fault::of([number, record, column]);
        Verdict { fault, counts }
    }

    fn refused(fault: Fault) -> Verdict {
        let counts = [0; 14];
        Verdict { fault, counts }
    }
}

/// What pad says of an input: how many lines it has, 0 on a refusal.
#[derive(Clone, Copy, Debug, PartialEq, Eq)]
pub struct Padding {
    pub fault: Fault,
    pub lines: u32,
}

impl Padding {
    pub fn is_good(&self) -> bool {
        self.fault.number == 0
    }
}

/// A record's values as read gives them.
#[derive(Clone, Debug, PartialEq, Eq)]
pub struct Record {
    pub kind: usize,
    pub sequence: Option<i64>,
    /// The values' words; those that the kind does not use are 0.
    pub values: [i64; READ_WORDS - FIRST_VALUE_WORD],
}

/// Judges a file's form and order.
pub fn form(file: &[u8]) -> Verdict {
    let mut answer = [0; FORM_WORDS];
    Library.form(file, &mut answer);
    Verdict::of(answer)
}

/// Judges a file's references.
pub fn references(file: &[u8]) -> Fault {
    referred(file).0
}

/// Judges a file's references, and gives the table that it leaves.
fn referred(file: &[u8]) -> (Fault, Vec<u32>) {
    let mut table = vec![0; TABLE_WORDS];
    let mut answer = [0; REFERENCES_WORDS];
    Library.references(file, &mut table, &mut answer);
    (Fault::of(answer), table)
}

/// The table of an accepted file, or the file's first fault.
pub fn table(file: &[u8]) -> Result<Vec<u32>, Fault> {
    match referred(file) {
        (Fault { number: 0, .. }, table) => Ok(table),
        (Fault { number: 14, .. }, _) => Err(form(file).fault),
        (fault, _) => Err(fault),
    }
}

/// Judges a file's form and, where that is good, its references: what rewrite
/// answers, without the house style.
pub fn judge(file: &[u8]) -> Verdict {
    let formed = form(file);
    if !formed.is_accepted() {
        return formed;
    }
    match references(file) {
        Fault { number: 0, .. } => formed,
        fault => Verdict::refused(fault),
    }
}

/// Judges a file and gives it in house style if it is accepted.
pub fn rewrite(file: &[u8]) -> (Verdict, Vec<u8>) {
    let mut table = vec![0; TABLE_WORDS];
    let mut answer = [0; REWRITE_WORDS];
    let mut out = vec![0; file.len()];
    Library.rewrite(file, &mut table, &mut out, &mut answer);
    (Verdict::of(answer), out)
}

/// Reads one record by its number, judged by itself.
pub fn read(file: &[u8], record: u32) -> Result<Record, Fault> {
    let mut answer = [0; READ_WORDS];
    Library.read(file, record, &mut answer);
    if answer[0] != 0 {
        let [number, record, column, ..] = answer.map(|word| word as u32);
        return Err(Fault::of([number, record, column]));
    }
    let mut values = [0; READ_WORDS - FIRST_VALUE_WORD];
    values.copy_from_slice(&answer[FIRST_VALUE_WORD..]);
    Ok(Record {
        kind: answer[KIND_WORD] as usize,
        sequence: Some(answer[SEQUENCE_WORD]).filter(|&number| number != NO_SEQUENCE),
        values,
    })
}

/// The columns of a record's field, empty where there is none.
pub fn field(file: &[u8], record: u32, column: u32) -> &[u8] {
    let mut answer = [0; FIELD_WORDS];
    Library.field(file, record, column, &mut answer);
    let [offset, length] = answer.map(|word| word as usize);
    &file[offset..offset + length]
}

/// Writes one record into the first 81 bytes of `out`.
pub fn write(out: &mut [u8], values: &[i64], texts: [&[u8]; 3]) -> Fault {
    let mut answer = [0; WRITE_WORDS];
    Library.write(out, values, texts, &mut answer);
    Fault::of(answer)
}

/// Gives the lines of an input filled with blanks, or nothing on a refusal.
/// The output it lends is never too short, since a line takes at least one
/// byte of the input; what is not written of it costs nothing, since the
/// system gives zeros untouched.
pub fn pad(input: &[u8]) -> (Padding, Vec<u8>) {
    let mut answer = [0; PAD_WORDS];
    let mut out = vec![0; LINE * input.len().min(LAST_RECORD)];
    Library.pad(input, &mut out, &mut answer);
    let [number, record, column, lines] = answer;
    out.truncate(LINE * lines as usize);
    let fault = Fault::of([number, record, column]);
    (Padding { fault, lines }, out)
}

/// Gives the records of a list in house style, 81 bytes each in the list's
/// order, and the fault number of each: a record that can't be read has a
/// blank line. What it lends is never too short, so a pull is never refused.
pub fn pull(file: &[u8], records: &[u32]) -> (Vec<u8>, Vec<u32>) {
    let mut answer = [0; PULL_WORDS];
    let mut out = vec![0; LINE * records.len()];
    let mut faults = vec![0; records.len()];
    Library.pull(file, records, &mut out, &mut faults, &mut answer);
    (out, faults)
}
