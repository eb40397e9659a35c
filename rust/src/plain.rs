//! Form, references, read, write, rewrite, the padding step, the pull list and
//! the deposit sheet, as the paper and the requests have them.
//!
//! From below: `fields` reads and writes one field, `layout` says which
//! fields a record has, `pointing` finds the column to name of a bad field,
//! `records` handles one record by itself, `walk` handles a whole file,
//! `padding` fills the lines of one that is not judged yet, `pulling` gives the
//! records of a list, `sheet` prints, `words` puts answers into the form of the
//! library's header.

pub mod fields;
pub mod layout;
mod padding;
mod pointing;
mod pulling;
mod records;
mod sheet;
mod walk;
mod words;

pub use padding::{pad, Padded};
pub use pulling::pull;
pub use records::{field, read, write, Reading};
pub use sheet::sheet;
pub use walk::{form, references, rewrite};
pub use words::Plain;
pub(crate) use words::{put_checked, put_fault};

/// Words of the station table that belong to the shelf.
pub const TABLE_WORDS: usize = 12_000;
/// Word 10,000 + n is for instrument n, whose first *70* it holds.
pub const FIRST_INSTRUMENT_WORD: usize = 10_000;
/// Word 11,000 + n is for antenna n.
pub const FIRST_ANTENNA_WORD: usize = 11_000;
/// The last record a file may have.
pub const LAST_RECORD: u64 = 99_999;
/// The printed columns of a record.
pub const COLUMNS: usize = 80;
/// A record with its line feed.
pub const LINE: usize = COLUMNS + 1;
/// A missing number or height among the values of a record.
pub const MISSING: i64 = i64::MIN;

/// What a call found: fault number 0 is acceptance.
#[derive(Clone, Copy, Debug, PartialEq, Eq)]
pub struct Fault {
    pub number: u32,
    pub record: u64,
    pub column: u64,
}

impl Fault {
    pub const ACCEPTED: Fault = Fault {
        number: 0,
        record: 0,
        column: 0,
    };

    /// Fault 1: a lent table, output or fault list is too short.
    pub const TOO_SHORT: Fault = Fault {
        number: 1,
        record: 0,
        column: 0,
    };

    /// Fault 14: references are judged only where the form is good.
    pub const FORM_NOT_GOOD: Fault = Fault {
        number: 14,
        record: 0,
        column: 0,
    };

    /// Whether it is one of form and order.
    fn is_of_form(&self) -> bool {
        (2..=10).contains(&self.number)
    }
}

/// What form and rewrite hand back. The counts are in the order of
/// [`layout::KINDS`], and all 0 unless the file was accepted.
#[derive(Clone, Copy, Debug, PartialEq, Eq)]
pub struct Checked {
    pub fault: Fault,
    pub counts: [u32; 14],
}

impl Checked {
    pub(crate) fn accepted(counts: [u32; 14]) -> Checked {
        Checked {
            fault: Fault::ACCEPTED,
            counts,
        }
    }

    fn refused(fault: Fault) -> Checked {
        Checked {
            fault,
            counts: [0; 14],
        }
    }
}
