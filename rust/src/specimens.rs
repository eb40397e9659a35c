//! The files that `crates/files_tried` is run on, each with the verdict that
//! the rule paper and the requests give it, found by hand and not by running
//! anything.
//!
//! `cargo run --example files_tried_data` writes them.

mod accepted;
mod accuracies;
mod changed;
mod inputs;
mod pulls;
mod receivers;
mod refused;
mod survey;

pub use inputs::{inputs, Input};
pub use pulls::{Pull, PULLS};

/// A whole file to try.
pub struct Specimen {
    /// The file's name without `.bfile`.
    pub name: &'static str,
    /// Fault number, record and column.
    pub verdict: (u32, u64, u64),
    /// What is in the file, and why the verdict is that one.
    pub why: &'static str,
    pub file: Vec<u8>,
}

/// All of them, in the order in which they are tried: the refused ones by
/// name, and so by fault number.
pub fn specimens() -> Vec<Specimen> {
    let mut all = accepted::specimens();
    let mut refused = refused::specimens();
    refused.extend(changed::specimens());
    refused.extend(accuracies::refused());
    refused.extend(receivers::refused());
    refused.sort_by_key(|one| one.name);
    all.extend(refused);
    all
}

impl Specimen {
    fn good(name: &'static str, why: &'static str, file: Vec<u8>) -> Specimen {
        Specimen::bad(name, (0, 0, 0), why, file)
    }

    fn bad(
        name: &'static str,
        verdict: (u32, u64, u64),
        why: &'static str,
        file: Vec<u8>,
    ) -> Specimen {
        Specimen {
            name,
            verdict,
            why,
            file,
        }
    }

    pub fn file_name(&self) -> String {
        format!("{}.bfile", self.name)
    }
}

/// The page beside the files: a row for each whole file, then one for each
/// input of the padding step, then one for each list of records to pull.
pub fn page(all: &[Specimen], inputs: &[Input]) -> String {
    let mut page = String::from(HEAD);
    for one in all {
        let (number, record, column) = one.verdict;
        let name = one.file_name();
        let why = one.why;
        page.push_str(&format!(
            "| `{name}` | {number} | {record} | {column} | {why} |\n"
        ));
    }
    page.push_str(INPUTS_HEAD);
    for one in inputs {
        page.push_str(&one.row());
    }
    page.push_str(PULLS_HEAD);
    for one in &PULLS {
        page.push_str(&one.row());
    }
    page
}

const HEAD: &str = "\
# The files tried

Each is a whole B-file. The verdict is that of the rule paper and the requests after it, found by hand; `rust/tests/paper/files_tried.rs` holds this table against the plain implementation, and the program prints the verdicts of the proved calls in the same order. The fault is the first in the rule paper's order, and rewrite answers it. Form answers it where it is one of 2 to 10, and accepts every other file, with its counts; references answers it where it is 0, 11 or 12, and to every other file 14, record 0, column 0. Most are changes of one small file of 13 records: job code, *10*, *12*, *25*, two *27*, two *70*, two *72*, *80*, *86*, job code. Those about accuracies are changes of the same with a second station: behind its *86* come an *80* and *86* (records 13 and 14), two *91* (15 and 16), a *92* (17), a *93* (18) and the job code (19).

Fault 1 is tried on an accepted and on a refused one of these, with a table of 11,999 words and with an output of one byte less than the file. Fault 2 would take a file of 8 MB.

| file | fault | record | column | what is in it, and why |
|---|---|---|---|---|
";

const INPUTS_HEAD: &str = "
## The inputs padded

Each is an input of the padding step, most of them the work of an editor that strips blanks or ends lines with CR LF. The answer is the request's, and what form and references say of the padded lines (references with record 0 and column 0 each time) the rule paper's and the later request's, all found by hand; the same test holds this table against the plain implementation, and the program prints them in the same order. The output lent has 2,754 bytes, room for 34 lines.

Refusal 1 is tried on `padding_trimmed_cr_lf.bfile`, with an output of 2,672 bytes; 2,673 are enough for its 33 lines. Refusal 2 would take 100,000 lines.

| input | fault | record | column | lines | fault of form | record | column | fault of references | what is in it, and why |
|---|---|---|---|---|---|---|---|---|---|
";

const PULLS_HEAD: &str = "
## The records pulled

Each row is a list of record numbers, pulled from one of the whole files above. The fault number of each entry is the rule paper's for a record by itself, found by hand; the same test holds this table against the plain implementation, and the program prints the fault list, with the places behind the entries as they were, and the lines in the same order. A good record's line is its house style under 10 times its own number, any other's 80 blanks.

| file | records | bytes lent | places lent | fault | fault numbers | why |
|---|---|---|---|---|---|---|
";
