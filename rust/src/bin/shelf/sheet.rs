//! `shelf sheet FILE`: the deposit sheet, as the proved program prints it.

use crate::arguments::Single;
use crate::deposit::{self, Deposit, Refusal};
use crate::report;
use crate::status::Status;
use crate::trouble::Trouble;
use shelf::library::{Fault, Verdict, KINDS};
use std::io::{self, Write};
use std::path::Path;

/// The most bytes that the sheet is made of: 800 records.
const MOST: usize = 64_800;

/// The line of refusal 1.
const TOO_LARGE: Fault = Fault {
    number: 1,
    record: 0,
    column: 0,
};

pub fn run(order: &Single, out: &mut dyn Write) -> Result<Status, Trouble> {
    let deposit = Deposit::load(&order.file, order.pad)?;
    match deposit.ask(judged) {
        Ok(verdict) => {
            listed(out, &deposit, &verdict).map_err(Trouble::standard_output)?;
            Ok(Status::Accepted)
        }
        Err(refusal) => {
            let blocks = match refusal.fault {
                TOO_LARGE => 0,
                _ => deposit.records,
            };
            first_line(out, blocks, refusal.fault).map_err(Trouble::standard_output)?;
            tell(&order.file, &deposit, &refusal);
            Ok(Status::Refused)
        }
    }
}

fn judged(file: &[u8]) -> Result<Verdict, Fault> {
    if file.len() > MOST {
        return Err(TOO_LARGE);
    }
    deposit::judged(file)
}

fn listed(out: &mut dyn Write, deposit: &Deposit, verdict: &Verdict) -> io::Result<()> {
    first_line(out, deposit.records, verdict.fault)?;
    let counts = KINDS.iter().zip(verdict.counts);
    for (code, count) in counts {
        writeln!(out, "KIND\t{code}\t{count}")?;
    }
    Ok(())
}

fn first_line(out: &mut dyn Write, blocks: u64, fault: Fault) -> io::Result<()> {
    let Fault {
        number,
        record,
        column,
    } = fault;
    writeln!(out, "FILE\t{blocks}\t{number}\t{record}\t{column}")
}

/// The paper has no line for what there is to say of padding: it goes to the
/// error output.
fn tell(path: &Path, deposit: &Deposit, refusal: &Refusal) {
    if refusal.is_by_padding() {
        // The sheet has the verdict, whether this can be written or not.
        let _ = report::refused(&mut io::stderr(), path, deposit, refusal);
    }
    if let Some(advice) = report::advice(refusal, report::ACCEPTED) {
        Trouble::about(path, advice).tell();
    }
}
