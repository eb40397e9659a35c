//! `shelf rewrite IN OUT` and `shelf pad IN OUT`: one file made of another,
//! whole or not at all.

use crate::arguments::Making;
use crate::deposit::{self, Deposit, Refusal};
use crate::disk::{self, Folder};
use crate::house::Accepted;
use crate::load::STANDARD;
use crate::status::Status;
use crate::trouble::Trouble;
use crate::{drafts, interrupt, names, report};
use std::io::{self, Write};
use std::path::Path;

pub fn rewrite(order: &Making, out: &mut dyn Write) -> Result<Status, Trouble> {
    let deposit = begin(order)?;
    let (verdict, house) = match deposit.ask(deposit::rewritten) {
        Ok(rewritten) => rewritten,
        Err(refusal) => return refused(order, &deposit, &refusal, out),
    };
    let accepted = Accepted {
        source: &deposit.bytes,
        verdict: &verdict,
        house: &house,
    };
    let what = format!("accepted, {} records", deposit.records);
    put(order, &house, &what, out, |written| {
        accepted.compare(written)
    })
}

pub fn pad(order: &Making, out: &mut dyn Write) -> Result<Status, Trouble> {
    let deposit = begin(order)?;
    // Beyond the padding nothing is asked of the file.
    if let Err(refusal) = deposit.ask(|_| Ok(())) {
        return refused(order, &deposit, &refusal, out);
    }
    let padded = &deposit.bytes;
    let what = format!("padded, {} lines", deposit.records);
    put(order, padded, &what, out, |written| {
        match written == padded {
            true => Ok(()),
            false => Err("is not the padded file".to_string()),
        }
    })
}

fn begin(order: &Making) -> Result<Deposit, Trouble> {
    let deposit = Deposit::load(&order.from, order.pad)?;
    // From here a file takes a moment: asked to stop, finish it and leave no
    // draft.
    interrupt::heed();
    Ok(deposit)
}

fn refused(
    order: &Making,
    deposit: &Deposit,
    refusal: &Refusal,
    out: &mut dyn Write,
) -> Result<Status, Trouble> {
    let mut error_output = io::stderr();
    // What is asked for on standard output is a file, or nothing.
    let out = match order.to == Path::new(STANDARD) {
        true => &mut error_output,
        false => out,
    };
    report::refused_file(out, &order.from, deposit, refusal, report::ACCEPTED)
        .map_err(Trouble::standard_output)?;
    Ok(Status::Refused)
}

/// Puts what was made under its name, once it passes `compare`, and says so.
fn put<T>(
    order: &Making,
    made: &[u8],
    what: &str,
    out: &mut dyn Write,
    compare: impl Fn(&[u8]) -> Result<T, String>,
) -> Result<Status, Trouble> {
    if order.to == Path::new(STANDARD) {
        compare(made).map_err(|what| Trouble::new(format!("what was made {what}")))?;
        out.write_all(made).map_err(Trouble::standard_output)?;
        return Ok(Status::Accepted);
    }
    place(order, made, compare)?;
    if !order.quiet {
        let [from, to] = [&order.from, &order.to].map(|path| names::shown(path));
        writeln!(out, "{from}: {what} written to {to}").map_err(Trouble::standard_output)?;
    }
    Ok(Status::Accepted)
}

fn place<T>(
    order: &Making,
    made: &[u8],
    compare: impl Fn(&[u8]) -> Result<T, String>,
) -> Result<(), Trouble> {
    let on = || Trouble::on(&order.to);
    let Some(name) = order.to.file_name() else {
        let what = "not written over: it is no regular file";
        return Err(Trouble::about(&order.to, what));
    };
    let (folder, _) = disk::apart(&order.to);
    let folder = Folder::open(folder).map_err(on())?;
    drafts::is_free(&folder, name, order.replace)?;
    let written = drafts::write(&folder, name, made, order.replace, None, compare)?;
    written.ok_or_else(|| drafts::is_there(&order.to))?;
    folder.flush().map_err(on())
}
