//! `shelf`: judges, shows, pulls, pads, rewrites and moves deposited B-files,
//! by the proved library.
//!
//! Exit status: 0 all accepted, 1 something was refused, 2 the words of the
//! command were wrong or a file could not be read or written.

mod arguments;
mod check;
mod could;
mod deposit;
mod disk;
mod drafts;
mod fields;
mod help;
mod house;
mod interrupt;
mod json;
mod ledger;
mod load;
mod making;
mod moving;
mod names;
mod output;
#[cfg(test)]
mod pages;
mod places;
mod progress;
mod pull;
mod report;
mod sheet;
mod show;
mod status;
mod trouble;
mod walk;

use arguments::Command;
use output::Output;
use status::Status;
use std::io::Write;
use std::process::ExitCode;
use trouble::Trouble;

fn main() -> ExitCode {
    let done = arguments::parse(std::env::args_os().skip(1)).and_then(|command| {
        let mut out = Output::open().map_err(Trouble::standard_output)?;
        let status = run(command, &mut out)?;
        out.flush().map_err(Trouble::standard_output)?;
        Ok(status)
    });
    let status = done.unwrap_or_else(|trouble| {
        trouble.tell();
        Status::Trouble
    });
    ExitCode::from(status as u8)
}

fn run(command: Command, out: &mut dyn Write) -> Result<Status, Trouble> {
    let done = match command {
        Command::Check(order) => return check::run(&order, out),
        Command::Sheet(file) => return sheet::run(&file, out),
        Command::Show(file, record) => return show::run(&file, record, out),
        Command::Pull(order) => return pull::run(&order, out),
        Command::Pad(order) => return making::pad(&order, out),
        Command::Rewrite(order) => return making::rewrite(&order, out),
        Command::Move(order) => return moving::run(&order, out),
        Command::Help(None) => help::overview(out),
        Command::Help(Some(verb)) => help::page(out, verb),
        Command::Version => help::version(out),
    };
    done.map_err(Trouble::standard_output)?;
    Ok(Status::Accepted)
}
