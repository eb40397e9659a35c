//! A file as it is judged: as it stands or, if that was asked for, padded
//! first. Every command asks the library through here.

use crate::load::{load, Loaded};
use crate::trouble::Trouble;
use shelf::library::{self, Fault, Verdict, LINE};
use std::path::Path;

/// What padding did to a file, or would do.
#[derive(Clone, Copy, Debug, PartialEq, Eq)]
pub enum Padding {
    Changed,
    Unchanged,
    Refused(Fault),
    /// It was not asked for, and what was refused would be accepted with it.
    WouldHelp,
}

impl Padding {
    pub fn in_words(self) -> &'static str {
        match self {
            Padding::Changed => "changed",
            Padding::Unchanged => "unchanged",
            Padding::Refused(_) => "refused",
            Padding::WouldHelp => "would help",
        }
    }
}

/// A refusal, by the padding or by what was asked of the file.
#[derive(Clone, Copy, Debug)]
pub struct Refusal {
    /// Where the padding refused, its record is a line of the file as it
    /// stands.
    pub fault: Fault,
    pub padding: Option<Padding>,
}

impl Refusal {
    pub fn is_by_padding(&self) -> bool {
        matches!(self.padding, Some(Padding::Refused(_)))
    }
}

pub struct Deposit {
    /// What is judged. Where the padding refused, the file as it stands.
    pub bytes: Vec<u8>,
    /// Whole records of what is judged: none where the padding refused.
    pub records: u64,
    /// Nothing if it was not asked for.
    pub padding: Option<Padding>,
}

impl Deposit {
    pub fn load(path: &Path, pad: bool) -> Result<Deposit, Trouble> {
        Ok(Deposit::of(load(path)?, pad))
    }

    pub fn of(loaded: Loaded, pad: bool) -> Deposit {
        if !pad {
            return Deposit {
                records: loaded.records(),
                bytes: loaded.bytes,
                padding: None,
            };
        }
        let (padding, padded) = library::pad(&loaded.bytes);
        let (bytes, padding) = match padding.is_good() {
            true if padded == loaded.bytes => (padded, Padding::Unchanged),
            true => (padded, Padding::Changed),
            false => (loaded.bytes, Padding::Refused(padding.fault)),
        };
        let records = match padding {
            Padding::Refused(_) => 0,
            _ => (bytes.len() / LINE) as u64,
        };
        let padding = Some(padding);
        Deposit {
            bytes,
            records,
            padding,
        }
    }

    /// Asks something of the file, unless the padding refused it.
    pub fn ask<T>(&self, call: impl Fn(&[u8]) -> Result<T, Fault>) -> Result<T, Refusal> {
        if let Some(Padding::Refused(fault)) = self.padding {
            let padding = self.padding;
            return Err(Refusal { fault, padding });
        }
        call(&self.bytes).map_err(|fault| {
            let padding = self.padding.or_else(|| {
                let (padding, padded) = library::pad(&self.bytes);
                let helps = padding.is_good() && call(&padded).is_ok();
                helps.then_some(Padding::WouldHelp)
            });
            Refusal { fault, padding }
        })
    }
}

/// The verdict on an accepted file.
pub fn judged(file: &[u8]) -> Result<Verdict, Fault> {
    accepted(library::judge(file))
}

/// The verdict on a file whose form is good.
pub fn formed(file: &[u8]) -> Result<Verdict, Fault> {
    accepted(library::form(file))
}

fn accepted(verdict: Verdict) -> Result<Verdict, Fault> {
    match verdict.is_accepted() {
        true => Ok(verdict),
        false => Err(verdict.fault),
    }
}

/// The verdict on an accepted file, and its house style.
pub fn rewritten(file: &[u8]) -> Result<(Verdict, Vec<u8>), Fault> {
    let (verdict, house) = library::rewrite(file);
    Ok((accepted(verdict)?, house))
}
