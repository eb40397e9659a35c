//! `shelf pull FILE RECORD..`: records by their numbers, in house style. Their
//! lines are all that standard output gets; what is to be said goes to the
//! error output.

use crate::arguments::{Numbers, Pull};
use crate::deposit::{Deposit, Refusal};
use crate::status::Status;
use crate::trouble::Trouble;
use crate::{names, report};
use shelf::library::{self, Fault};
use std::io::{self, Write};
use std::path::Path;

/// So many are pulled at once: ranges may ask for more than memory holds.
const AT_ONCE: usize = 4_096;

/// The words of the table from 10,000 on are not stations'.
const STATION_WORDS: usize = 10_000;

/// The fault of a record that the file does not have.
const NO_SUCH_RECORD: u32 = 13;

pub fn run(order: &Pull, out: &mut dyn Write) -> Result<Status, Trouble> {
    let deposit = &Deposit::load(&order.file, order.pad)?;
    let path = &order.file;
    let desk = Desk { path, deposit };
    let asked = match order.station {
        true => deposit.ask(library::table).map(|table| {
            let stations = order.numbers.iter().cloned().flatten();
            desk.of_stations(stations, &table[..STATION_WORDS])
        }),
        false => deposit.ask(|_| Ok((order.numbers.clone(), Status::Accepted))),
    };
    match asked {
        Ok((records, status)) => Ok(desk.pull(&records, out)?.max(status)),
        Err(refusal) => {
            desk.refused(&refusal);
            desk.advise(&refusal, report::ACCEPTED);
            Ok(Status::Refused)
        }
    }
}

struct Desk<'a> {
    path: &'a Path,
    deposit: &'a Deposit,
}

impl Desk<'_> {
    /// The records of stations, found through the table: an *80*, and the *86*
    /// that follows it in every accepted file. Stations that have none are
    /// named.
    fn of_stations(
        &self,
        stations: impl Iterator<Item = u32>,
        table: &[u32],
    ) -> (Vec<Numbers>, Status) {
        let mut records = Vec::new();
        let mut undefined = Vec::new();
        for station in stations {
            match table.get(station as usize) {
                None | Some(0) => undefined.push(station),
                Some(&point) => records.push(point..=point + 1),
            }
        }
        for run in undefined.chunk_by(|one, next| is_next(*one, *next)) {
            let stations = spelled("station", run);
            self.say(&format!("{stations}: defined by no record of this file"));
        }
        (records, worst(&undefined))
    }

    /// Puts the lines of the records out, and names those that cannot be read.
    fn pull(&self, records: &[Numbers], out: &mut dyn Write) -> Result<Status, Trouble> {
        let mut unread = Vec::new();
        let mut left = records.iter().cloned().flatten();
        loop {
            let part: Vec<u32> = left.by_ref().take(AT_ONCE).collect();
            if part.is_empty() {
                break;
            }
            let (lines, faults) = library::pull(&self.deposit.bytes, &part);
            out.write_all(&lines).map_err(Trouble::standard_output)?;
            let entries = part.into_iter().zip(faults);
            unread.extend(entries.filter(|(_, fault)| *fault != 0));
        }
        if !unread.is_empty() {
            self.name(&unread);
            // Whether padding would help is asked only where it could.
            if let Err(refusal) = self.deposit.ask(|file| all_read(file, records)) {
                self.advise(&refusal, "all of them could be pulled");
            }
        }
        Ok(worst(&unread))
    }

    /// Each record with its fault, in the order in which they were asked for;
    /// neighbours that the file does not have in one line.
    fn name(&self, unread: &[(u32, u32)]) {
        let are_gone = |one: &(u32, u32), next: &(u32, u32)| {
            one.1 == NO_SUCH_RECORD && next.1 == NO_SUCH_RECORD && is_next(one.0, next.0)
        };
        for run in unread.chunk_by(are_gone) {
            let records: Vec<u32> = run.iter().map(|(record, _)| *record).collect();
            match library::read(&self.deposit.bytes, records[0]) {
                Err(fault) if fault.number != NO_SUCH_RECORD => self.refused(&Refusal {
                    fault,
                    padding: self.deposit.padding,
                }),
                _ => self.say(&format!(
                    "{}: fault {NO_SUCH_RECORD}, there is no such record; the file has {} whole records",
                    spelled("record", &records),
                    self.deposit.records
                )),
            }
        }
    }

    /// The lines are out, whether this can be written or not.
    fn refused(&self, refusal: &Refusal) {
        let _ = report::refused(&mut io::stderr(), self.path, self.deposit, refusal);
    }

    fn advise(&self, refusal: &Refusal, then: &str) {
        let _ = report::advise(&mut io::stderr(), refusal, then);
    }

    fn say(&self, what: &str) {
        let _ = writeln!(io::stderr(), "{}: {what}", names::shown(self.path));
    }
}

fn worst<T>(wrong: &[T]) -> Status {
    match wrong {
        [] => Status::Accepted,
        _ => Status::Refused,
    }
}

fn is_next(one: u32, next: u32) -> bool {
    one.checked_add(1) == Some(next)
}

/// "record 7" or "records 7-12".
fn spelled(what: &str, run: &[u32]) -> String {
    match run {
        [first, .., last] => format!("{what}s {first}-{last}"),
        _ => format!("{what} {}", run[0]),
    }
}

/// Whether every one of the records can be read, or the first fault.
fn all_read(file: &[u8], records: &[Numbers]) -> Result<(), Fault> {
    let mut records = records.iter().cloned().flatten();
    records.try_for_each(|record| library::read(file, record).map(|_| ()))
}
