//! The ledger of a move: a row for each file, and totals.

use crate::arguments::Order;
use crate::deposit::{Padding, Refusal};
use crate::disk::{self, Folder, Id, Opened};
use crate::drafts;
use crate::load::STANDARD;
use crate::names;
use crate::trouble::Trouble;
use crate::walk::Found;
use shelf::library::KINDS;
use shelf::sha256::Digest;
use std::ffi::{OsStr, OsString};
use std::fs::{File, TryLockError};
use std::io::{self, ErrorKind, Write};
use std::path::{Path, PathBuf};

/// What became of a file.
#[derive(Clone, Debug)]
pub enum Outcome {
    Moved,
    /// The same bytes stood there from an earlier run.
    ThereAlready,
    /// Accepted in a run that only judges.
    NotWritten,
    Refused(Refusal),
    NotJudged(&'static str),
    Failed(String),
    NotReached,
}

/// The outcomes that have a total of their own.
#[derive(Clone, Copy, Debug, PartialEq, Eq)]
pub enum Group {
    Accepted,
    Refused,
    NotJudged,
    Failed,
}

pub const GROUPS: [(Group, &str); 4] = [
    (Group::Accepted, "accepted"),
    (Group::Refused, "refused"),
    (Group::NotJudged, "not judged"),
    (Group::Failed, "failed"),
];

impl Outcome {
    pub fn group(&self) -> Group {
        match self {
            Outcome::Moved | Outcome::ThereAlready | Outcome::NotWritten => Group::Accepted,
            Outcome::Refused(_) => Group::Refused,
            Outcome::NotJudged(_) => Group::NotJudged,
            Outcome::Failed(_) | Outcome::NotReached => Group::Failed,
        }
    }

    pub fn in_words(&self) -> String {
        match self {
            Outcome::Moved => "accepted".to_string(),
            Outcome::ThereAlready => "accepted, there already".to_string(),
            Outcome::NotWritten => "accepted, not written: a dry run".to_string(),
            Outcome::Refused(_) => "refused".to_string(),
            Outcome::NotJudged(why) => format!("not judged: {why}"),
            Outcome::Failed(why) => format!("failed: {why}"),
            Outcome::NotReached => "failed: not reached".to_string(),
        }
    }

    /// Number, record and column; a file without a verdict has none.
    fn fault(&self) -> [String; 3] {
        match (self.group(), self) {
            (Group::Accepted, _) => [0; 3].map(|word: u32| word.to_string()),
            (_, Outcome::Refused(Refusal { fault, .. })) => {
                [fault.number, fault.record, fault.column].map(|word| word.to_string())
            }
            _ => ["-"; 3].map(str::to_string),
        }
    }
}

#[derive(Clone, Debug)]
pub struct Row {
    /// Its path from the old folder on.
    pub name: PathBuf,
    pub records_in: u64,
    pub records_out: u64,
    pub counts: [u32; 14],
    pub outcome: Outcome,
    pub digest_in: Option<Digest>,
    pub digest_out: Option<Digest>,
    pub padding: Option<Padding>,
}

impl Row {
    /// A row of a file of which nothing came out.
    pub fn new(name: &Path, outcome: Outcome) -> Row {
        Row {
            name: name.to_path_buf(),
            records_in: 0,
            records_out: 0,
            counts: [0; 14],
            outcome,
            digest_in: None,
            digest_out: None,
            padding: None,
        }
    }

    /// The row of a file that was moved and is lost again.
    pub fn failed(&self, why: String) -> Row {
        Row {
            records_in: self.records_in,
            digest_in: self.digest_in,
            padding: self.padding,
            ..Row::new(&self.name, Outcome::Failed(why))
        }
    }

    fn columns(&self) -> Vec<String> {
        let digest = |digest: Option<Digest>| digest.map_or("-".to_string(), |it| it.to_string());
        let padding = self.padding.map_or("-", Padding::in_words);
        [names::shown(&self.name), self.records_in.to_string()]
            .into_iter()
            .chain([self.records_out.to_string()])
            .chain(self.counts.map(|count| count.to_string()))
            .chain(self.outcome.fault())
            .chain([self.outcome.in_words()])
            .chain([self.digest_in, self.digest_out].map(digest))
            .chain([padding.to_string()])
            .collect()
    }
}

/// The sums over some rows.
#[derive(Clone, Copy, Debug, Default, PartialEq, Eq)]
pub struct Total {
    pub files: u64,
    pub records_in: u64,
    pub records_out: u64,
    counts: [u64; 14],
}

/// The rows so far.
#[derive(Default)]
pub struct Rows(pub Vec<Row>);

impl Rows {
    pub fn total(&self, group: Group) -> Total {
        let mut total = Total::default();
        for row in self.0.iter().filter(|row| row.outcome.group() == group) {
            total.files += 1;
            total.records_in += row.records_in;
            total.records_out += row.records_out;
            for (sum, count) in total.counts.iter_mut().zip(row.counts) {
                *sum += u64::from(count);
            }
        }
        total
    }

    /// The files that stand below the new folder.
    pub fn moved(&self) -> impl Iterator<Item = &Row> {
        let moved = |row: &&Row| matches!(row.outcome, Outcome::Moved | Outcome::ThereAlready);
        self.0.iter().filter(moved)
    }

    /// Whether so many files were named, and every moved one has as many
    /// records below the new folder as below the old.
    pub fn balances(&self, files: usize) -> bool {
        self.0.len() == files && self.moved().all(|row| row.records_in == row.records_out)
    }
}

/// A ledger on its way: each row is there as soon as it is known.
pub struct Ledger<'a> {
    to: To<'a>,
    /// In messages.
    path: PathBuf,
    pad: bool,
}

enum To<'a> {
    Output(&'a mut dyn Write),
    File(Unfinished),
}

impl<'a> Ledger<'a> {
    /// The ledger on standard output.
    pub fn on(out: &'a mut dyn Write, pad: bool) -> Ledger<'a> {
        let path = PathBuf::from("standard output");
        let to = To::Output(out);
        Ledger { to, path, pad }
    }

    /// Reserves the ledger's place, which is not below the old folder: the
    /// ledger is no deposit.
    pub fn at(order: &Order, old: &Found) -> Result<Ledger<'a>, Trouble> {
        let path = order.ledger.clone();
        let to = To::File(Unfinished::reserve(&path, order.replace, old)?);
        let pad = order.pad;
        Ok(Ledger { to, path, pad })
    }

    /// The place that was reserved, if it is on a disk.
    pub fn reserved(&self) -> Option<&Unfinished> {
        match &self.to {
            To::Output(_) => None,
            To::File(unfinished) => Some(unfinished),
        }
    }

    pub fn titles(&mut self) -> Result<(), Trouble> {
        self.write(&titles(self.pad))?;
        // From now on the file has something to say, whatever comes.
        if let To::File(unfinished) = &mut self.to {
            unfinished.stays = true;
        }
        Ok(())
    }

    pub fn add(&mut self, row: &Row) -> Result<(), Trouble> {
        self.write(&line_of(row.columns(), self.pad))
    }

    /// Writes the totals and gives the ledger its name. The totals are the
    /// last lines, one for each group.
    pub fn close(mut self, rows: &Rows, replace: bool) -> Result<(), Trouble> {
        for (group, name) in GROUPS {
            let total = rows.total(group);
            let columns: Vec<String> = [format!("TOTAL {name}"), total.records_in.to_string()]
                .into_iter()
                .chain([total.records_out.to_string()])
                .chain(total.counts.map(|count| count.to_string()))
                .chain(["-"; 3].map(str::to_string))
                .chain([format!("{} files", total.files)])
                .chain(["-"; 3].map(str::to_string))
                .collect();
            self.write(&line_of(columns, self.pad))?;
        }
        match self.to {
            To::Output(out) => out.flush().map_err(Trouble::standard_output),
            To::File(unfinished) => unfinished.place(replace).map_err(|error| {
                if error.kind() == ErrorKind::AlreadyExists {
                    return drafts::is_there(&self.path);
                }
                Trouble::on(&self.path)(error)
            }),
        }
    }

    fn write(&mut self, line: &str) -> Result<(), Trouble> {
        match &mut self.to {
            To::Output(out) => out.write_all(line.as_bytes()),
            To::File(unfinished) => unfinished.add(line.as_bytes()),
        }
        .map_err(Trouble::on(&self.path))
    }
}

/// A ledger that has not got its name yet: the file `NAME.unfinished` beside
/// it, held as long as the run goes.
pub struct Unfinished {
    pub folder: Folder,
    pub name: OsString,
    passing: OsString,
    file: File,
    /// Up to here the file holds whole rows.
    end: u64,
    /// Whether it stays if it never gets its name.
    stays: bool,
}

/// What the passing name of a ledger ends in.
const UNFINISHED: &str = ".unfinished";

/// Its rights, as far as the user grants them.
const RIGHTS: u32 = 0o666;

impl Unfinished {
    fn reserve(path: &Path, replace: bool, old: &Found) -> Result<Unfinished, Trouble> {
        let on = || Trouble::on(path);
        let Some(name) = path.file_name() else {
            return Err(Trouble::about(path, "it is a folder, not a file"));
        };
        let (folder, _) = disk::apart(path);
        let folder = Folder::open(folder).map_err(on())?;
        let above = folder.and_above().map_err(on())?;
        if above.iter().any(|id| old.has(*id)) {
            let what = "the ledger must not stand below the old folder";
            return Err(Trouble::about(path, what));
        }
        drafts::is_free(&folder, name, replace)?;
        let passing = passing(name);
        let file = begun(&folder, &passing, path)?;
        Ok(Unfinished {
            folder,
            name: name.to_os_string(),
            passing,
            file,
            end: 0,
            stays: false,
        })
    }

    /// Whether a name in the ledger's folder, on this disk, is the ledger's or
    /// its passing one: not every disk tells capitals apart.
    pub fn is_named(&self, name: &OsStr) -> io::Result<bool> {
        let own = Id::of(&self.file.metadata()?);
        Ok(self.folder.is_at(name, own)? || self.folder.is_at(&passing(name), own)?)
    }

    fn add(&mut self, bytes: &[u8]) -> io::Result<()> {
        match self.file.write_all(bytes) {
            Ok(()) => {
                self.end += bytes.len() as u64;
                Ok(())
            }
            Err(error) => {
                // No half of a row stays.
                let _ = self.file.set_len(self.end);
                Err(error)
            }
        }
    }

    fn place(self, replace: bool) -> io::Result<()> {
        self.file.sync_all()?;
        self.folder.give_name(&self.passing, &self.name, replace)?;
        self.folder.flush()
    }
}

impl Drop for Unfinished {
    fn drop(&mut self) {
        if !self.stays {
            let _ = self.folder.remove(&self.passing);
        }
    }
}

/// A new file under the passing name, held.
fn begun(folder: &Folder, passing: &OsStr, path: &Path) -> Result<File, Trouble> {
    loop {
        match folder.create(passing, RIGHTS) {
            Ok(file) => {
                // Another run may have taken it for one that was left.
                return match is_held(folder, passing, &file) {
                    Ok(true) => Ok(file),
                    Ok(false) => Err(busy(path)),
                    Err(error) => Err(Trouble::on(path)(error)),
                };
            }
            Err(error) if error.kind() == ErrorKind::AlreadyExists => {
                keep_aside(folder, passing, path)?;
            }
            Err(error) => return Err(Trouble::on(path)(error)),
        }
    }
}

fn passing(name: &OsStr) -> OsString {
    let mut passing = name.to_os_string();
    passing.push(UNFINISHED);
    passing
}

fn is_held(folder: &Folder, name: &OsStr, file: &File) -> io::Result<bool> {
    match file.try_lock() {
        Err(TryLockError::WouldBlock) => Ok(false),
        // Some disks have no locks.
        _ => folder.is_at(name, Id::of(&file.metadata()?)),
    }
}

fn busy(path: &Path) -> Trouble {
    Trouble::about(path, "another run is writing it")
}

/// Gives the ledger of a run that was cut short another name, so that no row
/// of it is lost. One that a run still holds is that run's, and what is no
/// ledger is not touched.
fn keep_aside(folder: &Folder, passing: &OsStr, path: &Path) -> Result<(), Trouble> {
    let shown = folder.named(passing);
    let on = || Trouble::on(&shown);
    let (mut left, known) = match folder.file(passing).map_err(on())? {
        Opened::File(left, known) => (left, known),
        Opened::Other(what) => return Err(Trouble::about(&shown, what)),
    };
    if !is_held(folder, passing, &left).map_err(on())? {
        return Err(busy(path));
    }
    let [plain, padded] = [false, true].map(titles);
    let begins = disk::read_up_to(&mut left, &known, padded.len()).map_err(on())?;
    let is_ledger = [plain, padded]
        .iter()
        .any(|titles| begins.starts_with(titles.as_bytes()));
    // A run may have been cut short before it wrote the titles.
    if !begins.is_empty() && !is_ledger {
        let what = "there is one already, and it is no ledger";
        return Err(Trouble::about(&shown, what));
    }
    for number in 1.. {
        let mut aside = passing.to_os_string();
        aside.push(format!(".{number}"));
        match folder.give_name(passing, &aside, false) {
            Err(error) if error.kind() == ErrorKind::AlreadyExists => continue,
            given => given.map_err(on())?,
        }
        let what = format!(
            "left by a run that was cut short, kept as {}",
            names::shown(&folder.named(&aside))
        );
        Trouble::about(&shown, what).tell();
        break;
    }
    Ok(())
}

/// The first line of every ledger.
fn titles(pad: bool) -> String {
    let head = ["file", "records in", "records out"];
    let tail = ["fault", "record", "column", "outcome"];
    let last = ["sha-256 in", "sha-256 out", "padding"];
    let titles = head.into_iter().chain(KINDS).chain(tail).chain(last);
    line_of(titles.map(str::to_string).collect(), pad)
}

/// The last column, what padding did, is there only where it was asked for.
fn line_of(mut columns: Vec<String>, pad: bool) -> String {
    if !pad {
        columns.pop();
    }
    format!("{}\n", columns.join("\t"))
}

/// Whether the words of the command name standard output.
pub fn is_standard(path: &Path) -> bool {
    path == Path::new(STANDARD)
}
