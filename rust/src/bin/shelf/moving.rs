//! `shelf move OLD NEW --ledger FILE`: judges every file below OLD and writes
//! each accepted one in house style below NEW. Nothing below OLD is changed.

use crate::arguments::Order;
use crate::deposit::{self, Deposit};
use crate::disk::{self, Folder, Id, Kept, Opened};
use crate::house::Accepted;
use crate::ledger::{self, Ledger, Outcome, Row, Rows, Unfinished, GROUPS};
use crate::load;
use crate::places::Places;
use crate::progress::Progress;
use crate::status::Status;
use crate::trouble::Trouble;
use crate::walk::{self, Entry, Found, Sort};
use crate::{drafts, interrupt, names, report};
use shelf::library::Verdict;
use shelf::sha256::Digest;
use std::ffi::OsStr;
use std::io::{self, Write};
use std::path::{Path, PathBuf};

pub fn run(order: &Order, out: &mut dyn Write) -> Result<Status, Trouble> {
    let old = Folder::open(&order.old).map_err(Trouble::on(&order.old))?;
    let found = walk::below(&old)?;
    let mut places = Places::look(&order.new, &old, &found)?;
    if found.entries.is_empty() {
        let what = "nothing to move: there is no file below it";
        return Err(Trouble::about(&order.old, what));
    }
    interrupt::heed();
    let is_standard = ledger::is_standard(&order.ledger);
    let mut error_output = io::stderr();
    let (mut ledger, report): (Ledger, Option<&mut dyn Write>) = if is_standard {
        (Ledger::on(out, order.pad), None)
    } else {
        let ledger = Ledger::at(order, &found)?;
        (ledger, Some(out))
    };
    if let Some(reserved) = ledger.reserved() {
        is_apart(reserved, order, &found, &mut places)?;
    }
    ledger.titles()?;
    let mut mover = Mover {
        order,
        old,
        last: None,
        places,
    };
    let (rows, ledger_trouble) = mover.all(&found.entries, ledger);
    let report = report.unwrap_or(&mut error_output);
    if let Some(trouble) = ledger_trouble {
        trouble.tell();
        without_ledger(&rows, report).map_err(Trouble::standard_output)?;
        return Ok(Status::Trouble);
    }
    let told = tell(order, &rows, found.entries.len(), report);
    told.map_err(Trouble::standard_output)
}

/// The ledger takes no name that a moved file or folder will need.
fn is_apart(
    ledger: &Unfinished,
    order: &Order,
    found: &Found,
    places: &mut Places,
) -> Result<(), Trouble> {
    let on = || Trouble::on(&order.ledger);
    let own = ledger.folder.id().map_err(on())?;
    let files = found.entries.iter().map(|entry| &entry.name);
    for name in files.chain(found.folders.keys()) {
        let (folder, part) = disk::apart(name);
        // What cannot be opened there is that file's own trouble.
        let there = places.folder(folder).ok().flatten();
        let is_there = there.and_then(|folder| folder.id().ok()) == Some(own);
        if is_there && !part.is_empty() && ledger.is_named(part).map_err(on())? {
            let what = "the ledger would take the place of a file";
            return Err(Trouble::about(&order.ledger, what));
        }
    }
    Ok(())
}

struct Mover<'a> {
    order: &'a Order,
    old: Folder,
    /// The old folder that was opened last.
    last: Option<(PathBuf, Folder)>,
    places: Places<'a>,
}

impl Mover<'_> {
    /// Judges and moves all, looks at all that was moved once more, and
    /// closes the ledger. A ledger that cannot be written ends the run.
    fn all(&mut self, entries: &[Entry], mut ledger: Ledger) -> (Rows, Option<Trouble>) {
        self.tidy();
        let mut rows = Rows::default();
        let mut written = Ok(());
        let mut progress = Progress::of(entries.len(), self.order.quiet);
        for entry in entries {
            let row = match &written {
                Ok(()) if !interrupt::asked() => self.row(entry),
                _ => Row::new(&entry.name, Outcome::NotReached),
            };
            written = written.and_then(|()| ledger.add(&row));
            rows.0.push(row);
            progress.step();
        }
        progress.end();
        let finished = self.finish(&rows);
        let lost = self.lost(&mut rows);
        let closed = written
            .and_then(|()| lost.iter().try_for_each(|row| ledger.add(row)))
            .and(finished)
            .and_then(|()| ledger.close(&rows, self.order.replace));
        (rows, closed.err())
    }

    fn tidy(&mut self) {
        if self.order.dry_run {
            return;
        }
        for draft in self.places.tidy() {
            let what = "left by a run that was cut short, removed";
            Trouble::about(&draft, what).tell();
        }
    }

    /// Once the ledger says that a file is there, the disk has it.
    fn finish(&mut self, rows: &Rows) -> Result<(), Trouble> {
        if self.order.dry_run {
            return Ok(());
        }
        let moved: Vec<&Path> = rows.moved().map(|row| row.name.as_path()).collect();
        self.places.finish(&moved)
    }

    /// Looks at everything that was moved once more. What is not there as it
    /// was verified is lost, and its row says so from now on.
    fn lost(&mut self, rows: &mut Rows) -> Vec<Row> {
        self.places.begin_last_look();
        let mut lost = Vec::new();
        for row in &mut rows.0 {
            let (Outcome::Moved | Outcome::ThereAlready, Some(digest)) =
                (&row.outcome, row.digest_out)
            else {
                continue;
            };
            if let Err(trouble) = self.places.look_again(&row.name, digest) {
                *row = row.failed(format!("at the last look: {trouble}"));
                lost.push(row.clone());
            }
        }
        lost
    }

    /// Judges and moves one, and says what became of it.
    fn row(&mut self, entry: &Entry) -> Row {
        let outcome = match &entry.sort {
            Sort::Other(why) => Outcome::NotJudged(why),
            Sort::Shut(trouble) => Outcome::Failed(trouble.to_string()),
            Sort::File => match self.loaded(&entry.name) {
                Ok(Source::Loaded(deposit, digest, kept)) => {
                    let mut row = self.judged(&entry.name, &deposit, kept);
                    row.records_in = deposit.records;
                    row.digest_in = Some(digest);
                    row.padding = deposit.padding;
                    return row;
                }
                Ok(Source::Not(outcome)) => outcome,
                Err(trouble) => Outcome::Failed(trouble.to_string()),
            },
        };
        Row::new(&entry.name, outcome)
    }

    /// Opens a file below the old folder, step by step, and reads it. It may
    /// have become something else since it was found.
    fn loaded(&mut self, name: &Path) -> Result<Source, Trouble> {
        let path = self.order.old.join(name);
        let on = || Trouble::on(&path);
        let (folder, part) = disk::apart(name);
        if self.last.as_ref().is_none_or(|(last, _)| last != folder) {
            let opened = self.old.below(folder).map_err(on())?;
            self.last = Some((folder.to_path_buf(), opened));
        }
        let folder = self.last.as_ref().map_or(&self.old, |(_, folder)| folder);
        let (mut file, known) = match folder.file(part).map_err(on())? {
            Opened::File(file, known) => (file, known),
            Opened::Other(what) => return Ok(Source::Not(Outcome::NotJudged(what))),
        };
        let read = load::load_and_digest(&mut file, &known, interrupt::asked);
        Ok(match read.map_err(on())? {
            Some((loaded, digest)) => {
                let deposit = Deposit::of(loaded, self.order.pad);
                Source::Loaded(deposit, digest, Kept::of(&known))
            }
            None => Source::Not(Outcome::NotReached),
        })
    }

    fn judged(&mut self, name: &Path, deposit: &Deposit, kept: Kept) -> Row {
        let (verdict, house) = match deposit.ask(deposit::rewritten) {
            Ok(rewritten) => rewritten,
            Err(refusal) => return Row::new(name, Outcome::Refused(refusal)),
        };
        let accepted = Accepted {
            source: &deposit.bytes,
            verdict: &verdict,
            house: &house,
        };
        match self.written(name, &accepted, kept) {
            Ok((outcome, written)) => Row {
                counts: written.counts,
                records_out: match outcome {
                    Outcome::NotWritten => 0,
                    _ => written.counts.iter().copied().map(u64::from).sum(),
                },
                digest_out: Some(Digest::of(&house)),
                ..Row::new(name, outcome)
            },
            Err(trouble) => Row::new(name, Outcome::Failed(trouble.to_string())),
        }
    }

    /// Sees that the house style of an accepted file stands below the new
    /// folder. Gives the verdict on what stands there.
    fn written(
        &mut self,
        name: &Path,
        accepted: &Accepted,
        kept: Kept,
    ) -> Result<(Outcome, Verdict), Trouble> {
        let (folder, part) = disk::apart(name);
        let Order {
            replace, dry_run, ..
        } = *self.order;
        let target = match dry_run {
            false => Some(self.places.made(folder)?),
            true => self.places.folder(folder)?,
        };
        let Some(target) = target else {
            return Ok((Outcome::NotWritten, *accepted.verdict));
        };
        let shown = target.named(part);
        if let Some(there) = target.find(part).map_err(Trouble::on(&shown))? {
            self.places.is_free(Id::of(&there), name)?;
            if let Some(already) = self.there(name, &target, part, accepted)? {
                return Ok(already);
            }
            drafts::is_free(&target, part, replace)?;
        }
        if dry_run {
            return Ok((Outcome::NotWritten, *accepted.verdict));
        }
        match accepted.write(&target, part, replace, Some(kept))? {
            Some((written, id)) => {
                self.places.take(id, name)?;
                Ok((Outcome::Moved, written))
            }
            // Another run was first; if it moved the same file, all is well.
            None => {
                let already = self.there(name, &target, part, accepted)?;
                already.ok_or_else(|| drafts::is_there(&shown))
            }
        }
    }

    /// What stands under a name already, if it is the file's house style.
    fn there(
        &mut self,
        name: &Path,
        target: &Folder,
        part: &OsStr,
        accepted: &Accepted,
    ) -> Result<Option<(Outcome, Verdict)>, Trouble> {
        // A file that cannot be read is another one for all that is known.
        let Ok(Opened::File(mut file, known)) = target.file(part) else {
            return Ok(None);
        };
        let bytes = disk::read_all(&mut file, &known).unwrap_or_default();
        if bytes != accepted.house {
            return Ok(None);
        }
        let written = accepted
            .compare(&bytes)
            .map_err(|what| Trouble::about(&target.named(part), format!("what is there {what}")))?;
        self.places.take(Id::of(&known), name)?;
        Ok(Some((Outcome::ThereAlready, written)))
    }
}

/// A file below the old folder, at its turn.
enum Source {
    Loaded(Deposit, Digest, Kept),
    Not(Outcome),
}

/// Names what was not moved, gives the totals, and claims success only where
/// the rows bear it out.
fn tell(order: &Order, rows: &Rows, files: usize, out: &mut dyn Write) -> io::Result<Status> {
    for row in &rows.0 {
        not_moved(row, out)?;
    }
    let [accepted, refused, not_judged, failed] = GROUPS.map(|(group, _)| rows.total(group));
    let old = names::shown(&order.old);
    if !order.quiet {
        writeln!(
            out,
            "{files} files below {old}: {} accepted, {} refused, {} not judged, {} failed",
            accepted.files, refused.files, not_judged.files, failed.files
        )?;
    }
    let not_reached = |row: &&Row| matches!(row.outcome, Outcome::NotReached);
    let not_reached = rows.0.iter().filter(not_reached).count();
    if not_reached > 0 {
        let why = if interrupt::asked() {
            "interrupted: "
        } else {
            ""
        };
        let what = format!("{why}{not_reached} files were not reached: the ledger names them");
        Trouble::new(what).tell();
    }
    if failed.files > 0 || !rows.balances(files) {
        Trouble::new("not every file could be judged and moved: see the ledger").tell();
        return Ok(Status::Trouble);
    }
    if !order.quiet && order.dry_run {
        writeln!(out, "a dry run: nothing was written but the ledger")?;
    } else if !order.quiet {
        writeln!(
            out,
            "every accepted file moved: {} records in, {} records out",
            accepted.records_in, accepted.records_out
        )?;
    }
    if refused.files + not_judged.files > 0 {
        return Ok(Status::Refused);
    }
    Ok(Status::Accepted)
}

fn not_moved(row: &Row, out: &mut dyn Write) -> io::Result<()> {
    let name = names::shown(&row.name);
    match &row.outcome {
        Outcome::Moved | Outcome::ThereAlready | Outcome::NotWritten => Ok(()),
        // One line stands for all of them.
        Outcome::NotReached => Ok(()),
        Outcome::Refused(refusal) => {
            let [headline, meaning] = [report::headline(refusal), report::meaning(refusal)];
            writeln!(out, "{name}: {headline}: {meaning}")?;
            report::advise(out, refusal, report::ACCEPTED)
        }
        other => writeln!(out, "{name}: {}", other.in_words()),
    }
}

/// What was moved, and what was not, is said even where no ledger says it;
/// what was moved, on the error output too.
fn without_ledger(rows: &Rows, out: &mut dyn Write) -> io::Result<()> {
    let moved: Vec<String> = rows.moved().map(|row| names::shown(&row.name)).collect();
    let all = rows.0.len();
    let what = format!(
        "the ledger is not finished; {} of {all} files were moved",
        moved.len()
    );
    Trouble::new(&what).tell();
    for name in &moved {
        Trouble::new(format!("moved: {name}")).tell();
    }
    rows.0.iter().try_for_each(|row| not_moved(row, out))?;
    writeln!(out, "{what}")?;
    moved
        .iter()
        .try_for_each(|name| writeln!(out, "moved: {name}"))
}
