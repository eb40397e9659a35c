//! The words of the command. One table has every command and every option;
//! parsing and help go by it, and tests hold the manual page and the shells'
//! completions against it.

use crate::names;
use crate::trouble::Trouble;
use shelf::library::LAST_RECORD;
use std::ffi::{OsStr, OsString};
use std::ops::RangeInclusive;
use std::os::unix::ffi::OsStrExt;
use std::path::{Path, PathBuf};

/// An option of a command.
pub struct Choice {
    pub name: &'static str,
    /// What follows it, if something does.
    pub value: Option<&'static str>,
    pub what: &'static str,
}

/// A command.
pub struct Verb {
    pub name: &'static str,
    pub operands: &'static str,
    /// In one line of the overview, and in full.
    pub what: &'static str,
    pub more: &'static str,
    pub choices: &'static [Choice],
}

const fn flag(name: &'static str, what: &'static str) -> Choice {
    let value = None;
    Choice { name, value, what }
}

const fn with_file(name: &'static str, what: &'static str) -> Choice {
    let value = Some("FILE");
    Choice { name, value, what }
}

/// The greatest number that a station may have.
const LAST_STATION: u32 = 9_999;

const REPLACE: Choice = flag("--replace", "write over a file that is there");
const QUIET: Choice = flag("--quiet", "say nothing if all went well");
const PAD: Choice = flag(
    "--pad",
    "fill lines with blanks to 80 columns first; CR LF ends a line too",
);

pub const VERBS: [Verb; 8] = [
    Verb {
        name: "check",
        operands: "FILE..",
        what: "judge files: accepted, or the first fault",
        more: "Of a folder every file below it is judged; links are not followed. With --form\n\
               an evening's file can be tested before the station numbers are agreed: whether\n\
               the numbers that it names are defined, and stations only once, is not judged,\n\
               and that is said of each file whose form is accepted.\n",
        choices: &[
            with_file(
                "--files-from",
                "judge the files named in FILE, a line each, too",
            ),
            flag(
                "-0",
                "in that FILE a zero byte ends each name, not a line feed",
            ),
            flag("--form", "judge form and order only, not the references"),
            PAD,
            flag("--json", "one JSON object for each file, a line each"),
            flag("--quiet", "say nothing of accepted files"),
        ],
    },
    Verb {
        name: "sheet",
        operands: "FILE",
        what: "the deposit sheet, of up to 64,800 bytes",
        more: "",
        choices: &[PAD],
    },
    Verb {
        name: "show",
        operands: "FILE RECORD",
        what: "one record's values",
        more: "RECORD is its number, from 1 on.\n",
        choices: &[PAD],
    },
    Verb {
        name: "pull",
        operands: "FILE RECORD..",
        what: "records by their numbers, in house style",
        more: "RECORD is a number from 1 on, or a range such as 40-60. Each record is judged by\n\
               itself and comes out as a line of 80 columns, in the order in which they are\n\
               asked for, its sequence number 10 times its own number. For one that cannot be\n\
               read a blank line stands in its place; it is named on the error output, and the\n\
               exit status is 1. With --station the numbers are stations', of an accepted file:\n\
               of each its *80* and its *86* are pulled.\n",
        choices: &[
            flag(
                "--station",
                "the *80* and the *86* of the stations of these numbers",
            ),
            PAD,
        ],
    },
    Verb {
        name: "pad",
        operands: "IN OUT",
        what: "a file with its lines filled to 80 columns",
        more: "A line ends with LF or CR LF and has at most 80 bytes; it is filled with\n\
               blanks and ended with LF. The file is not judged beyond that. A file that\n\
               cannot be padded is not written, and OUT stays as it was.\n",
        choices: &[REPLACE, QUIET],
    },
    Verb {
        name: "rewrite",
        operands: "IN OUT",
        what: "an accepted file in house style",
        more: "A refused file is not written, and OUT stays as it was.\n",
        choices: &[PAD, REPLACE, QUIET],
    },
    Verb {
        name: "move",
        operands: "OLD NEW",
        what: "every accepted file below OLD, in house style, below NEW",
        more: "Nothing below OLD is changed. The ledger names every file, with what became\n\
               of it and the SHA-256 of what was read and of what was written. At the end\n\
               every moved file is looked at once more. A run that was stopped can be run\n\
               again. With --pad the ledger's last column says whether padding changed the\n\
               file.\n",
        choices: &[
            with_file("--ledger", "where the ledger is written; it has to be said"),
            PAD,
            REPLACE,
            flag("--dry-run", "judge every file, and write the ledger only"),
            flag("--quiet", "say nothing but what was not moved"),
        ],
    },
    Verb {
        name: "help",
        operands: "[COMMAND]",
        what: "this page, or a command's own",
        more: "",
        choices: &[],
    },
];

/// What every command takes.
pub const ALWAYS: [Choice; 2] = [
    flag("--help", "help on the command"),
    flag("--version", "which version this is, and over which library"),
];

pub enum Command {
    Check(Check),
    Sheet(Single),
    Show(Single, u32),
    Pull(Pull),
    Pad(Making),
    Rewrite(Making),
    Move(Order),
    Help(Option<&'static Verb>),
    Version,
}

/// What is to be judged.
pub struct Check {
    pub files: Vec<PathBuf>,
    pub files_from: Option<PathBuf>,
    pub zero_ends: bool,
    /// Form and order only.
    pub form: bool,
    pub pad: bool,
    pub json: bool,
    pub quiet: bool,
}

/// One file, of which something is asked.
pub struct Single {
    pub file: PathBuf,
    pub pad: bool,
}

/// Which records of a file are to be pulled.
pub struct Pull {
    pub file: PathBuf,
    /// Their numbers, in the order in which they were asked for.
    pub numbers: Vec<Numbers>,
    /// The numbers are stations', not records'.
    pub station: bool,
    pub pad: bool,
}

/// A number, or all from one to another.
pub type Numbers = RangeInclusive<u32>;

/// Which file is to be made of which.
pub struct Making {
    pub from: PathBuf,
    pub to: PathBuf,
    pub pad: bool,
    pub replace: bool,
    pub quiet: bool,
}

/// What is to be moved where.
pub struct Order {
    pub old: PathBuf,
    pub new: PathBuf,
    pub ledger: PathBuf,
    pub pad: bool,
    pub replace: bool,
    pub dry_run: bool,
    pub quiet: bool,
}

/// The words apart: names, and what was asked for by a dash.
#[derive(Default)]
struct Words {
    names: Vec<PathBuf>,
    given: Vec<(&'static str, PathBuf)>,
}

impl Words {
    fn has(&self, name: &str) -> bool {
        self.given.iter().any(|(given, _)| *given == name)
    }

    fn value(&self, name: &str) -> Option<PathBuf> {
        let mut values = self.given.iter().filter(|(given, _)| *given == name);
        values.next().map(|(_, value)| value.clone())
    }
}

pub fn parse(mut words: impl Iterator<Item = OsString>) -> Result<Command, Trouble> {
    let Some(word) = words.next() else {
        return Err(Trouble::usage("no command was given"));
    };
    let verb = match word.to_str() {
        Some("-h" | "--help") => verb_named(OsStr::new("help"))?,
        Some("--version") => return Ok(Command::Version),
        _ => verb_named(&word)?,
    };
    let words = apart(verb, words)?;
    if words.has("--version") {
        return Ok(Command::Version);
    }
    if words.has("--help") {
        return Ok(Command::Help(Some(verb)));
    }
    command(verb, words)
}

fn command(verb: &'static Verb, mut words: Words) -> Result<Command, Trouble> {
    let pad = words.has(PAD.name);
    let names = std::mem::take(&mut words.names);
    match verb.name {
        "check" => check(names, &words),
        "sheet" => {
            let [file] = exactly(names, "sheet needs one file")?;
            Ok(Command::Sheet(Single { file, pad }))
        }
        "show" => {
            let [file, record] = exactly(names, "show needs a file and a record number")?;
            let record = record_number(&record)?;
            Ok(Command::Show(Single { file, pad }, record))
        }
        "pull" => pull(names, &words),
        "pad" => {
            let files = exactly(names, "pad needs two files")?;
            Ok(Command::Pad(making(files, true, &words)))
        }
        "rewrite" => {
            let files = exactly(names, "rewrite needs two files")?;
            Ok(Command::Rewrite(making(files, pad, &words)))
        }
        "move" => order(names, &words),
        _ => match &names[..] {
            [] => Ok(Command::Help(None)),
            [name] => Ok(Command::Help(Some(verb_named(name.as_os_str())?))),
            _ => Err(Trouble::usage("help takes one command")),
        },
    }
}

fn pull(mut names: Vec<PathBuf>, words: &Words) -> Result<Command, Trouble> {
    let station = words.has("--station");
    let (what, last) = match station {
        true => ("station", LAST_STATION),
        false => ("record", LAST_RECORD as u32),
    };
    if names.len() < 2 {
        let what = format!("pull needs a file and at least one {what} number");
        return Err(Trouble::usage(what));
    }
    let numbers = names.split_off(1);
    let numbers = numbers.iter().map(|word| numbers_in(word, what, last));
    Ok(Command::Pull(Pull {
        numbers: numbers.collect::<Result<_, Trouble>>()?,
        file: names.remove(0),
        station,
        pad: words.has(PAD.name),
    }))
}

fn making([from, to]: [PathBuf; 2], pad: bool, words: &Words) -> Making {
    Making {
        from,
        to,
        pad,
        replace: words.has(REPLACE.name),
        quiet: words.has(QUIET.name),
    }
}

fn order(folders: Vec<PathBuf>, words: &Words) -> Result<Command, Trouble> {
    let [old, new] = exactly(folders, "move needs an old and a new folder")?;
    let ledger = words.value("--ledger");
    let ledger = ledger.ok_or_else(|| Trouble::usage("move needs --ledger FILE"))?;
    Ok(Command::Move(Order {
        old,
        new,
        ledger,
        pad: words.has(PAD.name),
        replace: words.has(REPLACE.name),
        dry_run: words.has("--dry-run"),
        quiet: words.has(QUIET.name),
    }))
}

fn check(files: Vec<PathBuf>, words: &Words) -> Result<Command, Trouble> {
    let files_from = words.value("--files-from");
    if files.is_empty() && files_from.is_none() {
        return Err(Trouble::usage("check needs at least one file"));
    }
    let asked = ["-0", "--form", PAD.name, "--json", QUIET.name];
    let [zero_ends, form, pad, json, quiet] = asked.map(|name| words.has(name));
    if zero_ends && files_from.is_none() {
        return Err(Trouble::usage("-0 goes with --files-from"));
    }
    Ok(Command::Check(Check {
        files,
        files_from,
        zero_ends,
        form,
        pad,
        json,
        quiet,
    }))
}

fn verb_named(word: &OsStr) -> Result<&'static Verb, Trouble> {
    let verb = VERBS.iter().find(|verb| word == verb.name);
    verb.ok_or_else(|| {
        let word = names::shown(Path::new(word));
        Trouble::usage(format!("there is no command {word}"))
    })
}

/// An option as it is written, and what stands behind its `=`.
fn split(word: &OsStr) -> (&OsStr, Option<&OsStr>) {
    let bytes = word.as_bytes();
    match bytes.iter().position(|byte| *byte == b'=') {
        Some(at) if bytes.starts_with(b"--") => (
            OsStr::from_bytes(&bytes[..at]),
            Some(OsStr::from_bytes(&bytes[at + 1..])),
        ),
        _ => (word, None),
    }
}

fn apart(verb: &'static Verb, mut words: impl Iterator<Item = OsString>) -> Result<Words, Trouble> {
    let mut found = Words::default();
    while let Some(word) = words.next() {
        match word.as_bytes() {
            b"--" => found.names.extend(words.by_ref().map(PathBuf::from)),
            [b'-', _, ..] => {
                let (name, value) = split(&word);
                let choice = choice_named(verb, name)?;
                let value = match (choice.value, value) {
                    (None, None) => PathBuf::new(),
                    (None, Some(_)) => {
                        let what = format!("{} takes no value", choice.name);
                        return Err(Trouble::usage(what));
                    }
                    (Some(_), Some(value)) if !value.is_empty() => value.into(),
                    (Some(_), None) => words.next().map(PathBuf::from).unwrap_or_default(),
                    _ => PathBuf::new(),
                };
                if choice.value.is_some() && value.as_os_str().is_empty() {
                    return Err(Trouble::usage(format!("{} needs a file", choice.name)));
                }
                if choice.value.is_some() && found.has(choice.name) {
                    let what = format!("{} was given twice", choice.name);
                    return Err(Trouble::usage(what));
                }
                found.given.push((choice.name, value));
            }
            _ => found.names.push(word.into()),
        }
    }
    Ok(found)
}

fn choice_named(verb: &'static Verb, word: &OsStr) -> Result<&'static Choice, Trouble> {
    let word = if word == "-h" {
        OsStr::new("--help")
    } else {
        word
    };
    let is_named = |choice: &&Choice| word == choice.name;
    if let Some(choice) = verb.choices.iter().chain(&ALWAYS).find(is_named) {
        return Ok(choice);
    }
    let mut others = VERBS.iter().flat_map(|verb| verb.choices);
    let shown = names::shown(Path::new(word));
    Err(Trouble::usage(match others.find(is_named) {
        Some(_) => format!("{} takes no {shown}", verb.name),
        None => format!("there is no option {shown}"),
    }))
}

fn exactly<const N: usize>(names: Vec<PathBuf>, what: &str) -> Result<[PathBuf; N], Trouble> {
    names.try_into().map_err(|_| Trouble::usage(what))
}

fn record_number(word: &Path) -> Result<u32, Trouble> {
    let number = word.to_str().and_then(number);
    number.ok_or_else(|| {
        let word = names::shown(word);
        Trouble::usage(format!("{word} is no record number"))
    })
}

/// Digits alone. A number above 32 bits is above every file's last record too,
/// but it cannot be asked for.
fn number(digits: &str) -> Option<u32> {
    let plain = !digits.is_empty() && digits.bytes().all(|byte| byte.is_ascii_digit());
    digits.parse().ok().filter(|_| plain)
}

/// A number, or two of them with a dash between. A range ends at the last
/// number that there can be: what is behind it is nowhere, and would be a blank
/// line each.
fn numbers_in(word: &Path, what: &str, last: u32) -> Result<Numbers, Trouble> {
    let text = word.to_str().unwrap_or("");
    let range = match text.split_once('-') {
        Some((first, end)) => number(first).zip(number(end)),
        None => number(text).map(|one| (one, one)),
    };
    let Some((first, end)) = range else {
        let word = names::shown(word);
        return Err(Trouble::usage(format!("{word} is no {what} number")));
    };
    if first > end || (first < end && end > last) {
        let what = format!("{first}-{end} is no range of {what} numbers, which go up to {last}");
        return Err(Trouble::usage(what));
    }
    Ok(first..=end)
}
