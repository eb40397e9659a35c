//! The help pages, from the table of the commands.

use crate::arguments::{Choice, Verb, ALWAYS, VERBS};
use shelf::library::IS_STANDIN;
use std::io::{self, Write};

/// What is said of the library behind this build.
const LIBRARY: &str = env!("SHELF_LIBRARY");

const ENDS: &str = "
- as a file is standard input, or output. The words behind -- are names, also
with a dash in front.

Exit status: 0 all accepted, 1 something was refused or not judged, 2 wrong
words or a file that could not be read or written.
";

/// All commands, a line each.
pub fn overview(out: &mut dyn Write) -> io::Result<()> {
    for verb in &VERBS {
        let line = format!("shelf {}", usage(verb));
        writeln!(out, "{line:<34}{}", verb.what)?;
    }
    writeln!(out)?;
    choices(out, ALWAYS.iter())?;
    out.write_all(ENDS.as_bytes())?;
    if IS_STANDIN {
        writeln!(
            out,
            "\nThis build goes by a stand-in for the proved library."
        )?;
    }
    Ok(())
}

/// One command.
pub fn page(out: &mut dyn Write, verb: &Verb) -> io::Result<()> {
    writeln!(out, "shelf {}\n", usage(verb))?;
    writeln!(out, "{}", verb.what)?;
    out.write_all(verb.more.as_bytes())?;
    writeln!(out)?;
    choices(out, verb.choices.iter().chain(&ALWAYS))?;
    out.write_all(ENDS.as_bytes())
}

pub fn version(out: &mut dyn Write) -> io::Result<()> {
    writeln!(out, "shelf {}", env!("CARGO_PKG_VERSION"))?;
    writeln!(out, "library: {LIBRARY}")
}

/// The words of a command; what has to be said stands without brackets.
fn usage(verb: &Verb) -> String {
    let ledger = match verb.name {
        "move" => " --ledger FILE",
        _ => "",
    };
    format!("{} {}{ledger}", verb.name, verb.operands)
}

fn choices<'a>(
    out: &mut dyn Write,
    mut choices: impl Iterator<Item = &'a Choice>,
) -> io::Result<()> {
    choices.try_for_each(|choice| {
        let name = match choice.value {
            Some(value) => format!("{} {value}", choice.name),
            None => choice.name.to_string(),
        };
        writeln!(out, "{name:<20}{}", choice.what)
    })
}
