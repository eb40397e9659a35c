//! `shelf check --json`: one object for each file, a line each.

use crate::check::Extent;
use crate::deposit::{Deposit, Padding, Refusal};
use crate::{names, report};
use shelf::library::{Verdict, KINDS};
use std::fmt::Write as _;
use std::io::{self, Write};
use std::path::Path;

/// A file that was judged: name, number, record and column, records, the
/// counts of an accepted one, the fault in words, and what there is to say of
/// references and of padding.
pub fn verdict(
    out: &mut dyn Write,
    path: &Path,
    deposit: &Deposit,
    extent: &Extent,
    judged: &Result<Verdict, Refusal>,
) -> io::Result<()> {
    let name = quoted(&names::shown(path));
    let (fault, counts, text, padding) = match judged {
        Ok(verdict) => {
            let text = extent.accepted.to_string();
            (verdict.fault, verdict.counts, text, deposit.padding)
        }
        Err(refusal) => {
            let text = report::explained(&deposit.bytes, refusal);
            (refusal.fault, [0; 14], text, refusal.padding)
        }
    };
    let counts: Vec<String> = KINDS
        .iter()
        .zip(counts)
        .map(|(code, count)| format!("{}:{count}", quoted(code)))
        .collect();
    let references = member("references", extent.references);
    let padding = member("padding", padding.map(Padding::in_words));
    writeln!(
        out,
        "{{\"name\":{name},\"number\":{},\"record\":{},\"column\":{},\"records\":{},\
         \"counts\":{{{}}},\"text\":{}{references}{padding}}}",
        fault.number,
        fault.record,
        fault.column,
        deposit.records,
        counts.join(","),
        quoted(&text)
    )
}

/// A member behind others, if there is something to say.
fn member(name: &str, text: Option<&str>) -> String {
    text.map_or(String::new(), |text| {
        format!(",{}:{}", quoted(name), quoted(text))
    })
}

/// A file that could not be judged, and why.
pub fn not_judged(out: &mut dyn Write, path: &Path, why: &str) -> io::Result<()> {
    let [name, why] = [&names::shown(path), why].map(quoted);
    writeln!(out, "{{\"name\":{name},\"error\":{why}}}")
}

/// A JSON string (RFC 8259).
fn quoted(text: &str) -> String {
    let mut quoted = String::from("\"");
    for character in text.chars() {
        match character {
            '"' | '\\' => {
                quoted.push('\\');
                quoted.push(character);
            }
            '\0'..='\x1f' => {
                // Writing to a string cannot fail.
                let _ = write!(quoted, "\\u{:04x}", u32::from(character));
            }
            _ => quoted.push(character),
        }
    }
    quoted.push('"');
    quoted
}

#[cfg(test)]
mod tests {
    use super::quoted;

    #[test]
    fn strings() {
        assert_eq!(quoted("a\"b\\c\n\u{1}é"), "\"a\\\"b\\\\c\\u000a\\u0001é\"");
    }
}
