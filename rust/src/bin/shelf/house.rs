//! An accepted file written in house style, read back and compared before it
//! gets its name.

use crate::disk::{Folder, Id, Kept};
use crate::drafts;
use crate::fields::{self, Form};
use crate::trouble::Trouble;
use shelf::library::{self, Verdict, LINE};
use std::ffi::OsStr;

/// An accepted file: as it was judged, its verdict, and its house style.
pub struct Accepted<'a> {
    pub source: &'a [u8],
    pub verdict: &'a Verdict,
    pub house: &'a [u8],
}

impl Accepted<'_> {
    /// Writes the house style to `target`; it must mean what the file meant.
    /// Gives the verdict on what the disk gave back, and which file it is;
    /// nothing if another was there first.
    pub fn write(
        &self,
        folder: &Folder,
        target: &OsStr,
        replace: bool,
        kept: Option<Kept>,
    ) -> Result<Option<(Verdict, Id)>, Trouble> {
        drafts::write(folder, target, self.house, replace, kept, |written| {
            self.compare(written)
        })
    }

    /// Compares a file as written with what it was made from: counts, settled
    /// house style, and every record's meaning. Gives the verdict on what was
    /// written, or what is wrong with it.
    pub fn compare(&self, written: &[u8]) -> Result<Verdict, String> {
        let Accepted {
            source, verdict, ..
        } = self;
        if written.len() != source.len() {
            return Err(format!("has {} bytes, not {}", written.len(), source.len()));
        }
        let (again, settled) = library::rewrite(written);
        if again != **verdict {
            return Err("has other counts or is refused".to_string());
        }
        if settled != written {
            return Err("is not in house style".to_string());
        }
        for number in 1..=(source.len() / LINE) as u32 {
            if !same_meaning(source, written, number) {
                return Err(format!("means something else in record {number}"));
            }
        }
        Ok(again)
    }
}

/// The kind and every value from column 11 on; the sequence number has no
/// meaning but must be the house's.
fn same_meaning(source: &[u8], written: &[u8], number: u32) -> bool {
    let (Ok(before), Ok(after)) = (
        library::read(source, number),
        library::read(written, number),
    ) else {
        return false;
    };
    let texts = fields::fields(before.kind)
        .iter()
        .filter(|field| matches!(field.form, Form::Text(_)));
    let mut texts = texts.map(|field| field.first);
    before.kind == after.kind
        && before.values == after.values
        && after.sequence == Some(10 * i64::from(number))
        && texts.all(|column| {
            library::field(source, number, column) == library::field(written, number, column)
        })
}

#[cfg(test)]
mod tests {
    use super::Accepted;
    use shelf::library::{self, Verdict};
    use shelf::sample;

    fn compare(source: &[u8], verdict: &Verdict, written: &[u8]) -> Result<Verdict, String> {
        let house = &[];
        let accepted = Accepted {
            source,
            verdict,
            house,
        };
        accepted.compare(written)
    }

    /// The house style of the sample with some columns of a record replaced.
    fn verdict_on(record: usize, first: usize, text: &str) -> Result<Verdict, String> {
        let source = sample::file();
        let (verdict, house) = library::rewrite(&source);
        compare(
            &source,
            &verdict,
            &sample::with(&house, record, first, text),
        )
    }

    #[test]
    fn the_house_style_passes_and_every_change_of_it_is_seen() {
        let good = library::judge(&sample::file());
        assert_eq!(verdict_on(1, 1, "000010"), Ok(good));
        for (record, first, text) in [
            // A sequence number, a padded number, a height, an angle, a
            // code, a text, a job code; a correlation and the padding of a
            // deviation, a code of one column, a factor, a comment.
            (2, 1, "000021"),
            (5, 11, "  12"),
            (18, 17, "0012346"),
            (17, 45, "38531512346"),
            (4, 77, "MA"),
            (6, 80, "x"),
            (24, 11, "h"),
            (2, 11, "n"),
            (21, 41, "-012345679"),
            (21, 21, "       123"),
            (22, 67, "Y"),
            (23, 11, "00001001"),
            (23, 80, "x"),
        ] {
            assert!(verdict_on(record, first, text).is_err(), "{record} {first}");
        }
    }

    #[test]
    fn a_lost_record_is_seen() {
        let source = sample::file();
        let (verdict, house) = library::rewrite(&source);
        let mut short = house.clone();
        short.drain(81 * 20..81 * 21);
        assert!(compare(&source, &verdict, &short).is_err());
        assert!(compare(&source, &verdict, &source).is_err());
        assert!(compare(&source, &verdict, &house).is_ok());
        let mut other = verdict;
        other.counts[10] += 1;
        assert!(compare(&source, &other, &house).is_err());
    }
}
