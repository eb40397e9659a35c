//! The whole file: what may follow what, references, rewriting.

use super::fields;
use super::layout::{
    ANTENNA, COMMENT, FACTOR, HEIGHTS, INSTRUMENT, JOB, LOCAL, MEASUREMENT, NETWORK, OCCUPATION,
    POINT, PROJECT, TITLE, TITLE_MORE,
};
use super::records::{self, At, Compare};
use super::{
    Checked, Fault, FIRST_ANTENNA_WORD, FIRST_INSTRUMENT_WORD, LAST_RECORD, LINE, TABLE_WORDS,
};

/// What the last record was, as far as the next one depends on it.
#[derive(Clone, Copy, PartialEq, Eq)]
enum Place {
    Nothing,
    FirstJobCode,
    Title,
    TitleMore,
    Project,
    /// A *25* or *26*.
    Occupation,
    FirstMeasurement,
    SecondMeasurement,
    ThirdMeasurement,
    Instrument,
    Antenna,
    Point,
    Heights,
    Network,
    Local,
    Factor,
    LastJobCode,
}

/// The place after a record of this kind, if it may come. That a last job
/// code is the first record's is for the caller to see to.
fn next(place: Place, kind: usize) -> Option<Place> {
    match (place, kind) {
        (Place::Nothing, JOB) => Some(Place::FirstJobCode),
        (Place::FirstJobCode, TITLE) => Some(Place::Title),
        (Place::Title, TITLE_MORE) => Some(Place::TitleMore),
        (Place::Title | Place::TitleMore, PROJECT) => Some(Place::Project),
        (Place::Project, OCCUPATION) => Some(Place::Occupation),
        (Place::Occupation, COMMENT) => Some(Place::Occupation),
        (Place::Occupation, MEASUREMENT) => Some(Place::FirstMeasurement),
        (Place::FirstMeasurement, MEASUREMENT) => Some(Place::SecondMeasurement),
        (Place::SecondMeasurement, MEASUREMENT) => Some(Place::ThirdMeasurement),
        (Place::SecondMeasurement | Place::ThirdMeasurement, OCCUPATION) => Some(Place::Occupation),
        (Place::SecondMeasurement | Place::ThirdMeasurement, INSTRUMENT) => Some(Place::Instrument),
        (Place::Instrument, INSTRUMENT) => Some(Place::Instrument),
        (Place::Instrument | Place::Antenna, ANTENNA) => Some(Place::Antenna),
        (Place::Antenna | Place::Heights, POINT) => Some(Place::Point),
        (Place::Point, HEIGHTS) => Some(Place::Heights),
        (Place::Heights | Place::Network, NETWORK) => Some(Place::Network),
        (Place::Heights | Place::Network | Place::Local, LOCAL) => Some(Place::Local),
        (Place::Heights | Place::Network | Place::Local, FACTOR) => Some(Place::Factor),
        (Place::Heights | Place::Network | Place::Local | Place::Factor, JOB) => {
            Some(Place::LastJobCode)
        }
        _ => None,
    }
}

/// Judges form and order: faults 2 to 10. Whether what a record names is
/// defined has no say here.
pub fn form(file: &[u8]) -> Checked {
    walk(file, |_, _| ()).map_or_else(Checked::refused, Checked::accepted)
}

/// Judges references: faults 11 and 12, and 14 where the form is not good. On
/// acceptance the table says in which record each station, instrument and
/// antenna is defined, an instrument in the first of its *70*.
pub fn references(file: &[u8], table: &mut [u32]) -> Fault {
    match judge(file, table) {
        Ok(_) => Fault::ACCEPTED,
        Err(fault) if fault.is_of_form() => Fault::FORM_NOT_GOOD,
        Err(fault) => fault,
    }
}

/// Judges form and then references, in the paper's order of faults, for those
/// who name the first of them all. Gives the counts.
pub(super) fn judge(file: &[u8], table: &mut [u32]) -> Result<[u32; 14], Fault> {
    let Some(table) = table.get_mut(..TABLE_WORDS) else {
        return Err(Fault::TOO_SHORT);
    };
    table.fill(0);
    let judged = walk(file, |word, record| define(table, word, record)).and_then(|counts| {
        look_up(file, table)?;
        Ok(counts)
    });
    if judged.is_err() {
        table.fill(0);
    }
    judged
}

/// Judges every record in turn and then the end of the file: faults 2 to 10.
/// Hands over the word of each number that a record defines, and the record.
fn walk(file: &[u8], mut define: impl FnMut(usize, u64)) -> Result<[u32; 14], Fault> {
    let mut counts = [0; 14];
    let mut place = Place::Nothing;
    let mut group_station = 0;
    let mut point_station = 0;
    let mut last_instrument = 0;
    let mut last_antenna = 0;
    let mut values = Vec::new();
    let mut record = 1;
    let mut rest = file;
    while !rest.is_empty() {
        let fault = |(number, column)| Fault {
            number,
            record,
            column: column as u64,
        };
        if record > LAST_RECORD {
            return Err(fault((2, 1)));
        }
        let line = records::line(rest).map_err(fault)?;
        let kind = records::kind(line).map_err(fault)?;
        place = next(place, kind).ok_or_else(|| fault((7, 7)))?;
        if place == Place::LastJobCode && line[6..10] != file[6..10] {
            return Err(fault((7, 7)));
        }
        let compare = match kind {
            MEASUREMENT => Compare::Same(group_station),
            HEIGHTS => Compare::Same(point_station),
            // More than one *70* of an instrument stand together.
            INSTRUMENT => Compare::NotBelow(last_instrument),
            ANTENNA => Compare::Above(last_antenna),
            _ => Compare::Nothing,
        };
        records::judge(line, kind, compare, &mut values).map_err(fault)?;
        match kind {
            OCCUPATION => group_station = values[0],
            INSTRUMENT => {
                last_instrument = values[0];
                define(FIRST_INSTRUMENT_WORD + last_instrument as usize, record);
            }
            ANTENNA => {
                last_antenna = values[0];
                define(FIRST_ANTENNA_WORD + last_antenna as usize, record);
            }
            POINT => {
                point_station = values[0];
                define(point_station as usize, record);
            }
            _ => (),
        }
        counts[kind] += 1;
        record += 1;
        rest = &rest[LINE..];
    }
    if place == Place::LastJobCode {
        Ok(counts)
    } else {
        Err(Fault {
            number: 8,
            record,
            column: 1,
        })
    }
}

/// Puts a record into the word of the number it defines, unless the number
/// has a record. The first of an instrument's *70* is the one to be found; a
/// second *80* of a station is fault 11 later and must not hide the first.
fn define(table: &mut [u32], word: usize, record: u64) {
    let word = &mut table[word];
    if *word == 0 {
        *word = record as u32;
    }
}

/// The numbers that a record of this kind names, from the left: first column,
/// width, and the word of the table that number 0 would have.
fn named(kind: usize) -> &'static [(usize, usize, usize)] {
    match kind {
        OCCUPATION => &[
            (11, 4, 0),
            (28, 3, FIRST_INSTRUMENT_WORD),
            (33, 3, FIRST_ANTENNA_WORD),
        ],
        NETWORK => &[(11, 4, 0)],
        LOCAL => &[(11, 4, 0), (17, 4, 0)],
        _ => &[],
    }
}

/// Faults 11 and 12, once the file has no other: a *25* may name a station
/// whose *80* comes later, so the whole file has to be read first.
fn look_up(file: &[u8], table: &[u32]) -> Result<(), Fault> {
    for (record, line) in (1..).zip(file.chunks_exact(LINE)) {
        look_up_named(line, record, table).map_err(|(number, column)| Fault {
            number,
            record: u64::from(record),
            column: column as u64,
        })?;
    }
    Ok(())
}

fn look_up_named(line: &[u8], record: u32, table: &[u32]) -> Result<(), At> {
    let kind = records::kind(line)?;
    let word =
        |first, width, start: usize| match fields::number(records::columns(line, first, width)) {
            Ok(Some(number)) => table[start + number as usize],
            _ => 0,
        };
    if kind == POINT && word(11, 4, 0) != record {
        return Err((11, 11));
    }
    let mut named = named(kind).iter();
    match named.find(|&&(first, width, start)| word(first, width, start) == 0) {
        Some(&(first, ..)) => Err((12, first)),
        None => Ok(()),
    }
}

/// Judges form and references and puts the file into `out` in house style.
pub fn rewrite(file: &[u8], table: &mut [u32], out: &mut [u8]) -> Checked {
    if out.len() < file.len() {
        return Checked::refused(Fault::TOO_SHORT);
    }
    let judged = judge(file, table);
    if judged.is_ok() {
        let lines = file.chunks_exact(LINE).zip(out.chunks_exact_mut(LINE));
        for (record, (line, place)) in (1..).zip(lines) {
            let line = &line[..LINE - 1];
            if let Ok(kind) = records::kind(line) {
                records::dress(place, line, kind, 10 * record);
            }
        }
    }
    judged.map_or_else(Checked::refused, Checked::accepted)
}
