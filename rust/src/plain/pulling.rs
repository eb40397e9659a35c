//! The pull list: records asked for by their numbers, each in house style.

use super::records::{dress, read, start_of};
use super::{Fault, COLUMNS, LINE};

/// Puts a line into `out` and a fault number into `faults` for each entry of a
/// list of record numbers, in its order. An entry is judged as read judges it:
/// neither the other entries nor the rest of the file have a say in it.
pub fn pull(file: &[u8], records: &[u32], out: &mut [u8], faults: &mut [u32]) -> Fault {
    // Whole lines are counted, since 81 bytes an entry could be more than a
    // length can say.
    let lines = out.len() / LINE;
    if lines < records.len() || faults.len() < records.len() {
        return Fault::TOO_SHORT;
    }
    let places = out.chunks_exact_mut(LINE).zip(faults);
    for (&record, (place, number)) in records.iter().zip(places) {
        *number = put_entry(place, file, u64::from(record));
    }
    Fault::ACCEPTED
}

/// Puts the line of one entry into its place. Gives its fault number, 0 for a
/// good record.
fn put_entry(place: &mut [u8], file: &[u8], record: u64) -> u32 {
    match read(file, record) {
        Ok(reading) => {
            let line = &file[start_of(record)..][..COLUMNS];
            dress(place, line, reading.kind, 10 * record);
            0
        }
        Err(fault) => {
            place.fill(b' ');
            place[COLUMNS] = b'\n';
            fault.number
        }
    }
}
