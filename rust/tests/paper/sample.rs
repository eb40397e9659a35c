//! The file made by hand, and what the plain shelf says of a file.

use shelf::plain::{form, references, rewrite, Checked, Fault};
pub use shelf::sample::*;

/// Columns of a record.
pub fn columns(file: &[u8], record: usize, first: usize, width: usize) -> String {
    let start = 81 * (record - 1) + first - 1;
    String::from_utf8(file[start..start + width].to_vec()).unwrap()
}

/// What form and references say of a file of which this fault is the first.
pub fn parts((number, record, column): Found) -> [Found; 2] {
    match number {
        2..=10 => [(number, record, column), (14, 0, 0)],
        _ => [ACCEPTED, (number, record, column)],
    }
}

/// The first fault of a file, which rewrite gives and of which form and
/// references must say their parts. On the way every lent word and byte of a
/// refusal is looked at.
pub fn verdict(file: &[u8]) -> Found {
    let formed = form(file);
    let mut table = vec![77; 12_002];
    let referred = references(file, &mut table);
    let mut other = vec![78; 12_002];
    let mut out = vec![b'#'; file.len() + 2];
    let rewritten = rewrite(file, &mut other, &mut out);
    let found = found(rewritten.fault);
    assert_eq!([formed.fault, referred].map(self::found), parts(found));
    assert_eq!(table[12_000..], [77, 77]);
    assert_eq!(other[12_000..], [78, 78]);
    assert_eq!(table[..12_000], other[..12_000]);
    assert_eq!(out[file.len()..], *b"##");
    let records = if formed.fault == Fault::ACCEPTED {
        file.len() / 81
    } else {
        0
    };
    assert_eq!(formed.counts.iter().sum::<u32>(), records as u32);
    if found == ACCEPTED {
        assert_eq!(rewritten.counts, formed.counts);
    } else {
        assert_eq!(rewritten.counts, [0; 14]);
        assert!(table[..12_000].iter().all(|&word| word == 0));
        assert!(out.iter().all(|&byte| byte == b'#'));
    }
    found
}

/// Fault number, record and column.
pub type Found = (u32, u64, u64);

pub fn found(fault: Fault) -> Found {
    let Fault {
        number,
        record,
        column,
    } = fault;
    (number, record, column)
}

pub const ACCEPTED: Found = (0, 0, 0);

/// The accepted file in house style.
pub fn house(file: &[u8]) -> Vec<u8> {
    let mut out = vec![0; file.len()];
    let checked: Checked = rewrite(file, &mut vec![0; 12_000], &mut out);
    assert_eq!(checked.fault, Fault::ACCEPTED);
    out
}
