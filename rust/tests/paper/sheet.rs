//! The deposit sheet's exact text.

use crate::sample::*;
use shelf::generate;
use shelf::plain::sheet;

fn text(input: &[u8]) -> String {
    String::from_utf8(sheet(input)).unwrap()
}

#[test]
fn the_two_published_sheets() {
    assert_eq!(text(b""), "FILE\t0\t8\t1\t1\n");
    let one = format!("000010*A1*{}\n", " ".repeat(70));
    assert_eq!(text(one.as_bytes()), "FILE\t1\t8\t2\t1\n");
}

#[test]
fn the_samples_sheet() {
    assert_eq!(
        text(&file()),
        "FILE\t24\t0\t0\t0\n\
         KIND\tAA\t2\n\
         KIND\t10\t1\n\
         KIND\t11\t1\n\
         KIND\t12\t1\n\
         KIND\t25\t2\n\
         KIND\t26\t1\n\
         KIND\t27\t5\n\
         KIND\t70\t2\n\
         KIND\t72\t2\n\
         KIND\t80\t2\n\
         KIND\t86\t2\n\
         KIND\t91\t1\n\
         KIND\t92\t1\n\
         KIND\t93\t1\n"
    );
}

#[test]
fn a_refused_sheet_has_one_line_and_counts_whole_blocks() {
    let file = file();
    assert_eq!(text(&file[..80]), "FILE\t0\t3\t1\t81\n");
    assert_eq!(text(&file[..81 * 5 + 3]), "FILE\t5\t3\t6\t4\n");
    assert_eq!(text(&with(&file, 5, 33, "  9")), "FILE\t24\t12\t5\t33\n");
}

#[test]
fn the_sheet_takes_800_records_and_not_a_byte_more() {
    let full = generate::accepted(4, 800);
    assert_eq!(full.len(), 64_800);
    let sheet = text(&full);
    assert!(sheet.starts_with("FILE\t800\t0\t0\t0\nKIND\tAA\t2\n"));
    assert_eq!(sheet.lines().count(), 15);
    let more = [&full[..], b" "].concat();
    assert_eq!(text(&more), "FILE\t0\t1\t0\t0\n");
    assert_eq!(text(&full[..64_799]), "FILE\t799\t3\t800\t81\n");
}
