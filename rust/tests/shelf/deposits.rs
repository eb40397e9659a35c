//! The deposits of `examples/`, and what editors make of them.

use std::fs;

/// What is said where padding would have helped.
pub const ADVICE: &str = "with --pad, which fills its lines to 80 columns, it would be accepted\n";

/// A file of `examples/`.
pub fn stored(name: &str) -> Vec<u8> {
    let folder = concat!(env!("CARGO_MANIFEST_DIR"), "/../examples");
    fs::read(format!("{folder}/{name}")).unwrap()
}

/// A deposit of 34 records, in house style.
pub fn example() -> Vec<u8> {
    stored("tuburan-bay.bfile")
}

/// The same with a height left out and its code kept: refused.
pub fn height_lost() -> Vec<u8> {
    stored("tuburan-bay-height-lost.bfile")
}

/// A deposit of 48 records. 25 and 26 are the *70* of one receiver; 38 to 47
/// are accuracies as an adjustment leaves them, with blanks in front and
/// without sequence numbers.
pub fn network() -> Vec<u8> {
    stored("bantilan-ridge.bfile")
}

fn with_each_line(file: &[u8], change: impl Fn(&str) -> String) -> Vec<u8> {
    let text = std::str::from_utf8(file).unwrap();
    text.lines().map(change).collect::<String>().into_bytes()
}

/// As an editor leaves it that strips trailing blanks.
pub fn trimmed(file: &[u8]) -> Vec<u8> {
    with_each_line(file, |line| format!("{}\n", line.trim_end_matches(' ')))
}

/// As an editor leaves it that ends lines with CR LF.
pub fn with_cr_lf(file: &[u8]) -> Vec<u8> {
    with_each_line(file, |line| format!("{line}\r\n"))
}

/// The trimmed example with a line 7 of 83 bytes.
pub fn too_long() -> Vec<u8> {
    let file = String::from_utf8(trimmed(&example())).unwrap();
    let (line, blanks) = ("01543\n000080", " ".repeat(20));
    let long = format!("01543{blanks}and\n000080");
    assert_eq!(file.matches(line).count(), 1);
    file.replace(line, &long).into_bytes()
}

/// Each form of a file, and whether padding it is all that it needs.
pub fn forms() -> Vec<(Vec<u8>, bool)> {
    let (file, lost) = (example(), height_lost());
    let text = |file: Vec<u8>| String::from_utf8(file).unwrap();
    let short = text(trimmed(&file));
    let unended = &file[..file.len() - 1];
    vec![
        (trimmed(&file), true),
        (with_cr_lf(&file), true),
        (with_cr_lf(&trimmed(&file)), true),
        (unended.to_vec(), true),
        (lost.clone(), false),
        (trimmed(&lost), false),
        (with_cr_lf(&lost), false),
        (too_long(), false),
        (with_cr_lf(&too_long()), false),
        (Vec::new(), false),
        (short.replace("000060", "\n000060").into_bytes(), false),
        (short.replace("quay", "quay\r").into_bytes(), false),
        ([unended, b"\r"].concat(), false),
    ]
}
