//! The worked examples of the README: each deposit in `examples/` beside its
//! sheet.

use shelf::plain::sheet;
use std::fs;
use std::path::{Path, PathBuf};

fn deposits() -> Vec<PathBuf> {
    let folder = Path::new(env!("CARGO_MANIFEST_DIR")).join("../examples");
    let mut found: Vec<PathBuf> = fs::read_dir(folder)
        .unwrap()
        .map(|entry| entry.unwrap().path())
        .filter(|path| path.extension().is_some_and(|end| end == "bfile"))
        .collect();
    found.sort();
    found
}

#[test]
fn each_example_has_its_sheet() {
    let deposits = deposits();
    assert_eq!(deposits.len(), 3);
    for path in deposits {
        let printed = fs::read(path.with_extension("sheet")).unwrap();
        assert_eq!(sheet(&fs::read(&path).unwrap()), printed, "{path:?}");
    }
}

#[test]
fn two_examples_are_accepted_and_one_has_lost_a_height() {
    let first_lines: Vec<String> = deposits()
        .iter()
        .map(|path| String::from_utf8(sheet(&fs::read(path).unwrap())).unwrap())
        .map(|text| text.lines().next().unwrap().to_owned())
        .collect();
    let expected = [
        "FILE\t48\t0\t0\t0",
        "FILE\t34\t10\t30\t24",
        "FILE\t34\t0\t0\t0",
    ];
    assert_eq!(first_lines, expected);
}
