//! The published examples, in the list that `crates/published` runs.

use shelf::published::{folder, list, page, Example};
use std::fs;

fn examples() -> Vec<Example> {
    list().unwrap().lines().filter_map(Example::of).collect()
}

#[test]
fn every_example_comes_out_as_published() {
    for example in examples() {
        assert_eq!(example.answer().unwrap(), example.should, "{example:?}");
    }
}

#[test]
fn every_column_to_try_is_in_the_list() {
    let examples = examples();
    for number in 1..=12 {
        let name = format!("P{number}");
        assert!(examples.iter().any(|one| one.name == name), "{name}");
    }
}

#[test]
fn every_call_is_made() {
    let examples = examples();
    for call in [
        "read",
        "field",
        "write",
        "form",
        "references",
        "rewrite",
        "list",
    ] {
        assert!(examples.iter().any(|one| one.call == call), "{call}");
    }
}

/// Each fault that references can answer, but 1: the list lends it a table.
#[test]
fn every_answer_of_references_is_in_the_list() {
    let examples = examples();
    for should in ["accepted", "fault 11", "fault 12", "fault 14"] {
        let mut named = examples.iter().filter(|one| one.call == "references");
        assert!(named.any(|one| one.should.starts_with(should)), "{should}");
    }
}

/// The columns given are inside their record.
#[test]
fn no_example_goes_past_its_record() {
    for example in examples() {
        let end = example.column + example.given.len();
        assert!(end <= 81, "{example:?}");
    }
}

#[test]
fn the_stored_output_is_what_is_printed() {
    let stored = fs::read_to_string(folder().join("stdout")).unwrap();
    assert_eq!(stored, page().unwrap());
}
