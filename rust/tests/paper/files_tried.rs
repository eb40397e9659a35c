//! The files that the program of files is run on: the table beside them says
//! what the rule paper says of each, and here the plain implementation is
//! asked.

use crate::sample::{columns, found, house, parts, verdict, Found, ACCEPTED};
use shelf::files_tried::{self, folder};
use shelf::plain::{form, pad, pull, references, Fault, LINE, TABLE_WORDS};
use shelf::specimens::{inputs, page, specimens, PULLS};
use std::collections::BTreeSet;
use std::fs;

fn data(name: &str) -> Vec<u8> {
    fs::read(folder().join("data").join(name)).unwrap()
}

/// The cells of a table's rows, the file's name first. The page has three
/// tables, the whole files', the padding step's and the pulled records'.
fn table(number: usize) -> Vec<Vec<String>> {
    let page = String::from_utf8(data("README.md")).unwrap();
    let part = page.split("\n## ").nth(number).unwrap();
    let rows = part.lines().filter(|line| line.starts_with("| `"));
    rows.map(|row| {
        let cells = row.trim_matches('|').split('|');
        cells
            .map(|cell| cell.trim().trim_matches('`').to_string())
            .collect()
    })
    .collect()
}

/// The rows of the table of whole files: name, fault number, record, column.
fn rows() -> Vec<(String, Found)> {
    let row = |cells: Vec<String>| {
        let number = |cell: usize| cells[cell].parse().unwrap();
        let verdict = (number(1) as u32, number(2), number(3));
        (cells[0].clone(), verdict)
    };
    table(0).into_iter().map(row).collect()
}

#[test]
fn the_table_says_what_is_found() {
    let rows = rows();
    assert!(rows.len() > 80);
    for (name, expected) in rows {
        assert_eq!(verdict(&data(&name)), expected, "{name}");
    }
}

/// Form answers 2 to 10 and accepts the others; references answers 14 to those
/// that form refuses.
#[test]
fn the_table_says_what_each_call_finds() {
    let mut seen = BTreeSet::new();
    for (name, fault) in rows() {
        let file = data(&name);
        let formed = form(&file);
        let referred = references(&file, &mut [77; TABLE_WORDS]);
        let both = [formed.fault, referred].map(found);
        assert_eq!(both, parts(fault), "{name}");
        let is_counted = formed.counts.iter().any(|&count| count > 0);
        assert_eq!(is_counted, both[0] == ACCEPTED, "{name}");
        seen.insert(both.map(|(number, ..)| number));
    }
    let not_good = (3..=10).map(|number| [number, 14]);
    let good = [0, 11, 12].map(|number| [0, number]);
    assert!(seen.into_iter().eq(good.into_iter().chain(not_good)));
}

#[test]
fn the_table_has_every_file_in_the_order_of_the_arguments() {
    let names: Vec<String> = rows().into_iter().map(|(name, _)| name).collect();
    let arguments = fs::read_to_string(folder().join("args")).unwrap();
    assert_eq!(arguments.lines().collect::<Vec<_>>(), names);
    let entries = fs::read_dir(folder().join("data")).unwrap();
    let files: BTreeSet<String> = entries
        .map(|entry| entry.unwrap().file_name().into_string().unwrap())
        .filter(|name| name != "README.md")
        .collect();
    let padded = table(1).into_iter().map(|cells| cells[0].clone());
    assert_eq!(files, names.into_iter().chain(padded).collect());
}

/// The answer of the padding step, then what form and references say of the
/// padded lines.
#[test]
fn the_table_of_inputs_says_what_is_found() {
    let rows = table(1);
    assert_eq!(rows.len(), 11);
    for cells in rows {
        let input = data(&cells[0]);
        let mut out = [b'#'; 34 * LINE];
        let padded = pad(&input, &mut out);
        let (lines, rest) = out.split_at(padded.lines as usize * LINE);
        assert!(rest.iter().all(|&byte| byte == b'#'), "{cells:?}");
        let fault = padded.fault;
        let answer = [
            u64::from(fault.number),
            fault.record,
            fault.column,
            padded.lines.into(),
        ];
        assert_eq!(cells[1..5], answer.map(|n| n.to_string()), "{cells:?}");
        if fault.number == 0 {
            let [(number, record, column), referred] = parts(verdict(lines));
            let said = [number.into(), record, column, referred.0.into()];
            assert_eq!(cells[5..9], said.map(|n: u64| n.to_string()), "{cells:?}");
            assert_eq!((referred.1, referred.2), (0, 0), "{cells:?}");
        } else {
            assert_eq!(cells[5..9], ["-"; 4], "{cells:?}");
        }
    }
}

/// The fault number of each entry, and bytes and places behind them as they
/// were; or refusal 1, and nothing touched.
#[test]
fn the_table_of_lists_says_what_is_found() {
    assert_eq!(table(2).len(), PULLS.len());
    for list in &PULLS {
        let file = data(&list.file_name());
        let (room, places) = list.lent();
        let mut out = vec![b'#'; room];
        let mut faults = vec![77; places];
        let fault = pull(&file, list.records, &mut out, &mut faults);
        let (expected, numbers) = match list.faults {
            Some(numbers) => (Fault::ACCEPTED, numbers),
            None => (Fault::TOO_SHORT, &[][..]),
        };
        assert_eq!(fault, expected, "{}", list.why);
        assert_eq!(faults[..numbers.len()], *numbers, "{}", list.why);
        assert!(faults[numbers.len()..].iter().all(|&word| word == 77));
        let (lines, rest) = out.split_at(LINE * numbers.len());
        assert!(rest.iter().all(|&byte| byte == b'#'), "{}", list.why);
        for (line, &number) in lines.chunks_exact(LINE).zip(numbers) {
            let blank = [&[b' '; LINE - 1][..], b"\n"].concat();
            assert_eq!(line == blank, number != 0, "{}", list.why);
        }
    }
}

/// Lines that were put into house style by hand.
#[test]
fn pulled_lines_are_as_they_should_be() {
    let file = data("accepted_all_kinds.bfile");
    for (record, line) in [
        (
            23,
            "000230*80*0045Tuburan BM 17 (reset 1987)    11434512345N123015900000E       RP  ",
        ),
        (
            24,
            "000240*86*0045  0012345A21Y88NAMRIA-0332509  -020905B  Aleveled 2019            ",
        ),
        (
            17,
            "000170*27*99992401010005                               00000                    ",
        ),
        (
            31,
            "000310*92*0045  0012  0000000040000000003800000000000999999999    N!vector 45-12",
        ),
    ] {
        let mut out = [0; LINE];
        let mut faults = [77];
        assert_eq!(
            pull(&file, &[record], &mut out, &mut faults),
            Fault::ACCEPTED
        );
        assert_eq!(faults, [0]);
        assert_eq!(String::from_utf8_lossy(&out), format!("{line}\n"));
    }
    let file = data("fault_07_no_first_job_code.bfile");
    let mut out = [0; LINE];
    pull(&file, &[1], &mut out, &mut [0]);
    assert!(out.starts_with(b"000010*10*TUBURAN BAY"));
}

#[test]
fn the_files_are_those_that_are_made() {
    let all = specimens();
    for one in &all {
        assert_eq!(data(&one.file_name()), one.file, "{}", one.name);
    }
    let inputs = inputs();
    for one in &inputs {
        assert_eq!(data(&one.file_name()), one.bytes, "{}", one.name);
    }
    assert_eq!(data("README.md"), page(&all, &inputs).into_bytes());
}

#[test]
fn the_stored_output_is_what_is_printed() {
    let stored = fs::read(folder().join("stdout")).unwrap();
    assert!(stored == files_tried::page().unwrap());
}

/// Every fault of a file but 1 and 2, which need no file or a larger one.
#[test]
fn every_fault_is_tried() {
    let rows = rows();
    for number in [0].into_iter().chain(3..=12) {
        assert!(rows.iter().any(|(_, found)| found.0 == number), "{number}");
    }
}

#[test]
fn the_slips_are_rewritten_as_they_should_be() {
    let blank_comment = house(&data("slip_86_with_blank_comment.bfile"));
    assert_eq!(
        columns(&blank_comment, 12, 7, 47),
        columns(&house(&data("accepted_third_27.bfile")), 13, 7, 47)
    );
    let heights = house(&data("slip_blank_height_is_missing.bfile"));
    assert_eq!(columns(&heights, 12, 17, 7), "       ");
    assert_eq!(columns(&heights, 14, 17, 7), "0000000");
    let below = house(&data("slip_half_metre_below.bfile"));
    assert_eq!(columns(&below, 12, 17, 7), "-000500");
    assert_eq!(columns(&below, 5, 56, 5), "-0500");
}

#[test]
fn accuracies_are_rewritten_as_they_should_be() {
    let ends = data("accepted_accuracies_at_their_ends.bfile");
    assert_eq!(house(&ends), ends);
    let dressed = house(&data("accepted_accuracies_in_other_dress.bfile"));
    for (record, first, expected) in [
        (15, 21, "00000000000999999999-0999999900000000000"),
        (16, 21, "0999999999000000000000999999990999999999"),
        (17, 23, "0000000001000000000200000000000000000003"),
        (18, 23, "00000000000000000000-0000000500000000000"),
        (19, 11, "0000000100009999"),
    ] {
        let held = columns(&dressed, record, first, expected.len());
        assert_eq!(held, expected, "record {record}");
    }
}

#[test]
fn an_instrument_is_found_at_the_first_of_its_records() {
    // How many *70*, and the words of instruments: number and record.
    for (name, count, expected) in [
        ("accepted_70_twice", 2, &[(7, 7)][..]),
        ("accepted_70_twice_to_the_byte", 3, &[(7, 7), (8, 9)]),
        ("accepted_70_three_in_other_dress", 4, &[(7, 7), (8, 10)]),
        (
            "accepted_70_repeated_at_the_ends",
            7,
            &[(1, 7), (7, 9), (999, 12)],
        ),
        ("accepted_25_of_a_repeated_70", 4, &[(7, 10), (8, 11)]),
        ("accepted_70_a_thousand", 1_000, &[(7, 7), (8, 407)]),
    ] {
        let mut table = [0; TABLE_WORDS];
        let file = data(&format!("{name}.bfile"));
        assert_eq!(references(&file, &mut table).number, 0, "{name}");
        assert_eq!(form(&file).counts[7], count, "{name}");
        let words = (0..1_000).map(|number| (number, table[10_000 + number]));
        let found: Vec<(usize, u32)> = words.filter(|&(_, word)| word != 0).collect();
        assert_eq!(found, expected, "{name}");
    }
}

#[test]
fn instruments_that_repeat_are_rewritten_as_they_should_be() {
    for (name, first, expected) in [
        ("accepted_70_twice", 7, &["007", "007"][..]),
        (
            "accepted_70_three_in_other_dress",
            7,
            &["007", "007", "007", "008"],
        ),
        (
            "accepted_70_repeated_at_the_ends",
            7,
            &["001", "001", "007", "007", "007", "999", "999"],
        ),
        (
            "accepted_25_of_a_repeated_70",
            10,
            &["007", "008", "008", "008"],
        ),
    ] {
        let file = data(&format!("{name}.bfile"));
        let rewritten = house(&file);
        for (record, number) in (first..).zip(expected) {
            assert_eq!(columns(&rewritten, record, 8, 6), format!("70*{number}"));
            // Equipment code, maker, model and serial number stay in order.
            let code = columns(&file, record, 14, 3).replace(' ', "0");
            assert_eq!(columns(&rewritten, record, 14, 3), code);
            assert_eq!(
                columns(&rewritten, record, 17, 64),
                columns(&file, record, 17, 64)
            );
        }
    }
}

#[test]
fn the_same_meaning_is_the_same_file() {
    let first = data("dress_house.bfile");
    let second = data("dress_other.bfile");
    assert_ne!(first, second);
    assert_eq!(house(&first), first);
    assert_eq!(house(&second), first);
    assert_ne!(house(&data("dress_other_meaning.bfile")), first);
}

#[test]
fn the_counts_are_those_of_the_records() {
    let file = data("accepted_all_kinds.bfile");
    let counts = form(&file).counts;
    assert_eq!(counts, [2, 1, 1, 1, 3, 3, 7, 3, 2, 3, 3, 2, 1, 1]);
    let long = data("accepted_two_thousand_records.bfile");
    assert_eq!(verdict(&long), ACCEPTED);
    let counts = form(&long).counts;
    assert_eq!(
        counts,
        [2, 1, 0, 1, 300, 300, 700, 20, 10, 300, 300, 90, 0, 1]
    );
    assert_eq!(long.len(), 81 * 2_025);
}
