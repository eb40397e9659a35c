//! The padding step, sentence by sentence, of the plain implementation and of
//! the library.

use crate::pointing::{judged, SIDES};
use crate::sample::*;
use shelf::calls::{PAD_WORDS, REWRITE_WORDS};
use shelf::generate;
use shelf::library::{self, Fault, Padding};

/// What stands in an output before a call.
const BEFORE: u8 = b'#';

/// Both answer these words, and leave an output of so many bytes with these
/// at its start and the rest as it was.
fn answers(input: &[u8], room: usize, words: [u32; PAD_WORDS], start: &[u8]) {
    for (name, side) in SIDES {
        let mut out = vec![BEFORE; room];
        let mut answer = [99; PAD_WORDS];
        side.pad(input, &mut out, &mut answer);
        let about = input[..input.len().min(200)].escape_ascii();
        assert_eq!(answer, words, "{name}: {about}");
        let (padded, rest) = out.split_at(start.len());
        assert!(padded == start, "{name}: {about}");
        assert!(rest.iter().all(|&byte| byte == BEFORE), "{name}: {about}");
    }
}

/// The input pads to these lines, which are given without their blanks.
fn pads(input: impl AsRef<[u8]>, lines: &[&str]) {
    let padded: String = lines.iter().map(|line| format!("{line:<80}\n")).collect();
    pads_to(input, padded);
}

fn pads_to(input: impl AsRef<[u8]>, padded: impl AsRef<[u8]>) {
    let (input, padded) = (input.as_ref(), padded.as_ref());
    let lines = (padded.len() / 81) as u32;
    for more in [0, 1, 100] {
        answers(input, padded.len() + more, [0, 0, 0, lines], padded);
    }
    let (padding, given) = library::pad(input);
    assert!(padding.is_good());
    assert_eq!(padding.lines, lines);
    assert!(given == padded);
}

/// The input is refused whatever the output's length: its lines are judged
/// before it is.
fn refused(input: impl AsRef<[u8]>, [number, record, column]: [u32; 3]) {
    let input = input.as_ref();
    for room in [0, 1, 81 * 20] {
        answers(input, room, [number, record, column, 0], b"");
    }
    let (padding, given) = library::pad(input);
    assert!(!padding.is_good());
    let fault = Fault {
        number,
        record,
        column,
    };
    assert_eq!(padding, Padding { fault, lines: 0 });
    assert_eq!(given, b"");
}

#[test]
fn one_line_byte_by_byte() {
    let padded =
        b"000010*A1*                                                                      \n";
    assert_eq!(padded.len(), 81);
    for input in [&b"000010*A1*\n"[..], b"000010*A1*\r\n", b"000010*A1*"] {
        pads_to(input, padded);
    }
    pads_to(b"000010*A1*   \n", padded);
    pads_to(padded, padded);
}

#[test]
fn a_line_ends_with_lf_or_cr_lf_or_where_the_input_ends() {
    pads(b"A\nB\n", &["A", "B"]);
    pads(b"A\r\nB\r\n", &["A", "B"]);
    pads(b"A\nB\r\nC", &["A", "B", "C"]);
    pads(b"A\r\nB\nC\r\n", &["A", "B", "C"]);
    pads(b" A \n  B\n ", &[" A", "  B", ""]);
}

#[test]
fn a_line_feed_at_the_end_opens_no_further_line() {
    pads(b"A", &["A"]);
    pads(b"A\n", &["A"]);
    pads(b"A\n\n", &["A", ""]);
    pads(b"A\n ", &["A", ""]);
}

#[test]
fn an_end_alone_is_a_blank_line_that_form_refuses() {
    let blank = [&[b' '; 80][..], b"\n"].concat();
    for input in [&b"\n"[..], b"\r\n", b" ", b" \n", b"  \r\n"] {
        pads_to(input, &blank);
    }
    pads(b"\n\r\n\n", &["", "", ""]);
    pads(b"\r\nA\n\n", &["", "A", ""]);
    assert_eq!(judged(&blank), [6, 1, 7]);
    let after_one = [b"000010*A1*\n", &b"\n"[..]].concat();
    assert_eq!(judged(&library::pad(&after_one).1), [6, 2, 7]);
}

#[test]
fn an_empty_input_pads_to_an_empty_file() {
    pads(b"", &[]);
    assert_eq!(judged(&library::pad(b"").1), [8, 1, 1]);
}

#[test]
fn a_carriage_return_anywhere_else_is_copied_and_form_refuses_it() {
    pads(b"\rA\n", &["\rA"]);
    pads(b"A\rB\r\n", &["A\rB"]);
    pads(b"A\n\rB\n", &["A", "\rB"]);
    pads(b"A\r\r\nB", &["A\r", "B"]);
    pads(b"\r\r\r\n", &["\r\r"]);
    assert_eq!(judged(&library::pad(b"000010*A1*\rB\n").1), [4, 1, 11]);
    assert_eq!(judged(&library::pad(b"000010*A1*\r\r\n").1), [4, 1, 11]);
}

#[test]
fn a_carriage_return_at_the_end_of_the_input_is_of_the_line() {
    pads(b"\r", &["\r"]);
    pads(b"A\r", &["A\r"]);
    pads(b"A\r\n\r", &["A", "\r"]);
    pads(b"A\r\r", &["A\r\r"]);
    assert_eq!(judged(&library::pad(b"000010*A1*\r").1), [4, 1, 11]);
}

#[test]
fn bytes_that_are_no_line_end_are_copied_whatever_they_are() {
    let bytes: Vec<u8> = (0..=255).filter(|&byte| byte != b'\n').collect();
    let mut input = Vec::new();
    let mut padded = Vec::new();
    for some in bytes.chunks(51) {
        input.extend([some, b"\n"].concat());
        padded.extend([some, &[b' '; 29], b"\n"].concat());
    }
    assert_eq!(padded.len(), 5 * 81);
    pads_to(&input, &padded);
}

#[test]
fn a_line_has_at_most_80_bytes_and_its_end_is_no_part_of_it() {
    for bytes in [1, 2, 78, 79, 80] {
        let line = "x".repeat(bytes);
        for end in ["", "\n", "\r\n"] {
            pads([&line, end].concat(), &[&line]);
        }
        for end in ["\n", "\r\n"] {
            let lines = [&line, end].concat().repeat(4);
            pads(lines, &[line.as_str(); 4]);
        }
    }
    for bytes in [81, 82, 83, 160, 161, 162, 500] {
        for end in ["", "\n", "\r\n", "\r", "\r\r\n", "\n\n"] {
            let line = "x".repeat(bytes) + end;
            refused(&line, [5, 1, 81]);
            refused(["A\r\n\n", &line].concat(), [5, 3, 81]);
        }
    }
}

#[test]
fn a_carriage_return_that_is_copied_counts() {
    let x79 = "x".repeat(79);
    let x80 = "x".repeat(80);
    let with_return = x79.clone() + "\r";
    pads([&x79, "\r"].concat(), &[&with_return]);
    pads([&x79, "\r\r\n"].concat(), &[&with_return]);
    refused([&x80, "\r"].concat(), [5, 1, 81]);
    refused([&x80, "\r\r\n"].concat(), [5, 1, 81]);
    // Column 80 is then the end's, and a blank takes its place.
    pads([&x79, "\r\n"].concat(), &[&x79]);
}

#[test]
fn blanks_count_as_any_other_byte() {
    refused([b' '; 81], [5, 1, 81]);
    let blanks = " ".repeat(79);
    pads(format!("A{blanks}\n"), &["A"]);
    refused(format!("A{blanks} \n"), [5, 1, 81]);
}

#[test]
fn the_earliest_long_line_is_named() {
    let long = "y".repeat(81);
    let input = format!("A\n{long}\nB\n{long}\n{long}");
    refused(input, [5, 2, 81]);
    let sixth = "A\n\r\nB\r\n\nC\n".to_string() + &long;
    refused(sixth, [5, 6, 81]);
}

#[test]
fn refusal_1_goes_by_81_bytes_a_line() {
    let short = [1, 0, 0, 0];
    for room in [0, 1, 80] {
        answers(b"A", room, short, b"");
        answers(b"\n", room, short, b"");
    }
    for room in [81, 161] {
        answers(b"A\nB", room, short, b"");
    }
    // Neither the input's length nor a line that would fit counts.
    let full = "z".repeat(80);
    let returns = format!("{full}\r\n{full}\r\n");
    assert_eq!(returns.len(), 164);
    let padded = format!("{full}\n{full}\n");
    answers(returns.as_bytes(), 162, [0, 0, 0, 2], padded.as_bytes());
    answers(returns.as_bytes(), 161, short, b"");
}

#[test]
fn line_99_999_is_good() {
    let padded = format!("{:<80}\n", "A").repeat(99_999);
    let input = "A\n".repeat(99_999);
    pads_to(&input, &padded);
    pads_to(&input[..input.len() - 1], &padded);
    pads_to("A\r\n".repeat(99_999), &padded);
    answers(input.as_bytes(), padded.len() - 1, [1, 0, 0, 0], b"");
}

#[test]
fn line_100_000_is_there_with_its_first_byte() {
    for before in ["A\n", "\n", "\r\n"] {
        let before = before.repeat(99_999);
        for behind in ["\n", "\r", "\r\n", " ", "A", "A\nB\n"] {
            refused([&before, behind].concat(), [2, 100_000, 1]);
        }
    }
}

#[test]
fn refusals_go_line_by_line_and_2_before_5() {
    let long = "y".repeat(81) + "\n";
    let seventh = "\n".repeat(6) + &long + &"\n".repeat(100_000);
    refused(seventh, [5, 7, 81]);
    let last = "\n".repeat(99_998) + &long + "A";
    refused(last, [5, 99_999, 81]);
    let hundred_thousandth = "\n".repeat(99_999) + &long;
    refused(hundred_thousandth, [2, 100_000, 1]);
    let later = "\n".repeat(100_000) + &long;
    refused(later, [2, 100_000, 1]);
}

#[test]
fn an_answer_too_short_means_that_nothing_is_touched() {
    for (name, side) in SIDES {
        for words in 0..PAD_WORDS {
            for input in [&b"A\n"[..], &[b'z'; 81], b""] {
                let mut out = [BEFORE; 90];
                let mut answer = vec![99; words];
                side.pad(input, &mut out, &mut answer);
                assert_eq!(answer, vec![99; words], "{name}");
                assert_eq!(out, [BEFORE; 90], "{name}");
            }
        }
        let mut answer = [99; 7];
        side.pad(b"A\nB\n", &mut [BEFORE; 162], &mut answer);
        assert_eq!(answer, [0, 0, 0, 2, 99, 99, 99], "{name}");
        side.pad(b"A\nB\n", &mut [BEFORE; 161], &mut answer);
        assert_eq!(answer, [1, 0, 0, 0, 99, 99, 99], "{name}");
    }
}

#[test]
fn an_accepted_file_comes_out_unchanged() {
    assert_eq!(judged(&file()), [0, 0, 0]);
    pads_to(file(), file());
}

/// Demands 2 and 3: the counts are those of the records, and rewriting means
/// the same.
#[test]
fn a_stripped_file_is_judged_as_the_file_that_it_was() {
    for end in ["\n", "\r\n"] {
        let input = generate::stripped(&file(), end);
        // The first line has 28 bytes without its blanks.
        assert_eq!(judged(&input), [4, 1, 29]);
        pads_to(&input, file());
        pads_to(&input[..input.len() - end.len()], file());
        for (name, side) in SIDES {
            let padded = library::pad(&input).1;
            let mut out = vec![BEFORE; padded.len()];
            let mut answer = [99; REWRITE_WORDS];
            side.rewrite(&padded, &mut [0; 12_000], &mut out, &mut answer);
            assert_eq!(answer[..3], [0, 0, 0], "{name}");
            assert_eq!(answer[3..], COUNTS, "{name}");
            assert!(out == house(&file()), "{name}");
        }
    }
}
