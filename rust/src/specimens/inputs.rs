//! Inputs of the padding step.

use super::accepted::all_kinds;
use super::survey::{small, small_with};
use crate::generate::{stripped, without_blanks};

/// Bytes to pad.
pub struct Input {
    /// The file's name without `.bfile`.
    pub name: &'static str,
    /// Fault number, record, column and lines.
    pub answer: (u32, u64, u64, u32),
    /// Form's fault number, record and column for the padded lines, and
    /// references' fault number, whose record and column are 0; a refused
    /// input has none.
    pub verdict: Option<(u32, u64, u64, u32)>,
    /// What is in the input, and why answer and verdict are those.
    pub why: &'static str,
    pub bytes: Vec<u8>,
}

/// All of them, in the order in which they are tried. Two are whole files
/// that are tried as such too.
pub fn inputs() -> Vec<Input> {
    [deposits(), long_lines(), returns_and_feeds(), trimmed()]
        .into_iter()
        .flatten()
        .collect()
}

impl Input {
    fn good(
        name: &'static str,
        lines: u32,
        verdict: (u32, u64, u64, u32),
        why: &'static str,
        bytes: Vec<u8>,
    ) -> Input {
        Input {
            name,
            answer: (0, 0, 0, lines),
            verdict: Some(verdict),
            why,
            bytes,
        }
    }

    /// A line above 80 bytes.
    fn too_long(name: &'static str, line: u64, why: &'static str, bytes: Vec<u8>) -> Input {
        Input {
            name,
            answer: (5, line, 81, 0),
            verdict: None,
            why,
            bytes,
        }
    }

    pub fn file_name(&self) -> String {
        format!("{}.bfile", self.name)
    }

    /// The input's row on the page beside the files.
    pub fn row(&self) -> String {
        let name = self.file_name();
        let (number, record, column, lines) = self.answer;
        let verdict = match self.verdict {
            Some((number, record, column, references)) => {
                format!("{number} | {record} | {column} | {references}")
            }
            None => "- | - | - | -".to_string(),
        };
        let why = self.why;
        format!("| `{name}` | {number} | {record} | {column} | {lines} | {verdict} | {why} |\n")
    }
}

/// One accepted file as it stands and as editors leave it.
fn deposits() -> Vec<Input> {
    let accepted = (0, 0, 0, 0);
    vec![
        Input::good(
            "padding_trimmed_lf",
            33,
            accepted,
            "accepted_all_kinds without its trailing blanks: padded, the same bytes as accepted_all_kinds",
            stripped(&all_kinds(), "\n"),
        ),
        Input::good(
            "padding_trimmed_cr_lf",
            33,
            accepted,
            "the same with CR LF behind each line: padded, the same bytes; and rewritten, the same as accepted_all_kinds rewritten",
            stripped(&all_kinds(), "\r\n"),
        ),
        Input::good(
            "padding_trimmed_mixed",
            33,
            accepted,
            "the same with LF and CR LF by turns and no end behind the last line: padded, the same bytes",
            mixed(&all_kinds()),
        ),
        Input::good(
            "accepted_all_kinds",
            33,
            accepted,
            "an accepted file as it stands: it comes out unchanged",
            all_kinds(),
        ),
    ]
}

fn mixed(file: &[u8]) -> Vec<u8> {
    let lines: Vec<&[u8]> = file.chunks_exact(81).map(without_blanks).collect();
    let pairs: Vec<Vec<u8>> = lines.chunks(2).map(|pair| pair.join(&b'\n')).collect();
    pairs.join(&b"\r\n"[..])
}

/// A job code and 70 columns of text: 80 bytes, none of them blank.
fn full_line() -> Vec<u8> {
    format!("000010*C3*{}", "1234567890".repeat(7)).into_bytes()
}

/// Lines of 80 and of 81 bytes.
fn long_lines() -> Vec<Input> {
    let third = small_with(&[(3, 81, " ")]);
    let mut long = stripped(&third[..81 * 2], "\n");
    long.extend([&third[81 * 2..81 * 3], b"\n"].concat());
    long.extend(stripped(&third[81 * 3..81 * 4], "\n"));
    vec![
        Input::too_long(
            "padding_line_of_81_bytes",
            3,
            "the third of four lines has a blank in column 81, the others are trimmed",
            long,
        ),
        Input::good(
            "padding_80_bytes_and_cr_lf",
            1,
            (8, 2, 1, 14),
            "80 bytes and CR LF: the end is no part of the line; a *10* is missing",
            [&full_line(), &b"\r\n"[..]].concat(),
        ),
        Input::too_long(
            "padding_80_bytes_and_cr",
            1,
            "the same 80 bytes and a CR at the end of the input: without an LF it is the 81st byte of the line",
            [&full_line(), &b"\r"[..]].concat(),
        ),
    ]
}

fn returns_and_feeds() -> Vec<Input> {
    vec![
        Input::good(
            "padding_cr_cr_lf",
            1,
            (4, 1, 11, 14),
            "a job code, then CR CR LF: the second CR is of the end, the first is copied into column 11",
            b"000010*C3*\r\r\n".to_vec(),
        ),
        Input::good(
            "padding_lf_alone",
            1,
            (6, 1, 7, 14),
            "one LF: a line of 0 bytes, padded to 80 blanks, which hold no code",
            b"\n".to_vec(),
        ),
        Input::good(
            "fault_08_empty",
            0,
            (8, 1, 1, 14),
            "no byte at all: no line, and an empty file",
            Vec::new(),
        ),
    ]
}

/// Three lines with an end of each sort; the field at fault is the *12*'s.
fn trimmed() -> Vec<Input> {
    let mut lines = small();
    lines[2][10..16].copy_from_slice(b"202313");
    let ends = [&b"\r\n"[..], b"\n", b""];
    let bytes = lines.iter().zip(ends);
    vec![Input::good(
        "padding_trimmed_month_13",
        3,
        (9, 3, 16, 14),
        "three trimmed lines, ended by CR LF, by LF and by the input's end; the *12* is begun in month 13, which its last digit tells: what is malformed stays refused",
        bytes
            .flat_map(|(line, end)| [without_blanks(line), end].concat())
            .collect(),
    )]
}
