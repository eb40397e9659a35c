//! Files to try, by family; form, references, rewrite, read and pull are tried
//! on each.
//!
//! A family hands over each of its files with the number of a record: the one
//! that was changed, or one about where the file was.

use shelf::generate::{self, Dice};
use shelf::plain::layout::{kind_of, FIELDS, OCCUPATION, POINT, PROJECT};
use shelf::plain::LINE;
use shelf::sample;
use std::ops::Range;

pub type Family = fn(&mut dyn FnMut(&[u8], u32));

/// Each of the sample's bytes, which has all fourteen kinds, as each of the
/// 256.
pub fn every_byte(try_file: &mut dyn FnMut(&[u8], u32)) {
    let mut file = sample::file();
    let all = 0..file.len();
    each_byte(&mut file, all, try_file);
}

/// Each of these bytes of a file as each of the 256.
fn each_byte(file: &mut [u8], places: Range<usize>, try_file: &mut dyn FnMut(&[u8], u32)) {
    for at in places {
        let held = file[at];
        for byte in 0..=255 {
            file[at] = byte;
            try_file(file, record_of(at));
        }
        file[at] = held;
    }
}

/// Each field of each record of the sample, columns 1-6 and 7-10 and the parts
/// of a field too, filled with what numbers, heights, angles and codes go
/// wrong on.
pub fn filled(try_file: &mut dyn FnMut(&[u8], u32)) {
    let good = sample::file();
    let mut dice = Dice::new(11);
    for (start, kind) in records(&good) {
        let rows = FIELDS[kind].iter().map(|field| (field.first, field.width));
        let parts: &[(usize, usize)] = match kind {
            PROJECT => &[(11, 4), (15, 2), (17, 4), (21, 2)],
            OCCUPATION => &[(16, 3)],
            _ => &[],
        };
        let others = [(1, 6), (7, 4)];
        for (first, width) in rows.chain(others).chain(parts.iter().copied()) {
            let from = start + first - 1;
            let mut file = good.clone();
            for _ in 0..400 {
                generate::telling(&mut dice, &mut file[from..from + width]);
                try_file(&file, record_of(start));
            }
        }
    }
}

/// Angles at the ends of their ranges, each of their columns as each byte.
pub fn angles(try_file: &mut dyn FnMut(&[u8], u32)) {
    let good = sample::file();
    for (start, _) in records(&good).filter(|&(_, kind)| kind == POINT) {
        let record = record_of(start) as usize;
        for angles in ["90000000000N180000000000E", "00000000000S000000000000W"] {
            let mut file = sample::with(&good, record, 45, angles);
            each_byte(&mut file, start + 44..start + 69, try_file);
        }
    }
}

/// Record, first column and columns of accuracies: at the ends of ranges,
/// padded and in house style.
const FIGURES: [(usize, usize, &str); 10] = [
    (21, 21, "0999999999 999999999-0999999900000000000"),
    (21, 21, "         0000000000000999999990000000001"),
    (21, 21, "        17   0000018 -99999990         0"),
    (22, 23, "0000000000         0  99999999 999999999"),
    (22, 23, " 9999999990000000001-0000000000999999999"),
    (22, 23, "         1      1234        -5         0"),
    (22, 11, "0012   345"),
    (22, 11, "  12     2"),
    (23, 11, "0000999900000001"),
    (23, 11, "       1    9999"),
];

/// Each of these columns as each byte.
pub fn figures(try_file: &mut dyn FnMut(&[u8], u32)) {
    for (record, first, figures) in FIGURES {
        let mut file = sample::with(&sample::file(), record, first, figures);
        let start = LINE * (record - 1) + first - 1;
        each_byte(&mut file, start..start + figures.len(), try_file);
    }
}

/// The station of the groups, of a point, of a *91* and both of a *92*: each
/// defined, defined twice or not at all.
pub fn references(try_file: &mut dyn FnMut(&[u8], u32)) {
    let stations = ["0012", " 345", "  13"];
    // Both groups have one station, so that a point that repeats it need not
    // leave the other undefined.
    let groups = [5, 7, 8, 9, 10, 11, 12].map(|record| (record, 11, 0));
    let others = [
        (19, 11, 1),
        (20, 11, 1),
        (21, 11, 2),
        (22, 11, 3),
        (22, 17, 4),
    ];
    for number in 0..3_usize.pow(5) {
        let put = |file: Vec<u8>, &(record, first, place)| {
            let station = stations[number / 3_usize.pow(place) % 3];
            sample::with(&file, record, first, station)
        };
        let named = groups.iter().chain(&others);
        try_file(&named.fold(sample::file(), put), 22);
    }
}

/// The sample with *70* of these numbers in the place of its two, each with
/// another serial number. Its *25* name instrument 7.
pub fn with_instruments(numbers: &[&str]) -> Vec<u8> {
    let more = numbers.iter().enumerate().map(|(at, number)| {
        let serial = format!("{at:010}");
        sample::with(&sample::instrument(number), 1, 71, &serial)
    });
    let mut lines = sample::lines();
    lines.splice(12..14, more);
    lines.concat()
}

/// What may stand behind *70* of instrument 7: nothing, the same again, others
/// above it; then what falls by one, at once and later, comes back, or falls
/// far.
const BEHIND: [&[&str]; 12] = [
    &[],
    &["007"],
    &["  7", " 07"],
    &["  8"],
    &["008", "008"],
    &["008", "  8", "999", "999"],
    &["  6"],
    &["006", "007"],
    &["008", "  7"],
    &["008", "008", "007"],
    &["010", " 10", "  9"],
    &["999", "001"],
];

/// Instruments with one *70* and with more, and every few of the numbers that
/// matter.
pub fn receivers(try_file: &mut dyn FnMut(&[u8], u32)) {
    for copies in [1, 2, 3, 49, 50, 51, 998, 999, 1_000] {
        for number in ["007", "  7", " 07"] {
            for behind in BEHIND {
                let numbers = [&vec![number; copies], behind].concat();
                with_other_records(&numbers, try_file);
            }
        }
    }
    let matter = ["001", "  6", "007", "  7", "008", "999"];
    for length in 1..=4 {
        for case in 0..matter.len().pow(length) {
            let number = |place| matter[case / matter.len().pow(place) % matter.len()];
            let numbers: Vec<&str> = (0..length).map(number).collect();
            try_file(&with_instruments(&numbers), 12 + length);
        }
    }
}

/// *70* of these numbers in the sample as it is, with other instruments in its
/// *25*, with a *72* that repeats or falls, and with the last *70* malformed.
fn with_other_records(numbers: &[&str], try_file: &mut dyn FnMut(&[u8], u32)) {
    let file = with_instruments(numbers);
    let last = 12 + numbers.len();
    try_file(&file, last as u32);
    for (first, second) in [
        ("007", "008"),
        ("  7", "006"),
        ("999", "  7"),
        ("009", "007"),
    ] {
        let named = sample::with(&file, 5, 28, first);
        try_file(&sample::with(&named, 10, 28, second), 5);
    }
    for (record, column, text) in [
        (last + 2, 11, "  3"),
        (last + 2, 11, "002"),
        (last, 11, "000"),
        (last, 11, "7  "),
        (last, 14, "000"),
        (last, 22, "x"),
        (last, 80, "\t"),
    ] {
        try_file(&sample::with(&file, record, column, text), record as u32);
    }
}

/// Two bytes of one record changed, printable ones mostly: which fault is
/// named first.
pub fn two_bytes(try_file: &mut dyn FnMut(&[u8], u32)) {
    let mut dice = Dice::new(12);
    let mut file = sample::file();
    for _ in 0..160_000 {
        let record = dice.below(file.len() / LINE);
        let places = [dice.below(LINE), dice.below(LINE)].map(|column| LINE * record + column);
        let held = places.map(|place| file[place]);
        for place in places {
            file[place] = match dice.below(4) {
                0 => dice.below(256) as u8,
                1 => dice.pick(b" -0169ANSEWYZ\n\r"),
                _ => dice.between(0x20, 0x7e) as u8,
            };
        }
        try_file(&file, record as u32 + 1);
        // The second first, in case they are one place.
        file[places[1]] = held[1];
        file[places[0]] = held[0];
    }
}

/// Made-up files, accepted and damaged in every way.
pub fn damaged(try_file: &mut dyn FnMut(&[u8], u32)) {
    for seed in 0..41_000 {
        // Those at the limit have a test of their own.
        if seed % 64 != 63 {
            let file = generate::case(seed);
            try_file(&file, record_of(seed as usize % file.len().max(1)));
        }
    }
}

/// Files that end anywhere, with and without something behind, and files
/// with carriage returns.
pub fn cut(try_file: &mut dyn FnMut(&[u8], u32)) {
    let files = [
        sample::file(),
        generate::accepted(21, 11),
        generate::accepted(22, 40),
    ];
    for file in &files {
        for end in 0..=file.len() {
            try_file(&file[..end], record_of(end));
            for byte in *b"\n \x7f" {
                try_file(&[&file[..end], &[byte]].concat(), record_of(end));
            }
        }
        for end in (LINE..=file.len()).step_by(LINE) {
            let (before, behind) = file.split_at(end - 1);
            let record = record_of(end - 1);
            try_file(&[before, b"\r", behind].concat(), record);
            try_file(&[before, b"\r\n\n", &behind[1..]].concat(), record);
            try_file(&[before, &behind[1..]].concat(), record);
        }
        let returns = file.split_inclusive(|&byte| byte == b'\n');
        let returns: Vec<u8> = returns
            .flat_map(|line| [&line[..LINE - 1], b"\r\n"].concat())
            .collect();
        for end in 0..=returns.len() {
            try_file(&returns[..end], record_of(end));
        }
    }
}

/// Lines put in, put in place of another, taken out and exchanged, at every
/// place: what may follow what.
pub fn order(try_file: &mut dyn FnMut(&[u8], u32)) {
    let mut files = vec![sample::file()];
    files.extend((0..16).map(|seed| generate::accepted(seed, 11 + seed as usize)));
    let others = [
        sample::line(&[(7, "*B2*")]),
        sample::line(&[(7, "*13*")]),
        sample::instrument("009"),
        sample::antenna("002"),
        sample::point("0013"),
        sample::heights("0013"),
        sample::measurement("0013"),
        sample::network("0013"),
        sample::local("0345", "  12"),
        sample::local("0345", " 345"),
    ];
    let candidates: Vec<Vec<u8>> = sample::lines().into_iter().chain(others).collect();
    for file in &files {
        for at in (0..=file.len()).step_by(LINE) {
            let (before, behind) = file.split_at(at);
            let after = behind.get(LINE..).unwrap_or(b"");
            let record = record_of(at);
            try_file(&[before, after].concat(), record);
            for line in &candidates {
                try_file(&[before, line, behind].concat(), record);
                try_file(&[before, line, after].concat(), record);
            }
            for other in (at + LINE..file.len()).step_by(LINE) {
                let mut exchanged = file.clone();
                for column in 0..LINE {
                    exchanged.swap(at + column, other + column);
                }
                try_file(&exchanged, record);
            }
        }
    }
}

/// The starts and kinds of a good file's records.
fn records(file: &[u8]) -> impl Iterator<Item = (usize, usize)> + '_ {
    let starts = (0..file.len()).step_by(LINE);
    starts.filter_map(|start| kind_of(&file[start + 6..start + 10]).map(|kind| (start, kind)))
}

/// The number of the record that has this byte.
fn record_of(at: usize) -> u32 {
    (at / LINE + 1) as u32
}
