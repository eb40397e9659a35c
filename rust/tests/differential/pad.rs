//! Pad, with outputs that are long enough and others.

use crate::inputs::{self, Inputs};
use crate::least;
use crate::sides::Sides;
use shelf::calls::PAD_WORDS;
use shelf::generate::{self, without_blanks, Dice};
use shelf::plain::{LAST_RECORD, LINE};
use shelf::sample;

const LAST: usize = LAST_RECORD as usize;
const ENDS: [&str; 2] = ["\n", "\r\n"];

/// With more output than the input needs, just enough, a byte less and none.
fn try_rooms(sides: &mut Sides, input: &[u8]) {
    let enough = sides.pad(input).len();
    if enough > 0 {
        sides.pad_lent(input, enough, PAD_WORDS);
        sides.pad_lent(input, enough - 1, PAD_WORDS);
    }
    sides.pad_lent(input, 0, PAD_WORDS);
}

/// Good inputs and refused ones came, and enough of both.
fn padded(inputs: Inputs, least: u64, good: u32, refused: u32) {
    let mut sides = Sides::new();
    inputs(&mut |input| try_rooms(&mut sides, input));
    sides.tried(least);
    let came = [sides.faults(0), sides.faults(5)];
    assert!(came[0] > good && came[1] >= refused, "{came:?}");
}

#[test]
fn ends() {
    padded(inputs::ends, least::PAD_ENDS, 20_000, 40_000);
}

#[test]
fn lengths() {
    padded(inputs::lengths, least::PAD_LENGTHS, 80_000, 20_000);
}

#[test]
fn distances() {
    padded(inputs::distances, least::PAD_DISTANCES, 20_000, 10_000);
}

#[test]
fn strings() {
    // No string here has a line above 80 bytes.
    padded(inputs::strings, least::PAD_STRINGS, 20_000, 0);
}

#[test]
fn windows() {
    padded(inputs::windows, least::PAD_WINDOWS, 20_000, 20_000);
}

#[test]
fn put_in() {
    padded(inputs::put_in, least::PAD_PUT_IN, 100_000, 5_000);
}

#[test]
fn cut() {
    padded(inputs::cut, least::PAD_CUT, 20_000, 10_000);
}

#[test]
fn random() {
    padded(inputs::random, least::PAD_RANDOM, 50_000, 10_000);
}

/// Outputs and answers of every length that matters.
#[test]
fn lent() {
    let mut sides = Sides::new();
    let long = [&[b'x'; 81][..], b"\n"].concat();
    let inputs = [
        b"".to_vec(),
        b"A".to_vec(),
        b"\n\r\nB\r".to_vec(),
        long.clone(),
        [b"A\n", &long[..]].concat(),
        [&long[1..], b"A"].concat(),
        [&long[1..81], b"\r\n", &long[1..81], b"\r\n"].concat(),
    ];
    for input in inputs {
        for room in 0..=4 * LINE {
            for answers in 0..=PAD_WORDS + 4 {
                sides.pad_lent(&input, room, answers);
            }
        }
    }
    sides.tried(7 * 325 * 9);
}

/// The sample with each of its lines keeping each number of its trailing
/// blanks, among lines that keep all of them or none.
#[test]
fn every_trim_of_a_file() {
    let mut sides = Sides::new();
    let file = sample::file();
    for end in ENDS {
        for (at, line) in file.chunks_exact(LINE).enumerate() {
            let (before, behind) = (&file[..LINE * at], &file[LINE * (at + 1)..]);
            for kept in without_blanks(line).len()..LINE {
                let line = [&line[..kept], end.as_bytes()].concat();
                gives_back(&mut sides, &[before, &line, behind].concat(), &file);
                let [before, behind] = [before, behind].map(|part| generate::stripped(part, end));
                let input = [before, line, behind].concat();
                gives_back(&mut sides, &input, &file);
            }
        }
    }
    sides.tried(6_000);
}

/// Accepted files as they stand, and with trims and ends at random.
#[test]
fn accepted_files() {
    let mut sides = Sides::new();
    let mut dice = Dice::new(52);
    for seed in 0..1_500 {
        let file = generate::accepted(seed, 11 + seed as usize % 60);
        gives_back(&mut sides, &file, &file);
        for end in ENDS {
            let input = generate::stripped(&file, end);
            gives_back(&mut sides, &input, &file);
            gives_back(&mut sides, &input[..input.len() - end.len()], &file);
        }
        let mut mixed = Vec::new();
        for line in file.chunks_exact(LINE) {
            let kept = dice.between(without_blanks(line).len() as i64, 80) as usize;
            mixed.extend_from_slice(&line[..kept]);
            mixed.extend_from_slice(dice.pick(&ENDS).as_bytes());
        }
        gives_back(&mut sides, &mixed, &file);
    }
    sides.tried(22_500);
}

/// The input pads to the file, which form and references accept.
fn gives_back(sides: &mut Sides, input: &[u8], file: &[u8]) {
    let good = sides.faults(0);
    assert!(sides.pad(input) == file);
    sides.judge(file);
    assert_eq!(sides.faults(0), good + 3);
}

/// Damaged files: what form and references say of a padded file.
#[test]
fn damaged_files() {
    let mut sides = Sides::new();
    for seed in (0..10_000).filter(|seed| seed % 64 != 63) {
        let file = generate::case(seed);
        let padded = sides.pad(&file).to_vec();
        sides.judge(&padded);
    }
    sides.tried(28_000);
    for number in [0, 4, 5, 6, 7, 8, 9, 10, 11, 12, 14] {
        assert!(sides.faults(number) > 50, "fault {number}");
    }
}

/// As many lines as there may be, with something behind them and not.
#[test]
fn lines_99_999() {
    let mut sides = Sides::new();
    let file = generate::accepted(53, LAST);
    let mut inputs = ["\n", "\r\n", "A\n"]
        .map(|line| line.repeat(LAST).into_bytes())
        .to_vec();
    inputs.extend(ENDS.map(|end| generate::stripped(&file, end)));
    inputs.push(file);
    let long = "x".repeat(81);
    for mut input in inputs {
        try_rooms(&mut sides, &input);
        try_rooms(&mut sides, &input[..input.len() - 1]);
        for behind in ["\n", "\r", "\r\n", " ", "A", "A\nB\n", &long] {
            let length = input.len();
            input.extend_from_slice(behind.as_bytes());
            let answer = sides.pad_lent(&input, LINE * LAST + 1, PAD_WORDS);
            assert_eq!(answer, [2, 100_000, 1, 0]);
            input.truncate(length);
        }
    }
    sides.tried(6 * (4 + 4 + 7));
}

/// A long line before the 100,000th is named, and none from there on.
#[test]
fn a_long_line_and_the_limit() {
    let mut sides = Sides::new();
    for long in [
        "x".repeat(81) + "\n",
        "x".repeat(80) + "\r\r\n",
        "x".repeat(81),
    ] {
        for place in [1, 2, 7, 50_000, LAST - 1, LAST, LAST + 1, LAST + 2] {
            let before = "A\n".repeat(place - 1) + &long;
            for behind in ["".to_string(), "\n".repeat(LAST + 2)] {
                let input = [&before[..], &behind].concat();
                let [number, record, column, _] = sides.pad_lent(input.as_bytes(), 1, PAD_WORDS);
                let expected = if place <= LAST {
                    (5, place, 81)
                } else {
                    (2, LAST + 1, 1)
                };
                assert_eq!((number, record as usize, column), expected);
            }
        }
    }
    sides.tried(3 * 8 * 2);
}
