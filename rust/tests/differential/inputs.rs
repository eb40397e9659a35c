//! Inputs to pad, by family.
//!
//! A pad that looks at a whole line at once has to treat the input's last
//! bytes apart, so what is telling stands at every distance from the end.

use shelf::generate::Dice;

pub type Inputs = fn(&mut dyn FnMut(&[u8]));

/// Those of a line that another follows; the last line may have each of
/// [`LAST_ENDS`].
const ENDS: [&str; 3] = ["\n", "\r\n", "\r\r\n"];
const LAST_ENDS: [&str; 5] = ["\n", "\r\n", "\r\r\n", "\r", ""];

/// What lines are made of, as far as padding tells bytes apart.
const BYTES: &[u8] = b"\n\r A";

/// Lines of telling lengths, up to four, with every mix of ends.
pub fn ends(try_input: &mut dyn FnMut(&[u8])) {
    for before in 0..4 {
        lines_before_the_last(before, &mut Vec::new(), try_input);
    }
}

fn lines_before_the_last(before: usize, input: &mut Vec<u8>, try_input: &mut dyn FnMut(&[u8])) {
    let so_far = input.len();
    for length in [0, 1, 79, 80, 81] {
        for end in if before == 0 { &LAST_ENDS[..] } else { &ENDS } {
            put_line(input, length, end);
            match before {
                0 => try_input(input),
                _ => lines_before_the_last(before - 1, input, try_input),
            }
            input.truncate(so_far);
        }
    }
}

/// Two lines of all lengths up to 90 bytes.
pub fn lengths(try_input: &mut dyn FnMut(&[u8])) {
    for (first, second) in pairs(0..91, 0..91) {
        for (end, last_end) in pairs(ENDS, LAST_ENDS) {
            let mut input = Vec::new();
            put_line(&mut input, first, end);
            put_line(&mut input, second, last_end);
            try_input(&input);
        }
    }
}

/// A line of a telling length with every number of bytes behind its end, up
/// to those of two lines: short lines, full ones, blanks, carriage returns.
pub fn distances(try_input: &mut dyn FnMut(&[u8])) {
    let full = "B".repeat(80) + "\n";
    let behinds = ["\n", "\r\n", "\r", " ", "B\n", "B\r\r\n", &full].map(|some| some.repeat(180));
    for (length, end) in pairs([0, 1, 2, 77, 78, 79, 80, 81, 82], LAST_ENDS) {
        for (behind, distance) in pairs(&behinds, 0..=180) {
            let mut input = Vec::new();
            put_line(&mut input, length, end);
            input.extend_from_slice(&behind.as_bytes()[..distance]);
            try_input(&input);
        }
    }
}

/// Every string of up to seven of the telling bytes.
pub fn strings(try_input: &mut dyn FnMut(&[u8])) {
    every_string(7, try_input);
}

/// Every string of up to six of the telling bytes about the columns where a
/// line is full, at the end of the input and far before it.
pub fn windows(try_input: &mut dyn FnMut(&[u8])) {
    let far = "B\n".repeat(60);
    for (column, behind) in pairs(75..83, ["", &far]) {
        every_string(6, &mut |string| {
            let mut input = Vec::new();
            put_line(&mut input, column, "");
            input.extend_from_slice(string);
            input.extend_from_slice(behind.as_bytes());
            try_input(&input);
        });
    }
}

fn every_string(most: u32, try_string: &mut dyn FnMut(&[u8])) {
    for length in 0..=most {
        for number in 0..BYTES.len().pow(length) {
            let digit = |place| number / BYTES.len().pow(place) % BYTES.len();
            let string: Vec<u8> = (0..length).map(|place| BYTES[digit(place)]).collect();
            try_string(&string);
        }
    }
}

/// Carriage returns and line feeds put at every place, and at every two of
/// them that one look at a line could meet.
pub fn put_in(try_input: &mut dyn FnMut(&[u8])) {
    for (end, last_end) in [("\n", ""), ("\n", "\n"), ("\r\n", "\r\n")] {
        let mut good = Vec::new();
        put_line(&mut good, 80, end);
        put_line(&mut good, 10, end);
        put_line(&mut good, 80, last_end);
        for (one, apart) in pairs(0..good.len(), 0..=84) {
            for bytes in [[b'\r'; 2], *b"\r\n", *b"\n\r", [b'\n'; 2]] {
                let mut input = good.clone();
                let other = (one + apart).min(good.len() - 1);
                input[one] = bytes[0];
                input[other] = bytes[1];
                try_input(&input);
            }
        }
    }
}

/// Parts of a longer input: what stands before and behind them is not lent,
/// be it the line feed that a carriage return would end with.
pub fn cut(try_input: &mut dyn FnMut(&[u8])) {
    for end in ENDS {
        let mut whole = Vec::new();
        for length in [80, 3, 79, 0, 80, 1, 78] {
            put_line(&mut whole, length, end);
        }
        for start in 0..whole.len() {
            for stop in start..=whole.len() {
                try_input(&whole[start..stop]);
            }
        }
    }
}

/// Telling bytes at random, in lines that are short or about full.
pub fn random(try_input: &mut dyn FnMut(&[u8])) {
    let mut dice = Dice::new(51);
    for round in 0..100_000 {
        let feeds = dice.pick(&[2, 5, 20, 60, 200]);
        let returns = dice.pick(&[2, 5, 40]);
        let mut byte = || match () {
            _ if dice.one_in(feeds) => b'\n',
            _ if dice.one_in(returns) => b'\r',
            _ => dice.pick(b" ABC"),
        };
        let input: Vec<u8> = (0..round % 400).map(|_| byte()).collect();
        try_input(&input);
    }
}

/// Adds a line of so many letters, of which neighbours differ.
fn put_line(input: &mut Vec<u8>, length: usize, end: &str) {
    let letters = (b'A'..=b'W').cycle().skip(input.len() % 7);
    input.extend(letters.take(length));
    input.extend_from_slice(end.as_bytes());
}

/// Each of these with each of those.
fn pairs<A: Copy, B>(
    these: impl IntoIterator<Item = A>,
    those: impl IntoIterator<Item = B> + Clone,
) -> impl Iterator<Item = (A, B)> {
    these
        .into_iter()
        .flat_map(move |one| those.clone().into_iter().map(move |other| (one, other)))
}
