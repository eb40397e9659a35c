//! What could have stood in a column of a bad field. The library is asked, so
//! that its rules are said nowhere a second time.

use crate::fields::Field;
use shelf::library;

/// More than these are not taken in at a glance.
const MOST_PARTS: usize = 3;

/// What the column that is named of a bad field could have held, in words.
/// Nothing where that is not short, nor for a field of one column, whose own
/// words say it.
pub fn have_held(line: &[u8], field: &Field, column: u32) -> Option<String> {
    if field.width() == 1 {
        return None;
    }
    let could: Vec<u8> = (b' '..=b'~')
        .filter(|&character| could_be(line, column, character))
        .collect();
    in_words(&could)
}

/// What stands before the column begins an acceptable field, since the column
/// is the first to be named. So with a character that could have stood there
/// another is named, or none; with any other it is named again.
fn could_be(line: &[u8], column: u32, character: u8) -> bool {
    let mut tried = line.to_vec();
    tried[column as usize - 1] = character;
    let read = library::read(&tried, 1);
    !read.is_err_and(|fault| (fault.number, fault.column) == (9, column))
}

/// Characters in rising order, in words.
fn in_words(characters: &[u8]) -> Option<String> {
    let runs = characters.chunk_by(|one, next| is_run(*one, *next));
    let parts: Vec<String> = runs.flat_map(parts).collect();
    match &parts[..] {
        [only] => Some(only.clone()),
        [others @ .., last] if parts.len() <= MOST_PARTS => {
            Some(format!("{} or {last}", others.join(", ")))
        }
        _ => None,
    }
}

/// Whether both are digits, or both letters, and neighbours.
fn is_run(one: u8, next: u8) -> bool {
    let all = |belongs: fn(&u8) -> bool| [one, next].iter().all(belongs);
    next - one == 1 && (all(u8::is_ascii_digit) || all(u8::is_ascii_uppercase))
}

fn parts(run: &[u8]) -> Vec<String> {
    let shown = |character: &u8| char::from(*character).to_string();
    match run {
        b" " => vec!["a blank".to_string()],
        b"-" => vec!["a minus".to_string()],
        b"0123456789" => vec!["a digit".to_string()],
        [first, _, .., last] => {
            let what = match first.is_ascii_digit() {
                true => "digit",
                false => "letter",
            };
            vec![format!("a {what} {} to {}", shown(first), shown(last))]
        }
        // Of two each is named.
        few => few.iter().map(shown).collect(),
    }
}

#[cfg(test)]
mod tests {
    use super::in_words;

    #[test]
    fn short_sets_are_said() {
        for (characters, words) in [
            ("0", "0"),
            ("01", "0 or 1"),
            ("012", "a digit 0 to 2"),
            ("012345678", "a digit 0 to 8"),
            ("123456789", "a digit 1 to 9"),
            ("0123456789", "a digit"),
            (" 0123456789", "a blank or a digit"),
            (" -0123456789", "a blank, a minus or a digit"),
            ("ABCDEFGHIJKLMNOPQRSTUVWXYZ", "a letter A to Z"),
            (
                "0123456789ABCDEFGHIJKLMNOPQRSTUVWXYZ",
                "a digit or a letter A to Z",
            ),
            ("NS", "N or S"),
            (" NY", "a blank, N or Y"),
            ("029", "0, 2 or 9"),
            ("9A", "9 or A"),
        ] {
            assert_eq!(in_words(characters.as_bytes()).unwrap(), words);
        }
    }

    #[test]
    fn of_long_sets_and_of_none_nothing_is_said() {
        let printable: String = (' '..='~').collect();
        for characters in ["", " -NS", "0134", "ACEG", "'()*+,-./", &printable] {
            assert_eq!(in_words(characters.as_bytes()), None, "{characters}");
        }
    }
}
