//! File names as text: in messages and in the ledger.

use std::fmt::Write;
use std::os::unix::ffi::OsStrExt;
use std::path::Path;

/// A name on one line and without a tab, from which the very bytes can be had
/// back: backslash, tab, line feed and carriage return are `\\ \t \n \r`;
/// other control characters, what is not seen but changes how the rest is
/// read, and bytes that are no UTF-8 are `\xNN`.
pub fn shown(path: &Path) -> String {
    let mut text = String::new();
    for chunk in path.as_os_str().as_bytes().utf8_chunks() {
        for character in chunk.valid().chars() {
            match character {
                '\\' => text.push_str("\\\\"),
                '\t' => text.push_str("\\t"),
                '\n' => text.push_str("\\n"),
                '\r' => text.push_str("\\r"),
                _ if character.is_control() || is_unseen(character) => {
                    let mut bytes = [0; 4];
                    push_bytes(&mut text, character.encode_utf8(&mut bytes).as_bytes());
                }
                _ => text.push(character),
            }
        }
        push_bytes(&mut text, chunk.invalid());
    }
    text
}

/// Line and paragraph separators, direction marks, joiners and the like: a
/// name could be shown as another by them.
fn is_unseen(character: char) -> bool {
    matches!(
        character,
        '\u{ad}' | '\u{61c}' | '\u{180e}' | '\u{200b}'..='\u{200f}' | '\u{2028}'..='\u{202e}'
            | '\u{2060}'..='\u{206f}' | '\u{feff}' | '\u{fff9}'..='\u{fffb}'
            | '\u{e0000}'..='\u{e007f}'
    )
}

fn push_bytes(text: &mut String, bytes: &[u8]) {
    for byte in bytes {
        // Writing to a string cannot fail.
        let _ = write!(text, "\\x{byte:02X}");
    }
}

#[cfg(test)]
mod tests {
    use super::shown;
    use std::ffi::OsStr;
    use std::os::unix::ffi::OsStrExt;
    use std::path::Path;

    #[test]
    fn names_keep_to_their_column() {
        for (name, text) in [
            (&b"old/north.b"[..], "old/north.b"),
            ("Cañada.b".as_bytes(), "Cañada.b"),
            (b"a\tb\nc\rd", "a\\tb\\nc\\rd"),
            (b"a\\tb", "a\\\\tb"),
            (b"\xff\x1b[1m", "\\xFF\\x1B[1m"),
            ("\u{85}".as_bytes(), "\\xC2\\x85"),
            ("a\u{2028}b".as_bytes(), "a\\xE2\\x80\\xA8b"),
            ("\u{202e}b.exe".as_bytes(), "\\xE2\\x80\\xAEb.exe"),
            (
                "\u{feff}\u{2067}".as_bytes(),
                "\\xEF\\xBB\\xBF\\xE2\\x81\\xA7",
            ),
        ] {
            assert_eq!(shown(Path::new(OsStr::from_bytes(name))), text);
        }
    }
}
