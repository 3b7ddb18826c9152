//! Names and words of the command line as messages show them.

use std::ffi::OsStr;
use std::os::unix::ffi::OsStrExt;

/// A file's name for a message.
pub fn of_file(name: &OsStr, standard: &str) -> String {
    if name == "-" {
        standard.to_owned()
    } else {
        shown(name)
    }
}

/// A word with everything escaped that a terminal would not show as it is.
pub fn shown(word: &OsStr) -> String {
    let mut text = String::new();
    for chunk in word.as_bytes().utf8_chunks() {
        for letter in chunk.valid().chars() {
            match letter {
                '"' | '\'' => text.push(letter),
                _ => text.extend(letter.escape_debug()),
            }
        }
        text.extend(chunk.invalid().iter().map(|byte| format!("\\x{byte:02x}")));
    }
    text
}

#[cfg(test)]
mod tests {
    use super::*;

    #[test]
    fn control_characters_are_escaped() {
        for (word, wanted) in [
            (&b"plain name's \"pgm\""[..], "plain name's \"pgm\""),
            (
                "K\u{e4}se \u{7532}.pgm".as_bytes(),
                "K\u{e4}se \u{7532}.pgm",
            ),
            (b"a\nb\x1b[2J", "a\\nb\\u{1b}[2J"),
            ("left\u{202e}right".as_bytes(), "left\\u{202e}right"),
            (b"back\\slash", "back\\\\slash"),
            (b"\xff\xfe!", "\\xff\\xfe!"),
        ] {
            assert_eq!(shown(OsStr::from_bytes(word)), wanted);
        }
    }
}
