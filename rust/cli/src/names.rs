//! Names of files as they are shown: on one line, whatever is in them, and no two alike.

use std::fmt::Write;
use std::os::unix::ffi::OsStrExt;
use std::path::Path;

/// The path with what would move a terminal's cursor, or hide, written as an escape: `\n`, `\x1b`,
/// `\u{202e}`; bytes that are no UTF-8 as `\xff`; and a backslash as two.
pub fn shown(path: &Path) -> String {
    let mut text = String::new();
    for chunk in path.as_os_str().as_bytes().utf8_chunks() {
        chunk
            .valid()
            .chars()
            .for_each(|letter| put(&mut text, letter));
        for byte in chunk.invalid() {
            // Writing to a String does not fail.
            let _ = write!(text, "\\x{byte:02x}");
        }
    }
    text
}

fn put(text: &mut String, letter: char) {
    let _ = match letter {
        '\\' => write!(text, "\\\\"),
        '\n' => write!(text, "\\n"),
        '\r' => write!(text, "\\r"),
        '\t' => write!(text, "\\t"),
        '\0'..='\x7f' if letter.is_control() => write!(text, "\\x{:02x}", u32::from(letter)),
        _ if letter.is_control() || hides(letter) => {
            write!(text, "\\u{{{:x}}}", u32::from(letter))
        }
        _ => write!(text, "{letter}"),
    };
}

/// Letters without a shape, and those that turn the direction of what follows.
fn hides(letter: char) -> bool {
    matches!(
        letter,
        '\u{ad}' | '\u{61c}' | '\u{180e}' | '\u{200b}'..='\u{200f}' | '\u{2028}'..='\u{202e}'
            | '\u{2060}'..='\u{206f}' | '\u{feff}' | '\u{fff9}'..='\u{fffb}'
    )
}

#[cfg(test)]
mod tests {
    use super::shown;
    use std::ffi::OsStr;
    use std::os::unix::ffi::OsStrExt;
    use std::path::Path;

    fn of(bytes: &[u8]) -> String {
        shown(Path::new(OsStr::from_bytes(bytes)))
    }

    #[test]
    fn plain_names_are_shown_as_they_are() {
        for name in [
            "deep/a b.hex",
            "Größe.hex",
            "契約/1.bin",
            "'quoted' \"name\"",
        ] {
            assert_eq!(of(name.as_bytes()), name);
        }
    }

    #[test]
    fn what_a_terminal_would_obey_is_escaped() {
        assert_eq!(of(b"a\x1b[2Jb\nc"), "a\\x1b[2Jb\\nc");
        assert_eq!(of("a\u{202e}b\u{9b}2J".as_bytes()), "a\\u{202e}b\\u{9b}2J");
        assert_eq!(of(b"a\xffb"), "a\\xffb");
        // Not the same name, and not shown alike.
        assert_eq!(of(b"a\\xffb"), "a\\\\xffb");
    }
}
