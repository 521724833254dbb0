//! What is printed of a map.

use compare::quoted;

use crate::given::Given;

const HEADER: usize = 6;
const DIGITS: &[u8; 16] = b"0123456789abcdef";

/// JSON is stored where maps are.
#[derive(Clone, Copy, Debug, PartialEq, Eq)]
pub enum Print {
    Lines,
    Summary,
    Json,
    Dot,
}

impl Print {
    /// The one that is asked for, if one is: the last counts.
    pub fn asked(given: &Given) -> Option<Print> {
        let name = given.last(&["--lines", "--summary", "--json", "--dot"])?;
        Some(match name {
            "--summary" => Print::Summary,
            "--json" => Print::Json,
            "--dot" => Print::Dot,
            _ => Print::Lines,
        })
    }
}

/// With a line of the path before it, where there are more.
pub fn titled(many: bool, title: &str, text: &str) -> String {
    if many {
        format!("== {title}\n{text}")
    } else {
        text.into()
    }
}

/// The blocks as JSON on a line; where there are more, in an object with the path.
pub fn json(many: bool, path: &str, blocks: &str) -> String {
    if many {
        format!("{{\"path\":{},\"blocks\":{blocks}}}\n", quoted(path))
    } else {
        format!("{blocks}\n")
    }
}

/// Each entry as lower-case hexadecimal digits on a line.
pub fn lines(mut entries: &[u8]) -> String {
    let mut text = String::new();
    while let Some(length) = entries.first_chunk().map(|four| u32::from_le_bytes(*four)) {
        let end = (HEADER + length as usize).min(entries.len());
        let (entry, rest) = entries.split_at(end);
        for byte in entry {
            text.push(char::from(DIGITS[usize::from(byte >> 4)]));
            text.push(char::from(DIGITS[usize::from(byte & 15)]));
        }
        text.push('\n');
        entries = rest;
    }
    text
}
