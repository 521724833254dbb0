//! Reading a contract: hexadecimal digits or the bytes themselves.

use std::fs::File;
use std::io::{self, Read};
use std::path::Path;

use aznifrem::Map;

use crate::given::Given;

/// What the files hold.
#[derive(Clone, Copy, Debug, PartialEq, Eq)]
pub enum Form {
    ToldApart,
    Hex,
    Binary,
}

impl Form {
    /// The one that is asked for: the last counts.
    pub fn asked(given: &Given) -> Form {
        match given.last(&["--hex", "--binary"]) {
            Some("--hex") => Form::Hex,
            Some(_) => Form::Binary,
            None => Form::ToldApart,
        }
    }
}

/// No contract has a file as large as this, in digits and with white space between them.
const LARGEST: u64 = 1 << 20;

/// The code that a file holds.
#[derive(Clone, Debug, PartialEq, Eq)]
pub struct Code {
    pub bytes: Vec<u8>,
    /// The file holds nothing, and nobody said that this is meant.
    pub blank: bool,
}

/// The bytes of the code that a file holds, or a sentence that says why it holds none.
pub fn code(path: &Path, form: Form) -> Result<Vec<u8>, String> {
    read(path, form).map(|code| code.bytes)
}

/// The code that a file holds, or a sentence that says why it holds none.
pub fn read(path: &Path, form: Form) -> Result<Code, String> {
    let held = if path == Path::new("-") {
        limited(io::stdin().lock())
    } else {
        of_file(path)
    };
    let held = held.map_err(|error| format!("cannot be read: {error}"))?;
    let held = held.map_err(|length| {
        let length = length.map_or(format!("more than {LARGEST}"), |length| length.to_string());
        format!(
            "has {length} bytes, and the file of a contract at most {LARGEST}: it is not read whole"
        )
    })?;
    let blank = form == Form::ToldApart && held.iter().all(u8::is_ascii_whitespace);
    let bytes = decoded(held, form)?;
    Ok(Code { bytes, blank })
}

/// What a file holds, or how much that is, if it is known, where no contract holds so much.
fn of_file(path: &Path) -> io::Result<Result<Vec<u8>, Option<u64>>> {
    let file = File::open(path)?;
    let length = file.metadata()?.len();
    if length > LARGEST {
        return Ok(Err(Some(length)));
    }
    limited(file)
}

/// What comes may be more than a file says, and a pipe says nothing.
fn limited(from: impl Read) -> io::Result<Result<Vec<u8>, Option<u64>>> {
    let mut bytes = Vec::new();
    from.take(LARGEST + 1).read_to_end(&mut bytes)?;
    if bytes.len() as u64 > LARGEST {
        return Ok(Err(None));
    }
    Ok(Ok(bytes))
}

/// The code that these bytes stand for.
pub fn decoded(bytes: Vec<u8>, form: Form) -> Result<Vec<u8>, String> {
    match form {
        Form::Binary => Ok(bytes),
        Form::Hex => hex(&bytes),
        Form::ToldApart if looks_hex(&bytes) => hex(&bytes),
        Form::ToldApart if begins_with_mark(&bytes) => Err(
            "begins with a byte order mark, as text may: save it as plain hexadecimal digits, or say --binary if these are the code's bytes"
                .into(),
        ),
        Form::ToldApart if is_text(&bytes) => Err(
            "is text, but not hexadecimal digits: link its libraries if it names some, or say --binary"
                .into(),
        ),
        Form::ToldApart => match Map::try_from_bytes(&bytes) {
            Ok(Ok(_)) => Err(
                "is a stored map, not a contract: show prints it, diff compares it, and --binary maps it all the same"
                    .into(),
            ),
            Ok(Err(_)) => Ok(bytes),
            Err(not_relayed) => Err(not_relayed.to_string()),
        },
    }
}

/// What is left of a hexadecimal text without white space and its 0x.
fn digits(bytes: &[u8]) -> Vec<u8> {
    let spaces = |byte: &u8| !byte.is_ascii_whitespace();
    let mut digits: Vec<u8> = bytes.iter().copied().filter(spaces).collect();
    if digits.starts_with(b"0x") || digits.starts_with(b"0X") {
        digits.drain(..2);
    }
    digits
}

fn looks_hex(bytes: &[u8]) -> bool {
    digits(bytes).iter().all(u8::is_ascii_hexdigit)
}

/// Of UTF-8, and of UTF-16 in either order.
fn begins_with_mark(bytes: &[u8]) -> bool {
    let marks: [&[u8]; 3] = [&[0xef, 0xbb, 0xbf], &[0xff, 0xfe], &[0xfe, 0xff]];
    marks.iter().any(|mark| bytes.starts_with(mark))
}

/// A contract has bytes that are no text almost at once; where it does not, a flag is for that.
pub fn is_text(bytes: &[u8]) -> bool {
    let text = |letter: char| !letter.is_control() || letter.is_whitespace();
    str::from_utf8(bytes).is_ok_and(|letters| letters.chars().all(text))
}

fn hex(bytes: &[u8]) -> Result<Vec<u8>, String> {
    let digits = digits(bytes);
    if let Some(bad) = digits.iter().position(|digit| !digit.is_ascii_hexdigit()) {
        return Err(no_digit(bytes, digits.len() - bad));
    }
    if !digits.len().is_multiple_of(2) {
        return Err(format!(
            "has {} hexadecimal digits, and a code has two for each byte",
            digits.len()
        ));
    }
    let value = |digit: u8| char::from(digit).to_digit(16).unwrap_or(0) as u8;
    let byte = |pair: &[u8]| value(pair[0]) * 16 + value(pair[1]);
    Ok(digits.chunks(2).map(byte).collect())
}

/// What stands where a digit should, and where: so many from the end, white space not counted.
fn no_digit(bytes: &[u8], from_end: usize) -> String {
    let solid = bytes.iter().enumerate().rev();
    let mut solid = solid.filter(|(_, byte)| !byte.is_ascii_whitespace());
    let at = solid.nth(from_end - 1).map_or(0, |(at, _)| at);
    let line = 1 + bytes[..at].iter().filter(|byte| **byte == b'\n').count();
    let column = 1 + bytes[..at]
        .iter()
        .rev()
        .take_while(|byte| **byte != b'\n')
        .count();
    let letter = bytes[at..].utf8_chunks().next();
    let letter = letter.and_then(|chunk| chunk.valid().chars().next());
    let what = match letter {
        Some(letter) => format!("'{}'", letter.escape_debug()),
        None => format!("the byte 0x{:02x}", bytes[at]),
    };
    format!(
        "has {what} at line {line}, column {column}, and that is no hexadecimal digit: link its libraries if it names some, or leave --hex out if these are the code's bytes"
    )
}

#[cfg(test)]
mod tests {
    use super::{Form, decoded};

    fn told_apart(bytes: &[u8]) -> Result<Vec<u8>, String> {
        decoded(bytes.to_vec(), Form::ToldApart)
    }

    #[test]
    fn hexadecimal_and_binary_are_told_apart() {
        assert_eq!(told_apart(b"0x6000\n56\n"), Ok(vec![0x60, 0x00, 0x56]));
        assert_eq!(told_apart(b"5B"), Ok(vec![0x5b]));
        assert_eq!(told_apart(b"\n"), Ok(vec![]));
        assert_eq!(told_apart(&[0x60, 0x00, 0x56]), Ok(vec![0x60, 0x00, 0x56]));
    }

    #[test]
    fn a_flag_decides_where_both_are_possible() {
        assert_eq!(
            decoded(b"5b56".to_vec(), Form::Binary),
            Ok(b"5b56".to_vec())
        );
        assert_eq!(decoded(b"5b56".to_vec(), Form::Hex), Ok(vec![0x5b, 0x56]));
        assert!(decoded(vec![0x60, 0x00], Form::Hex).is_err());
    }

    #[test]
    fn text_that_is_not_ascii_is_no_contract() {
        for text in ["6000\u{a0}56", "0x6000 – 56", "ж", "\u{200b}6000\r\n"] {
            let said = told_apart(text.as_bytes()).expect_err("it is text");
            assert!(said.contains("is text") && said.contains("--binary"));
            let kept = decoded(text.into(), Form::Binary);
            assert_eq!(kept, Ok(text.as_bytes().to_vec()));
        }
        // Bytes that are no UTF-8, and controls, are a contract's.
        for code in [&[0x60, 0x80, 0x60, 0x40, 0x52][..], b"W\x00W", b"\x7f5b"] {
            assert_eq!(told_apart(code), Ok(code.to_vec()));
        }
    }

    #[test]
    fn byte_order_marks_are_refused() {
        for marked in [
            &b"\xef\xbb\xbf6000"[..],
            b"\xff\xfe6\x000\x00",
            b"\xfe\xff\x006\x000",
        ] {
            let said = told_apart(marked).expect_err("it begins with a mark");
            assert!(said.contains("byte order mark") && said.contains("--binary"));
            let kept = decoded(marked.to_vec(), Form::Binary);
            assert_eq!(kept, Ok(marked.to_vec()));
        }
    }

    #[test]
    fn what_is_neither_is_said() {
        let said = told_apart(b"6000__$lib$__56").expect_err("it names a library");
        assert!(said.contains("link its libraries"));
        let said = told_apart(b"600").expect_err("it is cut");
        assert!(said.contains("3 hexadecimal digits"));
        let stored = aznifrem::map(&[0x00], 0)
            .expect("STOP has a map")
            .to_bytes();
        let said = told_apart(&stored.expect("it fits")).expect_err("it is a map");
        assert!(said.contains("is a stored map"));
    }
}
