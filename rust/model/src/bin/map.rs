//! Document 01's program, in plain Rust: reads a code in hex on standard input and prints its map,
//! an entry a line, or `refused N`.

use std::io::{self, Read};

use model::{HIGHEST_LIMIT, Lent, answer};

const LONGEST: usize = 512;
const NOT_A_CODE: u8 = 10;
const HEADER: usize = 6;

/// The bytes that an even number of hex digits spells, with at most one closing line feed.
fn decoded(text: &[u8]) -> Option<Vec<u8>> {
    let digits = text.strip_suffix(b"\n").unwrap_or(text);
    if !digits.len().is_multiple_of(2) {
        return None;
    }
    let digit = |c: u8| char::from(c).to_digit(16);
    digits
        .chunks(2)
        .map(|pair| Some((digit(pair[0])? * 16 + digit(pair[1])?) as u8))
        .collect()
}

/// Where the first entry ends: its length stands in its first four bytes.
fn first_entry(bytes: &[u8]) -> usize {
    let body = u32::from_le_bytes([bytes[0], bytes[1], bytes[2], bytes[3]]);
    HEADER + body as usize
}

fn print_entries(mut bytes: &[u8]) {
    while !bytes.is_empty() {
        let (entry, rest) = bytes.split_at(first_entry(bytes));
        let line: String = entry.iter().map(|byte| format!("{byte:02x}")).collect();
        println!("{line}");
        bytes = rest;
    }
}

fn main() -> io::Result<()> {
    let mut text = Vec::new();
    io::stdin().read_to_end(&mut text)?;
    let code = decoded(&text).filter(|code| code.len() <= LONGEST);
    let Some(code) = code else {
        println!("refused {NOT_A_CODE}");
        return Ok(());
    };
    let given = answer(&Lent::PROGRAM, HIGHEST_LIMIT, &code);
    match given.number() {
        0 => print_entries(given.written()),
        number => println!("refused {number}"),
    }
    Ok(())
}
