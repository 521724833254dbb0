//! `tests/source.list`: longer codes, longer searches and codes over 24,576 bytes, with the unchanged Rust's blocks
//! as text, for the transcription of the Rust's files.

use crate::answers::telling;
use agree::{families, json};
use codes::{Random, worst};
use std::ops::RangeInclusive;

/// `code text`; a run of one byte in the code is `byte*count`, and `+` joins the pieces.
pub fn text(code: &[u8]) -> String {
    format!(
        "{} {}",
        pieces(code),
        json::of_model(&agree::rust_blocks(code))
    )
}

/// Energy of a search that takes the prover a second, and of one that takes it some.
const SEARCHED: RangeInclusive<u64> = 61..=300;
const LONGER: RangeInclusive<u64> = 301..=1_500;
/// The lengths of these codes.
const LENGTHS: RangeInclusive<usize> = 201..=900;

/// So many codes of a family are looked at.
const TRIED: usize = 2_000;

/// At most how many codes of which family, and how much energy their search uses.
const PARTS: [(&str, usize, RangeInclusive<u64>); 5] = [
    ("woven-long", 3, 10..=60),
    ("calls-middle", 3, 10..=60),
    ("calls-middle", 3, SEARCHED),
    ("calls-large", 2, SEARCHED),
    ("calls-middle", 2, LONGER),
];

pub fn lines() -> Vec<Vec<u8>> {
    let mut random = Random::new(41);
    let mut codes = vec![
        worst::fan(12),
        worst::diamonds(5),
        worst::sharing(5),
        worst::doubling(5),
        worst::row(10),
    ];
    codes.extend(HELD.map(hex));
    for (name, count, energy) in PARTS {
        let test = |code: &Vec<u8>| LENGTHS.contains(&code.len()) && telling(code, &energy);
        let next = families::named(name).next;
        let tried: Vec<_> = (0..TRIED).map(|_| next(&mut random)).collect();
        codes.extend(tried.into_iter().filter(test).take(count));
    }
    codes.push(far(24_577));
    codes
}

/// Loops and returns whose search goes on.
const HELD: [&str; 2] = ["60025b805b56", "5b805b60065756"];

fn hex(text: &str) -> Vec<u8> {
    codes::from_hex(text).expect("a code of this program is hexadecimal")
}

/// A call from the first block into a function at the end of a code of this length, which returns behind the call; between
/// them PUSH32s, so that there are few instructions.
fn far(length: usize) -> Vec<u8> {
    let mut code = vec![0x7f; length];
    let function = length - 2;
    let [high, low] = u16::try_from(function)
        .expect("a place in a code")
        .to_be_bytes();
    // PUSH2 7, PUSH2 function, JUMP, JUMPDEST, STOP.
    code[..9].copy_from_slice(&[0x61, 0x00, 0x07, 0x61, high, low, 0x56, 0x5b, 0x00]);
    // PUSH32s take 33 bytes each: what is left over is JUMPDESTs, and then JUMPDEST, JUMP.
    let over = (function - 9) % 33;
    code[function - over..].fill(0x5b);
    code[length - 1] = 0x56;
    code
}

fn pieces(code: &[u8]) -> String {
    let mut parts: Vec<String> = Vec::new();
    let mut plain: Vec<u8> = Vec::new();
    for run in code.chunk_by(|a, b| a == b) {
        if run.len() <= 64 {
            plain.extend(run);
            continue;
        }
        if !plain.is_empty() {
            parts.push(codes::to_hex(&plain));
            plain.clear();
        }
        parts.push(format!("{:02x}*{}", run[0], run.len()));
    }
    if !plain.is_empty() {
        parts.push(codes::to_hex(&plain));
    }
    parts.join("+")
}
