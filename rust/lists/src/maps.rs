//! `tests/rust.list`: codes with the unchanged Rust's blocks, as document 01 writes them.

use crate::answers::{chosen, digits, telling, whole};
use agree::families;
use codes::Random;
use model::{Kind, entries};
use std::collections::HashSet;
use std::ops::RangeInclusive;

/// `code blocks`: the entries of the blocks in order, each with its paths, made from the Rust's answer.
pub fn text(code: &[u8]) -> String {
    let mut blocks = Vec::new();
    entries::blocks(&mut blocks, code.len(), &agree::rust_blocks(code));
    format!("{} {}", digits(code), digits(&blocks))
}

const LONGEST: usize = 200;
/// Energy of a search that a prover goes through in well under a second, and of a longer one.
const LIGHT: RangeInclusive<u64> = 0..=60;
const LONGER: RangeInclusive<u64> = 61..=200;

/// How many codes of which family, and how much energy their search uses.
const PARTS: [(&str, usize, RangeInclusive<u64>); 11] = [
    ("noise", 25, LIGHT),
    ("jumpy", 60, LIGHT),
    ("jumpy-long", 20, LIGHT),
    ("mutants", 75, LIGHT),
    ("woven", 100, LIGHT),
    ("woven-long", 50, LIGHT),
    ("calls-small", 100, LIGHT),
    ("calls-middle", 30, LIGHT),
    ("calls-small", 2, LONGER),
    ("calls-middle", 6, LONGER),
    ("clz", 25, LIGHT),
];

/// The empty code, and codes that are not among those taken already.
pub fn lines(mut taken: HashSet<Vec<u8>>) -> Vec<Vec<u8>> {
    let mut random = Random::new(21);
    let mut codes = vec![Vec::new()];
    codes.extend(
        short()
            .into_iter()
            .filter(|code| taken.insert(code.clone())),
    );
    for (name, count, energy) in PARTS {
        let test = |code: &Vec<u8>| {
            code.len() <= LONGEST && !taken.contains(code) && telling(code, &energy) && wanted(code)
        };
        let new = chosen(families::named(name), &mut random, count, test);
        taken.extend(new.iter().cloned());
        codes.extend(new);
    }
    codes
}

/// Maps without a dynamic jump are common: one in six is enough of them.
fn wanted(code: &[u8]) -> bool {
    let sum: usize = code.iter().map(|byte| usize::from(*byte)).sum();
    dynamic(code) || sum.is_multiple_of(6)
}

/// Codes of one and two bytes whose map is not that of most.
fn short() -> Vec<Vec<u8>> {
    let texts = [
        "01", "0c", "1f", "50", "58", "5f", "80", "fd", "fe", "ff", "f3", "61", "6000", "5b56",
        "5b57", "3056", "3057", "5b5b", "5b00", "0c00", "5756", "5757", "575b", "5c5b", "7f00",
    ];
    let code = |text: &str| codes::from_hex(text).expect("a code of this program is hexadecimal");
    texts.map(code).to_vec()
}

/// Whether the map has a dynamic block left, or the search recorded anything.
fn dynamic(code: &[u8]) -> bool {
    let kinds = |kind: &Kind| matches!(kind, Kind::DynamicJump { .. } | Kind::DynamicJumpi { .. });
    whole(code).is_some_and(|map| {
        !map.records.is_empty() || map.blocks.iter().any(|block| kinds(&block.kind))
    })
}
