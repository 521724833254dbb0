//! What the lists hold, counted: the figures of docs/LISTS.md.

use crate::answers::Line;
use agree::ENOUGH;
use model::{HIGHEST_LIMIT, Kind, LONGEST_CODE};
use std::collections::BTreeMap;

/// Lines by refusal, by kind of entry in their output, and the weight of the searches.
pub fn of_answers(lines: &[Line]) -> String {
    let mut numbers: BTreeMap<u8, usize> = BTreeMap::new();
    let mut kinds: BTreeMap<u16, usize> = BTreeMap::new();
    for line in lines {
        let answer = line.answer();
        *numbers.entry(answer.number()).or_default() += 1;
        count_kinds(answer.written(), &mut kinds);
    }
    let calls = lines.iter().map(|line| (line.limit, &line.code[..]));
    format!(
        "answers.list: {} lines; by number {numbers:?}; with an entry of kind {kinds:?}; {}",
        lines.len(),
        weights(calls.collect())
    )
}

/// The calls of `tests/sessions.list` by refusal.
pub fn of_sessions(lines: &[Line]) -> String {
    let mut numbers: BTreeMap<u8, usize> = BTreeMap::new();
    for line in lines {
        *numbers.entry(line.answer().number()).or_default() += 1;
    }
    format!(
        "sessions.list: {} calls; by number {numbers:?}",
        lines.len()
    )
}

/// Codes by what is in their map.
pub fn of_maps(codes: &[Vec<u8>]) -> String {
    let mut kinds: BTreeMap<u16, usize> = BTreeMap::new();
    let (mut nowhere, mut pruned) = (0, 0);
    for code in codes {
        let blocks = agree::rust_blocks(code);
        let mut bytes = Vec::new();
        model::entries::blocks(&mut bytes, code.len(), &blocks);
        count_kinds(&bytes, &mut kinds);
        nowhere += usize::from(blocks.iter().any(|block| leads_nowhere(&block.kind)));
        pruned += usize::from(model::blocks::blocks(code).len() > blocks.len());
    }
    let calls = codes.iter().map(|code| (HIGHEST_LIMIT, &code[..]));
    format!(
        "rust.list: {} lines; with an entry of kind {kinds:?}; {nowhere} with an entry without \
         destination, {pruned} with pruned blocks; {}",
        codes.len(),
        weights(calls.collect())
    )
}

/// Counts, once for an output, each kind of entry that it holds.
fn count_kinds(mut bytes: &[u8], kinds: &mut BTreeMap<u16, usize>) {
    let mut held = std::collections::BTreeSet::new();
    while let [a, b, c, d, e, f, rest @ ..] = bytes {
        let length = u32::from_le_bytes([*a, *b, *c, *d]) as usize;
        held.insert(u16::from_le_bytes([*e, *f]));
        bytes = &rest[length..];
    }
    for kind in held {
        *kinds.entry(kind).or_default() += 1;
    }
}

fn leads_nowhere(kind: &Kind) -> bool {
    match kind {
        Kind::DynamicJump { entries } | Kind::DynamicJumpi { entries, .. } => {
            entries.iter().any(|entry| entry.to.is_none())
        }
        _ => false,
    }
}

/// How long the codes are and how much energy their searches use, refused calls left out.
fn weights(calls: Vec<(u64, &[u8])>) -> String {
    let maps = calls
        .iter()
        .filter_map(|(limit, code)| model::map(&ENOUGH, *limit, code).ok());
    let used: Vec<u64> = maps.map(|map| map.energy).collect();
    let over = used.iter().filter(|energy| **energy > 60).count();
    let most = used.iter().max().unwrap_or(&0);
    let lengths = calls.iter().map(|(_, code)| code.len());
    let longest = lengths.filter(|length| *length <= LONGEST_CODE).max();
    format!(
        "energy over 60 in {over}, at most {most}; the longest code that is not refused {} bytes",
        longest.unwrap_or(0)
    )
}
