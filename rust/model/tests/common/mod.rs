//! What the tests share.

#![allow(dead_code)]

use model::{Answer, HIGHEST_LIMIT, Lent, Map};

pub fn code(text: &str) -> Vec<u8> {
    codes::from_hex(text).expect("a test's code is hexadecimal")
}

/// The map at the highest limit with all the room there is.
pub fn whole(text: &str) -> Map {
    at(HIGHEST_LIMIT, text)
}

/// The map at a limit with all the room there is.
pub fn at(limit: u64, text: &str) -> Map {
    model::map(&Lent::ALL, limit, &code(text)).expect("a test's code is answered")
}

/// What the program of document 01 prints, line by line.
pub fn printed(text: &str) -> Vec<String> {
    printed_at(HIGHEST_LIMIT, text)
}

pub fn printed_at(limit: u64, text: &str) -> Vec<String> {
    match model::answer(&Lent::PROGRAM, limit, &code(text)) {
        Answer::Refused(refusal) => vec![format!("refused {}", refusal.number())],
        Answer::Answered(bytes) => lines(&bytes),
    }
}

/// Cuts an output into its entries.
fn lines(mut bytes: &[u8]) -> Vec<String> {
    let mut lines = Vec::new();
    while let Some((length, _)) = bytes.split_first_chunk() {
        let (entry, rest) = bytes.split_at(6 + u32::from_le_bytes(*length) as usize);
        lines.push(codes::to_hex(entry));
        bytes = rest;
    }
    lines
}

/// The blocks of a map in a few letters: `0-2 Jump 3`, entries as `to<path`.
pub fn blocks(map: &Map) -> Vec<String> {
    map.blocks.iter().map(short).collect()
}

fn short(block: &model::Block) -> String {
    let kind = match &block.kind {
        model::Kind::Terminate { success } => format!("{success}"),
        model::Kind::Jump { to } => format!("Jump {to}"),
        model::Kind::Jumpi { yes, no } => format!("Jumpi {yes}/{no}"),
        model::Kind::DynamicJump { entries } => format!("DynamicJump{}", ways(entries)),
        model::Kind::DynamicJumpi { no, entries } => format!("DynamicJumpi {no}{}", ways(entries)),
    };
    format!("{}-{} {kind}", block.start, block.end)
}

fn ways(entries: &[model::Entry]) -> String {
    entries
        .iter()
        .map(|entry| format!(" {}", way(entry.to, &entry.path)))
        .collect()
}

/// A path and where it leads: `5<13,0`; `-` for nowhere.
pub fn way(to: Option<usize>, path: &[usize]) -> String {
    let to = to.map_or("-".into(), |to| to.to_string());
    let path: Vec<String> = path.iter().map(usize::to_string).collect();
    format!("{to}<{}", path.join(","))
}

pub fn records(map: &Map) -> Vec<String> {
    map.records
        .iter()
        .map(|record| way(record.to, &record.path))
        .collect()
}
