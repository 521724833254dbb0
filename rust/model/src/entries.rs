//! "Output entries: length of body (4 bytes), kind (2), body; little-endian."

use crate::blocks::{Block, Entry, Kind};
use crate::family::Family;
use crate::map::Map;
use crate::search::Record;

const HEADER: usize = 6;

/// The whole output: head, blocks by start each with its entries, records as found; one that has its number is of another kind.
pub fn write(code_length: usize, map: &Map) -> Vec<u8> {
    let family = Family::of(code_length);
    let mut out = Vec::new();
    entry(&mut out, 1, &head(code_length, map));
    blocks(&mut out, code_length, &map.blocks);
    for record in &map.records {
        let mut body = address(record.start).to_vec();
        body.extend(destination(family, record.to));
        body.extend(
            record
                .energy
                .into_iter()
                .flat_map(|energy| count(energy as usize)),
        );
        body.extend(path(&record.path));
        let kind = match record.energy {
            Some(_) => family.numbered,
            None => family.record,
        };
        entry(&mut out, kind, &body);
    }
    out
}

/// The length of what `write` gives, without writing it.
pub fn length(map: &Map) -> usize {
    let of_block = |block: &Block| match &block.kind {
        Kind::Terminate { .. } => HEADER + 5,
        Kind::Jump { .. } => HEADER + 6,
        Kind::Jumpi { .. } => HEADER + 8,
        Kind::DynamicJump { entries } => HEADER + 8 + of_entries(entries),
        Kind::DynamicJumpi { entries, .. } => HEADER + 10 + of_entries(entries),
    };
    let number = |record: &Record| if record.energy.is_some() { 4 } else { 0 };
    let of_record = |record: &Record| HEADER + 8 + number(record) + 2 * record.path.len();
    let blocks: usize = map.blocks.iter().map(of_block).sum();
    HEADER + 12 + blocks + map.records.iter().map(of_record).sum::<usize>()
}

fn of_entries(entries: &[Entry]) -> usize {
    entries
        .iter()
        .map(|entry| HEADER + 6 + 2 * entry.path.len())
        .sum()
}

/// The entries of the blocks, each with its paths.
pub fn blocks(out: &mut Vec<u8>, code_length: usize, blocks: &[Block]) {
    let family = Family::of(code_length);
    for block in blocks {
        let (kind, body, entries) = described(block);
        entry(out, kind, &body);
        for found in entries {
            entry(out, family.seven, &way(family, found));
        }
    }
}

fn entry(out: &mut Vec<u8>, kind: u16, body: &[u8]) {
    out.extend(count(body.len()));
    out.extend(kind.to_le_bytes());
    out.extend(body);
}

fn head(code_length: usize, map: &Map) -> Vec<u8> {
    let mut body = address(code_length).to_vec();
    body.extend(address(map.blocks.len()));
    body.extend(count(map.records.len()));
    body.extend(count(map.energy as usize));
    body
}

/// A block's kind, its body and the entries that follow it.
fn described(block: &Block) -> (u16, Vec<u8>, &[Entry]) {
    let mut body = address(block.start).to_vec();
    body.extend(address(block.end));
    let (kind, rest, entries): (u16, Vec<u8>, &[Entry]) = match &block.kind {
        Kind::Terminate { success } => (2, vec![u8::from(*success)], &[]),
        Kind::Jump { to } => (3, address(*to).to_vec(), &[]),
        Kind::Jumpi { yes, no } => (4, [address(*yes), address(*no)].concat(), &[]),
        Kind::DynamicJump { entries } => (5, count(entries.len()).to_vec(), entries),
        Kind::DynamicJumpi { no, entries } => {
            let mut rest = address(*no).to_vec();
            rest.extend(count(entries.len()));
            (6, rest, entries)
        }
    };
    body.extend(rest);
    (kind, body, entries)
}

/// "To, path length, path".
fn way(family: Family, found: &Entry) -> Vec<u8> {
    let mut body = destination(family, found.to).to_vec();
    body.extend(path(&found.path));
    body
}

fn destination(family: Family, to: Option<usize>) -> [u8; 2] {
    to.map_or(family.nowhere.to_le_bytes(), address)
}

fn path(blocks: &[usize]) -> Vec<u8> {
    let mut body = count(blocks.len()).to_vec();
    body.extend(blocks.iter().flat_map(|block| address(*block)));
    body
}

fn address(value: usize) -> [u8; 2] {
    let value = u16::try_from(value).expect("no address is beyond the longest code");
    value.to_le_bytes()
}

fn count(value: usize) -> [u8; 4] {
    let value = u32::try_from(value).expect("no count passes four bytes in a lent output");
    value.to_le_bytes()
}
