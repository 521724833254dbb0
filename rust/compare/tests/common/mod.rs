//! Pairs of maps: of codes through the model, and of nothing but numbers.
#![allow(dead_code, reason = "each test takes what it needs")]

pub mod moved;

use aznifrem::{Block, BlockType, DynamicJump, HIGHEST_LIMIT, Map, Record};
use codes::corners::CORNERS;
use codes::random::{Random, jumpy, mutant};
use codes::solidity::{self, Shape};
use codes::woven;
use model::{Kind, Lent};

const ENOUGH: Lent = Lent {
    w: u64::MAX,
    p: 2 << 14,
    s: 9 << 20,
    t: 32 << 16,
    r: 32 << 14,
    q: 2 << 20,
    out: 1 << 24,
};

/// The model's map of a code; none if the code needs very much.
pub fn map_of(code: &[u8], limit: u64) -> Option<Map> {
    let map = model::map(&ENOUGH, limit, code).ok()?;
    let jumps = |entries: &[model::Entry]| -> Vec<DynamicJump> {
        let jump = |entry: &model::Entry| jump(&entry.path, entry.to);
        entries.iter().map(jump).collect()
    };
    let block = |block: &model::Block| {
        let btype = match &block.kind {
            Kind::Terminate { success } => BlockType::Terminate { success: *success },
            Kind::Jump { to } => BlockType::Jump { to: *to },
            Kind::Jumpi { yes, no } => BlockType::Jumpi {
                true_to: *yes,
                false_to: *no,
            },
            Kind::DynamicJump { entries } => BlockType::DynamicJump { to: jumps(entries) },
            Kind::DynamicJumpi { no, entries } => BlockType::DynamicJumpi {
                true_to: jumps(entries),
                false_to: *no,
            },
        };
        let (start, end) = (block.start, block.end);
        (start, Block { start, end, btype })
    };
    let record = |record: &model::Record| Record {
        start: record.start,
        jump: jump(&record.path, record.to),
        energy: None,
    };
    Some(Map {
        code_length: code.len(),
        blocks: map.blocks.iter().map(block).collect(),
        records: map.records.iter().map(record).collect(),
        energy: map.energy as u32,
    })
}

pub fn jump(path: &[usize], to: Option<usize>) -> DynamicJump {
    let path = path.to_vec();
    DynamicJump { path, to }
}

/// A code of some family.
pub fn code(random: &mut Random) -> Vec<u8> {
    match random.below(4) {
        0 => {
            let length = random.between(3, 60);
            jumpy(random, length)
        }
        1 => {
            let (blocks, steps) = (random.between(2, 8), random.between(1, 4));
            woven::code(random, blocks, steps)
        }
        2 => {
            let shape = Shape::small(random);
            solidity::code(random, shape)
        }
        _ => codes::from_hex(random.pick(&CORNERS)).expect("the corners are hexadecimal"),
    }
}

/// Maps of two codes near each other, or of one code, at two limits.
pub fn coded_pair(random: &mut Random) -> Option<(Map, Map)> {
    let first = code(random);
    let second = match random.below(3) {
        0 => first.clone(),
        _ => mutant(random, &first),
    };
    Some((
        map_of(&first, limit(random))?,
        map_of(&second, limit(random))?,
    ))
}

fn limit(random: &mut Random) -> u64 {
    match random.below(3) {
        0 => random.below(12) as u64,
        _ => HIGHEST_LIMIT,
    }
}

/// Addresses of made maps: few, so that they meet.
const ADDRESSES: usize = 7;

/// Blocks and records at random; with lists as the record gives them, or at random too.
pub fn made(random: &mut Random) -> Map {
    let records = (0..random.below(6)).map(|_| record(random)).collect();
    let mut map = Map {
        code_length: random.below(99),
        blocks: Default::default(),
        records,
        energy: random.below(9) as u32,
    };
    for start in 0..ADDRESSES {
        if random.percent(60) {
            let block = block(random, start, &map.records);
            map.blocks.insert(start, block);
        }
    }
    map
}

fn record(random: &mut Random) -> Record {
    Record {
        start: random.below(ADDRESSES),
        jump: way(random),
        energy: None,
    }
}

fn way(random: &mut Random) -> DynamicJump {
    let path: Vec<usize> = (0..random.between(1, 2)).map(|_| random.below(3)).collect();
    let to = random.percent(75).then(|| random.below(ADDRESSES));
    jump(&path, to)
}

fn block(random: &mut Random, start: usize, records: &[Record]) -> Block {
    let own = records.iter().filter(|record| record.start == start);
    let own: Vec<DynamicJump> = own.map(|record| record.jump.clone()).collect();
    let found: Vec<DynamicJump> = own
        .iter()
        .filter(|jump| jump.to.is_some())
        .cloned()
        .collect();
    let odd = random.percent(15);
    let mut list = |given: Vec<DynamicJump>| match odd {
        true => (0..random.below(3)).map(|_| way(random)).collect(),
        false => given,
    };
    let (own, sure) = (list(own), list(found.clone()));
    let to = random.below(ADDRESSES);
    let shared = found.first().and_then(|jump| jump.to).unwrap_or(to);
    let btype = match random.below(6) {
        0 => BlockType::Terminate {
            success: random.percent(50),
        },
        1 => BlockType::Jump { to },
        2 => BlockType::Jump { to: shared },
        3 => BlockType::Jumpi {
            true_to: to,
            false_to: random.below(ADDRESSES),
        },
        4 => BlockType::DynamicJump { to: sure },
        _ => BlockType::DynamicJumpi {
            true_to: own,
            false_to: to,
        },
    };
    let end = start + random.below(2);
    Block { start, end, btype }
}

/// A map near this one.
pub fn edited(random: &mut Random, map: &Map) -> Map {
    let mut near = map.clone();
    for _ in 0..random.between(1, 3) {
        let count = near.records.len();
        match random.below(6) {
            0 if count > 1 => near.records.swap(random.below(count), random.below(count)),
            1 if count > 0 => drop(near.records.remove(random.below(count))),
            2 => near.records.insert(random.below(count + 1), record(random)),
            3 if count > 0 => near.records[random.below(count)].jump = way(random),
            4 => drop(near.blocks.remove(&random.below(ADDRESSES))),
            _ => {
                let start = random.below(ADDRESSES);
                let block = block(random, start, &near.records);
                near.blocks.insert(start, block);
            }
        }
    }
    near
}
