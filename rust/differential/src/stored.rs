//! Stored maps, whole and damaged: the library's reader and the binding's against the model's.

use std::collections::BTreeMap;

use aznifrem::{Block, BlockType, DynamicJump, Fault, Map, Record};
use codes::contract::{Style, sized};
use codes::random::jumpy;
use codes::{Random, from_hex, init, worst, woven};
use model::{Bad, Held, Kind, Refused, answer_by};

use crate::damage::damaged;
use crate::mismatch::{Mismatch, mismatch};

/// The library's reader, or what stands in for it in a test.
pub type Reader = fn(&[u8]) -> u64;

/// "Refusals: 12, bad entry, with its offset."
const BAD_ENTRY: u64 = 12;
/// All prefixes of a map of at most so many bytes are tried.
const SHORT: usize = 300;

/// What came of many maps.
#[derive(Clone, Debug, Default, PartialEq, Eq)]
pub struct Maps {
    pub held: u64,
    /// How many had each thing wrong with their first bad entry.
    pub refused: BTreeMap<Bad, u64>,
    pub different: u64,
    /// The first mismatches.
    pub written_out: Vec<String>,
}

impl Maps {
    /// Checks one map.
    pub fn add(&mut self, reader: Reader, bytes: &[u8]) {
        match check(reader, bytes) {
            Ok(Ok(_)) => self.held += 1,
            Ok(Err(refused)) => {
                for bad in refused.bad {
                    *self.refused.entry(bad).or_default() += 1;
                }
            }
            Err(found) => {
                self.different += 1;
                if self.written_out.len() < 5 {
                    let hex = codes::to_hex(bytes);
                    let text = format!("{}: {}\n  --map {hex}", found.kind, found.sentence);
                    self.written_out.push(text);
                }
            }
        }
    }
}

/// So many maps: answers, prefixes of the short ones, and damaged ones, 20,000 of some answers.
pub fn run(reader: Reader, count: u64, seed: u64) -> Maps {
    let mut maps = Maps::default();
    let mut random = Random::new(seed);
    let mut done = 0;
    while done < count {
        let whole = answers(&mut random);
        let mut prefixes = count / 4;
        for map in &whole {
            maps.add(reader, map);
            done += 1;
            let cuts = (0..map.len()).filter(|_| map.len() <= SHORT);
            for length in cuts.take(prefixes as usize) {
                maps.add(reader, &map[..length]);
                done += 1;
                prefixes -= 1;
            }
        }
        for _ in 0..(count - done.min(count)).min(20_000) {
            maps.add(reader, &damaged(&mut random, &whole));
            done += 1;
        }
    }
    maps
}

/// Some ninety answers of the model, with dynamic jumps, paths and records, a fifth of them of longer code.
pub fn answers(random: &mut Random) -> Vec<Vec<u8>> {
    let corners = codes::corners::CORNERS;
    let mut codes: Vec<Vec<u8>> = Vec::new();
    for _ in 0..8 {
        let corner = from_hex(corners[random.below(corners.len())]);
        codes.extend(corner.ok());
        codes.push(jumpy(random, 40));
        codes.push(woven::code(random, 4, 3));
    }
    let bytes = random.between(200, 900);
    codes.push(sized(random, bytes, Style::Plain));
    // With several records each.
    for _ in 0..6 {
        codes.push(worst::fan(random.between(2, 6)));
        codes.push(worst::row(random.between(2, 5)));
    }
    // Of both families.
    codes.push(init::two_callers());
    for _ in 0..8 {
        let length = agree::families::long(random);
        codes.push(init::far(random, length));
    }
    let mut answers = Vec::new();
    for code in codes {
        for limit in [model::HIGHEST_LIMIT, random.below(4) as u64] {
            let choice = random.below(2) as u64;
            let answer = answer_by(choice, 0, &agree::ENOUGH, limit, &code);
            if answer.number() == 0 && answer.written().len() <= 6_000 {
                answers.push(answer.written().to_vec());
            }
        }
    }
    answers
}

/// Holds the reader and the binding against the model; gives what the model says.
pub fn check(reader: Reader, bytes: &[u8]) -> Result<Result<Held, Refused>, Mismatch> {
    let said = model::read(bytes);
    let wanted = match &said {
        Ok(_) => 0,
        Err(refused) => BAD_ENTRY + 256 * refused.offset as u64,
    };
    let given = reader(bytes);
    if given != wanted {
        let sentence = format!("the reader gives {given}, the model {wanted} ({said:?})");
        return Err(mismatch("reader", sentence));
    }
    match (&said, Map::from_bytes(bytes)) {
        (Ok(held), Ok(map)) => same_map(held, &map, bytes)?,
        (Err(refused), Err(bad)) if refused.offset == bad.offset => {
            let named = named(bad.fault);
            if !refused.bad.contains(&named) {
                let sentence = format!("the fault is {:?}, the model's {refused:?}", bad.fault);
                return Err(mismatch("fault", sentence));
            }
        }
        (_, given) => {
            let sentence = format!("the binding gives {given:?}, the model {said:?}");
            return Err(mismatch("binding", sentence));
        }
    }
    Ok(said)
}

/// The binding's map is the model's, and is written again to the same bytes.
fn same_map(held: &Held, map: &Map, bytes: &[u8]) -> Result<(), Mismatch> {
    let theirs = translated(held);
    if *map != theirs {
        let sentence = format!("the map is {map:?}, the model's {theirs:?}");
        return Err(mismatch("map", sentence));
    }
    let again = map.to_bytes();
    if again.as_deref() != Ok(bytes) {
        return Err(mismatch("again", format!("it is written as {again:?}")));
    }
    Ok(())
}

/// The thing of document 02's list that a fault is.
fn named(fault: Fault) -> Bad {
    match fault {
        Fault::Empty | Fault::NoHead => Bad::Head,
        Fault::Counts => Bad::Counts,
        Fault::Start(_) => Bad::Start,
        Fault::UnknownKind(_) | Fault::OtherFamily(_) => Bad::Kind,
        Fault::Away(_) => Bad::Away,
        Fault::Success(_) => Bad::Success,
        Fault::Entries { .. } => Bad::Sevens,
        Fault::Cut => Bad::Cut,
        Fault::Length(_) => Bad::Length,
        Fault::OutOfOrder(8 | 9 | 11 | 12) => Bad::Other,
        _ => Bad::Order,
    }
}

/// The model's map, in the binding's types.
fn translated(held: &Held) -> Map {
    let jump = |to: Option<usize>, path: &[usize]| DynamicJump {
        path: path.to_vec(),
        to,
    };
    let block = |block: &model::Block| {
        let jumps = |entries: &[model::Entry]| {
            let jumps = entries.iter().map(|entry| jump(entry.to, &entry.path));
            jumps.collect()
        };
        let btype = match &block.kind {
            Kind::Terminate { success } => BlockType::Terminate { success: *success },
            Kind::Jump { to } => BlockType::Jump { to: *to },
            Kind::Jumpi { yes, no } => BlockType::Jumpi {
                true_to: *yes,
                false_to: *no,
            },
            Kind::DynamicJump { entries } => BlockType::DynamicJump { to: jumps(entries) },
            Kind::DynamicJumpi { no, entries } => BlockType::DynamicJumpi {
                true_to: jumps(entries),
                false_to: *no,
            },
        };
        let (start, end) = (block.start, block.end);
        (start, Block { start, end, btype })
    };
    let record = |record: &model::Record| Record {
        start: record.start,
        jump: jump(record.to, &record.path),
        energy: record.energy.map(|energy| energy as u32),
    };
    Map {
        code_length: held.code_length,
        blocks: held.blocks.iter().map(block).collect(),
        records: held.records.iter().map(record).collect(),
        energy: held.energy as u32,
    }
}
