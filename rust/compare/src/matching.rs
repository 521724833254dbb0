//! Which address of one map is which of the other, if the two differ by addresses alone.

use std::collections::HashMap;

use aznifrem::{Block, BlockType, DynamicJump, Map, Record};

/// Added to an old address that is no new one's: addresses of stored maps are below it.
pub const OLD: usize = 0x1_0000;

/// Addresses of an old map and those of a new one, each with one of the other's.
#[derive(Clone, Debug, Default, PartialEq, Eq)]
pub struct Matching {
    forth: HashMap<usize, usize>,
    back: HashMap<usize, usize>,
}

impl Matching {
    /// The new map's address for an old one.
    pub fn new_of(&self, old: usize) -> Option<usize> {
        self.forth.get(&old).copied()
    }

    /// The old map's address for a new one.
    pub fn old_of(&self, new: usize) -> Option<usize> {
        self.back.get(&new).copied()
    }

    /// What an old address is called beside the new map: the new address, or one that no code has.
    pub fn name(&self, old: usize) -> usize {
        self.new_of(old).unwrap_or(OLD + old)
    }

    /// The old map with its addresses named so. A block ends as far from its start as it did.
    pub fn renamed(&self, old: &Map) -> Map {
        let name = |at: &usize| self.name(*at);
        let jump = |jump: &DynamicJump| DynamicJump {
            path: jump.path.iter().map(name).collect(),
            to: jump.to.as_ref().map(name),
        };
        let jumps = |list: &[DynamicJump]| -> Vec<DynamicJump> { list.iter().map(jump).collect() };
        let block = |(start, block): (&usize, &Block)| {
            let btype = match &block.btype {
                BlockType::Terminate { success } => BlockType::Terminate { success: *success },
                BlockType::Jump { to } => BlockType::Jump { to: name(to) },
                BlockType::Jumpi { true_to, false_to } => BlockType::Jumpi {
                    true_to: name(true_to),
                    false_to: name(false_to),
                },
                BlockType::DynamicJump { to } => BlockType::DynamicJump { to: jumps(to) },
                BlockType::DynamicJumpi { true_to, false_to } => BlockType::DynamicJumpi {
                    true_to: jumps(true_to),
                    false_to: name(false_to),
                },
            };
            let end = name(start).wrapping_add(block.end.wrapping_sub(*start));
            let start = name(start);
            (start, Block { start, end, btype })
        };
        let record = |record: &Record| Record {
            start: name(&record.start),
            jump: jump(&record.jump),
            energy: record.energy,
        };
        Map {
            code_length: old.code_length,
            blocks: old.blocks.iter().map(block).collect(),
            records: old.records.iter().map(record).collect(),
            energy: old.energy,
        }
    }

    /// Whether these two are each other's, now or from now on.
    pub(crate) fn joins(&mut self, old: usize, new: usize) -> bool {
        match (self.new_of(old), self.old_of(new)) {
            (None, None) => {
                self.forth.insert(old, new);
                self.back.insert(new, old);
                true
            }
            (known, _) => known == Some(new),
        }
    }
}

/// The one renaming of the old map's addresses, with 0 for 0, under which it has the new map's blocks,
/// kinds, sides, lists and record, each in its order; ends, code length and energy are left aside.
///
/// Every pair but those of blocks that nothing leads to is forced: what leads to the one leads to the
/// other. Blocks that nothing leads to, which no map of the library's has, are paired by address.
pub fn matching(old: &Map, new: &Map) -> Option<Matching> {
    let mut search = Search {
        maps: [old, new],
        found: Matching::default(),
        open: Vec::new(),
    };
    let found = search.joins(0, 0) && search.follows() && search.records() && search.rest();
    (found && renames(&search.found, old, new)).then_some(search.found)
}

struct Search<'a> {
    maps: [&'a Map; 2],
    found: Matching,
    /// Pairs whose blocks have not been looked at.
    open: Vec<(usize, usize)>,
}

impl Search<'_> {
    fn joins(&mut self, old: usize, new: usize) -> bool {
        if self.found.new_of(old).is_none() {
            self.open.push((old, new));
        }
        self.found.joins(old, new)
    }

    /// What the blocks of all open pairs lead to.
    fn follows(&mut self) -> bool {
        while let Some((old, new)) = self.open.pop() {
            let blocks = (self.maps[0].blocks.get(&old), self.maps[1].blocks.get(&new));
            let fit = match blocks {
                (None, None) => true,
                (Some(old), Some(new)) => self.block(&old.btype, &new.btype),
                _ => false,
            };
            if !fit {
                return false;
            }
        }
        true
    }

    fn block(&mut self, old: &BlockType, new: &BlockType) -> bool {
        let (before, after) = (sides(old), sides(new));
        std::mem::discriminant(old) == std::mem::discriminant(new)
            && before.len() == after.len()
            && before.iter().zip(&after).all(|(a, b)| self.joins(*a, *b))
            && old.found().len() == new.found().len()
            && old
                .found()
                .iter()
                .zip(new.found())
                .all(|(a, b)| self.jump(a, b))
    }

    fn jump(&mut self, old: &DynamicJump, new: &DynamicJump) -> bool {
        let ends = match (old.to, new.to) {
            (Some(old), Some(new)) => self.joins(old, new),
            (old, new) => old == new,
        };
        let paths = old.path.iter().zip(&new.path);
        ends && old.path.len() == new.path.len()
            && paths.into_iter().all(|(a, b)| self.joins(*a, *b))
    }

    fn records(&mut self) -> bool {
        let [old, new] = self.maps.map(|map| &map.records);
        old.len() == new.len()
            && old
                .iter()
                .zip(new)
                .all(|(a, b)| self.joins(a.start, b.start) && self.jump(&a.jump, &b.jump))
            && self.follows()
    }

    /// Blocks that nothing leads to, by address.
    fn rest(&mut self) -> bool {
        let [old, new] = self.maps;
        let mut others = new.blocks.keys();
        for start in old.blocks.keys() {
            if self.found.new_of(*start).is_some() {
                continue;
            }
            let other = others.find(|other| self.found.old_of(**other).is_none());
            let joined = other.is_some_and(|other| self.joins(*start, *other) && self.follows());
            if !joined {
                return false;
            }
        }
        others.all(|other| self.found.old_of(*other).is_some())
    }
}

/// The sides that a block leads to whatever the record says, in their order.
pub fn sides(btype: &BlockType) -> Vec<usize> {
    match *btype {
        BlockType::Jump { to } => vec![to],
        BlockType::Jumpi { true_to, false_to } => vec![true_to, false_to],
        BlockType::DynamicJumpi { false_to, .. } => vec![false_to],
        BlockType::Terminate { .. } | BlockType::DynamicJump { .. } => vec![],
    }
}

/// A record but for its number: when it was made is no part of the map.
fn found(record: &Record) -> (usize, &DynamicJump) {
    (record.start, &record.jump)
}

/// Whether the old map, renamed, is the new one: the whole check, whatever was found how.
fn renames(names: &Matching, old: &Map, new: &Map) -> bool {
    let inverse = |(old, new): (&usize, &usize)| names.old_of(*new) == Some(*old);
    let renamed = names.renamed(old);
    let same = |(start, block): (&usize, &Block)| {
        let other = new.blocks.get(start);
        other.is_some_and(|other| other.btype == block.btype)
    };
    names.forth.len() == names.back.len()
        && names.forth.iter().all(inverse)
        && names.new_of(0) == Some(0)
        && renamed.blocks.len() == new.blocks.len()
        && renamed.blocks.iter().all(same)
        && renamed
            .records
            .iter()
            .map(found)
            .eq(new.records.iter().map(found))
}
