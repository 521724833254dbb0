//! What a map comes to in numbers.

use std::fmt;

use aznifrem::{Block, BlockType, Map};

/// The figures of a map.
#[derive(Clone, Copy, Debug, Default, PartialEq, Eq)]
pub struct Totals {
    /// Bytes of the code.
    pub bytes: usize,
    /// Blocks.
    pub blocks: usize,
    /// Blocks that end in a jump to what lies on the stack.
    pub dynamic: usize,
    /// Those of them for which no path shows a destination.
    pub unresolved: usize,
    /// Paths recorded.
    pub records: usize,
    /// Units of energy used.
    pub energy: u32,
}

impl Totals {
    /// The figures of this map.
    pub fn of(map: &Map) -> Totals {
        let count = |test: fn(&Block) -> bool| map.blocks.values().filter(|b| test(b)).count();
        Totals {
            bytes: map.code_length,
            blocks: map.blocks.len(),
            dynamic: count(is_dynamic),
            unresolved: count(is_unresolved),
            records: map.records.len(),
            energy: map.energy,
        }
    }

    /// Old and new beside each other.
    pub fn beside(&self, new: &Totals) -> String {
        let pairs = [
            ("blocks", self.blocks, new.blocks),
            ("dynamic", self.dynamic, new.dynamic),
            ("unresolved", self.unresolved, new.unresolved),
            ("records", self.records, new.records),
            ("energy", self.energy as usize, new.energy as usize),
        ];
        let pair = |(name, old, new)| format!("{name} {old} -> {new}");
        pairs.map(pair).join(", ")
    }
}

/// Whether a block ends in a jump to what lies on the stack.
fn is_dynamic(block: &Block) -> bool {
    matches!(
        block.btype,
        BlockType::DynamicJump { .. } | BlockType::DynamicJumpi { .. }
    )
}

/// Whether it does, and no path of its shows a destination.
pub fn is_unresolved(block: &Block) -> bool {
    is_dynamic(block) && block.btype.found().iter().all(|jump| jump.to.is_none())
}

/// The figures of one map alone.
impl fmt::Display for Totals {
    fn fmt(&self, f: &mut fmt::Formatter) -> fmt::Result {
        write!(
            f,
            "blocks {}, dynamic {}, unresolved {}, records {}, energy {}",
            self.blocks, self.dynamic, self.unresolved, self.records, self.energy
        )
    }
}
