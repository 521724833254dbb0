//! The model against the unchanged Rust: every block, type, path and destination, in order.

pub mod families;
pub mod json;

use model::{Block, Entry, HIGHEST_LIMIT, Kind, Lent};
use oracle::control_flow_graph::{Block as RustBlock, BlockType, DynamicJump};

/// Rooms in which the model must answer; codes that need more would keep the Rust busy for long.
pub const ENOUGH: Lent = Lent {
    w: u64::MAX,
    p: 2 << 14,
    s: 9 << 18,
    t: 32 << 14,
    r: 32 << 14,
    q: 2 << 20,
    out: 1 << 24,
};

/// What came of holding the two against each other on one code.
#[derive(Clone, Debug, PartialEq, Eq)]
pub enum Verdict {
    Same,
    /// It needs more than `ENOUGH`.
    TooHeavy,
    /// A sentence with both maps.
    Different(String),
}

/// Whether the two give one map of this code.
pub fn compare(code: &[u8]) -> Verdict {
    let Ok(ours) = model::map(&ENOUGH, HIGHEST_LIMIT, code) else {
        return Verdict::TooHeavy;
    };
    let rust = rust_blocks(code);
    if ours.blocks == rust {
        return Verdict::Same;
    }
    let code = codes::to_hex(code);
    Verdict::Different(format!(
        "on {code} the Rust has {rust:?}, the model {:?}",
        ours.blocks
    ))
}

/// The unchanged Rust's map, in the model's words.
pub fn rust_blocks(code: &[u8]) -> Vec<Block> {
    let blocks = oracle::blocks(code);
    blocks
        .iter()
        .map(|(key, block)| translated(*key, block))
        .collect()
}

fn translated(key: usize, block: &RustBlock) -> Block {
    assert_eq!(
        (block.id, block.start),
        (key, key),
        "a block's id is its start"
    );
    let kind = match &block.btype {
        BlockType::Terminate { success } => Kind::Terminate { success: *success },
        BlockType::Jump { to } => Kind::Jump { to: *to },
        BlockType::Jumpi { true_to, false_to } => Kind::Jumpi {
            yes: *true_to,
            no: *false_to,
        },
        BlockType::DynamicJump { to } => Kind::DynamicJump {
            entries: entries(to),
        },
        BlockType::DynamicJumpi { true_to, false_to } => Kind::DynamicJumpi {
            no: *false_to,
            entries: entries(true_to),
        },
    };
    Block {
        start: block.start,
        end: block.end,
        kind,
    }
}

fn entries(jumps: &[DynamicJump]) -> Vec<Entry> {
    let entry = |jump: &DynamicJump| Entry {
        to: jump.to,
        path: jump.path.clone(),
    };
    jumps.iter().map(entry).collect()
}

/// How many codes came out which way; the first difference is kept.
#[derive(Clone, Debug, Default)]
pub struct Tally {
    pub same: u64,
    pub heavy: u64,
    pub different: u64,
    pub first: Option<String>,
}

impl Tally {
    pub fn add(&mut self, code: &[u8]) {
        match compare(code) {
            Verdict::Same => self.same += 1,
            Verdict::TooHeavy => self.heavy += 1,
            Verdict::Different(sentence) => {
                self.different += 1;
                self.first.get_or_insert(sentence);
            }
        }
    }

    pub fn join(&mut self, other: Tally) {
        self.same += other.same;
        self.heavy += other.heavy;
        self.different += other.different;
        self.first = self.first.take().or(other.first);
    }
}
