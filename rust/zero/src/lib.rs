//! A copy of the Rust in which PUSH0 is the known 0: what mode 1 is held against. The build script makes it of the unchanged files.

// The files are as published: what they do not use here is no fault of theirs.
#![allow(dead_code, unused_imports, unexpected_cfgs, rustdoc::all, clippy::all)]

include!(concat!(env!("OUT_DIR"), "/copy.rs"));

use control_flow_graph::{Block, BlockType, DynamicJump};
use oracle::control_flow_graph as rust;
use std::collections::BTreeMap;

/// The map of a code, as the copy makes it, in the types of the unchanged Rust.
pub fn blocks(code: &[u8]) -> BTreeMap<usize, rust::Block> {
    let cut = control_flow_graph::basic_blocks(code);
    let map = control_flow_graph::control_flow_graph(code, cut);
    let translated = |(start, block): (usize, Block)| (start, translated(block));
    map.blocks.into_iter().map(translated).collect()
}

fn translated(block: Block) -> rust::Block {
    rust::Block {
        id: block.id,
        start: block.start,
        end: block.end,
        btype: match block.btype {
            BlockType::Terminate { success } => rust::BlockType::Terminate { success },
            BlockType::Jump { to } => rust::BlockType::Jump { to },
            BlockType::Jumpi { true_to, false_to } => rust::BlockType::Jumpi { true_to, false_to },
            BlockType::DynamicJump { to } => rust::BlockType::DynamicJump { to: jumps(to) },
            BlockType::DynamicJumpi { true_to, false_to } => rust::BlockType::DynamicJumpi {
                true_to: jumps(true_to),
                false_to,
            },
        },
    }
}

fn jumps(list: Vec<DynamicJump>) -> Vec<rust::DynamicJump> {
    let jump = |jump: DynamicJump| rust::DynamicJump {
        path: jump.path,
        to: jump.to,
    };
    list.into_iter().map(jump).collect()
}

#[cfg(test)]
mod tests {
    /// PUSH1 6, PUSH0, ADD; 4: JUMPDEST, JUMP; 6: JUMPDEST.
    const SUM: [u8; 7] = [0x60, 6, 0x5f, 0x01, 0x5b, 0x56, 0x5b];

    #[test]
    fn the_copy_knows_that_push0_puts_0() {
        let kind = |blocks: &std::collections::BTreeMap<usize, super::rust::Block>| {
            format!("{:?}", blocks[&4].btype)
        };
        assert_eq!(kind(&super::blocks(&SUM)), "Jump { to: 6 }");
        assert_eq!(kind(&oracle::blocks(&SUM)), "DynamicJump { to: [] }");
    }

    #[test]
    fn the_copy_cuts_as_the_rust() {
        // PUSH0, JUMP: a jump that the cutting calls dynamic, and whose own run ends in Constant(0).
        let [ours, theirs] = [super::blocks, oracle::blocks].map(|of| of(&[0x5f, 0x56]));
        assert_eq!(format!("{ours:?}"), format!("{theirs:?}"));
    }
}
