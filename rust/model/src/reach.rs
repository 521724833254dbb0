//! The two reached sets: the search's, that grows, and pruning's.

use crate::blocks::{Block, Entry, Kind, find};

/// The sides that a block leads to whatever is known of its dynamic jump.
pub fn static_sides(kind: &Kind) -> Vec<usize> {
    match *kind {
        Kind::Terminate { .. } | Kind::DynamicJump { .. } => vec![],
        Kind::Jump { to } => vec![to],
        Kind::Jumpi { yes, no } => vec![yes, no],
        Kind::DynamicJumpi { no, .. } => vec![no],
    }
}

/// Marks the addresses, and all that static sides lead to from them.
pub fn spread(blocks: &[Block], reached: &mut [bool], from: Vec<usize>) {
    let mut open = from;
    while let Some(address) = open.pop() {
        reached[address] = true;
        let sides = find(blocks, address).map(|block| static_sides(&block.kind));
        open.extend(
            sides
                .unwrap_or_default()
                .iter()
                .filter(|side| !reached[**side]),
        );
    }
}

/// Pruning's set: "follows a dynamic entry only if its path's last block is reached too".
pub fn pruned(blocks: &[Block], addresses: usize) -> Vec<bool> {
    let mut reached = vec![false; addresses];
    let mut from = vec![0];
    while !from.is_empty() {
        spread(blocks, &mut reached, from);
        let followed = blocks.iter().filter(|block| reached[block.start]);
        let targets = followed.flat_map(|block| followed_targets(&block.kind, &reached));
        from = targets.filter(|to| !reached[*to]).collect();
    }
    reached
}

fn followed_targets(kind: &Kind, reached: &[bool]) -> Vec<usize> {
    let Kind::DynamicJump { entries } = kind else {
        return vec![];
    };
    let followed = |entry: &&Entry| entry.path.last().is_some_and(|last| reached[*last]);
    entries
        .iter()
        .filter(followed)
        .filter_map(|entry| entry.to)
        .collect()
}
