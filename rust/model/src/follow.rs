//! Document 02, No. 8, as a plain program, written from its text: a log of program counters walked
//! through a stored map, block by block.

use crate::blocks::{Block, Kind, find};
use crate::ops::row;
use crate::reader::{Held, read};

/// Where the log leaves the map, or how many steps it has; and the counts in their order.
#[derive(Clone, Debug, PartialEq, Eq)]
pub struct Followed {
    pub place: usize,
    pub counts: Vec<u64>,
}

/// Why no log is followed.
#[derive(Clone, Copy, Debug, PartialEq, Eq)]
pub enum NotFollowed {
    /// "12 as in No. 2": the offset of the first bad entry.
    BadMap(usize),
    /// "14, log not a multiple of 8 bytes".
    UnevenLog,
    /// "15, count room short".
    NoRoom,
}

/// "A distinct outgoing destination of it, missing ones left out, in the answer's order".
pub fn destinations(block: &Block) -> Vec<usize> {
    let (sides, entries) = match &block.kind {
        Kind::Terminate { .. } => (vec![], &[][..]),
        Kind::Jump { to } => (vec![*to], &[][..]),
        Kind::Jumpi { yes, no } => (vec![*yes, *no], &[][..]),
        Kind::DynamicJump { entries } => (vec![], &entries[..]),
        Kind::DynamicJumpi { no, entries } => (vec![*no], &entries[..]),
    };
    let named = sides.into_iter().chain(entries.iter().filter_map(|e| e.to));
    let mut once = Vec::new();
    for to in named {
        if !once.contains(&to) {
            once.push(to);
        }
    }
    once
}

/// Where each block's count stands, with its destinations.
struct Tally<'a> {
    held: &'a Held,
    counts: Vec<u64>,
}

impl Tally<'_> {
    fn slot(&self, start: usize) -> usize {
        let before = self.held.blocks.iter().take_while(|b| b.start < start);
        before.map(|b| 1 + destinations(b).len()).sum()
    }

    fn enter(&mut self, start: usize) {
        let slot = self.slot(start);
        self.counts[slot] += 1;
    }

    fn take(&mut self, block: &Block, to: usize) {
        let edges = destinations(block);
        let place = edges.iter().position(|&edge| edge == to);
        let slot = self.slot(block.start) + 1 + place.expect("it was looked up");
        self.counts[slot] += 1;
    }
}

/// Follows the steps through a map, over a code.
pub fn follow(held: &Held, code: &[u8], steps: &[u64]) -> Followed {
    let blocks = &held.blocks;
    let room = blocks.iter().map(|b| 1 + destinations(b).len()).sum();
    let mut tally = Tally {
        held,
        counts: vec![0; room],
    };
    let mut standing: Option<(&Block, usize)> = None;
    for (place, &step) in steps.iter().enumerate() {
        let off = |tally: Tally| Followed {
            place,
            counts: tally.counts,
        };
        let Ok(step) = usize::try_from(step) else {
            return off(tally);
        };
        let next = match standing {
            None => find(blocks, 0).filter(|_| step == 0),
            Some((_, pc)) if pc >= code.len() => None,
            Some((block, pc)) if pc != block.end => {
                let goes_on = step == pc + row(code[pc]).size && step <= block.end;
                if goes_on {
                    standing = Some((block, step));
                    continue;
                }
                None
            }
            Some((block, _)) if destinations(block).contains(&step) => find(blocks, step),
            Some(_) => None,
        };
        let Some(entered) = next else {
            return off(tally);
        };
        if let Some((block, _)) = standing {
            tally.take(block, step);
        }
        tally.enter(step);
        standing = Some((entered, step));
    }
    Followed {
        place: steps.len(),
        counts: tally.counts,
    }
}

/// The call on bytes: the refusals in their order, else what is followed.
pub fn follow_bytes(
    map: &[u8],
    code: &[u8],
    log: &[u8],
    room: usize,
) -> Result<Followed, NotFollowed> {
    let held = read(map).map_err(|refused| NotFollowed::BadMap(refused.offset))?;
    if !log.len().is_multiple_of(8) {
        return Err(NotFollowed::UnevenLog);
    }
    let steps = log.chunks_exact(8);
    let steps: Vec<u64> = steps
        .map(|b| u64::from_le_bytes(b.try_into().expect("8 bytes")))
        .collect();
    let followed = follow(&held, code, &steps);
    if followed.counts.len() * 8 > room {
        return Err(NotFollowed::NoRoom);
    }
    Ok(followed)
}
