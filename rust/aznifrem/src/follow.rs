//! Following a log of program counters through a stored map (document 02, No. 8).

use std::fmt;

use crate::error::{NotRelayed, Unreadable};
use crate::exported;
use crate::map::{Block, BlockType, Map};

/// The library's own call: 0 and 256 times the place of the first step that is not in the map, or of
/// the log's end; or 12 and 256 times the offset of the first bad entry, 14 for a log that is no
/// multiple of 8 bytes, 15 for too few count bytes. On a refusal nothing is touched; else `work` is
/// all zero bytes, and of `counts` the bytes behind the counts stay.
///
/// `work` may have any length, 0 too, and the answer is the same. With 16 bytes for each address up
/// to the last block's start it has an index of the blocks, and what is behind that is one of the
/// edges: of 24 bytes for each of twice the counts and 16 more, every step costs the same.
///
/// # Panics
///
/// On a machine that is not x86-64, if the library cannot be reached there: [`NotRelayed`] says why.
pub fn follow(map: &[u8], code: &[u8], log: &[u8], work: &mut [u8], counts: &mut [u8]) -> u64 {
    match exported::aznifrem_follow(map, code, log, work, counts) {
        Ok(number) => number,
        Err(not_relayed) => panic!("{not_relayed}"),
    }
}

/// What following a log gives.
#[derive(Clone, Debug, PartialEq, Eq)]
pub struct Followed {
    /// The place of the first step that is not in the map, or the number of steps if all are.
    pub place: u64,
    /// The counts of each block, by start.
    pub counts: Vec<Counts>,
}

/// How often a block was entered, and how often each of its edges was taken.
#[derive(Clone, Debug, PartialEq, Eq)]
pub struct Counts {
    /// The block's start.
    pub start: usize,
    /// How often it was entered.
    pub entered: u64,
    /// Each distinct destination, in the answer's order, with how often it was taken.
    pub edges: Vec<(usize, u64)>,
}

/// Why no log was followed.
#[derive(Clone, Debug, PartialEq, Eq)]
#[non_exhaustive]
pub enum NotFollowed {
    /// The bytes are no stored map.
    Unreadable(Unreadable),
    /// The library cannot be reached on this machine.
    NotRelayed(NotRelayed),
}

impl fmt::Display for NotFollowed {
    fn fmt(&self, f: &mut fmt::Formatter) -> fmt::Result {
        match self {
            NotFollowed::Unreadable(bad) => bad.fmt(f),
            NotFollowed::NotRelayed(not) => not.fmt(f),
        }
    }
}

impl std::error::Error for NotFollowed {}

impl Followed {
    /// Follows the steps through a stored map of a code.
    ///
    /// ```
    /// use aznifrem::{Followed, Mapper};
    ///
    /// let code = [0x60, 5, 0x60, 7, 0x56, 0x5b, 0x00, 0x5b, 0x56];
    /// let stored = Mapper::new().entries(&code, 500_000)?.to_vec();
    /// let followed = Followed::of(&stored, &code, &[0, 2, 4, 7, 8, 5, 9])?;
    /// assert_eq!(followed.place, 6);
    /// assert_eq!(followed.counts[0].edges, [(7, 1)]);
    /// # Ok::<(), Box<dyn std::error::Error>>(())
    /// ```
    pub fn of(map: &[u8], code: &[u8], steps: &[u64]) -> Result<Followed, NotFollowed> {
        let held = Map::try_from_bytes(map).map_err(NotFollowed::NotRelayed)?;
        let held = held.map_err(NotFollowed::Unreadable)?;
        let mut counts: Vec<Counts> = held.blocks.values().map(untaken).collect();
        let room: usize = counts.iter().map(|block| 1 + block.edges.len()).sum();
        let mut bytes = vec![0; 8 * room];
        let rows = held.blocks.keys().next_back().map_or(0, |last| last + 1);
        let mut work = vec![0; index_bytes(rows, room)];
        let log: Vec<u8> = steps.iter().flat_map(|step| step.to_le_bytes()).collect();
        let given = exported::aznifrem_follow(map, code, &log, &mut work, &mut bytes);
        let given = given.map_err(NotFollowed::NotRelayed)?;
        assert_eq!(
            given & 0xff,
            0,
            "the map is read and the room is counted from it"
        );
        let mut numbers = bytes
            .chunks_exact(8)
            .map(|eight| u64::from_le_bytes(eight.try_into().unwrap_or_default()));
        for block in &mut counts {
            block.entered = numbers.next().unwrap_or_default();
            for edge in &mut block.edges {
                edge.1 = numbers.next().unwrap_or_default();
            }
        }
        Ok(Followed {
            place: given >> 8,
            counts,
        })
    }
}

/// The bytes of `work` with which a step costs the same however large the map is: a row for each
/// address up to the last block's start, and two entries for each count, so that an edge finds a free one.
fn index_bytes(rows: usize, counts: usize) -> usize {
    16 * rows + 24 * (2 * counts + 16)
}

/// A block's counts before any step.
fn untaken(block: &Block) -> Counts {
    let mut edges: Vec<(usize, u64)> = Vec::new();
    for to in named(&block.btype) {
        if !edges.iter().any(|edge| edge.0 == to) {
            edges.push((to, 0));
        }
    }
    Counts {
        start: block.start,
        entered: 0,
        edges,
    }
}

/// A block's destinations as the answer names them.
fn named(btype: &BlockType) -> Vec<usize> {
    match btype {
        BlockType::Terminate { .. } => vec![],
        BlockType::Jump { to } => vec![*to],
        BlockType::Jumpi { true_to, false_to } => vec![*true_to, *false_to],
        BlockType::DynamicJump { to } => to.iter().filter_map(|way| way.to).collect(),
        BlockType::DynamicJumpi { true_to, false_to } => {
            let ways = true_to.iter().filter_map(|way| way.to);
            std::iter::once(*false_to).chain(ways).collect()
        }
    }
}
