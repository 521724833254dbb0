//! A row for each fact of two maps that differs, and no other.

use std::collections::{BTreeMap, BTreeSet, HashMap, VecDeque};

use aznifrem::{DynamicJump, Map, Record};

use crate::facts::{Face, Recorded, faces_of, odd_lists, recorded};

/// One thing that moved. `docs/DIFF.md` has what each of them means.
#[derive(Clone, Debug, PartialEq, Eq)]
pub enum Row {
    /// The new map has a block where the old one has none.
    BlockCame(Face),
    /// The old map has a block where the new one has none.
    BlockWent(Face),
    /// Both have a block there, with other faces.
    BlockChanged {
        /// The old map's.
        before: Face,
        /// The new map's.
        after: Face,
    },
    /// The new record has this path to this destination once more than the old one.
    JumpCame {
        /// The start of the block that jumps.
        block: usize,
        /// The path and where it leads.
        jump: DynamicJump,
    },
    /// The old record has this path to this destination once more than the new one.
    JumpWent {
        /// The start of the block that jumps.
        block: usize,
        /// The path and where it leads.
        jump: DynamicJump,
    },
    /// One went and one came, of the same block by the same path.
    JumpMoved {
        /// The start of the block that jumps.
        block: usize,
        /// Starts of blocks, from the jump's own backward.
        path: Vec<usize>,
        /// The destination in the old record.
        before: Option<usize>,
        /// The destination in the new record.
        after: Option<usize>,
    },
    /// The records of this block that both have stand in another order.
    OrderWithin {
        /// The start of the block.
        block: usize,
    },
    /// The blocks of the records that both have follow each other in another order.
    OrderBetween,
    /// A block's list of paths is not what the record gives it, in one map or in both, and they differ.
    List {
        /// The start of the block.
        block: usize,
        /// How many paths the old list has, where the record does not give it.
        before: Option<usize>,
        /// How many paths the new list has, where the record does not give it.
        after: Option<usize>,
    },
    /// Both have a block from here to there, and its bytes in the two codes differ.
    Instructions {
        /// Where its first instruction stands.
        start: usize,
        /// Where its last instruction stands.
        end: usize,
    },
}

/// What moved between two maps, by address: block by block, then the record as a whole.
pub fn rows(old: &Map, new: &Map) -> Vec<Row> {
    let (before, after) = (Side::new(old, new), Side::new(new, old));
    let starts: BTreeSet<usize> = before.starts().chain(after.starts()).collect();
    let mut rows = Vec::new();
    for start in starts {
        rows.extend(face(before.faces.get(&start), after.faces.get(&start)));
        rows.extend(list(start, &before, &after));
        jumps(&mut rows, start, before.of(start), after.of(start));
    }
    if before.shared_blocks != after.shared_blocks {
        rows.push(Row::OrderBetween);
    }
    rows
}

/// One of the two maps, seen beside the other.
struct Side<'a> {
    faces: BTreeMap<usize, Face>,
    lists: BTreeMap<usize, &'a [DynamicJump]>,
    /// Records that the other has too, and those that it has not.
    shared: Recorded<'a>,
    own: Recorded<'a>,
    /// The blocks of the shared records, in the record's order.
    shared_blocks: Vec<usize>,
}

/// The records of one block.
#[derive(Clone, Copy)]
struct OfBlock<'s, 'a> {
    shared: &'s [&'a DynamicJump],
    own: &'s [&'a DynamicJump],
}

impl<'a> Side<'a> {
    fn new(map: &'a Map, other: &Map) -> Side<'a> {
        let all = recorded(map);
        let mut side = Side {
            faces: faces_of(map, &all),
            lists: odd_lists(map, &all),
            shared: Recorded::new(),
            own: Recorded::new(),
            shared_blocks: Vec::new(),
        };
        let mut others = counted(&other.records);
        for record in &map.records {
            let left = others.get_mut(&key(record)).filter(|count| **count > 0);
            let group = match left {
                Some(count) => {
                    *count -= 1;
                    side.shared_blocks.push(record.start);
                    &mut side.shared
                }
                None => &mut side.own,
            };
            group.entry(record.start).or_default().push(&record.jump);
        }
        side
    }

    fn starts(&self) -> impl Iterator<Item = usize> {
        let records = self.shared.keys().chain(self.own.keys());
        self.faces.keys().chain(records).copied()
    }

    fn of(&self, start: usize) -> OfBlock<'_, 'a> {
        OfBlock {
            shared: self.shared.get(&start).map_or(&[], Vec::as_slice),
            own: self.own.get(&start).map_or(&[], Vec::as_slice),
        }
    }
}

type Key<'a> = (usize, &'a [usize], Option<usize>);

fn key(record: &Record) -> Key<'_> {
    (record.start, &record.jump.path, record.jump.to)
}

fn counted(records: &[Record]) -> HashMap<Key<'_>, usize> {
    let mut counts = HashMap::new();
    for record in records {
        *counts.entry(key(record)).or_insert(0) += 1;
    }
    counts
}

fn face(before: Option<&Face>, after: Option<&Face>) -> Option<Row> {
    match (before.copied(), after.copied()) {
        (None, Some(face)) => Some(Row::BlockCame(face)),
        (Some(face), None) => Some(Row::BlockWent(face)),
        (Some(before), Some(after)) if before != after => Some(Row::BlockChanged { before, after }),
        _ => None,
    }
}

fn list(block: usize, before: &Side, after: &Side) -> Option<Row> {
    let (before, after) = (before.lists.get(&block), after.lists.get(&block));
    let [old, new] = [before, after].map(|list| list.map(|list| list.len()));
    (before != after).then_some(Row::List {
        block,
        before: old,
        after: new,
    })
}

/// Paths with another destination, paths that came, paths that went; then the order of those that stayed.
fn jumps(rows: &mut Vec<Row>, block: usize, before: OfBlock, after: OfBlock) {
    let mut went = Went::new(before.own);
    for came in after.own {
        rows.push(match went.take(&came.path) {
            Some(gone) => Row::JumpMoved {
                block,
                path: came.path.clone(),
                before: gone.to,
                after: came.to,
            },
            None => Row::JumpCame {
                block,
                jump: (*came).clone(),
            },
        });
    }
    let gone = |jump: &DynamicJump| Row::JumpWent {
        block,
        jump: jump.clone(),
    };
    rows.extend(went.jumps.into_iter().flatten().map(gone));
    if before.shared != after.shared {
        rows.push(Row::OrderWithin { block });
    }
}

/// The paths that went, in their order, and where each stands: they may be hundreds of thousands.
struct Went<'a> {
    jumps: Vec<Option<&'a DynamicJump>>,
    places: HashMap<&'a [usize], VecDeque<usize>>,
}

impl<'a> Went<'a> {
    fn new(jumps: &[&'a DynamicJump]) -> Went<'a> {
        let mut places: HashMap<&[usize], VecDeque<usize>> = HashMap::new();
        for (at, jump) in jumps.iter().enumerate() {
            places.entry(&jump.path).or_default().push_back(at);
        }
        let jumps = jumps.iter().copied().map(Some).collect();
        Went { jumps, places }
    }

    /// The first that is left of this path.
    fn take(&mut self, path: &[usize]) -> Option<&'a DynamicJump> {
        let at = self.places.get_mut(path)?.pop_front()?;
        self.jumps[at].take()
    }
}
