//! A map taken apart into facts, none of which follows from the others: the faces of its blocks, the
//! record, and those lists of paths that the record does not give. Code length and energy are no part.

use std::collections::BTreeMap;

use aznifrem::{Block, BlockType, DynamicJump, Map};

/// What a block's entry says that the record does not.
#[derive(Clone, Copy, Debug, PartialEq, Eq)]
pub struct Face {
    /// Where its first instruction stands.
    pub start: usize,
    /// Where its last instruction stands.
    pub end: usize,
    /// How control goes on after it.
    pub leads: Leads,
}

/// How control goes on after a block, as far as its entry says it and the record does not.
#[derive(Clone, Copy, Debug, PartialEq, Eq)]
pub enum Leads {
    /// It ends here.
    Terminate {
        /// By STOP, RETURN or SELFDESTRUCT.
        success: bool,
    },
    /// A jump whose destination the record does not tell.
    Jump {
        /// Its destination.
        to: usize,
    },
    /// A jump with recorded paths that all lead where it leads.
    Merged,
    /// A jump on a condition.
    Jumpi {
        /// The destination if the condition is true.
        true_to: usize,
        /// The destination if it is false.
        false_to: usize,
    },
    /// A jump to what lies on the stack.
    DynamicJump,
    /// A jump on a condition, to what lies on the stack.
    DynamicJumpi {
        /// The destination if the condition is false.
        false_to: usize,
    },
}

/// The paths recorded for each block, in the order of the record.
pub type Recorded<'a> = BTreeMap<usize, Vec<&'a DynamicJump>>;

pub fn recorded(map: &Map) -> Recorded<'_> {
    let mut grouped = Recorded::new();
    for record in &map.records {
        grouped.entry(record.start).or_default().push(&record.jump);
    }
    grouped
}

/// The face of each block, by start.
pub fn faces(map: &Map) -> BTreeMap<usize, Face> {
    faces_of(map, &recorded(map))
}

pub fn faces_of(map: &Map, recorded: &Recorded) -> BTreeMap<usize, Face> {
    let face = |(start, block): (&usize, &Block)| {
        let paths = recorded.get(start).map_or(&[][..], Vec::as_slice);
        let (start, end) = (*start, block.end);
        let leads = leads(&block.btype, paths);
        (start, Face { start, end, leads })
    };
    map.blocks.iter().map(face).collect()
}

fn leads(btype: &BlockType, paths: &[&DynamicJump]) -> Leads {
    match *btype {
        BlockType::Terminate { success } => Leads::Terminate { success },
        BlockType::Jump { to } if merged(to, paths) => Leads::Merged,
        BlockType::Jump { to } => Leads::Jump { to },
        BlockType::Jumpi { true_to, false_to } => Leads::Jumpi { true_to, false_to },
        BlockType::DynamicJump { .. } => Leads::DynamicJump,
        BlockType::DynamicJumpi { false_to, .. } => Leads::DynamicJumpi { false_to },
    }
}

/// "A DynamicJump whose entries share one target becomes a Jump."
fn merged(to: usize, paths: &[&DynamicJump]) -> bool {
    let mut found = paths.iter().filter_map(|path| path.to).peekable();
    found.peek().is_some() && found.all(|found| found == to)
}

/// The lists that are not what the record gives their block; a map of the library's has none.
pub fn odd_lists<'a>(map: &'a Map, recorded: &Recorded) -> BTreeMap<usize, &'a [DynamicJump]> {
    let odd = |(start, block): (&usize, &'a Block)| {
        let paths = recorded.get(start).map_or(&[][..], Vec::as_slice);
        let list = block.btype.found();
        let odd = !list.iter().eq(given(&block.btype, paths));
        odd.then_some((*start, list))
    };
    map.blocks.iter().filter_map(odd).collect()
}

/// "DynamicJump drops entries without destination; DynamicJumpi keeps them."
fn given<'a>(
    btype: &BlockType,
    paths: &'a [&'a DynamicJump],
) -> impl Iterator<Item = &'a DynamicJump> {
    let (found, unknown) = match btype {
        BlockType::DynamicJump { .. } => (true, false),
        BlockType::DynamicJumpi { .. } => (true, true),
        _ => (false, false),
    };
    let kept = move |path: &&DynamicJump| if path.to.is_some() { found } else { unknown };
    paths.iter().copied().filter(kept)
}
