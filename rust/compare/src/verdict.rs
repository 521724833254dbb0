//! The verdict on two maps of a contract.

use std::fmt;

use aznifrem::{Block, Map};

use crate::code::Coded;
use crate::matching::{Matching, matching};
use crate::nearest::nearest;
use crate::rows::{Row, rows};
use crate::totals::Totals;

/// What two maps of a contract are to each other.
#[derive(Clone, Copy, Debug, PartialEq, Eq, PartialOrd, Ord)]
pub enum Verdict {
    /// No row differs.
    Equal,
    /// One is the other with its addresses renamed, and with both codes at hand the instructions are the
    /// same too.
    UpToAddresses,
    /// Neither.
    Different,
}

/// What moved between two maps, and what that comes to.
#[derive(Clone, Debug, PartialEq, Eq)]
pub struct Judged {
    /// The verdict.
    pub verdict: Verdict,
    /// What moved: by address, or with blocks matched by what they are.
    pub rows: Vec<Row>,
    /// The old addresses' names in the rows, where blocks are matched by what they are and not by address.
    pub names: Option<Matching>,
    /// The old map's figures.
    pub old: Totals,
    /// The new map's figures.
    pub new: Totals,
    /// Where the maps are the same up to addresses, the old blocks whose length is another.
    pub lengths: Vec<usize>,
    /// Where they are and both codes are at hand, the old blocks whose instructions are others.
    pub instructions: Option<Vec<usize>>,
}

/// What moved between two maps.
pub fn judge(old: &Map, new: &Map) -> Judged {
    let rows = rows(old, new);
    // The renaming of equal maps changes nothing, and need not be looked for.
    let names = (!rows.is_empty()).then(|| matching(old, new)).flatten();
    let verdict = match (rows.is_empty(), &names) {
        (true, _) => Verdict::Equal,
        (false, Some(_)) => Verdict::UpToAddresses,
        (false, None) => Verdict::Different,
    };
    let lengths = names.map_or(Vec::new(), |names| lengths(&names, old, new));
    judged(verdict, rows, [old, new], lengths)
}

/// The same where both codes are at hand: then instructions count.
pub fn judge_coded(old: &Coded, new: &Coded) -> Judged {
    let mut rows = rows(old.map, new.map);
    rows.extend(instructions(old, new));
    let names = matching(old.map, new.map);
    let changed = names.as_ref().map(|names| old.changed(new, names));
    let verdict = match &changed {
        _ if rows.is_empty() => Verdict::Equal,
        Some(changed) if changed.is_empty() => Verdict::UpToAddresses,
        _ => Verdict::Different,
    };
    let lengths = names.map_or(Vec::new(), |names| lengths(&names, old.map, new.map));
    let judged = judged(verdict, rows, [old.map, new.map], lengths);
    Judged {
        instructions: changed,
        ..judged
    }
}

fn judged(verdict: Verdict, rows: Vec<Row>, maps: [&Map; 2], lengths: Vec<usize>) -> Judged {
    let [old, new] = maps.map(Totals::of);
    Judged {
        verdict,
        rows,
        names: None,
        old,
        new,
        lengths,
        instructions: None,
    }
}

/// Of the blocks that both have in one place, those whose bytes differ.
fn instructions(old: &Coded, new: &Coded) -> Vec<Row> {
    let there = |block: &&Block| {
        let other = new.map.blocks.get(&block.start);
        other.is_some_and(|other| other.end == block.end) && old.bytes_differ(new, block)
    };
    let row = |block: &Block| Row::Instructions {
        start: block.start,
        end: block.end,
    };
    old.map.blocks.values().filter(there).map(row).collect()
}

fn lengths(names: &Matching, old: &Map, new: &Map) -> Vec<usize> {
    let length = |block: &Block| block.end.wrapping_sub(block.start);
    let other = |block: &&Block| {
        let other = names.new_of(block.start).and_then(|at| new.blocks.get(&at));
        other.is_some_and(|other| length(other) != length(block))
    };
    let blocks = old.blocks.values().filter(other);
    blocks.map(|block| block.start).collect()
}

/// The same, with the rows between the new map and the old one whose blocks are named as those that they
/// are matched with. An old address that none is matched with has [`OLD`](crate::OLD) added. If the rows by
/// address are no more, it is these.
pub fn judge_matched(old: &Map, new: &Map) -> Judged {
    let names = nearest(old, new);
    let rows = rows(&names.renamed(old), new);
    judge(old, new).or_fewer(rows, names)
}

/// The same where both codes are at hand.
pub fn judge_matched_coded(old: &Coded, new: &Coded) -> Judged {
    let names = nearest(old.map, new.map);
    let mut rows = rows(&names.renamed(old.map), new.map);
    let row = |start: usize| {
        let block = new.map.blocks.get(&names.new_of(start)?)?;
        let length = old.map.blocks.get(&start)?.end.wrapping_sub(start);
        let (start, end) = (block.start, block.end);
        (end.wrapping_sub(start) == length).then_some(Row::Instructions { start, end })
    };
    rows.extend(old.changed(new, &names).into_iter().filter_map(row));
    judge_coded(old, new).or_fewer(rows, names)
}

impl Judged {
    /// With these rows of matched blocks, if they are fewer.
    fn or_fewer(self, rows: Vec<Row>, names: Matching) -> Judged {
        if rows.len() >= self.rows.len() {
            return self;
        }
        let names = Some(names);
        Judged {
            rows,
            names,
            ..self
        }
    }

    /// How many more dynamic jumps have no destination than before.
    pub fn rose(&self) -> usize {
        self.new.unresolved.saturating_sub(self.old.unresolved)
    }

    /// What is to be said beside the verdict: blocks of the same shape that are not the same.
    pub fn note(&self) -> Option<String> {
        let blocks = |count: usize| if count == 1 { "block" } else { "blocks" };
        let changed = self.instructions.as_ref().map_or(0, Vec::len);
        if self.verdict == Verdict::Different && changed > 0 {
            let blocks = blocks(changed);
            return Some(format!(
                "the same up to addresses but for instructions of {changed} {blocks}"
            ));
        }
        let count = self.lengths.len();
        let noted = self.verdict == Verdict::UpToAddresses && count > 0;
        noted.then(|| format!("{count} {} of another length", blocks(count)))
    }
}

impl Verdict {
    /// As `diff` prints it.
    pub fn name(self) -> &'static str {
        match self {
            Verdict::Equal => "equal",
            Verdict::UpToAddresses => "equal up to addresses",
            Verdict::Different => "different",
        }
    }
}

/// The verdict line: what it is, that unresolved jumps rose, the figures.
impl fmt::Display for Judged {
    fn fmt(&self, f: &mut fmt::Formatter) -> fmt::Result {
        f.write_str(self.verdict.name())?;
        if let Some(note) = self.note() {
            write!(f, " ({note})")?;
        }
        if self.rose() > 0 {
            write!(f, ", UNRESOLVED JUMPS ROSE BY {}", self.rose())?;
        }
        write!(f, ": {}", self.old.beside(&self.new))
    }
}
