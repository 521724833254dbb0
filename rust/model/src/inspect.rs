//! Document 02, No. 12, as a plain program, written from its text: the path entries of a stored map,
//! each replayed. The blocks of a path are composed into one state, in which the jump's symbol is read.

use crate::blocks::{Block, find};
use crate::bounds::LONGEST_CODE;
use crate::family::Family;
use crate::follow::destinations;
use crate::ops::{self, row};
use crate::reader::{Held, read};
use crate::rooms::work;
use crate::stack::{Stack, Symbol, run};

const HEADER: usize = 6;

/// What a call says.
#[derive(Clone, Copy, Debug, PartialEq, Eq)]
pub enum Inspected {
    Accepted,
    /// "1, 13 and 3 as before".
    Refused(u8),
    /// "12 as in No. 2".
    BadEntry(usize),
    /// "17, path entry not right, with its offset", and the place in its path.
    NotRight {
        offset: usize,
        place: usize,
    },
}

impl Inspected {
    /// The exported number, and the place where there is one.
    pub fn told(self) -> (u64, Option<u64>) {
        match self {
            Inspected::Accepted => (0, None),
            Inspected::Refused(number) => (number.into(), None),
            Inspected::BadEntry(offset) => (12 + 256 * offset as u64, None),
            Inspected::NotRight { offset, place } => (17 + 256 * offset as u64, Some(place as u64)),
        }
    }
}

/// A path entry with a destination, as it stands in the bytes.
#[derive(Clone, Debug, PartialEq, Eq)]
pub struct PathEntry {
    pub offset: usize,
    pub kind: usize,
    pub start: usize,
    pub to: usize,
    pub path: Vec<usize>,
}

/// The path entries with a destination of bytes that hold a map, in order; a 7 is of the block before it.
pub fn path_entries(map: &[u8]) -> Vec<PathEntry> {
    let two = |at: usize| usize::from(u16::from_le_bytes([map[at], map[at + 1]]));
    let four = |at: usize| two(at) + (two(at + 2) << 16);
    // The head's code length says the family.
    let family = Family::of(if map.is_empty() { 0 } else { two(HEADER) });
    let (mut at, mut owner, mut found) = (0, 0, Vec::new());
    while at < map.len() {
        let (kind, body) = (two(at + 4), at + HEADER);
        let addresses = |from: usize| {
            let count = four(from);
            (0..count).map(|i| two(from + 4 + 2 * i)).collect()
        };
        let entry = match kind {
            2..=6 => {
                owner = two(body);
                None
            }
            _ if family.is_seven(kind) => Some((owner, body, addresses(body + 2))),
            _ if family.is_record(kind) => {
                let length = if family.is_numbered(kind) { 8 } else { 4 };
                Some((two(body), body + 2, addresses(body + length)))
            }
            _ => None,
        };
        if let Some((start, to, path)) = entry
            && let Some(to) = family.destination(two(to))
        {
            found.push(PathEntry {
                offset: at,
                kind,
                start,
                to,
                path,
            });
        }
        at = body + four(at);
    }
    found
}

/// The last instruction of the block that starts there, if no unknown byte is run.
fn end(code: &[u8], start: usize) -> Option<usize> {
    let mut last = start;
    for (pc, byte) in ops::walk(code, start) {
        if !row(byte).known {
            return None;
        }
        if byte == ops::JUMPDEST && pc != start {
            return Some(last);
        }
        last = pc;
        if matches!(
            byte,
            ops::JUMP | ops::JUMPI | 0x00 | 0xf3 | 0xfd | 0xfe | 0xff
        ) {
            return Some(last);
        }
    }
    Some(last)
}

/// "Starts within the code, no unknown byte run": then the block's own run.
fn own(code: &[u8], zero_known: bool, start: usize) -> Option<(Stack, Option<Symbol>)> {
    if start >= code.len() {
        return None;
    }
    end(code, start).map(|end| run(code, zero_known, start, end))
}

/// "Blocks joined by edges of that map": an edge from one start to another.
fn edge(blocks: &[Block], from: usize, to: usize) -> bool {
    find(blocks, from).is_some_and(|block| destinations(block).contains(&to))
}

/// The place where a path entry is not right; none where it is.
pub fn fault(held: &Held, code: &[u8], zero_known: bool, entry: &PathEntry) -> Option<usize> {
    let mut jump = None;
    let mut before: Option<Stack> = None;
    for (place, &start) in entry.path.iter().enumerate() {
        let joined = match place {
            0 => start == entry.start,
            _ => edge(&held.blocks, start, entry.path[place - 1]),
        };
        let Some((stack, goes)) = own(code, zero_known, start).filter(|_| joined) else {
            return Some(place);
        };
        if place == 0 {
            jump = goes;
        } else {
            before = Some(before.map_or(stack.clone(), |child| child.compose(&stack)));
        }
    }
    let symbol = match (jump, before) {
        (Some(Symbol::Before(depth)), Some(state)) => Some(state.read(depth)),
        (symbol, _) => symbol,
    };
    let right = symbol == Some(Symbol::Jumpdest(entry.to as u64));
    (!right).then_some(0)
}

/// The call: the refusals in their order, then each path entry with a destination.
pub fn inspect(mode: u64, code: &[u8], map: &[u8], w: usize) -> Inspected {
    inspect_from(mode, 0, code, map, w).0
}

/// The same of those at an offset or later, with the offset and place of all that are not right.
pub fn inspect_from(
    mode: u64,
    from: u64,
    code: &[u8],
    map: &[u8],
    w: usize,
) -> (Inspected, Vec<(usize, usize)>) {
    let refused = |number| (Inspected::Refused(number), Vec::new());
    if code.len() > LONGEST_CODE {
        return refused(1);
    }
    if mode > 1 {
        return refused(13);
    }
    if (w as u64) < work(code.len()) {
        return refused(3);
    }
    let held = match read(map) {
        Ok(held) => held,
        Err(bad) => return (Inspected::BadEntry(bad.offset), Vec::new()),
    };
    let asked = path_entries(map).into_iter();
    let asked = asked.filter(|entry| entry.offset as u64 >= from);
    let place = |entry: &PathEntry| fault(&held, code, mode == 1, entry);
    let wrong: Vec<_> = asked
        .filter_map(|entry| Some((entry.offset, place(&entry)?)))
        .collect();
    let said = wrong.first().map_or(Inspected::Accepted, |first| {
        let &(offset, place) = first;
        Inspected::NotRight { offset, place }
    });
    (said, wrong)
}
