//! "Cutting into blocks".

use crate::ops::{self, JUMP, JUMPDEST, JUMPI};

/// A block: the places of its first and its last instruction, and how it ends.
#[derive(Clone, Debug, PartialEq, Eq)]
pub struct Block {
    pub start: usize,
    pub end: usize,
    pub kind: Kind,
}

#[derive(Clone, Debug, PartialEq, Eq)]
pub enum Kind {
    Terminate { success: bool },
    Jump { to: usize },
    Jumpi { yes: usize, no: usize },
    DynamicJump { entries: Vec<Entry> },
    DynamicJumpi { no: usize, entries: Vec<Entry> },
}

/// One way that the search found to a dynamic jump's destination, or to none.
#[derive(Clone, Debug, PartialEq, Eq)]
pub struct Entry {
    pub to: Option<usize>,
    pub path: Vec<usize>,
}

const FAILURE: Kind = Kind::Terminate { success: false };

/// The block that starts at an address, in blocks that stand by start.
pub fn find(blocks: &[Block], start: usize) -> Option<&Block> {
    let place = blocks.binary_search_by_key(&start, |block| block.start);
    place.ok().map(|place| &blocks[place])
}

/// The blocks of a code, by start, before anything is known of dynamic jumps.
pub fn blocks(code: &[u8]) -> Vec<Block> {
    if code.is_empty() {
        return Vec::new();
    }
    let cut = cut(code);
    let checked = cut.iter().map(|block| Block {
        kind: checked(code, &cut, &block.kind),
        ..*block
    });
    checked.collect()
}

/// The cutting in progress: the open block's start, or none while it waits for JUMPDEST.
struct Cutter<'a> {
    code: &'a [u8],
    blocks: Vec<Block>,
    open: Option<usize>,
    previous: Option<usize>,
}

fn cut(code: &[u8]) -> Vec<Block> {
    let mut cutter = Cutter {
        code,
        blocks: Vec::new(),
        open: Some(0),
        previous: None,
    };
    for (pc, byte) in ops::walk(code, 0) {
        let start = cutter.open;
        cutter.step(pc, byte);
        if start == Some(0) && !ops::row(byte).known {
            break;
        }
        cutter.previous = Some(pc);
    }
    // For `60` the last instruction's place is 0 though none was walked.
    let last = cutter.previous.unwrap_or(0);
    if cutter.open.is_some_and(|start| start <= last) {
        cutter.close(last, FAILURE);
    }
    cutter.blocks
}

impl Cutter<'_> {
    fn step(&mut self, pc: usize, byte: u8) {
        let Some(start) = self.open else {
            self.open = (byte == JUMPDEST).then_some(pc);
            return;
        };
        match byte {
            JUMPDEST if start != pc => {
                self.close(self.previous.unwrap_or(0), Kind::Jump { to: pc });
                self.open = Some(pc);
            }
            JUMPI => {
                self.close(pc, self.conditional(pc + 1));
                self.open = Some(pc + 1);
            }
            JUMP => self.close(pc, self.unconditional()),
            ops::STOP | ops::RETURN | ops::SELFDESTRUCT => {
                self.close(pc, Kind::Terminate { success: true });
            }
            ops::REVERT | ops::INVALID => self.close(pc, FAILURE),
            _ if !ops::row(byte).known => self.unknown(start, pc),
            _ => {}
        }
    }

    /// "Unless the block starts at that byte; then no block is kept", save the block at 0.
    fn unknown(&mut self, start: usize, pc: usize) {
        if start == 0 || start != pc {
            self.close(self.previous.unwrap_or(0), FAILURE);
        }
        self.open = None;
    }

    /// Keeps the open block, with this end; the walk then waits for JUMPDEST.
    fn close(&mut self, end: usize, kind: Kind) {
        if let Some(start) = self.open.take() {
            self.blocks.push(Block { start, end, kind });
        }
    }

    /// The value that the previous instruction pushed, if it is PUSH1 to PUSH4.
    fn target(&self) -> Option<usize> {
        self.previous.and_then(|pc| ops::pushed(self.code, pc))
    }

    fn conditional(&self, no: usize) -> Kind {
        match self.target() {
            Some(yes) => Kind::Jumpi { yes, no },
            None => Kind::DynamicJumpi {
                no,
                entries: Vec::new(),
            },
        }
    }

    fn unconditional(&self) -> Kind {
        match self.target() {
            Some(to) => Kind::Jump { to },
            None => Kind::DynamicJump {
                entries: Vec::new(),
            },
        }
    }
}

/// "Afterwards a Jump to no block, or to a block whose first byte isn't 5B, becomes ..."
fn checked(code: &[u8], cut: &[Block], kind: &Kind) -> Kind {
    let starts = |to: usize| find(cut, to).is_some();
    let lands = |to: usize| starts(to) && code[to] == JUMPDEST;
    match *kind {
        Kind::Jump { to } if !lands(to) => FAILURE,
        Kind::Jumpi { no, .. } if !starts(no) => FAILURE,
        Kind::Jumpi { yes, no } if !lands(yes) => Kind::Jump { to: no },
        ref other => other.clone(),
    }
}
