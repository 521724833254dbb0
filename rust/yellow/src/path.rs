//! A record's path: its blocks run "from the last named to the first", and what the last jump pops.

use std::fmt;

use model::Record;

use crate::machine::{JUMPDEST, Way, leave};
use crate::mask::Mask;
use crate::stack::Stack;
use crate::word::Word;

/// What was seen of a path that is true.
#[derive(Clone, Debug, Default, PartialEq, Eq)]
pub struct Seen {
    /// Blocks run.
    pub blocks: usize,
    /// Times the mask rule was used, and of them those where its premise did not hold.
    pub masked: usize,
    pub broken: usize,
}

/// What is wrong with a path.
#[derive(Clone, Debug, PartialEq, Eq)]
pub enum Wrong {
    /// It is empty, or does not begin with the record's block.
    NotOfItsBlock,
    /// Control does not go from this block to the one named before it.
    Astray {
        block: usize,
        named: usize,
        way: Way,
    },
    /// The first-named block ends with no jump.
    NoJump { way: Way },
    /// The last jump pops something else.
    Elsewhere { popped: Word, recorded: usize },
    /// The byte at the destination is not 5B.
    NoJumpdest { recorded: usize },
}

/// Runs a record with this destination on a stack as deep as it needs, whose words `supply` makes, as it makes the results
/// that are computed elsewhere; `mask` begins as that of the record's mode.
pub fn check(
    code: &[u8],
    record: &Record,
    to: usize,
    mut mask: Mask,
    supply: &mut dyn FnMut() -> Word,
) -> Result<Seen, Wrong> {
    if record.path.first() != Some(&record.start) {
        return Err(Wrong::NotOfItsBlock);
    }
    let mut stack = Stack::new(supply);
    let mut way = Way::Halt;
    for (place, block) in record.path.iter().enumerate().rev() {
        way = leave(code, *block, &mut stack, &mut mask);
        if place > 0 {
            let named = record.path[place - 1];
            if !goes_to(code, way, named) {
                let block = *block;
                return Err(Wrong::Astray { block, named, way });
            }
        }
    }
    let (Way::Jump(popped) | Way::Branch(popped, _)) = way else {
        return Err(Wrong::NoJump { way });
    };
    if popped != Word::from(to as u64) {
        let recorded = to;
        return Err(Wrong::Elsewhere { popped, recorded });
    }
    if code.get(to) != Some(&JUMPDEST) {
        return Err(Wrong::NoJumpdest { recorded: to });
    }
    Ok(Seen {
        blocks: record.path.len(),
        masked: mask.used,
        broken: mask.broken,
    })
}

/// A jump goes on at a 5B only. Of a JUMPI either side counts: which one is taken is not the path's to say.
fn goes_to(code: &[u8], way: Way, next: usize) -> bool {
    let jumps = |popped| popped == Word::from(next as u64) && code.get(next) == Some(&JUMPDEST);
    match way {
        Way::Jump(popped) => jumps(popped),
        Way::Branch(popped, behind) => jumps(popped) || behind == next,
        Way::Fall(at) => at == next,
        Way::Halt => false,
    }
}

impl fmt::Display for Wrong {
    fn fmt(&self, f: &mut fmt::Formatter) -> fmt::Result {
        match self {
            Wrong::NotOfItsBlock => write!(f, "the path does not begin with the record's block"),
            Wrong::Astray { block, named, way } => {
                write!(f, "from block {block} control goes not to {named}: {way:?}")
            }
            Wrong::NoJump { way } => write!(f, "its first-named block ends with no jump: {way:?}"),
            Wrong::Elsewhere { popped, recorded } => {
                write!(f, "its jump pops {popped:?}, and {recorded} is recorded")
            }
            Wrong::NoJumpdest { recorded } => write!(f, "the byte at {recorded} is not 5B"),
        }
    }
}
