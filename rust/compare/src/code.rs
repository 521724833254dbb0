//! The instructions of a map's blocks, where the code is at hand.

use std::collections::HashSet;
use std::fmt;

use aznifrem::{Block, Map};

use crate::matching::Matching;

const JUMPDEST: u8 = 0x5b;
const PUSH0: u8 = 0x5f;
const PUSH1: u8 = 0x60;
const PUSH4: u8 = 0x63;
const PUSH32: u8 = 0x7f;

/// A map with the code that it is of.
#[derive(Clone, Debug)]
pub struct Coded<'a> {
    pub(crate) map: &'a Map,
    code: &'a [u8],
    /// Where JUMPDEST stands as an instruction.
    landings: HashSet<usize>,
}

/// Why a code is not the one that a map is of.
#[derive(Clone, Copy, Debug, PartialEq, Eq)]
pub enum NotTheCode {
    /// The map is of a code of another length.
    Length {
        /// Bytes of the code.
        code: usize,
        /// Bytes that the map says.
        map: usize,
    },
    /// In this code no instruction stands where the block that starts here ends.
    Block {
        /// The start of the block.
        start: usize,
    },
}

/// An instruction: its byte, and what a PUSH pushes.
type Instruction<'a> = (u8, &'a [u8]);

impl<'a> Coded<'a> {
    /// The map and its code, if they can belong together.
    pub fn new(map: &'a Map, code: &'a [u8]) -> Result<Coded<'a>, NotTheCode> {
        if code.len() != map.code_length {
            let map = map.code_length;
            let code = code.len();
            return Err(NotTheCode::Length { code, map });
        }
        let stray = |block: &&Block| instructions(code, block).is_none();
        match map.blocks.values().find(stray) {
            Some(block) => Err(NotTheCode::Block { start: block.start }),
            None => Ok(Coded {
                map,
                code,
                landings: landings(code),
            }),
        }
    }

    /// The starts of old blocks whose instructions are not those of the block that they are matched with.
    /// Addresses that are pushed and not in the maps are matched on the way, one with one.
    pub fn changed(&self, new: &Coded, names: &Matching) -> Vec<usize> {
        let mut names = names.clone();
        let changed = |block: &&Block| {
            let other = names.new_of(block.start);
            let other = other.and_then(|at| new.map.blocks.get(&at));
            !other.is_some_and(|other| self.same(new, &mut names, block, other))
        };
        let blocks = self.map.blocks.values().filter(changed);
        blocks.map(|block| block.start).collect()
    }

    /// Whether the instructions are the same but for pushed addresses of code, each of which is the other's.
    fn same(&self, new: &Coded, names: &mut Matching, block: &Block, other: &Block) -> bool {
        let walked = (
            instructions(self.code, block),
            instructions(new.code, other),
        );
        let (Some(old), Some(other)) = walked else {
            return false;
        };
        let mut address = |old: Instruction, other: Instruction| {
            let pushed = pushed(old).zip(pushed(other));
            pushed.is_some_and(|(old, other)| {
                self.landings.contains(&old)
                    && new.landings.contains(&other)
                    && names.joins(old, other)
            })
        };
        let mut fits =
            |(old, other): (&Instruction, &Instruction)| old == other || address(*old, *other);
        old.len() == other.len() && old.iter().zip(&other).all(&mut fits)
    }

    /// Whether the bytes of a block are the same in both codes.
    pub(crate) fn bytes_differ(&self, new: &Coded, block: &Block) -> bool {
        instructions(self.code, block) != instructions(new.code, block)
    }
}

/// The instructions of a block; nothing if none stands where it ends. Only the last of the code may be cut.
fn instructions<'a>(code: &'a [u8], block: &Block) -> Option<Vec<Instruction<'a>>> {
    let mut at = block.start;
    let mut walked = Vec::new();
    while at < block.end {
        walked.push(instruction(code, at)?);
        at += size(code[at]);
    }
    walked.push(instruction(code, at)?);
    (at == block.end).then_some(walked)
}

fn landings(code: &[u8]) -> HashSet<usize> {
    let next = |at: &usize| code.get(*at).map(|byte| at + size(*byte));
    let walk = std::iter::successors(Some(0), next);
    walk.filter(|at| code.get(*at) == Some(&JUMPDEST)).collect()
}

fn instruction(code: &[u8], at: usize) -> Option<Instruction<'_>> {
    let byte = *code.get(at)?;
    let end = (at + size(byte)).min(code.len());
    Some((byte, &code[at + 1..end]))
}

fn size(byte: u8) -> usize {
    match byte {
        PUSH1..=PUSH32 => 1 + usize::from(byte - PUSH0),
        _ => 1,
    }
}

/// The value of PUSH1 to PUSH4: no other can push a destination.
fn pushed((byte, value): Instruction) -> Option<usize> {
    let digits = || {
        value
            .iter()
            .fold(0, |v, digit| v * 256 + usize::from(*digit))
    };
    (PUSH1..=PUSH4).contains(&byte).then(digits)
}

impl fmt::Display for NotTheCode {
    fn fmt(&self, f: &mut fmt::Formatter) -> fmt::Result {
        match self {
            NotTheCode::Length { code, map } => write!(
                f,
                "is not the code of the map: it has {code} bytes, and the map is of a code of {map}"
            ),
            NotTheCode::Block { start } => write!(
                f,
                "is not the code of the map: its block {start} ends within an instruction here"
            ),
        }
    }
}
