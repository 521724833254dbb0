//! "Stacks": the symbols that a block leaves, and composing them with a parent's.

use crate::ops::{self, JUMPDEST};

#[derive(Clone, Copy, Debug, PartialEq, Eq, Hash)]
pub enum Symbol {
    /// The word at this depth on entry, top 0.
    Before(usize),
    Constant(u64),
    Jumpdest(u64),
    /// What the instruction at this place gave.
    Other(usize),
}

const MASK: u64 = 0xffff_ffff;

impl Symbol {
    fn known(self) -> Option<u64> {
        match self {
            Symbol::Constant(value) | Symbol::Jumpdest(value) => Some(value),
            Symbol::Before(_) | Symbol::Other(_) => None,
        }
    }

    /// "Jumpdest if the byte at the value is 5B, else Constant".
    fn of(code: &[u8], value: u64) -> Symbol {
        let place = usize::try_from(value).ok();
        match place.and_then(|place| code.get(place)) {
            Some(&JUMPDEST) => Symbol::Jumpdest(value),
            _ => Symbol::Constant(value),
        }
    }
}

/// A stored stack, bottom first; its bottom is always a Before.
#[derive(Clone, Debug, PartialEq, Eq, Hash)]
pub struct Stack(Vec<Symbol>);

impl Stack {
    fn identity() -> Stack {
        Stack(vec![Symbol::Before(0)])
    }

    /// Symbols stored: what room S counts.
    pub fn cells(&self) -> usize {
        self.0.len()
    }

    fn bottom(&self) -> usize {
        match self.0[0] {
            Symbol::Before(depth) => depth,
            other => unreachable!("a stored stack's bottom is a Before, not {other:?}"),
        }
    }

    /// The symbol at a position, top 0: "below the stored stack the numbering goes on by one".
    pub fn read(&self, position: usize) -> Symbol {
        let stored = self.cells();
        if position < stored {
            self.0[stored - 1 - position]
        } else {
            Symbol::Before(self.bottom() + 1 + position - stored)
        }
    }

    /// This stack with Before(n) read in the parent, over the parent's symbols below its bottom.
    pub fn compose(&self, parent: &Stack) -> Stack {
        let below = parent.cells().saturating_sub(self.bottom() + 1);
        let replaced = self.0.iter().map(|symbol| match *symbol {
            Symbol::Before(depth) => parent.read(depth),
            other => other,
        });
        Stack(parent.0[..below].iter().copied().chain(replaced).collect())
    }

    /// From the bottom a run Before(n), Before(n - 1), ... keeps its last symbol only.
    fn trimmed(mut self) -> Stack {
        let bottom = self.bottom();
        let run = self.0.iter().enumerate();
        let run =
            run.take_while(|(i, symbol)| matches!(symbol, Symbol::Before(n) if n + i == bottom));
        let redundant = run.count() - 1;
        self.0.drain(..redundant);
        self
    }

    /// Stores deeper words, so that one more than `count` symbols are there.
    fn deepen(&mut self, count: usize) {
        let missing = (count + 1).saturating_sub(self.cells());
        let bottom = self.bottom();
        let deeper = (bottom + 1..=bottom + missing).rev();
        self.0.splice(0..0, deeper.map(Symbol::Before));
    }

    fn pop(&mut self) -> Symbol {
        self.0.pop().expect("the stack was deepened")
    }

    /// One instruction; a jump gives the symbol of its destination.
    fn act(&mut self, code: &[u8], zero_known: bool, pc: usize, byte: u8) -> Option<Symbol> {
        let row = ops::row(byte);
        self.deepen(row.taken);
        match byte {
            ops::PUSH1..=ops::PUSH4 => {
                let value = ops::pushed(code, pc).expect("the byte is PUSH1 to PUSH4");
                self.0.push(Symbol::of(code, value as u64));
            }
            // "Add a mode in which PUSH0 gives the known value 0, a Jumpdest if byte 0 is 5B."
            ops::PUSH0 if zero_known => self.0.push(Symbol::of(code, 0)),
            ops::PC => self.0.push(Symbol::of(code, pc as u64)),
            ops::DUP1..=ops::DUP16 => self.0.push(self.read(ops::copied(byte) - 1)),
            ops::SWAP1..=ops::SWAP16 => {
                let top = self.cells() - 1;
                self.0.swap(top, top - ops::swapped(byte));
            }
            ops::AND => {
                let (first, second) = (self.pop(), self.pop());
                self.0.push(masked(pc, first, second));
            }
            ops::ADD => {
                let (first, second) = (self.pop(), self.pop());
                self.0.push(added(code, pc, first, second));
            }
            _ => {
                let top = self.read(0);
                self.0.truncate(self.cells() - row.taken);
                self.0
                    .extend(std::iter::repeat_n(Symbol::Other(pc), row.given));
                return matches!(byte, ops::JUMP | ops::JUMPI).then_some(top);
            }
        }
        None
    }
}

/// "AND with the known value 0xffffffff, top looked at first, leaves the other symbol unmasked."
fn masked(pc: usize, first: Symbol, second: Symbol) -> Symbol {
    if first.known() == Some(MASK) {
        second
    } else if second.known() == Some(MASK) {
        first
    } else {
        Symbol::Other(pc)
    }
}

/// "ADD of two known values does so if the sum fits 64 bits, else Other."
fn added(code: &[u8], pc: usize, first: Symbol, second: Symbol) -> Symbol {
    let known = first.known().zip(second.known());
    match known.and_then(|(a, b)| a.checked_add(b)) {
        Some(sum) => Symbol::of(code, sum),
        None => Symbol::Other(pc),
    }
}

/// A block's stack, trimmed at its end, and the symbol that its jump reads if it ends in one.
pub fn run(code: &[u8], zero_known: bool, start: usize, end: usize) -> (Stack, Option<Symbol>) {
    let mut stack = Stack::identity();
    let mut jump = None;
    for (pc, byte) in ops::walk(code, start).take_while(|(pc, _)| *pc <= end) {
        jump = stack.act(code, zero_known, pc, byte);
    }
    (stack.trimmed(), jump)
}
