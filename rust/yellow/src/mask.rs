//! Document 02's premise, "wherever the mask rule was used the other word below 2^32", by document 01's sentences on which
//! numbers a block knows: "PUSH1 to PUSH4 and PC", "ADD of two known values .. if the sum fits 64 bits", "AND with the known
//! value 0xffffffff, top looked at first, leaves the other symbol unmasked". In mode 1 of document 02, No. 6, "PUSH0 gives the
//! known value 0" too.

use crate::machine::{AND, Fetched, taken_given};
use crate::stack::Stack;

const MASK: u64 = 0xffff_ffff;

/// The numbers that the block in hand knows, and how often the rule was used.
#[derive(Clone, Debug, Default, PartialEq, Eq)]
pub struct Mask {
    /// Whether PUSH0 gives a number that is known.
    known_zero: bool,
    /// Top last; below it nothing is known.
    known: Vec<Option<u64>>,
    /// Times the rule was used, and of them those where the other word was not below 2^32.
    pub used: usize,
    pub broken: usize,
}

impl Mask {
    /// In mode 1, or in mode 0.
    pub fn of(known_zero: bool) -> Mask {
        Mask {
            known_zero,
            ..Mask::default()
        }
    }

    /// A block begins: it knows nothing of the words that it finds.
    pub fn enter(&mut self) {
        self.known.clear();
    }

    fn pop(&mut self) -> Option<u64> {
        self.known.pop().flatten()
    }

    fn at(&self, depth: usize) -> Option<u64> {
        let place = self.known.len().checked_sub(depth + 1)?;
        self.known[place]
    }

    /// What is known after the instruction that stands before the stack.
    pub fn before(&mut self, now: &Fetched, stack: &mut Stack) {
        let op = now.op;
        match op {
            0x5f if self.known_zero => self.known.push(Some(0)),
            0x60..=0x63 => self.known.push(now.argument.small()),
            0x58 => self.known.push(Some(now.pc as u64)),
            0x80..=0x8f => self.known.push(self.at(usize::from(op - 0x80))),
            0x90..=0x9f => self.exchange(usize::from(op - 0x8f)),
            0x01 => {
                let (a, b) = (self.pop(), self.pop());
                let sum = a.zip(b).and_then(|(a, b)| a.checked_add(b));
                self.known.push(sum);
            }
            AND => self.and(stack),
            _ => {
                let (taken, given) = taken_given(op).unwrap_or((0, 0));
                let left = self.known.len().saturating_sub(taken);
                self.known.truncate(left);
                self.known.extend((0..given).map(|_| None));
            }
        }
    }

    fn exchange(&mut self, depth: usize) {
        while self.known.len() < depth + 1 {
            self.known.insert(0, None);
        }
        let top = self.known.len() - 1;
        self.known.swap(top, top - depth);
    }

    fn and(&mut self, stack: &mut Stack) {
        let (a, b) = (self.pop(), self.pop());
        let (other, left) = match (a, b) {
            (Some(MASK), left) => (stack.at(1), left),
            (left, Some(MASK)) => (stack.at(0), left),
            _ => return self.known.push(None),
        };
        self.known.push(left);
        self.used += 1;
        if other.small().is_none_or(|number| number > MASK) {
            self.broken += 1;
        }
    }
}
