//! A stack that is deep enough: below what was put on it lie as many words as are asked for, each made when it is.

use std::collections::VecDeque;

use crate::word::Word;

/// The stack, and where its lower words and the results come from that the Yellow Paper computes elsewhere.
pub struct Stack<'a> {
    /// Top first.
    words: VecDeque<Word>,
    supply: &'a mut dyn FnMut() -> Word,
}

impl<'a> Stack<'a> {
    pub fn new(supply: &'a mut dyn FnMut() -> Word) -> Stack<'a> {
        Stack {
            words: VecDeque::new(),
            supply,
        }
    }

    fn deepen(&mut self, depth: usize) {
        while self.words.len() < depth {
            self.words.push_back((self.supply)());
        }
    }

    /// The word at this depth, top 0.
    pub fn at(&mut self, depth: usize) -> Word {
        self.deepen(depth + 1);
        self.words[depth]
    }

    pub fn push(&mut self, word: Word) {
        self.words.push_front(word);
    }

    pub fn pop(&mut self) -> Word {
        self.deepen(1);
        self.words.pop_front().expect("it was made deep enough")
    }

    /// The top and the word at this depth change places.
    pub fn exchange(&mut self, depth: usize) {
        self.deepen(depth + 1);
        self.words.swap(0, depth);
    }

    /// A result that is computed elsewhere.
    pub fn supplied(&mut self) -> Word {
        (self.supply)()
    }
}
