//! Document 01 as a plain program, written from its text: what a call must answer; and document 02 as far as it has landed.
//!
//! It is the second opinion: the proved definitions are held against it, and it is held against
//! the unchanged Rust. It is written to be read, not to be fast.

pub mod blocks;
mod bounds;
mod call;
pub mod entries;
pub mod family;
pub mod follow;
pub mod inspect;
mod map;
pub mod ops;
pub mod reach;
pub mod reader;
pub mod report;
pub mod rooms;
pub mod salvage;
pub mod search;
pub mod stack;

pub use blocks::{Block, Entry, Kind};
pub use bounds::{HIGHEST_LIMIT, LONGEST_CODE, LONGEST_DEPLOYED};
pub use call::{map, map_by, map_in, unpruned_by};
pub use family::Family;
pub use follow::{Followed, NotFollowed, follow_bytes};
pub use inspect::{Inspected, inspect, inspect_from};
pub use map::Map;
pub use reader::{Bad, Held, Refused, read};
pub use rooms::{Lent, Needs, Refusal};
pub use salvage::{Salvaged, salvage};
pub use search::Record;

/// What a call gives back: its refusal, or the bytes of its output.
#[derive(Clone, Debug, PartialEq, Eq)]
pub enum Answer {
    Refused(Refusal),
    Answered(Vec<u8>),
}

impl Answer {
    /// The number of document 01's table; 0 is answered.
    pub fn number(&self) -> u8 {
        match self {
            Answer::Refused(refusal) => refusal.number(),
            Answer::Answered(_) => 0,
        }
    }

    /// The bytes written; none if refused.
    pub fn written(&self) -> &[u8] {
        match self {
            Answer::Refused(_) => &[],
            Answer::Answered(bytes) => bytes,
        }
    }
}

/// The answer to one call with these lent rooms, this limit and this code, in mode 0.
pub fn answer(lent: &Lent, limit: u64, code: &[u8]) -> Answer {
    answer_in(0, lent, limit, code)
}

/// The same in a mode, by its number.
pub fn answer_in(mode: u64, lent: &Lent, limit: u64, code: &[u8]) -> Answer {
    answer_by(1, mode, lent, limit, code)
}

/// The same with a choice: the records have their numbers if it is 0.
pub fn answer_by(choice: u64, mode: u64, lent: &Lent, limit: u64, code: &[u8]) -> Answer {
    match map_by(choice, mode, lent, limit, code) {
        Ok(map) => Answer::Answered(entries::write(code.len(), &map)),
        Err(refusal) => Answer::Refused(refusal),
    }
}
