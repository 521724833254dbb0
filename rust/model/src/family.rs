//! Document 02, No. 10: the kinds of the entries that hold paths, by the code's length.

use crate::bounds::LONGEST_DEPLOYED;

/// The three kinds, and what stands for a missing destination.
#[derive(Clone, Copy, Debug, PartialEq, Eq)]
pub struct Family {
    /// An entry of the block before it.
    pub seven: u16,
    /// A record.
    pub record: u16,
    /// A record with its number.
    pub numbered: u16,
    pub nowhere: u16,
}

/// "A missing destination is 0x8000."
pub const FIRST: Family = Family {
    seven: 7,
    record: 8,
    numbered: 9,
    nowhere: 0x8000,
};

/// "Kinds 10, 11 and 12 in place of 7, 8 and 9, where a missing destination is 0xFFFF."
pub const SECOND: Family = Family {
    seven: 10,
    record: 11,
    numbered: 12,
    nowhere: 0xffff,
};

impl Family {
    /// That of a code of so many bytes, or of a head that says so.
    pub fn of(code_length: usize) -> Family {
        if code_length > LONGEST_DEPLOYED {
            SECOND
        } else {
            FIRST
        }
    }

    pub fn is_seven(self, kind: usize) -> bool {
        kind == usize::from(self.seven)
    }

    pub fn is_numbered(self, kind: usize) -> bool {
        kind == usize::from(self.numbered)
    }

    /// With its number or without.
    pub fn is_record(self, kind: usize) -> bool {
        kind == usize::from(self.record) || self.is_numbered(kind)
    }

    /// What the two bytes of a destination say.
    pub fn destination(self, to: usize) -> Option<usize> {
        (to != usize::from(self.nowhere)).then_some(to)
    }
}
