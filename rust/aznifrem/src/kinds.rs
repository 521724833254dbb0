//! The entries of document 01: "length of body (4 bytes), kind (2), body; little-endian".

use crate::bounds::LONGEST_DEPLOYED;

/// Bytes before an entry's body.
pub const HEADER: usize = 6;

pub const HEAD: u16 = 1;
pub const TERMINATE: u16 = 2;
pub const JUMP: u16 = 3;
pub const JUMPI: u16 = 4;
pub const DYNAMIC_JUMP: u16 = 5;
pub const DYNAMIC_JUMPI: u16 = 6;

/// The kinds of the entries that hold paths, by the code's length. A map has those of one family alone.
///
/// ```
/// use aznifrem::{Kinds, LONGEST_DEPLOYED};
///
/// assert_eq!(Kinds::of_code(LONGEST_DEPLOYED), Kinds::FIRST);
/// assert_eq!(Kinds::of_code(LONGEST_DEPLOYED + 1), Kinds::SECOND);
/// ```
#[derive(Clone, Copy, Debug, PartialEq, Eq)]
pub struct Kinds {
    /// A path of the dynamic block before it.
    pub path: u16,
    /// A record.
    pub record: u16,
    /// A record with its number.
    pub numbered: u16,
    /// What stands for a missing destination.
    pub nowhere: u16,
}

impl Kinds {
    /// Of code up to [`LONGEST_DEPLOYED`] bytes.
    pub const FIRST: Kinds = Kinds {
        path: 7,
        record: 8,
        numbered: 9,
        nowhere: 0x8000,
    };

    /// Of longer code, in which 0x8000 may be an address.
    pub const SECOND: Kinds = Kinds {
        path: 10,
        record: 11,
        numbered: 12,
        nowhere: 0xffff,
    };

    /// Those of a code of so many bytes.
    pub fn of_code(length: usize) -> Kinds {
        if length > LONGEST_DEPLOYED {
            Kinds::SECOND
        } else {
            Kinds::FIRST
        }
    }

    /// Those of a stored map, whose head says the code's length; [`Kinds::FIRST`] if that is not there.
    pub fn of_map(bytes: &[u8]) -> Kinds {
        let length = bytes.get(HEADER..).and_then(<[u8]>::first_chunk);
        Kinds::of_code(length.map_or(0, |two| u16::from_le_bytes(*two).into()))
    }

    /// Whether a kind is a record's, with its number or without.
    pub fn is_record(self, kind: u16) -> bool {
        kind == self.record || kind == self.numbered
    }

    /// Whether a kind is of either family.
    pub(crate) fn is_any(kind: u16) -> bool {
        let of = |kinds: Kinds| kind == kinds.path || kinds.is_record(kind);
        of(Kinds::FIRST) || of(Kinds::SECOND)
    }
}
