//! What can go wrong, in sentences that say what to do.

use std::error::Error as StdError;
use std::fmt;

use crate::bounds::{HIGHEST_LIMIT, LONGEST_CODE, LONGEST_DEPLOYED};
use crate::kinds::{DYNAMIC_JUMPI, HEAD};
use crate::room::Room;

/// Why there is no map.
#[derive(Clone, Debug, PartialEq, Eq)]
#[non_exhaustive]
pub enum Error {
    /// Refusal 1.
    CodeTooLong {
        /// Bytes of the code.
        length: usize,
    },
    /// Refusal 2.
    LimitTooHigh {
        /// The limit that was asked for.
        limit: u64,
    },
    /// Refusals 3 to 9, where the room may not grow: what the code is known to need is more than
    /// the ceiling.
    RoomFull {
        /// The room that is too small.
        room: Room,
        /// Its bytes.
        lent: usize,
        /// What all rooms together may have.
        ceiling: usize,
    },
    /// Refusals 4 to 9, where the room has all that counts as lent: 2^30 units.
    RoomAtMost {
        /// The room that is too small.
        room: Room,
        /// Its bytes.
        lent: usize,
    },
    /// The system has no memory for a room that may grow.
    NoMemory {
        /// The room.
        room: Room,
        /// The bytes that it was to have.
        bytes: usize,
    },
    /// The linked library gave a number that document 01 does not have.
    NoSuchAnswer {
        /// The number.
        number: u64,
    },
    /// The linked library's answer is no map.
    Unreadable(Unreadable),
    /// On a machine that is not x86-64 the library cannot be reached.
    NotRelayed(NotRelayed),
}

impl Error {
    /// The number of document 01's table, if this is one of its refusals.
    ///
    /// ```
    /// let error = aznifrem::map(&[0; 49_153], 0).unwrap_err();
    /// assert_eq!(error.number(), Some(1));
    /// ```
    pub fn number(&self) -> Option<u8> {
        match self {
            Error::CodeTooLong { .. } => Some(1),
            Error::LimitTooHigh { .. } => Some(2),
            Error::RoomFull { room, .. } | Error::RoomAtMost { room, .. } => Some(room.refusal()),
            Error::NoMemory { .. }
            | Error::NoSuchAnswer { .. }
            | Error::Unreadable(_)
            | Error::NotRelayed(_) => None,
        }
    }
}

impl fmt::Display for Error {
    fn fmt(&self, f: &mut fmt::Formatter) -> fmt::Result {
        match self {
            Error::CodeTooLong { length } => write!(
                f,
                "the code has {length} bytes and at most {LONGEST_CODE} are mapped: give init code or deployed code, without other data"
            ),
            Error::LimitTooHigh { limit } => write!(
                f,
                "the limit {limit} is over {HIGHEST_LIMIT}: give {HIGHEST_LIMIT} or less"
            ),
            Error::RoomFull {
                room,
                lent,
                ceiling,
            } => write!(
                f,
                "room {room} is too small at {lent} bytes and may not grow, as all rooms together may have {ceiling} bytes: allow more{}",
                or_lower(*room)
            ),
            Error::RoomAtMost { room, lent } => write!(
                f,
                "room {room} is too small at {lent} bytes, and no more of it counts as lent: map with a lower limit"
            ),
            Error::NoMemory { room, bytes } => write!(
                f,
                "the system has no memory for {bytes} bytes of room {room}: free memory{}",
                or_lower(*room)
            ),
            Error::NoSuchAnswer { number } => write!(
                f,
                "the linked library answered {number}, which is no answer: link the libaznifrem.a that belongs to this crate"
            ),
            Error::Unreadable(unreadable) => write!(
                f,
                "the linked library's answer is no map ({unreadable}): link the libaznifrem.a that belongs to this crate"
            ),
            Error::NotRelayed(not_relayed) => not_relayed.fmt(f),
        }
    }
}

/// What W must have depends on the code alone.
fn or_lower(room: Room) -> &'static str {
    match room {
        Room::W => "",
        _ => ", or map with a lower limit",
    }
}

impl StdError for Error {
    fn source(&self) -> Option<&(dyn StdError + 'static)> {
        match self {
            Error::Unreadable(unreadable) => Some(unreadable),
            Error::NotRelayed(not_relayed) => Some(not_relayed),
            _ => None,
        }
    }
}

/// Why a call did not come back from the library. Where the machine is not x86-64 the library runs
/// under an emulator, in a program beside the caller's; elsewhere this does not happen.
#[derive(Clone, Debug, PartialEq, Eq)]
pub struct NotRelayed(pub(crate) String);

impl fmt::Display for NotRelayed {
    fn fmt(&self, f: &mut fmt::Formatter) -> fmt::Result {
        f.write_str(&self.0)
    }
}

impl StdError for NotRelayed {}

impl From<NotRelayed> for Error {
    fn from(not_relayed: NotRelayed) -> Error {
        Error::NotRelayed(not_relayed)
    }
}

/// Bytes that are no map, and where the first bad entry begins.
#[derive(Clone, Copy, Debug, PartialEq, Eq)]
pub struct Unreadable {
    /// The place of the first bad entry; 0 for counts of the head that nothing else explains.
    pub offset: usize,
    /// What is wrong with it.
    pub fault: Fault,
}

/// What is wrong with an entry.
#[derive(Clone, Copy, Debug, PartialEq, Eq)]
#[non_exhaustive]
pub enum Fault {
    /// There is no byte, and so no head.
    Empty,
    /// The bytes end before it does.
    Cut,
    /// The first entry is no head.
    NoHead,
    /// No such kind of entry is known.
    UnknownKind(u16),
    /// A path or a record of a kind that maps of codes of the head's length do not have.
    OtherFamily(u16),
    /// It stands behind what must come after it, or what may not come before it: a second head, a
    /// block after a record, a record after one of the other kind; of this kind.
    OutOfOrder(u16),
    /// A path, of kind 7 or 10, that follows neither a dynamic block nor another path of one.
    Away(u16),
    /// Its body is longer or shorter than its kind says.
    Length(usize),
    /// The block's start is not above the one before.
    Start(usize),
    /// The byte that says whether a block ends in success is neither 0 nor 1.
    Success(u8),
    /// A dynamic block that is not followed by as many paths as it says.
    Entries {
        /// What it says.
        count: u32,
        /// Those that are there, whole.
        there: usize,
    },
    /// The head's counts are not those of the entries.
    Counts,
}

impl fmt::Display for Unreadable {
    fn fmt(&self, f: &mut fmt::Formatter) -> fmt::Result {
        if self.fault != Fault::Empty {
            write!(f, "the entry at byte {} ", self.offset)?;
        }
        match self.fault {
            Fault::Empty => f.write_str("it is empty, and a map begins with a head"),
            Fault::Cut => f.write_str("is cut short"),
            Fault::NoHead => f.write_str("is no head, and a map begins with one"),
            Fault::UnknownKind(kind) => write!(f, "is of kind {kind}, which is not known"),
            Fault::OtherFamily(kind) => write!(
                f,
                "is of kind {kind}, which is not for a code of the length that the head says: 7, 8 and 9 are for at most {LONGEST_DEPLOYED} bytes, and 10, 11 and 12 for more"
            ),
            Fault::OutOfOrder(HEAD) => f.write_str("is a second head"),
            Fault::OutOfOrder(kind) if kind > DYNAMIC_JUMPI => write!(
                f,
                "is of kind {kind}, a record, and stands after records of another kind"
            ),
            Fault::OutOfOrder(kind) => write!(
                f,
                "is of kind {kind}, a block, and stands after a record: blocks come first"
            ),
            Fault::Away(kind) => write!(
                f,
                "is of kind {kind}, a path of the dynamic block before it, and follows none"
            ),
            Fault::Length(length) => {
                write!(
                    f,
                    "has a body of {length} bytes, which its kind does not have"
                )
            }
            Fault::Start(start) => write!(
                f,
                "is a block that starts at {start}, not above the block before it"
            ),
            Fault::Success(byte) => write!(f, "has {byte} where 0 or 1 says whether it succeeds"),
            Fault::Entries { count, there } => {
                write!(f, "says {count} paths and is followed by {there}")
            }
            Fault::Counts => f.write_str("is a head whose counts are not those of the entries"),
        }?;
        f.write_str("; make the map again from the code, or fetch the stored file again")
    }
}

impl StdError for Unreadable {}

/// A map that was put together by hand and does not fit the entries.
#[derive(Clone, Copy, Debug, PartialEq, Eq)]
pub struct Unwritable {
    /// The address or count that does not fit.
    pub value: usize,
}

impl fmt::Display for Unwritable {
    fn fmt(&self, f: &mut fmt::Formatter) -> fmt::Result {
        write!(
            f,
            "the address or count {} does not fit the entries of a map: keep addresses below 65536, and a dynamic jump's destination other than 32768, or 65535 if the code has more than {LONGEST_DEPLOYED} bytes",
            self.value
        )
    }
}

impl StdError for Unwritable {}

#[cfg(test)]
mod tests {
    use super::{Error, Fault, Room, Unreadable};

    #[test]
    fn sentences_advise_what_helps() {
        let (room, lent, ceiling) = (Room::S, 9 << 30, 10 << 30);
        let full = Error::RoomFull {
            room,
            lent,
            ceiling,
        };
        assert!(full.to_string().contains("allow more"));
        let most = Error::RoomAtMost { room, lent };
        assert!(!most.to_string().contains("allow more"));
        assert!(most.to_string().ends_with("map with a lower limit"));
        assert_eq!((full.number(), most.number()), (Some(5), Some(5)));
        let none = Error::NoMemory { room, bytes: lent };
        assert!(none.to_string().contains(": free memory, or "));
        let work = Error::RoomFull {
            room: Room::W,
            lent,
            ceiling,
        };
        assert!(work.to_string().ends_with(": allow more"), "{work}");
        let fault = Fault::Entries { count: 3, there: 1 };
        let said = Unreadable { offset: 0, fault }.to_string();
        assert!(said.contains("says 3 paths and is followed by 1;"));
    }
}
