//! The rooms by document 01's letters, and the text's: their units, and what they begin with.

use std::fmt;

const KIB: usize = 1 << 10;
/// "Of any room at most 2^30 units count as lent."
pub(crate) const MOST_UNITS: usize = 1 << 30;

/// A lent room, by its letter in document 01, or the text's.
#[derive(Clone, Copy, Debug, PartialEq, Eq, Hash)]
pub enum Room {
    /// Work.
    W,
    /// The path in hand.
    P,
    /// States.
    S,
    /// Remembered rows.
    T,
    /// Records.
    R,
    /// Recorded paths.
    Q,
    /// The answer.
    Output,
    /// The answer's JSON text.
    Text,
}

pub(crate) const ROOMS: [Room; 8] = [
    Room::W,
    Room::P,
    Room::S,
    Room::T,
    Room::R,
    Room::Q,
    Room::Output,
    Room::Text,
];

impl Room {
    /// The number of the refusal that names this room.
    pub fn refusal(self) -> u8 {
        match self {
            Room::Text => 11,
            room => room as u8 + 3,
        }
    }

    /// The room that a refusal names.
    pub(crate) fn named(number: u64) -> Option<Room> {
        let named = |room: &&Room| u64::from(room.refusal()) == number;
        ROOMS.iter().find(named).copied()
    }

    /// Bytes of one unit: an address, a symbol, a row, a record or a byte.
    pub(crate) fn unit(self) -> usize {
        match self {
            Room::W | Room::Output | Room::Text => 1,
            Room::P | Room::Q => 2,
            Room::S => 9,
            Room::T | Room::R => 32,
        }
    }

    /// The bytes beyond which no more count as lent.
    pub(crate) fn most(self) -> usize {
        MOST_UNITS.saturating_mul(self.unit())
    }

    /// What a room has before anything asks for more; W is lent by the code's length, and the text's
    /// to calls that write one. A call wipes what the search works in, so a mapper of short codes has little of it.
    pub(crate) fn start(self, code_length: usize) -> usize {
        match self {
            Room::W => 0,
            Room::P => 4 * KIB,
            Room::Output | Room::Text => 64 * KIB,
            _ => code_length.clamp(16 * KIB, 64 * KIB).next_power_of_two(),
        }
    }
}

impl fmt::Display for Room {
    fn fmt(&self, f: &mut fmt::Formatter) -> fmt::Result {
        f.write_str(match self {
            Room::W => "W (work)",
            Room::P => "P (the path in hand)",
            Room::S => "S (states)",
            Room::T => "T (remembered rows)",
            Room::R => "R (records)",
            Room::Q => "Q (recorded paths)",
            Room::Output => "out (the answer)",
            Room::Text => "text (the answer's JSON)",
        })
    }
}
