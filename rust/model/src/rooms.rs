//! "Lent buffers": what each room holds, what is asked of it, and the refusals.

/// Bytes lent of each buffer.
#[derive(Clone, Copy, Debug, PartialEq, Eq)]
pub struct Lent {
    pub w: u64,
    pub p: u64,
    pub s: u64,
    pub t: u64,
    pub r: u64,
    pub q: u64,
    pub out: u64,
}

impl Lent {
    /// More than any answer needs that is not refused anyhow.
    pub const ALL: Lent = Lent::each(u64::MAX);
    /// What the program of document 01 lends.
    pub const PROGRAM: Lent = Lent {
        w: 33_024,
        ..Lent::each(32_768)
    };

    pub const fn each(bytes: u64) -> Lent {
        Lent {
            w: bytes,
            p: bytes,
            s: bytes,
            t: bytes,
            r: bytes,
            q: bytes,
            out: bytes,
        }
    }
}

/// Why a call is refused; the discriminant is document 01's number.
#[derive(Clone, Copy, Debug, PartialEq, Eq, Hash, PartialOrd, Ord)]
pub enum Refusal {
    CodeTooLong = 1,
    LimitTooHigh = 2,
    WorkShort = 3,
    PathShort = 4,
    StatesShort = 5,
    RowsShort = 6,
    RecordsShort = 7,
    KeptPathsShort = 8,
    OutputShort = 9,
    /// "13, mode neither 0 nor 1".
    NoSuchMode = 13,
}

impl Refusal {
    pub fn number(self) -> u8 {
        self as u8
    }
}

/// The rooms that the search and the output fill, by the numbers of their refusals.
#[derive(Clone, Copy, Debug, PartialEq, Eq)]
pub enum Room {
    P,
    S,
    T,
    R,
    Q,
    Out,
}

/// Units asked of each room at the most; all are counted, also those of a refused call.
#[derive(Clone, Copy, Debug, Default, PartialEq, Eq)]
pub struct Needs {
    pub p: u64,
    pub s: u64,
    pub t: u64,
    pub r: u64,
    pub q: u64,
    pub out: u64,
}

impl Needs {
    /// The smallest buffers for a code of this length in which these needs are met.
    pub fn lent(&self, code_length: usize) -> Lent {
        Lent {
            w: work(code_length),
            p: self.p * P_UNIT,
            s: self.s * S_UNIT,
            t: self.t * T_UNIT,
            r: self.r * R_UNIT,
            q: self.q * Q_UNIT,
            out: self.out,
        }
    }
}

pub const P_UNIT: u64 = 2;
pub const S_UNIT: u64 = 9;
pub const T_UNIT: u64 = 32;
pub const R_UNIT: u64 = 32;
pub const Q_UNIT: u64 = 2;

/// "Of any room at most 2^30 units count as lent."
const MOST_UNITS: u64 = 1 << 30;

/// "Work W needs 64 × code length + 256 bytes."
pub fn work(code_length: usize) -> u64 {
    64 * code_length as u64 + 256
}

/// The units that count as lent, and those asked so far.
#[derive(Clone, Debug)]
pub struct Rooms {
    held: Lent,
    pub asked: Needs,
}

impl Rooms {
    pub fn new(lent: &Lent) -> Rooms {
        let units = |bytes: u64, unit: u64| (bytes / unit).min(MOST_UNITS);
        let held = Lent {
            w: lent.w,
            p: units(lent.p, P_UNIT),
            s: units(lent.s, S_UNIT),
            t: units(lent.t, T_UNIT),
            r: units(lent.r, R_UNIT),
            q: units(lent.q, Q_UNIT),
            out: units(lent.out, 1),
        };
        Rooms {
            held,
            asked: Needs::default(),
        }
    }

    /// Asks for this many units in all; the first shortage ends the call.
    pub fn ask(&mut self, room: Room, units: usize) -> Result<(), Refusal> {
        let (held, asked, refusal) = match room {
            Room::P => (self.held.p, &mut self.asked.p, Refusal::PathShort),
            Room::S => (self.held.s, &mut self.asked.s, Refusal::StatesShort),
            Room::T => (self.held.t, &mut self.asked.t, Refusal::RowsShort),
            Room::R => (self.held.r, &mut self.asked.r, Refusal::RecordsShort),
            Room::Q => (self.held.q, &mut self.asked.q, Refusal::KeptPathsShort),
            Room::Out => (self.held.out, &mut self.asked.out, Refusal::OutputShort),
        };
        let units = units as u64;
        *asked = units.max(*asked);
        if units <= held { Ok(()) } else { Err(refusal) }
    }
}
