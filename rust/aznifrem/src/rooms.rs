//! The memory of the rooms that are lent, and how one grows.

use crate::call::Lent;
use crate::error::Error;
use crate::room::{MOST_UNITS, ROOMS, Room};

/// A room that grew beyond this is given back, since every later call would wipe it.
const KEPT: usize = 8 << 20;

/// "Work W needs 64 × code length + 256 bytes."
fn work(code_length: usize) -> usize {
    64 * code_length + 256
}

/// Parts of the rest, the larger the more often a room was refused; none for W, whose need is known,
/// and none for a text that is not asked for.
fn shares(rest: usize, refused: &[usize; ROOMS.len()], texted: bool) -> [usize; ROOMS.len()] {
    let weight = |room: Room| match room {
        Room::W => 0,
        Room::Text if !texted => 0,
        _ => 1 + 4 * refused[room as usize] as u128,
    };
    let weights = ROOMS.map(weight);
    let all: u128 = weights.iter().sum();
    // At most the rest: it fits.
    weights.map(|weight| (rest as u128 * weight / all) as usize)
}

/// The memory of all rooms.
#[derive(Debug, Default)]
pub(crate) struct Rooms {
    held: [Vec<u8>; ROOMS.len()],
    /// What this code needs of each room at the least: more than was refused.
    needed: [usize; ROOMS.len()],
    /// Once the ceiling is met and shared: how often each room was refused since.
    shared: Option<[usize; ROOMS.len()]>,
    /// Whether the text is asked for.
    texted: bool,
    pub ceiling: usize,
    pub allocations: u64,
}

impl Rooms {
    pub fn new(ceiling: usize) -> Rooms {
        Rooms {
            ceiling,
            ..Rooms::default()
        }
    }

    /// Bytes held in all.
    pub fn bytes(&self) -> usize {
        self.held.iter().map(Vec::len).sum()
    }

    /// Before a call, with a text or without: every room at its start at least, and W as this code
    /// needs it. If the ceiling is too low for that, the call says so, after what it has to say first.
    pub fn ready(&mut self, code_length: usize, texted: bool) -> Result<(), Error> {
        self.texted = texted;
        if self.shared.take().is_some() {
            self.held = Default::default();
        }
        self.needed = Default::default();
        self.needed[Room::W as usize] = work(code_length);
        for room in ROOMS {
            let start = room.start(code_length).min(self.ceiling / 8);
            let lent = self.lent_to(room);
            if self.lends(room) && (lent < start || lent > KEPT) {
                self.allocate(room, start)?;
            }
        }
        let lent = self.lent_to(Room::W);
        let work = work(code_length).min(lent.saturating_add(self.free()));
        if lent < work {
            self.allocate(Room::W, work)?;
        }
        Ok(())
    }

    /// Twice the room; where the ceiling does not leave that, all rooms share what it leaves.
    pub fn grow(&mut self, room: Room) -> Result<(), Error> {
        let lent = self.lent_to(room);
        let units = lent / room.unit() + 1;
        if units > MOST_UNITS {
            return Err(Error::RoomAtMost { room, lent });
        }
        // W as document 01 has it is enough for every code.
        if room == Room::W && lent >= self.needed[room as usize] {
            let number = room.refusal().into();
            return Err(Error::NoSuchAnswer { number });
        }
        let needed = &mut self.needed[room as usize];
        *needed = (*needed).max(units * room.unit());
        let more = (*needed).max(lent.saturating_mul(2)).min(room.most());
        if self.shared.is_none() && room != Room::W && more - lent <= self.free() {
            return self.allocate(room, more);
        }
        self.share(room)
    }

    /// Every room has what this code is known to need, and a share of the rest. A refusal then
    /// raises what is known by that share at least, and so the rest runs out soon: the ceiling is
    /// named only if what the code needs is more than that, never because a room has too much.
    fn share(&mut self, refused: Room) -> Result<(), Error> {
        let known = self.needed.into_iter().fold(0, usize::saturating_add);
        let Some(rest) = self.ceiling.checked_sub(known) else {
            return Err(self.full(refused));
        };
        let times = self.shared.get_or_insert_default();
        times[refused as usize] += 1;
        let shares = shares(rest, times, self.texted);
        let sizes = ROOMS.map(|room| {
            let bytes = self.needed[room as usize].saturating_add(shares[room as usize]);
            (bytes - bytes % room.unit()).min(room.most())
        });
        self.resize(sizes)
    }

    /// Those that shrink make way for those that grow.
    fn resize(&mut self, sizes: [usize; ROOMS.len()]) -> Result<(), Error> {
        let unlike = |room: &Room| self.lent_to(*room) != sizes[*room as usize];
        let changed: Vec<Room> = ROOMS.into_iter().filter(unlike).collect();
        for room in &changed {
            self.held[*room as usize] = Vec::new();
        }
        changed
            .into_iter()
            .try_for_each(|room| self.allocate(room, sizes[room as usize]))
    }

    /// Whether a call that may refuse by this room is made.
    pub fn lends(&self, room: Room) -> bool {
        self.texted || room != Room::Text
    }

    fn lent_to(&self, room: Room) -> usize {
        self.held[room as usize].len()
    }

    fn free(&self) -> usize {
        self.ceiling.saturating_sub(self.bytes())
    }

    fn full(&self, room: Room) -> Error {
        Error::RoomFull {
            room,
            lent: self.lent_to(room),
            ceiling: self.ceiling,
        }
    }

    /// The room's old memory is given back first: both are never held.
    fn allocate(&mut self, room: Room, bytes: usize) -> Result<(), Error> {
        self.allocations += 1;
        self.held[room as usize] = Vec::new();
        let mut fresh = Vec::new();
        fresh
            .try_reserve_exact(bytes)
            .map_err(|_| Error::NoMemory { room, bytes })?;
        fresh.resize(bytes, 0);
        self.held[room as usize] = fresh;
        Ok(())
    }

    /// All rooms and the text's, W only as far as this code needs it, so that no more is wiped.
    pub fn lent(&mut self, code_length: usize) -> (Lent<'_>, &mut [u8]) {
        let [w, p, s, t, r, q, out, text] = &mut self.held;
        let work = work(code_length).min(w.len());
        let w = &mut w[..work];
        let lent = Lent {
            w,
            p,
            s,
            t,
            r,
            q,
            out,
        };
        (lent, text)
    }

    /// The first bytes of the output, or of the text.
    pub fn written(&self, room: Room, count: usize) -> Option<&[u8]> {
        self.held[room as usize].get(..count)
    }
}

#[cfg(test)]
mod tests {
    use super::{Error, Room, Rooms, shares};

    #[test]
    fn the_rest_is_shared_by_refusals() {
        assert_eq!(
            shares(60, &[3, 0, 0, 0, 0, 0, 0, 0], false),
            [0, 10, 10, 10, 10, 10, 10, 0]
        );
        assert_eq!(
            shares(110, &[0, 0, 1, 0, 0, 0, 0, 0], true),
            [0, 10, 50, 10, 10, 10, 10, 10]
        );
        let most = shares(usize::MAX, &[0, 9, 0, 0, 0, 0, 0, 0], true);
        assert!(
            most.iter()
                .try_fold(0_usize, |sum, share| sum.checked_add(*share))
                .is_some()
        );
    }

    #[test]
    fn more_units_than_count_as_lent_are_not_asked_for() {
        let (room, lent) = (Room::Output, 1 << 30);
        let mut rooms = Rooms::new(usize::MAX);
        // Zero bytes that nothing touches: the system gives no memory for them.
        rooms.held[room as usize] = vec![0; lent];
        assert_eq!(rooms.grow(room), Err(Error::RoomAtMost { room, lent }));
    }
}
