//! One call in rooms that hold a pattern, with a fence around each.

use aznifrem::Lent;
use codes::Random;

const FENCE: usize = 64;

/// A room between two fences; its bytes, and the fences', are a pattern.
struct Room {
    name: &'static str,
    bytes: Vec<u8>,
    from: usize,
    to: usize,
}

/// The byte that stands at a place before the call: never 0, so that wiping shows.
fn pattern(at: usize) -> u8 {
    (at % 255) as u8 + 1
}

impl Room {
    /// The room begins at an odd place half of the time.
    fn new(name: &'static str, length: u64, random: &mut Random) -> Room {
        let from = FENCE + random.below(8);
        let to = from + length as usize;
        let bytes = (0..to + FENCE).map(pattern).collect();
        Room {
            name,
            bytes,
            from,
            to,
        }
    }

    fn lent(&mut self) -> &mut [u8] {
        &mut self.bytes[self.from..self.to]
    }

    fn inside(&self) -> &[u8] {
        &self.bytes[self.from..self.to]
    }

    /// The first place from one on, up to another, that does not hold its pattern.
    fn changed(&self, from: usize, to: usize) -> Option<usize> {
        (from..to).find(|at| self.bytes[*at] != pattern(*at))
    }

    fn fences(&self) -> Result<(), String> {
        let around = [(0, self.from), (self.to, self.bytes.len())];
        let broken = around
            .iter()
            .find_map(|(from, to)| self.changed(*from, *to));
        match broken {
            Some(at) => Err(format!(
                "a byte outside of {} is written, {} from its start",
                self.name,
                at as i64 - self.from as i64
            )),
            None => Ok(()),
        }
    }

    fn untouched(&self, from: usize) -> Result<(), String> {
        match self.changed(self.from + from, self.to) {
            Some(at) => Err(format!(
                "byte {} of {} is touched",
                at - self.from,
                self.name
            )),
            None => Ok(()),
        }
    }

    /// Its first bytes, so many; the others are untouched.
    fn taken(&self, count: u64) -> Result<Vec<u8>, String> {
        let count = usize::try_from(count).unwrap_or(usize::MAX);
        let Some(bytes) = self.inside().get(..count) else {
            return Err(format!(
                "{count} bytes are said to be written to {} and do not fit",
                self.name
            ));
        };
        self.untouched(count).map(|()| bytes.to_vec())
    }

    fn wiped(&self) -> Result<(), String> {
        match self.inside().iter().position(|byte| *byte != 0) {
            Some(at) => Err(format!("byte {at} of {} is not wiped", self.name)),
            None => Ok(()),
        }
    }
}

/// The fewest bytes that an answer has: those of a head.
const LEAST: u64 = 18;

/// What a call gave.
pub struct Given {
    /// As the library gives it: a refusal's number, or the bytes written.
    pub number: u64,
    /// The bytes written, none if refused.
    pub written: Vec<u8>,
    /// The text, of a call that writes one.
    pub text: Vec<u8>,
}

/// Calls the port in rooms of these sizes; an error if a byte is not as it must be afterwards.
pub fn call(
    port: impl FnOnce(&[u8], u64, &mut Lent) -> u64,
    code: &[u8],
    limit: u64,
    lent: &model::Lent,
    random: &mut Random,
) -> Result<Given, String> {
    fenced(code, rooms(lent, 0, random), |rooms, _| {
        let number = port(code, limit, rooms);
        (number, [if number < LEAST { 0 } else { number }, 0])
    })
}

/// The same with a text room of this size.
pub fn call_json(
    port: impl FnOnce(&[u8], u64, &mut Lent, &mut [u8]) -> u64,
    code: &[u8],
    limit: u64,
    (lent, text): (&model::Lent, u64),
    random: &mut Random,
) -> Result<Given, String> {
    fenced(code, rooms(lent, text, random), |rooms, text| {
        let number = port(code, limit, rooms, text);
        let counts = if number < LEAST {
            [0, 0]
        } else {
            [number % (1 << 32), number >> 32]
        };
        (number, counts)
    })
}

/// W to Q, the output and the text's.
fn rooms(lent: &model::Lent, text: u64, random: &mut Random) -> Vec<Room> {
    let work = [("W", lent.w), ("P", lent.p), ("S", lent.s), ("T", lent.t)];
    let rest = [("R", lent.r), ("Q", lent.q), ("the output", lent.out)];
    work.into_iter()
        .chain(rest)
        .chain([("the text", text)])
        .map(|(name, length)| Room::new(name, length, random))
        .collect()
}

/// Makes the call, which gives its number and the bytes said to be written to the last two rooms.
fn fenced(
    code: &[u8],
    mut rooms: Vec<Room>,
    call: impl FnOnce(&mut Lent, &mut [u8]) -> (u64, [u64; 2]),
) -> Result<Given, String> {
    let before = code.to_vec();
    let (number, counts) = called(&mut rooms, call);
    if code != before {
        return Err("the code is written to".into());
    }
    rooms.iter().try_for_each(Room::fences)?;
    let (six, last) = rooms.split_at(6);
    if (1..=3).contains(&number) || number == 13 {
        six.iter().try_for_each(|room| room.untouched(0))?;
    } else {
        six.iter().try_for_each(Room::wiped)?;
    }
    Ok(Given {
        number,
        written: last[0].taken(counts[0])?,
        text: last[1].taken(counts[1])?,
    })
}

fn called(
    rooms: &mut [Room],
    call: impl FnOnce(&mut Lent, &mut [u8]) -> (u64, [u64; 2]),
) -> (u64, [u64; 2]) {
    let [w, p, s, t, r, q, out, text] = rooms else {
        unreachable!("there are eight rooms");
    };
    let mut lent = Lent {
        w: w.lent(),
        p: p.lent(),
        s: s.lent(),
        t: t.lent(),
        r: r.lent(),
        q: q.lent(),
        out: out.lent(),
    };
    call(&mut lent, text.lent())
}

#[cfg(test)]
mod tests {
    use super::Room;
    use codes::Random;

    #[test]
    fn a_byte_on_either_side_of_a_room_is_seen() {
        let fresh = || Room::new("S", 10, &mut Random::new(4));
        assert_eq!(fresh().fences(), Ok(()));
        let outside = [0, fresh().from - 1, fresh().to, fresh().bytes.len() - 1];
        for at in outside {
            let mut room = fresh();
            room.bytes[at] ^= 1;
            assert!(room.fences().is_err(), "byte {at}");
        }
        let mut room = fresh();
        room.lent().fill(0);
        assert_eq!((room.fences(), room.wiped()), (Ok(()), Ok(())));
    }
}
