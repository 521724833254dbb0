//! The library's call in rooms that suffice.

use aznifrem::{HIGHEST_LIMIT, LONGEST_CODE, Lent, call, call_json};

const ROOMS: usize = 8;
const OUTPUT: usize = 6;
const TEXT: usize = 7;

/// Rooms as the binding lends them: 4 KiB of P, 16 KiB to 64 KiB of S, T, R and Q by the code's
/// length, 64 KiB of the others, doubled when refused.
pub struct Rooms {
    held: [Vec<u8>; ROOMS],
}

impl Rooms {
    /// With a room for the text, or without.
    pub fn new(texted: bool) -> Rooms {
        let start = |room| match room {
            0 => 64 * LONGEST_CODE + 256,
            1 => 4 << 10,
            TEXT if !texted => 0,
            OUTPUT | TEXT => 64 << 10,
            _ => 0,
        };
        let held = std::array::from_fn(|room| vec![0; start(room)]);
        Rooms { held }
    }

    /// One call at the highest limit; W is lent as the code needs it. With a room for the text it is
    /// the call that writes one.
    pub fn call(&mut self, code: &[u8]) -> u64 {
        let [w, p, s, t, r, q, out, text] = &mut self.held;
        let w = &mut w[..64 * code.len().min(LONGEST_CODE) + 256];
        let mut lent = Lent {
            w,
            p,
            s,
            t,
            r,
            q,
            out,
        };
        if text.is_empty() {
            call(code, HIGHEST_LIMIT, &mut lent)
        } else {
            call_json(code, HIGHEST_LIMIT, &mut lent, text)
        }
    }

    /// Grows what is named until the call is answered; a refusal's number if the ceiling is met.
    pub fn grow_for(&mut self, code: &[u8], ceiling: usize) -> Result<(), u64> {
        let start = code.len().clamp(16 << 10, 64 << 10).next_power_of_two();
        for room in &mut self.held[2..OUTPUT] {
            if room.len() < start {
                *room = vec![0; start];
            }
        }
        loop {
            let number = self.call(code);
            let room = match number {
                4..=9 => number as usize - 3,
                11 => TEXT,
                0..18 => return Err(number),
                _ => return Ok(()),
            };
            let length = self.held[room].len();
            if self.lent(code.len()) + length > ceiling {
                return Err(number);
            }
            self.held[room] = vec![0; 2 * length];
        }
    }

    /// Bytes lent to a call on a code of this length.
    pub fn lent(&self, code_length: usize) -> usize {
        let others: usize = self.held[1..].iter().map(Vec::len).sum();
        64 * code_length + 256 + others
    }
}
