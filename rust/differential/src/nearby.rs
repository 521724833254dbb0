//! Rooms near those that a code needs.

use codes::Random;
use model::{Lent, rooms};

/// Rooms with one of them short: by a byte, by a unit, by half or by all.
pub fn short(exact: &Lent, random: &mut Random) -> Lent {
    let mut lent = *exact;
    let rooms = [
        (&mut lent.w, 1),
        (&mut lent.p, rooms::P_UNIT),
        (&mut lent.s, rooms::S_UNIT),
        (&mut lent.t, rooms::T_UNIT),
        (&mut lent.r, rooms::R_UNIT),
        (&mut lent.q, rooms::Q_UNIT),
        (&mut lent.out, 1),
    ];
    let count = rooms.len();
    let Some((room, unit)) = rooms.into_iter().nth(random.below(count)) else {
        return *exact;
    };
    let less = [1, unit, *room / 2, *room];
    *room = room.saturating_sub(random.pick(&less));
    lent
}

/// Rooms with up to 40 bytes more of each.
pub fn longer(exact: &Lent, random: &mut Random) -> Lent {
    let mut more = |bytes: u64| bytes + random.below(41) as u64;
    Lent {
        w: more(exact.w),
        p: more(exact.p),
        s: more(exact.s),
        t: more(exact.t),
        r: more(exact.r),
        q: more(exact.q),
        out: more(exact.out),
    }
}
