//! A code is refused for the ceiling only if what it needs is more than the ceiling.

use aznifrem::{Error, HIGHEST_LIMIT, Lent, Mapper, Room, call};
use codes::Random;
use codes::contract::{Style, sized};
use codes::worst::{diamonds, doubling, fan, row};

const RETURN: [u8; 9] = [0x60, 5, 0x60, 7, 0x56, 0x5b, 0x00, 0x5b, 0x56];
/// Bytes of a unit of P, S, T, R, Q and the output.
const UNITS: [usize; 6] = [2, 9, 32, 32, 2, 1];
/// More bytes of a room than any of these codes needs.
const PLENTY: usize = 1 << 20;

/// Whether a code is answered with so many units of each room.
fn fits(code: &[u8], units: [usize; 6]) -> bool {
    let mut w = vec![0; work(code)];
    let room = |at: usize| vec![0; units[at] * UNITS[at]];
    let [mut p, mut s, mut t, mut r, mut q, mut out] = [0, 1, 2, 3, 4, 5].map(room);
    let mut lent = Lent {
        w: &mut w,
        p: &mut p,
        s: &mut s,
        t: &mut t,
        r: &mut r,
        q: &mut q,
        out: &mut out,
    };
    call(code, HIGHEST_LIMIT, &mut lent) >= 18
}

fn work(code: &[u8]) -> usize {
    64 * code.len() + 256
}

/// The fewest units of one room that do, the others having plenty.
fn least(code: &[u8], room: usize) -> usize {
    let (mut low, mut high) = (0, PLENTY / UNITS[room]);
    while low < high {
        let middle = low.midpoint(high);
        let mut units = UNITS.map(|unit| PLENTY / unit);
        units[room] = middle;
        if fits(code, units) {
            high = middle;
        } else {
            low = middle + 1;
        }
    }
    low
}

/// The fewest bytes of all rooms together.
fn needs(code: &[u8]) -> usize {
    let units = [0, 1, 2, 3, 4, 5].map(|room| least(code, room));
    assert!(fits(code, units), "what each needs is enough for all");
    work(code)
        + units
            .iter()
            .zip(UNITS)
            .map(|(n, unit)| n * unit)
            .sum::<usize>()
}

fn answers(mapper: &mut Mapper, code: &[u8]) -> bool {
    match mapper.entries(code, HIGHEST_LIMIT) {
        Ok(_) => true,
        Err(Error::RoomFull { .. }) => false,
        Err(other) => panic!("another error: {other}"),
    }
}

#[test]
fn what_fits_the_ceiling_is_mapped() {
    let contract = sized(&mut Random::new(3), 3_000, Style::Calls);
    for code in [diamonds(8), fan(300), doubling(6), row(40), contract] {
        let needs = needs(&code);
        for (ceiling, fits) in [(needs - 1, false), (needs, true), (needs + 1_000, true)] {
            let mut mapper = Mapper::with_ceiling(ceiling);
            assert_eq!(answers(&mut mapper, &code), fits, "{ceiling} of {needs}");
            assert!(mapper.lent() <= ceiling);
            // The rest runs out by a share a call.
            assert!(mapper.calls() < 100, "{} calls", mapper.calls());
        }
    }
}

#[test]
fn any_ceiling_is_answered_or_named() {
    let needs = needs(&RETURN);
    let mut kept = Mapper::with_ceiling(needs);
    for ceiling in 0..needs + 500 {
        let mut mapper = Mapper::with_ceiling(ceiling);
        assert_eq!(answers(&mut mapper, &RETURN), ceiling >= needs);
        assert!(mapper.lent() <= ceiling);
        // A mapper that has met its ceiling goes on.
        assert!(answers(&mut kept, &RETURN) && kept.lent() <= needs);
        assert!(answers(&mut kept, &[]) && kept.lent() <= needs);
    }
}

/// The text of this code has 185 bytes.
#[test]
fn the_texts_room_is_held_to_the_ceiling() {
    let needs = needs(&RETURN);
    let mut mapper = Mapper::with_ceiling(needs + 184);
    match mapper.json(&RETURN, HIGHEST_LIMIT) {
        Err(Error::RoomFull { room, ceiling, .. }) => {
            assert_eq!((room, ceiling), (Room::Text, needs + 184));
        }
        other => panic!("not refused for the ceiling: {other:?}"),
    }
    assert!(mapper.lent() <= needs + 184);
    let mut mapper = Mapper::with_ceiling(needs + 185);
    let length = mapper.json(&RETURN, HIGHEST_LIMIT).map(str::len);
    assert_eq!(length, Ok(185));
    assert!(mapper.lent() <= needs + 185);
}
