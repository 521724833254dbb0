//! Rooms grow as refusals name them, are kept, and keep to the ceiling.

use aznifrem::{Error, HIGHEST_LIMIT, LONGEST_CODE, Map, Mapper, RELAYED, Room};
use codes::Random;
use codes::contract::{Style, sized};
use codes::solidity::{self, Shape};
use codes::worst::{diamonds, fan};

const RETURN: [u8; 9] = [0x60, 5, 0x60, 7, 0x56, 0x5b, 0x00, 0x5b, 0x56];

/// The map; its Debug text would drown the sentence if it is not there.
fn answered(mapper: &mut Mapper, code: &[u8]) -> Map {
    match mapper.map(code, HIGHEST_LIMIT) {
        Ok(map) => map,
        Err(error) => panic!("{error}"),
    }
}

#[test]
fn a_room_grows_until_the_answer_fits() {
    let mut mapper = Mapper::new();
    answered(&mut mapper, &RETURN);
    assert_eq!((mapper.calls(), mapper.allocations()), (1, 7));
    // W, and S, T, R and Q by the code's length, with no call; then more than 32 KiB of T and of R, and
    // more than 64 KiB of answer.
    assert_eq!(answered(&mut mapper, &fan(1_600)).records.len(), 1_600);
    assert_eq!((mapper.calls(), mapper.allocations()), (5, 15));
    // 571,401 bytes of S, 163,712 of T and more than 32 KiB of Q: five, two and one doublings.
    assert_eq!(answered(&mut mapper, &diamonds(10)).records.len(), 1_024);
    assert_eq!((mapper.calls(), mapper.allocations()), (14, 23));
    // The rooms are kept: nothing grows again.
    assert_eq!(answered(&mut mapper, &diamonds(10)).records.len(), 1_024);
    assert_eq!((mapper.calls(), mapper.allocations()), (15, 23));
}

#[test]
fn a_thousand_contracts_allocate_a_few_times() {
    let mut mapper = Mapper::new();
    let mut random = Random::new(5);
    for _ in 0..1_000 {
        let shape = Shape::middle(&mut random);
        answered(&mut mapper, &solidity::code(&mut random, shape));
    }
    let allocations = mapper.allocations();
    assert!(allocations < 40, "{allocations} allocations");
    // Seven to begin with; each call beyond one a code is for a room that grew.
    assert!(mapper.calls() - 1_000 <= allocations - 7);
}

/// Their rooms stay below the 8 MiB at which one is given back. A thousand; an emulator would take minutes over them.
#[test]
fn many_of_the_longest_contracts_allocate_a_few_times() {
    let mut random = Random::new(7);
    let styles = [Style::Plain, Style::Calls].into_iter().cycle().take(6);
    let contracts: Vec<Vec<u8>> = styles
        .map(|style| sized(&mut random, LONGEST_CODE, style))
        .collect();
    let mut mapper = Mapper::new();
    let many = if RELAYED { 60 } else { 1_000 };
    for code in contracts.iter().cycle().take(many) {
        let entries = mapper.entries(code, HIGHEST_LIMIT);
        assert!(entries.is_ok_and(|bytes| bytes.len() > 18));
    }
    let allocations = mapper.allocations();
    assert!(allocations < 40, "{allocations} allocations");
}

#[test]
fn a_huge_room_is_given_back() {
    let mut mapper = Mapper::new();
    answered(&mut mapper, &diamonds(14));
    assert!(mapper.lent() > 12 << 20);
    answered(&mut mapper, &RETURN);
    assert!(mapper.lent() < 12 << 20);
}

#[test]
fn the_ceiling_is_kept_and_named() {
    let ceiling = 512 << 10;
    let mut mapper = Mapper::with_ceiling(ceiling);
    let refused = mapper.map(&diamonds(10), HIGHEST_LIMIT).map(|_| ());
    let refused = refused.expect_err("states and rows need more");
    let Error::RoomFull { room, lent, .. } = refused else {
        panic!("another error: {refused}");
    };
    assert_eq!((room, refused.number()), (Room::S, Some(5)));
    assert!(lent < 571_401 && mapper.lent() <= ceiling);
    let sentence = refused.to_string();
    assert!(sentence.contains("S (states)") && sentence.contains("524288"));
    // The same mapper goes on with what fits.
    assert_eq!(answered(&mut mapper, &[0x00]).blocks.len(), 1);
}

#[test]
fn what_an_earlier_code_needed_does_not_refuse_a_later_one() {
    let ceiling = 2 << 20;
    for (first, second) in [(diamonds(10), fan(1_600)), (fan(1_600), diamonds(10))] {
        let mut mapper = Mapper::with_ceiling(ceiling);
        for code in [&first, &second, &first] {
            let alone = answered(&mut Mapper::with_ceiling(ceiling), code);
            assert!(answered(&mut mapper, code) == alone);
            assert!(mapper.lent() <= ceiling);
        }
    }
}

#[test]
fn refusals_keep_their_order_under_any_ceiling() {
    let mut mapper = Mapper::with_ceiling(0);
    let number = |mapper: &mut Mapper, length: usize, limit: u64| {
        let refused = mapper.map(&vec![0; length], limit).map(|_| ());
        refused.expect_err("nothing may be lent").number()
    };
    assert_eq!(number(&mut mapper, LONGEST_CODE + 1, 500_001), Some(1));
    assert_eq!(number(&mut mapper, LONGEST_CODE, 500_001), Some(2));
    assert_eq!(number(&mut mapper, 0, 500_000), Some(3));
}

#[test]
fn rooms_have_the_numbers_of_their_refusals() {
    let rooms = [
        Room::W,
        Room::P,
        Room::S,
        Room::T,
        Room::R,
        Room::Q,
        Room::Output,
    ];
    assert_eq!(rooms.map(Room::refusal), [3, 4, 5, 6, 7, 8, 9]);
}
