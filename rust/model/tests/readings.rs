//! The corners of document 01: each code with what is right for it.

mod common;

use common::{at, blocks, code, printed, records, whole};
use model::rooms::{Room, Rooms};
use model::{HIGHEST_LIMIT, Lent, Needs, Refusal};

fn number(lent: &Lent, text: &str) -> u8 {
    model::answer(lent, HIGHEST_LIMIT, &code(text)).number()
}

/// The rooms with a byte less of the one whose shortage has this number.
fn byte_short(lent: &Lent, refusal: u8) -> Lent {
    let mut short = *lent;
    let bytes = match refusal {
        4 => &mut short.p,
        5 => &mut short.s,
        6 => &mut short.t,
        7 => &mut short.r,
        8 => &mut short.q,
        _ => &mut short.out,
    };
    *bytes -= 1;
    short
}

#[test]
fn a_composed_state_is_stored_untrimmed_and_met_as_stored() {
    assert_eq!(whole("905b9056").needs.s, 4);
    let map = whole("305b30600957905b905b56");
    assert_eq!((map.records.len(), map.energy), (2, 12));
}

#[test]
fn trimming_keeps_one_symbol() {
    assert_eq!(whole("8056").needs.s, 1);
}

#[test]
fn weight_grows_by_one_with_each_parent() {
    let map = whole("5b60005b5756");
    let longest = map.records.iter().map(|record| record.path.len()).max();
    assert_eq!((longest, map.energy), (Some(511), 514));
}

#[test]
fn a_destination_of_a_dynamic_jumpi_is_reached_by_the_search() {
    assert_eq!(whole("60055b57005b56").energy, 3);
}

#[test]
fn a_jump_made_from_a_jumpi_is_not_tested_again() {
    assert_eq!(
        blocks(&whole("60005756")),
        ["0-2 Jump 3", "3-3 DynamicJump"]
    );
}

#[test]
fn a_walk_that_yields_nothing_gives_one_block() {
    assert_eq!(blocks(&whole("60")), ["0-0 false"]);
}

#[test]
fn after_an_unknown_byte_the_walk_waits() {
    assert_eq!(
        blocks(&whole("5b305b0c305b00")),
        ["0-1 Jump 2", "2-2 false"]
    );
    assert_eq!(
        blocks(&whole("6005565b0c5b30")),
        ["0-2 Jump 5", "5-6 false"]
    );
}

#[test]
fn every_room_is_needed_to_the_byte_at_full_weight() {
    let text = "5b60005b5756";
    let just = whole(text).needs.lent(6);
    assert_eq!(number(&just, text), 0);
    for refusal in 4..=9 {
        assert_eq!(number(&byte_short(&just, refusal), text), refusal);
    }
}

#[test]
fn at_full_weight_a_path_is_recorded_with_no_room_for_states() {
    // A push, so many JUMPDESTs and a jump: the push is the path's 256th block, or its 257th.
    let needs = |count: usize| {
        let code = [vec![0x60, 0x00], vec![0x5b; count], vec![0x56]].concat();
        let map = model::map(&Lent::ALL, HIGHEST_LIMIT, &code).expect("all the room is lent");
        let Needs { p, s, t, r, q, .. } = map.needs;
        (p, s, t, r, q)
    };
    assert_eq!(needs(255), (256, 256, 255, 1, 256));
    assert_eq!(needs(256), (257, 256, 255, 1, 257));
}

#[test]
fn clz_is_known() {
    assert_eq!(blocks(&whole("1e00")), ["0-1 true"]);
    assert_eq!(blocks(&whole("1e")), ["0-0 false"]);
    assert_eq!(blocks(&whole("6005601e1e56")), ["0-5 DynamicJump"]);
}

#[test]
fn an_address_may_equal_the_length() {
    assert_eq!(blocks(&whole("57")), ["0-0 DynamicJumpi 1"]);
    assert_eq!(blocks(&whole("5b30600060000157")), ["0-7 Jumpi 0/8"]);
}

#[test]
fn a_destination_that_is_no_block_is_recorded_reached_and_merged_to() {
    let map = whole("605b60016007565b56");
    assert_eq!(records(&map), ["1<7,0"]);
    assert_eq!(blocks(&map), ["0-6 Jump 7", "7-8 Jump 1"]);
}

#[test]
fn equal_sides_are_one_parent() {
    assert_eq!(whole("6003575b56").energy, 1);
}

#[test]
fn a_turn_alone() {
    let map = whole("56");
    assert_eq!(map.energy, 0);
    assert_eq!(
        map.needs,
        Needs {
            p: 1,
            s: 1,
            out: 32,
            ..Needs::default()
        }
    );
    let map = at(0, "56");
    assert_eq!((map.needs.p, map.needs.s), (0, 0));
    assert_eq!(blocks(&at(0, "605B50600160000156")), ["0-8 Jump 1"]);
}

#[test]
fn a_met_state_needs_its_cells_first() {
    let needs = whole("60025b8056").needs;
    assert_eq!((needs.s, needs.t), (7, 1));
}

#[test]
fn what_is_fixed_when_a_level_opens_and_when_a_round_begins() {
    assert_eq!(whole("60025b56").energy, 3);
    assert_eq!(whole("60056006565b5b56").energy, 4);
    assert_eq!(whole("60045b565b56").energy, 3);
}

#[test]
fn a_hundred_and_twenty_eight_rounds_from_six_bytes() {
    let text = "60025b808056";
    let map = whole(text);
    let needs = Needs {
        p: 129,
        s: 17_026,
        t: 128,
        r: 128,
        q: 8_384,
        out: 18_602,
    };
    assert_eq!((map.energy, map.needs), (8_256, needs));
    assert_eq!(printed(text), ["refused 5"]);
}

#[test]
fn rooms_are_met_in_this_order_on_the_return_session() {
    let text = "60056007565b005b56";
    let mut lent = Lent {
        w: 832,
        ..Lent::each(0)
    };
    let mut met = vec![number(&lent, text)];
    for (p, s, t, r, q, out) in [
        (2, 0, 0, 0, 0, 0),
        (2, 9, 0, 0, 0, 0),
        (4, 9, 0, 0, 0, 0),
        (4, 18, 0, 0, 0, 0),
        (4, 18, 32, 0, 0, 0),
        (4, 18, 32, 32, 0, 0),
        (4, 18, 32, 32, 4, 0),
        (4, 27, 32, 32, 4, 0),
        (4, 27, 32, 32, 4, 71),
    ] {
        lent = Lent {
            p,
            s,
            t,
            r,
            q,
            out,
            ..lent
        };
        met.push(number(&lent, text));
    }
    assert_eq!(met, [4, 5, 4, 5, 6, 7, 8, 5, 9, 0]);
}

#[test]
fn merged_blocks_and_output_size_are_not_monotone_in_the_limit() {
    let text = "60075b57600d565b60126010565b60135b565b5b";
    let has_18 = |limit| at(limit, text).blocks.iter().any(|block| block.start == 18);
    assert!(has_18(2) && !has_18(3));
    let text = "60075b57600d565b60126010565b60105b565b5b5b5b5b";
    assert_eq!((at(2, text).needs.out, at(3, text).needs.out), (193, 186));
}

#[test]
fn the_map_may_name_what_it_does_not_hold() {
    let map = whole("600d30600a57506012565b57005b601460125b565b");
    let held = |address: usize| map.blocks.iter().any(|block| block.start == address);
    let entries = map.blocks.iter().flat_map(|block| match &block.kind {
        model::Kind::DynamicJump { entries } => entries.clone(),
        model::Kind::DynamicJumpi { entries, .. } => entries.clone(),
        _ => vec![],
    });
    let gone = |entry: &model::Entry| {
        let last = entry.path.last().is_some_and(|last| !held(*last));
        last || entry.to.is_some_and(|to| !held(to))
    };
    assert!(
        entries.into_iter().any(|entry| gone(&entry)),
        "{:?}",
        blocks(&map)
    );
    let map = whole("60055b57005b305b56");
    assert!(
        map.records
            .iter()
            .any(|record| map.blocks.iter().all(|b| b.start != record.start))
    );
}

#[test]
fn one_path_without_destination_and_then_with_one() {
    let code = codes::corners::recorded_both_ways();
    let map = model::map(&Lent::ALL, HIGHEST_LIMIT, &code).expect("all the room is lent");
    let path = |start: usize| [vec![start], (7..=261).rev().collect(), vec![0]].concat();
    let [first, without, with] = &map.records[..] else {
        panic!("three records were to be found: {:?}", map.records);
    };
    assert_eq!((first.to, &first.path[..]), (Some(263), &path(263)[1..]));
    assert_eq!((without.to, &without.path), (None, &path(263)));
    assert_eq!((with.to, &with.path), (Some(265), &path(263)));
    assert_eq!(map.energy, 1024);
}

#[test]
fn a_lent_room_counts_for_two_to_the_thirty_units_at_most() {
    const MOST: usize = 1 << 30;
    for (room, refusal) in [
        (Room::P, Refusal::PathShort),
        (Room::S, Refusal::StatesShort),
        (Room::T, Refusal::RowsShort),
        (Room::R, Refusal::RecordsShort),
        (Room::Q, Refusal::KeptPathsShort),
        (Room::Out, Refusal::OutputShort),
    ] {
        let mut rooms = Rooms::new(&Lent::ALL);
        assert_eq!(rooms.ask(room, MOST), Ok(()));
        assert_eq!(rooms.ask(room, MOST + 1), Err(refusal));
    }
}
