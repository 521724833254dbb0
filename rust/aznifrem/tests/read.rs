//! Stored maps: what is written is read, what is accepted is written again, the rest has a place.

use aznifrem::{Fault, HIGHEST_LIMIT, LONGEST_DEPLOYED, Map, Mapper, Unreadable};
use codes::random::{Random, jumpy};
use codes::{from_hex, woven};

fn entry(kind: u16, body: &[u8]) -> Vec<u8> {
    let mut bytes = (body.len() as u32).to_le_bytes().to_vec();
    bytes.extend(kind.to_le_bytes());
    bytes.extend(body);
    bytes
}

fn head(blocks: u8, records: u8) -> Vec<u8> {
    entry(1, &[9, 0, blocks, 0, records, 0, 0, 0, 2, 0, 0, 0])
}

fn stop(start: u8) -> Vec<u8> {
    entry(2, &[start, 0, start, 0, 1])
}

fn dynamic(start: u8, count: u8) -> Vec<u8> {
    entry(5, &[start, 0, start, 0, count, 0, 0, 0])
}

fn found() -> Vec<u8> {
    entry(7, &[5, 0, 2, 0, 0, 0, 7, 0, 0, 0])
}

fn record() -> Vec<u8> {
    entry(8, &[7, 0, 5, 0, 2, 0, 0, 0, 7, 0, 0, 0])
}

/// The place and the fault of the first bad entry.
fn fault(parts: &[Vec<u8>]) -> (usize, Fault) {
    let Unreadable { offset, fault } = Map::from_bytes(&parts.concat()).expect_err("it is bad");
    (offset, fault)
}

#[test]
fn good_maps_are_read_and_written_again() {
    let good: [&[Vec<u8>]; 5] = [
        &[head(0, 0)],
        &[head(1, 0), stop(0)],
        &[head(2, 1), stop(0), dynamic(7, 0), record()],
        &[head(2, 0), dynamic(0, 2), found(), found(), stop(9)],
        &[
            head(1, 0),
            entry(6, &[0, 0, 1, 0, 2, 0, 1, 0, 0, 0]),
            found(),
        ],
    ];
    for parts in good {
        let bytes = parts.concat();
        let map = Map::from_bytes(&bytes).expect("it is good");
        assert_eq!(map.to_bytes().expect("it fits"), bytes);
    }
}

#[test]
fn a_map_begins_with_one_head() {
    assert_eq!(fault(&[]), (0, Fault::Empty));
    assert_eq!(fault(&[stop(0)]), (0, Fault::NoHead));
    assert_eq!(fault(&[head(0, 0), head(0, 0)]), (18, Fault::OutOfOrder(1)));
    assert_eq!(fault(&[head(0, 0)[..17].to_vec()]), (0, Fault::Cut));
    assert_eq!(fault(&[entry(1, &[0; 13])]), (0, Fault::Length(13)));
}

#[test]
fn counts_are_looked_at_last() {
    assert_eq!(fault(&[head(2, 0), stop(0)]), (0, Fault::Counts));
    assert_eq!(fault(&[head(1, 0), stop(0), record()]), (0, Fault::Counts));
    assert_eq!(
        fault(&[head(9, 0), stop(0), vec![1]]),
        (18 + 11, Fault::Cut)
    );
}

#[test]
fn entries_stand_in_their_order() {
    assert_eq!(
        fault(&[head(1, 1), record(), stop(0)]),
        (36, Fault::OutOfOrder(2))
    );
    assert_eq!(fault(&[head(1, 0), stop(0), found()]), (29, Fault::Away(7)));
    assert_eq!(
        fault(&[head(2, 0), stop(4), stop(4)]),
        (29, Fault::Start(4))
    );
    assert_eq!(
        fault(&[head(2, 0), stop(4), dynamic(3, 1)]),
        (29, Fault::Start(3))
    );
    assert_eq!(
        fault(&[head(0, 0), entry(13, &[])]),
        (18, Fault::UnknownKind(13))
    );
    assert_eq!(
        fault(&[head(0, 0), entry(0, &[])]),
        (18, Fault::UnknownKind(0))
    );
}

#[test]
fn a_dynamic_block_has_as_many_paths_as_it_says() {
    let cut = found()[..15].to_vec();
    let says = |count, there| (18, Fault::Entries { count, there });
    for (rest, there) in [(vec![], 0), (found(), 1), (cut, 0), (stop(9), 0)] {
        assert_eq!(fault(&[head(1, 0), dynamic(0, 2), rest]), says(2, there));
    }
    assert_eq!(fault(&[head(1, 0), dynamic(0, 0), found()]), says(0, 1));
    let long = entry(7, &[5, 0, 1, 0, 0, 0, 7, 0, 0]);
    assert_eq!(
        fault(&[head(1, 0), dynamic(0, 2), found(), long.clone()]),
        (18 + 14 + 16, Fault::Length(9))
    );
    // A whole one counts, whatever its length.
    assert_eq!(
        fault(&[head(1, 0), dynamic(0, 1), found(), long]),
        says(1, 2)
    );
}

#[test]
fn after_one_of_8_and_9_the_other_is_bad() {
    let nine = entry(9, &[7, 0, 5, 0, 1, 0, 0, 0, 2, 0, 0, 0, 7, 0, 0, 0]);
    assert_eq!(
        fault(&[head(0, 2), record(), nine.clone()]),
        (36, Fault::OutOfOrder(9))
    );
    assert_eq!(
        fault(&[head(0, 2), nine.clone(), record()]),
        (40, Fault::OutOfOrder(8))
    );
    assert_eq!(
        fault(&[head(1, 1), nine.clone(), stop(0)]),
        (40, Fault::OutOfOrder(2))
    );
    let stored = [head(0, 1), nine].concat();
    let map = Map::from_bytes(&stored).expect("it holds a map");
    assert_eq!(
        (map.records[0].energy, map.lowest_limit()),
        (Some(1), Some(1))
    );
    assert_eq!(map.to_bytes().as_deref(), Ok(&stored[..]));
}

#[test]
fn bodies_are_as_long_as_their_kind_says() {
    for (kind, length) in [
        (2, 4),
        (2, 6),
        (3, 5),
        (4, 9),
        (5, 7),
        (6, 11),
        (8, 7),
        (9, 11),
    ] {
        let body = vec![0; length];
        assert_eq!(
            fault(&[head(0, 0), entry(kind, &body)]),
            (18, Fault::Length(length))
        );
    }
    assert_eq!(
        fault(&[head(1, 0), entry(2, &[0, 0, 0, 0, 2])]),
        (18, Fault::Success(2))
    );
    let endless = entry(8, &[7, 0, 5, 0, 255, 255, 255, 255]);
    assert_eq!(fault(&[head(0, 1), endless]), (18, Fault::Length(8)));
}

#[test]
fn the_sentences_say_which_thing_is_bad() {
    let said = |parts: &[Vec<u8>]| {
        let unreadable = Map::from_bytes(&parts.concat()).expect_err("it is bad");
        unreadable.to_string()
    };
    let empty = "it is empty, and a map begins with a head; make the map again";
    assert!(said(&[]).starts_with(empty), "{}", said(&[]));
    for (parts, words) in [
        (
            &[head(0, 0), head(0, 0)][..],
            "at byte 18 is a second head;",
        ),
        (
            &[head(1, 1), record(), stop(0)],
            "at byte 36 is of kind 2, a block, and stands after a record",
        ),
        (
            &[head(1, 0), stop(0), found()],
            "at byte 29 is of kind 7, a path of the dynamic block before it, and follows none",
        ),
        (
            &[head(1, 0), dynamic(0, 2), found()],
            "at byte 18 says 2 paths and is followed by 1;",
        ),
        (
            &[head(0, 2), record(), entry(9, &[0; 12])],
            "at byte 36 is of kind 9, a record, and stands after records of another kind;",
        ),
    ] {
        assert!(said(parts).contains(words), "{}", said(parts));
    }
}

#[test]
fn a_map_that_does_not_fit_is_not_written() {
    let bytes = [head(1, 1), stop(0), record()].concat();
    let map = Map::from_bytes(&bytes).expect("it is good");
    let with = |to: Option<usize>, last: usize| {
        let mut map = map.clone();
        map.records[0].jump.to = to;
        map.records[0].jump.path[1] = last;
        map.to_bytes().map_err(|unwritable| unwritable.value)
    };
    assert_eq!(with(Some(5), 0), Ok(bytes));
    assert_eq!(with(Some(0x8000), 0), Err(0x8000));
    assert!(with(Some(0xffff), 0).is_ok());
    assert_eq!(with(Some(5), 65_536), Err(65_536));
    assert!(with(None, 0x8000).is_ok());
    // Of a longer code the other number is missing.
    let long = |to| {
        let mut map = map.clone();
        map.code_length = LONGEST_DEPLOYED + 1;
        map.records[0].jump.to = Some(to);
        map.to_bytes().map_err(|unwritable| unwritable.value)
    };
    assert!(long(0x8000).is_ok());
    assert_eq!(long(0xffff), Err(0xffff));
}

/// The same map of a longer code: the head's length and the kinds.
fn of_longer_code(parts: &[Vec<u8>]) -> Vec<Vec<u8>> {
    let moved = |part: &Vec<u8>| {
        let mut part = part.clone();
        match part[4] {
            1 => part[6..8].copy_from_slice(&24_577_u16.to_le_bytes()),
            7..=9 => part[4] += 3,
            _ => {}
        }
        part
    };
    parts.iter().map(moved).collect()
}

#[test]
fn maps_of_both_families_are_read_and_written_again() {
    let nowhere = |[low, high]: [u8; 2]| entry(7, &[low, high, 1, 0, 0, 0, 0, 0]);
    for mark in [0x8000_u16, 0xffff] {
        let path = nowhere(mark.to_le_bytes());
        let first = [head(1, 1), dynamic(0, 2), found(), path, record()];
        let second = of_longer_code(&first);
        for (parts, missing) in [(&first[..], 0x8000), (&second, 0xffff)] {
            let bytes = parts.concat();
            let map = Map::from_bytes(&bytes).expect("it is good");
            assert_eq!(
                map.blocks[&0].btype.found()[1].to.is_none(),
                mark == missing
            );
            assert_eq!(map.to_bytes().expect("it fits"), bytes);
        }
    }
}

#[test]
fn a_kind_of_the_other_family_is_bad_at_its_offset() {
    let parts = [head(1, 1), dynamic(0, 1), found(), record()];
    let longer = of_longer_code(&parts);
    let none = dynamic(0, 0);
    for (own, other) in [(&parts[..], &longer[..]), (&longer, &parts)] {
        let mixed = [
            own[0].clone(),
            own[1].clone(),
            own[2].clone(),
            other[3].clone(),
        ];
        let kind = other[3][4].into();
        assert_eq!(fault(&mixed), (48, Fault::OtherFamily(kind)));
        // Its path is none of the block's.
        let mixed = [
            own[0].clone(),
            own[1].clone(),
            other[2].clone(),
            own[3].clone(),
        ];
        let missing = Fault::Entries { count: 1, there: 0 };
        assert_eq!(fault(&mixed), (18, missing));
        let mixed = [
            own[0].clone(),
            none.clone(),
            other[2].clone(),
            own[3].clone(),
        ];
        let kind = other[2][4].into();
        assert_eq!(fault(&mixed), (32, Fault::OtherFamily(kind)));
    }
    let said = Map::from_bytes(&[&longer[..3], &parts[3..]].concat().concat());
    let said = said.expect_err("it is bad").to_string();
    assert!(
        said.contains("at byte 48 is of kind 8, which is not for a code of the length that the head says: 7, 8 and 9 are for at most 24576 bytes"),
        "{said}"
    );
}

/// Some hundred answers, with paths and records.
fn answers() -> Vec<Vec<u8>> {
    let mut mapper = Mapper::new();
    let mut random = Random::new(8);
    let corners = codes::corners::CORNERS.iter();
    let mut codes: Vec<Vec<u8>> = corners.map(|hex| from_hex(hex).expect("hex")).collect();
    codes.extend((0..100).map(|_| jumpy(&mut random, 40)));
    codes.extend((0..100).map(|_| woven::code(&mut random, 4, 3)));
    let mut answer = |code: &Vec<u8>| mapper.entries(code, HIGHEST_LIMIT).map(<[u8]>::to_vec);
    codes.iter().filter_map(|code| answer(code).ok()).collect()
}

#[test]
fn what_the_library_writes_is_read_and_written_again() {
    let answers = answers();
    assert!(answers.len() > 200);
    for bytes in answers {
        let map = Map::from_bytes(&bytes).expect("an answer is a map");
        assert_eq!(map.to_bytes().expect("it fits"), bytes);
    }
}

#[test]
fn damaged_maps_do_not_panic_and_accepted_ones_are_written_again() {
    let mut random = Random::new(9);
    let mut accepted = 0;
    for bytes in answers().iter().filter(|bytes| bytes.len() < 4_000) {
        for _ in 0..200 {
            let damaged = damaged(&mut random, bytes);
            match Map::from_bytes(&damaged) {
                Ok(map) => {
                    accepted += 1;
                    assert_eq!(map.to_bytes().expect("it fits"), damaged);
                }
                Err(bad) => assert!(bad.offset <= damaged.len()),
            }
        }
    }
    assert!(accepted > 100, "only {accepted} were accepted");
}

fn damaged(random: &mut Random, bytes: &[u8]) -> Vec<u8> {
    let mut near = bytes.to_vec();
    for _ in 0..random.between(1, 3) {
        let at = random.below(near.len().max(1));
        match random.below(5) {
            0 => near.truncate(at),
            1 => near.insert(at.min(near.len()), random.byte()),
            2 if at < near.len() => drop(near.remove(at)),
            _ if at < near.len() => near[at] = random.pick(&[0, 1, 2, 5, 7, 8, 255]),
            _ => {}
        }
    }
    near
}
