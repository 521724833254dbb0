//! Document 02, No. 10: code of up to 49,152 bytes, and the kinds 10, 11 and 12 of that over 24,576.

use codes::init::{both_marks, two_callers};
use codes::{from_hex, to_hex};
use model::report::{self, BYTES};
use model::{
    Bad, HIGHEST_LIMIT, Inspected, Kind, LONGEST_CODE, LONGEST_DEPLOYED, Lent, answer, answer_by,
    entries, follow_bytes, inspect, map, read, salvage, unpruned_by,
};

/// Where each entry stands, and its kind.
fn kinds(bytes: &[u8]) -> Vec<(usize, u8)> {
    let mut found = Vec::new();
    let mut at = 0;
    while let Some([a, b, c, d, kind, 0, ..]) = bytes.get(at..) {
        found.push((at, *kind));
        at += 6 + u32::from_le_bytes([*a, *b, *c, *d]) as usize;
    }
    assert_eq!(at, bytes.len());
    found
}

/// Two callers of a DynamicJumpi, of which one shows a destination, with STOPs up to a length.
fn stopped(length: usize) -> Vec<u8> {
    let mut code =
        from_hex("600e6008565b60085b6001905700005b600035600856").expect("it is hexadecimal");
    code.resize(length, 0);
    code
}

fn written(choice: u64, code: &[u8]) -> Vec<u8> {
    let answer = answer_by(choice, 0, &Lent::ALL, HIGHEST_LIMIT, code);
    assert_eq!(answer.number(), 0);
    answer.written().to_vec()
}

#[test]
fn the_borders_are_24_576_and_49_152() {
    assert_eq!((LONGEST_DEPLOYED, LONGEST_CODE), (24_576, 49_152));
    for (length, number) in [(24_577, 0), (49_152, 0), (49_153, 1), (65_536, 1)] {
        let answer = answer(&Lent::ALL, HIGHEST_LIMIT, &vec![0; length]);
        assert_eq!(answer.number(), number, "{length}");
    }
}

#[test]
fn longer_code_writes_the_second_family_and_nothing_else_moves() {
    for choice in [0, 1] {
        let smaller = written(choice, &stopped(22));
        let longest = written(choice, &stopped(LONGEST_DEPLOYED));
        let longer = written(choice, &stopped(LONGEST_DEPLOYED + 1));
        // Only the head's code length moves up to the border.
        assert_eq!(smaller[8..], longest[8..]);
        let first = kinds(&longest);
        assert!(first.iter().any(|(_, kind)| *kind == 7));
        let mut moved = longest.clone();
        moved[6..8].copy_from_slice(&24_577_u16.to_le_bytes());
        for (at, kind) in first.into_iter().filter(|(_, kind)| *kind >= 7) {
            moved[at + 4] = kind + 3;
            let to = at + if kind == 7 { 6 } else { 8 };
            if moved[to..to + 2] == [0x00, 0x80] {
                moved[to..to + 2].copy_from_slice(&[0xff, 0xff]);
            }
        }
        assert_eq!(to_hex(&moved), to_hex(&longer));
    }
}

#[test]
fn an_address_of_0x8000_is_a_destination() {
    let code = both_marks();
    let ours = map(&Lent::ALL, HIGHEST_LIMIT, &code).expect("all the room is lent");
    let block = ours.blocks.iter().find(|block| block.start == 0x9000);
    let Some(Kind::DynamicJumpi { entries, .. }) = block.map(|block| &block.kind) else {
        panic!("{:?}", ours.blocks);
    };
    let ends: Vec<Option<usize>> = entries.iter().map(|entry| entry.to).collect();
    assert_eq!(ends, [Some(0x8000), None]);
    let bytes = written(1, &code);
    let held = read(&bytes).expect("it was written");
    assert_eq!((held.blocks, held.records), (ours.blocks, ours.records));
    // Of the first family the same two bytes are a missing destination.
    let first = "0c0000000100060001000000000000000000\
                 08000000050000000500010000000800000007000080010000000000";
    let first = from_hex(first).expect("it is hexadecimal");
    let held = read(&first).expect("nothing is bad");
    let Kind::DynamicJump { entries } = &held.blocks[0].kind else {
        panic!("{held:?}");
    };
    assert_eq!(entries[0].to, None);
}

/// A head of a code of so many bytes, one block 5 that says one path, that path and a record, with these kinds.
fn small(code_length: u16, seven: u8, record: u8) -> Vec<u8> {
    let [low, high] = code_length.to_le_bytes();
    let mut bytes = vec![12, 0, 0, 0, 1, 0, low, high, 1, 0, 1, 0, 0, 0, 0, 0, 0, 0];
    bytes.extend([8, 0, 0, 0, 5, 0, 0, 0, 5, 0, 1, 0, 0, 0]);
    bytes.extend([8, 0, 0, 0, seven, 0, 0, 128, 1, 0, 0, 0, 0, 0]);
    let number: &[u8] = if matches!(record, 9 | 12) {
        &[3, 0, 0, 0]
    } else {
        &[]
    };
    bytes.extend([10 + number.len() as u8, 0, 0, 0, record, 0, 0, 0, 255, 255]);
    bytes.extend(number);
    bytes.extend([1, 0, 0, 0, 0, 0]);
    bytes
}

#[test]
fn the_reader_goes_by_the_heads_code_length() {
    for record in [8, 9] {
        assert!(read(&small(24_576, 7, record)).is_ok());
    }
    // Over 24,576 it is the second family, whatever the length is.
    for code_length in [24_577, 49_152, 49_153, 65_535] {
        for record in [11, 12] {
            let held = read(&small(code_length, 10, record)).expect("nothing is bad");
            assert_eq!(held.code_length, usize::from(code_length));
            assert_eq!(held.records[0].to, None);
        }
    }
}

#[test]
fn a_kind_of_the_other_family_is_as_one_that_is_not_known() {
    let bad = |bytes: &[u8]| {
        let refused = read(bytes).expect_err("something is bad");
        (refused.offset, refused.bad)
    };
    // The record is bad at its own offset.
    for (code_length, seven, record) in [
        (24_576, 7, 11),
        (24_576, 7, 12),
        (24_577, 10, 8),
        (24_577, 10, 9),
    ] {
        let bytes = small(code_length, seven, record);
        assert_eq!(bad(&bytes), (46, vec![Bad::Kind]));
    }
    // A path of the other family is none of the block before it, which says one.
    for (code_length, seven, record) in [(24_576, 10, 8), (24_577, 7, 11)] {
        let mut bytes = small(code_length, seven, record);
        assert_eq!(bad(&bytes), (18, vec![Bad::Sevens]));
        // If the block says none, the path is bad.
        bytes[28] = 0;
        assert_eq!(bad(&bytes), (32, vec![Bad::Kind]));
    }
    // After one record of the family the other one is bad, as before.
    let mut bytes = small(24_577, 10, 11);
    bytes.extend(&small(24_577, 10, 12)[46..]);
    assert_eq!(bad(&bytes), (62, vec![Bad::Other]));
}

#[test]
fn the_tools_read_both_families() {
    let (first, second) = (small(9, 7, 8), small(24_577, 10, 12));
    let archive = [&first[..], &second, &first, &small(24_577, 10, 8)].concat();
    let salvaged = salvage(&archive);
    assert_eq!(salvaged.maps, 3);
    assert_eq!(salvaged.offset, archive.len() - 16);
    let report = |map: &[u8]| report::add(&[0; BYTES], map).expect("nothing is bad");
    // The path's 0x8000 is missing in the first and a destination in the second, the record's 0xFFFF the other way around.
    assert_eq!(
        report(&first)[48..88].iter().step_by(8).collect::<Vec<_>>(),
        [&1, &0, &0, &1, &0]
    );
    assert_eq!(
        report(&second)[48..88]
            .iter()
            .step_by(8)
            .collect::<Vec<_>>(),
        [&0, &1, &0, &0, &1]
    );
}

#[test]
fn a_log_goes_to_0x8000_and_back() {
    let code = two_callers();
    let bytes = written(1, &code);
    let first = [0, 3, 6, 0x9000, 0x9001];
    let second = [0x8000, 0x8001, 0x8004, 0x8007, 0x9000, 0x9001];
    let steps: Vec<u64> = [&first[..], &second, &[0x8100, 0x8101]].concat();
    let log: Vec<u8> = steps.iter().flat_map(|step| step.to_le_bytes()).collect();
    let followed = follow_bytes(&bytes, &code, &log, 1000).expect("nothing is refused");
    assert_eq!(followed.place, steps.len());
    // Each block's entries, then its edges: 0, 0x8000, 0x8100, and the function with its two.
    assert_eq!(followed.counts, [1, 1, 1, 1, 1, 2, 1, 1]);
}

#[test]
fn paths_of_both_families_are_inspected() {
    let code = both_marks();
    let w = 64 * code.len() + 256;
    for choice in [0, 1] {
        let unpruned =
            unpruned_by(choice, false, HIGHEST_LIMIT, &code).expect("all the room is lent");
        let mut bytes = entries::write(code.len(), &unpruned);
        assert_eq!(inspect(0, &code, &bytes, w), Inspected::Accepted);
        // The path's destination, 0x8000, moved to 0x8001; then away, where nothing is asked of it.
        let (at, _) = kinds(&bytes)
            .into_iter()
            .find(|(_, kind)| *kind == 10)
            .expect("a path");
        assert_eq!(bytes[at + 6..at + 8], [0x00, 0x80]);
        bytes[at + 6] = 1;
        assert_eq!(
            inspect(0, &code, &bytes, w),
            Inspected::NotRight {
                offset: at,
                place: 0
            }
        );
        bytes[at + 6..at + 8].copy_from_slice(&[0xff, 0xff]);
        assert_eq!(inspect(0, &code, &bytes, w), Inspected::Accepted);
    }
    assert_eq!(
        inspect(0, &[0; LONGEST_CODE], &[], w),
        Inspected::Refused(3)
    );
    assert_eq!(
        inspect(0, &[0; LONGEST_CODE + 1], &[], w),
        Inspected::Refused(1)
    );
}
