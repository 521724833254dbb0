//! Document 02, No. 12: what the inspector says, on maps that are worked out by hand. The same table is proved of the definitions
//! (`InspectorExamples`).

use codes::from_hex;
use model::{HIGHEST_LIMIT, Inspected, LONGEST_CODE, entries, inspect, map_by, unpruned_by};

const RETURN: &str = "60056007565b005b56";
const BLOCKS: &str = "0c0000000100090003000100000002000000060000000300000004000700050000000200050006000106000000030007000800\
     0500";

fn said(mode: u64, code: &str, map: &str) -> Inspected {
    let bytes = |hex: &str| from_hex(&hex.replace(char::is_whitespace, "")).expect("digits");
    let code = bytes(code);
    inspect(mode, &code, &bytes(map), 64 * code.len() + 256)
}

/// With a record behind Return's blocks, which stands at 53.
fn with_record(record: &str) -> Inspected {
    said(0, RETURN, &format!("{BLOCKS}{record}"))
}

fn wrong(offset: usize, place: usize) -> Inspected {
    Inspected::NotRight { offset, place }
}

#[test]
fn a_record_is_right_or_names_its_place() {
    let right = "0c0000000800070005000200000007000000";
    assert_eq!(with_record(right), Inspected::Accepted);
    // To 7, where 5B stands too, and to 6; without a destination nothing is asked.
    assert_eq!(
        with_record("0c0000000800070007000200000007000000"),
        wrong(53, 0)
    );
    assert_eq!(
        with_record("0c0000000800070006000200000007000000"),
        wrong(53, 0)
    );
    assert_eq!(
        with_record("0c0000000800070000800200000005000500"),
        Inspected::Accepted
    );
    // No edge from 5 to 7; an empty path; another block's; the path without its last block.
    assert_eq!(
        with_record("0c0000000800070005000200000007000500"),
        wrong(53, 1)
    );
    assert_eq!(with_record("0800000008000700050000000000"), wrong(53, 0));
    assert_eq!(
        with_record("0c0000000800050005000200000007000000"),
        wrong(53, 0)
    );
    assert_eq!(
        with_record("0a000000080007000500010000000700"),
        wrong(53, 0)
    );
    // An unknown byte in the block at 0, and at 7.
    let map = format!("{BLOCKS}{right}");
    assert_eq!(said(0, "600560070c5b005b56", &map), wrong(53, 1));
    assert_eq!(said(0, "60056007565b005b0c", &map), wrong(53, 0));
}

#[test]
fn the_refusals_come_in_their_order() {
    let code = from_hex(RETURN).expect("digits");
    assert_eq!(
        inspect(2, &[0; LONGEST_CODE + 1], &[], 0),
        Inspected::Refused(1)
    );
    assert_eq!(inspect(2, &code, &[], 831), Inspected::Refused(13));
    assert_eq!(inspect(1, &code, &[], 831), Inspected::Refused(3));
    assert_eq!(inspect(1, &code, &[], 832), Inspected::BadEntry(0));
}

#[test]
fn a_run_is_accepted_before_pruning_and_not_after() {
    let code = from_hex("600160075b57005b600f600d565b565b00").expect("digits");
    let room = 64 * code.len() + 256;
    // Records of kind 8, and of kind 9: the one before that which is not right is 4 bytes longer.
    for (choice, offset) in [(1, 91), (0, 95)] {
        let unpruned = unpruned_by(choice, false, HIGHEST_LIMIT, &code);
        let bytes = entries::write(code.len(), &unpruned.expect("all the room is lent"));
        assert_eq!(inspect(0, &code, &bytes, room), Inspected::Accepted);
        let answered = map_by(choice, 0, &model::Lent::ALL, HIGHEST_LIMIT, &code);
        let bytes = entries::write(code.len(), &answered.expect("all the room is lent"));
        assert_eq!(inspect(0, &code, &bytes, room), wrong(offset, 1));
    }
}

#[test]
fn all_that_are_not_right_are_listed_from_an_offset_on() {
    let code = from_hex(RETURN).expect("digits");
    let head = "0c0000000100090003000200000002000000";
    let text = format!(
        "{head}{}0c00000008000700070002000000070000000c0000000800070005000200000007000500",
        &BLOCKS.replace(char::is_whitespace, "")[36..]
    );
    let map = from_hex(&text).expect("digits");
    let listed = |from| model::inspect_from(0, from, &code, &map, 832);
    assert_eq!(listed(0), (wrong(53, 0), vec![(53, 0), (71, 1)]));
    assert_eq!(listed(54), (wrong(71, 1), vec![(71, 1)]));
    assert_eq!(listed(72), (Inspected::Accepted, vec![]));
}
