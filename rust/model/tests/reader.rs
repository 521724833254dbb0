//! The reader on the map of Return and on changes of it, one for each thing that is bad; and on answers.

use codes::random::{Random, jumpy};
use codes::{from_hex, woven};
use model::{Bad, HIGHEST_LIMIT, Lent, Map, Needs, answer, entries, read};

const HEAD: &str = "0c0000000100090003000100000002000000";
const BLOCK_0: &str = "060000000300000004000700";
const BLOCK_5: &str = "0500000002000500060001";
const BLOCK_7: &str = "060000000300070008000500";
const RECORD: &str = "0c0000000800070005000200000007000000";
const SEVEN: &str = "0a000000070005000200000007000000";
const CUT_SEVEN: &str = "0a000000070005";
/// Block 7 as a dynamic one, that says one path, two, or none.
const ONE: &str = "0800000005000700080001000000";
const TWO: &str = "0800000005000700080002000000";
const NONE: &str = "0800000005000700080000000000";
const TWO_I: &str = "0a000000060007000800090002000000";

/// Where the first bad entry of these parts stands, and all that is bad of it.
fn bad(parts: &[&str]) -> (usize, Vec<Bad>) {
    let bytes = from_hex(&parts.concat()).expect("it is hexadecimal");
    let refused = read(&bytes).expect_err("something is bad");
    (refused.offset, refused.bad)
}

#[test]
fn a_head_comes_first_and_its_counts_are_looked_at_last() {
    assert_eq!(bad(&[]), (0, vec![Bad::Head]));
    let headless = [BLOCK_0, BLOCK_5, BLOCK_7, RECORD];
    assert_eq!(bad(&headless), (0, vec![Bad::Head]));
    assert_eq!(
        bad(&[HEAD, BLOCK_0, BLOCK_5, RECORD]),
        (0, vec![Bad::Counts])
    );
    assert_eq!(
        bad(&[HEAD, BLOCK_0, BLOCK_5, BLOCK_7]),
        (0, vec![Bad::Counts])
    );
    let twice = [HEAD, BLOCK_0, BLOCK_5, BLOCK_7, RECORD, RECORD, "01"];
    assert_eq!(bad(&twice), (89, vec![Bad::Cut]));
}

#[test]
fn entries_stand_in_their_order() {
    let blocks = [HEAD, BLOCK_0, BLOCK_5, BLOCK_7].concat();
    assert_eq!(bad(&[&blocks, HEAD]), (53, vec![Bad::Order]));
    let late = [HEAD, BLOCK_0, BLOCK_5, RECORD, BLOCK_7];
    assert_eq!(bad(&late), (59, vec![Bad::Order]));
    assert_eq!(bad(&[&blocks, BLOCK_7, RECORD]), (53, vec![Bad::Start]));
    let falling = [HEAD, BLOCK_0, BLOCK_7, BLOCK_5, RECORD];
    assert_eq!(bad(&falling), (42, vec![Bad::Start]));
    for kind in ["000000000000", "000000000a00", "000000000001"] {
        assert_eq!(bad(&[&blocks, kind]), (53, vec![Bad::Kind]));
    }
    assert_eq!(bad(&[&blocks, SEVEN, RECORD]), (53, vec![Bad::Away]));
    let behind = [HEAD, BLOCK_0, BLOCK_5, ONE, SEVEN, RECORD, SEVEN];
    assert_eq!(bad(&behind), (89, vec![Bad::Away]));
}

#[test]
fn a_dynamic_count_is_met_by_whole_sevens() {
    let before = [HEAD, BLOCK_0, BLOCK_5].concat();
    for (block, rest) in [(NONE, SEVEN), (TWO, SEVEN), (TWO_I, SEVEN)] {
        assert_eq!(
            bad(&[&before, block, rest, RECORD]),
            (41, vec![Bad::Sevens])
        );
    }
    assert_eq!(
        bad(&[&before, TWO, SEVEN, CUT_SEVEN]),
        (41, vec![Bad::Sevens])
    );
    assert_eq!(bad(&[&before, ONE, SEVEN, CUT_SEVEN]), (71, vec![Bad::Cut]));
    // One of the wrong length is whole.
    let short = "01000000070005";
    assert_eq!(
        bad(&[&before, TWO, SEVEN, short, RECORD]),
        (71, vec![Bad::Length])
    );
}

#[test]
fn entries_have_their_form() {
    let blocks = [HEAD, BLOCK_0, BLOCK_5, BLOCK_7].concat();
    let success = [HEAD, BLOCK_0, "0500000002000500060002", BLOCK_7, RECORD];
    assert_eq!(bad(&success), (30, vec![Bad::Success]));
    for cut in ["0c00000008000700050002000000070000", "0c00000008"] {
        assert_eq!(bad(&[&blocks, cut]), (53, vec![Bad::Cut]));
    }
    assert_eq!(bad(&["ffffffff010009"]), (0, vec![Bad::Cut]));
    let longer = "0d000000010009000300010000000200000000";
    assert_eq!(bad(&[longer]), (0, vec![Bad::Length]));
    assert_eq!(
        bad(&[HEAD, "0500000003000000040007"]),
        (18, vec![Bad::Length])
    );
    for record in [
        "0c0000000800070005000300000007000000",
        "060000000800070005000200",
    ] {
        assert_eq!(bad(&[&blocks, record]), (53, vec![Bad::Length]));
    }
}

#[test]
fn what_was_written_is_read() {
    let mut random = Random::new(5);
    let corners = codes::corners::CORNERS.iter();
    let mut codes: Vec<Vec<u8>> = corners.map(|hex| from_hex(hex).expect("hex")).collect();
    codes.extend((0..60).map(|_| jumpy(&mut random, 40)));
    codes.extend((0..60).map(|_| woven::code(&mut random, 4, 3)));
    for code in codes {
        let answer = answer(&Lent::ALL, HIGHEST_LIMIT, &code);
        let held = read(answer.written()).expect("an answer is a map");
        assert_eq!(held.code_length, code.len());
        let map = Map {
            blocks: held.blocks,
            records: held.records,
            energy: held.energy,
            needs: Needs::default(),
        };
        assert_eq!(entries::write(code.len(), &map), answer.written());
    }
}
