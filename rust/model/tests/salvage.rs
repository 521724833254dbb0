//! The salvager on archives of the map of Return and of maps like it, whole and damaged.

use codes::from_hex;
use model::salvage;

const HEAD: &str = "0c0000000100090003000100000002000000";
const BLOCKS: &str = "0600000003000000040007000500000002000500060001060000000300070008000500";
const RECORD: &str = "0c0000000800070005000200000007000000";
const SEVEN: &str = "0a000000070005000200000007000000";
/// A head of no block and no record; one of two blocks and a record, where there are three.
const EMPTY: &str = "0c0000000100000000000000000000000000";
const FEWER: &str = "0c0000000100090002000100000002000000";
/// Three blocks, no record; the last is dynamic, with two 7s.
const OPEN: &str = "0c0000000100090003000000000002000000060000000300000004000700050000000200050006000108000000050007000800020000000a0000000700050002000000070000000a000000070000000200000007000000";

/// Maps and bytes copied, bytes dropped, the offset.
fn numbers(parts: &[&str]) -> [usize; 4] {
    let archive = from_hex(&parts.concat()).expect("it is hexadecimal");
    let salvaged = salvage(&archive);
    assert_eq!(salvaged.copied, archive[..salvaged.copied.len()]);
    let copied = salvaged.copied.len();
    [salvaged.maps, copied, salvaged.dropped, salvaged.offset]
}

#[test]
fn whole_archives_come_out_equal() {
    let map = [HEAD, BLOCKS, RECORD].concat();
    assert_eq!(numbers(&[]), [0, 0, 0, 0]);
    assert_eq!(numbers(&[&map]), [1, 71, 0, 71]);
    assert_eq!(numbers(&[EMPTY]), [1, 18, 0, 18]);
    assert_eq!(numbers(&[&map, OPEN, EMPTY, &map]), [4, 247, 0, 247]);
}

#[test]
fn a_cut_map_is_dropped_with_all_behind_it() {
    let map = [HEAD, BLOCKS, RECORD].concat();
    // Inside the record, before it, inside the head.
    assert_eq!(numbers(&[&map, &map[..120]]), [1, 71, 60, 124]);
    assert_eq!(numbers(&[&map, &map[..106]]), [1, 71, 53, 71]);
    assert_eq!(numbers(&[&map, &map[..10]]), [1, 71, 5, 71]);
    // Inside the last 7, and before it.
    assert_eq!(numbers(&[&map, &OPEN[..172]]), [1, 71, 86, 112]);
    assert_eq!(numbers(&[&map, &OPEN[..142]]), [1, 71, 71, 112]);
    assert_eq!(numbers(&[&map[..120], &map]), [0, 0, 131, 53]);
}

#[test]
fn a_map_ends_where_its_heads_counts_say() {
    let map = [HEAD, BLOCKS, RECORD].concat();
    // In place of a head: a record, a 7 behind a record, a 7 behind an empty head.
    assert_eq!(numbers(&[&map, RECORD, &map]), [1, 71, 89, 71]);
    assert_eq!(numbers(&[&map, SEVEN]), [1, 71, 16, 71]);
    assert_eq!(numbers(&[EMPTY, SEVEN]), [1, 18, 16, 18]);
    // A 7 more is of the last block's run.
    assert_eq!(numbers(&[&map, OPEN, SEVEN]), [1, 71, 103, 112]);
    // A cut one is not: it stands in place of the next head.
    assert_eq!(numbers(&[OPEN, &SEVEN[..14]]), [1, 87, 7, 87]);
    // A record too few before the next head, and a block too many.
    assert_eq!(numbers(&[&map, HEAD, BLOCKS, &map]), [1, 71, 124, 124]);
    assert_eq!(numbers(&[FEWER, BLOCKS, RECORD]), [0, 0, 71, 0]);
}
