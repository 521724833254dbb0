//! The rows as they are printed, and that very many of them end in useful time.

mod common;

use std::time::{Duration, Instant};

use aznifrem::{Block, BlockType, DynamicJump, Map, Record};
use common::jump;
use compare::{Row, rows, rows_json};

fn block(start: usize, btype: BlockType) -> (usize, Block) {
    let end = start + 1;
    (start, Block { start, end, btype })
}

fn map(blocks: &[(usize, Block)], records: &[(usize, DynamicJump)]) -> Map {
    let record = |(start, jump): &(usize, DynamicJump)| Record {
        start: *start,
        jump: jump.clone(),
        energy: None,
    };
    Map {
        code_length: 20,
        blocks: blocks.iter().cloned().collect(),
        records: records.iter().map(record).collect(),
        energy: 3,
    }
}

fn differences(old: &Map, new: &Map) -> Vec<String> {
    rows(old, new).iter().map(Row::to_string).collect()
}

#[test]
fn equal_maps_have_no_difference_whatever_the_energy() {
    let one = map(&[block(0, BlockType::Jump { to: 5 })], &[]);
    let two = Map {
        energy: 4,
        ..one.clone()
    };
    assert_eq!(differences(&one, &two), Vec::<String>::new());
}

#[test]
fn blocks_come_go_and_change() {
    let stop = BlockType::Terminate { success: true };
    let fail = BlockType::Terminate { success: false };
    let old = map(&[block(0, stop.clone()), block(4, stop.clone())], &[]);
    let new = map(&[block(0, fail), block(9, stop)], &[]);
    assert_eq!(
        differences(&old, &new),
        [
            "block changed: 0-1 Terminate, success -> 0-1 Terminate, failure",
            "block went: 4-5 Terminate, success",
            "block came: 9-10 Terminate, success",
        ]
    );
}

#[test]
fn a_side_that_moved_is_said_with_its_block() {
    let sides = |true_to, false_to| BlockType::Jumpi { true_to, false_to };
    let old = [block(0, BlockType::Jump { to: 5 }), block(2, sides(5, 6))];
    let new = [block(0, BlockType::Jump { to: 7 }), block(2, sides(5, 8))];
    assert_eq!(
        differences(&map(&old, &[]), &map(&new, &[])),
        [
            "block changed: 0-1 Jump to 5 -> 0-1 Jump to 7",
            "block changed: 2-3 Jumpi to 5, else to 6 -> 2-3 Jumpi to 5, else to 8",
        ]
    );
}

#[test]
fn a_moved_path_is_said_once_though_its_block_lists_it_too() {
    let dynamic = |to| BlockType::DynamicJump {
        to: vec![jump(&[7, 0], Some(to))],
    };
    let with = |to| map(&[block(7, dynamic(to))], &[(7, jump(&[7, 0], Some(to)))]);
    let moved = ["jump moved: block 7 by path 7, 0: 5 -> 9"];
    assert_eq!(differences(&with(5), &with(9)), moved);
    // Merged, the jump itself moved with its path.
    let with = |to| {
        map(
            &[block(7, BlockType::Jump { to })],
            &[(7, jump(&[7, 0], Some(to)))],
        )
    };
    assert_eq!(differences(&with(5), &with(9)), moved);
}

#[test]
fn the_record_alone_shows_what_a_merged_block_hides() {
    let blocks = [block(7, BlockType::Jump { to: 5 })];
    let (first, second) = (jump(&[7, 0], Some(5)), jump(&[7, 3], Some(5)));
    let old = map(&blocks, &[(7, first.clone()), (7, second.clone())]);
    let new = map(&blocks, &[(7, second), (7, first)]);
    assert_eq!(
        differences(&old, &new),
        ["paths changed their order: block 7"]
    );
    let none = map(&blocks, &[(7, jump(&[7, 0], None))]);
    assert_eq!(
        differences(&old, &none),
        [
            "block changed: 7-8 Jump, merged -> 7-8 Jump to 5",
            "jump moved: block 7 by path 7, 0: 5 -> unknown",
            "jump went: block 7 by path 7, 3: 5",
        ]
    );
}

#[test]
fn an_order_that_changed_is_said_beside_what_came() {
    let (seven, nine) = ((7, jump(&[7, 0], Some(5))), (9, jump(&[9, 0], Some(5))));
    let old = map(&[], &[seven.clone(), nine.clone()]);
    let new = map(&[], &[nine.clone(), (8, jump(&[8], None)), seven.clone()]);
    assert_eq!(
        differences(&old, &new),
        [
            "jump came: block 8 by path 8: unknown",
            "the record changed its order between blocks",
        ]
    );
    // Those that stayed stand as they stood.
    let less = differences(&old, &map(&[], &[nine]));
    assert_eq!(less, ["jump went: block 7 by path 7, 0: 5"]);
}

#[test]
fn pairs_are_found_in_the_order_of_the_old_map() {
    let with = |tos: &[usize]| {
        let found = |to: &usize| (7, jump(&[7, 0], Some(*to)));
        map(&[], &tos.iter().map(found).collect::<Vec<_>>())
    };
    assert_eq!(
        differences(&with(&[1, 2, 3]), &with(&[4, 2])),
        [
            "jump moved: block 7 by path 7, 0: 1 -> 4",
            "jump went: block 7 by path 7, 0: 3",
        ]
    );
}

#[test]
fn a_list_that_the_record_does_not_give_is_said() {
    let again = jump(&[7, 0], Some(5));
    let dynamic = |to: Vec<DynamicJump>| map(&[block(7, BlockType::DynamicJump { to })], &[]);
    let (twice, none) = (vec![again.clone(), again], vec![]);
    let lines = differences(&dynamic(twice), &dynamic(none));
    let row = "list of paths changed: block 7: not as recorded, 2 paths -> as recorded";
    assert_eq!(lines, [row]);
}

#[test]
fn rows_are_told_to_machines() {
    let stop = BlockType::Terminate { success: true };
    let old = map(
        &[block(0, stop.clone()), block(3, BlockType::Jump { to: 0 })],
        &[(3, jump(&[3, 0], Some(0)))],
    );
    let new = map(&[block(1, stop)], &[(3, jump(&[3, 0], None))]);
    assert_eq!(
        rows_json(&rows(&old, &new)),
        concat!(
            r#"[{"row":"block went","before":{"start":0,"end":1,"type":"Terminate","success":true}},"#,
            r#"{"row":"block came","after":{"start":1,"end":2,"type":"Terminate","success":true}},"#,
            r#"{"row":"block went","before":{"start":3,"end":4,"type":"Jump","merged":true}},"#,
            r#"{"row":"jump moved","block":3,"path":[3,0],"before":0,"after":null}]"#
        )
    );
}

/// Compared one with each other, either kind would take minutes.
#[test]
fn hundreds_of_thousands_of_records_end_in_useful_time() {
    let count = 300_000;
    let one_block = |first: usize| {
        let record = |at| (7, jump(&[7, first + at], Some(5)));
        map(&[], &(0..count).map(record).collect::<Vec<_>>())
    };
    let many_blocks = |to: usize| {
        let record = |at| (at % 24_000, jump(&[at], Some(to)));
        map(&[], &(0..count).map(record).collect::<Vec<_>>())
    };
    let begun = Instant::now();
    let lines = differences(&one_block(0), &one_block(count));
    assert_eq!(lines.len(), 2 * count);
    let lines = differences(&many_blocks(1), &many_blocks(2));
    assert_eq!(lines.len(), count);
    assert!(compare::matching(&one_block(8), &one_block(count + 8)).is_some());
    // With a scan for each record it takes over three minutes; the bound is wide, for a machine that is busy.
    assert!(begun.elapsed() < Duration::from_secs(120));
}
