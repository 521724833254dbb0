//! Document 01's sessions, through the binding.

use aznifrem::{
    Block, BlockType, DynamicJump, Error, HIGHEST_LIMIT, LONGEST_DEPLOYED, Map, Mapper, Record, map,
};
use codes::init::{both_marks, repeated, two_callers};
use codes::{from_hex, to_hex};

fn mapped(hex: &str, limit: u64) -> Map {
    let code = from_hex(hex).expect("a session's code is hexadecimal");
    map(&code, limit).expect("a session is answered")
}

/// Start, end and type of each block.
fn blocks(map: &Map) -> Vec<(usize, usize, BlockType)> {
    let parts = |block: &Block| (block.start, block.end, block.btype.clone());
    assert!(map.blocks.iter().all(|(key, block)| *key == block.id()));
    map.blocks.values().map(parts).collect()
}

fn ends(success: bool) -> BlockType {
    BlockType::Terminate { success }
}

fn record(start: usize, path: &[usize], to: usize) -> Record {
    let path = path.to_vec();
    let to = Some(to);
    Record {
        start,
        jump: DynamicJump { path, to },
        energy: None,
    }
}

#[test]
fn short_codes_have_the_blocks_of_document_01() {
    let jump = |to| BlockType::Jump { to };
    assert_eq!(blocks(&mapped("", HIGHEST_LIMIT)), []);
    assert_eq!(blocks(&mapped("00", HIGHEST_LIMIT)), [(0, 0, ends(true))]);
    assert_eq!(
        blocks(&mapped("6003565B00", HIGHEST_LIMIT)),
        [(0, 2, jump(3)), (3, 4, ends(true))]
    );
    assert_eq!(
        blocks(&mapped("0C5B00", HIGHEST_LIMIT)),
        [(0, 0, ends(false))]
    );
    assert_eq!(
        blocks(&mapped("6001570C5B00", HIGHEST_LIMIT)),
        [(0, 2, ends(false))]
    );
    assert_eq!(
        blocks(&mapped("605B50600156", HIGHEST_LIMIT)),
        [(0, 5, ends(false))]
    );
    assert_eq!(
        blocks(&mapped("605B50600160000156", HIGHEST_LIMIT)),
        [(0, 8, jump(1))]
    );
}

#[test]
fn the_return_is_written_byte_for_byte() {
    let code = from_hex("60056007565b005b56").expect("hexadecimal");
    let mut mapper = Mapper::new();
    let bytes = mapper.entries(&code, HIGHEST_LIMIT).expect("answered");
    let lines = [
        "0c0000000100090003000100000002000000",
        "060000000300000004000700",
        "0500000002000500060001",
        "060000000300070008000500",
        "0c0000000800070005000200000007000000",
    ];
    assert_eq!(to_hex(bytes), lines.concat());
}

#[test]
fn a_limit_of_zero_leaves_the_dynamic_jump_open() {
    let map = mapped("60056007565b005b56", 0);
    let open = BlockType::DynamicJump { to: vec![] };
    assert_eq!(
        blocks(&map),
        [(0, 4, BlockType::Jump { to: 7 }), (7, 8, open)]
    );
    assert_eq!((map.energy, map.records.len(), map.code_length), (0, 0, 9));
}

#[test]
fn two_callers_are_found_in_their_order() {
    let hex = "6005600D565B600B600D565B005B56";
    let whole = mapped(hex, HIGHEST_LIMIT);
    assert_eq!(
        whole.records,
        [record(13, &[13, 0], 5), record(13, &[13, 5], 11)]
    );
    assert_eq!(whole.energy, 5);
    let first = mapped(hex, 1);
    assert_eq!(first.records, [record(13, &[13, 0], 5)]);
    assert_eq!(first.blocks[&13].btype, BlockType::Jump { to: 5 });
    assert!(!first.blocks.contains_key(&11));
    assert_eq!(mapped(hex, 2).energy, 3);
}

#[test]
fn the_longest_code_is_taken_and_the_next_refused() {
    let code = vec![0x5b; 49_153];
    assert_eq!(
        map(&code[1..], HIGHEST_LIMIT)
            .expect("49,152 bytes are taken")
            .code_length,
        49_152
    );
    let refused = map(&code, HIGHEST_LIMIT).expect_err("49,153 bytes are not");
    assert_eq!(refused, Error::CodeTooLong { length: 49_153 });
    let refused = map(&[], 500_001).expect_err("the limit is too high");
    assert_eq!(refused, Error::LimitTooHigh { limit: 500_001 });
    assert_eq!(refused.number(), Some(2));
}

/// "Code over 24,576 bytes writes kinds 10, 11 and 12 in place of 7, 8 and 9, where a missing destination is 0xFFFF."
#[test]
fn longer_code_has_kinds_of_its_own_and_0x8000_as_a_destination() {
    let whole = map(&both_marks(), HIGHEST_LIMIT).expect("it is taken");
    let ends: Vec<Option<usize>> = whole.records.iter().map(|record| record.jump.to).collect();
    assert_eq!(ends, [Some(0x8000), None]);
    let back = from_hex("60056007565B005B56").expect("it is hexadecimal");
    let mut codes = vec![both_marks(), two_callers()];
    codes.extend([LONGEST_DEPLOYED, LONGEST_DEPLOYED + 1].map(|length| repeated(&back, length)));
    for (choice, mut mapper) in [(1, Mapper::new()), (0, Mapper::new().numbered())] {
        for code in &codes {
            let expected = model::answer_by(choice, 0, &model::Lent::ALL, HIGHEST_LIMIT, code);
            let got = mapper.entries(code, HIGHEST_LIMIT).expect("answered");
            assert_eq!(got, expected.written(), "{} bytes", code.len());
            let read = Map::from_bytes(got).expect("it was written");
            assert_eq!(read.to_bytes().as_deref(), Ok(got));
        }
    }
}

#[test]
fn the_answer_is_the_models_on_every_corner() {
    let mut mapper = Mapper::new();
    for hex in codes::corners::CORNERS {
        let code = from_hex(hex).expect("the corners are hexadecimal");
        let expected = model::answer(&model::Lent::ALL, HIGHEST_LIMIT, &code);
        let got = mapper.entries(&code, HIGHEST_LIMIT).expect("answered");
        assert_eq!(got, expected.written(), "on {hex}");
    }
}
