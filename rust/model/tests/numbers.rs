//! Document 02, No. 5: the numbers of records, kind 9, and which records a smaller limit has.

use codes::random::jumpy;
use codes::{Random, from_hex, woven};
use model::{Bad, HIGHEST_LIMIT, Lent, Map, Record, answer_by, map_by, read};

const RETURN: &str = "60056007565B005B56";
const CALLERS: &str = "6005600D565B600B600D565B005B56";

fn numbered(code: &[u8], limit: u64) -> Map {
    map_by(0, 0, &Lent::ALL, limit, code).expect("all the room is lent")
}

fn numbers(code: &str) -> Vec<Option<u64>> {
    let code = from_hex(code).expect("it is hexadecimal");
    let records = numbered(&code, HIGHEST_LIMIT).records;
    records.iter().map(|record| record.energy).collect()
}

#[test]
fn a_number_counts_the_unit_of_its_own_parent() {
    assert_eq!(numbers(RETURN), [Some(1)]);
    assert_eq!(numbers(CALLERS), [Some(1), Some(3)]);
}

#[test]
fn kind_9_is_4_bytes_longer_and_any_other_choice_writes_kind_8() {
    let code = from_hex(RETURN).expect("it is hexadecimal");
    let written = |choice| {
        let answer = answer_by(choice, 0, &Lent::ALL, HIGHEST_LIMIT, &code);
        codes::to_hex(answer.written())
    };
    assert!(written(0).ends_with("10000000090007000500010000000200000007000000"));
    for choice in [1, 2, u64::MAX] {
        assert!(written(choice).ends_with("0c0000000800070005000200000007000000"));
    }
    let needs = |choice| {
        let map = map_by(choice, 0, &Lent::ALL, HIGHEST_LIMIT, &code);
        map.expect("all the room is lent").needs.out
    };
    assert_eq!([needs(0), needs(1)], [75, 71]);
}

#[test]
fn a_smaller_limit_has_exactly_the_records_up_to_it() {
    let mut random = Random::new(5);
    let mut cut = 0;
    for _ in 0..2_000 {
        let code = if random.percent(50) {
            jumpy(&mut random, 60)
        } else {
            woven::code(&mut random, 5, 3)
        };
        let all = numbered(&code, 4_000);
        let limit = random.below(all.energy as usize + 2) as u64;
        let up_to = |record: &&Record| record.energy <= Some(limit);
        let kept: Vec<Record> = all.records.iter().filter(up_to).cloned().collect();
        cut += usize::from(kept.len() < all.records.len());
        assert_eq!(numbered(&code, limit).records, kept);
    }
    assert!(cut > 100, "{cut} limits left a record out");
}

#[test]
fn after_one_of_8_and_9_the_other_is_bad() {
    let code = from_hex(RETURN).expect("it is hexadecimal");
    let [nine, eight] = [0, 1].map(|choice| {
        let answer = answer_by(choice, 0, &Lent::ALL, HIGHEST_LIMIT, &code);
        answer.written().to_vec()
    });
    let bad = |first: &[u8], then: &[u8]| {
        let bytes = [first, &then[53..]].concat();
        let refused = read(&bytes).expect_err("two kinds of record");
        (refused.offset, refused.bad)
    };
    assert_eq!(bad(&eight, &nine), (71, vec![Bad::Other]));
    assert_eq!(bad(&nine, &eight), (75, vec![Bad::Other]));
    assert_eq!(bad(&nine, &nine), (0, vec![Bad::Counts]));
    let held = read(&nine).expect("it was written");
    assert_eq!(held.records, numbered(&code, HIGHEST_LIMIT).records);
}
