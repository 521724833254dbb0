//! Document 01, "Sessions to check": every one, with every byte that it prints.

mod common;

use common::{at, blocks, code, printed, printed_at, records, whole};
use model::{Answer, HIGHEST_LIMIT, LONGEST_CODE, Lent, Needs, Refusal};

const RETURN: &str = "60056007565B005B56";
const CALLERS: &str = "6005600D565B600B600D565B005B56";

#[test]
fn empty_is_a_head_alone() {
    assert_eq!(printed(""), ["0c0000000100000000000000000000000000"]);
}

#[test]
fn stop_is_one_block() {
    let lines = [
        "0c0000000100010001000000000000000000",
        "0500000002000000000001",
    ];
    assert_eq!(printed("00"), lines);
}

#[test]
fn a_static_jump() {
    assert_eq!(blocks(&whole("6003565B00")), ["0-2 Jump 3", "3-4 true"]);
    let lines = [
        "0c0000000100050002000000000000000000",
        "060000000300000002000300",
        "0500000002000300040001",
    ];
    assert_eq!(printed("6003565B00"), lines);
}

#[test]
fn an_unknown_byte_ends_the_cutting_at_0() {
    assert_eq!(blocks(&whole("0C5B00")), ["0-0 false"]);
    assert_eq!(blocks(&whole("6001570C5B00")), ["0-2 false"]);
}

#[test]
fn a_jump_into_a_push_is_checked_when_cut_and_not_when_run() {
    assert_eq!(blocks(&whole("605B50600156")), ["0-5 false"]);
    assert_eq!(blocks(&whole("605B50600160000156")), ["0-8 Jump 1"]);
}

#[test]
fn return_prints_exactly() {
    let lines = [
        "0c0000000100090003000100000002000000",
        "060000000300000004000700",
        "0500000002000500060001",
        "060000000300070008000500",
        "0c0000000800070005000200000007000000",
    ];
    assert_eq!(printed(RETURN), lines);
}

#[test]
fn return_needs_no_more_and_no_less() {
    let needs = Needs {
        p: 2,
        s: 3,
        t: 1,
        r: 1,
        q: 2,
        out: 71,
    };
    assert_eq!(whole(RETURN).needs, needs);
    let just = needs.lent(9);
    assert_eq!(
        just,
        Lent {
            w: 832,
            p: 4,
            s: 27,
            t: 32,
            r: 32,
            q: 4,
            out: 71
        }
    );
    assert_eq!(
        model::answer(&just, HIGHEST_LIMIT, &code(RETURN))
            .written()
            .len(),
        71
    );
    let short = Lent { s: 26, ..just };
    let answer = model::answer(&short, HIGHEST_LIMIT, &code(RETURN));
    assert_eq!(answer, Answer::Refused(Refusal::StatesShort));
}

#[test]
fn return_at_limit_0() {
    assert_eq!(blocks(&at(0, RETURN)), ["0-4 Jump 7", "7-8 DynamicJump"]);
    assert_eq!(at(0, RETURN).energy, 0);
    let lines = [
        "0c0000000100090002000000000000000000",
        "060000000300000004000700",
        "0800000005000700080000000000",
    ];
    assert_eq!(printed_at(0, RETURN), lines);
}

#[test]
fn two_callers() {
    let map = whole(CALLERS);
    assert_eq!(records(&map), ["5<13,0", "11<13,5"]);
    assert!(map.records.iter().all(|record| record.start == 13));
    assert_eq!(map.energy, 5);
}

#[test]
fn two_callers_at_limits_1_and_2() {
    let map = at(1, CALLERS);
    assert_eq!(records(&map), ["5<13,0"]);
    assert_eq!(
        blocks(&map),
        ["0-4 Jump 13", "5-10 Jump 13", "13-14 Jump 5"]
    );
    assert_eq!(map.energy, 1);
    let map = at(2, CALLERS);
    assert_eq!((map.records.len(), map.energy), (1, 3));
}

#[test]
fn the_longest_code_and_the_highest_limit() {
    let longest = vec![0; LONGEST_CODE];
    assert_eq!(
        model::answer(&Lent::ALL, HIGHEST_LIMIT, &longest).number(),
        0
    );
    let longer = vec![0; LONGEST_CODE + 1];
    assert_eq!(
        model::answer(&Lent::ALL, HIGHEST_LIMIT, &longer).number(),
        1
    );
    assert_eq!(
        model::answer(&Lent::ALL, HIGHEST_LIMIT + 1, &[]).number(),
        2
    );
}

#[test]
fn refusals_1_to_3_stand_in_this_order() {
    let none = Lent::each(0);
    let longer = vec![0; LONGEST_CODE + 1];
    assert_eq!(model::answer(&none, HIGHEST_LIMIT + 1, &longer).number(), 1);
    assert_eq!(model::answer(&none, HIGHEST_LIMIT + 1, &[0]).number(), 2);
    assert_eq!(model::answer(&none, HIGHEST_LIMIT, &[0]).number(), 3);
    let just = Lent {
        w: 320,
        ..Lent::ALL
    };
    assert_eq!(model::answer(&just, HIGHEST_LIMIT, &[0]).number(), 0);
    let short = Lent {
        w: 319,
        ..Lent::ALL
    };
    assert_eq!(model::answer(&short, HIGHEST_LIMIT, &[0]).number(), 3);
}
