//! A call that does not leave what `tests/sessions.list` has is told.

use aznifrem::call;
use codes::Random;
use differential::{Entry, check_session};

/// Return in document 01's rooms: its line, up to what must come of it.
const RETURN: &str = "500000 33024 32768 32768 32768 32768 32768 32768 9 60056007565b005b56";

fn told(entry: Entry, came: &str) -> Result<(), String> {
    checked(entry, &format!("{RETURN} {came}"))
}

fn checked(entry: Entry, line: &str) -> Result<(), String> {
    check_session(entry, line, &mut Random::new(1))
}

/// What must come of it.
const RIGHT: &str = "0 71 edcaca594f652f9a";

#[test]
fn the_line_stands_in_the_list() {
    let list = include_str!("../../../tests/sessions.list");
    let line = format!("{RETURN} {RIGHT}");
    assert!(list.lines().any(|other| other == line));
    assert_eq!(told(call, RIGHT), Ok(()));
}

#[test]
fn another_number_count_or_sum_is_told() {
    for wrong in [
        "9 0 cbf29ce484222325",
        "0 70 edcaca594f652f9a",
        "0 71 edcaca594f652f9b",
        "0 71",
    ] {
        let sentence = told(call, wrong).expect_err(wrong);
        assert!(sentence.contains(RIGHT), "{sentence}");
    }
}

#[test]
fn a_wrong_entry_is_told() {
    let other_byte: Entry = |code, limit, lent| {
        let number = call(code, limit, lent);
        lent.out[70] ^= 1;
        number
    };
    let not_wiped: Entry = |code, limit, lent| {
        let number = call(code, limit, lent);
        lent.w[33_023] = 7;
        number
    };
    let behind: Entry = |code, limit, lent| {
        let number = call(code, limit, lent);
        lent.out[71] = 0;
        number
    };
    let refuses: Entry = |_, _, lent| {
        for room in [
            &mut *lent.w,
            &mut *lent.p,
            &mut *lent.s,
            &mut *lent.t,
            &mut *lent.r,
            &mut *lent.q,
        ] {
            room.fill(0);
        }
        9
    };
    let faults = [
        (other_byte, "'0 71 "),
        (not_wiped, "byte 33023 of W is not wiped"),
        (behind, "byte 71 of the output is touched"),
        (refuses, "'9 0 cbf29ce484222325', and the list has"),
    ];
    for (wrong, fault) in faults {
        let sentence = told(wrong, RIGHT).expect_err(fault);
        assert!(sentence.contains(fault), "{sentence}");
    }
}

/// "1, 2, 3 are tested in that order and touch nothing."
#[test]
fn an_early_refusal_that_touches_a_room_is_told() {
    let line = "500001 33024 32768 32768 32768 32768 32768 32768 1 00 2 0 cbf29ce484222325";
    assert_eq!(checked(call, line), Ok(()));
    let touches: Entry = |code, limit, lent| {
        lent.q[0] = 0;
        call(code, limit, lent)
    };
    let sentence = checked(touches, line).expect_err("Q is touched");
    assert!(sentence.contains("byte 0 of Q is touched"), "{sentence}");
}
