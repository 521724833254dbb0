//! Document 02, No. 6: the modes, on codes that are worked out by hand.

use model::{HIGHEST_LIMIT, Kind, LONGEST_CODE, Lent, Map, answer_in, map_in};

/// PUSH1 6, PUSH0, ADD; 4: JUMPDEST, JUMP; 6: JUMPDEST.
const SUM: [u8; 7] = [0x60, 6, 0x5f, 0x01, 0x5b, 0x56, 0x5b];

fn at(mode: u64, code: &[u8]) -> Map {
    map_in(mode, &Lent::ALL, HIGHEST_LIMIT, code).expect("all the room is lent")
}

#[test]
fn a_sum_with_push0_is_known_in_mode_1_alone() {
    let to = |mode| at(mode, &SUM).records[0].to;
    assert_eq!([0, 1].map(to), [None, Some(6)]);
}

#[test]
fn push0_is_a_jumpdest_if_byte_0_is_5b() {
    // JUMPDEST, PUSH1 0, POP, PUSH0, JUMP.
    let code = [0x5b, 0x60, 0, 0x50, 0x5f, 0x56];
    assert_eq!(at(1, &code).blocks[0].kind, Kind::Jump { to: 0 });
    assert!(matches!(
        at(0, &code).blocks[0].kind,
        Kind::DynamicJump { .. }
    ));
}

#[test]
fn push0_before_jump_is_dynamic_in_both() {
    // As a static jump to 0, which is no JUMPDEST, it would be a Terminate.
    for mode in [0, 1] {
        let kind = &at(mode, &[0x5f, 0x56]).blocks[0].kind;
        assert!(matches!(kind, Kind::DynamicJump { .. }), "{kind:?}");
    }
}

#[test]
fn a_mode_that_is_none_is_refused_after_2_and_before_3() {
    let none = Lent::each(0);
    let longer = vec![0; LONGEST_CODE + 1];
    let number = |limit, code: &[u8]| answer_in(2, &none, limit, code).number();
    assert_eq!(number(HIGHEST_LIMIT + 1, &longer), 1);
    assert_eq!(number(HIGHEST_LIMIT + 1, &[0]), 2);
    assert_eq!(number(HIGHEST_LIMIT, &[0]), 13);
    assert_eq!(answer_in(1, &none, HIGHEST_LIMIT, &[0]).number(), 3);
}
