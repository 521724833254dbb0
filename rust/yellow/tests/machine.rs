//! Instructions by known values: what they take and give, in which order, and how control leaves.

use codes::from_hex;
use yellow::Word;
use yellow::machine::{Way, fetch, leave, step, taken_given};
use yellow::mask::Mask;
use yellow::stack::Stack;

/// The top words after a code without jumps, over words 100, 101 and so on, which results from elsewhere are too.
fn top<const N: usize>(code: &str) -> [u64; N] {
    let code = from_hex(code).expect("hexadecimal");
    let mut next = 99;
    let mut supply = || {
        next += 1;
        Word::from(next)
    };
    let mut stack = Stack::new(&mut supply);
    let mut pc = 0;
    while pc < code.len() {
        let now = fetch(&code, pc);
        step(&now, &mut stack);
        pc += now.size;
    }
    std::array::from_fn(|depth| stack.at(depth).small().expect("a small word"))
}

fn way(code: &str, start: usize) -> Way {
    let code = from_hex(code).expect("hexadecimal");
    let mut supply = || Word::from(100);
    leave(
        &code,
        start,
        &mut Stack::new(&mut supply),
        &mut Mask::default(),
    )
}

#[test]
fn operands_come_from_the_top() {
    // PUSH1 3, PUSH1 10, and then: the top is 10.
    assert_eq!(top("6003600a03"), [7]);
    assert_eq!(top("6003600a04"), [3]);
    assert_eq!(top("6003600a06"), [1]);
    assert_eq!(top("6003600a0a"), [1000]);
    assert_eq!(top("6003600a10"), [0]);
    assert_eq!(top("6003600a11"), [1]);
    // The number of bits, of a byte, and the modulus below the two.
    assert_eq!(top("600360041b"), [48]);
    assert_eq!(top("603060041c"), [3]);
    assert_eq!(top("61abcd601e1a"), [0xab]);
    assert_eq!(top("60ff60070b"), [255]);
    assert_eq!(top("60076005600408"), [2]);
    assert_eq!(top("60076005600409"), [6]);
}

/// Each byte does what its name says. 5F03 at the end takes the word from 0.
#[test]
fn bytes_are_their_instructions() {
    assert_eq!(top("6003600a02"), [30]);
    assert_eq!(top("6003600a5f03055f03"), [3]);
    assert_eq!(top("6003600a5f03075f03"), [1]);
    assert_eq!(top("6003600a5f0312"), [1]);
    assert_eq!(top("6003600a5f0313"), [0]);
    assert_eq!(top("600a600a14"), [1]);
    assert_eq!(top("5f15"), [1]);
    assert_eq!(top("6003600a17"), [11]);
    assert_eq!(top("6003600a18"), [9]);
    assert_eq!(top("600a195f03"), [11]);
    assert_eq!(top("600a5f0360011d5f03"), [5]);
    assert_eq!(top("60011e"), [255]);
}

#[test]
fn words_are_moved() {
    assert_eq!(top("60016002600380"), [3, 3, 2, 1]);
    assert_eq!(top("60016002600382"), [1, 3, 2, 1]);
    assert_eq!(top("60016002600390"), [2, 3, 1]);
    assert_eq!(top("60016002600391"), [1, 2, 3]);
    assert_eq!(top("6001600250"), [1, 100]);
    // DUP3 and SWAP2 below what was put on.
    assert_eq!(top("82"), [102, 100, 101]);
    assert_eq!(top("91"), [102, 101, 100]);
}

#[test]
fn pushes_and_places() {
    assert_eq!(top("5f"), [0]);
    assert_eq!(top("610102"), [258]);
    assert_eq!(top("5b5858"), [2, 1]);
    // Past the end every byte is 0.
    assert_eq!(top("6201"), [0x01_0000]);
}

#[test]
fn results_from_elsewhere_are_supplied() {
    // MSTORE takes two and gives none, MLOAD one for one, CALL seven for one.
    assert_eq!(top("60016002600352"), [1, 100]);
    assert_eq!(top("6001600251"), [100, 1]);
    assert_eq!(
        top("6009600160016001600160016001 6001f1"
            .replace(' ', "")
            .as_str()),
        [100, 9]
    );
}

#[test]
fn control_leaves() {
    assert_eq!(way("600456", 0), Way::Jump(Word::from(4)));
    assert_eq!(way("6001600757", 0), Way::Branch(Word::from(7), 5));
    assert_eq!(way("5b30505b00", 0), Way::Fall(3));
    assert_eq!(way("5b30505b00", 3), Way::Halt);
    for halting in ["00", "f3", "fd", "fe", "ff", "0c"] {
        assert_eq!(way(halting, 0), Way::Halt);
    }
    assert_eq!(way("30", 0), Way::Halt);
}

/// Two tables that were written apart: document 01's rows and the Yellow Paper's. FE is a row of the first alone.
#[test]
fn the_rows_are_those_of_document_01() {
    for byte in 0..=255 {
        let row = model::ops::row(byte);
        match byte {
            0xfe => assert_eq!(taken_given(byte), None),
            _ if row.known => assert_eq!(
                taken_given(byte),
                Some((row.taken, row.given)),
                "{byte:02x}"
            ),
            _ => assert_eq!(taken_given(byte), None, "{byte:02x}"),
        }
    }
}
