//! "Opcode rows", and the walk over whole instructions.

pub const STOP: u8 = 0x00;
pub const ADD: u8 = 0x01;
pub const AND: u8 = 0x16;
pub const JUMP: u8 = 0x56;
pub const JUMPI: u8 = 0x57;
pub const PC: u8 = 0x58;
pub const JUMPDEST: u8 = 0x5b;
pub const PUSH0: u8 = 0x5f;
pub const PUSH1: u8 = 0x60;
pub const PUSH4: u8 = 0x63;
pub const PUSH32: u8 = 0x7f;
pub const DUP1: u8 = 0x80;
pub const DUP16: u8 = 0x8f;
pub const SWAP1: u8 = 0x90;
pub const SWAP16: u8 = 0x9f;
pub const LOG0: u8 = 0xa0;
pub const LOG4: u8 = 0xa4;
pub const RETURN: u8 = 0xf3;
pub const REVERT: u8 = 0xfd;
pub const INVALID: u8 = 0xfe;
pub const SELFDESTRUCT: u8 = 0xff;

/// What document 01 says of one byte.
#[derive(Clone, Copy, Debug, PartialEq, Eq)]
pub struct Row {
    pub size: usize,
    pub taken: usize,
    pub given: usize,
    pub known: bool,
}

/// The row of a byte: "every other byte is unknown: size 1, 0/0".
pub fn row(byte: u8) -> Row {
    let size = match byte {
        PUSH1..=PUSH32 => 1 + usize::from(byte - PUSH0),
        _ => 1,
    };
    let known = effect(byte);
    let (taken, given) = known.unwrap_or((0, 0));
    Row {
        size,
        taken,
        given,
        known: known.is_some(),
    }
}

/// Words taken and given, in the order of document 01's list; nothing for an unknown byte.
fn effect(byte: u8) -> Option<(usize, usize)> {
    Some(match byte {
        0x00 | 0x5b | 0xfe => (0, 0),
        0x01..=0x07 | 0x0a | 0x0b | 0x10..=0x14 | 0x16..=0x18 | 0x1a..=0x1d | 0x20 => (2, 1),
        0x08 | 0x09 | 0xf0 => (3, 1),
        0x15 | 0x19 | 0x1e | 0x31 | 0x35 | 0x3b | 0x3f | 0x40 | 0x49 | 0x51 | 0x54 | 0x5c => (1, 1),
        0x30 | 0x32..=0x34 | 0x36 | 0x38 | 0x3a | 0x3d | 0x41..=0x48 | 0x4a => (0, 1),
        0x58..=0x5a | 0x5f | PUSH1..=PUSH32 => (0, 1),
        0x37 | 0x39 | 0x3e | 0x5e => (3, 0),
        0x3c => (4, 0),
        0x50 | 0x56 | 0xff => (1, 0),
        0x52 | 0x53 | 0x55 | 0x57 | 0x5d | 0xf3 | 0xfd => (2, 0),
        DUP1..=DUP16 => (copied(byte), copied(byte) + 1),
        SWAP1..=SWAP16 => (swapped(byte) + 1, swapped(byte) + 1),
        LOG0..=LOG4 => (usize::from(byte - LOG0) + 2, 0),
        0xf1 | 0xf2 => (7, 1),
        0xf4 | 0xfa => (6, 1),
        0xf5 => (4, 1),
        _ => return None,
    })
}

/// The k of DUPk.
pub fn copied(byte: u8) -> usize {
    usize::from(byte - DUP1) + 1
}

/// The k of SWAPk.
pub fn swapped(byte: u8) -> usize {
    usize::from(byte - SWAP1) + 1
}

/// Whole instructions from a place on, as place and byte; stops before one that runs past the end.
pub fn walk(code: &[u8], from: usize) -> impl Iterator<Item = (usize, u8)> + '_ {
    let mut at = from;
    std::iter::from_fn(move || {
        let pc = at;
        let byte = *code.get(pc)?;
        at = pc + row(byte).size;
        (at <= code.len()).then_some((pc, byte))
    })
}

/// The value that the PUSH1 to PUSH4 at this place pushes; nothing for another instruction.
pub fn pushed(code: &[u8], pc: usize) -> Option<usize> {
    match code[pc] {
        byte @ PUSH1..=PUSH4 => {
            let count = usize::from(byte - PUSH0);
            let digits = &code[pc + 1..=pc + count];
            Some(digits.iter().fold(0, |v, d| v * 256 + usize::from(*d)))
        }
        _ => None,
    }
}
