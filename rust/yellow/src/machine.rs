//! The Yellow Paper's machine, as far as the stack and the program counter see it: its appendix H, with EIP-3855 (PUSH0),
//! 1153 (TLOAD, TSTORE), 5656 (MCOPY), 4844 (BLOBHASH), 7516 (BLOBBASEFEE) and 7939 (CLZ). Memory, storage, gas and the limit
//! of 1,024 words are left out; results that come of them are supplied.

use crate::mask::Mask;
use crate::stack::Stack;
use crate::word::Word;

pub const AND: u8 = 0x16;
pub const JUMP: u8 = 0x56;
pub const JUMPI: u8 = 0x57;
pub const JUMPDEST: u8 = 0x5b;

/// Words taken off the stack and put on it: the paper's δ and α.
type Effect = (usize, usize);

/// From 00 on: stop and arithmetic.
#[rustfmt::skip]
const ARITHMETIC: [Effect; 12] = [
    /* STOP */ (0, 0), /* ADD */ (2, 1), /* MUL */ (2, 1), /* SUB */ (2, 1),
    /* DIV */ (2, 1), /* SDIV */ (2, 1), /* MOD */ (2, 1), /* SMOD */ (2, 1),
    /* ADDMOD */ (3, 1), /* MULMOD */ (3, 1), /* EXP */ (2, 1), /* SIGNEXTEND */ (2, 1),
];

/// From 10 on: comparison and bits.
#[rustfmt::skip]
const COMPARISON: [Effect; 15] = [
    /* LT */ (2, 1), /* GT */ (2, 1), /* SLT */ (2, 1), /* SGT */ (2, 1),
    /* EQ */ (2, 1), /* ISZERO */ (1, 1), /* AND */ (2, 1), /* OR */ (2, 1),
    /* XOR */ (2, 1), /* NOT */ (1, 1), /* BYTE */ (2, 1), /* SHL */ (2, 1),
    /* SHR */ (2, 1), /* SAR */ (2, 1), /* CLZ */ (1, 1),
];

/// From 30 on: the environment.
#[rustfmt::skip]
const ENVIRONMENT: [Effect; 16] = [
    /* ADDRESS */ (0, 1), /* BALANCE */ (1, 1), /* ORIGIN */ (0, 1), /* CALLER */ (0, 1),
    /* CALLVALUE */ (0, 1), /* CALLDATALOAD */ (1, 1), /* CALLDATASIZE */ (0, 1), /* CALLDATACOPY */ (3, 0),
    /* CODESIZE */ (0, 1), /* CODECOPY */ (3, 0), /* GASPRICE */ (0, 1), /* EXTCODESIZE */ (1, 1),
    /* EXTCODECOPY */ (4, 0), /* RETURNDATASIZE */ (0, 1), /* RETURNDATACOPY */ (3, 0), /* EXTCODEHASH */ (1, 1),
];

/// From 40 on: the block.
#[rustfmt::skip]
const BLOCK: [Effect; 11] = [
    /* BLOCKHASH */ (1, 1), /* COINBASE */ (0, 1), /* TIMESTAMP */ (0, 1), /* NUMBER */ (0, 1),
    /* PREVRANDAO */ (0, 1), /* GASLIMIT */ (0, 1), /* CHAINID */ (0, 1), /* SELFBALANCE */ (0, 1),
    /* BASEFEE */ (0, 1), /* BLOBHASH */ (1, 1), /* BLOBBASEFEE */ (0, 1),
];

/// From 50 on: stack, memory, storage and flow.
#[rustfmt::skip]
const FLOW: [Effect; 16] = [
    /* POP */ (1, 0), /* MLOAD */ (1, 1), /* MSTORE */ (2, 0), /* MSTORE8 */ (2, 0),
    /* SLOAD */ (1, 1), /* SSTORE */ (2, 0), /* JUMP */ (1, 0), /* JUMPI */ (2, 0),
    /* PC */ (0, 1), /* MSIZE */ (0, 1), /* GAS */ (0, 1), /* JUMPDEST */ (0, 0),
    /* TLOAD */ (1, 1), /* TSTORE */ (2, 0), /* MCOPY */ (3, 0), /* PUSH0 */ (0, 1),
];

/// From F0 on: system, up to CREATE2.
#[rustfmt::skip]
const SYSTEM: [Effect; 6] = [
    /* CREATE */ (3, 1), /* CALL */ (7, 1), /* CALLCODE */ (7, 1), /* RETURN */ (2, 0),
    /* DELEGATECALL */ (6, 1), /* CREATE2 */ (4, 1),
];

/// The effect of a byte, in the order of the paper's appendix; none for a byte that is no instruction, as FE is none.
pub fn taken_given(op: u8) -> Option<Effect> {
    let count = |first: u8| usize::from(op - first) + 1;
    let row = |table: &[Effect], first: u8| table.get(usize::from(op - first)).copied();
    match op {
        0x00..=0x0f => row(&ARITHMETIC, 0x00),
        0x10..=0x1f => row(&COMPARISON, 0x10),
        0x20 => Some((2, 1)),
        0x30..=0x3f => row(&ENVIRONMENT, 0x30),
        0x40..=0x4f => row(&BLOCK, 0x40),
        0x50..=0x5f => row(&FLOW, 0x50),
        0x60..=0x7f => Some((0, 1)),
        0x80..=0x8f => Some((count(0x80), count(0x80) + 1)),
        0x90..=0x9f => Some((count(0x90) + 1, count(0x90) + 1)),
        0xa0..=0xa4 => Some((count(0xa0) + 1, 0)),
        0xf0..=0xf5 => row(&SYSTEM, 0xf0),
        // STATICCALL, REVERT, SELFDESTRUCT.
        0xfa => Some((6, 1)),
        0xfd => Some((2, 0)),
        0xff => Some((1, 0)),
        _ => None,
    }
}

fn of_one(op: u8) -> Option<fn(Word) -> Word> {
    Some(match op {
        0x15 => Word::iszero,
        0x19 => Word::not,
        0x1e => Word::clz,
        _ => return None,
    })
}

/// Of the top and the word below it.
fn of_two(op: u8) -> Option<fn(Word, Word) -> Word> {
    Some(match op {
        0x01 => Word::add,
        0x02 => Word::mul,
        0x03 => Word::sub,
        0x04 => Word::div,
        0x05 => Word::sdiv,
        0x06 => Word::modulo,
        0x07 => Word::smod,
        0x0a => Word::exp,
        0x0b => Word::signextend,
        0x10 => Word::lt,
        0x11 => Word::gt,
        0x12 => Word::slt,
        0x13 => Word::sgt,
        0x14 => Word::equal,
        AND => Word::and,
        0x17 => Word::or,
        0x18 => Word::xor,
        0x1a => Word::byte,
        0x1b => Word::shl,
        0x1c => Word::shr,
        0x1d => Word::sar,
        _ => return None,
    })
}

fn of_three(op: u8) -> Option<fn(Word, Word, Word) -> Word> {
    Some(match op {
        0x08 => Word::addmod,
        0x09 => Word::mulmod,
        _ => return None,
    })
}

/// An instruction as it is fetched: its place, its byte, what a PUSH pushes and how long it is.
#[derive(Clone, Copy, Debug, PartialEq, Eq)]
pub struct Fetched {
    pub pc: usize,
    pub op: u8,
    pub argument: Word,
    pub size: usize,
}

/// Past the end of the code every byte is 0.
pub fn fetch(code: &[u8], pc: usize) -> Fetched {
    let at = |place: usize| code.get(place).copied().unwrap_or(0);
    let op = at(pc);
    let width = match op {
        0x60..=0x7f => usize::from(op - 0x5f),
        _ => 0,
    };
    let bytes: Vec<u8> = (pc + 1..=pc + width).map(at).collect();
    Fetched {
        pc,
        op,
        argument: Word::from_bytes(&bytes),
        size: 1 + width,
    }
}

/// What an instruction leaves on the stack.
pub fn step(now: &Fetched, stack: &mut Stack) {
    let op = now.op;
    if let Some(of) = of_one(op) {
        let a = stack.pop();
        stack.push(of(a));
    } else if let Some(of) = of_two(op) {
        let (a, b) = (stack.pop(), stack.pop());
        stack.push(of(a, b));
    } else if let Some(of) = of_three(op) {
        let (a, b, c) = (stack.pop(), stack.pop(), stack.pop());
        stack.push(of(a, b, c));
    } else {
        moved(now, stack);
    }
}

/// PC, PUSH, DUP, SWAP; of every other instruction the words that it gives are supplied.
fn moved(now: &Fetched, stack: &mut Stack) {
    match now.op {
        0x58 => stack.push(Word::from(now.pc as u64)),
        0x5f..=0x7f => stack.push(now.argument),
        0x80..=0x8f => {
            let word = stack.at(usize::from(now.op - 0x80));
            stack.push(word);
        }
        0x90..=0x9f => stack.exchange(usize::from(now.op - 0x8f)),
        op => {
            let (taken, given) = taken_given(op).unwrap_or((0, 0));
            for _ in 0..taken {
                stack.pop();
            }
            for _ in 0..given {
                let word = stack.supplied();
                stack.push(word);
            }
        }
    }
}

/// How control leaves a run of instructions.
#[derive(Clone, Copy, Debug, PartialEq, Eq)]
pub enum Way {
    /// JUMP: to what it pops.
    Jump(Word),
    /// JUMPI: to what it pops, or to the instruction behind it.
    Branch(Word, usize),
    /// Into a JUMPDEST that stands behind.
    Fall(usize),
    /// It halts, by an instruction that does or by a byte that is none.
    Halt,
}

/// Runs from `start` on until control leaves; the mask's premise is watched on the way.
pub fn leave(code: &[u8], start: usize, stack: &mut Stack, mask: &mut Mask) -> Way {
    mask.enter();
    let mut pc = start;
    loop {
        let now = fetch(code, pc);
        let behind = pc + now.size;
        if now.op == JUMPDEST && pc != start {
            return Way::Fall(pc);
        }
        if taken_given(now.op).is_none() {
            return Way::Halt;
        }
        mask.before(&now, stack);
        let top = stack.at(0);
        step(&now, stack);
        match now.op {
            JUMP => return Way::Jump(top),
            JUMPI => return Way::Branch(top, behind),
            0x00 | 0xf3 | 0xfd | 0xff => return Way::Halt,
            _ => pc = behind,
        }
    }
}
