//! Families of codes whose search is as long, or whose paths are as many, as can be.

use crate::assembler::{Assembler, Label};

/// One function that returns to this many callers, all of them reached at once.
pub fn fan(callers: usize) -> Vec<u8> {
    let mut asm = Assembler::new(2);
    let function = asm.label();
    let bodies: Vec<Label> = (0..callers).map(|_| asm.label()).collect();
    for body in &bodies {
        asm.op(0x30);
        asm.jump_if(*body);
    }
    asm.op(0x00);
    for body in bodies {
        asm.land(body);
        call(&mut asm, function);
        asm.op(0x00);
    }
    asm.land(function);
    asm.op(0x56);
    asm.finish()
}

/// A function of this many branches before it returns. Each side leaves a word of its own under
/// the return address, so that no two of the ways through leave the same stack.
pub fn diamonds(count: usize) -> Vec<u8> {
    let mut asm = Assembler::new(2);
    let function = asm.label();
    call(&mut asm, function);
    asm.op(0x00);
    asm.land(function);
    for _ in 0..count {
        let (other, join) = (asm.label(), asm.label());
        asm.op(0x30);
        asm.jump_if(other);
        asm.ops(&[0x30, 0x90]);
        asm.jump(join);
        asm.land(other);
        asm.ops(&[0x33, 0x90]);
        asm.land(join);
    }
    asm.op(0x56);
    asm.finish()
}

/// Diamonds whose two sides leave two known words each, of which the second is one more and the
/// first 37 less on the other side: all ways through leave states that share their sum
/// (docs/LAYOUT.md), and no two the same.
pub fn sharing(count: usize) -> Vec<u8> {
    let mut asm = Assembler::new(2);
    let function = asm.label();
    call(&mut asm, function);
    asm.op(0x00);
    asm.land(function);
    for _ in 0..count {
        let (other, join) = (asm.label(), asm.label());
        asm.op(0x30);
        asm.jump_if(other);
        leave(&mut asm, SHARED);
        asm.jump(join);
        asm.land(other);
        leave(&mut asm, OTHER_SIDE);
        asm.land(join);
    }
    asm.op(0x56);
    asm.finish()
}

/// Words that are no address, and those of the other side.
const SHARED: [u64; 2] = [0x1234_5678, 0x2345_6789];
const OTHER_SIDE: [u64; 2] = [SHARED[0] - 37, SHARED[1] + 1];

/// Puts words under the return address, the last one on top of the others.
fn leave(asm: &mut Assembler, words: [u64; 2]) {
    for word in words {
        asm.push(word);
        asm.op(0x90);
    }
}

/// Functions that each call the next one twice: the path to a return doubles with each level.
pub fn doubling(levels: usize) -> Vec<u8> {
    let mut asm = Assembler::new(2);
    let functions: Vec<Label> = (0..levels).map(|_| asm.label()).collect();
    if let Some(first) = functions.first() {
        call(&mut asm, *first);
    }
    asm.op(0x00);
    for (level, function) in functions.iter().enumerate() {
        asm.land(*function);
        if let Some(next) = functions.get(level + 1) {
            call(&mut asm, *next);
            call(&mut asm, *next);
        }
        asm.op(0x56);
    }
    asm.finish()
}

/// A row of calls of one function, each after the last one's return: a round for each of them.
pub fn row(calls: usize) -> Vec<u8> {
    let mut asm = Assembler::new(2);
    let function = asm.label();
    for _ in 0..calls {
        call(&mut asm, function);
    }
    asm.op(0x00);
    asm.land(function);
    asm.op(0x56);
    asm.finish()
}

/// PUSH ret, PUSH f, JUMP, JUMPDEST.
fn call(asm: &mut Assembler, function: Label) {
    let back = asm.label();
    asm.push_label(back);
    asm.jump(function);
    asm.land(back);
}

#[cfg(test)]
mod tests {
    use super::{OTHER_SIDE, SHARED};
    use crate::sum::{mixed, weight};

    #[test]
    fn both_sides_add_the_same_to_a_sum() {
        // The word that is left last lies on top of the other, and is added first.
        let side = |sum, [below, above]: [u64; 2]| {
            mixed(37, mixed(37, sum, weight(1, above)), weight(1, below))
        };
        for sum in [0, 1, 178, u32::MAX] {
            assert_eq!(side(sum, SHARED), side(sum, OTHER_SIDE));
        }
        assert_ne!(SHARED, OTHER_SIDE);
    }
}
