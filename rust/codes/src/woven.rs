//! Small blocks that push each other's addresses, move them about and jump to what they find.

use crate::assembler::{Assembler, Label};
use crate::random::Random;

/// A code of this many blocks, each of at most this many steps before its end.
pub fn code(random: &mut Random, blocks: usize, steps: usize) -> Vec<u8> {
    let mut asm = Assembler::new(1);
    let labels: Vec<Label> = (0..blocks).map(|_| asm.label()).collect();
    for _ in 0..random.between(1, 4) {
        asm.push_label(random.pick(&labels));
    }
    for label in &labels {
        asm.land(*label);
        for _ in 0..random.between(0, steps) {
            step(random, &mut asm, &labels);
        }
        end(random, &mut asm, &labels);
    }
    asm.finish()
}

/// The same in a code of a given length, with blocks far from each other: at these places, which rise, or behind the
/// block before where that reaches further.
pub fn spread(random: &mut Random, places: &[usize], steps: usize, length: usize) -> Vec<u8> {
    let mut asm = Assembler::new(2);
    let labels: Vec<Label> = places.iter().map(|_| asm.label()).collect();
    for _ in 0..random.between(1, 4) {
        asm.push_label(random.pick(&labels));
    }
    if random.percent(50) {
        asm.op(0x30);
        asm.jump_if(random.pick(&labels));
    }
    asm.jump(random.pick(&labels));
    for (label, place) in labels.iter().zip(places) {
        asm.fill(*place, random.pick(&[0x00, 0x00, 0xfe]));
        asm.land(*label);
        for _ in 0..random.between(0, steps) {
            step(random, &mut asm, &labels);
        }
        end(random, &mut asm, &labels);
    }
    asm.fill(length, 0x00);
    let mut code = asm.finish();
    code.truncate(length);
    code
}

fn step(random: &mut Random, asm: &mut Assembler, labels: &[Label]) {
    match random.below(20) {
        0..=6 => asm.push_label(random.pick(labels)),
        7..=9 => asm.op(random.pick(&[0x80, 0x80, 0x81, 0x82])),
        10..=13 => asm.op(random.pick(&[0x90, 0x90, 0x91, 0x92])),
        14 | 15 => asm.op(0x50),
        16 => asm.op(0x30),
        17 => asm.ops(&[0x63, 0xff, 0xff, 0xff, 0xff, 0x16]),
        18 => asm.ops(&[0x60, 0x00, 0x01]),
        _ => asm.op(random.pick(&[0x01, 0x15, 0x16, 0x52, 0x58, 0x5e, 0x5f])),
    }
}

/// How a block ends: by a jump to what lies on the stack half of the time.
fn end(random: &mut Random, asm: &mut Assembler, labels: &[Label]) {
    match random.below(20) {
        0..=5 => asm.op(0x56),
        6..=8 => asm.op(0x57),
        9..=11 => asm.jump(random.pick(labels)),
        12..=14 => {
            asm.op(0x30);
            asm.jump_if(random.pick(labels));
        }
        15 => asm.jump_if(random.pick(labels)),
        16 => asm.op(random.pick(&[0x00, 0xf3, 0xfd, 0xfe, 0xff])),
        17 => asm.op(0x0c),
        _ => {}
    }
}
