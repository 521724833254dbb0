//! Contracts of about a given length, as Solidity makes them.

use crate::assembler::{Assembler, Label};
use crate::random::Random;
use crate::solidity::{self, Shape};

/// How much of a contract is calls.
#[derive(Clone, Copy, Debug, PartialEq, Eq)]
pub enum Style {
    /// Entries that call a few functions each, branches, loops: `solidity`.
    Plain,
    /// Hardly anything but calls, in layers: the last layer is called from everywhere.
    Calls,
}

/// A contract of at most this many bytes, and seldom fewer than nine tenths of them.
pub fn sized(random: &mut Random, bytes: usize, style: Style) -> Vec<u8> {
    let mut functions = bytes / 40 + 1;
    let mut best = Vec::new();
    for _ in 0..12 {
        let code = match style {
            Style::Plain => solidity::code(random, plain(functions, bytes)),
            Style::Calls => layered(random, functions),
        };
        // Towards nineteen twentieths of what is wanted.
        functions = (functions * bytes * 19 / (20 * code.len().max(1))).max(1);
        if code.len() <= bytes && code.len() > best.len() {
            best = code;
        }
        if best.len() * 10 >= bytes * 9 {
            break;
        }
    }
    best
}

fn plain(functions: usize, bytes: usize) -> Shape {
    Shape {
        entries: (functions / 3).clamp(1, 120),
        functions,
        statements: 5,
        width: if bytes <= 256 { 1 } else { 2 },
        odd: 0,
        zeros: 0,
    }
}

/// Of a hundred functions, those of each layer; one calls only the next layer's.
const LAYERS: [usize; 5] = [30, 25, 20, 15, 10];

fn layered(random: &mut Random, functions: usize) -> Vec<u8> {
    let mut asm = Assembler::new(2);
    let layers = LAYERS.map(|share| {
        let count = (functions * share).div_ceil(100);
        (0..count).map(|_| asm.label()).collect::<Vec<Label>>()
    });
    dispatch(random, &mut asm, (functions / 5).clamp(1, 120), &layers[0]);
    for (at, layer) in layers.iter().enumerate() {
        let next: &[Label] = layers.get(at + 1).map_or(&[], Vec::as_slice);
        for function in layer {
            asm.land(*function);
            body(random, &mut asm, next);
            asm.op(0x56);
        }
    }
    asm.finish()
}

/// A selector's test for each entry; each entry calls functions of the first layer and stops.
fn dispatch(random: &mut Random, asm: &mut Assembler, entries: usize, first: &[Label]) {
    let bodies: Vec<Label> = (0..entries).map(|_| asm.label()).collect();
    asm.ops(&[0x5f, 0x35, 0x60, 0xe0, 0x1c]);
    for entry in &bodies {
        asm.op(0x80);
        asm.push(u64::from(random.word() as u32 | 0x0100_0000));
        asm.op(0x14);
        asm.jump_if(*entry);
    }
    asm.ops(&[0x5f, 0x80, 0xfd]);
    for entry in bodies {
        asm.land(entry);
        body(random, asm, first);
        asm.op(0x00);
    }
}

/// One to three calls, with words of its own between them, and a check at times.
fn body(random: &mut Random, asm: &mut Assembler, callees: &[Label]) {
    for _ in 0..random.between(1, 3) {
        let words = random.below(3);
        (0..words).for_each(|_| asm.op(random.pick(&[0x30, 0x33, 0x34, 0x5f])));
        if !callees.is_empty() {
            let back = asm.label();
            asm.push_label(back);
            asm.jump(random.pick(callees));
            asm.land(back);
        }
        if random.percent(25) {
            let fine = asm.label();
            asm.op(0x34);
            asm.jump_if(fine);
            asm.ops(&[0x5f, 0x80, 0xfd]);
            asm.land(fine);
        }
        (0..words).for_each(|_| asm.op(0x50));
    }
}

#[cfg(test)]
mod tests {
    use super::{Style, sized};
    use crate::Random;

    #[test]
    fn contracts_are_about_as_long_as_asked() {
        let mut random = Random::new(3);
        for bytes in [200, 1_000, 6_000, 24_576] {
            for style in [Style::Plain, Style::Calls] {
                let length = sized(&mut random, bytes, style).len();
                let near = length <= bytes && length * 10 >= bytes * 8;
                assert!(near, "{length} of {bytes}");
            }
        }
    }
}
