//! Codes as Solidity makes them: a dispatcher, functions that call each other, loops, branches.

use crate::assembler::{Assembler, Label};
use crate::random::Random;

/// How much of everything a code has.
#[derive(Clone, Copy, Debug)]
pub struct Shape {
    pub entries: usize,
    pub functions: usize,
    pub statements: usize,
    /// Bytes of a pushed label: 1 for codes up to 256 bytes, else 2.
    pub width: usize,
    /// Of a hundred statements, those that do something a compiler would not.
    pub odd: usize,
    /// Each so many-th address that is pushed as a value is a sum with PUSH0; 0: none is.
    pub zeros: usize,
}

impl Shape {
    /// A code of 10 to 150 bytes.
    pub fn small(random: &mut Random) -> Shape {
        Shape {
            entries: random.between(0, 2),
            functions: random.between(1, 3),
            statements: random.between(1, 3),
            width: 1,
            odd: random.pick(&[0, 10, 30]),
            zeros: 0,
        }
    }

    /// A code of some hundred bytes.
    pub fn middle(random: &mut Random) -> Shape {
        Shape {
            entries: random.between(1, 6),
            functions: random.between(2, 8),
            statements: random.between(1, 5),
            width: 2,
            odd: random.pick(&[0, 5, 15]),
            zeros: 0,
        }
    }

    /// A code of some thousand bytes.
    pub fn large(random: &mut Random) -> Shape {
        Shape {
            entries: random.between(8, 40),
            functions: random.between(10, 80),
            statements: random.between(4, 10),
            width: 2,
            odd: random.pick(&[0, 0, 1]),
            zeros: 0,
        }
    }
}

struct Writer<'a> {
    asm: Assembler,
    random: &'a mut Random,
    shape: Shape,
    functions: Vec<Label>,
    /// Words of its own that the function in hand has above its return address.
    depth: usize,
}

/// A code of this shape.
pub fn code(random: &mut Random, shape: Shape) -> Vec<u8> {
    let mut asm = Assembler::new(shape.width).summing(shape.zeros);
    let functions: Vec<Label> = (0..shape.functions).map(|_| asm.label()).collect();
    let mut writer = Writer {
        asm,
        random,
        shape,
        functions,
        depth: 0,
    };
    writer.dispatcher();
    for at in 0..shape.functions {
        writer.function(at);
    }
    writer.asm.finish()
}

impl Writer<'_> {
    /// The selector is compared with each entry's; each entry's body calls and ends.
    fn dispatcher(&mut self) {
        let bodies: Vec<Label> = (0..self.shape.entries).map(|_| self.asm.label()).collect();
        if !bodies.is_empty() {
            self.asm.ops(&[0x5f, 0x35, 0x60, 0xe0, 0x1c]);
        }
        for body in &bodies {
            self.asm.op(0x80);
            let selector = self.random.word() as u32 | 0x0100_0000;
            self.asm.push(u64::from(selector));
            self.asm.op(0x14);
            self.asm.jump_if(*body);
        }
        if bodies.is_empty() || self.random.percent(30) {
            self.statement(0);
        }
        self.end();
        for body in bodies {
            self.asm.land(body);
            self.statement(0);
            self.end();
        }
    }

    fn end(&mut self) {
        match self.random.below(5) {
            0 | 1 => self.asm.op(0x00),
            2 => self.asm.ops(&[0x5f, 0x5f, 0xf3]),
            3 => self.asm.ops(&[0x5f, 0x80, 0xfd]),
            _ => self.asm.op(0xfe),
        }
    }

    /// Entered with the return address under no words of its own, and left by a jump to it.
    fn function(&mut self, at: usize) {
        let entry = self.functions[at];
        self.asm.land(entry);
        self.depth = 0;
        let count = self.random.between(1, self.shape.statements);
        for _ in 0..count {
            self.statement(at + 1);
        }
        self.leave();
    }

    fn leave(&mut self) {
        match self.random.below(8) {
            // A value is given back under the return address.
            0 | 1 if self.depth > 0 => {
                let under = self.depth.min(16) as u8;
                self.asm.op(0x8f + under);
                self.depth -= 1;
            }
            2 => self.asm.ops(&[0x63, 0xff, 0xff, 0xff, 0xff, 0x16]),
            _ => {}
        }
        for _ in 0..self.depth {
            self.asm.op(0x50);
        }
        if self.random.percent(6) {
            // The condition lies under the address: a dynamic JUMPI.
            self.asm.ops(&[0x30, 0x90, 0x57]);
            self.end();
        } else {
            self.asm.op(0x56);
        }
    }

    /// Something that leaves the words of its own known in number; may call from `from` on.
    fn statement(&mut self, from: usize) {
        if self.random.percent(self.shape.odd) {
            return self.odd();
        }
        match self.random.below(10) {
            0..=3 => self.call(from),
            4 => self.branch(from),
            5 => self.turn_around(),
            6 => self.word(),
            7 => self.check(),
            8 => self.asm.ops(&[0x30, 0x5f, 0x52]),
            _ => self.asm.ops(&[0x33, 0x54, 0x50]),
        }
    }

    /// PUSH ret, PUSH f, JUMP, JUMPDEST; mostly of a later function, so that most calls end.
    fn call(&mut self, from: usize) {
        let count = self.functions.len();
        let first = if self.random.percent(8) {
            0
        } else {
            from.min(count)
        };
        if first >= count {
            return self.word();
        }
        let callee = self.functions[self.random.between(first, count - 1)];
        let back = self.asm.label();
        self.asm.push_label(back);
        match self.random.below(6) {
            // A function pointer, masked.
            0 => {
                self.asm.push_label(callee);
                self.asm.ops(&[0x63, 0xff, 0xff, 0xff, 0xff, 0x16, 0x56]);
            }
            // An address that is a sum.
            1 => {
                self.asm.push_label(callee);
                self.asm.ops(&[0x60, 0x00, 0x01, 0x56]);
            }
            _ => self.asm.jump(callee),
        }
        self.asm.land(back);
    }

    fn branch(&mut self, from: usize) {
        let (other, join) = (self.asm.label(), self.asm.label());
        self.asm.op(0x30);
        self.asm.jump_if(other);
        if self.random.percent(50) {
            self.call(from);
        }
        if self.random.percent(50) {
            self.asm.jump(join);
        } else {
            self.end();
        }
        self.asm.land(other);
        if self.random.percent(30) {
            self.call(from);
        }
        self.asm.land(join);
    }

    /// A loop that counts.
    fn turn_around(&mut self) {
        let (head, out) = (self.asm.label(), self.asm.label());
        self.asm.op(0x5f);
        self.asm.land(head);
        self.asm.ops(&[0x80, 0x36, 0x10, 0x15]);
        self.asm.jump_if(out);
        self.asm.ops(&[0x60, 0x01, 0x01]);
        self.asm.jump(head);
        self.asm.land(out);
        self.asm.op(0x50);
    }

    fn word(&mut self) {
        match self.random.below(4) {
            0 => self.asm.op(0x30),
            1 => self.asm.ops(&[0x60, 0x2a]),
            2 if self.depth > 0 => self.asm.op(0x80),
            _ => self.asm.op(0x5f),
        }
        self.depth += 1;
    }

    fn check(&mut self) {
        let fine = self.asm.label();
        self.asm.op(0x34);
        self.asm.jump_if(fine);
        self.asm.ops(&[0x5f, 0x80, 0xfd]);
        self.asm.land(fine);
    }

    /// What no compiler writes: stray stack moves, jumps that read them, unknown bytes.
    fn odd(&mut self) {
        const ODD: [&[u8]; 12] = [
            &[0x90],
            &[0x80],
            &[0x81, 0x50],
            &[0x90, 0x50],
            &[0x91],
            &[0x58, 0x01],
            &[0x5b],
            &[0x80, 0x57],
            &[0x30, 0x81, 0x57],
            &[0x64, 0, 0, 0, 0, 3, 0x50],
            &[0x60, 0x5b, 0x50],
            &[0x0c],
        ];
        let bytes = self.random.pick(&ODD);
        self.asm.ops(bytes);
    }
}
