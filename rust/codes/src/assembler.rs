//! Code with labels: a label is pushed before it is known where it stands.

/// Code in the making; a pushed label's bytes are filled in at the end.
pub struct Assembler {
    code: Vec<u8>,
    width: usize,
    zeros: usize,
    values: usize,
    places: Vec<Option<usize>>,
    pushes: Vec<(usize, Label)>,
}

#[derive(Clone, Copy, Debug, PartialEq, Eq)]
pub struct Label(usize);

impl Assembler {
    /// Labels are pushed in this many bytes.
    pub fn new(width: usize) -> Assembler {
        Assembler {
            code: Vec::new(),
            width,
            zeros: 0,
            values: 0,
            places: Vec::new(),
            pushes: Vec::new(),
        }
    }

    /// Each so many-th label that is pushed as a value is written as its sum with PUSH0; 0: none is.
    pub fn summing(self, zeros: usize) -> Assembler {
        Assembler { zeros, ..self }
    }

    pub fn length(&self) -> usize {
        self.code.len()
    }

    pub fn label(&mut self) -> Label {
        self.places.push(None);
        Label(self.places.len() - 1)
    }

    pub fn op(&mut self, byte: u8) {
        self.code.push(byte);
    }

    pub fn ops(&mut self, bytes: &[u8]) {
        self.code.extend(bytes);
    }

    /// This byte up to a place, if the code does not reach it yet.
    pub fn fill(&mut self, to: usize, byte: u8) {
        if self.code.len() < to {
            self.code.resize(to, byte);
        }
    }

    /// PUSHk of a number, in the fewest bytes.
    pub fn push(&mut self, value: u64) {
        let width = (8 - value.leading_zeros() as usize / 8).max(1);
        self.code.push(0x5f + width as u8);
        self.code.extend(&value.to_be_bytes()[8 - width..]);
    }

    /// A label as a value: a return address, or a function that is passed on.
    pub fn push_label(&mut self, label: Label) {
        self.put_label(label);
        self.values += 1;
        if self.zeros != 0 && self.values.is_multiple_of(self.zeros) {
            self.ops(&[0x5f, 0x01]);
        }
    }

    fn put_label(&mut self, label: Label) {
        self.code.push(0x5f + self.width as u8);
        self.pushes.push((self.code.len(), label));
        self.code.extend(std::iter::repeat_n(0, self.width));
    }

    /// A JUMPDEST, where the label then stands.
    pub fn land(&mut self, label: Label) {
        self.places[label.0] = Some(self.code.len());
        self.code.push(0x5b);
    }

    pub fn jump(&mut self, label: Label) {
        self.put_label(label);
        self.op(0x56);
    }

    pub fn jump_if(&mut self, label: Label) {
        self.put_label(label);
        self.op(0x57);
    }

    /// The code; a label that stands nowhere, or too far for its width, is pushed cut short.
    pub fn finish(mut self) -> Vec<u8> {
        for (at, label) in &self.pushes {
            let place = self.places[label.0].unwrap_or(0) as u64;
            let bytes = &place.to_be_bytes()[8 - self.width..];
            self.code[*at..at + self.width].copy_from_slice(bytes);
        }
        self.code
    }
}
