//! A seeded generator of numbers, and codes made byte by byte from it.

/// Steele, Lea and Flood's SplitMix64: the same numbers from the same seed, everywhere.
#[derive(Clone, Debug)]
pub struct Random(u64);

impl Random {
    pub fn new(seed: u64) -> Random {
        Random(seed)
    }

    pub fn word(&mut self) -> u64 {
        self.0 = self.0.wrapping_add(0x9e37_79b9_7f4a_7c15);
        let mixed = (self.0 ^ (self.0 >> 30)).wrapping_mul(0xbf58_476d_1ce4_e5b9);
        let mixed = (mixed ^ (mixed >> 27)).wrapping_mul(0x94d0_49bb_1331_11eb);
        mixed ^ (mixed >> 31)
    }

    /// A number below this bound, which is not 0.
    pub fn below(&mut self, bound: usize) -> usize {
        (self.word() % bound as u64) as usize
    }

    /// A number from the first to the last, both included.
    pub fn between(&mut self, first: usize, last: usize) -> usize {
        first + self.below(last - first + 1)
    }

    /// True this many times in a hundred.
    pub fn percent(&mut self, times: usize) -> bool {
        self.below(100) < times
    }

    pub fn pick<T: Copy>(&mut self, choices: &[T]) -> T {
        choices[self.below(choices.len())]
    }

    pub fn byte(&mut self) -> u8 {
        self.word() as u8
    }
}

/// Bytes of every value, those that are no instruction seldom.
pub fn noise(random: &mut Random, length: usize) -> Vec<u8> {
    (0..length).map(|_| likely(random)).collect()
}

fn likely(random: &mut Random) -> u8 {
    let byte = random.byte();
    let gap =
        matches!(byte, 0x0c..=0x0f | 0x1f | 0x21..=0x2f | 0x4b..=0x4f | 0xa5..=0xef | 0xf6..=0xfc);
    if gap && random.percent(97) {
        likely(random)
    } else {
        byte
    }
}

/// Instructions that move stacks and jump, with pushed values that are often addresses.
pub fn jumpy(random: &mut Random, length: usize) -> Vec<u8> {
    const PLAIN: [u8; 28] = [
        0x56, 0x56, 0x56, 0x56, 0x57, 0x57, 0x57, 0x5b, 0x5b, 0x5b, 0x5b, 0x5b, 0x50, 0x80, 0x81,
        0x82, 0x90, 0x91, 0x92, 0x30, 0x01, 0x16, 0x15, 0x58, 0x5f, 0x52, 0x00, 0xfd,
    ];
    let mut code = Vec::new();
    while code.len() < length {
        match random.below(100) {
            0..=39 => push(random, &mut code, length),
            40..=95 => code.push(random.pick(&PLAIN)),
            96 => code.push(random.pick(&[0x0c, 0xef, 0x1f, 0x1e, 0xf1, 0x5e, 0xa4])),
            97 => code.push(random.pick(&[0x8f, 0x9f, 0x87, 0x97])),
            98 => code.extend([0x63, 0xff, 0xff, 0xff, 0xff, 0x16]),
            _ => code.push(random.byte()),
        }
    }
    code.truncate(length);
    aim(random, &mut code);
    code
}

/// PUSH1 mostly, of an address of the code, at times PUSH2, PUSH4 or PUSH5.
fn push(random: &mut Random, code: &mut Vec<u8>, length: usize) {
    let width = random.pick(&[1, 1, 1, 1, 1, 1, 2, 2, 3, 4, 5]);
    let value = random.below(length + 2) as u64;
    code.push(0x5f + width as u8);
    code.extend(&value.to_be_bytes()[8 - width..]);
}

/// Turns most of the values that PUSH1 pushes into addresses of a JUMPDEST.
fn aim(random: &mut Random, code: &mut [u8]) {
    let aims: Vec<u8> = (0..code.len().min(256))
        .filter(|at| code[*at] == 0x5b)
        .map(|at| at as u8)
        .collect();
    let mut at = 0;
    while at + 1 < code.len() {
        let byte = code[at];
        if byte == 0x60 && !aims.is_empty() && random.percent(75) {
            code[at + 1] = random.pick(&aims);
        }
        at += if (0x60..=0x7f).contains(&byte) {
            usize::from(byte - 0x5e)
        } else {
            1
        };
    }
}

/// A code near this one: a byte changed, put in, taken out, or a part said twice.
pub fn mutant(random: &mut Random, code: &[u8]) -> Vec<u8> {
    let mut near = code.to_vec();
    for _ in 0..random.between(1, 3) {
        let at = random.below(near.len() + 1);
        let byte = telling(random, near.len());
        match random.below(4) {
            0 if at < near.len() => near[at] = byte,
            1 if at < near.len() => drop(near.remove(at)),
            2 => {
                let end = random.between(at, near.len());
                near.splice(at..at, code_part(&near, at, end));
            }
            _ => near.insert(at, byte),
        }
    }
    near
}

fn code_part(code: &[u8], from: usize, to: usize) -> Vec<u8> {
    code[from..to.min(from + 12)].to_vec()
}

/// A byte that a map notices: a jump, a stack move, or an address.
fn telling(random: &mut Random, length: usize) -> u8 {
    const TELLING: [u8; 18] = [
        0x56, 0x57, 0x5b, 0x5b, 0x60, 0x60, 0x80, 0x81, 0x90, 0x91, 0x50, 0x30, 0x01, 0x16, 0x58,
        0x00, 0x0c, 0xfe,
    ];
    if random.percent(40) {
        random.below(length + 2).min(255) as u8
    } else {
        random.pick(&TELLING)
    }
}
