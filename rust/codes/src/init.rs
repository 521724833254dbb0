//! Init code, which may be twice as long as the code that it deploys: addresses beyond 24,576 and beyond 0x8000.

use crate::contract::{Style, sized};
use crate::random::Random;
use crate::woven;

/// Addresses beside those that marks and lengths have been: 24,576, 0x8000 and 49,152.
const TELLING: [usize; 11] = [
    0x5ffe, 0x5fff, 0x6000, 0x6001, 0x7ffe, 0x7fff, 0x8000, 0x8001, 0xbffd, 0xbffe, 0xbfff,
];

/// Document 01's Two callers, far away: the function at 0x9000 returns to 0x8000 and to 0x8100.
pub fn two_callers() -> Vec<u8> {
    let mut code = vec![0; 0x9002];
    // PUSH 8000, PUSH 9000, JUMP.
    code[..7].copy_from_slice(&[0x61, 0x80, 0x00, 0x61, 0x90, 0x00, 0x56]);
    // JUMPDEST, PUSH 8100, PUSH 9000, JUMP.
    let caller = [0x5b, 0x61, 0x81, 0x00, 0x61, 0x90, 0x00, 0x56];
    code[0x8000..0x8008].copy_from_slice(&caller);
    code[0x8100] = 0x5b;
    // JUMPDEST, JUMP.
    code[0x9000..].copy_from_slice(&[0x5b, 0x56]);
    code
}

/// A DynamicJumpi at 0x9000 that leads to 0x8000 from one caller and nowhere from another: 0x8000 as a real destination
/// beside a missing one.
pub fn both_marks() -> Vec<u8> {
    let mut code = vec![0; 0x9006];
    // PUSH 8000, PUSH 9000, JUMP.
    code[..7].copy_from_slice(&[0x61, 0x80, 0x00, 0x61, 0x90, 0x00, 0x56]);
    // JUMPDEST, CALLDATALOAD of 0, PUSH 9000, JUMP.
    let caller = [0x5b, 0x60, 0x00, 0x35, 0x61, 0x90, 0x00, 0x56];
    code[0x8000..0x8008].copy_from_slice(&caller);
    // JUMPDEST, PUSH 1, SWAP1, JUMPI, STOP.
    code[0x9000..].copy_from_slice(&[0x5b, 0x60, 0x01, 0x90, 0x57, 0x00]);
    code
}

/// A piece again and again, up to a length.
pub fn repeated(piece: &[u8], length: usize) -> Vec<u8> {
    piece.iter().copied().cycle().take(length).collect()
}

/// Small blocks at far places, of which most are telling ones, in a code of this length.
pub fn far(random: &mut Random, length: usize) -> Vec<u8> {
    let (blocks, steps) = (random.between(2, 8), random.between(1, 4));
    let mut places: Vec<usize> = (0..blocks)
        .map(|_| match random.percent(70) {
            true => random.pick(&TELLING),
            false => random.below(length),
        })
        .filter(|place| *place < length)
        .collect();
    places.push(random.below(length));
    places.sort_unstable();
    woven::spread(random, &places, steps, length)
}

/// As compilers make it: the constructor, the code that it deploys, and its arguments, up to this length. The addresses
/// that the deployed code pushes are its own, and so lead into the constructor.
pub fn deployer(random: &mut Random, length: usize) -> Vec<u8> {
    let (first, second) = if random.percent(50) {
        (Style::Plain, Style::Plain)
    } else {
        (Style::Calls, Style::Plain)
    };
    let mut code = sized(random, length / 2 - 32, first);
    // CODECOPY, RETURN, INVALID.
    code.extend([0x39, 0x5f, 0xf3, 0xfe]);
    code.extend(sized(random, length / 2, second));
    argued(random, code, length)
}

/// A contract of about this length, with arguments up to it.
pub fn contract(random: &mut Random, length: usize, style: Style) -> Vec<u8> {
    let code = sized(random, length, style);
    argued(random, code, length)
}

/// Words of 32 bytes behind the code, all small numbers.
fn argued(random: &mut Random, mut code: Vec<u8>, length: usize) -> Vec<u8> {
    while code.len() < length {
        code.extend([0; 31]);
        code.push(random.byte());
    }
    code.truncate(length);
    code
}

#[cfg(test)]
mod tests {
    use super::{contract, deployer, far};
    use crate::Random;
    use crate::contract::Style;

    #[test]
    fn codes_are_as_long_as_asked() {
        let mut random = Random::new(4);
        for length in [24_577, 32_768, 32_769, 49_152] {
            for _ in 0..20 {
                assert_eq!(far(&mut random, length).len(), length);
            }
            assert_eq!(deployer(&mut random, length).len(), length);
            assert_eq!(contract(&mut random, length, Style::Plain).len(), length);
        }
    }
}
