//! Every code of a length over an alphabet of telling bytes.

/// Jumps, stack moves, pushes, ends and an unknown byte; the low ones are addresses as well.
pub const TELLING: [u8; 19] = [
    0x00, 0x01, 0x02, 0x03, 0x0c, 0x16, 0x30, 0x50, 0x56, 0x57, 0x58, 0x5b, 0x5e, 0x5f, 0x60, 0x80,
    0x81, 0x90, 0xfe,
];

/// Fewer bytes, for longer codes: every JUMPDEST is within reach of a PUSH1 of 2, 3 or 5.
pub const JUMPS: [u8; 10] = [0x02, 0x03, 0x05, 0x30, 0x56, 0x57, 0x5b, 0x60, 0x80, 0x90];

/// Calls `seen` with each code of this length over the alphabet, and gives how many there were.
pub fn each(alphabet: &[u8], length: usize, mut seen: impl FnMut(&[u8])) -> u64 {
    let mut digits = vec![0; length];
    let mut code: Vec<u8> = vec![alphabet[0]; length];
    let mut count = 0;
    loop {
        seen(&code);
        count += 1;
        let Some(at) = digits.iter().position(|digit| *digit + 1 < alphabet.len()) else {
            return count;
        };
        digits[at] += 1;
        code[at] = alphabet[digits[at]];
        digits[..at].fill(0);
        code[..at].fill(alphabet[0]);
    }
}

#[cfg(test)]
mod tests {
    #[test]
    fn counts_every_code_once() {
        let mut all = std::collections::BTreeSet::new();
        let count = super::each(&[1, 2, 3], 4, |code| {
            all.insert(code.to_vec());
        });
        assert_eq!((count, all.len()), (81, 81));
    }
}
