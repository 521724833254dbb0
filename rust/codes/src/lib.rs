//! Codes to hold two answers against each other: exhaustive, random and Solidity-like, by seed.

pub mod assembler;
pub mod contract;
pub mod corners;
pub mod exhaustive;
pub mod hostile;
pub mod init;
pub mod random;
pub mod solidity;
pub mod sum;
pub mod worst;
pub mod woven;

pub use random::Random;

/// The code that a hexadecimal text spells, or a sentence that says what is wrong with it.
pub fn from_hex(text: &str) -> Result<Vec<u8>, String> {
    if !text.is_ascii() || !text.len().is_multiple_of(2) {
        return Err(format!(
            "'{text}' is not an even number of hexadecimal digits"
        ));
    }
    let byte = |at: usize| u8::from_str_radix(&text[at..at + 2], 16);
    let bytes: Result<Vec<u8>, _> = (0..text.len()).step_by(2).map(byte).collect();
    bytes.map_err(|_| format!("'{text}' has a character that is no hexadecimal digit"))
}

/// Lower-case hexadecimal digits, two a byte.
pub fn to_hex(bytes: &[u8]) -> String {
    bytes.iter().map(|byte| format!("{byte:02x}")).collect()
}

/// FNV-1a of 64 bits, which stands for the bytes of an answer in `tests/sessions.list`.
pub fn checksum(bytes: &[u8]) -> u64 {
    bytes.iter().fold(0xcbf2_9ce4_8422_2325, |sum, byte| {
        (sum ^ u64::from(*byte)).wrapping_mul(0x0100_0000_01b3)
    })
}
