//! What is checked.

use aznifrem::Lent;

/// The library's entry, or what stands in for it in a test.
pub type Port = fn(&[u8], u64, &mut Lent) -> u64;

/// The library's entry in a mode, by its number, or what stands in for it.
pub type ModePort = fn(u64, &[u8], u64, &mut Lent) -> u64;

/// The library's call that also writes the text, or what stands in for it.
pub type JsonPort = fn(&[u8], u64, &mut Lent, &mut [u8]) -> u64;

/// The library's entry with a choice and in a mode, or what stands in for it.
pub type ChoicePort = fn(u64, u64, &[u8], u64, &mut Lent) -> u64;

/// The call that also writes the text, with a choice and in a mode.
pub type JsonChoicePort = fn(u64, u64, &[u8], u64, &mut Lent, &mut [u8]) -> u64;

/// The same in a mode, by its number.
pub type JsonModePort = fn(u64, &[u8], u64, &mut Lent, &mut [u8]) -> u64;
