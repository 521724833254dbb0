//! What a call is given at the most, and how it reaches the library.

/// The longest code that is mapped, in bytes: the longest init code.
pub const LONGEST_CODE: usize = 49_152;

/// The longest code that is deployed, in bytes. The map of a longer one has other [`Kinds`](crate::Kinds).
pub const LONGEST_DEPLOYED: usize = 24_576;

/// The highest energy limit; at this one the map is evmole's.
pub const HIGHEST_LIMIT: u64 = 500_000;

/// Whether calls go to the library through a relay, under an emulator, as they do where the machine
/// is not x86-64. Their times say nothing then.
pub const RELAYED: bool = cfg!(not(target_arch = "x86_64"));
