//! What a call is given at the most, and the length from which the entries have other kinds.

/// "1 now means over 49,152" (document 02, No. 10).
pub const LONGEST_CODE: usize = 49_152;
/// "Code over 24,576 bytes writes kinds 10, 11 and 12 in place of 7, 8 and 9."
pub const LONGEST_DEPLOYED: usize = 24_576;
/// "an energy limit of 0 to 500,000".
pub const HIGHEST_LIMIT: u64 = 500_000;
