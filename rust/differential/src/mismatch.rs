//! What a check finds.

/// What differs, in a sentence; two of one kind have the same cause, more likely than not.
#[derive(Clone, Debug, PartialEq, Eq)]
pub struct Mismatch {
    pub kind: &'static str,
    pub sentence: String,
}

/// The same, in fewer words.
pub fn mismatch(kind: &'static str, sentence: String) -> Mismatch {
    Mismatch { kind, sentence }
}

/// Where the bytes of two answers part.
pub fn different(ours: &[u8], expected: &[u8]) -> String {
    let same = ours.iter().zip(expected).take_while(|(a, b)| a == b);
    format!(
        "byte {} of the answer is not the model's: {} against {}",
        same.count(),
        codes::to_hex(ours),
        codes::to_hex(expected)
    )
}
