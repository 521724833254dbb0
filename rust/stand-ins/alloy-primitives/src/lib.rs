//! Stands in for the crate `alloy-primitives`: only `hex::encode`.

pub mod hex {
    use std::fmt::Write;

    /// Lower-case hexadecimal digits, two a byte.
    pub fn encode(data: impl AsRef<[u8]>) -> String {
        data.as_ref().iter().fold(String::new(), |mut text, byte| {
            write!(text, "{byte:02x}").expect("a string takes every write");
            text
        })
    }
}
