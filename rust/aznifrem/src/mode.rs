//! The modes of a run.

/// What a run knows of the word that PUSH0 puts on the stack.
#[derive(Clone, Copy, Debug, Default, PartialEq, Eq)]
pub enum Mode {
    /// Nothing, as evmole.
    #[default]
    Plain,
    /// That it is 0, so that sums with it are known and it can be jumped to. Static jumps stay those
    /// behind PUSH1 to PUSH4.
    KnownZero,
}

impl Mode {
    /// The library's number for it.
    ///
    /// ```
    /// assert_eq!([aznifrem::Mode::Plain, aznifrem::Mode::KnownZero].map(aznifrem::Mode::number), [0, 1]);
    /// ```
    pub fn number(self) -> u64 {
        match self {
            Mode::Plain => 0,
            Mode::KnownZero => 1,
        }
    }
}
