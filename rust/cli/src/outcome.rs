//! What a run comes to, and what it says on the way.

use std::io::{self, Write};

/// What a run comes to; the numbers are the exit's.
#[derive(Clone, Copy, Debug, PartialEq, Eq, PartialOrd, Ord)]
pub enum Outcome {
    /// Everything is mapped or shown, or nothing moved.
    Fine = 0,
    /// A code was refused or unreadable, a file holds no map to show, or something moved.
    Found = 1,
    /// Asked wrongly, a map to compare is unreadable, or the output cannot be written.
    Wrong = 2,
}

/// A line on standard error; if nobody can read it, that is no reason to stop.
pub fn tell(line: &str) {
    let _ = writeln!(io::stderr(), "{line}");
}
