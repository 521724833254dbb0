//! What a path means, from outside: an interpreter of the stack effects of the EVM, written from the Yellow Paper and the EIPs
//! of the later instructions, runs the blocks that a record names and looks at what the last jump pops.
//!
//! [`word`], [`stack`] and [`machine`] are the Yellow Paper's: they know no symbol and no block of a map. A run of [`machine`] ends
//! with a jump, a halt or the next JUMPDEST, and shows [`mask`] each instruction. [`mask`] has document 02's premise, by document
//! 01's sentences. [`path`] runs a record; [`trials`] runs the records of generated codes.

pub mod machine;
pub mod mask;
pub mod path;
pub mod stack;
pub mod trials;
pub mod word;

pub use path::{Seen, Wrong, check};
pub use trials::{
    Source, Tally, library, library_known_zero, model, model_known_zero, trials, trials_in,
};
pub use word::Word;
