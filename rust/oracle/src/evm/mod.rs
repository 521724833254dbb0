//! Wires up evmole's two files that the map needs.

pub mod code_iterator;
pub mod op;
