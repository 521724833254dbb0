//! The Rust that decides the map: evmole's files, byte for byte, on stand-ins for its crates.
//!
//! Only this file, `evm/mod.rs` and `bin/` are ours; `SHA256SUMS` lists the others, and a test
//! holds them to it. NOTICE has their licence.

// The files are as published: what they do not use here is no fault of theirs.
#![allow(dead_code, unused_imports, unexpected_cfgs, rustdoc::all, clippy::all)]

// Skipped, so that `cargo fmt` leaves the files as they are.
#[rustfmt::skip]
mod collections;
#[rustfmt::skip]
pub mod control_flow_graph;
#[rustfmt::skip]
mod evm;

use control_flow_graph::Block;
use std::collections::BTreeMap;

/// The map of a code, as evmole makes it: cut, resolved, pruned.
pub fn blocks(code: &[u8]) -> BTreeMap<usize, Block> {
    let cut = control_flow_graph::basic_blocks(code);
    control_flow_graph::control_flow_graph(code, cut).blocks
}

/// What evmole knows of one opcode byte.
#[derive(Clone, Copy, Debug, PartialEq, Eq)]
pub struct Row {
    pub name: &'static str,
    pub size: usize,
    pub stack_in: usize,
    pub stack_out: usize,
    pub known: bool,
}

/// Evmole's row for each of the 256 bytes.
pub fn rows() -> [Row; 256] {
    std::array::from_fn(|byte| {
        let info = evm::op::info(byte as u8);
        Row {
            name: info.name,
            size: info.size,
            stack_in: info.stack_in,
            stack_out: info.stack_out,
            known: info.known,
        }
    })
}
