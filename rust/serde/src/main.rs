//! What serde makes of the unchanged Rust's blocks: reads codes, hexadecimal and one a line, writes
//! `code text` for each. `tests/make-json-list` runs it.

// Evmole's files, byte for byte, where the oracle has them, with their feature `serde` on.
#![allow(dead_code, unused_imports, unexpected_cfgs)]

#[rustfmt::skip]
#[path = "../../oracle/src/collections.rs"]
mod collections;
#[rustfmt::skip]
#[path = "../../oracle/src/control_flow_graph/mod.rs"]
mod control_flow_graph;
#[rustfmt::skip]
#[path = "../../oracle/src/evm/mod.rs"]
mod evm;
#[rustfmt::skip]
#[path = "../../oracle/src/serialize.rs"]
mod serialize;

use std::io::{self, Write};

use control_flow_graph::{ControlFlowGraph, basic_blocks, control_flow_graph};

// What `serialize.rs` names beside blocks; nothing here makes any of it.
pub type Selector = [u8; 4];
pub type Slot = [u8; 32];
pub struct DynSolType;
pub struct StateMutability;

impl DynSolType {
    pub fn sol_type_name(&self) -> &'static str {
        unreachable!("no arguments are serialized")
    }
}

impl StateMutability {
    pub fn as_json_str(&self) -> &'static str {
        unreachable!("no mutability is serialized")
    }
}

fn main() -> io::Result<()> {
    let mut out = io::stdout().lock();
    for line in io::stdin().lines() {
        let line = line?;
        let code = if line == "-" {
            Vec::new()
        } else {
            bytes(&line)
        };
        writeln!(out, "{line} {}", text(&code))?;
    }
    out.flush()
}

fn bytes(line: &str) -> Vec<u8> {
    let byte = |at| u8::from_str_radix(&line[at..at + 2], 16);
    let bytes: Result<Vec<u8>, _> = (0..line.len()).step_by(2).map(byte).collect();
    bytes.expect("a line is '-' or hexadecimal bytes")
}

/// The value of `blocks` in the object that serde makes of evmole's graph.
fn text(code: &[u8]) -> String {
    let graph: ControlFlowGraph = control_flow_graph(code, basic_blocks(code));
    let object = serde_json::to_string(&graph).expect("a graph is serialized to a string");
    let blocks = object.strip_prefix("{\"blocks\":");
    let blocks = blocks.and_then(|rest| rest.strip_suffix('}'));
    blocks.expect("a graph is an object of its blocks").into()
}
