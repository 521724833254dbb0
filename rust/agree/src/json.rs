//! The text that serde makes of evmole's blocks, by a plain writer: document 02, No. 1.
//!
//! `tests/json.list` has what serde itself makes; a test holds this to it.

use std::fmt::Write;

use oracle::control_flow_graph::{Block, BlockType, DynamicJump};

/// The text of blocks, in their order.
pub fn text<'a>(blocks: impl IntoIterator<Item = &'a Block>) -> String {
    let mut out = String::new();
    list(&mut out, blocks, block);
    out
}

/// The text of blocks in the model's words.
pub fn of_model(blocks: &[model::Block]) -> String {
    let blocks: Vec<Block> = blocks.iter().map(in_rust).collect();
    text(&blocks)
}

fn list<T>(out: &mut String, items: impl IntoIterator<Item = T>, add: fn(&mut String, T)) {
    out.push('[');
    for (at, item) in items.into_iter().enumerate() {
        if at > 0 {
            out.push(',');
        }
        add(out, item);
    }
    out.push(']');
}

fn block(out: &mut String, block: &Block) {
    named(out, "{\"id\":", block.id);
    named(out, ",\"start\":", block.start);
    named(out, ",\"end\":", block.end);
    out.push_str(",\"type\":\"");
    match &block.btype {
        BlockType::Terminate { success } => {
            out.push_str("Terminate\",\"data\":{\"success\":");
            out.push_str(if *success { "true" } else { "false" });
        }
        BlockType::Jump { to } => named(out, "Jump\",\"data\":{\"to\":", *to),
        BlockType::Jumpi { true_to, false_to } => {
            named(out, "Jumpi\",\"data\":{\"true_to\":", *true_to);
            named(out, ",\"false_to\":", *false_to);
        }
        BlockType::DynamicJump { to } => {
            out.push_str("DynamicJump\",\"data\":{\"to\":");
            list(out, to, jump);
        }
        BlockType::DynamicJumpi { true_to, false_to } => {
            out.push_str("DynamicJumpi\",\"data\":{\"true_to\":");
            list(out, true_to, jump);
            named(out, ",\"false_to\":", *false_to);
        }
    }
    out.push_str("}}");
}

fn jump(out: &mut String, jump: &DynamicJump) {
    out.push_str("{\"path\":");
    list(out, &jump.path, |out, place| named(out, "", *place));
    match jump.to {
        Some(to) => named(out, ",\"to\":", to),
        None => out.push_str(",\"to\":null"),
    }
    out.push('}');
}

fn named(out: &mut String, name: &str, number: usize) {
    write!(out, "{name}{number}").expect("a string takes every write");
}

/// The model's block, in the Rust's types.
fn in_rust(block: &model::Block) -> Block {
    let jumps = |entries: &[model::Entry]| -> Vec<DynamicJump> {
        let jump = |entry: &model::Entry| DynamicJump {
            path: entry.path.clone(),
            to: entry.to,
        };
        entries.iter().map(jump).collect()
    };
    let btype = match &block.kind {
        model::Kind::Terminate { success } => BlockType::Terminate { success: *success },
        model::Kind::Jump { to } => BlockType::Jump { to: *to },
        model::Kind::Jumpi { yes, no } => BlockType::Jumpi {
            true_to: *yes,
            false_to: *no,
        },
        model::Kind::DynamicJump { entries } => BlockType::DynamicJump { to: jumps(entries) },
        model::Kind::DynamicJumpi { no, entries } => BlockType::DynamicJumpi {
            true_to: jumps(entries),
            false_to: *no,
        },
    };
    Block {
        id: block.start,
        start: block.start,
        end: block.end,
        btype,
    }
}
