//! Faces and rows as `diff` prints them.

use std::fmt;

use aznifrem::DynamicJump;

use crate::facts::{Face, Leads};
use crate::matching::OLD;
use crate::rows::Row;

/// An address: an old one that no new one is matched with is called so.
fn at(address: usize) -> String {
    match address.checked_sub(OLD) {
        Some(old) => format!("old {old}"),
        None => address.to_string(),
    }
}

/// `13-14 Jump, merged`.
impl fmt::Display for Face {
    fn fmt(&self, f: &mut fmt::Formatter) -> fmt::Result {
        let end = self.end.checked_sub(OLD).unwrap_or(self.end);
        write!(f, "{}-{end} {}", at(self.start), self.leads)
    }
}

impl fmt::Display for Leads {
    fn fmt(&self, f: &mut fmt::Formatter) -> fmt::Result {
        match *self {
            Leads::Terminate { success: true } => f.write_str("Terminate, success"),
            Leads::Terminate { success: false } => f.write_str("Terminate, failure"),
            Leads::Jump { to } => write!(f, "Jump to {}", at(to)),
            Leads::Merged => f.write_str("Jump, merged"),
            Leads::Jumpi { true_to, false_to } => {
                write!(f, "Jumpi to {}, else to {}", at(true_to), at(false_to))
            }
            Leads::DynamicJump => f.write_str("DynamicJump"),
            Leads::DynamicJumpi { false_to } => {
                write!(f, "DynamicJumpi, else to {}", at(false_to))
            }
        }
    }
}

impl fmt::Display for Row {
    fn fmt(&self, f: &mut fmt::Formatter) -> fmt::Result {
        match self {
            Row::BlockCame(face) => write!(f, "block came: {face}"),
            Row::BlockWent(face) => write!(f, "block went: {face}"),
            Row::BlockChanged { before, after } => write!(f, "block changed: {before} -> {after}"),
            Row::JumpCame { block, jump } => write!(f, "jump came: {}", found(*block, jump)),
            Row::JumpWent { block, jump } => write!(f, "jump went: {}", found(*block, jump)),
            Row::JumpMoved {
                block,
                path,
                before,
                after,
            } => {
                let (way, before, after) = (way(*block, path), place(*before), place(*after));
                write!(f, "jump moved: {way}: {before} -> {after}")
            }
            Row::OrderWithin { block } => {
                write!(f, "paths changed their order: block {}", at(*block))
            }
            Row::OrderBetween => f.write_str("the record changed its order between blocks"),
            Row::List {
                block,
                before,
                after,
            } => {
                let (block, before, after) = (at(*block), held(*before), held(*after));
                write!(
                    f,
                    "list of paths changed: block {block}: {before} -> {after}"
                )
            }
            Row::Instructions { start, end } => {
                write!(f, "instructions changed: block {start}-{end}")
            }
        }
    }
}

fn found(block: usize, jump: &DynamicJump) -> String {
    format!("{}: {}", way(block, &jump.path), place(jump.to))
}

fn way(block: usize, path: &[usize]) -> String {
    let path: Vec<String> = path.iter().map(|block| at(*block)).collect();
    format!("block {} by path {}", at(block), path.join(", "))
}

fn place(to: Option<usize>) -> String {
    to.map_or("unknown".into(), at)
}

fn held(list: Option<usize>) -> String {
    let own = |count| format!("not as recorded, {count} paths");
    list.map_or("as recorded".into(), own)
}
