//! Rows and figures for machines.

use std::fmt::Write;

use crate::facts::{Face, Leads};
use crate::rows::Row;
use crate::totals::Totals;

/// A list of rows.
pub fn rows_json(rows: &[Row]) -> String {
    let rows: Vec<String> = rows.iter().map(row).collect();
    format!("[{}]", rows.join(","))
}

/// The figures of a map.
pub fn totals_json(totals: &Totals) -> String {
    let Totals {
        bytes,
        blocks,
        dynamic,
        unresolved,
        records,
        energy,
    } = totals;
    format!(
        r#"{{"bytes":{bytes},"blocks":{blocks},"dynamic":{dynamic},"unresolved":{unresolved},"records":{records},"energy":{energy}}}"#
    )
}

/// A text in JSON's quotes.
pub fn quoted(text: &str) -> String {
    let mut quoted = String::from('"');
    for letter in text.chars() {
        match letter {
            '"' => quoted.push_str("\\\""),
            '\\' => quoted.push_str("\\\\"),
            control if control < ' ' => {
                // Writing to a String does not fail.
                let _ = write!(quoted, "\\u{:04x}", u32::from(control));
            }
            other => quoted.push(other),
        }
    }
    quoted.push('"');
    quoted
}

fn row(row: &Row) -> String {
    let (name, rest) = match row {
        Row::BlockCame(after) => ("block came", format!(r#""after":{}"#, face(after))),
        Row::BlockWent(before) => ("block went", format!(r#""before":{}"#, face(before))),
        Row::BlockChanged { before, after } => (
            "block changed",
            format!(r#""before":{},"after":{}"#, face(before), face(after)),
        ),
        Row::JumpCame { block, jump } => {
            let came = format!(r#""after":{}"#, place(jump.to));
            ("jump came", way(*block, &jump.path, &came))
        }
        Row::JumpWent { block, jump } => {
            let went = format!(r#""before":{}"#, place(jump.to));
            ("jump went", way(*block, &jump.path, &went))
        }
        Row::JumpMoved {
            block,
            path,
            before,
            after,
        } => ("jump moved", way(*block, path, &moved(*before, *after))),
        Row::OrderWithin { block } => ("paths changed their order", format!(r#""block":{block}"#)),
        Row::OrderBetween => {
            return r#"{"row":"the record changed its order between blocks"}"#.into();
        }
        Row::List {
            block,
            before,
            after,
        } => {
            let rest = format!(r#""block":{block},{}"#, moved(*before, *after));
            ("list of paths changed", rest)
        }
        Row::Instructions { start, end } => {
            let rest = format!(r#""start":{start},"end":{end}"#);
            ("instructions changed", rest)
        }
    };
    format!(r#"{{"row":"{name}",{rest}}}"#)
}

fn way(block: usize, path: &[usize], rest: &str) -> String {
    let path: Vec<String> = path.iter().map(usize::to_string).collect();
    format!(r#""block":{block},"path":[{}],{rest}"#, path.join(","))
}

fn moved(before: Option<usize>, after: Option<usize>) -> String {
    format!(r#""before":{},"after":{}"#, place(before), place(after))
}

fn face(face: &Face) -> String {
    let Face { start, end, leads } = face;
    let rest = match leads {
        Leads::Terminate { success } => format!(r#""type":"Terminate","success":{success}"#),
        Leads::Jump { to } => format!(r#""type":"Jump","to":{to}"#),
        Leads::Merged => r#""type":"Jump","merged":true"#.into(),
        Leads::Jumpi { true_to, false_to } => {
            format!(r#""type":"Jumpi","true_to":{true_to},"false_to":{false_to}"#)
        }
        Leads::DynamicJump => r#""type":"DynamicJump""#.into(),
        Leads::DynamicJumpi { false_to } => {
            format!(r#""type":"DynamicJumpi","false_to":{false_to}"#)
        }
    };
    format!(r#"{{"start":{start},"end":{end},{rest}}}"#)
}

fn place(to: Option<usize>) -> String {
    to.map_or("null".into(), |to| to.to_string())
}
