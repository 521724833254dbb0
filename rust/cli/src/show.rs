//! `aznifrem show`: stored maps, read back.

use std::io::{self, Write};
use std::path::{Path, PathBuf};

use crate::files::{Kind, beneath};
use crate::names::shown;
use crate::outcome::{Outcome, tell};
use crate::print::{Print, json, lines, titled};
use crate::stored;
use crate::summary;
use crate::table::{Command, Group, Operand, Opt};

pub const COMMAND: Command = Command {
    name: "show",
    says: "Stored maps, read back; a folder stands for all maps in it, - for standard input",
    operands: &[Operand::paths("FILE")],
    takes: "show takes a stored map or a folder of them, or - for standard input",
    groups: &[Group {
        heading: "What comes out (the first is the default)",
        options: &[
            Opt::flag("--summary", "the map for a reader"),
            Opt::flag("--lines", "its entries, as hexadecimal digits, a line each"),
            Opt::flag(
                "--json",
                "its blocks as JSON, on a line; with two maps or more, a line is an object with path and blocks",
            ),
            Opt::flag("--dot", "its blocks and jumps for Graphviz, to be drawn"),
        ],
    }],
    notes: &[
        "What is no map is told, with the place of its first bad entry and what is wrong there.",
        "Of a folder every file is taken that ends in .map, also those that begin with a dot and those behind links.",
    ],
    exits: &[
        (0, "every file holds a map"),
        (1, "one does not, or is unreadable"),
    ],
    examples: &[("A stored map", "aznifrem show tonight/token.hex.map")],
    run: |given, mut out| {
        let print = Print::asked(given).unwrap_or(Print::Summary);
        Ok(run(&given.operands, print, &mut out)?)
    },
};

fn run(inputs: &[PathBuf], print: Print, out: &mut impl Write) -> io::Result<Outcome> {
    let mut outcome = Outcome::Fine;
    let mut maps = Vec::new();
    for input in inputs {
        let (files, faults) = expanded(input);
        for sentence in faults {
            tell(&sentence);
            outcome = Outcome::Found;
        }
        maps.extend(files);
    }
    for path in &maps {
        let title = shown(path);
        match stored::read(path) {
            Ok(stored) => {
                let many = maps.len() > 1;
                let text = match print {
                    Print::Summary => summary::text(&title, &stored.map),
                    Print::Dot => draw::dot(&title, &stored.map),
                    Print::Lines => titled(many, &title, &lines(&stored.bytes)),
                    Print::Json => json(many, &title, &stored.map.to_json()),
                };
                out.write_all(text.as_bytes())?;
            }
            Err(sentence) => {
                out.flush()?;
                tell(&sentence);
                outcome = Outcome::Found;
            }
        }
    }
    Ok(outcome)
}

/// The files that a word of the command line stands for, and a sentence for each fault.
pub fn expanded(input: &Path) -> (Vec<PathBuf>, Vec<String>) {
    if !input.is_dir() {
        return (vec![input.to_path_buf()], Vec::new());
    }
    let mut found = beneath(input, Kind::Maps);
    if found.files.is_empty() && found.faults.is_empty() {
        let sentence = format!(
            "{}: no map is in it; a map's file ends in .map",
            shown(input)
        );
        found.faults.push(sentence);
    }
    let files = found.files.into_iter().map(|map| map.path);
    (files.collect(), found.faults)
}
