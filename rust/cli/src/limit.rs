//! `aznifrem limit`: the lowest limit that finds every jump that stored maps have found.

use std::io::{self, Write};
use std::path::{Path, PathBuf};

use crate::names::shown;
use crate::outcome::{Outcome, tell};
use crate::refused::Refused;
use crate::show::expanded;
use crate::stored;
use crate::table::{Command, Operand};

pub const COMMAND: Command = Command {
    name: "limit",
    says: "The lowest limit that finds every jump that was found, of stored maps with numbers; a folder stands for all maps in it, - for standard input",
    operands: &[Operand::paths("FILE")],
    takes: "limit takes a stored map or a folder of them, or - for standard input",
    groups: &[],
    notes: &[
        "A line has the limit and the map; with two maps or more the last line is for all of them. At that limit each map has the same jumps, found by the same paths; at any lower one at least one is missing. Paths that were searched and have no destination may be fewer, which diff tells. 0 says that no jump is found by searching.",
        "The maps are to be made with --numbers. What is no map, or has records without numbers, is told, and there is no line for all then. The last line also counts the contracts that have no map, by the list beside the maps.",
    ],
    exits: &[
        (0, "every map says its limit"),
        (1, "one does not, or is unreadable"),
        (
            2,
            "a night is unfinished, or its refused.jsonl is unreadable",
        ),
    ],
    examples: &[(
        "What limit a branch needs",
        "aznifrem --numbers --to tonight contracts && aznifrem limit tonight",
    )],
    run: |given, mut out| Ok(run(&given.operands, &mut out)?),
};

fn run(inputs: &[PathBuf], out: &mut impl Write) -> io::Result<Outcome> {
    let refused = match refused(inputs) {
        Ok(refused) => refused,
        Err(sentences) => {
            sentences.iter().for_each(|sentence| tell(sentence));
            return Ok(Outcome::Wrong);
        }
    };
    let mut outcome = Outcome::Fine;
    let mut limits = Vec::new();
    for input in inputs {
        let (files, faults) = expanded(input);
        let found = files.iter().map(|file| limit(file));
        for limit in found.chain(faults.into_iter().map(Err)) {
            match limit {
                Ok((limit, name)) => {
                    writeln!(out, "{limit} {name}")?;
                    limits.push(limit);
                }
                Err(sentence) => {
                    out.flush()?;
                    tell(&sentence);
                    outcome = Outcome::Found;
                }
            }
        }
    }
    let whole = outcome == Outcome::Fine && limits.len() + refused > 1;
    if let (Some(highest), true) = (limits.iter().max(), whole) {
        let without = match refused {
            0 => String::new(),
            more => format!("; {more} more have no map"),
        };
        writeln!(out, "{highest} for all of {}{without}", limits.len())?;
    }
    Ok(outcome)
}

/// How many contracts have no map, by the lists of the folders; or a sentence for each half night: a limit without the
/// rest would mislead.
fn refused(inputs: &[PathBuf]) -> Result<usize, Vec<String>> {
    let folders = inputs.iter().filter(|input| input.is_dir());
    let of = |folder: &PathBuf| Refused::of_folder(Path::new(folder));
    let (lists, sentences): (Vec<_>, Vec<_>) = folders.map(of).partition(Result::is_ok);
    let sentences: Vec<String> = sentences.into_iter().filter_map(Result::err).collect();
    if sentences.is_empty() {
        let names = |list: Refused| list.names().count();
        return Ok(lists.into_iter().flatten().map(names).sum());
    }
    Err(sentences)
}

/// The limit of a map and its name, or a sentence that says why there is none.
fn limit(file: &PathBuf) -> Result<(u32, String), String> {
    let name = shown(file);
    let limit = stored::read(file)?.map.lowest_limit();
    let limit = limit
        .ok_or_else(|| format!("{name}: its records have no numbers: make it with --numbers"))?;
    Ok((limit, name))
}
