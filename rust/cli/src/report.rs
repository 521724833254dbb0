//! `aznifrem report`: a release of stored maps in numbers, or two of them side by side.

use std::collections::HashSet;
use std::fs;
use std::path::{Path, PathBuf};

use aznifrem::{NotReported, Report};

use crate::files::{Kind, beneath};
use crate::given::no_dash;
use crate::names::shown;
use crate::outcome::{Outcome, tell};
use crate::refused::{LIST, Refused};
use crate::stored::unreadable;
use crate::table::{Command, Group, Operand, Opt, Stop, Value};

pub const COMMAND: Command = Command {
    name: "report",
    says: "A release in numbers: all stored maps of folders added up, or two releases side by side",
    operands: &[Operand::paths("FOLDER")],
    takes: "report takes folders of stored maps, or stored maps",
    groups: &[
        Group {
            heading: "What is added up",
            options: &[Opt::with(
                "--against",
                Value::folder("FOLDER"),
                "a second release beside the first, with the change; may stand more than once",
            )],
        },
        Group {
            heading: "What comes out (a table is the default)",
            options: &[Opt::flag("--json", "the numbers as JSON, on a line")],
        },
    ],
    notes: &[
        "Of a folder every file is taken that ends in .map, also those behind links; a file counts once in a release, however many ways lead to it. What is no map is named with the place of its first bad entry, and left out.",
        "Contracts that were refused have no map: the row refused counts them, by refused.jsonl of the folders that are named, and they are in no other number.",
        "The share is that of dynamic blocks without any destination, in lowest terms.",
    ],
    exits: &[
        (0, "every map is in the report"),
        (1, "one was left out, or there is none"),
        (
            2,
            "what is named is not there, a night is unfinished, or its refused.jsonl is unreadable",
        ),
    ],
    examples: &[
        ("A release", "aznifrem report tonight"),
        ("Two of them", "aznifrem report last --against tonight"),
    ],
    run: |given, out| {
        let against: Vec<PathBuf> = given.values("--against").map(PathBuf::from).collect();
        let missing = missing(given.operands.iter().chain(&against))?;
        if !missing.is_empty() {
            missing.iter().for_each(|sentence| tell(sentence));
            return Ok(Outcome::Wrong);
        }
        let mut old = Release::of(&given.operands);
        let mut new = (!against.is_empty()).then(|| Release::of(&against));
        let text = match (given.has("--json"), &new) {
            (true, None) => format!("{}\n", old.json()),
            (true, Some(new)) => format!(
                "{{\"old\":{},\"new\":{},\"change\":{{{}}}}}\n",
                old.json(),
                new.json(),
                changes(&old, new)
            ),
            (false, None) => one(&old),
            (false, Some(new)) => two(&old, new),
        };
        out.write_all(text.as_bytes()).map_err(Stop::Output)?;
        out.flush().map_err(Stop::Output)?;
        let faults = old
            .faults
            .drain(..)
            .chain(new.iter_mut().flat_map(|new| new.faults.drain(..)));
        Ok(faults.fold(Outcome::Fine, |_, fault| {
            tell(&fault.sentence);
            Outcome::Found
        }))
    },
};

/// A sentence for each thing that is named and is not there, or is half a night: numbers without the
/// rest would mislead.
fn missing<'a>(inputs: impl Iterator<Item = &'a PathBuf>) -> Result<Vec<String>, Stop> {
    let mut missing = Vec::new();
    for input in inputs {
        no_dash("report", input)?;
        match fs::metadata(input) {
            Ok(of) if of.is_dir() => missing.extend(Refused::of_folder(input).err()),
            Ok(_) => {}
            Err(error) => missing.push(unreadable(input, &error)),
        }
    }
    Ok(missing)
}

/// A report, and what is not in it.
#[derive(Default)]
struct Release {
    report: Report,
    /// Contracts that have no map, by the lists beside the maps.
    refused: u64,
    /// The files that were met, without links, so that each counts once.
    met: HashSet<PathBuf>,
    faults: Vec<Fault>,
}

/// Why something is not in a report; a map that is none has a place.
struct Fault {
    sentence: String,
    file: String,
    offset: Option<usize>,
}

impl Release {
    fn of(inputs: &[PathBuf]) -> Release {
        let mut release = Release::default();
        for input in inputs {
            release.input(input);
        }
        release
    }

    fn input(&mut self, input: &Path) {
        if !input.is_dir() {
            return self.file(input);
        }
        self.list(input);
        let found = beneath(input, Kind::Maps);
        if found.files.is_empty() && found.faults.is_empty() {
            self.fault(input, "no map is in it; a map's file ends in .map", None);
        }
        for sentence in found.faults {
            let file = at_fault(&sentence).map_or_else(|| shown(input), String::from);
            self.faults.push(Fault {
                sentence,
                file,
                offset: None,
            });
        }
        for map in found.files {
            self.file(&map.path);
        }
    }

    /// The list of a folder, once. One that is not there, or is none, is told before.
    fn list(&mut self, folder: &Path) {
        let fresh = fs::canonicalize(folder.join(LIST)).is_ok_and(|list| self.met.insert(list));
        if let (true, Ok(refused)) = (fresh, Refused::of_folder(folder)) {
            self.refused += refused.names().count() as u64;
        }
    }

    /// One map after another; what is refused leaves the report as it was.
    fn file(&mut self, path: &Path) {
        // What has no such path cannot be read either, and is told below.
        if let Ok(real) = fs::canonicalize(path)
            && !self.met.insert(real)
        {
            return;
        }
        let bytes = match fs::read(path) {
            Ok(bytes) => bytes,
            Err(error) => {
                let (sentence, file) = (unreadable(path, &error), shown(path));
                return self.faults.push(Fault {
                    sentence,
                    file,
                    offset: None,
                });
            }
        };
        if let Err(why) = self.report.add(&bytes) {
            let (what, offset) = match &why {
                NotReported::NoMap(bad) => (
                    format!("is no stored map: {bad}; it is left out"),
                    Some(bad.offset),
                ),
                _ => (format!("{why}; the map is left out"), None),
            };
            self.fault(path, &what, offset);
        }
    }

    fn fault(&mut self, path: &Path, what: &str, offset: Option<usize>) {
        let file = shown(path);
        let sentence = format!("{file}: {what}");
        self.faults.push(Fault {
            sentence,
            file,
            offset,
        });
    }

    fn json(&self) -> String {
        let totals = totals(self.report.numbers().map(i128::from));
        let (part, whole) = self.report.share;
        let left_out: Vec<String> = self.faults.iter().map(Fault::json).collect();
        let left_out = left_out.join(",");
        let refused = self.refused;
        format!(
            "{{{totals},\"refused\":{refused},\"share\":[{part},{whole}],\"left_out\":[{left_out}]}}"
        )
    }
}

/// The path that a sentence begins with: what cannot be read beneath a folder is there all the same.
fn at_fault(sentence: &str) -> Option<&str> {
    let ends = sentence.rmatch_indices(": ");
    ends.map(|(end, _)| &sentence[..end])
        .find(|path| fs::symlink_metadata(path).is_ok())
}

/// A report's numbers but the share, or what was added to them, as members of a JSON object.
fn totals(n: [i128; 15]) -> String {
    let kinds: Vec<String> = KINDS
        .iter()
        .zip(&n[1..6])
        .map(|(kind, count)| format!("\"{kind}\":{count}"))
        .collect();
    format!(
        "\"maps\":{},\"blocks\":{{{}}},\"dynamic\":{{\"unresolved\":{},\"one\":{},\"several\":{}}},\"records\":{{\"with\":{},\"without\":{}}},\"longest_path\":{},\"energy\":{}",
        n[0],
        kinds.join(","),
        n[6],
        n[7],
        n[8],
        n[9],
        n[10],
        n[11],
        n[12]
    )
}

/// What the second has more than the first, or less.
fn changes(old: &Release, new: &Release) -> String {
    let more = |old: u64, new: u64| i128::from(new) - i128::from(old);
    let refused = more(old.refused, new.refused);
    let (old, new) = (old.report.numbers(), new.report.numbers());
    let totals = totals(std::array::from_fn(|place| more(old[place], new[place])));
    format!("{totals},\"refused\":{refused}")
}

impl Fault {
    fn json(&self) -> String {
        let offset = self
            .offset
            .map_or("null".into(), |offset| offset.to_string());
        format!(
            "{{\"file\":{},\"offset\":{offset},\"why\":{}}}",
            quoted(&self.file),
            quoted(&self.sentence)
        )
    }
}

/// A text as a JSON string.
fn quoted(text: &str) -> String {
    let mut quoted = String::from("\"");
    for letter in text.chars() {
        match letter {
            '"' | '\\' => quoted.extend(['\\', letter]),
            letter if (letter as u32) < 0x20 => {
                quoted.push_str(&format!("\\u{:04x}", letter as u32))
            }
            letter => quoted.push(letter),
        }
    }
    quoted.push('"');
    quoted
}

const KINDS: [&str; 5] = ["Terminate", "Jump", "Jumpi", "DynamicJump", "DynamicJumpi"];

/// The rows of a table: a name and its number.
fn rows(release: &Release) -> Vec<(String, u128)> {
    let report = &release.report;
    let n = report.numbers().map(u128::from);
    let mut rows = vec![
        ("maps".into(), n[0]),
        ("refused".into(), release.refused.into()),
        ("blocks".into(), report.blocks()),
    ];
    rows.extend(
        KINDS
            .iter()
            .zip(&n[1..6])
            .map(|(kind, count)| (format!("  {kind}"), *count)),
    );
    let dynamic = [
        "dynamic blocks",
        "  unresolved",
        "  with one destination",
        "  with several",
    ];
    let counts = [n[6] + n[7] + n[8], n[6], n[7], n[8]];
    rows.extend(dynamic.map(String::from).into_iter().zip(counts));
    rows.push(("records with destination".into(), n[9]));
    rows.push(("records without".into(), n[10]));
    rows.push(("longest path".into(), n[11]));
    rows.push(("energy".into(), n[12]));
    rows
}

/// A share as a bar of twenty, in percent and in lowest terms; one that is not 0 does not look so.
fn bar((part, whole): (u64, u64)) -> String {
    let of = |n: u128| u128::from(part) * n / u128::from(whole.max(1));
    let full = of(20).clamp(u128::from(part > 0), 20) as usize;
    let percent = match of(1000) {
        0 if part > 0 => "<0.1".into(),
        thousandths => format!("{}.{}", thousandths / 10, thousandths % 10),
    };
    format!(
        "[{}{}] {percent} %, {part} over {whole}",
        "#".repeat(full),
        ".".repeat(20 - full)
    )
}

fn one(release: &Release) -> String {
    let rows = rows(release);
    let wide = rows
        .iter()
        .map(|(_, n)| n.to_string().len())
        .max()
        .unwrap_or(0);
    let lines = rows
        .iter()
        .map(|(name, n)| format!("{name:<26} {n:>wide$}\n"));
    let share = format!("share unresolved           {}\n", bar(release.report.share));
    lines.chain([share]).collect()
}

/// The first, the second, and what was added or taken away.
fn two(old: &Release, new: &Release) -> String {
    let rows: Vec<[String; 4]> = rows(old)
        .into_iter()
        .zip(rows(new))
        .map(|((name, a), (_, b))| [name, a.to_string(), b.to_string(), change(a, b)])
        .collect();
    let head = ["", "old", "new", "change"].map(String::from);
    let all: Vec<[String; 4]> = [head].into_iter().chain(rows).collect();
    let wide = |column: usize| all.iter().map(|row| row[column].len()).max().unwrap_or(0);
    let (a, b, c) = (wide(1), wide(2), wide(3));
    let line = |[name, old, new, change]: &[String; 4]| {
        format!("{name:<26} {old:>a$} {new:>b$} {change:>c$}\n")
    };
    let mut text: String = all.iter().map(line).collect();
    text += &format!("share unresolved, old      {}\n", bar(old.report.share));
    text += &format!("share unresolved, new      {}\n", bar(new.report.share));
    text
}

fn change(old: u128, new: u128) -> String {
    match new.checked_sub(old) {
        Some(0) => "=".into(),
        Some(more) => format!("+{more}"),
        None => format!("-{}", old - new),
    }
}

#[cfg(test)]
mod tests {
    use super::bar;

    #[test]
    fn a_share_that_is_not_zero_does_not_look_so() {
        let bars = [(0, 1), (1, 100_000), (1, 1_000), (1, 2), (1, 1)].map(bar);
        assert_eq!(bars[0], "[....................] 0.0 %, 0 over 1");
        assert_eq!(bars[1], "[#...................] <0.1 %, 1 over 100000");
        assert_eq!(bars[2], "[#...................] 0.1 %, 1 over 1000");
        assert_eq!(bars[3], "[##########..........] 50.0 %, 1 over 2");
        assert_eq!(bars[4], "[####################] 100.0 %, 1 over 1");
    }
}
