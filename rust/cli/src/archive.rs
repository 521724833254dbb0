//! `aznifrem archive FOLDER OUT`: the stored maps of a folder, one after another in one file.

use std::fs;
use std::io::Write;
use std::path::Path;

use crate::files::{Kind, beneath};
use crate::fresh::Fresh;
use crate::names::shown;
use crate::outcome::{Outcome, tell};
use crate::refused::unfinished;
use crate::stored;
use crate::table::{Command, Operand, Stop};

pub const COMMAND: Command = Command {
    name: "archive",
    says: "Put the stored maps of a folder one after another into a new file",
    operands: &[Operand::path("FOLDER"), Operand::path("OUT")],
    takes: "archive takes a folder of stored maps and a new file, FOLDER and OUT",
    groups: &[],
    notes: &[
        "Every file beneath the folder is taken that ends in .map, by name; the names are not kept. Each has to read whole: where one does not, it is told and no archive is made. OUT is written beside its place as OUT.part, and has its name once it is whole. A file that is there already is not overwritten.",
    ],
    exits: &[
        (0, "the archive is made"),
        (1, "a map is unreadable, or there is none"),
        (
            2,
            "the folder is not there, its night is unfinished, or OUT cannot be written or lies in it",
        ),
    ],
    examples: &[("A night's maps", "aznifrem archive tonight tonight.maps")],
    run: |given, out| {
        given.without_dash()?;
        let [folder, to] = &given.operands[..] else {
            return Err(Stop::Asked(COMMAND.takes.into()));
        };
        run(folder, to, out)
    },
};

fn run(folder: &Path, to: &Path, out: &mut dyn Write) -> Result<Outcome, Stop> {
    if let Some(sentence) = unfit(folder, to) {
        return Ok(wrong(&sentence));
    }
    let found = beneath(folder, Kind::Maps);
    let mut faults = found.faults;
    if found.files.is_empty() && faults.is_empty() {
        let sentence = "no map is in it; a map's file ends in .map";
        faults.push(format!("{}: {sentence}", shown(folder)));
    }
    let mut archive = match Fresh::at(to) {
        Ok(archive) => archive,
        Err(sentence) => return Ok(wrong(&sentence)),
    };
    let mut bytes = 0;
    for map in &found.files {
        match stored::read(&map.path) {
            Ok(stored) => {
                if let Err(sentence) = archive.write(&stored.bytes) {
                    return Ok(wrong(&sentence));
                }
                bytes += stored.bytes.len() as u64;
            }
            Err(sentence) => faults.push(sentence),
        }
    }
    if !faults.is_empty() {
        faults.iter().for_each(|sentence| tell(sentence));
        return Ok(Outcome::Found);
    }
    if let Err(sentence) = archive.keep() {
        return Ok(wrong(&sentence));
    }
    writeln!(out, "maps: {}, bytes: {bytes}", found.files.len())?;
    Ok(Outcome::Fine)
}

/// Why no archive is made of this folder there.
fn unfit(folder: &Path, to: &Path) -> Option<String> {
    if let Err(error) = fs::metadata(folder) {
        return Some(stored::unreadable(folder, &error));
    }
    unfinished(folder).or_else(|| within(folder, to))
}

/// An archive among the maps would be taken for one of them the next time.
fn within(folder: &Path, to: &Path) -> Option<String> {
    let parent = to.parent().filter(|parent| !parent.as_os_str().is_empty());
    let parent = fs::canonicalize(parent.unwrap_or(Path::new("."))).ok()?;
    let inside = parent.starts_with(fs::canonicalize(folder).ok()?);
    let sentence = "lies in the folder that is archived: give a file outside of it";
    inside.then(|| format!("{}: {sentence}", shown(to)))
}

fn wrong(sentence: &str) -> Outcome {
    tell(sentence);
    Outcome::Wrong
}
