//! `aznifrem salvage ARCHIVE OUT`: the maps of an archive up to the first that does not read whole.

use std::fs::File;
use std::io::{self, Write};
use std::path::Path;

use aznifrem::Salvaged;

use crate::fresh::Fresh;
use crate::given::Given;
use crate::names::shown;
use crate::outcome::{Outcome, tell};
use crate::table::{Command, Group, Operand, Opt, Stop, Value};
use crate::windows;

pub const COMMAND: Command = Command {
    name: "salvage",
    says: "Copy the maps of a cut or damaged archive, up to the first that does not read whole",
    operands: &[Operand::path("ARCHIVE"), Operand::path("OUT")],
    takes: "salvage takes an archive and a new file, ARCHIVE and OUT",
    groups: &[Group {
        heading: "Options",
        options: &[Opt::with(
            "--window",
            Value::word("BYTES"),
            "bytes that are read at a time, 1 to 1099511627776 (default 16777216); a map that is larger is read whole all the same",
        )],
    }],
    notes: &[
        "An archive is stored maps one after another, as the command archive makes it. Four lines are printed: maps copied, bytes copied, bytes dropped, and the offset of the first bad entry; where nothing was dropped, the archive's length in place of the offset, and a fifth line that says so. That an archive is empty is told on standard error. Everything from the start of the first map on that does not read whole is dropped; the archive itself stays as it is.",
        "OUT is written beside its place as OUT.part, and has its name once it is whole. A file that is there already is not overwritten. Where the archive stops being readable midway, what was copied is thrown away, and there is no OUT.",
    ],
    exits: &[
        (0, "nothing was dropped"),
        (1, "something was"),
        (2, "the archive is unreadable, or OUT cannot be written"),
    ],
    examples: &[(
        "An archive with a missing end",
        "aznifrem salvage backup.maps saved.maps",
    )],
    run: |given, out| {
        given.without_dash()?;
        let window = window(given)?;
        let [archive, to] = &given.operands[..] else {
            return Err(Stop::Asked(COMMAND.takes.into()));
        };
        match salvaged(archive, to, window) {
            Ok(salvaged) => Ok(print(archive, &salvaged, out)?),
            Err(sentence) => {
                tell(&sentence);
                Ok(Outcome::Wrong)
            }
        }
    },
};

/// A window of more than this is no window.
const MOST: u64 = 1 << 40;

/// The window that is asked for.
pub fn window(given: &Given) -> Result<usize, Stop> {
    let bytes = given.number_within("--window", 1..=MOST)?;
    Ok(bytes.map_or(windows::WINDOW, |bytes| bytes as usize))
}

fn salvaged(archive: &Path, to: &Path, window: usize) -> Result<Salvaged, String> {
    let mut input = opened(archive)?;
    let mut out = Fresh::at(to)?;
    let keep = |maps: &[u8]| out.write(maps);
    let salvaged = windows::salvage(&shown(archive), &mut input, window, keep)?;
    out.keep()?;
    Ok(salvaged)
}

pub fn opened(archive: &Path) -> Result<File, String> {
    let file = File::open(archive);
    file.map_err(|error| windows::unreadable(&shown(archive), &error))
}

/// The four numbers; and that nothing was dropped, where nothing was. An archive without a byte is told
/// beside them: nothing is missing of it, and likely it is not what was meant.
pub fn print(archive: &Path, salvaged: &Salvaged, out: &mut dyn Write) -> io::Result<Outcome> {
    if salvaged.copied + salvaged.dropped == 0 {
        tell(&format!("{}: is empty: no map is in it", shown(archive)));
    }
    writeln!(out, "maps copied: {}", salvaged.maps)?;
    writeln!(out, "bytes copied: {}", salvaged.copied)?;
    writeln!(out, "bytes dropped: {}", salvaged.dropped)?;
    if salvaged.dropped > 0 {
        writeln!(out, "first bad entry: {}", salvaged.offset)?;
        return Ok(Outcome::Found);
    }
    writeln!(out, "archive's length: {}", salvaged.offset)?;
    writeln!(out, "nothing was dropped")?;
    Ok(Outcome::Fine)
}
