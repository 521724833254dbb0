//! `aznifrem unpack ARCHIVE FOLDER`: each map of an archive as a file of its own.

use std::fs;
use std::path::Path;

use aznifrem::Salvaged;

use crate::files::{Kind, beneath};
use crate::fresh::Fresh;
use crate::names::shown;
use crate::outcome::{Outcome, tell};
use crate::refused::unfinished;
use crate::salvage::{opened, print, window};
use crate::store::Store;
use crate::table::{Command, Group, Of, Operand, Opt, Stop, Times, Value};
use crate::windows;

pub const COMMAND: Command = Command {
    name: "unpack",
    says: "Take an archive apart: each of its maps as a file in a folder",
    operands: &[
        Operand::path("ARCHIVE"),
        Operand {
            name: "FOLDER",
            of: Of::Folder,
            times: Times::Once,
        },
    ],
    takes: "unpack takes an archive and a folder, ARCHIVE and FOLDER",
    groups: &[Group {
        heading: "Options",
        options: &[Opt::with(
            "--window",
            Value::word("BYTES"),
            "bytes that are read at a time, 1 to 1099511627776 (default 16777216); a map that is larger is read whole all the same",
        )],
    }],
    notes: &[
        "The maps are named by their place, 00000001.map and so on. They are those that salvage copies, and the lines that it prints are printed: of a damaged archive those before the first that does not read whole. A folder that holds a .map file already is refused. Where the archive stops being readable midway, or a map cannot be written, the files that were made stay. Until the end, and where it does not come to that, unfinished.txt stands in the folder, so that report, archive and diff do not take it for the whole archive.",
    ],
    exits: &[
        (0, "every map is there"),
        (1, "something was dropped"),
        (2, "the archive is unreadable, or a map cannot be written"),
    ],
    examples: &[("One by one", "aznifrem unpack saved.maps saved")],
    run: |given, out| {
        given.without_dash()?;
        let window = window(given)?;
        let [archive, folder] = &given.operands[..] else {
            return Err(Stop::Asked(COMMAND.takes.into()));
        };
        match unpacked(archive, folder, window) {
            Ok(salvaged) => Ok(print(archive, &salvaged, out)?),
            Err(sentence) => {
                tell(&sentence);
                Ok(Outcome::Wrong)
            }
        }
    },
};

fn unpacked(archive: &Path, folder: &Path, window: usize) -> Result<Salvaged, String> {
    let mut input = opened(archive)?;
    let made = fs::create_dir_all(folder);
    made.map_err(|error| format!("{}: cannot be made: {error}", shown(folder)))?;
    if let Some(map) = beneath(folder, Kind::Maps).files.first() {
        return Err(format!(
            "{}: holds maps already, as {}: give a fresh folder",
            shown(folder),
            shown(&map.name)
        ));
    }
    if let Some(sentence) = unfinished(folder) {
        return Err(sentence);
    }
    let store = Store {
        folder: folder.into(),
    };
    store.mark()?;
    let mut count = 0;
    let salvaged = windows::salvage(&shown(archive), &mut input, window, |maps| {
        apart(maps).try_for_each(|map| {
            count += 1;
            let mut file = Fresh::at(&folder.join(format!("{count:08}.map")))?;
            file.write(map)?;
            file.keep()
        })
    })?;
    store.unmark()?;
    Ok(salvaged)
}

/// The maps of bytes that read whole: each begins with a head, and has no other.
fn apart(mut bytes: &[u8]) -> impl Iterator<Item = &[u8]> {
    std::iter::from_fn(move || {
        let mut end = windows::entry(bytes, 0)?.1;
        while let Some((kind, next)) = windows::entry(bytes, end) {
            if kind == windows::HEAD {
                break;
            }
            end = next;
        }
        let (map, behind) = bytes.split_at(end);
        bytes = behind;
        Some(map)
    })
}
