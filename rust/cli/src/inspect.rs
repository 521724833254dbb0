//! `aznifrem inspect`: the path entries of a stored map, whoever made it, replayed over the code.

use std::io::Write;
use std::path::{Path, PathBuf};

use aznifrem::{Inspected, Kinds, LONGEST_CODE, Mode, WrongPath};

use crate::input::{self, Form};
use crate::names::shown;
use crate::outcome::{Outcome, tell};
use crate::stored;
use crate::table::{Command, Group, Operand, Opt, Stop};

pub const COMMAND: Command = Command {
    name: "inspect",
    says: "The paths of a stored map, whoever made it, replayed over the code: which lead where they say",
    operands: &[Operand::path("MAP"), Operand::path("CODE")],
    takes: "inspect takes a stored map and its code",
    groups: &[Group {
        heading: "Options",
        options: &[
            Opt::flag(
                "--known-zero",
                "in the mode in which PUSH0 gives the known value 0",
            ),
            Opt::flag("--hex", "the code's file holds hexadecimal digits"),
            Opt::flag("--binary", "the code's file holds the bytes themselves"),
        ],
    }],
    notes: &[
        "A path entry with a destination is right if its blocks are joined by edges of that map, start within the code, run no unknown byte, and lead to the destination. Maps of ours are accepted as they were before pruning; as answered, a path through a pruned block is not.",
        "Each that is not right is told, a 7 behind its block or a record; the destination of a 7 is an edge of the map even so.",
    ],
    exits: &[
        (0, "every path entry with a destination is right"),
        (1, "one is not"),
        (2, "map or code cannot be read"),
    ],
    examples: &[(
        "A map made by another tool",
        "aznifrem inspect theirs.map token.hex",
    )],
    run: |given, out| {
        let mode = if given.has("--known-zero") {
            Mode::KnownZero
        } else {
            Mode::Plain
        };
        run(&given.operands, Form::asked(given), mode, out)
    },
};

fn run(operands: &[PathBuf], form: Form, mode: Mode, out: &mut dyn Write) -> Result<Outcome, Stop> {
    let [map, code] = operands else {
        return Err(Stop::Asked(COMMAND.takes.into()));
    };
    let (bytes, inspected) = match inspected(map, code, form, mode) {
        Ok(found) => found,
        Err(sentence) => {
            tell(&sentence);
            return Ok(Outcome::Wrong);
        }
    };
    for wrong in &inspected.wrong {
        writeln!(out, "{}: {}", shown(map), sentence(&bytes, wrong))?;
    }
    if inspected.wrong.is_empty() {
        writeln!(
            out,
            "{}: every path entry with a destination is right",
            shown(map)
        )?;
        return Ok(Outcome::Fine);
    }
    Ok(Outcome::Found)
}

fn inspected(
    map: &Path,
    code: &Path,
    form: Form,
    mode: Mode,
) -> Result<(Vec<u8>, Inspected), String> {
    let stored = stored::read(map)?;
    let bytes =
        input::code(code, form).map_err(|sentence| format!("{}: {sentence}", shown(code)))?;
    let at_fault = if bytes.len() > LONGEST_CODE {
        code
    } else {
        map
    };
    let inspected = Inspected::of(&stored.bytes, &bytes, mode);
    let inspected = inspected.map_err(|error| format!("{}: {error}", shown(at_fault)))?;
    Ok((stored.bytes, inspected))
}

/// What is wrong with a path entry, by its kind, its destination and the block that is named.
fn sentence(map: &[u8], wrong: &WrongPath) -> String {
    let WrongPath { offset, place } = *wrong;
    let two = |at: usize| usize::from(u16::from_le_bytes([map[at], map[at + 1]]));
    let (kind, kinds) = (two(offset + 4), Kinds::of_map(map));
    let (kind, to, path) = if kind == kinds.path.into() {
        ("the path", offset + 6, offset + 12)
    } else if kind == kinds.record.into() {
        ("the record", offset + 8, offset + 14)
    } else {
        ("the record", offset + 8, offset + 18)
    };
    let count = two(path - 4) + (two(path - 2) << 16);
    let to = two(to);
    if count == 0 {
        return format!("{kind} at offset {offset}, to {to}, is not right: its path is empty");
    }
    let block = two(path + 2 * place);
    if place == 0 {
        return format!(
            "{kind} at offset {offset}, to {to}, is not right: its first block, {block}, fails, or it does not lead there"
        );
    }
    format!("{kind} at offset {offset}, to {to}, is not right at place {place}, the block {block}")
}
