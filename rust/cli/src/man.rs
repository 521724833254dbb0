//! `aznifrem man`: the manual page, of the table.

use std::fmt::Write as _;
use std::io::Write;

use crate::given::Given;
use crate::outcome::Outcome;
use crate::table::{Command, EVERYWHERE, Opt, Stop};
use crate::{commands, help};

pub const COMMAND: Command = Command {
    name: "man",
    says: "The manual page, as roff",
    operands: &[],
    takes: "man takes nothing",
    groups: &[],
    notes: &[],
    exits: &[(0, "it is printed")],
    examples: &[
        ("To read it", "aznifrem man | man -l -"),
        (
            "To keep it",
            "aznifrem man > ~/.local/share/man/man1/aznifrem.1",
        ),
    ],
    run,
};

fn run(_: &Given, out: &mut dyn Write) -> Result<Outcome, Stop> {
    out.write_all(page().as_bytes())?;
    Ok(Outcome::Fine)
}

fn page() -> String {
    let mut text = format!(
        ".TH AZNIFREM 1 \"\" \"aznifrem {}\" \"User Commands\"\n.SH NAME\naznifrem \\- control\\-flow maps of EVM contracts\n.SH SYNOPSIS\n",
        env!("CARGO_PKG_VERSION")
    );
    for command in commands::ALL {
        let _ = writeln!(text, ".B aznifrem\n{}\n.br", escaped(&command.usage()));
    }
    let _ = writeln!(text, ".SH DESCRIPTION\n{}", escaped(help::INTRODUCTION));
    for command in commands::ALL {
        section(&mut text, command);
    }
    text.push_str(".SH ALWAYS\n");
    EVERYWHERE.iter().for_each(|one| option(&mut text, one));
    text
}

fn section(text: &mut String, command: &Command) {
    let title = format!("aznifrem {}", command.name).to_uppercase();
    let says = escaped(command.says);
    let _ = writeln!(text, ".SH {}\n{says}.", escaped(&title));
    for group in command.groups {
        let _ = writeln!(text, ".SS {}", escaped(group.heading));
        group.options.iter().for_each(|one| option(text, one));
    }
    if !command.notes.is_empty() {
        text.push_str(".SS Notes\n");
    }
    for note in command.notes {
        let _ = writeln!(text, ".PP\n{}", escaped(note));
    }
    text.push_str(".SS Exit\n");
    for (number, says) in help::exits(command) {
        let _ = writeln!(text, ".TP\n.B {number}\n{}", escaped(&says));
    }
    if !command.examples.is_empty() {
        text.push_str(".SS Examples\n");
    }
    for (what, typed) in command.examples {
        let (what, typed) = (escaped(what), escaped(typed));
        let _ = writeln!(text, ".PP\n{what}:\n.PP\n.nf\n.RS\n{typed}\n.RE\n.fi");
    }
}

fn option(text: &mut String, option: &Opt) {
    let (typed, says) = (escaped(&option.typed()), escaped(option.says));
    let _ = writeln!(text, ".TP\n.B {typed}\n{says}");
}

/// A line that roff prints as it is.
fn escaped(line: &str) -> String {
    let line = line.replace('\\', "\\e").replace('-', "\\-");
    let line = line
        .replace('\'', "\\(aq")
        .replace('~', "\\(ti")
        .replace('^', "\\(ha");
    if line.starts_with('.') {
        format!("\\&{line}")
    } else {
        line
    }
}
