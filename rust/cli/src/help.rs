//! The texts of --help, of the table.

use std::fmt::Write;

use crate::commands;
use crate::names::shown;
use crate::outcome::Outcome;
use crate::table::{Command, EVERYWHERE, Of, Operand, Opt, Stop, Times};

pub const COMMAND: Command = Command {
    name: "help",
    says: "The text of --help, of the program or of a command",
    operands: &[Operand {
        name: "COMMAND",
        of: Of::Word,
        times: Times::AtMostOnce,
    }],
    takes: "help takes a command",
    groups: &[],
    notes: &[],
    exits: &[(0, "it is printed")],
    examples: &[],
    run: |given, out| {
        let text = match given.operands.first() {
            None => program(),
            Some(name) => {
                let named = name.to_str().and_then(commands::named);
                let unknown = || format!("there is no command '{}'", shown(name));
                command(named.ok_or_else(|| Stop::Asked(unknown()))?)
            }
        };
        out.write_all(text.as_bytes())?;
        Ok(Outcome::Fine)
    },
};

const WIDTH: usize = 80;
pub const INTRODUCTION: &str = "aznifrem draws the control-flow map of an EVM contract: its blocks, its \
    jumps, and the paths by which its dynamic jumps were resolved.";
/// Exits that every command has, whatever else it has.
const ALWAYS: &str = "the command is not understood or the output cannot be written";

/// The program's text: its commands, and all of the one that is meant where none is named.
pub fn program() -> String {
    let mut text = filled(INTRODUCTION, 0);
    text.push_str("\nCommands:\n");
    let lines: Vec<(String, &str)> = (commands::ALL.iter())
        .map(|command| (format!("aznifrem {}", command.usage()), command.says))
        .collect();
    for (usage, says) in lines {
        let _ = writeln!(text, "  {usage}");
        text.push_str(&filled(says, 6));
    }
    let own = "Each has its own text: aznifrem COMMAND --help. What follows is map's.";
    let _ = write!(text, "\n{}", filled(own, 0));
    body(&mut text, commands::default());
    text
}

/// The text of one command.
pub fn command(command: &Command) -> String {
    let mut text = format!("aznifrem {}\n\n", command.usage());
    text.push_str(&filled(&format!("{}.", command.says), 0));
    body(&mut text, command);
    text
}

fn body(text: &mut String, command: &Command) {
    for group in command.groups {
        let _ = writeln!(text, "\n{}:", group.heading);
        group.options.iter().for_each(|one| option(text, one));
    }
    text.push_str("\nAlways:\n");
    EVERYWHERE.iter().for_each(|one| option(text, one));
    if !command.operands.is_empty() {
        let rest = Opt::flag("--", "what follows is no option, whatever it begins with");
        option(text, &rest);
    }
    for note in command.notes {
        let _ = write!(text, "\n{}", filled(note, 0));
    }
    text.push_str("\nExit:\n");
    for (number, says) in exits(command) {
        let _ = writeln!(text, "  {number}  {}", filled(&says, 5).trim());
    }
    for (what, typed) in command.examples {
        let _ = writeln!(text, "\n{what}:\n  {typed}");
    }
}

/// Each exit of a command with its sentence.
pub fn exits(command: &Command) -> Vec<(u8, String)> {
    let own = command.exits.iter();
    let mut exits: Vec<(u8, String)> = own
        .map(|(number, says)| (*number, (*says).into()))
        .collect();
    match exits.iter_mut().find(|(number, _)| *number == 2) {
        Some((_, says)) => *says = format!("{says}; or {ALWAYS}"),
        None => exits.push((2, ALWAYS.into())),
    }
    exits
}

fn option(text: &mut String, option: &Opt) {
    let typed = option.typed();
    let says = filled(option.says, 20);
    if typed.len() > 16 {
        let _ = write!(text, "  {typed}\n{says}");
    } else {
        let _ = writeln!(text, "  {typed:<18}{}", says.trim());
    }
}

/// A paragraph in lines that fit, each this far from the left.
pub fn filled(paragraph: &str, left: usize) -> String {
    let mut text = String::new();
    let mut line = String::new();
    for word in paragraph.split_whitespace() {
        if !line.is_empty() && left + line.len() + 1 + word.len() > WIDTH {
            let _ = writeln!(text, "{:left$}{line}", "");
            line.clear();
        }
        if !line.is_empty() {
            line.push(' ');
        }
        line.push_str(word);
    }
    let _ = writeln!(text, "{:left$}{line}", "");
    text
}
