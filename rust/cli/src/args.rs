//! What the words of the command line ask for, by the table.

use std::ffi::{OsStr, OsString};
use std::os::unix::ffi::OsStrExt;
use std::path::PathBuf;

use crate::commands;
use crate::given::Given;
use crate::table::{Command, Opt};

pub enum Asked {
    /// The text of one command, or of the program.
    Help(Option<&'static Command>),
    Version,
    Run(Given),
}

/// A sentence that says what is not understood, and the command that it is about, if one is named.
pub struct Misunderstood {
    pub command: Option<&'static Command>,
    pub sentence: String,
}

pub fn parse(words: impl Iterator<Item = OsString>) -> Result<Asked, Misunderstood> {
    let mut words = words.peekable();
    let named = words.peek().and_then(|word| word.to_str());
    let named = named.and_then(commands::named);
    let command = named.unwrap_or_else(commands::default);
    let words = words.skip(usize::from(named.is_some()));
    let asked = of_command(command, named, words);
    let asked = asked.and_then(|asked| {
        if named.is_none() {
            meant(asked)
        } else {
            Ok(asked)
        }
    });
    asked.map_err(|sentence| Misunderstood {
        command: named,
        sentence,
    })
}

/// The first word may be a command's name, mistyped.
fn meant(asked: Asked) -> Result<Asked, String> {
    let Asked::Run(Given { operands, .. }) = &asked else {
        return Ok(asked);
    };
    let first = operands
        .first()
        .filter(|first| first.symlink_metadata().is_err());
    let first = first.and_then(|first| first.to_str());
    let near = |command: &&Command| first.is_some_and(|first| steps(first, command.name) == 1);
    match (first, commands::ALL.iter().find(near)) {
        (Some(first), Some(command)) => {
            let name = command.name;
            Err(format!(
                "'{first}' is no file and no command: is {name} meant?"
            ))
        }
        _ => Ok(asked),
    }
}

fn of_command(
    command: &'static Command,
    named: Option<&'static Command>,
    mut words: impl Iterator<Item = OsString>,
) -> Result<Asked, String> {
    let mut given = Given {
        command,
        options: Vec::new(),
        operands: Vec::new(),
    };
    while let Some(word) = words.next() {
        match word.as_bytes() {
            b"--help" | b"-h" => return Ok(Asked::Help(named)),
            b"--version" | b"-V" => return Ok(Asked::Version),
            b"--" => given.operands.extend(words.by_ref().map(PathBuf::from)),
            [b'-', _, ..] => given.options.push(option(command, &word, &mut words)?),
            _ => given.operands.push(word.into()),
        }
    }
    let inputs = given.operands.iter().filter(|word| *word == "-").count();
    if given
        .operands
        .iter()
        .any(|word| word.as_os_str().is_empty())
    {
        return Err("the name of a file or folder is empty".into());
    }
    if inputs > 1 {
        return Err(format!(
            "- is standard input, which can be read once, and stands {inputs} times"
        ));
    }
    match given.operands.len() {
        count if command.fits(count) => Ok(Asked::Run(given)),
        0 => Err(command.takes.into()),
        1 => Err(format!("{}, and one word is given", command.takes)),
        count => Err(format!("{}, and {count} words are given", command.takes)),
    }
}

/// One option of the table; its value is the next word, or stands after '='.
fn option(
    command: &'static Command,
    word: &OsStr,
    words: &mut impl Iterator<Item = OsString>,
) -> Result<(&'static str, Option<OsString>), String> {
    let mut parts = word.as_bytes().splitn(2, |byte| *byte == b'=');
    let name = parts.next().map(OsStr::from_bytes).unwrap_or_default();
    let joined = parts.next().map(|value| OsStr::from_bytes(value).into());
    let option = name.to_str().and_then(|name| command.option(name));
    let option = option.ok_or_else(|| unknown(command, name))?;
    match (&option.value, joined) {
        (None, None) => Ok((option.name, None)),
        (None, Some(_)) => Err(format!("{} takes no value", option.name)),
        (Some(_), Some(value)) => Ok((option.name, Some(value))),
        (Some(_), None) => match words.next() {
            Some(value) => Ok((option.name, Some(value))),
            None => Err(format!("{} needs a value after it", option.name)),
        },
    }
}

/// What is no option, and the one that may be meant.
fn unknown(command: &Command, name: &OsStr) -> String {
    let name = name.to_string_lossy();
    let nearest = command
        .options()
        .map(|option| (steps(&name, option.name), option));
    let meant = nearest.min_by_key(|(steps, _)| *steps);
    let meant = meant.filter(|(steps, _)| *steps <= 2);
    let meant = meant.map_or(String::new(), |(_, Opt { name, .. })| {
        format!(": is {name} meant?")
    });
    let of = if command.name == crate::table::DEFAULT {
        String::new()
    } else {
        format!(" of {}", command.name)
    };
    format!("'{}' is no option{of}{meant}", name.escape_debug())
}

/// How many letters are to be put in, taken away or changed to make one word of the other.
fn steps(one: &str, other: &str) -> usize {
    let other: Vec<char> = other.chars().collect();
    let mut row: Vec<usize> = (0..=other.len()).collect();
    for (at, letter) in one.chars().enumerate() {
        let mut corner = row[0];
        row[0] = at + 1;
        for place in 0..other.len() {
            let changed = corner + usize::from(other[place] != letter);
            corner = row[place + 1];
            row[place + 1] = changed.min(corner + 1).min(row[place] + 1);
        }
    }
    row[other.len()]
}

#[cfg(test)]
mod tests {
    use super::steps;

    #[test]
    fn words_are_as_far_apart_as_their_letters() {
        let given = [
            ("--limt", "--limit"),
            ("", "ab"),
            ("abc", "abc"),
            ("abc", "axd"),
        ];
        let counts = given.map(|(one, other)| steps(one, other));
        assert_eq!(counts, [1, 2, 0, 2]);
    }
}
