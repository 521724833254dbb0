//! What a command is: one entry of the table. Parsing, help, completions and the man page are made of it.

use std::io::{self, Write};

use crate::given::Given;
use crate::outcome::Outcome;

/// A command, as its file says it.
pub struct Command {
    pub name: &'static str,
    /// What it does, as one line without a full stop.
    pub says: &'static str,
    pub operands: &'static [Operand],
    /// What it says where the operands are too few or too many.
    pub takes: &'static str,
    pub groups: &'static [Group],
    /// Paragraphs below the options.
    pub notes: &'static [&'static str],
    /// Each exit that it has, with what it means.
    pub exits: &'static [(u8, &'static str)],
    /// What it is for, and the words to type.
    pub examples: &'static [(&'static str, &'static str)],
    pub run: fn(&Given, &mut dyn Write) -> Result<Outcome, Stop>,
}

/// Options that belong together, below a heading.
pub struct Group {
    pub heading: &'static str,
    pub options: &'static [Opt],
}

/// An option; one that has a value takes it from the next word, or after '='.
pub struct Opt {
    pub name: &'static str,
    pub value: Option<Value>,
    pub says: &'static str,
}

/// What stands after an option.
pub struct Value {
    pub name: &'static str,
    pub of: Of,
}

/// What a value or an operand may be; shells complete it so.
#[derive(Clone, Copy, Debug, PartialEq, Eq)]
pub enum Of {
    /// A number, a pattern: nothing to complete.
    Word,
    /// A file, or a folder.
    Path,
    Folder,
    Among(&'static [&'static str]),
}

pub struct Operand {
    pub name: &'static str,
    pub of: Of,
    pub times: Times,
}

/// How often an operand stands; only the last of a command's may be other than once.
#[derive(Clone, Copy, Debug, PartialEq, Eq)]
pub enum Times {
    Once,
    AtMostOnce,
    OnceOrMore,
}

/// Why a command stops before its end.
pub enum Stop {
    /// It is asked wrongly; the sentence says how.
    Asked(String),
    /// The output cannot be written.
    Output(io::Error),
}

impl From<io::Error> for Stop {
    fn from(error: io::Error) -> Stop {
        Stop::Output(error)
    }
}

impl Opt {
    pub const fn flag(name: &'static str, says: &'static str) -> Opt {
        let value = None;
        Opt { name, value, says }
    }

    pub const fn with(name: &'static str, value: Value, says: &'static str) -> Opt {
        let value = Some(value);
        Opt { name, value, says }
    }

    /// The option as it is typed.
    pub fn typed(&self) -> String {
        match &self.value {
            Some(value) => format!("{} {}", self.name, value.name),
            None => self.name.into(),
        }
    }
}

impl Value {
    pub const fn word(name: &'static str) -> Value {
        let of = Of::Word;
        Value { name, of }
    }

    pub const fn folder(name: &'static str) -> Value {
        let of = Of::Folder;
        Value { name, of }
    }
}

impl Operand {
    pub const fn path(name: &'static str) -> Operand {
        let (of, times) = (Of::Path, Times::Once);
        Operand { name, of, times }
    }

    pub const fn paths(name: &'static str) -> Operand {
        let (of, times) = (Of::Path, Times::OnceOrMore);
        Operand { name, of, times }
    }

    /// The operand as a line of use has it.
    pub fn typed(&self) -> String {
        match self.times {
            Times::Once => self.name.into(),
            Times::AtMostOnce => format!("[{}]", self.name),
            Times::OnceOrMore => format!("{}...", self.name),
        }
    }
}

impl Command {
    /// Its options, those of every command last.
    pub fn options(&self) -> impl Iterator<Item = &'static Opt> {
        let groups = self.groups.iter().flat_map(|group| group.options);
        groups.chain(EVERYWHERE)
    }

    pub fn option(&self, name: &str) -> Option<&'static Opt> {
        self.options().find(|option| option.name == name)
    }

    /// Whether so many operands are right.
    pub fn fits(&self, count: usize) -> bool {
        let more = |operand: &Operand| operand.times == Times::OnceOrMore;
        let least = |operand: &&Operand| operand.times != Times::AtMostOnce;
        let least = self.operands.iter().filter(least).count();
        count >= least && (count <= self.operands.len() || self.operands.iter().any(more))
    }

    /// Its line of use, after the program's name.
    pub fn usage(&self) -> String {
        let name = if self.name == DEFAULT {
            format!("[{DEFAULT}]")
        } else {
            self.name.into()
        };
        let options = (!self.groups.is_empty()).then(|| "[OPTIONS]".into());
        let operands = self.operands.iter().map(Operand::typed);
        let words: Vec<String> = [name].into_iter().chain(options).chain(operands).collect();
        words.join(" ")
    }
}

/// The command that is meant where none is named.
pub const DEFAULT: &str = "map";

/// Options that every command has.
pub const EVERYWHERE: &[Opt] = &[
    Opt::flag("--help", "this text, and exit; -h for short"),
    Opt::flag("--version", "the version, and exit; -V for short"),
];
