//! `aznifrem`: maps of EVM contracts from files and folders, and what moved between two of them.

mod archive;
mod args;
mod commands;
mod completions;
mod contracts;
mod diff;
mod files;
mod follow;
mod fresh;
mod given;
mod help;
mod input;
mod inspect;
mod jobs;
mod json;
mod limit;
mod man;
mod mappers;
mod maps;
mod names;
mod nights;
mod outcome;
mod patterns;
mod print;
mod progress;
mod refused;
mod report;
mod salvage;
mod show;
mod store;
mod stored;
mod summary;
mod system;
mod table;
mod unpack;
mod verdicts;
mod windows;
mod work;

use std::io::{self, BufWriter, ErrorKind, Write};
use std::process::ExitCode;

use args::{Asked, Misunderstood};
use outcome::{Outcome, tell};
use table::{Command, Stop};

fn main() -> ExitCode {
    let outcome = match args::parse(std::env::args_os().skip(1)) {
        Ok(asked) => run(asked),
        Err(Misunderstood { command, sentence }) => misunderstood(command, &sentence),
    };
    ExitCode::from(outcome as u8)
}

fn run(asked: Asked) -> Outcome {
    let command = match &asked {
        Asked::Run(given) => Some(given.command),
        _ => None,
    };
    let mut out = BufWriter::new(io::stdout().lock());
    let outcome = carried_out(asked, &mut out);
    let outcome = outcome.and_then(|outcome| Ok(out.flush().map(|()| outcome)?));
    match outcome {
        Ok(outcome) => outcome,
        Err(Stop::Asked(sentence)) => misunderstood(command, &sentence),
        // If who reads has closed the pipe, there is nobody to tell.
        Err(Stop::Output(error)) if error.kind() == ErrorKind::BrokenPipe => Outcome::Wrong,
        Err(Stop::Output(error)) => {
            tell(&format!("aznifrem: cannot write the output: {error}"));
            Outcome::Wrong
        }
    }
}

fn carried_out(asked: Asked, out: &mut dyn Write) -> Result<Outcome, Stop> {
    match asked {
        Asked::Help(None) => out.write_all(help::program().as_bytes())?,
        Asked::Help(Some(command)) => out.write_all(help::command(command).as_bytes())?,
        Asked::Version => writeln!(out, "aznifrem {}", env!("CARGO_PKG_VERSION"))?,
        Asked::Run(given) => return (given.command.run)(&given, out),
    }
    Ok(Outcome::Fine)
}

/// Says what is not understood, and where its text is.
fn misunderstood(command: Option<&Command>, sentence: &str) -> Outcome {
    let named = command.filter(|command| command.name != table::DEFAULT);
    let name = named.map_or(String::new(), |command| format!(" {}", command.name));
    tell(&format!(
        "aznifrem: {sentence}\nTry 'aznifrem{name} --help'."
    ));
    Outcome::Wrong
}
