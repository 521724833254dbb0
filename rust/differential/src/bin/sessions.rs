//! `sessions`: the calls of `tests/sessions.list`, of the proved library. "a program runs the rest and the differential set"

use std::path::Path;
use std::process::ExitCode;

use codes::Random;
use differential::check_session;

const HELP: &str = "\
sessions: makes the calls of tests/sessions.list of the proved library, and holds each to its line.

Exit: 0 if all are as the list has them, 1 if one is not, 2 if the command is not understood.
";

/// A list that says less is a fault of the list.
const FEWEST: usize = 4_000;

fn main() -> ExitCode {
    match std::env::args().nth(1).as_deref() {
        None => run(),
        Some("--help" | "-h") => {
            print!("{HELP}");
            ExitCode::SUCCESS
        }
        Some(word) => {
            eprintln!("sessions: '{word}' is no option\n{HELP}");
            ExitCode::from(2)
        }
    }
}

fn run() -> ExitCode {
    let list = Path::new(env!("CARGO_MANIFEST_DIR")).join("../../tests/sessions.list");
    let text = match std::fs::read_to_string(&list) {
        Ok(text) if text.lines().count() >= FEWEST => text,
        Ok(_) => {
            eprintln!("sessions: the list has fewer than {FEWEST} calls");
            return ExitCode::FAILURE;
        }
        Err(error) => {
            eprintln!("sessions: cannot read the list: {error}");
            return ExitCode::FAILURE;
        }
    };
    let mut random = Random::new(33);
    let (mut passed, mut failed) = (0, 0);
    for (at, line) in text.lines().enumerate() {
        match check_session(aznifrem::call, line, &mut random) {
            Ok(()) => passed += 1,
            Err(sentence) => {
                failed += 1;
                println!("sessions: line {}: {sentence}", at + 1);
            }
        }
    }
    println!("{passed} passed, {failed} failed");
    ExitCode::from(u8::from(failed != 0))
}
