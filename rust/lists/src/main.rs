//! `lists [--check]`: writes `tests/answers.list`, `tests/rust.list`, `tests/source.list`,
//! `tests/sessions.list` and `tests/rooms.list`, the same bytes each time; with `--check` it writes nothing and fails if a
//! file holds anything else.

mod answers;
mod maps;
mod sessions;
mod source;
mod summary;

use std::fs;
use std::path::{Path, PathBuf};
use std::process::ExitCode;

fn main() -> ExitCode {
    let check = match std::env::args().skip(1).collect::<Vec<_>>()[..] {
        [] => false,
        [ref word] if word == "--check" => true,
        _ => {
            eprintln!("usage: lists [--check]");
            return ExitCode::from(2);
        }
    };
    match run(check) {
        Ok(()) => ExitCode::SUCCESS,
        Err(sentence) => {
            eprintln!("lists: {sentence}");
            ExitCode::FAILURE
        }
    }
}

fn run(check: bool) -> Result<(), String> {
    let answers = answers::lines();
    let taken = answers.iter().map(|line| line.code.clone()).collect();
    let maps = maps::lines(taken);
    let texts: Vec<String> = answers.iter().map(answers::Line::text).collect();
    settle(check, "tests/answers.list", &texts)?;
    println!("{}", summary::of_answers(&answers));
    let texts: Vec<String> = maps.iter().map(|code| maps::text(code)).collect();
    settle(check, "tests/rust.list", &texts)?;
    println!("{}", summary::of_maps(&maps));
    let source = source::lines();
    let texts: Vec<String> = source.iter().map(|code| source::text(code)).collect();
    settle(check, "tests/source.list", &texts)?;
    let most = source.iter().map(|code| answers::energy(code)).max();
    println!(
        "source: {} codes, energy at most {}",
        source.len(),
        most.unwrap_or(0)
    );
    let sessions = sessions::lines();
    let texts: Vec<String> = sessions.iter().map(sessions::text).collect();
    settle(check, "tests/sessions.list", &texts)?;
    println!("{}", summary::of_sessions(&sessions));
    let rooms = rooms(&answers, &sessions);
    let texts: Vec<String> = rooms.iter().map(|line| line.text()).collect();
    settle(check, "tests/rooms.list", &texts)?;
    println!("rooms: {} calls", rooms.len());
    Ok(())
}

/// Calls of `tests/sessions.list` on short codes that `tests/answers.list` does not have: with it more than
/// a thousand whose numbers the definitions give.
fn rooms<'a>(answers: &[answers::Line], sessions: &'a [answers::Line]) -> Vec<&'a answers::Line> {
    let known: std::collections::HashSet<String> = answers.iter().map(|line| line.text()).collect();
    let short = sessions
        .iter()
        .filter(|line| line.code.len() <= 40 && answers::energy(&line.code) <= 600);
    let new: Vec<_> = short.filter(|line| !known.contains(&line.text())).collect();
    let step = (new.len() / 400).max(1);
    new.into_iter().step_by(step).take(400).collect()
}

/// The repository that this program was built in.
fn folder() -> PathBuf {
    Path::new(env!("CARGO_MANIFEST_DIR")).join("../..")
}

/// Writes the lines to the file, or compares them with it.
fn settle(check: bool, name: &str, lines: &[String]) -> Result<(), String> {
    let path = folder().join(name);
    let text: String = lines.iter().map(|line| format!("{line}\n")).collect();
    if !check {
        return fs::write(&path, text).map_err(|e| format!("cannot write {name}: {e}"));
    }
    let there = fs::read_to_string(&path).map_err(|e| format!("cannot read {name}: {e}"))?;
    if there == text {
        return Ok(());
    }
    let same = there
        .lines()
        .zip(lines)
        .take_while(|(old, new)| old == new)
        .count();
    Err(format!(
        "{name} is not what would be written, from line {} on",
        same + 1
    ))
}
