//! The worst cases, each in a process of its own that is stopped when its time is over.

use std::env;
use std::io::{self, BufRead, BufReader, Write};
use std::process::{Child, Command, Stdio};
use std::sync::mpsc::{self, Receiver};
use std::thread;
use std::time::{Duration, Instant};

use codes::worst;

use crate::heap::peak;
use crate::port::Rooms;
use crate::stats::{kibibytes, median, milliseconds, ratio_cell};

/// "At or below 1 on the worst cases where both answer."
const GOAL: f64 = 1.0;

const TURNS: usize = 5;

/// A family and its size.
#[derive(Clone, Copy)]
pub struct Case {
    family: &'static str,
    size: usize,
}

const fn case(family: &'static str, size: usize) -> Case {
    Case { family, size }
}

pub const CASES: [Case; 14] = [
    case("diamonds", 8),
    case("diamonds", 12),
    case("diamonds", 15),
    case("diamonds", 1_600),
    case("fan", 200),
    case("fan", 1_600),
    case("doubling", 10),
    case("doubling", 14),
    case("doubling", 20),
    case("row of calls", 3_000),
    // Of 48,000 bytes.
    case("fan", 3_200),
    case("row of calls", 6_000),
    case("sharing", 8),
    case("sharing", 12),
];

impl Case {
    fn code(&self) -> Vec<u8> {
        match self.family {
            "diamonds" => worst::diamonds(self.size),
            "fan" => worst::fan(self.size),
            "doubling" => worst::doubling(self.size),
            "sharing" => worst::sharing(self.size),
            _ => worst::row(self.size),
        }
    }

    pub fn name(&self) -> String {
        format!("{} {}", self.family, self.size)
    }
}

/// What a case may use.
#[derive(Clone, Copy)]
pub struct Bounds {
    pub time: Duration,
    /// Bytes: the ceiling of the rooms, and of the process with a quarter more.
    pub memory: usize,
}

/// What a case came to.
#[derive(Default)]
pub struct Measured {
    bytes: usize,
    call: Side,
    rust: Side,
}

/// One of the two: its times in milliseconds, its bytes, or why it has none.
#[derive(Default)]
struct Side {
    times: Vec<f64>,
    bytes: usize,
    refused: Option<String>,
}

/// Runs a case in a child, and once more for the Rust alone if the library does not answer.
pub fn measure(case: usize, bounds: Bounds) -> io::Result<Measured> {
    let mut measured = Measured {
        bytes: CASES[case].code().len(),
        ..Measured::default()
    };
    listen(&mut measured, spawn(case, "both", bounds)?, bounds.time);
    if !measured.call.answered() {
        listen(&mut measured, spawn(case, "rust", bounds)?, bounds.time);
    }
    Ok(measured)
}

/// This program again, with a bound on its memory that the system keeps.
fn spawn(case: usize, which: &str, bounds: Bounds) -> io::Result<Child> {
    let blocks = (bounds.memory + bounds.memory / 4) / 1024;
    Command::new("sh")
        .arg("-c")
        .arg(format!("ulimit -v {blocks}; exec \"$0\" \"$@\""))
        .arg(env::current_exe()?)
        .args([
            "--child",
            &case.to_string(),
            which,
            &bounds.memory.to_string(),
        ])
        .stdout(Stdio::piped())
        .stderr(Stdio::null())
        .spawn()
}

/// Takes the child's lines until it ends or its time is over; then it is stopped.
fn listen(measured: &mut Measured, mut child: Child, time: Duration) {
    let lines = lines_of(&mut child);
    let end = Instant::now() + time;
    while let Ok(line) = lines.recv_timeout(end.saturating_duration_since(Instant::now())) {
        note(measured, &line);
    }
    // A child that has ended already cannot be stopped: that is no fault.
    let _ = child.kill();
    let _ = child.wait();
}

fn lines_of(child: &mut Child) -> Receiver<String> {
    let (sender, receiver) = mpsc::channel();
    if let Some(stdout) = child.stdout.take() {
        thread::spawn(move || {
            for line in BufReader::new(stdout).lines().map_while(Result::ok) {
                if sender.send(line).is_err() {
                    return;
                }
            }
        });
    }
    receiver
}

/// A line of the child: side, what, value.
fn note(measured: &mut Measured, line: &str) {
    let mut words = line.split(' ');
    let side = match words.next() {
        Some("call") => &mut measured.call,
        Some("rust") => &mut measured.rust,
        _ => return,
    };
    match (words.next(), words.next()) {
        (Some("ms"), Some(value)) => side.times.extend(value.parse::<f64>()),
        (Some("bytes"), Some(value)) => side.bytes = value.parse().unwrap_or(0),
        (Some("refused"), Some(value)) => side.refused = Some(format!("refused {value}")),
        _ => {}
    }
}

/// The child's work: a line as soon as something is known, since it may be stopped.
pub fn child(case: usize, which: &str, ceiling: usize) {
    let code = CASES[case].code();
    let mut rooms = Rooms::new(false);
    let both = which == "both";
    if both {
        if let Err(number) = rooms.grow_for(&code, ceiling) {
            return say(&format!("call refused {number}"));
        }
        say(&format!("call bytes {}", rooms.lent(code.len())));
    }
    for turn in 0..TURNS {
        if both {
            let begun = Instant::now();
            rooms.call(&code);
            say(&format!("call ms {}", milliseconds(begun.elapsed())));
        }
        let begun = Instant::now();
        drop(oracle::blocks(&code));
        say(&format!("rust ms {}", milliseconds(begun.elapsed())));
        if turn == 0 {
            let bytes = peak(|| oracle::blocks(&code));
            say(&format!("rust bytes {bytes}"));
        }
    }
}

fn say(line: &str) {
    let mut out = io::stdout();
    // If nobody listens any more there is nothing to be done.
    let _ = writeln!(out, "{line}").and_then(|()| out.flush());
}

impl Measured {
    /// Call / Rust where both answer.
    fn ratio(&self) -> Option<f64> {
        let both = self.call.answered() && self.rust.answered();
        both.then(|| median(&self.call.times) / median(&self.rust.times))
    }

    /// The goal is missed by a ratio over it, and where the Rust alone answers.
    pub fn misses(&self) -> bool {
        match self.ratio() {
            Some(ratio) => ratio > GOAL,
            None => self.rust.answered(),
        }
    }

    /// A line of the table.
    pub fn row(&self, name: &str) -> String {
        format!(
            "| {name} | 1 | {} | {} | {} | {} | - | - | {} | {} |",
            self.bytes,
            self.call.time(),
            self.rust.time(),
            ratio_cell(self.ratio()),
            self.call.memory(),
            self.rust.memory()
        )
    }
}

impl Side {
    fn answered(&self) -> bool {
        !self.times.is_empty()
    }

    fn time(&self) -> String {
        match (&self.refused, self.answered()) {
            (Some(refused), _) => refused.clone(),
            (None, false) => "no answer".into(),
            (None, true) => format!("{:.3}", median(&self.times)),
        }
    }

    fn memory(&self) -> String {
        if self.bytes == 0 {
            "-".into()
        } else {
            kibibytes(self.bytes)
        }
    }
}

#[cfg(test)]
mod tests {
    use super::{Measured, note};

    fn of(lines: &[&str]) -> Measured {
        let mut measured = Measured::default();
        lines.iter().for_each(|line| note(&mut measured, line));
        measured
    }

    #[test]
    fn the_lines_of_a_child_make_a_row() {
        let measured = of(&[
            "call bytes 2048",
            "call ms 1",
            "rust ms 4",
            "call ms 3",
            "call ms 2",
        ]);
        assert_eq!(measured.ratio(), Some(0.5));
        assert_eq!(
            measured.row("x"),
            "| x | 1 | 0 | 2.000 | 4.000 | 0.50 | - | - | 2 | - |"
        );
    }

    #[test]
    fn a_side_without_an_answer_has_no_ratio() {
        let measured = of(&["call refused 5", "what is this"]);
        assert_eq!(measured.ratio(), None);
        assert_eq!(
            measured.row("x"),
            "| x | 1 | 0 | refused 5 | no answer | - | - | - | - | - |"
        );
    }

    #[test]
    fn a_ratio_over_the_goal_misses_it() {
        assert!(!of(&["call ms 4", "rust ms 4"]).misses());
        assert!(of(&["call ms 5", "rust ms 4"]).misses());
    }

    #[test]
    fn the_goal_is_missed_where_the_rust_alone_answers() {
        assert!(of(&["call refused 5", "rust ms 4"]).misses());
        assert!(of(&["rust ms 4"]).misses(), "too slow, or crashed");
        assert!(of(&["call bytes 2048", "rust ms 4"]).misses());
        assert!(!of(&["call ms 4"]).misses(), "the library alone answers");
        assert!(!of(&["call refused 5"]).misses(), "neither answers");
    }
}
