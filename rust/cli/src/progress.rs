//! How far a run over many contracts is: a bar on a terminal, elsewhere a line now and then.

use std::io::{self, IsTerminal, Write};
use std::path::Path;
use std::time::{Duration, Instant};

use crate::names::shown;
use crate::outcome::tell;
use crate::system::columns;

/// A run that is over before has no bar.
const PATIENCE: Duration = Duration::from_millis(500);
const PAUSE: Duration = Duration::from_millis(100);
/// Between two lines where there is no terminal.
const NOW_AND_THEN: Duration = Duration::from_secs(30);
const WIDEST: usize = 30;
/// With fewer columns left there is no name.
const LEAST_OF_NAME: usize = 12;
/// Of a terminal that does not say how many it has.
const COLUMNS: usize = 80;

#[derive(Clone, Copy, PartialEq, Eq)]
enum Way {
    Silent,
    Bar,
    Lines,
}

pub struct Progress {
    way: Way,
    count: Count,
    begun: Instant,
    /// When the next bar or line is due.
    due: Instant,
    /// Columns that the bar on the terminal takes.
    drawn: usize,
}

#[derive(Clone, Copy, Default)]
struct Count {
    total: usize,
    done: usize,
    refused: usize,
}

impl Progress {
    pub fn new(total: usize, quiet: bool) -> Progress {
        let plain = std::env::var_os("TERM").is_some_and(|term| term == "dumb");
        let way = match io::stderr().is_terminal() {
            _ if quiet => Way::Silent,
            true if !plain => Way::Bar,
            _ => Way::Lines,
        };
        let wait = if way == Way::Bar {
            PATIENCE
        } else {
            NOW_AND_THEN
        };
        let count = Count {
            total,
            ..Count::default()
        };
        let begun = Instant::now();
        Progress {
            way,
            count,
            begun,
            due: begun + wait,
            drawn: 0,
        }
    }

    /// One more contract is done.
    pub fn done(&mut self, refused: bool) {
        self.count.done += 1;
        self.count.refused += usize::from(refused);
    }

    /// Draws or says how far it is, if that is due, and which contract is waited for.
    pub fn show(&mut self, waited_for: &Path) {
        let now = Instant::now();
        if self.way == Way::Silent || now < self.due {
            return;
        }
        if self.way == Way::Lines {
            tell(&said(self.count, self.begun.elapsed()));
            self.due = now + NOW_AND_THEN;
            return;
        }
        let columns = columns().unwrap_or(COLUMNS);
        let line = bar(self.count, &shown(waited_for), columns.saturating_sub(1));
        self.clear();
        self.drawn = width(&line);
        draw(&line);
        self.due = now + PAUSE;
    }

    /// Takes the bar away, so that a line can be printed.
    pub fn clear(&mut self) {
        if self.drawn == 0 {
            return;
        }
        // In a window that has become narrower the bar stands on some lines.
        let below = (self.drawn - 1) / columns().unwrap_or(COLUMNS);
        draw(&format!("\r\x1b[K{}", "\x1b[A\x1b[K".repeat(below)));
        self.drawn = 0;
    }
}

/// A bar that cannot be drawn is no reason to stop.
fn draw(text: &str) {
    let mut terminal = io::stderr();
    let _ = terminal
        .write_all(text.as_bytes())
        .and_then(|()| terminal.flush());
}

fn refusals(count: Count) -> String {
    match count.refused {
        0 => String::new(),
        refused => format!(", {refused} refused"),
    }
}

fn said(count: Count, elapsed: Duration) -> String {
    let Count { done, total, .. } = count;
    let (refusals, seconds) = (refusals(count), elapsed.as_secs());
    format!("{done} of {total} contracts{refusals}, after {seconds} s")
}

/// Not more than these columns: first the name gives way, then the bar, then the refusals.
fn bar(count: Count, name: &str, columns: usize) -> String {
    let Count { done, total, .. } = count;
    let numbers = format!("{done}/{total}{}", refusals(count));
    if numbers.len() + 5 > columns {
        return cut(&numbers, columns);
    }
    let room = (columns - numbers.len() - 3).min(WIDEST);
    let filled = room * done / total.max(1);
    let bar = format!("{}{}", "#".repeat(filled), ".".repeat(room - filled));
    let line = format!("[{bar}] {numbers}");
    match columns.saturating_sub(line.len()) {
        left if left < LEAST_OF_NAME => line,
        _ => cut(&format!("{line} {name}"), columns),
    }
}

/// A letter beyond ASCII may take two columns.
fn width(text: &str) -> usize {
    text.chars()
        .map(|letter| 1 + usize::from(!letter.is_ascii()))
        .sum()
}

fn cut(text: &str, columns: usize) -> String {
    let mut left = columns;
    let fits = |letter: &char| {
        let wide = 1 + usize::from(!letter.is_ascii());
        left.checked_sub(wide).map(|rest| left = rest).is_some()
    };
    let line: String = text.chars().take_while(fits).collect();
    line.trim_end().into()
}

#[cfg(test)]
mod tests {
    use super::{Count, bar, said, width};
    use std::time::Duration;

    fn count(done: usize, refused: usize) -> Count {
        Count {
            total: 60,
            done,
            refused,
        }
    }

    #[test]
    fn the_bar_fills() {
        let bar = |done| bar(count(done, 0), "a.hex", 79);
        assert_eq!(bar(0), "[..............................] 0/60 a.hex");
        assert_eq!(bar(30), "[###############...............] 30/60 a.hex");
        assert_eq!(bar(60), "[##############################] 60/60 a.hex");
    }

    #[test]
    fn the_bar_fits() {
        let name = "契約/".repeat(30);
        for columns in 0..200 {
            for refused in [0, 7] {
                let line = bar(count(30, refused), &name, columns);
                assert!(width(&line) <= columns, "{columns}: {line}");
            }
        }
        assert_eq!(bar(count(30, 2), "a", 24), "[##...] 30/60, 2 refused");
        assert_eq!(bar(count(30, 2), "a", 12), "30/60, 2 ref");
    }

    #[test]
    fn a_line_says_how_far_it_is() {
        let line = said(count(30, 1), Duration::from_millis(61_500));
        assert_eq!(line, "30 of 60 contracts, 1 refused, after 61 s");
    }
}
