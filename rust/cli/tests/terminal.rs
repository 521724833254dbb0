//! What a person at a terminal sees. The terminal is made by `script`, which Linux systems have.
#![cfg(target_os = "linux")]

mod common;

use std::path::Path;
use std::process::{Command, Stdio};
use std::thread::sleep;
use std::time::Duration;

use common::{Late, folder, pipe, put};

const RETURN: &str = "60056007565b005b56";

/// What comes to a terminal of so many columns; meanwhile something else is done.
fn typed<T>(here: &Path, columns: usize, words: &str, meanwhile: impl FnOnce() -> T) -> String {
    let line = format!(
        "stty cols {columns}; exec '{}' {words}",
        env!("CARGO_BIN_EXE_aznifrem")
    );
    let mut script = Command::new("script");
    script.args(["-qec", &line, "/dev/null"]).current_dir(here);
    script
        .env("TERM", "xterm")
        .stdin(Stdio::null())
        .stdout(Stdio::piped());
    let child = script.spawn().expect("script is there");
    let _done = meanwhile();
    let output = child.wait_with_output().expect("it ends");
    String::from_utf8(output.stdout).expect("it is text")
}

/// The lines that such a terminal shows in the end; what is longer than it goes on in the next.
fn screen(columns: usize, sent: &str) -> Vec<String> {
    let mut lines = vec![String::new()];
    let (mut row, mut column) = (0, 0);
    let mut letters = sent.chars();
    while let Some(letter) = letters.next() {
        match letter {
            '\n' => row += 1,
            '\r' => column = 0,
            '\x1b' => {
                let control: String = letters.by_ref().take(2).collect();
                match control.as_str() {
                    "[K" => lines[row].truncate(column),
                    "[A" => row -= 1,
                    _ => panic!("{control} is not known"),
                }
            }
            _ => {
                if column == columns {
                    (row, column) = (row + 1, 0);
                }
                lines.resize(lines.len().max(row + 1), String::new());
                lines[row].truncate(column);
                lines[row].push(letter);
                column += 1;
            }
        }
        lines.resize(lines.len().max(row + 1), String::new());
    }
    lines
}

#[test]
fn on_a_terminal_the_summary_is_the_default() {
    let here = folder("by-default");
    put(&here, "a.hex", RETURN);
    let shown = typed(&here, 120, "a.hex", || ());
    let summary = "a.hex: bytes 9; blocks 3, dynamic 0, unresolved 0; paths recorded 1, with a destination 1; energy 2\r
  0-4 (0x0-0x4) Jump to 7 (0x7)\r
  5-6 (0x5-0x6) Terminate, success\r
  7-8 (0x7-0x8) Jump to 5 (0x5)\r
";
    assert_eq!(shown, summary);
    let lines = typed(&here, 120, "--lines a.hex", || ());
    assert!(
        lines.starts_with("0c0000000100090003000100000002000000\r\n"),
        "{lines}"
    );
}

/// Stores two contracts; the second comes late, so that there is something to wait for.
fn waited(name: &str, columns: usize, words: &str) -> String {
    let here = folder(name);
    put(&here, "a.hex", RETURN);
    let late = pipe(&here, "a-contract-that-comes-late.hex");
    typed(&here, columns, words, || {
        sleep(Duration::from_millis(1200));
        Late::write(&late, RETURN)
    })
}

#[test]
fn the_bar_fits_the_terminal_and_is_taken_away() {
    for columns in [30, 44, 100] {
        let words = "--to maps a.hex a-contract-that-comes-late.hex";
        let shown = waited(&format!("bar-{columns}"), columns, words);
        let bars: Vec<&str> = shown
            .split("\r\x1b[K")
            .filter(|part| part.starts_with('['))
            .collect();
        assert!(!bars.is_empty(), "{shown:?}");
        assert!(bars.iter().all(|bar| bar.len() < columns), "{bars:?}");
        assert!(bars.iter().all(|bar| bar.contains("] 1/2")), "{bars:?}");
        assert_eq!(bars[0].contains("a-contract"), columns == 100);
        let left = screen(columns, &shown);
        assert_eq!(left, ["contracts: 2, mapped: 2", ""], "{shown:?}");
    }
}

#[test]
fn quiet_is_quiet_and_a_plain_terminal_has_no_bar() {
    let words = "a.hex a-contract-that-comes-late.hex";
    let shown = waited("quiet", 80, &format!("--quiet --to maps {words}"));
    assert_eq!(shown, "");
    let shown = waited("pipe", 80, &format!("--to maps {words} 2>&1 | cat"));
    assert_eq!(shown, "contracts: 2, mapped: 2\r\n");
}

#[test]
fn the_screen_of_these_tests_is_a_screen() {
    assert_eq!(screen(4, "abcdef\r\x1b[K\x1b[A\rx"), ["x", ""]);
    assert_eq!(screen(9, "abc\r\x1b[Kd\r\ne"), ["d", "e"]);
}
