//! Running the program in a folder of a test's own.
#![allow(dead_code)] // Each file of tests takes what it needs.

use std::fs;
use std::path::{Path, PathBuf};
use std::process::{Child, Command, Output};

/// A fresh folder for one test.
pub fn folder(name: &str) -> PathBuf {
    let folder = Path::new(env!("CARGO_TARGET_TMPDIR")).join(name);
    let _ = fs::remove_dir_all(&folder);
    fs::create_dir_all(&folder).expect("the folder of tests can be written");
    folder
}

pub fn put(folder: &Path, name: &str, bytes: impl AsRef<[u8]>) {
    let file = folder.join(name);
    let parent = file.parent().expect("it lies in the folder");
    fs::create_dir_all(parent).expect("a folder can be made");
    fs::write(file, bytes).expect("a file can be written");
}

/// Runs the program in a folder.
pub fn run(folder: &Path, words: &[&str]) -> Output {
    let mut command = Command::new(env!("CARGO_BIN_EXE_aznifrem"));
    let command = command.args(words).current_dir(folder);
    command.output().expect("the program runs")
}

/// Exit, standard output, standard error.
pub fn all(output: &Output) -> (i32, String, String) {
    let text = |bytes: &[u8]| String::from_utf8(bytes.to_vec()).expect("it is text");
    let exit = output.status.code().expect("it is not killed");
    (exit, text(&output.stdout), text(&output.stderr))
}

/// Writes to a pipe by name when somebody reads it, as a program of its own, so that no test waits
/// for a reader that has ended; it is stopped with the test.
pub struct Late(Child);

impl Late {
    pub fn write(pipe: &Path, text: &str) -> Late {
        let mut shell = Command::new("sh");
        shell.args(["-c", "echo \"$0\" > \"$1\"", text]).arg(pipe);
        Late(shell.spawn().expect("a shell is there"))
    }
}

impl Drop for Late {
    fn drop(&mut self) {
        // One that has written is over.
        let _ = self.0.kill();
        let _ = self.0.wait();
    }
}

/// A pipe by name: what is to be read from it does not come until it is written.
pub fn pipe(here: &Path, name: &str) -> PathBuf {
    let path = here.join(name);
    let made = Command::new("mkfifo").arg(&path).status();
    assert!(made.expect("mkfifo is there").success());
    path
}
