//! What is found beneath folders, and what is not passed over.
#![cfg(target_os = "linux")]

mod common;

use std::fs::{self, File};
use std::os::unix::fs::symlink;
use std::path::{Path, PathBuf};
use std::process::Command;

use common::{all, folder, put, run};

const STOP: &str = "00";
const JUMPDEST: &str = "5b";
const LINES: &str = "0c0000000100010001000000000000000000\n0500000002000000000001\n";
const SAME: &str = "maps: 1, differences: 0\n";

fn link(to: &str, at: &Path) {
    symlink(to, at).expect("a link can be made");
}

/// Stores the map of one code in a file of this name.
fn store(here: &Path, to: &str, name: &str, code: &str) {
    put(here, name, code);
    let stored = all(&run(here, &["--to", to, name]));
    let totals = "contracts: 1, mapped: 1\n";
    assert_eq!(stored, (0, String::new(), totals.into()));
}

#[test]
fn diff_takes_maps_that_begin_with_a_dot() {
    let here = folder("dots");
    store(&here, "old", ".x", STOP);
    store(&here, "new", ".x", JUMPDEST);
    let (exit, out, _) = all(&run(&here, &["diff", "old", "new"]));
    assert_eq!(exit, 1);
    assert!(out.starts_with(".x.map: block changed: "), "{out}");
    store(&here, "old2/.deep", "x", STOP);
    store(&here, "new2/.deep", "x", JUMPDEST);
    let (exit, out, _) = all(&run(&here, &["diff", "old2", "new2"]));
    assert_eq!(exit, 1);
    assert!(out.starts_with(".deep/x.map: block changed: "), "{out}");
}

#[test]
fn diff_takes_maps_behind_links() {
    let here = folder("diff-links");
    store(&here, "first", "x", STOP);
    store(&here, "second", "x", JUMPDEST);
    for (side, to) in [("old", "../first"), ("new", "../second")] {
        fs::create_dir(here.join(side)).expect("a folder can be made");
        link(to, &here.join(side).join("maps"));
    }
    let (exit, out, _) = all(&run(&here, &["diff", "old", "new"]));
    assert_eq!(exit, 1);
    assert!(out.starts_with("maps/x.map: block changed: "), "{out}");
    // A link that leads round is told, and nothing is compared.
    link("..", &here.join("new/round"));
    let (exit, out, said) = all(&run(&here, &["diff", "old", "new"]));
    assert_eq!((exit, out.as_str()), (2, ""));
    assert!(said.contains("link to a folder that it lies in"), "{said}");
}

#[test]
fn diff_tells_what_may_be_a_map_and_cannot_be_read() {
    let here = folder("diff-faults");
    store(&here, "maps", "x", STOP);
    put(&here, "maps/notes.txt", "no map by its name");
    let same = all(&run(&here, &["diff", "maps", "maps"]));
    assert_eq!(same, (0, SAME.into(), String::new()));
    link("nowhere", &here.join("maps/more"));
    let (exit, out, said) = all(&run(&here, &["diff", "maps", "maps"]));
    assert_eq!((exit, out.as_str()), (2, ""));
    assert!(
        said.starts_with("maps/more: is a link that leads nowhere"),
        "{said}"
    );
}

#[test]
fn a_link_that_leads_nowhere_is_told() {
    let here = folder("links");
    put(&here, "code/a.hex", STOP);
    link("nowhere", &here.join("code/b.hex"));
    link("../code", &here.join("code/back"));
    let (exit, out, said) = all(&run(&here, &["code"]));
    assert_eq!(
        (exit, out),
        (1, format!("== code/a.hex\n{LINES}")),
        "{said}"
    );
    assert!(said.starts_with("code/b.hex: cannot be read"), "{said}");
    assert_eq!(said.lines().count(), 1);
}

/// Folders so deep that the system takes no path to the last: unreadable for root too.
fn too_deep(here: &Path, top: &str) -> PathBuf {
    let chain = |top: PathBuf| (0..120).fold(top, |path, _| path.join("twenty-letters-each."));
    let (upper, lower) = (chain(here.join(top)), chain(here.join("lower")));
    for folder in [&upper, &lower] {
        fs::create_dir_all(folder).expect("folders can be made");
    }
    fs::rename(here.join("lower"), upper.join("lower")).expect("a folder can be moved");
    here.join(top)
}

#[test]
fn a_folder_that_cannot_be_read_does_not_hide_the_rest() {
    let here = folder("too-deep");
    put(&here, "code/a.hex", STOP);
    put(&here, "code/z.hex", JUMPDEST);
    let deep = too_deep(&here, "code/m");
    let mapped = all(&run(&here, &["--to", "maps", "code"]));
    let compared = all(&run(&here, &["diff", "code", "maps"]));
    fs::remove_dir_all(deep).expect("the folders can be taken away");
    let (exit, _, said) = mapped;
    let said: Vec<&str> = said.lines().collect();
    let [fault, totals] = said[..] else {
        panic!("two lines: {said:?}");
    };
    assert_eq!(exit, 1);
    assert!(fault.contains(": cannot read the folder: "), "{fault}");
    let listed = "contracts: 2, mapped: 2, folders not read: 1; listed in maps/refused.jsonl";
    assert_eq!(totals, listed);
    assert!(here.join("maps/a.hex.map").is_file() && here.join("maps/z.hex.map").is_file());
    // Maps of the rest would seem to have come: none is compared.
    assert_eq!((compared.0, compared.1.as_str()), (2, ""));
    assert!(compared.2.contains(": cannot read the folder: "));
}

#[test]
fn a_folder_that_holds_maps_is_refused() {
    let here = folder("used");
    put(&here, "code/a.hex", STOP);
    store(&here, "maps/.deep", "x", STOP);
    let (exit, out, said) = all(&run(&here, &["--to", "maps", "code"]));
    assert_eq!((exit, out.as_str()), (2, ""));
    let sentence = "maps: holds maps already, as .deep/x.map: give --to a fresh folder";
    assert!(said.starts_with(sentence), "{said}");
    assert!(!here.join("maps/a.hex.map").exists());
    // Other files do not stand in the way.
    put(&here, "fresh/notes.txt", "tonight");
    assert_eq!(all(&run(&here, &["--to", "fresh", "code"])).0, 0);
}

/// A command whose output or errors go where nothing can be written.
fn program(here: &Path, words: &[&str]) -> Command {
    let mut command = Command::new(env!("CARGO_BIN_EXE_aznifrem"));
    command.args(words).current_dir(here);
    command
}

fn full() -> File {
    let file = File::options().write(true).open("/dev/full");
    file.expect("Linux has /dev/full")
}

#[test]
fn a_failed_write_is_not_something_that_moved() {
    let here = folder("full");
    store(&here, "maps", "x", STOP);
    for words in [&["diff", "maps", "maps"][..], &["x"]] {
        let output = program(&here, words).stdout(full()).output();
        let (exit, _, said) = all(&output.expect("the program runs"));
        assert_eq!(exit, 2);
        assert!(
            said.starts_with("aznifrem: cannot write the output: "),
            "{said}"
        );
    }
    let output = program(&here, &["missing", "x"]).stderr(full()).output();
    let (exit, out, _) = all(&output.expect("the program runs"));
    assert_eq!((exit, out.lines().count()), (1, 3), "{out}");
}
