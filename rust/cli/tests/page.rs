//! docs/NIGHT.md, typed as it stands.
#![cfg(target_os = "linux")]

mod common;

use std::path::Path;
use std::process::Command;

use common::{all, folder};

const PAGE: &str = include_str!("../../../docs/NIGHT.md");

/// The blocks that are marked so, in their order.
fn marked(mark: &str) -> Vec<String> {
    let mut blocks = Vec::new();
    let mut lines = PAGE.lines();
    while lines.by_ref().any(|line| line == format!("```{mark}")) {
        let block = lines.by_ref().take_while(|line| *line != "```");
        blocks.push(block.map(|line| format!("{line}\n")).collect());
    }
    blocks
}

/// Runs lines of the page in a shell that has the program on its PATH; exit, and all that is said.
fn typed(here: &Path, lines: &str) -> (i32, String) {
    let program = Path::new(env!("CARGO_BIN_EXE_aznifrem"));
    let folder = program.parent().expect("it lies in a folder");
    let path = std::env::var("PATH").expect("there is a PATH");
    let mut shell = Command::new("sh");
    shell.arg("-c").arg(format!("exec 2>&1\n{lines}"));
    shell.env("PATH", format!("{}:{path}", folder.display()));
    let (exit, out, _) = all(&shell.current_dir(here).output().expect("a shell is there"));
    (exit, out)
}

#[test]
fn the_page_is_true() {
    let here = folder("page");
    let commands = marked("sh");
    let said = marked("text");
    let [contracts, first, script, second, refused] = &commands[..] else {
        panic!("five blocks are typed, not {}", commands.len());
    };
    let [totals, moved, told, listed] = &said[..] else {
        panic!("four blocks are said, not {}", said.len());
    };
    assert_eq!(typed(&here, contracts), (0, String::new()));
    assert_eq!(typed(&here, first), (0, totals.clone()));
    assert_eq!(typed(&here, script), (0, String::new()));
    assert_eq!(typed(&here, second), (1, moved.clone()));
    assert_eq!(typed(&here, refused), (1, told.clone()));
    let list = std::fs::read_to_string(here.join("maps/tonight/refused.jsonl"));
    assert_eq!(list.expect("it is there"), *listed);
    // The same night again has no fresh folder, and the link stays where it is.
    let again = typed(&here, "./night.sh contracts maps");
    assert_eq!(again.0, 2, "{}", again.1);
    // Neither a mistyped folder nor one without contracts is a night: no link goes to it.
    std::fs::create_dir(here.join("bare")).expect("a folder can be made");
    for (contracts, why) in [
        ("kontracts", "is not there"),
        ("bare", "no contract is in it"),
    ] {
        let (exit, said) = typed(&here, &format!("./night.sh {contracts} fresh"));
        assert_eq!(exit, 2, "{said}");
        assert!(said.starts_with(&format!("{contracts}: {why}")), "{said}");
        assert!(!here.join("fresh").exists());
    }
    let compared = "aznifrem --include '*.hex' --to maps/new contracts || [ $? = 1 ] && aznifrem diff maps/last maps/new";
    let short = "aznifrem --to new contracts || [ $? = 1 ] && aznifrem diff old new";
    assert!(PAGE.contains(short));
    let (exit, said) = typed(&here, compared);
    assert_eq!(exit, 1, "{said}");
    assert!(
        said.contains("\nhuge.hex.map: contract came, refused: the code has"),
        "{said}"
    );
}
