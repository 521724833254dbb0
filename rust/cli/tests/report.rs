//! `aznifrem report`, as a user runs it.

use std::fs;
use std::os::unix::fs::symlink;
use std::path::{Path, PathBuf};
use std::process::{Command, Output};

use aznifrem::Mapper;

const RETURN: [u8; 9] = [0x60, 5, 0x60, 7, 0x56, 0x5b, 0x00, 0x5b, 0x56];
const NOWHERE: [u8; 2] = [0x5f, 0x56];

fn folder(name: &str, maps: &[(&str, &[u8])]) -> PathBuf {
    let folder = Path::new(env!("CARGO_TARGET_TMPDIR")).join(name);
    let _ = fs::remove_dir_all(&folder);
    fs::create_dir_all(&folder).expect("the folder is made");
    for (name, code) in maps {
        let map = Mapper::new()
            .entries(code, 500_000)
            .expect("the code is mapped")
            .to_vec();
        fs::write(folder.join(name), map).expect("the map is written");
    }
    folder
}

fn report(words: &[&str]) -> Output {
    let program = env!("CARGO_BIN_EXE_aznifrem");
    let output = Command::new(program).arg("report").args(words).output();
    output.expect("it runs")
}

fn text(bytes: &[u8]) -> String {
    String::from_utf8(bytes.to_vec()).expect("it is text")
}

#[test]
fn a_release_is_a_table() {
    let release = folder("report-one", &[("a.map", &RETURN), ("b.map", &NOWHERE)]);
    let given = report(&[release.to_str().expect("a path")]);
    assert_eq!(given.status.code(), Some(0), "{}", text(&given.stderr));
    let table = text(&given.stdout);
    for row in [
        "maps                       2",
        "blocks                     4",
        "  Jump                     2",
        "  unresolved               1",
        "records with destination   1",
        "longest path               2",
        "share unresolved           [####################] 100.0 %, 1 over 1",
    ] {
        assert!(
            table.lines().any(|line| line == row),
            "{row} is not in\n{table}"
        );
    }
}

#[test]
fn two_releases_stand_side_by_side() {
    let old = folder("report-old", &[("a.map", &RETURN)]);
    let new = folder("report-new", &[("a.map", &RETURN), ("b.map", &NOWHERE)]);
    let words = [
        old.to_str().expect("a path"),
        "--against",
        new.to_str().expect("a path"),
    ];
    let given = report(&words);
    assert_eq!(given.status.code(), Some(0), "{}", text(&given.stderr));
    let table = text(&given.stdout);
    for row in [
        "                           old new change",
        "maps                         1   2     +1",
        "  Terminate                  1   1      =",
        "share unresolved, old      [....................] 0.0 %, 0 over 1",
    ] {
        assert!(
            table.lines().any(|line| line == row),
            "{row} is not in\n{table}"
        );
    }
    let json = text(&report(&[&words[..], &["--json"]].concat()).stdout);
    let old = r#"{"old":{"maps":1,"blocks":{"Terminate":1,"Jump":2,"Jumpi":0,"DynamicJump":0,"DynamicJumpi":0},"dynamic":{"unresolved":0,"one":0,"several":0},"records":{"with":1,"without":0},"longest_path":2,"energy":2,"refused":0,"share":[0,1],"left_out":[]},"new":{"maps":2,"#;
    assert!(json.starts_with(old), "{json}");
    let change = r#""change":{"maps":1,"blocks":{"Terminate":0,"Jump":0,"Jumpi":0,"DynamicJump":1,"DynamicJumpi":0},"dynamic":{"unresolved":1,"one":0,"several":0},"records":{"with":0,"without":0},"longest_path":0,"energy":0,"refused":0}}"#;
    assert!(json.trim_end().ends_with(change), "{json}");
    let back = text(&report(&[words[2], "--against", words[0], "--json"]).stdout);
    assert!(back.contains(r#""change":{"maps":-1,"#), "{back}");
}

#[test]
fn refused_contracts_have_a_row() {
    let old = folder("report-none-refused", &[("a.map", &RETURN)]);
    let new = folder("report-refused", &[("a.map", &RETURN)]);
    let line = |name: &str| {
        format!("{{\"contract\":\"{name}\",\"path\":\"x\",\"number\":null,\"reason\":\"y\"}}\n")
    };
    let list = new.join("refused.jsonl");
    fs::write(&list, line("b") + &line("c") + &line("deep/")).expect("a list is written");
    let [old, new] = [&old, &new].map(|path| path.to_str().expect("a path"));
    // A list counts once, as a map does, and a folder that was not read is no contract.
    let table = text(&report(&[new, new]).stdout);
    let rows = "maps                       1\nrefused                    2\n";
    assert!(table.starts_with(rows), "{table}");
    let table = text(&report(&[old, "--against", new]).stdout);
    let row = "\nrefused                      0   2     +2\n";
    assert!(table.contains(row), "{table}");
    let json = text(&report(&[new, "--against", old, "--json"]).stdout);
    assert!(json.contains(r#""refused":2,"share""#), "{json}");
    assert!(json.ends_with("\"refused\":-2}}\n"), "{json}");
    fs::write(&list, "no list\n").expect("a list is written");
    let given = report(&[new]);
    assert_eq!(given.status.code(), Some(2));
    assert!(text(&given.stderr).contains("line 1 is no refusal"));
}

#[test]
fn a_file_counts_once() {
    let release = folder("report-once", &[("a.map", &RETURN), ("b.map", &NOWHERE)]);
    let beside = folder("report-once-beside", &[("c.map", &RETURN)]);
    symlink(&beside, release.join("link")).expect("a link to a folder");
    symlink(release.join("a.map"), release.join("again.map")).expect("a link to a file");
    let (path, file) = (release.join("."), release.join("b.map"));
    let words = [&release, &path, &file, &beside].map(|path| path.to_str().expect("a path"));
    let given = report(&words);
    assert_eq!(given.status.code(), Some(0), "{}", text(&given.stderr));
    let table = text(&given.stdout);
    assert!(
        table.starts_with("maps                       3\n"),
        "{table}"
    );
    // Two releases may share a file: each counts it.
    let table = text(&report(&[words[3], "--against", words[0]]).stdout);
    assert!(
        table.contains("maps                         1   3     +2\n"),
        "{table}"
    );
}

#[test]
fn what_is_not_there_is_told_before_anything_is_read() {
    let release = folder("report-there", &[("a.map", &RETURN)]);
    let there = release.to_str().expect("a path");
    for words in [
        &["no such release"][..],
        &[there, "no such release"],
        &[there, "--against", "no such release", "--json"],
    ] {
        let given = report(words);
        assert_eq!(given.status.code(), Some(2), "{words:?}");
        assert_eq!(text(&given.stdout), "");
        let told = text(&given.stderr);
        assert!(
            told.starts_with("no such release: cannot be read: "),
            "{told}"
        );
    }
    let given = report(&["-"]);
    assert_eq!(given.status.code(), Some(2));
    assert!(text(&given.stderr).contains("not standard input"));
}

#[test]
fn what_cannot_be_read_is_named_itself() {
    let release = folder("report-dead", &[("a.map", &RETURN)]);
    let dead = release.join("b: of: old");
    symlink("nowhere", &dead).expect("a link that leads nowhere");
    let given = report(&[release.to_str().expect("a path"), "--json"]);
    assert_eq!(given.status.code(), Some(1));
    let named = format!(
        r#""left_out":[{{"file":"{}","offset":null,"#,
        dead.display()
    );
    let json = text(&given.stdout);
    assert!(json.contains(&named), "{named} is not in {json}");
}

#[test]
fn what_is_no_map_is_named_and_left_out() {
    let release = folder("report-bad", &[("a.map", &RETURN), ("b.map", &RETURN)]);
    let bad = release.join("b.map");
    let cut = fs::read(&bad).expect("it was written")[..70].to_vec();
    fs::write(&bad, cut).expect("the map is cut");
    let path = release.to_str().expect("a path");
    let given = report(&[path]);
    assert_eq!(given.status.code(), Some(1));
    assert!(text(&given.stdout).starts_with("maps                       1\n"));
    let told = text(&given.stderr);
    assert!(
        told.contains("b.map: is no stored map: ") && told.contains("byte 53"),
        "{told}"
    );
    let json = text(&report(&[path, "--json"]).stdout);
    assert!(json.contains(r#""offset":53,"#), "{json}");
    let empty = folder("report-empty", &[]);
    let given = report(&[empty.to_str().expect("a path")]);
    assert_eq!(given.status.code(), Some(1));
    assert!(text(&given.stderr).contains("no map is in it"));
}
