//! A night over many contracts: what is refused is listed, what is stored is whole, and the order is
//! one and the same.
#![cfg(target_os = "linux")]

mod common;

use std::fs::{self, File};
use std::os::unix::process::ExitStatusExt;
use std::path::{Path, PathBuf};
use std::process::{Child, Command, Stdio};
use std::thread::sleep;
use std::time::{Duration, Instant};

use common::{Late, all, folder, pipe, put, run};

const RETURN: &str = "60056007565b005b56";
const TOO_LONG: &str = "the code has 49153 bytes and at most 49152 are mapped: give init code or deployed code, without other data";

fn too_long() -> String {
    "00".repeat(49_153)
}

fn text(path: PathBuf) -> String {
    fs::read_to_string(path).expect("it is there")
}

/// Every file beneath a folder, by name, with its bytes.
fn files(folder: &Path) -> Vec<(PathBuf, Vec<u8>)> {
    let mut found = Vec::new();
    for entry in fs::read_dir(folder).expect("it is a folder") {
        let path = entry.expect("it can be read").path();
        if path.is_dir() {
            found.extend(files(&path));
        } else {
            let bytes = fs::read(&path).expect("it can be read");
            found.push((path, bytes));
        }
    }
    found.sort();
    found
}

#[test]
fn one_of_two_thousand_is_refused_and_the_rest_is_stored() {
    let here = folder("two-thousand");
    for number in 0..2000 {
        let code = format!("61{number:04x}50{RETURN}");
        put(&here, &format!("code/{}/c{number}.hex", number % 7), code);
    }
    put(&here, "code/3/c777.hex", "no contract");
    put(&here, "code/0/c777.hex", too_long());
    put(&here, "code/README.md", "# Tonight");
    put(&here, "code/abi/token.json", "{}");
    let words = ["--include", "*.hex", "--exclude=3", "--to", "maps", "code"];
    let (exit, out, said) = all(&run(&here, &words));
    assert_eq!((exit, out.as_str()), (1, ""));
    // A folder of 286 and two other files are left out.
    let refused = format!("code/0/c777.hex: refused 1: {TOO_LONG}\n");
    let totals =
        "contracts: 1714, mapped: 1713, refused: 1, left out: 3; listed in maps/refused.jsonl\n";
    assert_eq!(said, refused + totals);
    assert_eq!(files(&here.join("maps")).len(), 1714);
    let line = format!(
        "{{\"contract\":\"0/c777.hex\",\"path\":\"code/0/c777.hex\",\"number\":1,\"reason\":\"{TOO_LONG}\"}}\n"
    );
    assert_eq!(text(here.join("maps/refused.jsonl")), line);
    assert!(!here.join("maps/unfinished.txt").exists());
}

#[test]
fn the_order_is_the_same_with_any_number_of_jobs() {
    let here = folder("any-jobs");
    for number in 0..60 {
        // The first of them take longest.
        let calls = "60056007565b".repeat(60 - number);
        put(&here, &format!("code/c{number:02}.hex"), calls + "005b56");
    }
    put(&here, "code/c20.hex", too_long());
    put(&here, "code/c40.hex", "no contract");
    let with = |jobs: &str| {
        let to = format!("maps-{jobs}");
        let words = ["--jobs", jobs, "--summary", "--to", &to, "code"];
        let (exit, out, said) = all(&run(&here, &words));
        assert_eq!(exit, 1);
        let stored = files(&here.join(&to));
        let bytes: Vec<Vec<u8>> = stored.into_iter().map(|(_, bytes)| bytes).collect();
        (out, said.replace(&to, "maps"), bytes)
    };
    let one = with("1");
    assert_eq!((one.2.len(), one.1.lines().count()), (59, 3));
    assert!(with("2") == one && with("17") == one);
}

#[test]
fn a_ceiling_refuses_the_same_with_any_number_of_jobs() {
    let here = folder("shared-ceiling");
    // W of the long one is 1,573,120 bytes: more than a mebibyte, and than two shares of three.
    put(&here, "code/long.hex", "00".repeat(24_576));
    put(&here, "code/short.hex", RETURN);
    let with = |ceiling: &str, jobs: &str| {
        all(&run(&here, &["--ceiling", ceiling, "--jobs", jobs, "code"]))
    };
    assert_eq!(with("3", "1").0, 0);
    assert_eq!(with("3", "1"), with("3", "2"));
    let (exit, _, said) = with("1", "2");
    assert_eq!(exit, 1);
    assert!(said.starts_with("code/long.hex: refused 3: "), "{said}");
    assert!(said.contains("may have 1048576 bytes"), "{said}");
    assert_eq!(with("1", "1").2, said);
}

#[test]
fn a_file_that_is_too_large_is_not_read() {
    let here = folder("too-large");
    put(&here, "code/a.hex", RETURN);
    let large = File::create(here.join("code/large.bin")).expect("a file can be made");
    large.set_len(1 << 40).expect("it takes no room");
    let begun = Instant::now();
    let (exit, _, said) = all(&run(&here, &["--to", "maps", "code"]));
    assert!(begun.elapsed() < Duration::from_secs(60), "it is read");
    let sentence = "code/large.bin: has 1099511627776 bytes, and the file of a contract at most 1048576: it is not read whole\n";
    assert_eq!((exit, said.starts_with(sentence)), (1, true), "{said}");
    // What says nothing of its length is read as far as a contract goes.
    let (exit, _, said) = all(&run(&here, &["--binary", "/dev/zero"]));
    let sentence = "/dev/zero: has more than 1048576 bytes, and the file of a contract at most 1048576: it is not read whole\n";
    assert_eq!((exit, said.as_str()), (1, sentence));
}

#[test]
fn names_are_shown_escaped() {
    let here = folder("escaped");
    put(&here, "code/a\x1b[2J\nb.hex", RETURN);
    put(&here, "code/c\u{202e}\r.hex", "no contract");
    let (exit, out, said) = all(&run(&here, &["--summary", "code"]));
    assert_eq!(exit, 1);
    assert!(out.starts_with("code/a\\x1b[2J\\nb.hex: bytes 9;"), "{out}");
    assert!(
        said.starts_with("code/c\\u{202e}\\r.hex: is text"),
        "{said}"
    );
    let (_, _, said) = all(&run(&here, &["--to", "maps", "code"]));
    assert!(
        said.ends_with("refused: 1; listed in maps/refused.jsonl\n"),
        "{said}"
    );
    let list = text(here.join("maps/refused.jsonl"));
    assert!(
        list.starts_with("{\"contract\":\"c\\\\u{202e}\\\\r.hex\","),
        "{list}"
    );
    let (exit, out, _) = all(&run(&here, &["show", "maps"]));
    assert_eq!(exit, 0);
    assert!(
        out.starts_with("maps/a\\x1b[2J\\nb.hex.map: bytes 9;"),
        "{out}"
    );
}

#[test]
fn what_a_run_put_beside_its_maps_is_no_contract() {
    let here = folder("beside");
    put(&here, "code/a.hex", RETURN);
    for night in ["code/first", "code/second"] {
        let (exit, _, said) = all(&run(&here, &["--to", night, "code"]));
        assert_eq!((exit, said.as_str()), (0, "contracts: 1, mapped: 1\n"));
    }
    let quiet = all(&run(&here, &["--quiet", "--to", "third", "code"]));
    assert_eq!(quiet, (0, String::new(), String::new()));
}

#[test]
fn diff_tells_a_refused_contract_from_a_removed_one() {
    let here = folder("refused-or-removed");
    for name in ["kept", "refused", "removed", "deep/refused", "mended"] {
        put(&here, &format!("code/{name}.hex"), RETURN);
    }
    put(&here, "code/never.hex", "no contract");
    put(&here, "code/mended.hex", too_long());
    put(&here, "code/gone.hex", too_long());
    assert_eq!(all(&run(&here, &["--to", "old", "code"])).0, 1);
    put(&here, "code/refused.hex", too_long());
    put(&here, "code/deep/refused.hex", "no contract");
    put(&here, "code/mended.hex", RETURN);
    put(&here, "code/came.hex", RETURN);
    put(&here, "code/came-refused.hex", too_long());
    for name in ["code/removed.hex", "code/gone.hex"] {
        fs::remove_file(here.join(name)).expect("it is there");
    }
    assert_eq!(all(&run(&here, &["--to", "new", "code"])).0, 1);
    let figures = "blocks 3, dynamic 0, unresolved 0, records 1, energy 2";
    let text =
        "is text, but not hexadecimal digits: link its libraries if it names some, or say --binary";
    let (exit, out, said) = all(&run(&here, &["diff", "old", "new"]));
    assert_eq!((exit, said.as_str()), (1, ""));
    let rows = format!(
        "came.hex.map: map came: {figures}
deep/refused.hex.map: contract refused now: {text}
mended.hex.map: contract mapped now, refused before: {TOO_LONG}
refused.hex.map: contract refused now: {TOO_LONG}
removed.hex.map: map went: {figures}
came-refused.hex.map: contract came, refused: {TOO_LONG}
gone.hex.map: contract went, refused before: {TOO_LONG}
maps: 6, differences: 7, refused: 6
"
    );
    assert_eq!(out, rows);
    // What is refused still is no difference, and is counted.
    let (exit, out, _) = all(&run(&here, &["diff", "new", "new"]));
    assert_eq!(
        (exit, out.as_str()),
        (0, "maps: 3, differences: 0, refused: 4\n")
    );
    let (_, out, _) = all(&run(&here, &["diff", "--json", "old", "new"]));
    let line = format!(
        r#"{{"contract":"refused.hex.map","verdict":"refused now","number":1,"reason":"{TOO_LONG}"}}"#
    );
    assert!(out.lines().any(|one| one == line), "{out}");
    let line = format!(
        r#"{{"contract":"never.hex.map","verdict":"refused still","number":null,"reason":"{text}"}}"#
    );
    assert!(out.lines().any(|one| one == line), "{out}");
    assert!(out.contains(r#""came":1,"went":1,"refused":6,"not_compared":0,"differences":7,"#));
}

#[test]
fn diff_takes_no_unfinished_night_and_no_list_that_is_none() {
    let here = folder("unfinished");
    put(&here, "code/a.hex", RETURN);
    assert_eq!(all(&run(&here, &["--to", "old", "code"])).0, 0);
    assert_eq!(all(&run(&here, &["--to", "new", "code"])).0, 0);
    put(&here, "new/unfinished.txt", "");
    let (exit, out, said) = all(&run(&here, &["diff", "old", "new"]));
    assert_eq!((exit, out.as_str()), (2, ""));
    let sentence = "new: the run that stores maps here is not over, or was cut short: remove the folder and make it again\n";
    assert_eq!(said, sentence);
    for words in [
        &["report", "new"][..],
        &["report", "--json", "old", "--against", "new"],
        &["archive", "new", "all"],
    ] {
        let wanted = (2, String::new(), sentence.into());
        assert_eq!(all(&run(&here, words)), wanted, "{words:?}");
    }
    assert!(!here.join("all").exists() && !here.join("all.part").exists());
    put(&here, "old/refused.jsonl", "{\"contract\":1}\n");
    let (exit, _, said) = all(&run(&here, &["diff", "old", "old"]));
    assert_eq!(exit, 2);
    assert!(
        said.starts_with("old/refused.jsonl: line 1 is no refusal: map again\n"),
        "{said}"
    );
    // Folders of before there were lists are compared as they are.
    fs::remove_file(here.join("old/refused.jsonl")).expect("it is there");
    fs::remove_file(here.join("new/unfinished.txt")).expect("it is there");
    assert_eq!(all(&run(&here, &["diff", "old", "new"])).0, 0);
}

#[test]
fn what_maps_nothing_is_no_night() {
    let here = folder("no-night");
    put(&here, "code/a.hex", RETURN);
    put(&here, "bad/a.hex", too_long());
    fs::create_dir(here.join("bare")).expect("a folder can be made");
    let none = "aznifrem: no contract is mapped: there is no night\n";
    let bare = format!("bare: no contract is in it\n{none}");
    let absent = String::from("kode: is not there: nothing is mapped\n");
    for (words, sentence) in [
        (&["--to", "maps", "kode"][..], &absent),
        (&["--to", "maps", "code", "kode"], &absent),
        (&["--quiet", "--to", "maps", "bare"], &bare),
    ] {
        let wanted = (2, String::new(), sentence.clone());
        assert_eq!(all(&run(&here, words)), wanted, "{words:?}");
        assert!(!here.join("maps").exists());
    }
    // What was refused is listed all the same, and the folder is fresh.
    let (exit, _, said) = all(&run(&here, &["--to", "maps", "bad"]));
    assert_eq!((exit, said.ends_with(none)), (2, true), "{said}");
    assert!(text(here.join("maps/refused.jsonl")).starts_with("{\"contract\":\"a.hex\","));
    assert_eq!(all(&run(&here, &["--to", "maps", "code", "bare"])).0, 1);
}

/// Starts the program with no signal ignored: what runs the tests in the background may ignore some.
fn started(here: &Path, words: &[&str]) -> Child {
    let mut command = Command::new("env");
    command.arg("--default-signal=INT,HUP,TERM");
    command.arg(env!("CARGO_BIN_EXE_aznifrem"));
    command.args(words).current_dir(here);
    command.stdout(Stdio::piped()).stderr(Stdio::piped());
    command.spawn().expect("the program runs")
}

fn wait_for(path: &Path) {
    let begun = Instant::now();
    while !path.exists() {
        assert!(
            begun.elapsed() < Duration::from_secs(60),
            "{}",
            path.display()
        );
        sleep(Duration::from_millis(5));
    }
}

fn signal(child: &Child, name: &str) {
    let line = format!("kill {name} {}", child.id());
    let sent = Command::new("sh").args(["-c", &line]).status();
    assert!(sent.expect("a shell is there").success());
}

#[test]
fn what_is_cut_short_leaves_no_half_file_and_says_so() {
    let here = folder("cut-short");
    put(&here, "a.hex", RETURN);
    pipe(&here, "never");
    for (name, number) in [("-INT", 2), ("-TERM", 15), ("-HUP", 1)] {
        let to = format!("maps{name}");
        let child = started(&here, &["--to", &to, "a.hex", "never"]);
        wait_for(&here.join(&to).join("a.hex.map"));
        signal(&child, name);
        let output = child.wait_with_output().expect("it ends");
        assert_eq!(output.status.signal(), Some(number));
        let said = String::from_utf8_lossy(&output.stderr);
        // The first is stored, and may not be counted yet.
        let sentence = |done| {
            format!(
                "aznifrem: cut short after {done} of 2 contracts; {to} is unfinished: remove it and map again\n"
            )
        };
        assert!([sentence(0), sentence(1)].contains(&said.into()));
        let names = files(&here.join(&to)).into_iter().map(|(path, _)| path);
        let wanted = ["a.hex.map", "unfinished.txt"].map(|name| here.join(&to).join(name));
        assert_eq!(names.collect::<Vec<_>>(), wanted);
        let (exit, _, said) = all(&run(&here, &["--to", &to, "a.hex"]));
        let sentence = format!("{to}: an earlier run that stored maps here is not over");
        assert_eq!((exit, said.starts_with(&sentence)), (2, true), "{said}");
    }
}

#[test]
fn an_unpack_that_is_cut_short_is_not_taken_for_the_whole() {
    let here = folder("cut-unpack");
    put(&here, "code/a.hex", RETURN);
    put(&here, "code/b.hex", RETURN);
    assert_eq!(all(&run(&here, &["--to", "maps", "code"])).0, 0);
    assert_eq!(all(&run(&here, &["archive", "maps", "whole"])).0, 0);
    let slow = pipe(&here, "slow");
    // The pipe has the archive, and does not end.
    let mut shell = Command::new("sh");
    shell.args(["-c", "exec 3> slow; cat whole >&3; exec sleep 60"]);
    let mut writer = shell.current_dir(&here).spawn().expect("the shell runs");
    let words = [
        "unpack",
        "--window",
        "40",
        slow.to_str().expect("a path"),
        "parts",
    ];
    let child = started(&here, &words);
    wait_for(&here.join("parts/00000001.map"));
    signal(&child, "-INT");
    let output = child.wait_with_output().expect("it ends");
    writer.kill().expect("it runs");
    writer.wait().expect("it ends");
    assert_eq!(output.status.signal(), Some(2));
    let (exit, out, said) = all(&run(&here, &["report", "parts"]));
    assert_eq!((exit, out.as_str()), (2, ""), "{said}");
    assert!(
        said.starts_with("parts: the run that stores maps here"),
        "{said}"
    );
}

#[test]
fn a_signal_that_is_ignored_stays_so() {
    let here = folder("ignored");
    put(&here, "a.hex", RETURN);
    let late = pipe(&here, "late");
    let mut shell = Command::new("sh");
    shell.args(["-c", "trap '' HUP; exec \"$0\" --to maps a.hex late"]);
    shell.arg(env!("CARGO_BIN_EXE_aznifrem")).current_dir(&here);
    let child = shell
        .stderr(Stdio::piped())
        .spawn()
        .expect("the shell runs");
    wait_for(&here.join("maps/a.hex.map"));
    signal(&child, "-HUP");
    sleep(Duration::from_millis(200));
    let _late = Late::write(&late, RETURN);
    let (exit, _, said) = all(&child.wait_with_output().expect("it ends"));
    assert_eq!((exit, said.as_str()), (0, "contracts: 2, mapped: 2\n"));
}

#[test]
fn a_file_that_cannot_be_written_leaves_no_half() {
    let here = folder("unwritable");
    put(&here, "code/a.hex", RETURN);
    put(&here, "code/b.hex", RETURN);
    // A folder stands where the map is to go.
    put(&here, "maps/a.hex.map/notes.txt", "in the way");
    let (exit, _, said) = all(&run(&here, &["--to", "maps", "code"]));
    assert_eq!(exit, 1);
    assert!(
        said.starts_with("code/a.hex: cannot write maps/a.hex.map: "),
        "{said}"
    );
    assert!(
        said.ends_with("contracts: 2, mapped: 1, refused: 1; listed in maps/refused.jsonl\n"),
        "{said}"
    );
    let names: Vec<PathBuf> = files(&here.join("maps"))
        .into_iter()
        .map(|(path, _)| path)
        .collect();
    assert!(
        names
            .iter()
            .all(|name| name.extension().is_some_and(|end| end != "part")),
        "{names:?}"
    );
}
