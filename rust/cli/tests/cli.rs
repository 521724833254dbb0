//! The command line as a stranger uses it.

mod common;

use std::fs;
use std::io::Write;
use std::process::{Command, Output, Stdio};

use common::{all, folder, put, run};

const RETURN: &str = "60056007565b005b56";
const LINES: &str = "0c0000000100090003000100000002000000
060000000300000004000700
0500000002000500060001
060000000300070008000500
0c0000000800070005000200000007000000
";

fn run_with(input: &str, words: &[&str]) -> Output {
    let mut child = Command::new(env!("CARGO_BIN_EXE_aznifrem"))
        .args(words)
        .stdin(Stdio::piped())
        .stdout(Stdio::piped())
        .stderr(Stdio::piped())
        .spawn()
        .expect("the program runs");
    let mut stdin = child.stdin.take().expect("it is piped");
    stdin.write_all(input.as_bytes()).expect("it is read");
    drop(stdin);
    child.wait_with_output().expect("the program ends")
}

#[test]
fn standard_input_gives_the_lines_of_document_01() {
    for words in [&["-"][..], &["map", "-"], &["--lines", "--hex", "-"]] {
        let given = all(&run_with(&format!("{RETURN}\n"), words));
        assert_eq!(given, (0, LINES.into(), String::new()));
    }
}

#[test]
fn the_summary_can_be_read() {
    let (exit, out, _) = all(&run_with(RETURN, &["--summary", "-"]));
    assert_eq!(exit, 0);
    assert_eq!(
        out,
        "-: bytes 9; blocks 3, dynamic 0, unresolved 0; paths recorded 1, with a destination 1; energy 2
  0-4 (0x0-0x4) Jump to 7 (0x7)
  5-6 (0x5-0x6) Terminate, success
  7-8 (0x7-0x8) Jump to 5 (0x5)
"
    );
    let (_, out, _) = all(&run_with(RETURN, &["--summary", "--limit=0", "-"]));
    assert!(out.contains("dynamic 1, unresolved 1;"), "{out}");
}

#[test]
fn push0_is_known_to_put_0_if_it_is_asked_for() {
    // PUSH1 6, PUSH0, ADD; 4: JUMPDEST, JUMP; 6: JUMPDEST: resolved, the second block is a Jump to 6.
    let resolved = |words: &[&str]| {
        let (exit, out, _) = all(&run_with("60065f015b565b", words));
        assert_eq!(exit, 0);
        out.contains("060000000300040005000600")
    };
    assert!(resolved(&["--known-zero", "-"]));
    assert!(!resolved(&["-"]));
}

const JSON: &str = r#"[{"id":0,"start":0,"end":4,"type":"Jump","data":{"to":7}},{"id":5,"start":5,"end":6,"type":"Terminate","data":{"success":true}},{"id":7,"start":7,"end":8,"type":"Jump","data":{"to":5}}]"#;

#[test]
fn the_blocks_are_printed_as_json() {
    let given = all(&run_with(RETURN, &["--json", "-"]));
    assert_eq!(given, (0, format!("{JSON}\n"), String::new()));
    let here = folder("json-printed");
    put(&here, "code/a.hex", RETURN);
    put(&here, "code/b.hex", "");
    let (exit, out, _) = all(&run(&here, &["--json", "code"]));
    let expected = format!(
        "{{\"path\":\"code/a.hex\",\"blocks\":{JSON}}}\n{{\"path\":\"code/b.hex\",\"blocks\":[]}}\n"
    );
    assert_eq!((exit, out), (0, expected));
}

#[test]
fn json_is_stored_beside_the_map() {
    let here = folder("json-stored");
    put(&here, "code/deep/a.hex", RETURN);
    put(&here, "code/b.hex", "00".repeat(49_153));
    let (exit, out, said) = all(&run(&here, &["--json", "--to", "page", "code"]));
    assert_eq!((exit, out.as_str()), (1, ""));
    assert!(said.contains("refused 1"), "{said}");
    let stored = |name: &str| fs::read(here.join("page").join(name));
    assert_eq!(
        stored("deep/a.hex.json").expect("it is stored"),
        JSON.as_bytes()
    );
    assert!(stored("b.hex.json").is_err() && stored("b.hex.map").is_err());
    let plain = all(&run(&here, &["--to", "maps", "code/deep"]));
    assert_eq!(plain.0, 0);
    let alone = fs::read(here.join("maps/a.hex.map")).expect("it is stored");
    assert_eq!(stored("deep/a.hex.map").expect("it is stored"), alone);
}

#[test]
fn a_folder_of_both_forms_is_mapped_in_order() {
    let here = folder("both-forms");
    put(&here, "code/b.hex", format!("0x{RETURN}"));
    put(
        &here,
        "code/a.bin",
        [0x60, 5, 0x60, 7, 0x56, 0x5b, 0, 0x5b, 0x56],
    );
    put(&here, "code/old.map", "not a contract");
    put(&here, "code/.hidden", "not a contract");
    let (exit, out, said) = all(&run(&here, &["code"]));
    let expected = format!("== code/a.bin\n{LINES}== code/b.hex\n{LINES}");
    assert_eq!((exit, out, said), (0, expected, String::new()));
}

#[test]
fn what_is_refused_or_unreadable_has_a_line_and_the_rest_is_mapped() {
    let here = folder("refused");
    put(&here, "code/long.hex", "00".repeat(49_153));
    put(&here, "code/good.hex", "00");
    put(&here, "code/text.txt", "no contract");
    let (exit, out, said) = all(&run(&here, &["code", "missing"]));
    assert_eq!(exit, 1);
    assert_eq!(out.lines().count(), 3);
    let said: Vec<&str> = said.lines().collect();
    assert_eq!(said.len(), 3, "{said:?}");
    assert!(said[0].starts_with("code/long.hex: refused 1: the code has 49153 bytes"));
    assert!(said[1].starts_with("code/text.txt: is text, but not hexadecimal"));
    assert!(said[2].starts_with("missing: cannot be read"));
}

#[test]
fn refusals_name_the_flag_that_helps() {
    // W depends on the code alone: a lower limit does not help.
    let (exit, _, said) = all(&run_with(RETURN, &["--ceiling", "0", "-"]));
    assert_eq!(exit, 1);
    assert!(
        said.starts_with("-: refused 3: room W (work) is too small"),
        "{said}"
    );
    assert!(said.ends_with(": allow more (--ceiling)\n"), "{said}");
}

#[test]
fn a_night_is_stored_and_compared() {
    let here = folder("nights");
    put(&here, "code/a.hex", RETURN);
    put(&here, "code/deep/b.hex", "6003565b00");
    let stored = all(&run(&here, &["--to", "first", "code"]));
    let totals = "contracts: 2, mapped: 2\n";
    assert_eq!(stored, (0, String::new(), totals.into()));
    assert!(here.join("first/deep/b.hex.map").is_file());
    put(&here, "code/deep/b.hex", "60045600 5b00");
    assert_eq!(all(&run(&here, &["--to=second", "code"])).0, 0);

    let same = all(&run(&here, &["diff", "first", "first"]));
    assert_eq!(same, (0, "maps: 2, differences: 0\n".into(), String::new()));
    let moved = all(&run(&here, &["diff", "first", "second"]));
    let lines = "deep/b.hex.map: block changed: 0-2 Jump to 3 -> 0-2 Jump to 4
deep/b.hex.map: block went: 3-4 Terminate, success
deep/b.hex.map: block came: 4-5 Terminate, success
deep/b.hex.map: equal up to addresses: blocks 2 -> 2, dynamic 0 -> 0, unresolved 0 -> 0, records 0 -> 0, energy 0 -> 0
verdicts: equal 1, equal up to addresses 1, different 0
maps: 2, differences: 3
";
    assert_eq!(moved, (1, lines.into(), String::new()));
    let files = ["diff", "first/a.hex.map", "second/a.hex.map"];
    assert_eq!(all(&run(&here, &files)).0, 0);
}

#[test]
fn an_order_of_records_that_changed_is_a_difference() {
    let here = folder("order");
    // 0 calls 13, which returns to 5; 5 calls 15, which returns to 11.
    let code = [
        0x60, 5, 0x60, 13, 0x56, 0x5b, 0x60, 11, 0x60, 15, 0x56, 0x5b, 0x00, 0x5b, 0x56, 0x5b, 0x56,
    ];
    let mut map = aznifrem::map(&code, aznifrem::HIGHEST_LIMIT).expect("it has a map");
    put(&here, "old.map", map.to_bytes().expect("it fits"));
    assert_ne!(map.records[0].start, map.records[1].start);
    map.records.swap(0, 1);
    put(&here, "new.map", map.to_bytes().expect("it fits"));
    let (exit, out, _) = all(&run(&here, &["diff", "old.map", "new.map"]));
    let row = "the record changed its order between blocks\ndifferent: blocks 5 -> 5, ";
    assert!(exit == 1 && out.starts_with(row), "{out}");
    assert!(out.ends_with("maps: 1, differences: 1\n"), "{out}");
}

#[test]
fn stored_maps_are_shown() {
    let here = folder("shown");
    put(&here, "code/a.hex", RETURN);
    put(&here, "code/b.hex", "00");
    run(&here, &["--to", "maps", "code"]);
    let lines = all(&run(&here, &["show", "--lines", "maps/a.hex.map"]));
    assert_eq!(lines, (0, LINES.into(), String::new()));
    let (exit, out, _) = all(&run(&here, &["show", "maps"]));
    assert_eq!(exit, 0);
    let titles: Vec<&str> = out.lines().filter(|line| !line.starts_with(' ')).collect();
    assert!(
        titles[0].starts_with("maps/a.hex.map: bytes 9; blocks 3,"),
        "{out}"
    );
    assert!(
        titles[1].starts_with("maps/b.hex.map: bytes 1; blocks 1,"),
        "{out}"
    );
    let (shown, json, _) = all(&run(&here, &["show", "--json", "maps"]));
    let (made, mapped, _) = all(&run(&here, &["--json", "code"]));
    assert_eq!((shown, made), (0, 0));
    let named = json
        .replace("maps/", "code/")
        .replace(".hex.map\"", ".hex\"");
    assert_eq!((named, json.lines().count()), (mapped, 2));
}

#[test]
fn what_is_no_map_is_told_with_its_place() {
    let here = folder("told");
    put(&here, "code/a.hex", RETURN);
    run(&here, &["--to", "maps", "code"]);
    let good = fs::read(here.join("maps/a.hex.map")).expect("it is stored");
    let mut late = good.clone();
    late.extend(&good[18..30]);
    put(&here, "maps/late.map", &late);
    put(&here, "maps/cut.map", &good[..60]);
    put(&here, "maps/none.map", "");
    let (exit, out, said) = all(&run(&here, &["show", "maps"]));
    assert_eq!(exit, 1);
    assert!(out.starts_with("maps/a.hex.map: bytes 9;"), "{out}");
    let said: Vec<&str> = said.lines().collect();
    let again = "; make the map again from the code, or fetch the stored file again";
    assert_eq!(
        said,
        [
            format!("maps/cut.map: is no stored map: the entry at byte 53 is cut short{again}"),
            format!(
                "maps/late.map: is no stored map: the entry at byte 71 is of kind 3, a block, and stands after a record: blocks come first{again}"
            ),
            format!(
                "maps/none.map: is no stored map: it is empty, and a map begins with a head{again}"
            ),
        ]
    );
    let (exit, _, said) = all(&run(&here, &["show", "--to", "x", "maps"]));
    assert_eq!(
        (
            exit,
            said.starts_with("aznifrem: '--to' is no option of show")
        ),
        (2, true)
    );
}

/// With five files open at most the program can start no relay.
#[cfg(not(target_arch = "x86_64"))]
#[test]
fn a_library_that_cannot_be_reached_is_told() {
    let here = folder("unreached");
    put(&here, "code/a.bin", [0x60, 0x80]);
    assert_eq!(all(&run(&here, &["--to", "maps", "code"])).0, 0);
    for (words, exit, path) in [
        (&["show", "maps"][..], 1, "maps/a.bin.map"),
        (&["diff", "maps", "maps"], 2, "maps/a.bin.map"),
        (&["--summary", "code/a.bin"], 1, "code/a.bin"),
        (&["--summary", "--binary", "code/a.bin"], 1, "code/a.bin"),
    ] {
        let mut shell = std::process::Command::new("sh");
        shell.args(["-c", "ulimit -n 5 && exec \"$0\" \"$@\""]);
        shell.arg(env!("CARGO_BIN_EXE_aznifrem")).args(words);
        let output = shell.current_dir(&here).output();
        let (ended, _, said) = all(&output.expect("the shell runs"));
        assert_eq!(ended, exit, "{words:?}: {said}");
        let told = format!("{path}: the emulator of Rattle's kit at ");
        assert!(said.starts_with(&told), "{words:?}: {said}");
    }
}

#[test]
fn maps_that_come_or_go_are_differences() {
    let here = folder("come-and-go");
    put(&here, "code/a.hex", RETURN);
    assert_eq!(all(&run(&here, &["--to", "old", "code"])).0, 0);
    fs::create_dir(here.join("new")).expect("a folder can be made");
    let (exit, out, _) = all(&run(&here, &["diff", "old", "new"]));
    assert_eq!(exit, 1);
    assert!(out.starts_with("a.hex.map: map went: blocks 3, "), "{out}");
    let (exit, out, _) = all(&run(&here, &["diff", "new", "old"]));
    assert_eq!(exit, 1);
    assert!(out.starts_with("a.hex.map: map came: blocks 3, "), "{out}");
    assert_eq!(all(&run(&here, &["diff", "new", "new"])).0, 2);
}

#[test]
fn an_unreadable_map_is_not_the_same_as_nothing_moved() {
    let here = folder("unreadable");
    put(&here, "old.map", [12, 0, 0, 0, 1, 0, 9]);
    let (exit, _, said) = all(&run(&here, &["diff", "old.map", "old.map"]));
    assert_eq!(exit, 2);
    assert!(said.starts_with("old.map: is no stored map: the entry at byte 0 is cut short"));
    assert_eq!(all(&run(&here, &["diff", "old.map", "."])).0, 2);
    put(&here, "new/a.map", "no map");
    put(&here, "new/b.map", "no map");
    let (_, out, _) = all(&run(&here, &["diff", "new", "new"]));
    assert_eq!(out, "maps: 2, differences: 0, not compared: 2\n");
}

#[test]
fn a_side_that_is_missing_is_named() {
    let here = folder("missing-side");
    put(&here, "maps/a.map", "no map");
    let (exit, out, said) = all(&run(&here, &["diff", "maps", "yesterday"]));
    assert_eq!((exit, out.as_str()), (2, ""));
    assert!(said.starts_with("yesterday: cannot be read"), "{said}");
}

#[test]
fn a_stored_map_is_no_contract_and_a_file_no_folder() {
    let here = folder("confused");
    put(&here, "code/a.hex", RETURN);
    assert_eq!(all(&run(&here, &["--to", "maps", "code"])).0, 0);
    let (exit, out, said) = all(&run(&here, &["maps/a.hex.map"]));
    assert_eq!((exit, out.as_str()), (1, ""));
    assert!(said.starts_with("maps/a.hex.map: is a stored map"));
    let (exit, _, said) = all(&run(&here, &["--to", "code/a.hex", "code"]));
    assert_eq!(exit, 2);
    assert_eq!(said, "code/a.hex: is a file, and --to takes a folder\n");
}

#[test]
fn two_contracts_are_not_stored_in_one_file() {
    let here = folder("twice");
    put(&here, "a/x.hex", "00");
    put(&here, "b/x.hex", "5b");
    let (exit, _, said) = all(&run(&here, &["--to", "maps", "a", "b"]));
    assert_eq!(exit, 1);
    assert!(said.starts_with("b/x.hex: is not stored"), "{said}");
    let kept = fs::read(here.join("maps/x.hex.map")).expect("the first is stored");
    assert_eq!(kept[6], 1);
    assert_eq!(kept[28], 1, "the first contract succeeds");
}

#[test]
fn wrong_words_are_told_and_help_is_given() {
    let here = folder("words");
    for words in [
        &[][..],
        &["--limt", "3", "x"],
        &["--limit"],
        &["--limit", "x", "y"],
    ] {
        let (exit, out, said) = all(&run(&here, words));
        assert_eq!((exit, out.as_str()), (2, ""));
        assert!(said.ends_with("Try 'aznifrem --help'.\n"), "{said}");
    }
    assert_eq!(all(&run(&here, &["diff", "one"])).0, 2);
    for (words, says) in [
        (&["--help"][..], "aznifrem diff [OPTIONS] OLD NEW"),
        (&["-h"], "a line == PATH before each"),
        (&["map", "-h"], "a line == PATH before each"),
        (&["diff", "--help"], "aznifrem diff [OPTIONS] OLD NEW"),
    ] {
        let (exit, out, said) = all(&run(&here, words));
        assert_eq!((exit, said.as_str()), (0, ""));
        assert!(out.contains(says), "{out}");
        assert!(out.lines().all(|line| line.chars().count() <= 80), "{out}");
    }
    let (exit, out, _) = all(&run(&here, &["--version"]));
    assert_eq!((exit, out.starts_with("aznifrem ")), (0, true));
}
