//! `diff`: its rows and verdicts, for readers and for machines, drawn and as a page.

mod common;

use std::fs;
use std::path::Path;

use common::{all, folder, put, run};

/// Two callers of one function; it returns to 5 and to 11.
const CALLERS: &str = "6005600d565b600b600d565b005b56";
/// The same with two bytes that nothing enters before the function: 13 is 15 then.
const MOVED: &str = "6005600f565b600b600f565b00fefe5b56";
/// The second caller returns to 5 too.
const ELSEWHERE: &str = "6005600d565b6005600d565b005b56";

/// Nights: `a` stays, `b` is moved, `c` changes, `d` goes, `e` comes.
fn nights(name: &str) -> std::path::PathBuf {
    let here = folder(name);
    for (side, night) in [
        ("code1", [CALLERS; 3]),
        ("code2", [CALLERS, MOVED, ELSEWHERE]),
    ] {
        for (contract, code) in ["a.hex", "b.hex", "deep/c.hex"].into_iter().zip(night) {
            put(&here, &format!("{side}/{contract}"), code);
        }
    }
    put(&here, "code1/d.hex", "00");
    put(&here, "code2/e.hex", "5b00");
    map(&here, "old", "code1");
    map(&here, "new", "code2");
    here
}

fn map(here: &Path, to: &str, code: &str) {
    assert_eq!(all(&run(here, &["--to", to, code])).0, 0);
}

const UP_TO: &str = "b.hex.map: equal up to addresses: blocks 4 -> 4, dynamic 1 -> 1, unresolved 0 -> 0, records 2 -> 2, energy 5 -> 5\n";
const REST: &str = "d.hex.map: map went: blocks 1, dynamic 0, unresolved 0, records 0, energy 0
deep/c.hex.map: block went: 11-12 Terminate, success
deep/c.hex.map: block changed: 13-14 DynamicJump -> 13-14 Jump, merged
deep/c.hex.map: jump moved: block 13 by path 13, 5: 11 -> 5
deep/c.hex.map: different: blocks 4 -> 3, dynamic 1 -> 0, unresolved 0 -> 0, records 2 -> 2, energy 5 -> 5
e.hex.map: map came: blocks 1, dynamic 0, unresolved 0, records 0, energy 0
verdicts: equal 1, equal up to addresses 1, different 1
";

#[test]
fn rows_and_verdicts_are_printed() {
    let here = nights("rows-and-verdicts");
    let (exit, out, said) = all(&run(&here, &["diff", "--matched", "old", "new"]));
    assert_eq!((exit, said.as_str()), (1, ""));
    // Blocks matched, the 13 of b is its 15.
    assert_eq!(out, format!("{UP_TO}{REST}maps: 5, differences: 5\n"));
    // By address, which is the default, 13 is not 15.
    let (exit, out, _) = all(&run(&here, &["diff", "old", "new"]));
    assert_eq!(exit, 1);
    assert!(
        out.contains("b.hex.map: block came: 15-16 DynamicJump\n"),
        "{out}"
    );
    assert!(out.contains(UP_TO) && out.contains(REST), "{out}");
    // Blocks matched, what is equal up to addresses has no row.
    let pair = ["diff", "--matched", "old/b.hex.map", "new/b.hex.map"];
    assert_eq!(all(&run(&here, &pair)).0, 0);
    let (exit, out, _) = all(&run(&here, &["diff", "old/a.hex.map", "new/a.hex.map"]));
    let line =
        "equal: blocks 4 -> 4, dynamic 1 -> 1, unresolved 0 -> 0, records 2 -> 2, energy 5 -> 5\n";
    assert_eq!((exit, out), (0, format!("{line}maps: 1, differences: 0\n")));
}

#[test]
fn unresolved_jumps_that_rose_stand_out() {
    let here = folder("rose");
    put(&here, "code/a.hex", "60056007565b005b56");
    map(&here, "old", "code");
    assert_eq!(
        all(&run(&here, &["--limit", "0", "--to", "new", "code"])).0,
        0
    );
    let (_, out, _) = all(&run(&here, &["diff", "old", "new"]));
    assert!(
        out.contains("a.hex.map: different, UNRESOLVED JUMPS ROSE BY 1: "),
        "{out}"
    );
    assert!(
        out.contains("different 1; UNRESOLVED JUMPS ROSE IN 1\n"),
        "{out}"
    );
}

#[test]
fn instructions_count_where_the_codes_are_at_hand() {
    let here = nights("instructions");
    let words = |more: &[&'static str]| {
        [
            &["diff", "--old-code", "code1", "--new-code", "code2"],
            more,
        ]
        .concat()
    };
    let (exit, out, said) = all(&run(&here, &words(&["--matched", "old", "new"])));
    assert_eq!((exit, said.as_str()), (1, ""));
    assert!(out.starts_with(UP_TO), "{out}");
    // The second caller's block pushes another address.
    assert!(
        out.contains("deep/c.hex.map: instructions changed: block 5-10\n"),
        "{out}"
    );
    // Code that is another's, or is not there, is told, and the map is not compared.
    let same = [
        "diff",
        "--old-code",
        "code2",
        "--new-code",
        "code2",
        "old",
        "new",
    ];
    let (exit, out, said) = all(&run(&here, &same));
    assert_eq!(exit, 2);
    assert!(
        said.starts_with("code2/b.hex: is not the code of the map: it has 17 bytes"),
        "{said}"
    );
    assert!(out.ends_with(", not compared: 1\n"), "{out}");
    let (exit, _, said) = all(&run(&here, &["diff", "--old-code", "code1", "old", "new"]));
    assert_eq!(exit, 2);
    assert!(
        said.starts_with("aznifrem: --old-code and --new-code are given together"),
        "{said}"
    );
    let missing = [
        "diff",
        "--old-code",
        "code1",
        "--new-code",
        "nowhere",
        "old",
        "new",
    ];
    let (exit, _, said) = all(&run(&here, &missing));
    assert_eq!(exit, 2);
    assert!(said.starts_with("nowhere: cannot be read"), "{said}");
}

#[test]
fn machines_read_an_object_a_line() {
    let here = nights("json-rows");
    put(&here, "old/f.map", "no map");
    put(&here, "new/f.map", "no map");
    let (exit, out, _) = all(&run(&here, &["diff", "--json", "old", "new"]));
    assert_eq!(exit, 2);
    let lines: Vec<&str> = out.lines().collect();
    let begin = [
        r#"{"contract":"a.hex.map","verdict":"equal","unresolved_rose":0,"#,
        r#"{"contract":"b.hex.map","verdict":"equal up to addresses","#,
        r#"{"contract":"d.hex.map","verdict":"went","old":{"bytes":1,"blocks":1,"#,
        r#"{"contract":"deep/c.hex.map","verdict":"different","#,
        r#"{"contract":"e.hex.map","verdict":"came","new":{"bytes":2,"#,
        r#"{"contract":"f.map","verdict":"not compared","faults":["old/f.map: is no stored map: "#,
        r#"{"maps":6,"equal":1,"equal_up_to_addresses":1,"different":1,"came":1,"went":1,"refused":0,"not_compared":1,"#,
    ];
    assert_eq!(lines.len(), begin.len());
    for (line, begin) in lines.iter().zip(begin) {
        assert!(line.starts_with(begin), "{line}");
    }
    let row = r#"{"row":"jump moved","block":13,"path":[13,5],"before":11,"after":5}]}"#;
    assert!(lines[3].ends_with(row), "{}", lines[3]);
    assert!(
        lines[6].ends_with(r#""unresolved_rose_in":0}"#),
        "{}",
        lines[6]
    );
}

#[test]
fn maps_are_drawn_for_graphviz() {
    let here = nights("drawn");
    let (exit, one, _) = all(&run(&here, &["--dot", "code1/a.hex"]));
    assert_eq!(exit, 0);
    assert!(
        one.starts_with("digraph {\nlabel=\"code1/a.hex: blocks 4, dynamic 1, "),
        "{one}"
    );
    assert!(one.contains("b13 -> b5 [style=dashed, label=1];"), "{one}");
    let (exit, shown, _) = all(&run(&here, &["show", "--dot", "old/a.hex.map"]));
    assert_eq!(
        (exit, shown.replace("old/a.hex.map", "code1/a.hex")),
        (0, one)
    );
    let (exit, two, _) = all(&run(&here, &["diff", "--dot", "old", "new"]));
    assert_eq!((exit, two.matches("digraph").count()), (1, 2), "{two}");
    assert!(
        two.contains("o11 [label=\"11-12 (0xb-0xc)\\nTerminate, success\", fillcolor=lightpink];"),
        "{two}"
    );
}

#[test]
fn a_night_is_a_page() {
    let here = nights("page");
    let (exit, out, said) = all(&run(&here, &["diff", "--html", "night.html", "old", "new"]));
    assert_eq!((exit, said.as_str()), (1, ""));
    assert!(out.contains(REST), "{out}");
    let page = fs::read_to_string(here.join("night.html")).expect("it is written");
    assert!(page.starts_with("<!doctype html>") && page.contains("What moved from old to new"));
    assert_eq!(
        page.matches("<svg xmlns").count(),
        2,
        "one contract differs"
    );
    assert!(!here.join("night.html.part").exists());
    let (exit, _, said) = all(&run(
        &here,
        &["diff", "--html", "no/night.html", "old", "new"],
    ));
    assert_eq!(exit, 2);
    assert!(
        said.starts_with("no/night.html: cannot be written: "),
        "{said}"
    );
}

#[test]
fn a_page_is_written_over_no_map() {
    let here = folder("no-page");
    put(&here, "a.hex", "00");
    assert_eq!(all(&run(&here, &["--to", "maps", "a.hex"])).0, 0);
    let map = fs::read(here.join("maps/a.hex.map")).expect("it is stored");
    put(&here, "kept", &map);
    for (page, why) in [
        ("maps/a.hex.map", "maps/a.hex.map: is no name of a page"),
        ("new.map", "new.map: is no name of a page"),
        ("kept", "kept: is a stored map"),
        ("maps", "maps: is a folder, and --html takes a file"),
        ("", "aznifrem: --html takes a file, and its name is empty"),
        ("-", "aznifrem: --html takes files and folders by name"),
    ] {
        let words = ["diff", "--html", page, "maps", "maps"];
        let (exit, out, said) = all(&run(&here, &words));
        assert_eq!((exit, out.as_str()), (2, ""), "{page}");
        assert!(said.starts_with(why), "{said}");
    }
    for name in ["maps/a.hex.map", "kept"] {
        assert_eq!(fs::read(here.join(name)).expect("it is there"), map);
    }
    let names = fs::read_dir(&here).expect("it is a folder");
    assert_eq!(names.count(), 3);
}
