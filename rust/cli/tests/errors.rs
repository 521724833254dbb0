//! Each message says what is wrong, and what helps.

mod common;

use std::fs::{self, File};
use std::path::Path;
use std::process::{Command, Output};

use common::{all, folder, put, run};

const RETURN: &str = "60056007565b005b56";

/// Exit and standard error of a command that prints nothing.
fn said(here: &Path, words: &[&str]) -> (i32, String) {
    let (exit, out, said) = all(&run(here, words));
    assert_eq!(out, "", "{words:?}");
    (exit, said)
}

/// A command that is not understood: one sentence, and where to read on.
fn asked_wrongly(here: &Path, words: &[&str], sentence: &str) {
    let (exit, said) = said(here, words);
    let lines: Vec<&str> = said.lines().collect();
    assert_eq!(exit, 2, "{said}");
    assert_eq!(lines[0], format!("aznifrem: {sentence}"));
    assert!(
        lines.len() == 2 && lines[1].starts_with("Try 'aznifrem"),
        "{said}"
    );
}

fn with_input(here: &Path, file: &str, words: &[&str]) -> Output {
    let input = File::open(here.join(file)).expect("it is there");
    let mut command = Command::new(env!("CARGO_BIN_EXE_aznifrem"));
    let command = command.args(words).current_dir(here).stdin(input);
    command.output().expect("the program runs")
}

#[test]
fn values_that_cannot_be_are_usage_errors() {
    let here = folder("values");
    put(&here, "code/a.hex", RETURN);
    put(&here, "code/b.hex", RETURN);
    let empty = "--to takes a folder, and its name is empty";
    asked_wrongly(&here, &["--to", "", "code"], empty);
    asked_wrongly(&here, &["--to=", "code"], empty);
    let limit = "--limit takes a whole number from 0 to 500000, not";
    asked_wrongly(
        &here,
        &["--limit", "500001", "code"],
        &format!("{limit} '500001'"),
    );
    asked_wrongly(&here, &["--limit=-1", "code"], &format!("{limit} '-1'"));
    let jobs = "--jobs takes a whole number from 1 to 1024, not '0'";
    asked_wrongly(&here, &["--jobs", "0", "code"], jobs);
    let pattern = "--include takes a pattern, and it is empty";
    asked_wrongly(&here, &["--include=", "code"], pattern);
    asked_wrongly(&here, &["--quiet=1", "code"], "--quiet takes no value");
    asked_wrongly(&here, &["code", "--to"], "--to needs a value after it");
    asked_wrongly(
        &here,
        &["--sumary", "x"],
        "'--sumary' is no option: is --summary meant?",
    );
    asked_wrongly(
        &here,
        &["show", "--frob", "x"],
        "'--frob' is no option of show",
    );
    asked_wrongly(
        &here,
        &["code", ""],
        "the name of a file or folder is empty",
    );
    let twice = "- is standard input, which can be read once, and stands 2 times";
    asked_wrongly(&here, &["-", "code", "-"], twice);
    asked_wrongly(&here, &["show", "-", "-"], twice);
    asked_wrongly(
        &here,
        &["man", "it"],
        "man takes nothing, and one word is given",
    );
    let mistyped = "'dif' is no file and no command: is diff meant?";
    asked_wrongly(&here, &["dif", "old", "new"], mistyped);
    asked_wrongly(&here, &["help", "me"], "there is no command 'me'");
    // Nothing was begun.
    assert_eq!(fs::read_dir(&here).expect("it is a folder").count(), 1);
    // A file of that name is a file.
    put(&here, "dif", RETURN);
    assert_eq!(all(&run(&here, &["--lines", "dif"])).0, 0);
}

#[test]
fn hex_names_what_is_no_digit_and_where() {
    let here = folder("no-digit");
    put(&here, "text", "6000\n  no contract\n");
    put(&here, "bytes", [0x36, 0x30, 0x80, 0x60]);
    put(&here, "library", format!("{RETURN}__$library$__"));
    put(&here, "prefix twice", "0x60 0x00");
    put(&here, "odd", "0x600");
    for (name, what) in [
        ("text", "'n' at line 2, column 3"),
        ("bytes", "the byte 0x80 at line 1, column 3"),
        ("library", "'_' at line 1, column 19"),
        ("prefix twice", "'x' at line 1, column 7"),
    ] {
        let sentence = format!(
            "{name}: has {what}, and that is no hexadecimal digit: link its libraries if it names some, or leave --hex out if these are the code's bytes\n"
        );
        assert_eq!(said(&here, &["--hex", name]), (1, sentence));
    }
    let odd = "odd: has 3 hexadecimal digits, and a code has two for each byte\n";
    assert_eq!(said(&here, &["--hex", "odd"]), (1, odd.into()));
}

#[test]
fn what_was_printed_is_told_from_what_was_stored() {
    let here = folder("printed");
    put(&here, "a.hex", RETURN);
    put(&here, "b.hex", RETURN);
    run(&here, &["--to", "maps", "a.hex"]);
    let print = |name: &str, words: &[&str]| {
        let (exit, out, _) = all(&run(&here, words));
        assert_eq!(exit, 0);
        put(&here, name, out);
    };
    print("lines", &["--lines", "a.hex"]);
    print("titled", &["--lines", "a.hex", "b.hex"]);
    print("json", &["--json", "a.hex"]);
    print("summary", &["--summary", "a.hex"]);
    for (name, how) in [
        ("lines", ", as --lines prints it"),
        ("titled", ", as --lines prints it"),
        ("json", ", as --json prints it"),
        ("summary", ""),
    ] {
        let sentence =
            format!("{name}: is no stored map: it is text{how}; --to stores maps, as files .map\n");
        assert_eq!(said(&here, &["show", name]), (1, sentence.clone()));
        let (exit, _, said) = all(&run(&here, &["diff", "maps/a.hex.map", name]));
        assert_eq!((exit, said), (2, sentence));
    }
}

#[test]
fn a_file_that_holds_nothing_is_told_and_mapped() {
    let here = folder("nothing");
    put(&here, "empty", "");
    put(&here, "blank", " \n");
    put(&here, "written", "0x\n");
    let empty = "0c0000000100000000000000000000000000\n";
    let note = "holds nothing, and is mapped as a contract without code: that is written 0x\n";
    for name in ["empty", "blank"] {
        let told = format!("{name}: {note}");
        assert_eq!(all(&run(&here, &[name])), (0, empty.into(), told));
        let input = all(&with_input(&here, name, &["-"]));
        assert_eq!(input, (0, empty.into(), format!("-: {note}")));
    }
    let silent = (0, empty.into(), String::new());
    assert_eq!(all(&run(&here, &["written"])), silent);
    assert_eq!(all(&run(&here, &["--binary", "empty"])), silent);
    assert_eq!(all(&run(&here, &["--hex", "blank"])), silent);
    let map = "empty: is no stored map: it is empty, and a map begins with a head; make the map again from the code, or fetch the stored file again\n";
    assert_eq!(said(&here, &["show", "empty"]), (1, map.into()));
}

#[test]
fn a_folder_without_contracts_is_told() {
    let here = folder("none");
    put(&here, "code/notes.md", "tonight");
    put(&here, "code/deep/a.txt", "tonight");
    fs::create_dir(here.join("bare")).expect("a folder can be made");
    let none = "bare: no contract is in it\n";
    assert_eq!(said(&here, &["bare"]), (1, none.into()));
    let left = "code: no contract is in it that --include and --exclude take\n";
    assert_eq!(
        said(&here, &["--include", "*.hex", "code"]),
        (1, left.into())
    );
    // What is named by itself is taken whatever the patterns are.
    put(&here, "a.bin", [0x60, 0x00]);
    let (exit, out, _) = all(&run(&here, &["--include", "*.hex", "a.bin"]));
    assert_eq!((exit, out.lines().count()), (0, 2));
}

#[test]
fn a_folder_that_cannot_be_stored_in_is_one_error() {
    let here = folder("no-store");
    put(&here, "code/a.hex", RETURN);
    put(&here, "code/b.hex", RETURN);
    put(&here, "file", "");
    let (exit, said) = said(&here, &["--to", "file/maps", "code"]);
    assert_eq!((exit, said.lines().count()), (2, 1), "{said}");
    assert!(
        said.starts_with("cannot write file/maps/unfinished.txt: "),
        "{said}"
    );
}
