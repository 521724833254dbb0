//! Archives of stored maps: made, salvaged, taken apart.

mod common;

use std::fs;
use std::path::Path;

use common::{all, folder, put, run};

const CODES: [&str; 3] = ["60056007565b005b56", "00", "6003565b00"];

/// A folder with the maps of three codes, and their archive `whole`, of so many bytes.
fn archived(name: &str) -> (std::path::PathBuf, Vec<u8>) {
    let here = folder(name);
    for (at, code) in CODES.iter().enumerate() {
        put(&here, &format!("code/{at}.hex"), code);
    }
    assert_eq!(all(&run(&here, &["--to", "maps", "code"])).0, 0);
    let (exit, out, said) = all(&run(&here, &["archive", "maps", "whole"]));
    let whole = fs::read(here.join("whole")).expect("it is made");
    let line = format!("maps: 3, bytes: {}\n", whole.len());
    assert_eq!((exit, out, said), (0, line, String::new()));
    (here, whole)
}

fn files(folder: &Path) -> Vec<String> {
    let read = fs::read_dir(folder).expect("the folder is there");
    let name = |entry: fs::DirEntry| entry.file_name().into_string().expect("it is text");
    let mut names: Vec<String> = read.map(|entry| name(entry.expect("it is read"))).collect();
    names.sort();
    names
}

#[test]
fn a_whole_archive_comes_out_equal_and_it_is_said() {
    let (here, whole) = archived("archive-whole");
    for window in ["1", "40", "16777216"] {
        let out = format!("out-{window}");
        let words = ["salvage", "--window", window, "whole", &out];
        let length = whole.len();
        let printed = format!(
            "maps copied: 3\nbytes copied: {length}\nbytes dropped: 0\narchive's length: {length}\nnothing was dropped\n"
        );
        assert_eq!(all(&run(&here, &words)), (0, printed, String::new()));
        assert_eq!(fs::read(here.join(&out)).expect("it is there"), whole);
    }
}

#[test]
fn a_cut_archive_gives_the_maps_before_the_cut() {
    let (here, whole) = archived("archive-cut");
    let first = fs::read(here.join("maps/0.hex.map")).expect("it is stored");
    put(&here, "cut", &whole[..first.len() + 20]);
    let (exit, out, _) = all(&run(&here, &["salvage", "cut", "saved"]));
    let printed = format!(
        "maps copied: 1\nbytes copied: {0}\nbytes dropped: 20\nfirst bad entry: {1}\n",
        first.len(),
        first.len() + 18
    );
    assert_eq!((exit, out), (1, printed));
    assert_eq!(fs::read(here.join("saved")).expect("it is there"), first);
    let cut = fs::read(here.join("cut")).expect("it is there");
    assert_eq!(cut, whole[..first.len() + 20]);
}

#[test]
fn nothing_is_overwritten_and_no_half_file_stays() {
    let (here, whole) = archived("archive-kept");
    put(&here, "other", "mine");
    for words in [
        ["salvage", "whole", "whole"],
        ["salvage", "whole", "other"],
        ["salvage", "none", "fresh"],
        ["archive", "maps", "other"],
    ] {
        let (exit, out, said) = all(&run(&here, &words));
        assert_eq!((exit, out.as_str()), (2, ""), "{words:?}");
        assert!(!said.is_empty());
    }
    assert_eq!(fs::read(here.join("whole")).expect("it is there"), whole);
    assert_eq!(fs::read(here.join("other")).expect("it is there"), b"mine");
    // A folder is opened, and cannot be read.
    let (exit, _, said) = all(&run(&here, &["salvage", "maps", "fresh"]));
    assert_eq!(exit, 2);
    assert!(said.contains("maps: cannot be read"), "{said}");
    put(&here, "maps/bad.map", &whole[..30]);
    let (exit, _, said) = all(&run(&here, &["archive", "maps", "fresh"]));
    assert_eq!(exit, 1);
    assert!(said.contains("bad.map: is no stored map"), "{said}");
    assert_eq!(files(&here), ["code", "maps", "other", "whole"]);
    // What another run writes is its own.
    put(&here, "fresh.part", "theirs");
    let (exit, _, said) = all(&run(&here, &["salvage", "whole", "fresh"]));
    assert_eq!(exit, 2);
    assert!(
        said.contains("fresh.part: is there already, left"),
        "{said}"
    );
    let part = fs::read(here.join("fresh.part"));
    assert_eq!(part.expect("it is there"), b"theirs");
}

#[test]
fn standard_input_is_no_archive() {
    let (here, _) = archived("archive-dash");
    for (command, words) in [
        ("archive", ["-", "fresh"]),
        ("archive", ["maps", "-"]),
        ("salvage", ["-", "fresh"]),
        ("salvage", ["whole", "-"]),
        ("unpack", ["-", "fresh"]),
        ("unpack", ["whole", "-"]),
        ("diff", ["-", "maps"]),
        ("diff", ["maps", "-"]),
    ] {
        let (exit, out, said) = all(&run(&here, &[command, words[0], words[1]]));
        assert_eq!((exit, out.as_str()), (2, ""), "{command} {words:?}");
        let sentence = format!(
            "aznifrem: {command} takes files and folders by name, not standard input; a file of that name is './-'\n"
        );
        assert!(said.starts_with(&sentence), "{said}");
    }
    assert_eq!(files(&here), ["code", "maps", "whole"]);
    assert_eq!(all(&run(&here, &["archive", "maps", "./-"])).0, 0);
}

#[test]
fn an_archive_without_a_byte_is_told() {
    let here = folder("archive-empty");
    put(&here, "none", "");
    for words in [["salvage", "none", "out"], ["unpack", "none", "parts"]] {
        let (exit, out, said) = all(&run(&here, &words));
        assert_eq!((exit, out.starts_with("maps copied: 0\n")), (0, true));
        assert_eq!(said, "none: is empty: no map is in it\n");
    }
}

#[test]
fn an_archive_that_is_shown_is_told_from_a_bad_map() {
    let (here, whole) = archived("archive-shown");
    let sentence = "is no stored map: it is an archive of them; unpack takes it apart\n";
    put(&here, "cut", &whole[..whole.len() - 1]);
    for name in ["whole", "cut"] {
        let wanted = (1, String::new(), format!("{name}: {sentence}"));
        assert_eq!(all(&run(&here, &["show", name])), wanted);
    }
}

#[test]
fn an_archive_is_made_of_a_folder_that_is_there_and_outside_of_it() {
    let (here, _) = archived("archive-outside");
    let (exit, out, said) = all(&run(&here, &["archive", "nope", "fresh"]));
    assert_eq!((exit, out.as_str()), (2, ""));
    assert!(said.starts_with("nope: cannot be read: "), "{said}");
    fs::create_dir(here.join("maps/deep")).expect("a folder can be made");
    for to in ["maps/all.map", "maps/deep/all"] {
        let sentence =
            format!("{to}: lies in the folder that is archived: give a file outside of it\n");
        let words = ["archive", "maps", to];
        assert_eq!(all(&run(&here, &words)), (2, String::new(), sentence));
    }
    assert_eq!(files(&here), ["code", "maps", "whole"]);
}

#[test]
fn an_archive_is_taken_apart_and_made_again() {
    let (here, whole) = archived("archive-apart");
    let words = ["unpack", "--window", "10", "whole", "parts"];
    assert_eq!(all(&run(&here, &words)).0, 0);
    let names = ["00000001.map", "00000002.map", "00000003.map"];
    assert_eq!(files(&here.join("parts")), names);
    for (name, at) in names.iter().zip(0..) {
        let stored = fs::read(here.join(format!("maps/{at}.hex.map")));
        let part = fs::read(here.join("parts").join(name));
        assert_eq!(part.ok(), stored.ok());
    }
    assert_eq!(all(&run(&here, &["archive", "parts", "again"])).0, 0);
    assert_eq!(fs::read(here.join("again")).expect("it is there"), whole);
    let (exit, _, said) = all(&run(&here, &["unpack", "whole", "parts"]));
    assert_eq!(exit, 2);
    assert!(said.contains("holds maps already"), "{said}");
    // Where it does not come to its end, the folder is not taken for the whole.
    put(&here, "half/00000002.map/notes.txt", "in the way");
    assert_eq!(all(&run(&here, &["unpack", "whole", "half"])).0, 2);
    let names_of_half = ["00000001.map", "00000002.map", "unfinished.txt"];
    assert_eq!(files(&here.join("half")), names_of_half);
    for words in [
        &["report", "half"][..],
        &["archive", "half", "fresh"],
        &["diff", "parts", "half"],
    ] {
        let (exit, out, said) = all(&run(&here, words));
        assert_eq!((exit, out.as_str()), (2, ""), "{words:?}");
        let sentence = "half: the run that stores maps here is not over, or was cut short";
        assert!(said.starts_with(sentence), "{said}");
    }
    // Of a damaged archive, the maps before the damage.
    put(&here, "cut", &whole[..whole.len() - 1]);
    assert_eq!(all(&run(&here, &["unpack", "cut", "two"])).0, 1);
    assert_eq!(files(&here.join("two")), names[..2]);
}
