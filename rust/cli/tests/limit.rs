//! What limit would have been enough, by the numbers of stored records.

mod common;

use common::{all, folder, put, run};

/// A call and its return; one block; two callers of one return.
const CODES: [&str; 3] = ["60056007565b005b56", "00", "6005600d565b600b600d565b005b56"];

fn stored(name: &str, words: &[&str]) -> std::path::PathBuf {
    let here = folder(name);
    for (at, code) in CODES.iter().enumerate() {
        put(&here, &format!("code/{at}.hex"), code);
    }
    let words = [words, &["--to", "maps", "code"]].concat();
    assert_eq!(all(&run(&here, &words)).0, 0);
    here
}

#[test]
fn a_map_and_a_folder_say_their_lowest_limit() {
    let here = stored("limit-said", &["--numbers"]);
    let (exit, out, said) = all(&run(&here, &["limit", "maps"]));
    let lines = "1 maps/0.hex.map\n0 maps/1.hex.map\n3 maps/2.hex.map\n3 for all of 3\n";
    assert_eq!((exit, out.as_str(), said.as_str()), (0, lines, ""));
    let (exit, out, _) = all(&run(&here, &["limit", "maps/2.hex.map"]));
    assert_eq!((exit, out.as_str()), (0, "3 maps/2.hex.map\n"));
}

#[test]
fn that_limit_finds_every_jump_and_a_lower_one_does_not() {
    let here = stored("limit-held", &["--numbers"]);
    let lines = |limit: &str| {
        let words = ["--lines", "--numbers", "--limit", limit, "code/2.hex"];
        let (exit, out, _) = all(&run(&here, &words));
        assert_eq!(exit, 0);
        // The head has the energy, which goes on after the last jump.
        out.lines().skip(1).map(str::to_owned).collect::<Vec<_>>()
    };
    assert_eq!(lines("3"), lines("500000"));
    assert_ne!(lines("2"), lines("500000"));
}

#[test]
fn maps_without_numbers_are_told() {
    let here = stored("limit-without", &[]);
    let (exit, out, said) = all(&run(&here, &["limit", "maps"]));
    // A map with no record needs no number; there is no limit for all.
    assert_eq!((exit, out.as_str()), (1, "0 maps/1.hex.map\n"));
    assert!(
        said.contains("maps/0.hex.map: its records have no numbers"),
        "{said}"
    );
    assert!(
        said.contains("maps/2.hex.map: its records have no numbers"),
        "{said}"
    );
}

#[test]
fn half_a_night_is_not_taken_for_a_whole_one() {
    let here = stored("limit-half", &["--numbers"]);
    put(&here, "maps/unfinished.txt", "");
    let (exit, out, said) = all(&run(&here, &["limit", "maps"]));
    assert_eq!((exit, out.as_str()), (2, ""));
    assert!(said.contains("is not over, or was cut short"), "{said}");
}

#[test]
fn contracts_without_a_map_are_counted() {
    let here = stored("limit-refused", &["--numbers"]);
    let line = r#"{"contract":"3.hex","path":"code/3.hex","number":1,"reason":"too long"}"#;
    put(&here, "maps/refused.jsonl", line);
    let (exit, out, _) = all(&run(&here, &["limit", "maps"]));
    assert_eq!(exit, 0);
    assert!(
        out.ends_with("3 for all of 3; 1 more have no map\n"),
        "{out}"
    );
}
