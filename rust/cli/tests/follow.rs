//! `aznifrem follow`: logs that are in the map, that leave it, and that are none.

mod common;

use common::{all, folder, put, run};

const CODE: &str = "60056007565b005b56";

fn log(steps: &[u64]) -> Vec<u8> {
    steps.iter().flat_map(|step| step.to_le_bytes()).collect()
}

fn stored(name: &str, steps: &[u64]) -> std::path::PathBuf {
    let folder = folder(name);
    put(&folder, "code.hex", CODE);
    put(&folder, "log", log(steps));
    assert_eq!(all(&run(&folder, &["--to", "maps", "code.hex"])).0, 0);
    folder
}

const WORDS: [&str; 4] = ["follow", "maps/code.hex.map", "code.hex", "log"];

#[test]
fn all_steps_are_in_the_map() {
    let folder = stored("follow-whole", &[0, 2, 4, 7, 8, 5, 6]);
    let (exit, text, told) = all(&run(&folder, &WORDS));
    let wanted = "steps 7, in the map 7; block entries 3; blocks entered 3 of 3\n  0-4 Jump: 1, to 7 1\n  5-6 Terminate: 1\n  7-8 Jump: 1, to 5 1\n";
    assert_eq!((exit, text.as_str(), told.as_str()), (0, wanted, ""));
    let (exit, text, _) = all(&run(&folder, &[&WORDS[..], &["--json"]].concat()));
    assert_eq!(exit, 0);
    assert!(
        text.starts_with(
            "{\"steps\":7,\"place\":7,\"left\":null,\"blocks\":[{\"start\":0,\"entered\":1,"
        ),
        "{text}"
    );
    let (exit, text, _) = all(&run(&folder, &[&WORDS[..], &["--dot"]].concat()));
    assert_eq!(exit, 0);
    assert!(text.contains("  7 -> 5 [label=\"1\"];\n"), "{text}");
}

#[test]
fn a_step_that_is_not_in_the_map_is_told_with_what_was_expected() {
    let told = |name: &str, steps: &[u64]| {
        let (exit, _, told) = all(&run(&stored(name, steps), &WORDS));
        assert_eq!(exit, 1);
        told
    };
    let edge = told("follow-edge", &[0, 2, 4, 7, 8, 0]);
    assert_eq!(
        edge,
        "log: step 5, at 0, is not in the map; behind the block 7-8 comes 5\n"
    );
    let inside = told("follow-inside", &[0, 1]);
    assert_eq!(
        inside,
        "log: step 1, at 1, is not in the map; behind 0 comes 2, up to the block's end at 4\n"
    );
    let behind = told("follow-behind", &[0, 2, 4, 7, 8, 5, 6, 7]);
    assert_eq!(
        behind,
        "log: step 7, at 7, is not in the map; nothing follows the block 5-6\n"
    );
    let first = told("follow-first", &[5]);
    assert_eq!(
        first,
        "log: step 0, at 5, is not in the map; a log begins at 0, with the map's first block\n"
    );
}

#[test]
fn entries_are_told_from_blocks() {
    let folder = stored("follow-entries", &[0, 2, 4]);
    let first = |out: String| out.lines().next().map(String::from);
    let one = "steps 3, in the map 3; block entries 1; blocks entered 1 of 3";
    assert_eq!(first(all(&run(&folder, &WORDS)).1).as_deref(), Some(one));
    put(&folder, "loop.hex", "5b600056");
    put(&folder, "log", log(&[0, 1, 3, 0, 1]));
    assert_eq!(all(&run(&folder, &["--to", "loop", "loop.hex"])).0, 0);
    let words = ["follow", "loop/loop.hex.map", "loop.hex", "log"];
    let two = "steps 5, in the map 5; block entries 2; blocks entered 1 of 1";
    assert_eq!(first(all(&run(&folder, &words)).1).as_deref(), Some(two));
}

#[test]
fn a_jump_without_destination_ends_otherwise_than_a_stop() {
    let folder = stored("follow-unknown", &[]);
    put(&folder, "code.hex", "5f35565b00");
    put(&folder, "log", log(&[0, 1, 2, 3]));
    assert_eq!(all(&run(&folder, &["--to", "open", "code.hex"])).0, 0);
    let words = ["follow", "open/code.hex.map", "code.hex", "log", "--json"];
    let (exit, out, told) = all(&run(&folder, &words));
    let expected = "the map knows no destination of the block 0-2";
    let sentence = format!("log: step 3, at 3, is not in the map; {expected}\n");
    assert_eq!((exit, told), (1, sentence));
    let left = format!("\"place\":3,\"left\":{{\"counter\":3,\"expected\":\"{expected}\"}},");
    assert!(out.contains(&left), "{out}");
}

#[test]
fn the_code_is_the_maps_and_in_the_form_that_is_said() {
    let folder = stored("follow-code", &[0, 2, 4]);
    put(&folder, "other.hex", "6003565b00");
    let with = |code: &str, form: &[&str]| {
        let words = [&["follow", WORDS[1], code, "log"], form].concat();
        all(&run(&folder, &words))
    };
    let sentence =
        "other.hex: is not the code of the map: it has 5 bytes, and the map is of a code of 9\n";
    let refused = (2, String::new(), sentence.into());
    assert_eq!(with("other.hex", &[]), refused);
    // Nine bytes that are text: a code with --binary alone, as the message says.
    put(&folder, "text", "not a hex");
    let (exit, _, told) = with("text", &[]);
    assert_eq!(
        (exit, told.starts_with("text: is text")),
        (2, true),
        "{told}"
    );
    assert!(told.contains("--binary"));
    assert_eq!(with("text", &["--binary"]).0, 1);
    let (exit, _, told) = with("text", &["--hex"]);
    assert_eq!(
        (exit, told.starts_with("text: has 'n' at line 1")),
        (2, true)
    );
    let (exit, _, told) = with("code.hex", &["--binary"]);
    assert_eq!(exit, 2);
    assert!(told.contains("it has 18 bytes"), "{told}");
    assert_eq!(with("code.hex", &["--hex"]).0, 0);
    let (exit, _, told) = with("nowhere", &[]);
    assert_eq!(
        (exit, told.starts_with("nowhere: cannot be read")),
        (2, true)
    );
}

#[test]
fn what_is_no_log_is_told() {
    let folder = stored("follow-none", &[0]);
    put(&folder, "log", [0; 9]);
    let (exit, text, told) = all(&run(&folder, &WORDS));
    let wanted = "log: is no log: it has 9 bytes, and a step has 8\n";
    assert_eq!((exit, text.as_str(), told.as_str()), (2, "", wanted));
    assert_eq!(all(&run(&folder, &WORDS[..3])).0, 2);
}
