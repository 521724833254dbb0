//! The lists that the definitions are held to, through the library's entry.

use std::fs;
use std::path::Path;

use aznifrem::{Map, Mapper, call};
use codes::{Random, from_hex, to_hex};
use differential::fenced_call;
use model::Lent;

/// What counts as endless here: no line of the lists needs as much of any room but W, of which a long code needs more.
const ENDLESS: u64 = 1 << 20;

fn list(name: &str) -> Vec<Vec<String>> {
    let file = Path::new(env!("CARGO_MANIFEST_DIR")).join("../../tests");
    let text = fs::read_to_string(file.join(name)).expect("the list is readable");
    let fields = |line: &str| line.split(' ').map(String::from).collect();
    text.lines().map(fields).collect()
}

fn bytes(field: &str) -> Vec<u8> {
    let digits = if field == "-" { "" } else { field };
    from_hex(digits).expect("the list has hexadecimal digits")
}

#[test]
fn every_call_of_the_answers_is_answered_so() {
    let lines = list("answers.list");
    assert!(lines.len() > 700);
    let mut random = Random::new(31);
    for line in &lines {
        let [limit, w, p, s, t, r, q, out, code, number, output] = &line[..] else {
            panic!("a line has eleven fields: {line:?}");
        };
        let (code, output) = (bytes(code), bytes(output));
        let within = |text: &String, most| text.parse::<u64>().expect("a number").min(most);
        let room = |text: &String| within(text, ENDLESS);
        let lent = Lent {
            w: within(w, ENDLESS.max(model::rooms::work(code.len()))),
            p: room(p),
            s: room(s),
            t: room(t),
            r: room(r),
            q: room(q),
            out: room(out),
        };
        let limit = limit.parse().expect("a number");
        let given = fenced_call(call, &code, limit, &lent, &mut random);
        let given = given.unwrap_or_else(|fault| panic!("{fault}, on {line:?}"));
        let expected = match number.parse::<u64>().expect("a number") {
            0 => output.len() as u64,
            number => number,
        };
        assert_eq!(given.number, expected, "on {line:?}");
        assert_eq!(to_hex(&given.written), to_hex(&output), "on {line:?}");
    }
}

#[test]
fn every_map_of_the_rust_is_the_librarys() {
    let lines = list("rust.list");
    assert!(lines.len() > 450);
    let mut mapper = Mapper::new();
    for line in &lines {
        let [code, blocks] = &line[..] else {
            panic!("a line has two fields: {line:?}");
        };
        let answer = mapper.map(&bytes(code), aznifrem::HIGHEST_LIMIT);
        let map = answer.unwrap_or_else(|error| panic!("{error}, on {line:?}"));
        let alone = Map {
            records: Vec::new(),
            ..map
        };
        let written = alone.to_bytes().expect("it fits");
        assert_eq!(
            to_hex(&written[18..]),
            to_hex(&bytes(blocks)),
            "on {line:?}"
        );
    }
}
