//! The text: what serde made of the unchanged Rust's blocks, and the call as the documents have it.

use std::fs;
use std::path::Path;

use aznifrem::{HIGHEST_LIMIT, Lent, Map, Mapper, Room, call_json};
use codes::worst::fan;

const RETURN: [u8; 9] = [0x60, 5, 0x60, 7, 0x56, 0x5b, 0x00, 0x5b, 0x56];
const TEXT: &str = r#"[{"id":0,"start":0,"end":4,"type":"Jump","data":{"to":7}},{"id":5,"start":5,"end":6,"type":"Terminate","data":{"success":true}},{"id":7,"start":7,"end":8,"type":"Jump","data":{"to":5}}]"#;

#[test]
fn every_text_is_serdes() {
    let file = Path::new(env!("CARGO_MANIFEST_DIR")).join("../../tests/json.list");
    let list = fs::read_to_string(file).expect("the list is readable");
    assert!(list.lines().count() >= 300);
    let mut mapper = Mapper::new();
    for line in list.lines() {
        let (code, text) = line.split_once(' ').expect("a line is a code and a text");
        let digits = if code == "-" { "" } else { code };
        let code = codes::from_hex(digits).expect("the codes are hexadecimal");
        match mapper.both(&code, HIGHEST_LIMIT) {
            Ok((entries, json)) => {
                assert_eq!(json, text, "on {line}");
                // A stored map has the same text.
                let map = Map::from_bytes(entries).expect("an answer is a map");
                assert_eq!(map.to_json(), text, "on {line}");
            }
            Err(error) => panic!("{error}, on {line}"),
        }
    }
}

#[test]
fn entries_and_text_are_of_one_call() {
    let mut mapper = Mapper::new();
    let alone = mapper
        .entries(&RETURN, HIGHEST_LIMIT)
        .expect("it is answered")
        .to_vec();
    let calls = mapper.calls();
    let both = mapper.both(&RETURN, HIGHEST_LIMIT).expect("it is answered");
    assert_eq!(both, (&alone[..], TEXT));
    assert_eq!(mapper.calls(), calls + 1);
}

#[test]
fn the_texts_room_grows() {
    let mut mapper = Mapper::new();
    // More than 64 KiB of text.
    let length = mapper
        .json(&fan(1_600), HIGHEST_LIMIT)
        .expect("it is answered")
        .len();
    assert!(length > 64 << 10, "{length} bytes");
    assert_eq!(Room::Text.refusal(), 11);
}

/// The call in 71 bytes of output and a text buffer of this length.
fn called(output: usize, length: usize) -> (u64, Vec<u8>, Vec<u8>) {
    let (mut w, mut room) = (vec![0xaa; 64 * RETURN.len() + 256], vec![[0xaa; 64]; 5]);
    let (mut out, mut text) = (vec![0xaa; output], vec![0xaa; length]);
    let [p, s, t, r, q] = &mut room[..] else {
        unreachable!("there are five");
    };
    let mut lent = Lent {
        w: &mut w,
        p,
        s,
        t,
        r,
        q,
        out: &mut out,
    };
    let number = call_json(&RETURN, HIGHEST_LIMIT, &mut lent, &mut text);
    assert!(w.iter().chain(room.iter().flatten()).all(|byte| *byte == 0));
    (number, out, text)
}

#[test]
fn eleven_comes_last_and_refusals_touch_neither() {
    let (number, out, text) = called(71, 190);
    assert_eq!(number, 71 + (185 << 32));
    assert_eq!(
        (&text[..185], &text[185..]),
        (TEXT.as_bytes(), &[0xaa; 5][..])
    );
    assert_ne!(out, [0xaa; 71]);
    for (output, length, expected) in [(71, 184, 11), (71, 0, 11), (70, 184, 9), (70, 185, 9)] {
        let (number, out, text) = called(output, length);
        assert_eq!(number, expected);
        assert!(out.iter().chain(&text).all(|byte| *byte == 0xaa));
    }
}
