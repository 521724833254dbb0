//! The plain writer of JSON against what serde makes of the unchanged Rust's blocks.

use std::fs;
use std::path::Path;

use agree::json;

#[test]
fn the_writer_makes_serdes_text() {
    let file = Path::new(env!("CARGO_MANIFEST_DIR")).join("../../tests/json.list");
    let lines = fs::read_to_string(file).expect("the list is readable");
    assert!(lines.lines().count() >= 300);
    assert!(lines.lines().filter(|line| line.contains("null")).count() > 10);
    for line in lines.lines() {
        let (code, text) = line.split_once(' ').expect("a line is a code and a text");
        let digits = if code == "-" { "" } else { code };
        let code = codes::from_hex(digits).expect("the codes are hexadecimal");
        assert_eq!(
            json::text(oracle::blocks(&code).values()),
            text,
            "on {line}"
        );
        // Of the model's blocks too, which are those of lower limits.
        assert_eq!(
            json::of_model(&agree::rust_blocks(&code)),
            text,
            "on {line}"
        );
    }
}
