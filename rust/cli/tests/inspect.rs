//! `aznifrem inspect`: a map whose paths are right, one whose record is not, and files that are no map.

mod common;

use std::fs;

use common::{all, folder, put, run};

const CODE: &str = "60056007565b005b56";

/// The stored map of the code, with the record's destination, at byte 61, as given.
fn stored(name: &str, to: u8) -> std::path::PathBuf {
    let folder = folder(name);
    put(&folder, "code.hex", CODE);
    assert_eq!(all(&run(&folder, &["--to", "maps", "code.hex"])).0, 0);
    let file = folder.join("maps/code.hex.map");
    let mut map = fs::read(&file).expect("it was stored");
    map[61] = to;
    fs::write(&file, map).expect("it can be written");
    folder
}

const WORDS: [&str; 3] = ["inspect", "maps/code.hex.map", "code.hex"];

#[test]
fn a_map_of_ours_is_right_in_both_modes() {
    let folder = stored("inspect-right", 5);
    let wanted = "maps/code.hex.map: every path entry with a destination is right\n";
    for words in [&WORDS[..], &[&WORDS[..], &["--known-zero"]].concat()] {
        let (exit, text, told) = all(&run(&folder, words));
        assert_eq!((exit, text.as_str(), told.as_str()), (0, wanted, ""));
    }
}

#[test]
fn a_record_that_is_not_right_is_told_with_its_block() {
    let folder = stored("inspect-wrong", 7);
    let (exit, text, _) = all(&run(&folder, &WORDS));
    let wanted = "maps/code.hex.map: the record at offset 53, to 7, is not right: its first block, 7, fails, or it does not lead there\n";
    assert_eq!((exit, text.as_str()), (1, wanted));
}

/// A map of the code, made by hand, with these entries behind its blocks' beginning: 0 Jump 7, 5 Terminate.
fn by_hand(name: &str, records: u8, entries: &str) -> std::path::PathBuf {
    let folder = folder(name);
    put(&folder, "code.hex", CODE);
    let head = format!("0c000000010009000300{records:02x}00000002000000");
    let blocks = "0600000003000000040007000500000002000500060001";
    let text = format!("{head}{blocks}{entries}");
    let digits = |at| u8::from_str_radix(&text[at..at + 2], 16).expect("digits");
    let map: Vec<u8> = (0..text.len()).step_by(2).map(digits).collect();
    fs::write(folder.join("by.map"), map).expect("it can be written");
    folder
}

const BY_HAND: [&str; 3] = ["inspect", "by.map", "code.hex"];

#[test]
fn a_7_that_is_not_right_is_told_and_what_stands_behind_it() {
    // Block 7 has two 7s: (0,7; to 5), another block's path, and (7,0; to 5), which is right; a record (7,5; to 5) goes over no
    // edge, and one more has an empty path.
    let entries = "0800000005000700080002000000\
         0a000000070005000200000000000700\
         0a000000070005000200000007000000\
         0c0000000800070005000200000007000500\
         0800000008000700050000000000";
    let folder = by_hand("inspect-seven", 2, &entries.replace(' ', ""));
    let (exit, text, told) = all(&run(&folder, &BY_HAND));
    let wanted = "by.map: the path at offset 55, to 5, is not right: its first block, 0, fails, or it does not lead there\n\
        by.map: the record at offset 87, to 5, is not right at place 1, the block 5\n\
        by.map: the record at offset 105, to 5, is not right: its path is empty\n";
    assert_eq!((exit, text.as_str(), told.as_str()), (1, wanted, ""));
}

#[test]
fn more_entries_than_the_first_rows_are_all_told() {
    let right = "060000000300070008000500";
    let wrong = "0c0000000800070007000200000007000000";
    let folder = by_hand("inspect-many", 0, right);
    let file = folder.join("by.map");
    let mut map = fs::read(&file).expect("it was written");
    let record: Vec<u8> = (0..wrong.len())
        .step_by(2)
        .map(|at| u8::from_str_radix(&wrong[at..at + 2], 16).expect("digits"))
        .collect();
    map[10..14].copy_from_slice(&1_000_u32.to_le_bytes());
    map.extend(record.repeat(1_000));
    fs::write(&file, map).expect("it can be written");
    let (exit, text, _) = all(&run(&folder, &BY_HAND));
    let told: Vec<&str> = text.lines().collect();
    assert_eq!((exit, told.len()), (1, 1_000));
    for (at, line) in told.iter().enumerate() {
        let offset = format!("the record at offset {}, to 7,", 53 + 18 * at);
        assert!(line.contains(&offset), "{line}");
    }
}

#[test]
fn what_is_no_map_is_told() {
    let folder = folder("inspect-none");
    put(&folder, "code.hex", CODE);
    let (exit, text, told) = all(&run(&folder, &["inspect", "code.hex", "code.hex"]));
    assert_eq!((exit, text.as_str()), (2, ""));
    assert!(told.contains("is no stored map"), "{told}");
}

#[test]
fn a_code_that_is_too_long_is_told_by_its_own_name() {
    let folder = stored("inspect-long", 5);
    put(&folder, "long.hex", &"00".repeat(49_153));
    let (exit, text, told) = all(&run(&folder, &[WORDS[0], WORDS[1], "long.hex"]));
    assert_eq!((exit, text.as_str()), (2, ""));
    assert!(
        told.starts_with("long.hex: the code has 49153 bytes"),
        "{told}"
    );
}

/// PUSH 8000, PUSH 9000, JUMP; 8000: JUMPDEST, PUSH 8100, PUSH 9000, JUMP; 8100: JUMPDEST, STOP; 9000: JUMPDEST, JUMP.
fn init_code() -> String {
    let mut digits = "0".repeat(2 * 0x9002);
    for (at, bytes) in [
        (0, "61800061900056"),
        (0x8000, "5b61810061900056"),
        (0x8100, "5b"),
        (0x9000, "5b56"),
    ] {
        digits.replace_range(2 * at..2 * at + bytes.len(), bytes);
    }
    digits
}

#[test]
fn init_code_is_mapped_and_inspected_with_kinds_of_its_own() {
    let folder = folder("inspect-init");
    put(&folder, "code.hex", init_code());
    for flags in [&[][..], &["--numbers"]] {
        let words = [&["--to", "maps", "code.hex"], flags].concat();
        assert_eq!(all(&run(&folder, &words)).0, 0);
        let file = folder.join("maps/code.hex.map");
        let mut map = fs::read(&file).expect("it was stored");
        let (exit, text, _) = all(&run(&folder, &WORDS));
        let wanted = "maps/code.hex.map: every path entry with a destination is right\n";
        assert_eq!((exit, text.as_str()), (0, wanted));
        // The first path of the dynamic block, of kind 10, leads to 0x8000; moved by one it does not.
        let kind_and_to = |four: &[u8]| four == [10, 0, 0x00, 0x80];
        let at = map.windows(4).position(kind_and_to).expect("a path") - 4;
        map[at + 6] = 1;
        fs::write(&file, map).expect("it can be written");
        let (exit, text, _) = all(&run(&folder, &WORDS));
        let told = format!(
            "maps/code.hex.map: the path at offset {at}, to 32769, is not right: its first block, 36864, fails"
        );
        assert_eq!(exit, 1);
        assert!(text.starts_with(&told), "{text}");
        fs::remove_dir_all(folder.join("maps")).expect("it is there");
    }
}
