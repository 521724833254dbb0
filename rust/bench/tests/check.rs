//! `--check` as the gate would run it.

use std::process::Command;

fn ended(words: &[&str]) -> (Option<i32>, String) {
    let bench = Command::new(env!("CARGO_BIN_EXE_bench"))
        .args(words)
        .output()
        .expect("the bench runs");
    let printed = String::from_utf8_lossy(&bench.stdout).into_owned();
    (bench.status.code(), printed)
}

#[test]
fn a_check_of_no_contract_fails_where_times_are_taken() {
    let none = ["--contracts", "--codes", "0", "--check"];
    let (checked, printed) = ended(&none);
    assert_eq!(ended(&none[..3]).0, Some(0));
    if aznifrem::RELAYED {
        assert_eq!(checked, Some(0));
        assert!(printed.starts_with("bench: times are taken on x86-64 only"));
    } else {
        assert_eq!(checked, Some(1));
    }
}
