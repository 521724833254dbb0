//! Copies the unchanged Rust. In the copy PUSH0 is a PUSH whose value is known: one line of `state.rs` has another first byte.

use std::path::{Path, PathBuf};
use std::{env, fs};

const FILES: [&str; 8] = [
    "collections.rs",
    "control_flow_graph/initial.rs",
    "control_flow_graph/mod.rs",
    "control_flow_graph/reachable.rs",
    "control_flow_graph/resolver.rs",
    "evm/code_iterator.rs",
    "evm/mod.rs",
    "evm/op.rs",
];
const STATE: &str = "control_flow_graph/state.rs";
const PLAIN: &str = "op::PUSH1..=op::PUSH4 => {";
const KNOWN: &str = "op::PUSH0..=op::PUSH4 => {";
const MODULES: &str = "mod collections;\npub mod control_flow_graph;\nmod evm;\n";

fn main() {
    let here = PathBuf::from(env::var_os("CARGO_MANIFEST_DIR").expect("cargo says where"));
    let from = here.join("../oracle/src");
    let to = PathBuf::from(env::var_os("OUT_DIR").expect("cargo says where to"));
    println!("cargo:rerun-if-changed={}", from.display());
    for file in FILES {
        put(&to, file, &text(&from, file));
    }
    let state = text(&from, STATE);
    let lines = state.matches(PLAIN).count();
    assert_eq!(
        lines, 1,
        "the step's line of PUSH1 to PUSH4 stands once in {STATE}"
    );
    put(&to, STATE, &state.replace(PLAIN, KNOWN));
    put(&to, "copy.rs", MODULES);
}

fn text(folder: &Path, file: &str) -> String {
    let path = folder.join(file);
    fs::read_to_string(&path).unwrap_or_else(|e| panic!("{}: {e}", path.display()))
}

fn put(folder: &Path, file: &str, text: &str) {
    let path = folder.join(file);
    let folder = path.parent().expect("a file is in a folder");
    let put = fs::create_dir_all(folder).and_then(|()| fs::write(&path, text));
    put.unwrap_or_else(|e| panic!("{}: {e}", path.display()));
}
