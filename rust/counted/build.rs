//! Copies the unchanged Rust. In the copy the search tells each unit that it counts and each record that it makes: `EDITS` are all.

use std::path::{Path, PathBuf};
use std::{env, fs};

const FILES: [&str; 8] = [
    "collections.rs",
    "control_flow_graph/initial.rs",
    "control_flow_graph/mod.rs",
    "control_flow_graph/reachable.rs",
    "control_flow_graph/state.rs",
    "evm/code_iterator.rs",
    "evm/mod.rs",
    "evm/op.rs",
];
const RESOLVER: &str = "control_flow_graph/resolver.rs";
/// What stands in the resolver, how often, and what stands in the copy.
const EDITS: [(&str, usize, &str); 2] = [
    (
        "energy_used += 1;",
        1,
        "energy_used += 1; crate::told::unit();",
    ),
    (
        "dynamic_jumps.push(DynamicJump {",
        3,
        "crate::told::record(&new_path); dynamic_jumps.push(DynamicJump {",
    ),
];
const MODULES: &str = "mod collections;\nmod control_flow_graph;\nmod evm;\n";

fn main() {
    let here = PathBuf::from(env::var_os("CARGO_MANIFEST_DIR").expect("cargo says where"));
    let from = here.join("../oracle/src");
    let to = PathBuf::from(env::var_os("OUT_DIR").expect("cargo says where to"));
    println!("cargo:rerun-if-changed={}", from.display());
    for file in FILES {
        put(&to, file, &text(&from, file));
    }
    let mut resolver = text(&from, RESOLVER);
    for (old, times, new) in EDITS {
        let found = resolver.matches(old).count();
        assert_eq!(found, times, "'{old}' stands {times} times in {RESOLVER}");
        resolver = resolver.replace(old, new);
    }
    put(&to, RESOLVER, &resolver);
    put(&to, "copy.rs", MODULES);
}

fn text(folder: &Path, file: &str) -> String {
    let path = folder.join(file);
    fs::read_to_string(&path).unwrap_or_else(|e| panic!("{}: {e}", path.display()))
}

fn put(folder: &Path, file: &str, text: &str) {
    let path = folder.join(file);
    let folder = path.parent().expect("a file is in a folder");
    let put = fs::create_dir_all(folder).and_then(|()| fs::write(&path, text));
    put.unwrap_or_else(|e| panic!("{}: {e}", path.display()));
}
