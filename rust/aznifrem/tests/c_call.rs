//! The C header and the C examples: compiled, linked, run. On x86-64 by the system's `cc`, elsewhere by the tools of Rattle's kit and under
//! its emulator.

use std::path::{Path, PathBuf};
use std::process::Command;

const PRINTED: &str = "0c0000000100090003000100000002000000
060000000300000004000700
0500000002000500060001
060000000300070008000500
0c0000000800070005000200000007000000
";

const JSON: &str = concat!(
    r#"[{"id":0,"start":0,"end":4,"type":"Jump","data":{"to":7}},"#,
    r#"{"id":5,"start":5,"end":6,"type":"Terminate","data":{"success":true}},"#,
    r#"{"id":7,"start":7,"end":8,"type":"Jump","data":{"to":5}}]"#,
    "\n"
);

fn here() -> &'static Path {
    Path::new(env!("CARGO_MANIFEST_DIR"))
}

#[cfg(target_arch = "x86_64")]
fn built(example: &str, program: &Path) -> Command {
    let compiled = Command::new("cc")
        .args(["-std=c11", "-Wall", "-Wextra", "-Wpedantic"])
        .args(["-Werror", "-O1", "-I"])
        .arg(here().join("include"))
        .arg(here().join("examples").join(example))
        .arg("-L")
        .arg(env!("AZNIFREM_LINKED"))
        .args(["-laznifrem", "-o"])
        .arg(program)
        .output()
        .expect("a C compiler is there as 'cc': install one to run this test");
    let said = String::from_utf8_lossy(&compiled.stderr);
    assert!(compiled.status.success(), "cc says: {said}");
    Command::new(program)
}

#[cfg(not(target_arch = "x86_64"))]
#[path = "../src/emulator.rs"]
mod emulator;
#[cfg(not(target_arch = "x86_64"))]
#[path = "../build/kit.rs"]
mod kit;

#[cfg(not(target_arch = "x86_64"))]
fn built(example: &str, program: &Path) -> Command {
    let kit = kit::Kit::found(std::env::consts::ARCH).expect("the kit is there");
    let headers = [here().join("relay/headers"), here().join("include")];
    let object = program.with_extension("o");
    let compiled = kit.compile(&here().join("examples").join(example), &headers, &object);
    compiled.expect("it compiles");
    let library = Path::new(env!("AZNIFREM_LINKED")).join("libaznifrem.a");
    kit.link(&[&object, &library], program).expect("it links");
    emulator::emulated(&kit.tools(), program)
}

fn prints(example: &str, text: &str) {
    let program: PathBuf = Path::new(env!("CARGO_TARGET_TMPDIR")).join(format!("{example}.built"));
    let run = built(example, &program).output().expect("it runs");
    assert!(run.status.success());
    assert_eq!(String::from_utf8_lossy(&run.stdout), text);
}

#[test]
fn the_c_example_prints_the_session() {
    prints("map.c", PRINTED);
}

#[test]
fn the_c_example_with_a_text_prints_it() {
    prints("json.c", JSON);
}
