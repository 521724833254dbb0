//! What the build script takes, refuses and warns of.

#[allow(dead_code)] // Its main is cargo's to run.
#[path = "../build.rs"]
mod script;

use script::Way;
use script::library::{named, named_as_ever, newer_source};
use std::fs::{self, File};
use std::path::{Path, PathBuf};
use std::time::{Duration, SystemTime};

/// A fresh folder for one test.
fn folder(name: &str) -> PathBuf {
    let folder = Path::new(env!("CARGO_TARGET_TMPDIR")).join(name);
    let _ = fs::remove_dir_all(&folder);
    fs::create_dir_all(&folder).expect("the folder of tests can be written");
    folder
}

/// A file that was last changed so many seconds ago.
fn put(file: &Path, seconds: u64) {
    let parent = file.parent().expect("it lies in a folder");
    fs::create_dir_all(parent).expect("a folder can be made");
    let then = SystemTime::now() - Duration::from_secs(seconds);
    let put = File::create(file).and_then(|file| file.set_modified(then));
    put.expect("a file can be written");
}

#[test]
fn the_whole_path_of_the_library_is_taken_and_no_other() {
    let here = folder("named");
    let empty = named(here.clone()).expect_err("no library is there");
    assert!(empty.contains("no libaznifrem.a is in it"), "{empty}");
    put(&here.join("libaznifrem.a"), 0);
    assert_eq!(named(here.clone()), Ok(here));
    for relative in ["crates/aznifrem_c/out", ".", ""] {
        let refused = named(relative.into()).expect_err("it is relative");
        assert!(refused.contains("is a relative path"), "{refused}");
        assert!(refused.contains("Set it to the whole path"), "{refused}");
    }
}

#[test]
fn what_rt_made_stands_under_the_librarys_name_too() {
    let here = folder("built");
    assert!(named_as_ever(&here).is_err());
    fs::write(here.join("libaznifrem_c.a"), "made").expect("it can be written");
    named_as_ever(&here).expect("it is there");
    assert_eq!(named(here.clone()), Ok(here.clone()));
    let archive = fs::read(here.join("libaznifrem.a")).expect("it is there");
    assert_eq!(archive, b"made");
    assert!(here.join("libaznifrem_c.a").is_file());
}

#[test]
fn a_source_that_is_newer_than_the_library_is_found() {
    let here = folder("stale");
    let (crates, library) = (here.join("crates"), here.join("libaznifrem.a"));
    put(&library, 100);
    assert_eq!(newer_source(&crates, &library), None);
    put(&crates.join("evm/src/lib.rt"), 200);
    put(&crates.join("evm/notes.txt"), 0);
    assert_eq!(newer_source(&crates, &library), None);
    let newer = crates.join("map/src/deep/lib.rt");
    put(&newer, 50);
    assert_eq!(newer_source(&crates, &library), Some(newer));
    // `rt` takes a source that no crate lists for a lost one.
    fs::remove_dir_all(&here).expect("the folder of tests can be written");
}

#[test]
fn the_library_is_linked_on_x86_64_and_relayed_on_arm() {
    let way = |arch, os, host| script::way(arch, os, host);
    assert_eq!(
        way("x86_64", "linux", "x86_64-unknown-linux-gnu"),
        Ok(Way::Linked)
    );
    assert_eq!(
        way("aarch64", "linux", "aarch64-unknown-linux-gnu"),
        Ok(Way::Relayed)
    );
    let refused =
        way("aarch64", "linux", "x86_64-unknown-linux-gnu").expect_err("it is built elsewhere");
    assert!(refused.contains("for Arm, build on Arm"), "{refused}");
}

#[test]
fn other_targets_are_told_what_to_do() {
    for (arch, os) in [("riscv64", "linux"), ("x86_64", "windows")] {
        let refused = script::way(arch, os, arch).expect_err("the library is not for it");
        assert!(refused.contains(&format!("this build is for {arch} {os}")));
        assert!(refused.contains("AZNIFREM_LIB_DIR"));
    }
}
