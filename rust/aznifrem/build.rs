//! Finds the proved static library, or has it made. On x86-64 it is linked; elsewhere a relay is, which runs under an emulator.

#[path = "build/exported.rs"]
mod exported;
#[path = "build/kit.rs"]
mod kit;
#[path = "build/library.rs"]
pub mod library;

use std::path::{Path, PathBuf};
use std::process::exit;
use std::{env, fs};

use kit::Kit;
use library::{FILE, FOLDER};

fn main() {
    println!("cargo:rerun-if-env-changed={FOLDER}");
    for file in ["build.rs", "build", "exports.rs", "relay", "include"] {
        println!("cargo:rerun-if-changed={file}");
    }
    if let Err(sentence) = build() {
        eprintln!("aznifrem: {sentence}");
        exit(1);
    }
}

fn build() -> Result<(), String> {
    let cfg = |name: &str| env::var(name).unwrap_or_default();
    let arch = cfg("CARGO_CFG_TARGET_ARCH");
    let way = way(&arch, &cfg("CARGO_CFG_TARGET_OS"), &cfg("HOST"))?;
    let folder = library::folder()?;
    println!("cargo:rerun-if-changed={}", folder.join(FILE).display());
    // The test of the C call links the same file.
    println!("cargo:rustc-env=AZNIFREM_LINKED={}", folder.display());
    match way {
        Way::Linked => {
            println!("cargo:rustc-link-search=native={}", folder.display());
            println!("cargo:rustc-link-lib=static=aznifrem");
            Ok(())
        }
        Way::Relayed => relay(&Kit::found(&arch)?, &folder),
    }
}

/// How calls reach the library.
#[derive(Clone, Copy, Debug, PartialEq, Eq)]
pub enum Way {
    Linked,
    Relayed,
}

/// The library is made for x86-64 Linux alone; on Arm the kit has an emulator of that.
pub fn way(arch: &str, os: &str, host: &str) -> Result<Way, String> {
    match (arch, os) {
        ("x86_64", "linux") => Ok(Way::Linked),
        ("aarch64", "linux") if host.starts_with("aarch64") => Ok(Way::Relayed),
        ("aarch64", "linux") => Err(format!(
            "for Arm, build on Arm: there the proved library, which is for x86-64, is run by the kit's emulator, and this machine is {host}"
        )),
        _ => Err(format!(
            "the proved library is for Linux on x86-64 and on Arm, and this build is for {arch} {os}: build for x86_64-unknown-linux-gnu. {}",
            library::advice()
        )),
    }
}

/// Builds the relay, and tells the binding where it and the kit's tools are.
fn relay(kit: &Kit, folder: &Path) -> Result<(), String> {
    let here = PathBuf::from(env::var_os("CARGO_MANIFEST_DIR").unwrap_or_default());
    let out = PathBuf::from(env::var_os("OUT_DIR").unwrap_or_default());
    let (object, program) = (out.join("relay.o"), out.join("relay"));
    fs::write(out.join("exported.h"), exported::header())
        .map_err(|e| format!("{} cannot be written to: {e}", out.display()))?;
    let headers = [here.join("relay/headers"), here.join("include"), out];
    kit.compile(&here.join("relay/relay.c"), &headers, &object)?;
    kit.link(&[&object, &folder.join(FILE)], &program)?;
    println!("cargo:rustc-env=AZNIFREM_RELAY={}", program.display());
    println!("cargo:rustc-env=AZNIFREM_TOOLS={}", kit.tools().display());
    Ok(())
}
