//! Rattle's kit where the machine is not x86-64: its C compiler and its linker, for x86-64 programs.

use std::path::{Path, PathBuf};
use std::process::Command;

const TARGET: &str = "x86_64-unknown-linux-gnu";

/// The kit's folders for this machine.
pub struct Kit {
    own: PathBuf,
}

impl Kit {
    /// The kit that the `rt` on the PATH is of: `rt doc` prints a file in its folder.
    pub fn found(machine: &str) -> Result<Kit, String> {
        let printed = said(Command::new("rt").arg("doc"))?;
        let home = Path::new(printed.trim()).parent();
        let own = home.map(|home| home.join("on").join(machine));
        let kit = Kit {
            own: own.unwrap_or_default(),
        };
        let emulator = kit.tools().join("bin/qemu-x86_64");
        if emulator.is_file() {
            return Ok(kit);
        }
        Err(format!(
            "Rattle's kit has no emulator of x86-64 for this machine, {machine}: {} is missing. Install a kit that has one.",
            emulator.display()
        ))
    }

    /// The folder of compiler, emulator and C library.
    pub fn tools(&self) -> PathBuf {
        self.own.join("toolchain")
    }

    /// Compiles a file of C, with headers from these folders and no others.
    pub fn compile(&self, file: &Path, headers: &[PathBuf], object: &Path) -> Result<(), String> {
        let mut clang = Command::new(self.tools().join("bin/clang"));
        clang.arg(format!("--target={TARGET}"));
        clang.args(["-std=c11", "-Wall", "-Wextra", "-Wpedantic", "-Werror"]);
        clang.args(["-O2", "-fPIE", "-nostdinc"]);
        for folder in headers {
            clang.arg("-I").arg(folder);
        }
        said(clang.arg("-c").arg(file).arg("-o").arg(object)).map(drop)
    }

    /// Links objects and archives with the kit's C library to a program.
    pub fn link(&self, files: &[&Path], program: &Path) -> Result<(), String> {
        let mut link = Command::new(self.own.join("bin/rattle-link"));
        link.args(["--target", TARGET, "--toolchain"]);
        link.arg(self.tools()).arg("-o").arg(program).args(files);
        said(&mut link).map(drop)
    }
}

/// What a command prints, if it ends well.
fn said(command: &mut Command) -> Result<String, String> {
    let name = command.get_program().to_string_lossy().into_owned();
    let output = command
        .output()
        .map_err(|e| format!("'{name}' cannot be run ({e}). Install Rattle's toolchain."))?;
    if output.status.success() {
        return Ok(String::from_utf8_lossy(&output.stdout).into_owned());
    }
    let errors = String::from_utf8_lossy(&output.stderr);
    Err(format!("'{name}' failed: {}", errors.trim_end()))
}
