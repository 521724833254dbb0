//! Where the machine is not x86-64: x86-64 programs under the kit's emulator.

use std::path::Path;
use std::process::Command;

/// A program, with the emulator, the loader and the C library of the kit's tools. Nothing of the caller's surroundings reaches it.
pub fn emulated(tools: &Path, program: &Path) -> Command {
    let library = tools.join("lib");
    let mut command = Command::new(tools.join("bin/qemu-x86_64"));
    command.env_clear();
    // The C library fills memory byte by byte on the emulator's own choice: ten times slower.
    command.args(["-cpu", "qemu64"]);
    command.arg(library.join("ld-linux-x86-64.so.2"));
    command.arg("--library-path").arg(library).arg(program);
    command
}
