//! The proved static library: the one that the caller names, else the repository's, made if it is missing.

use std::fs::{self, File, OpenOptions};
use std::io::{self, BufRead, BufReader, Read, Write};
use std::path::{Path, PathBuf};
use std::process::{Command, Stdio};
use std::time::{Instant, SystemTime};
use std::{env, thread};

pub const FOLDER: &str = "AZNIFREM_LIB_DIR";
pub const FILE: &str = "libaznifrem.a";
/// Where it is proved and built.
const CRATE: &str = "crates/aznifrem_c";
/// The name that `rt lib` gives it, after the crate.
const BUILT: &str = "libaznifrem_c.a";

/// The folder that the caller names, else the repository's.
pub fn folder() -> Result<PathBuf, String> {
    if let Some(folder) = env::var_os(FOLDER) {
        return named(PathBuf::from(folder));
    }
    let repository = repository()?;
    let made = repository.join(CRATE).join("out");
    if !made.join(FILE).is_file() {
        // Another build of this repository may be at it: then this one waits, and finds it made.
        let locked = File::open(repository.join("crates.txt"));
        let _locked = locked.and_then(|file| file.lock().map(|()| file));
        if !made.join(FILE).is_file() {
            make(&repository)?;
            named_as_ever(&made).map_err(|e| {
                format!(
                    "'rt lib' ended well, and of {CRATE}/out/{BUILT} no {FILE} can be made ({e}). {}",
                    advice()
                )
            })?;
        }
    }
    warn_if_stale(&repository.join("crates"), &made.join(FILE));
    Ok(made)
}

/// Puts what `rt lib` made under the library's own name beside it.
pub fn named_as_ever(made: &Path) -> io::Result<()> {
    let part = made.join("libaznifrem.part");
    fs::copy(made.join(BUILT), &part)?;
    fs::rename(part, made.join(FILE))
}

/// A relative path is refused: this script, the compiler and the caller each stand elsewhere.
pub fn named(folder: PathBuf) -> Result<PathBuf, String> {
    let wrong = if folder.is_relative() {
        "which is a relative path"
    } else if !folder.join(FILE).is_file() {
        "and no libaznifrem.a is in it"
    } else {
        return Ok(folder);
    };
    Err(format!(
        "{FOLDER} is set to '{}', {wrong}. Set it to the whole path of the folder of {FILE}, or unset it.",
        folder.display()
    ))
}

fn warn_if_stale(crates: &Path, library: &Path) {
    // What `rt` makes in a crate's out/ is no source. Of a path that is not there, cargo would run this script at every build.
    for folder in sources(crates) {
        println!("cargo:rerun-if-changed={}", folder.display());
    }
    if let Some(newer) = newer_source(crates, library) {
        println!(
            "cargo:warning={} is newer than {CRATE}/out/{FILE}: run 'tests/library' if it has changed",
            newer.display()
        );
    }
}

/// A file under crates/*/src that is newer than the library, if there is one.
pub fn newer_source(crates: &Path, library: &Path) -> Option<PathBuf> {
    let made = changed(library)?;
    let newer = |file: &PathBuf| changed(file).is_some_and(|time| time > made);
    let sources = sources(crates).into_iter();
    sources.flat_map(|folder| files(&folder)).find(newer)
}

/// The crates' folders of source.
fn sources(crates: &Path) -> Vec<PathBuf> {
    let folders = entries(crates).into_iter().map(|one| one.join("src"));
    folders.filter(|folder| folder.is_dir()).collect()
}

fn changed(file: &Path) -> Option<SystemTime> {
    fs::metadata(file).and_then(|of| of.modified()).ok()
}

fn files(folder: &Path) -> Vec<PathBuf> {
    let below = |path: PathBuf| {
        if path.is_dir() {
            files(&path)
        } else {
            vec![path]
        }
    };
    entries(folder).into_iter().flat_map(below).collect()
}

/// What is in a folder, by name; nothing if it cannot be read.
fn entries(folder: &Path) -> Vec<PathBuf> {
    let read = fs::read_dir(folder).into_iter().flatten().flatten();
    let mut paths: Vec<PathBuf> = read.map(|entry| entry.path()).collect();
    paths.sort();
    paths
}

fn repository() -> Result<PathBuf, String> {
    let here = env::var("CARGO_MANIFEST_DIR").map_err(|_| "run this by cargo".to_string())?;
    let above = Path::new(&here).join("../..");
    above
        .canonicalize()
        .map_err(|e| format!("cannot find the repository around {here}: {e}"))
}

/// Has the library proved and built. Cargo shows nothing of a script that is not over: what is done is said on the terminal itself,
/// if there is one.
fn make(repository: &Path) -> Result<(), String> {
    let begun = Instant::now();
    tell(
        "the proved library is missing: 'rt lib' in crates/aznifrem_c proves and builds it now, once. That takes minutes: every crate is proved.",
    );
    run(repository)?;
    let seconds = begun.elapsed().as_secs();
    println!(
        "cargo:warning=the library was proved and built by 'rt lib' in {CRATE} in {seconds} s"
    );
    Ok(())
}

/// Runs `rt lib` in the crate's folder; its lines are told as they come.
fn run(repository: &Path) -> Result<(), String> {
    let child = Command::new("rt")
        .arg("lib")
        .current_dir(repository.join(CRATE))
        .stdout(Stdio::piped())
        .stderr(Stdio::piped())
        .spawn();
    let mut child = child.map_err(|e| {
        format!(
            "the proved library {CRATE}/out/{FILE} is missing and Rattle's 'rt', which makes it, cannot be run ({e}). {}",
            advice()
        )
    })?;
    let (out, errors) = (child.stdout.take(), child.stderr.take());
    thread::scope(|scope| {
        scope.spawn(|| out.into_iter().for_each(pass_on));
        scope.spawn(|| errors.into_iter().for_each(pass_on));
    });
    if child.wait().is_ok_and(|status| status.success()) {
        return Ok(());
    }
    Err(format!(
        "'rt lib' in {CRATE} failed; what it says stands above. {}",
        advice()
    ))
}

/// What `rt` says goes to cargo, which shows it if the script fails; of that, what `rt` itself says goes to the terminal.
fn pass_on(lines: impl Read) {
    for line in BufReader::new(lines).lines().map_while(Result::ok) {
        eprintln!("{line}");
        if line.starts_with("rt: ") {
            tell(&line);
        }
    }
}

/// A line of its own, over what cargo shows of its progress; without a terminal nobody waits before it.
fn tell(line: &str) {
    if let Ok(mut terminal) = OpenOptions::new().write(true).open("/dev/tty") {
        let _ = writeln!(terminal, "\r\x1b[Kaznifrem: {line}");
    }
}

pub fn advice() -> String {
    format!(
        "Install Rattle's toolchain and run 'tests/library', or set {FOLDER} to a folder that has {FILE} for x86-64 Linux."
    )
}
