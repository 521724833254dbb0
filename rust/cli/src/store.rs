//! The folder that a run stores its maps in: each file is whole or not there.

use std::fs;
use std::io;
use std::path::{Path, PathBuf};
use std::sync::{PoisonError, RwLock, RwLockWriteGuard};

use crate::files::{Kind, beneath};
use crate::names::shown;
use crate::refused::{LIST, Refusal, UNFINISHED};

const MARK: &str = "The run that stores maps here is not over, or was cut short: then remove the folder and make it again.\n";

/// Held to be read by each thread that writes a file.
static WRITING: RwLock<()> = RwLock::new(());

/// Waits until no file is half written; while this is held, none is begun.
pub fn at_rest() -> RwLockWriteGuard<'static, ()> {
    WRITING.write().unwrap_or_else(PoisonError::into_inner)
}

pub struct Store {
    pub folder: PathBuf,
}

impl Store {
    /// The folder, made if it is not there, and marked as unfinished; or why maps cannot be stored in
    /// it.
    pub fn open(folder: &Path) -> Result<Store, String> {
        if let Some(sentence) = unfit(folder) {
            return Err(sentence);
        }
        let store = Store {
            folder: folder.into(),
        };
        store.mark()?;
        Ok(store)
    }

    /// Says in the folder that not all is there yet.
    pub fn mark(&self) -> Result<(), String> {
        self.put(UNFINISHED.as_ref(), MARK.as_bytes())
    }

    /// All is there.
    pub fn unmark(&self) -> Result<(), String> {
        let mark = self.folder.join(UNFINISHED);
        let removed = fs::remove_file(&mark);
        removed.map_err(|error| format!("cannot remove {}: {error}", shown(&mark)))
    }

    /// Stores a map or its text, as the name says.
    pub fn put(&self, name: &Path, bytes: &[u8]) -> Result<(), String> {
        let file = self.folder.join(name);
        let written = whole(&file, bytes);
        written.map_err(|error| format!("cannot write {}: {error}", shown(&file)))
    }

    /// Puts the list of what was refused beside the maps, and takes the mark away.
    pub fn close(&self, refusals: &[Refusal]) -> Result<(), String> {
        let lines: String = refusals.iter().map(Refusal::line).collect();
        self.put(LIST.as_ref(), lines.as_bytes())?;
        self.unmark()
    }

    pub fn list(&self) -> PathBuf {
        self.folder.join(LIST)
    }
}

/// The file of a contract's map or text.
pub fn file(name: &Path, ending: &str) -> PathBuf {
    let mut file = name.as_os_str().to_os_string();
    file.push(format!(".{ending}"));
    file.into()
}

/// Writes beside the place first, so that no half of a file ever stands in it.
fn whole(file: &Path, bytes: &[u8]) -> io::Result<()> {
    let _writing = WRITING.read().unwrap_or_else(PoisonError::into_inner);
    if let Some(parent) = file.parent() {
        fs::create_dir_all(parent)?;
    }
    let beside = self::file(file, "part");
    let written = fs::write(&beside, bytes).and_then(|()| fs::rename(&beside, file));
    if written.is_err() {
        // What is told is why it could not be written.
        let _ = fs::remove_file(&beside);
    }
    written
}

/// Why maps cannot be stored here. A map of an earlier run would stay where this run stores none,
/// and diff would take it for this run's.
fn unfit(folder: &Path) -> Option<String> {
    let name = shown(folder);
    if folder.is_file() {
        return Some(format!("{name}: is a file, and --to takes a folder"));
    }
    if !folder.is_dir() {
        return None;
    }
    if folder.join(UNFINISHED).exists() {
        return Some(format!(
            "{name}: an earlier run that stored maps here is not over, or was cut short: give --to a fresh folder, or remove this one"
        ));
    }
    let found = beneath(folder, Kind::Maps);
    let held = found.files.first().map(|map| {
        format!(
            "{name}: holds maps already, as {}: give --to a fresh folder, or empty this one",
            shown(&map.name)
        )
    });
    held.or_else(|| found.faults.into_iter().next())
}

#[cfg(test)]
mod tests {
    use super::{at_rest, whole};
    use std::thread::{sleep, spawn};
    use std::time::Duration;
    use std::{env, fs, process};

    #[test]
    fn at_rest_no_file_is_begun() {
        let folder = env::temp_dir().join(format!("aznifrem-{}", process::id()));
        let file = folder.join("a.map");
        let resting = at_rest();
        let writing = file.clone();
        let writer = spawn(move || whole(&writing, b"whole"));
        sleep(Duration::from_millis(100));
        assert!(!folder.exists());
        drop(resting);
        writer.join().expect("it ends well").expect("it is written");
        assert_eq!(fs::read(&file).expect("it is there"), b"whole");
        assert_eq!(fs::read_dir(&folder).expect("it is a folder").count(), 1);
        fs::remove_dir_all(folder).expect("it can be removed");
    }
}
