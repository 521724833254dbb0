//! The files that the words of the command line stand for.

use std::fs::{self, DirEntry};
use std::io;
use std::path::{Path, PathBuf};

use crate::names::shown;
use crate::patterns::Patterns;
use crate::refused::{LIST, UNFINISHED};

/// A file, and the name that it goes by beneath the folder that was named.
#[derive(Clone, Debug, PartialEq, Eq)]
pub struct Named {
    pub path: PathBuf,
    pub name: PathBuf,
}

/// What is looked for beneath a folder.
#[derive(Clone, Copy, Debug, PartialEq, Eq)]
pub enum Kind {
    /// Every file but maps and what stands beside them; what begins with a dot and links to folders
    /// are passed over.
    Contracts,
    /// Every file that ends in .map, wherever it lies: a map that is passed over is not compared.
    Maps,
}

/// What is beneath a folder, and a sentence for each thing that cannot be read.
#[derive(Clone, Debug, Default, PartialEq, Eq)]
pub struct Found {
    pub files: Vec<Named>,
    pub faults: Vec<String>,
    /// Folders that cannot be read, and why.
    pub unread: Vec<(Named, String)>,
    /// Files and folders that the patterns leave out.
    pub left_out: usize,
}

/// All files of a kind beneath a folder, by name.
pub fn beneath(folder: &Path, kind: Kind) -> Found {
    chosen(folder, kind, &Patterns::default())
}

/// Those that the patterns take.
pub fn chosen(folder: &Path, kind: Kind, patterns: &Patterns) -> Found {
    let mut search = Search {
        kind,
        patterns,
        within: Vec::new(),
        found: Found::default(),
    };
    search.folder(folder, Path::new(""));
    let mut found = search.found;
    found.files.sort_by(|a, b| a.name.cmp(&b.name));
    found
}

struct Search<'a> {
    kind: Kind,
    patterns: &'a Patterns,
    /// The folders that are being read, without links: a link to one of them leads round.
    within: Vec<PathBuf>,
    found: Found,
}

impl Search<'_> {
    /// One folder that cannot be read does not hide the others.
    fn folder(&mut self, folder: &Path, name: &Path) {
        if let Err(error) = self.entries(folder, name) {
            let reason = format!("cannot read the folder: {error}");
            let sentence = format!("{}: {reason}", shown(folder));
            self.found.faults.push(sentence);
            let (path, name) = (folder.into(), name.into());
            self.found.unread.push((Named { path, name }, reason));
        }
    }

    fn entries(&mut self, folder: &Path, name: &Path) -> io::Result<()> {
        let real = fs::canonicalize(folder)?;
        if self.within.contains(&real) {
            return Err(io::Error::other("it is a link to a folder that it lies in"));
        }
        self.within.push(real);
        let read = fs::read_dir(folder).and_then(|mut entries| {
            entries.try_for_each(|entry| entry.and_then(|entry| self.entry(&entry, name)))
        });
        self.within.pop();
        read
    }

    fn entry(&mut self, entry: &DirEntry, name: &Path) -> io::Result<()> {
        let hidden = entry.file_name().as_encoded_bytes().starts_with(b".");
        if hidden && self.kind == Kind::Contracts {
            return Ok(());
        }
        let (path, name) = (entry.path(), name.join(entry.file_name()));
        if entry.file_type()?.is_dir() {
            if self.patterns.folder(&name) {
                self.folder(&path, &name);
            } else {
                self.found.left_out += 1;
            }
            return Ok(());
        }
        let wanted = self.wanted(&name);
        match fs::metadata(&path) {
            Ok(of) if !of.is_file() && self.kind == Kind::Contracts => {}
            Ok(of) if of.is_dir() => self.folder(&path, &name),
            Ok(of) if !of.is_file() && wanted => self.fault(&path, "is no file"),
            _ if wanted && !self.patterns.file(&name) => self.found.left_out += 1,
            // A link that leads nowhere is kept, so that reading it is told.
            _ if wanted => self.found.files.push(Named { path, name }),
            Err(_) if self.kind == Kind::Maps => self.fault(&path, "is a link that leads nowhere"),
            _ => {}
        }
        Ok(())
    }

    fn fault(&mut self, path: &Path, what: &str) {
        let sentence = format!("{}: {what}: take it away", shown(path));
        self.found.faults.push(sentence);
    }

    fn wanted(&self, name: &Path) -> bool {
        let is_map = name.as_os_str().as_encoded_bytes().ends_with(b".map");
        let own = name
            .file_name()
            .is_some_and(|name| name == LIST || name == UNFINISHED);
        match self.kind {
            Kind::Maps => is_map,
            Kind::Contracts => !is_map && !own,
        }
    }
}

#[cfg(test)]
mod tests {
    use super::{Kind, beneath};
    use std::path::Path;

    #[test]
    fn a_folder_that_cannot_be_read_is_a_fault() {
        let found = beneath(Path::new("no such folder"), Kind::Maps);
        assert_eq!(found.files, []);
        let [fault] = &found.faults[..] else {
            panic!("one sentence: {:?}", found.faults);
        };
        assert!(fault.starts_with("no such folder: cannot read the folder: "));
    }
}
