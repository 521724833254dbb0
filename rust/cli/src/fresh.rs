//! A new file, written beside its place first: it stands there whole, or not at all.

use std::ffi::OsString;
use std::fs::{self, File};
use std::io::{self, BufWriter, ErrorKind, Write};
use std::path::{Path, PathBuf};

use crate::names::shown;

pub struct Fresh {
    to: PathBuf,
    beside: PathBuf,
    file: Option<BufWriter<File>>,
}

impl Fresh {
    /// Begins a file at a place where none stands yet: nothing is ever overwritten.
    pub fn at(to: &Path) -> Result<Fresh, String> {
        if fs::symlink_metadata(to).is_ok() {
            return Err(taken(to));
        }
        let mut beside: OsString = to.into();
        beside.push(".part");
        let beside = PathBuf::from(beside);
        let file = File::create_new(&beside);
        let file = file.map_err(|error| match error.kind() {
            ErrorKind::AlreadyExists => left(&beside),
            _ => cannot(&beside, &error),
        })?;
        Ok(Fresh {
            to: to.into(),
            beside,
            file: Some(BufWriter::new(file)),
        })
    }

    pub fn write(&mut self, bytes: &[u8]) -> Result<(), String> {
        let written = self.file.as_mut().map(|file| file.write_all(bytes));
        let written = written.unwrap_or(Ok(()));
        written.map_err(|error| cannot(&self.to, &error))
    }

    /// It is whole: gives it its name.
    pub fn keep(mut self) -> Result<(), String> {
        let whole = self.file.take().map_or(Ok(()), |file| {
            let file = file.into_inner().map_err(|error| error.into_error())?;
            file.sync_all()?;
            named(&self.beside, &self.to)
        });
        whole.map_err(|error| {
            // What is told is why it could not be written.
            let _ = fs::remove_file(&self.beside);
            match error.kind() {
                ErrorKind::AlreadyExists => taken(&self.to),
                _ => cannot(&self.to, &error),
            }
        })
    }
}

impl Drop for Fresh {
    /// What is not kept is taken away.
    fn drop(&mut self) {
        if self.file.take().is_some() {
            let _ = fs::remove_file(&self.beside);
        }
    }
}

/// Gives a file its name, unless another was made there meanwhile. A link finds that out in one step with
/// the naming; where links are refused, it is asked right before.
fn named(beside: &Path, to: &Path) -> io::Result<()> {
    match fs::hard_link(beside, to) {
        Ok(()) => fs::remove_file(beside),
        Err(error) if error.kind() == ErrorKind::AlreadyExists => Err(error),
        Err(_) if fs::symlink_metadata(to).is_ok() => Err(ErrorKind::AlreadyExists.into()),
        Err(_) => fs::rename(beside, to),
    }
}

fn taken(path: &Path) -> String {
    let sentence = "is there already: give a name that no file has";
    format!("{}: {sentence}", shown(path))
}

fn left(beside: &Path) -> String {
    let sentence = "is there already, left by a run that did not end or is under way: take it away";
    format!("{}: {sentence}", shown(beside))
}

fn cannot(path: &Path, error: &io::Error) -> String {
    format!("cannot write {}: {error}", shown(path))
}

#[cfg(test)]
mod tests {
    use super::Fresh;
    use std::{env, fs, process};

    #[test]
    fn a_file_that_is_made_meanwhile_is_not_replaced() {
        let folder = env::temp_dir().join(format!("aznifrem-fresh-{}", process::id()));
        fs::create_dir_all(&folder).expect("a folder can be made");
        let to = folder.join("out");
        let mut fresh = Fresh::at(&to).expect("no file is there");
        fresh.write(b"ours").expect("it is written");
        fs::write(&to, "theirs").expect("it is written");
        let said = fresh.keep().expect_err("another has the name");
        assert!(said.contains("is there already"), "{said}");
        assert_eq!(fs::read(&to).expect("it is there"), b"theirs");
        let files = fs::read_dir(&folder).expect("the folder is there");
        assert_eq!(files.count(), 1);
        fs::remove_dir_all(&folder).expect("it can be taken away");
    }
}
