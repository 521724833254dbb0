//! The words that a command is given, told apart by its entry of the table.

use std::ffi::{OsStr, OsString};
use std::ops::RangeInclusive;
use std::path::{Path, PathBuf};

use crate::names::shown;
use crate::table::{Command, Stop};

/// Options and operands, each in the order in which they stand.
pub struct Given {
    pub command: &'static Command,
    pub options: Vec<(&'static str, Option<OsString>)>,
    pub operands: Vec<PathBuf>,
}

/// Refuses - where it is not standard input.
pub fn no_dash(command: &str, path: &Path) -> Result<(), Stop> {
    if path != Path::new("-") {
        return Ok(());
    }
    let sentence =
        "takes files and folders by name, not standard input; a file of that name is './-'";
    Err(Stop::Asked(format!("{command} {sentence}")))
}

impl Given {
    /// Refuses - among the operands.
    pub fn without_dash(&self) -> Result<(), Stop> {
        let mut operands = self.operands.iter();
        operands.try_for_each(|path| no_dash(self.command.name, path))
    }

    pub fn has(&self, name: &str) -> bool {
        self.last(&[name]).is_some()
    }

    /// Which of these stands last: it is the one that counts.
    pub fn last(&self, names: &[&str]) -> Option<&'static str> {
        let known = |name: &&str| self.command.option(name).is_some();
        debug_assert!(names.iter().all(known), "the table has each of {names:?}");
        let mut given = self.options.iter().rev().map(|(name, _)| *name);
        given.find(|name| names.contains(name))
    }

    /// Every value of an option.
    pub fn values(&self, name: &str) -> impl DoubleEndedIterator<Item = &OsStr> {
        debug_assert!(
            self.command.option(name).is_some(),
            "the table has {name} with a value"
        );
        let named =
            move |(given, value): &'_ (&str, Option<OsString>)| *given == name && value.is_some();
        let named = self.options.iter().filter(move |option| named(option));
        named.filter_map(|(_, value)| value.as_deref())
    }

    /// The last value of an option: it is the one that counts.
    pub fn value(&self, name: &str) -> Option<&OsStr> {
        self.values(name).next_back()
    }

    pub fn path(&self, name: &str) -> Option<&Path> {
        self.value(name).map(Path::new)
    }

    /// The number after an option, of these.
    pub fn number_within(
        &self,
        name: &str,
        range: RangeInclusive<u64>,
    ) -> Result<Option<u64>, Stop> {
        let Some(value) = self.value(name) else {
            return Ok(None);
        };
        let number = value.to_str().and_then(|text| text.parse().ok());
        let number = number.filter(|number| range.contains(number));
        let wrong = || {
            let (low, high) = (range.start(), range.end());
            let value = shown(Path::new(value));
            format!("{name} takes a whole number from {low} to {high}, not '{value}'")
        };
        number.map(Some).ok_or_else(|| Stop::Asked(wrong()))
    }
}
