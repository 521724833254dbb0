//! What became of the contracts that were refused in one of two nights: `diff` asks it of every name
//! that has no map on both sides.

use std::collections::BTreeSet;
use std::fmt;
use std::path::{Path, PathBuf};

use crate::refused::{Refusal, Refused};

/// The lists of two folders of maps.
#[derive(Debug, Default)]
pub struct Nights {
    old: Refused,
    new: Refused,
}

/// A contract that has a map on one side alone, or on none, because it was refused.
#[derive(Clone, Copy, Debug, PartialEq, Eq)]
pub enum Became<'a> {
    /// It has a map on the old side, and is refused on the new.
    Refused(&'a Refusal),
    /// It was refused on the old side, and has a map on the new.
    Mapped(&'a Refusal),
    /// It is not on the old side, and refused on the new.
    CameRefused(&'a Refusal),
    /// It was refused on the old side, and is not on the new.
    WentRefused(&'a Refusal),
    /// It is refused on both: nothing moved, and nothing is known.
    StillRefused(&'a Refusal),
}

impl Nights {
    /// The lists of both, or a sentence for each that is unfinished or cannot be read.
    pub fn of(old: &Path, new: &Path) -> Result<Nights, Vec<String>> {
        match (Refused::of_folder(old), Refused::of_folder(new)) {
            (Ok(old), Ok(new)) => Ok(Nights { old, new }),
            (old, new) => Err([old, new].into_iter().filter_map(Result::err).collect()),
        }
    }

    /// Of a map, by its name beneath the folder, that the old side has and the new has not; nothing
    /// if its contract is gone.
    pub fn without_new(&self, map: &Path) -> Option<Became<'_>> {
        self.new.of_map(map).map(Became::Refused)
    }

    /// Of a map that the new side has and the old has not; nothing if its contract is new.
    pub fn without_old(&self, map: &Path) -> Option<Became<'_>> {
        self.old.of_map(map).map(Became::Mapped)
    }

    /// The contracts that neither side has a map of, each with its map's name, by name. Given are the
    /// names of the maps that one side has or both have.
    pub fn without_both(&self, maps: &BTreeSet<PathBuf>) -> Vec<(String, Became<'_>)> {
        let maps: BTreeSet<String> = maps.iter().map(|map| crate::names::shown(map)).collect();
        let names = self.old.names().chain(self.new.names());
        let names: BTreeSet<String> = names.map(|name| format!("{name}.map")).collect();
        let left = names.into_iter().filter(|name| !maps.contains(name));
        left.filter_map(|name| self.of_neither(&name).map(|became| (name, became)))
            .collect()
    }

    fn of_neither(&self, map: &str) -> Option<Became<'_>> {
        match (self.old.of_shown(map), self.new.of_shown(map)) {
            (Some(_), Some(new)) => Some(Became::StillRefused(new)),
            (None, Some(new)) => Some(Became::CameRefused(new)),
            (Some(old), None) => Some(Became::WentRefused(old)),
            (None, None) => None,
        }
    }
}

impl<'a> Became<'a> {
    pub fn refusal(&self) -> &'a Refusal {
        match self {
            Became::Refused(refusal)
            | Became::Mapped(refusal)
            | Became::CameRefused(refusal)
            | Became::WentRefused(refusal)
            | Became::StillRefused(refusal) => refusal,
        }
    }

    /// What machines read in place of a verdict.
    pub fn verdict(&self) -> &'static str {
        match self {
            Became::Refused(_) => "refused now",
            Became::Mapped(_) => "mapped now, refused before",
            Became::CameRefused(_) => "came, refused",
            Became::WentRefused(_) => "went, refused before",
            Became::StillRefused(_) => "refused still",
        }
    }

    /// Whether it is something that moved.
    pub fn moved(&self) -> bool {
        !matches!(self, Became::StillRefused(_))
    }
}

/// The row of it.
impl fmt::Display for Became<'_> {
    fn fmt(&self, f: &mut fmt::Formatter) -> fmt::Result {
        write!(f, "contract {}: {}", self.verdict(), self.refusal().reason)
    }
}

#[cfg(test)]
mod tests {
    use super::{Became, Nights};
    use crate::refused::{Refusal, Refused};
    use std::collections::BTreeSet;
    use std::path::{Path, PathBuf};

    fn refused(contracts: &[&str]) -> Refused {
        let refusal = |contract: &&str| Refusal {
            contract: (*contract).into(),
            path: format!("code/{contract}"),
            number: Some(1),
            reason: "too long".into(),
        };
        let lines: String = contracts.iter().map(|one| refusal(one).line()).collect();
        Refused::of_text(&lines).expect("it is a list")
    }

    #[test]
    fn a_refused_contract_is_told_from_one_that_is_gone() {
        let nights = Nights {
            old: refused(&["was"]),
            new: refused(&["is", "deep/"]),
        };
        let row = |became: Option<Became>| became.map(|became| became.to_string());
        let without_new = |map: &str| row(nights.without_new(Path::new(map)));
        let without_old = |map: &str| row(nights.without_old(Path::new(map)));
        let now = "contract refused now: too long";
        assert_eq!(without_new("is.map").as_deref(), Some(now));
        assert_eq!(without_new("deep/a.map").as_deref(), Some(now));
        assert_eq!(without_new("gone.map"), None);
        let before = "contract mapped now, refused before: too long";
        assert_eq!(without_old("was.map").as_deref(), Some(before));
        assert_eq!(without_old("fresh.map"), None);
    }

    #[test]
    fn those_without_a_map_on_either_side_are_told_too() {
        let nights = Nights {
            old: refused(&["a", "b", "mapped now"]),
            new: refused(&["b", "c", "deep/"]),
        };
        let maps = BTreeSet::from([PathBuf::from("mapped now.map")]);
        let told = nights.without_both(&maps);
        let rows: Vec<(&str, String, bool)> = (told.iter())
            .map(|(map, became)| (map.as_str(), became.to_string(), became.moved()))
            .collect();
        assert_eq!(
            rows,
            [
                (
                    "a.map",
                    "contract went, refused before: too long".into(),
                    true
                ),
                ("b.map", "contract refused still: too long".into(), false),
                ("c.map", "contract came, refused: too long".into(), true),
            ]
        );
    }
}
