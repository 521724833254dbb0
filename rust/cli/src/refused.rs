//! The contracts of a run that have no map, as a list beside the maps: with it `diff` tells a refused
//! contract from a removed one.

use std::collections::BTreeMap;
use std::fs;
use std::io::ErrorKind;
use std::path::Path;

use compare::quoted;

use crate::json::{self, Value};
use crate::names::shown;

/// The list's name in the folder: a line for each, a JSON object.
pub const LIST: &str = "refused.jsonl";

/// Stands in the folder from the first map to the list: a run that was cut short left it.
pub const UNFINISHED: &str = "unfinished.txt";

/// A contract that has no map, and why.
#[derive(Clone, Debug, PartialEq, Eq)]
pub struct Refusal {
    /// Its name beneath the folder, as it is shown; of a folder that cannot be read, with a / behind.
    pub contract: String,
    /// The file, as it is shown.
    pub path: String,
    /// Document 01's number, if the library refused it.
    pub number: Option<u8>,
    pub reason: String,
}

impl Refusal {
    /// The line of the list.
    pub fn line(&self) -> String {
        let number = self
            .number
            .map_or("null".into(), |number| number.to_string());
        format!(
            "{{\"contract\":{},\"path\":{},\"number\":{number},\"reason\":{}}}\n",
            quoted(&self.contract),
            quoted(&self.path),
            quoted(&self.reason)
        )
    }

    /// The line on standard error; `refused N` as document 01's program says it.
    pub fn said(&self) -> String {
        let refused = self.number.map(|number| format!("refused {number}: "));
        format!(
            "{}: {}{}",
            self.path,
            refused.unwrap_or_default(),
            self.reason
        )
    }

    fn of_line(line: &str) -> Option<Refusal> {
        let mut object = json::object(line)?;
        let mut text = |name: &str| match object.remove(name) {
            Some(Value::Text(text)) => Some(text),
            _ => None,
        };
        let (contract, path, reason) = (text("contract")?, text("path")?, text("reason")?);
        let number = match object.remove("number")? {
            Value::Number(number) => Some(u8::try_from(number).ok()?),
            _ => None,
        };
        Some(Refusal {
            contract,
            path,
            number,
            reason,
        })
    }
}

/// A sentence on a folder whose run was cut short: half a night is not taken for a whole one.
pub fn unfinished(folder: &Path) -> Option<String> {
    let sentence = "the run that stores maps here is not over, or was cut short: remove the folder and make it again";
    let marked = folder.join(UNFINISHED).exists();
    marked.then(|| format!("{}: {sentence}", shown(folder)))
}

/// The list of one folder of maps.
#[derive(Clone, Debug, Default, PartialEq, Eq)]
pub struct Refused(BTreeMap<String, Refusal>);

impl Refused {
    /// Of a folder without a list, as older runs made them, nothing is known to be refused. A run
    /// that was cut short, and a list that cannot be read, is a sentence.
    pub fn of_folder(folder: &Path) -> Result<Refused, String> {
        if let Some(sentence) = unfinished(folder) {
            return Err(sentence);
        }
        let list = folder.join(LIST);
        match fs::read_to_string(&list) {
            Ok(text) => Refused::of_text(&text)
                .map_err(|line| format!("{}: line {line} is no refusal: map again", shown(&list))),
            Err(error) if error.kind() == ErrorKind::NotFound => Ok(Refused::default()),
            Err(error) => Err(format!("{}: cannot be read: {error}", shown(&list))),
        }
    }

    /// The list, or the number of its first line that is none of it.
    pub fn of_text(text: &str) -> Result<Refused, usize> {
        let refusal = |(at, line)| Refusal::of_line(line).ok_or(at + 1);
        let refusals = text.lines().enumerate().map(refusal);
        let named = refusals.map(|read| read.map(|one| (one.contract.clone(), one)));
        named.collect::<Result<_, usize>>().map(Refused)
    }

    /// Why there is no map of this name, if its contract was refused: `deep/a.hex.map`, beneath the
    /// folder.
    pub fn of_map(&self, name: &Path) -> Option<&Refusal> {
        self.of_shown(&shown(name))
    }

    /// The same, by the name as it is shown. A folder that was not read stands for all in it.
    pub fn of_shown(&self, name: &str) -> Option<&Refusal> {
        let contract = name.strip_suffix(".map")?;
        let folders = contract.match_indices('/');
        let mut above = folders.filter_map(|(at, _)| self.0.get(&contract[..=at]));
        let whole = self.0.get(contract).or_else(|| above.next());
        whole.or_else(|| self.0.get("/"))
    }

    /// The names of the contracts; folders that were not read are none.
    pub fn names(&self) -> impl Iterator<Item = &str> {
        let names = self.0.keys().map(String::as_str);
        names.filter(|name| !name.ends_with('/'))
    }
}

#[cfg(test)]
mod tests {
    use super::{Refusal, Refused};
    use std::path::Path;

    fn refusal(contract: &str, number: Option<u8>) -> Refusal {
        Refusal {
            contract: contract.into(),
            path: format!("code/{contract}"),
            number,
            reason: "has \"quotes\"".into(),
        }
    }

    #[test]
    fn the_list_comes_back() {
        let given = [refusal("a.hex", Some(1)), refusal("deep/b\\n.hex", None)];
        let text: String = given.iter().map(Refusal::line).collect();
        let read = Refused::of_text(&text).expect("it is a list");
        assert_eq!(Vec::from_iter(read.names()), ["a.hex", "deep/b\\n.hex"]);
        assert_eq!(read.of_map(Path::new("a.hex.map")), Some(&given[0]));
        assert_eq!(read.of_map(Path::new("deep/b\n.hex.map")), Some(&given[1]));
        assert_eq!(read.of_map(Path::new("b.hex.map")), None);
        assert_eq!(Refused::of_text("{}\n"), Err(1));
    }

    #[test]
    fn a_folder_that_was_not_read_stands_for_all_in_it() {
        let text = refusal("deep/down/", None).line();
        let read = Refused::of_text(&text).expect("it is a list");
        assert!(read.of_map(Path::new("deep/down/x/a.hex.map")).is_some());
        assert_eq!(read.of_map(Path::new("deep/a.hex.map")), None);
    }
}
