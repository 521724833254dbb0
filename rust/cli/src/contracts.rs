//! The contracts that the words of the command line stand for.

use std::collections::HashSet;
use std::path::{Path, PathBuf};

use crate::files::{Found, Kind, Named, chosen};
use crate::names::shown;
use crate::patterns::Patterns;
use crate::refused::Refusal;

pub struct Contract {
    pub named: Named,
    /// Another before it has the same name.
    pub twice: bool,
}

pub struct Contracts {
    pub files: Vec<Contract>,
    /// A sentence for each folder that holds none, or cannot be read.
    pub faults: Vec<String>,
    /// The folders that cannot be read: there may be contracts in them.
    pub unread: Vec<Refusal>,
    pub left_out: usize,
}

impl Contracts {
    pub fn of(inputs: &[PathBuf], patterns: &Patterns) -> Contracts {
        let mut contracts = Contracts {
            files: Vec::new(),
            faults: Vec::new(),
            unread: Vec::new(),
            left_out: 0,
        };
        let mut names = HashSet::new();
        for input in inputs {
            let found = expanded(input, patterns);
            contracts.faults.extend(found.faults);
            contracts.unread.extend(found.unread.iter().map(unread));
            contracts.left_out += found.left_out;
            contracts.files.extend(found.files.into_iter().map(|named| {
                let twice = !names.insert(named.name.clone());
                Contract { named, twice }
            }));
        }
        contracts
    }
}

fn expanded(input: &Path, patterns: &Patterns) -> Found {
    if input.is_dir() {
        let mut found = chosen(input, Kind::Contracts, patterns);
        if found.files.is_empty() && found.faults.is_empty() {
            let which = if found.left_out > 0 {
                " that --include and --exclude take"
            } else {
                ""
            };
            let sentence = format!("{}: no contract is in it{which}", shown(input));
            found.faults.push(sentence);
        }
        return found;
    }
    let name = match input.file_name() {
        Some(name) if input != Path::new("-") => PathBuf::from(name),
        _ => PathBuf::from("stdin"),
    };
    let path = input.to_path_buf();
    Found {
        files: vec![Named { path, name }],
        ..Found::default()
    }
}

/// The list has a folder with a / behind its name, which stands for all that is in it.
fn unread((folder, reason): &(Named, String)) -> Refusal {
    Refusal {
        contract: format!("{}/", shown(&folder.name)),
        path: shown(&folder.path),
        number: None,
        reason: reason.clone(),
    }
}
