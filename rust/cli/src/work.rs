//! The work on one contract: read, mapped, stored, and what is printed of it.

use std::sync::Arc;
use std::thread::sleep;
use std::time::Duration;

use aznifrem::{Error, Map, Mapper, Room};

use crate::contracts::Contract;
use crate::files::Named;
use crate::input;
use crate::mappers::Mappers;
use crate::maps::Options;
use crate::names::shown;
use crate::print::{Print, json, lines, titled};
use crate::refused::Refusal;
use crate::store::{self, Store};
use crate::summary;

const BLANK: &str = "holds nothing, and is mapped as a contract without code: that is written 0x";
/// A relay that ended by Ctrl-C was told so with this program, or a moment before.
const A_MOMENT: Duration = Duration::from_millis(100);

pub struct Work {
    pub contracts: Vec<Contract>,
    pub store: Option<Arc<Store>>,
    form: input::Form,
    print: Option<Print>,
    limit: u64,
    mappers: Mappers,
}

/// A contract is mapped.
pub struct Made {
    /// What is printed.
    pub text: String,
    /// What is told beside it.
    pub note: Option<String>,
}

/// Why a contract is not mapped, or not stored.
enum Failed {
    Library(Error),
    Other(String),
}

impl From<Error> for Failed {
    fn from(error: Error) -> Failed {
        Failed::Library(error)
    }
}

impl Work {
    pub fn new(
        options: &Options,
        contracts: Vec<Contract>,
        threads: usize,
        store: Option<Arc<Store>>,
    ) -> Work {
        Work {
            contracts,
            store,
            form: options.form,
            print: options.print,
            limit: options.limit,
            mappers: Mappers::new(options.ceiling, threads, options.kind),
        }
    }

    /// Maps and stores one contract, and gives what is to be printed of it.
    pub fn one(&self, thread: usize, item: usize) -> Result<Made, Refusal> {
        let Contract { named, twice } = &self.contracts[item];
        let made = if *twice && self.store.is_some() {
            let sentence = "is not stored: another contract of this run has its name; map the folders one by one";
            Err(Failed::Other(sentence.into()))
        } else {
            self.made(thread, named)
        };
        made.map_err(|failed| {
            let (number, reason) = failed.said();
            Refusal {
                contract: shown(&named.name),
                path: shown(&named.path),
                number,
                reason,
            }
        })
    }

    fn made(&self, thread: usize, contract: &Named) -> Result<Made, Failed> {
        let code = input::read(&contract.path, self.form).map_err(Failed::Other)?;
        let title = shown(&contract.path);
        let work = |mapper: &mut Mapper| self.mapped(mapper, contract, &title, &code.bytes);
        let text = self.mappers.with(thread, work, Failed::library)?;
        let note = code.blank.then(|| format!("{title}: {BLANK}"));
        Ok(Made { text, note })
    }

    fn mapped(
        &self,
        mapper: &mut Mapper,
        contract: &Named,
        title: &str,
        code: &[u8],
    ) -> Result<String, Failed> {
        if self.print == Some(Print::Json) {
            let (entries, text) = mapper.both(code, self.limit)?;
            return self.json(contract, title, entries, text);
        }
        let entries = mapper.entries(code, self.limit)?;
        self.stored(contract, "map", entries)?;
        match self.print {
            Some(Print::Lines) => Ok(titled(self.many(), title, &lines(entries))),
            Some(Print::Summary) => Ok(summary::text(title, &read_back(entries)?)),
            Some(Print::Dot) => Ok(draw::dot(title, &read_back(entries)?)),
            None | Some(Print::Json) => Ok(String::new()),
        }
    }

    /// The text and the map of one call: stored beside each other, or the text to be printed.
    fn json(
        &self,
        contract: &Named,
        title: &str,
        entries: &[u8],
        text: &str,
    ) -> Result<String, Failed> {
        if self.store.is_none() {
            return Ok(json(self.many(), title, text));
        }
        self.stored(contract, "map", entries)?;
        self.stored(contract, "json", text.as_bytes())?;
        Ok(String::new())
    }

    fn stored(&self, contract: &Named, ending: &str, bytes: &[u8]) -> Result<(), Failed> {
        let Some(store) = &self.store else {
            return Ok(());
        };
        let file = store::file(&contract.name, ending);
        store.put(&file, bytes).map_err(Failed::Other)
    }

    fn many(&self) -> bool {
        self.contracts.len() > 1
    }
}

fn read_back(entries: &[u8]) -> Result<Map, Error> {
    Map::try_from_bytes(entries)?.map_err(Error::Unreadable)
}

impl Failed {
    fn library(&self) -> Option<&Error> {
        match self {
            Failed::Library(error) => Some(error),
            Failed::Other(_) => None,
        }
    }

    /// Document 01's number, if it has one, and the sentence with what to do.
    fn said(self) -> (Option<u8>, String) {
        let error = match self {
            Failed::Library(error) => error,
            Failed::Other(sentence) => return (None, sentence),
        };
        let advice = match error {
            Error::RoomFull { room: Room::W, .. } => " (--ceiling)",
            Error::RoomFull { .. } => " (--ceiling, --limit)",
            Error::RoomAtMost { .. } => " (--limit)",
            Error::NotRelayed(_) => {
                sleep(A_MOMENT);
                ""
            }
            _ => "",
        };
        (error.number(), format!("{error}{advice}"))
    }
}
