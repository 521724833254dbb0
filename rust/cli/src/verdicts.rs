//! What `diff` says of each contract, in the form that is asked for.

use std::fs;
use std::io::{self, Write};
use std::path::{Path, PathBuf};

use aznifrem::Map;
use compare::{Judged, Totals, Verdict, quoted, rows_json, totals_json};
use draw::{Page, Shown, dot_beside};

use crate::names::shown;
use crate::nights::Became;
use crate::outcome::{Outcome, tell};

/// Two maps of one name, set beside each other.
pub enum Compared<'a> {
    Both(Box<Both>),
    Came(Totals),
    Went(Totals),
    /// Its contract was refused on one side or on both.
    Became(Became<'a>),
    /// A sentence for each thing that is unreadable.
    Not(Vec<String>),
}

/// Two maps, and what moved between them.
pub struct Both {
    pub old: Map,
    pub new: Map,
    pub judged: Judged,
}

/// What goes to standard output.
#[derive(Clone, Copy, Debug, PartialEq, Eq)]
pub enum Form {
    Rows,
    Json,
    Dot,
}

/// How it is said.
pub struct Wanted {
    pub form: Form,
    /// A verdict line for contracts that are equal too.
    pub all: bool,
    pub page: Option<PathBuf>,
}

/// A contract by its name, and what stands before each of its rows.
pub struct Titled<'a> {
    pub name: &'a str,
    pub title: &'a str,
}

/// The report of a run, contract by contract.
pub struct Report<'a> {
    wanted: Wanted,
    out: &'a mut dyn Write,
    page: Option<Page>,
    maps: usize,
    rows: usize,
    rose: usize,
    /// Contracts that one side refused, or both.
    refused: usize,
    /// By verdict; then came, went, not compared.
    counts: [usize; 6],
}

impl<'a> Report<'a> {
    pub fn new(wanted: Wanted, page_title: &str, out: &'a mut dyn Write) -> Report<'a> {
        let page = wanted.page.as_ref().map(|_| Page::new(page_title));
        Report {
            wanted,
            out,
            page,
            maps: 0,
            rows: 0,
            rose: 0,
            refused: 0,
            counts: [0; 6],
        }
    }

    /// One more contract.
    pub fn add(&mut self, named: &Titled, compared: &Compared) -> io::Result<()> {
        self.maps += usize::from(!unmapped(compared));
        match compared {
            Compared::Both(both) => {
                let judged = &both.judged;
                self.counts[judged.verdict as usize] += 1;
                self.rose += usize::from(judged.rose() > 0);
                self.rows += judged.rows.len();
            }
            Compared::Came(_) => self.alone(3),
            Compared::Went(_) => self.alone(4),
            Compared::Became(became) => {
                self.refused += 1;
                self.rows += usize::from(became.moved());
            }
            Compared::Not(sentences) => {
                self.counts[5] += 1;
                self.out.flush()?;
                sentences.iter().for_each(|sentence| tell(sentence));
            }
        }
        self.paged(named.name, compared);
        match self.wanted.form {
            Form::Rows => self.lines(named.title, compared),
            Form::Json => self.json(named.name, compared),
            Form::Dot => self.dot(named.name, compared),
        }
    }

    /// A map that came or went is one row.
    fn alone(&mut self, kind: usize) {
        self.counts[kind] += 1;
        self.rows += 1;
    }

    fn lines(&mut self, title: &str, compared: &Compared) -> io::Result<()> {
        match compared {
            Compared::Both(both) => {
                let judged = &both.judged;
                for row in &judged.rows {
                    writeln!(self.out, "{title}{row}")?;
                }
                if self.wanted.all || judged.verdict != Verdict::Equal {
                    writeln!(self.out, "{title}{judged}")?;
                }
                Ok(())
            }
            Compared::Came(totals) => writeln!(self.out, "{title}map came: {totals}"),
            Compared::Went(totals) => writeln!(self.out, "{title}map went: {totals}"),
            Compared::Became(became) if self.wanted.all || became.moved() => {
                writeln!(self.out, "{title}{became}")
            }
            Compared::Became(_) => Ok(()),
            Compared::Not(_) => Ok(()),
        }
    }

    /// An object a line.
    fn json(&mut self, name: &str, compared: &Compared) -> io::Result<()> {
        let name = quoted(name);
        let rest = match compared {
            Compared::Both(both) => judged_json(&both.judged),
            Compared::Came(new) => format!(r#""verdict":"came","new":{}"#, totals_json(new)),
            Compared::Went(old) => format!(r#""verdict":"went","old":{}"#, totals_json(old)),
            Compared::Became(became) => became_json(became),
            Compared::Not(why) => {
                let why: Vec<String> = why.iter().map(|sentence| quoted(sentence)).collect();
                format!(r#""verdict":"not compared","faults":[{}]"#, why.join(","))
            }
        };
        writeln!(self.out, r#"{{"contract":{name},{rest}}}"#)
    }

    fn dot(&mut self, name: &str, compared: &Compared) -> io::Result<()> {
        match compared {
            Compared::Both(both) if self.wanted.all || both.judged.verdict != Verdict::Equal => {
                let Both { old, new, judged } = &**both;
                let drawn = dot_beside(name, old, new, judged);
                self.out.write_all(drawn.as_bytes())
            }
            _ => Ok(()),
        }
    }

    fn paged(&mut self, name: &str, compared: &Compared) {
        let Some(page) = &mut self.page else {
            return;
        };
        match compared {
            Compared::Both(both) => {
                let Both { old, new, judged } = &**both;
                page.add(name, &Shown::Compared { old, new, judged });
            }
            Compared::Came(totals) => page.add(name, &Shown::Came(*totals)),
            Compared::Went(totals) => page.add(name, &Shown::Went(*totals)),
            Compared::Became(became) => {
                page.add(name, &Shown::Refused(&became.to_string()));
            }
            Compared::Not(why) => page.add(name, &Shown::NotCompared(why)),
        }
    }

    /// The last lines, the page, and what it comes to.
    pub fn finish(mut self) -> io::Result<Outcome> {
        match self.wanted.form {
            Form::Rows => self.last_lines()?,
            Form::Json => self.last_json()?,
            Form::Dot => {}
        }
        let stored = match (self.page.take(), &self.wanted.page) {
            (Some(page), Some(path)) => store(path, &page.finish()),
            _ => Ok(()),
        };
        if let Err(sentence) = stored {
            self.out.flush()?;
            tell(&sentence);
            return Ok(Outcome::Wrong);
        }
        Ok(match (self.counts[5], self.rows) {
            (0, 0) => Outcome::Fine,
            (0, _) => Outcome::Found,
            _ => Outcome::Wrong,
        })
    }

    fn last_lines(&mut self) -> io::Result<()> {
        let [equal, up_to_addresses, different, ..] = self.counts;
        if up_to_addresses + different > 0 {
            write!(
                self.out,
                "verdicts: equal {equal}, equal up to addresses {up_to_addresses}, different {different}"
            )?;
            if self.rose > 0 {
                write!(self.out, "; UNRESOLVED JUMPS ROSE IN {}", self.rose)?;
            }
            writeln!(self.out)?;
        }
        write!(self.out, "maps: {}, differences: {}", self.maps, self.rows)?;
        for (what, count) in [("refused", self.refused), ("not compared", self.counts[5])] {
            if count > 0 {
                write!(self.out, ", {what}: {count}")?;
            }
        }
        writeln!(self.out)
    }

    fn last_json(&mut self) -> io::Result<()> {
        let [equal, up_to_addresses, different, came, went, not] = self.counts;
        let (maps, rows, rose, refused) = (self.maps, self.rows, self.rose, self.refused);
        writeln!(
            self.out,
            r#"{{"maps":{maps},"equal":{equal},"equal_up_to_addresses":{up_to_addresses},"different":{different},"came":{came},"went":{went},"refused":{refused},"not_compared":{not},"differences":{rows},"unresolved_rose_in":{rose}}}"#
        )
    }
}

/// Whether there is a map on neither side.
fn unmapped(compared: &Compared) -> bool {
    let Compared::Became(became) = compared else {
        return false;
    };
    !matches!(became, Became::Refused(_) | Became::Mapped(_))
}

fn became_json(became: &Became) -> String {
    let refusal = became.refusal();
    let number = refusal
        .number
        .map_or("null".into(), |number| number.to_string());
    format!(
        r#""verdict":"{}","number":{number},"reason":{}"#,
        became.verdict(),
        quoted(&refusal.reason)
    )
}

fn judged_json(judged: &Judged) -> String {
    let starts = |list: &[usize]| {
        let starts: Vec<String> = list.iter().map(usize::to_string).collect();
        format!("[{}]", starts.join(","))
    };
    let instructions = judged.instructions.as_deref().map(starts);
    format!(
        r#""verdict":"{}","unresolved_rose":{},"old":{},"new":{},"other_length":{},"other_instructions":{},"rows":{}"#,
        judged.verdict.name(),
        judged.rose(),
        totals_json(&judged.old),
        totals_json(&judged.new),
        starts(&judged.lengths),
        instructions.unwrap_or("null".into()),
        rows_json(&judged.rows)
    )
}

/// Writes the page beside its place first, so that no half of one is ever there.
fn store(path: &Path, page: &str) -> Result<(), String> {
    let unwritable = |error| format!("{}: cannot be written: {error}", shown(path));
    let mut beside = path.as_os_str().to_os_string();
    beside.push(".part");
    let written = fs::write(&beside, page).and_then(|()| fs::rename(&beside, path));
    if written.is_err() {
        // What is told is why it could not be written.
        let _ = fs::remove_file(&beside);
    }
    written.map_err(unwritable)
}

#[cfg(test)]
mod tests {
    use super::store;
    use std::{env, fs, process};

    #[test]
    fn a_page_that_cannot_have_its_name_leaves_no_half() {
        let folder = env::temp_dir().join(format!("aznifrem-page-{}", process::id()));
        let taken = folder.join("page.html");
        fs::create_dir_all(taken.join("in the way")).expect("folders can be made");
        let said = store(&taken, "<!doctype html>").expect_err("a folder has the name");
        assert!(said.contains("page.html: cannot be written: "), "{said}");
        let names = fs::read_dir(&folder).expect("the folder is there");
        assert_eq!(names.count(), 1);
        fs::remove_dir_all(&folder).expect("it can be taken away");
    }
}
