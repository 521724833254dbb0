//! `aznifrem map`: each contract's map, printed or stored.

use std::fs;
use std::io::{self, ErrorKind, IsTerminal, Write};
use std::mem;
use std::num::NonZero;
use std::path::{Path, PathBuf};
use std::sync::Arc;
use std::thread::available_parallelism;
use std::time::Duration;

use aznifrem::{HIGHEST_LIMIT, Mapper, Mode};

use crate::contracts::Contracts;
use crate::given::Given;
use crate::input::Form;
use crate::jobs::{Jobs, Next};
use crate::mappers::Kind;
use crate::names::shown;
use crate::outcome::{Outcome, tell};
use crate::patterns::Patterns;
use crate::print::Print;
use crate::progress::Progress;
use crate::refused::Refusal;
use crate::store::{self, Store};
use crate::system;
use crate::table::{Command, Group, Operand, Opt, Stop, Value};
use crate::work::{Made, Work};

/// How soon Ctrl-C is heard.
const SOON: Duration = Duration::from_millis(50);
const MOST_JOBS: u64 = 1024;
const NO_NIGHT: &str = "aznifrem: no contract is mapped: there is no night";
const MOST_MEBIBYTES: u64 = (usize::MAX >> 20) as u64;

pub const COMMAND: Command = Command {
    name: "map",
    says: "Map contracts; a folder stands for all files in it, - for standard input",
    operands: &[Operand::paths("FILE")],
    takes: "give a file or a folder of contracts, or - for standard input",
    groups: &[
        Group {
            heading: "What comes out (by default --summary on a terminal, else --lines)",
            options: &[
                Opt::flag(
                    "--lines",
                    "each entry of the map as hexadecimal digits on a line; with two contracts or more, a line == PATH before each one's",
                ),
                Opt::flag("--summary", "the map for a reader"),
                Opt::flag(
                    "--json",
                    "the blocks as JSON, as serde makes it of evmole's, on a line; with two contracts or more, a line is an object with path and blocks; with --to it is a file NAME.json beside NAME.map, both of one call, and is not printed",
                ),
                Opt::flag(
                    "--dot",
                    "the map for Graphviz, to be drawn: static edges, dynamic ones dashed with their number of paths, unresolved ones red",
                ),
                Opt::with(
                    "--to",
                    Value::folder("FOLDER"),
                    "each map as a file NAME.map in this folder, to be stored, and the contracts that have none as lines of refused.jsonl; nothing is printed unless --lines, --summary or --dot is there too, and totals are said in the end. A folder that holds a .map file already is refused: give a fresh one each time, so that no old map stays",
                ),
            ],
        },
        Group {
            heading: "Options",
            options: &[
                Opt::with(
                    "--include",
                    Value::word("PATTERN"),
                    "of folders, the files of this name alone, such as '*.hex'; may stand more than once",
                ),
                Opt::with(
                    "--exclude",
                    Value::word("PATTERN"),
                    "of folders, not the files and folders of this name; may stand more than once",
                ),
                Opt::with(
                    "--jobs",
                    Value::word("N"),
                    "contracts that are mapped at a time 1 to 1024 (default: as many as there are cores); what comes out, and its order, is the same",
                ),
                Opt::with(
                    "--limit",
                    Value::word("N"),
                    "energy that the search may use, 0 to 500000 (default 500000)",
                ),
                Opt::flag(
                    "--known-zero",
                    "PUSH0 is known to put 0, so that more jumps are resolved where the compiler writes it; evmole does not know it, and maps of both kinds are not to be compared",
                ),
                Opt::flag(
                    "--numbers",
                    "each record has the energy that was used when it was made, so that 'aznifrem limit' can say which limit would have been enough; a stored map is 4 bytes longer for each",
                ),
                Opt::with(
                    "--ceiling",
                    Value::word("MIB"),
                    "memory that may be lent, in MiB, to all jobs together (default 1024)",
                ),
                Opt::flag("--hex", "the files hold hexadecimal digits"),
                Opt::flag("--binary", "the files hold the bytes themselves"),
                Opt::flag("--quiet", "no progress and no totals"),
            ],
        },
    ],
    notes: &[
        "A contract is a file of deployed code or of init code (at most 49,152 bytes), as hexadecimal digits, with or without 0x and line breaks, or as the bytes themselves. Which of the two it is shows by its content; say --hex or --binary where it does not: other text, and what begins with a byte order mark, is a contract with --binary alone. In folders of contracts, files and folders that begin with a dot, files that end in .map, refused.jsonl, unfinished.txt and links to folders are passed over.",
        "In a PATTERN ? is any letter, * any letters, and ** also goes across the / of folders. One that has a / is held to the whole path beneath the folder, another to the file's own name.",
        "Progress is a bar on a terminal, elsewhere a line every half minute. A run that is cut short, as by Ctrl-C, leaves no half file; unfinished.txt stays in the folder then, so that diff, report, limit and archive do not take it for a night.",
    ],
    exits: &[
        (0, "every contract is mapped"),
        (
            1,
            "one is refused or not stored, or a file or folder is unreadable (a line for each on standard error); the others are mapped",
        ),
        (
            2,
            "with --to: a file or folder that is named is not there, no contract at all is mapped, or maps cannot be stored in the folder",
        ),
    ],
    examples: &[
        (
            "A first map",
            "echo 60056007565b005b56 | aznifrem --summary -",
        ),
        (
            "A night's work, also where a contract is refused",
            "aznifrem --to new contracts || [ $? = 1 ] && aznifrem diff old new",
        ),
    ],
    run: |given, mut out| run(&Options::asked(given)?, &mut out),
};

pub struct Options {
    inputs: Vec<PathBuf>,
    to: Option<PathBuf>,
    patterns: Patterns,
    jobs: usize,
    quiet: bool,
    pub form: Form,
    pub print: Option<Print>,
    pub limit: u64,
    pub kind: Kind,
    pub ceiling: usize,
}

impl Options {
    fn asked(given: &Given) -> Result<Options, Stop> {
        let to = given.path("--to");
        if to.is_some_and(|to| to.as_os_str().is_empty()) {
            let wrong = "--to takes a folder, and its name is empty";
            return Err(Stop::Asked(wrong.into()));
        }
        let cores = available_parallelism().map_or(1, NonZero::get);
        let jobs = given.number_within("--jobs", 1..=MOST_JOBS)?;
        let limit = given.number_within("--limit", 0..=HIGHEST_LIMIT)?;
        let ceiling = given.number_within("--ceiling", 0..=MOST_MEBIBYTES)?;
        Ok(Options {
            inputs: given.operands.clone(),
            to: to.map(PathBuf::from),
            patterns: Patterns {
                include: patterns(given, "--include")?,
                exclude: patterns(given, "--exclude")?,
            },
            jobs: jobs.map_or(cores, |jobs| jobs as usize),
            quiet: given.has("--quiet"),
            form: Form::asked(given),
            print: Print::asked(given).or_else(|| to.is_none().then(by_default)),
            limit: limit.unwrap_or(HIGHEST_LIMIT),
            kind: Kind {
                mode: if given.has("--known-zero") {
                    Mode::KnownZero
                } else {
                    Mode::Plain
                },
                numbered: given.has("--numbers"),
            },
            ceiling: ceiling.map_or(Mapper::DEFAULT_CEILING, |count| (count as usize) << 20),
        })
    }
}

/// A reader has a terminal, a machine has none.
fn by_default() -> Print {
    if io::stdout().is_terminal() {
        Print::Summary
    } else {
        Print::Lines
    }
}

fn patterns(given: &Given, name: &str) -> Result<Vec<Vec<u8>>, Stop> {
    let values = given.values(name).map(|value| value.as_encoded_bytes());
    let values: Vec<Vec<u8>> = values.map(<[u8]>::to_vec).collect();
    if values.contains(&Vec::new()) {
        let wrong = format!("{name} takes a pattern, and it is empty");
        return Err(Stop::Asked(wrong));
    }
    Ok(values)
}

/// Why there is nothing to store: maps of a mistyped or bare folder are no night.
fn nothing(inputs: &[PathBuf], contracts: &Contracts) -> Vec<String> {
    let absent = |input: &&PathBuf| match fs::metadata(input) {
        Err(error) => error.kind() == ErrorKind::NotFound && *input != Path::new("-"),
        Ok(_) => false,
    };
    let absent = inputs.iter().filter(absent);
    let mut sentences: Vec<String> = absent
        .map(|input| format!("{}: is not there: nothing is mapped", shown(input)))
        .collect();
    if sentences.is_empty() && contracts.files.is_empty() {
        sentences.clone_from(&contracts.faults);
        sentences.push(NO_NIGHT.into());
    }
    sentences
}

/// The folder of --to, or a sentence for each reason why nothing is stored in it.
fn opened(to: &Path, inputs: &[PathBuf], contracts: &Contracts) -> Result<Arc<Store>, Vec<String>> {
    let sentences = nothing(inputs, contracts);
    if !sentences.is_empty() {
        return Err(sentences);
    }
    let store = Store::open(to).map_err(|sentence| vec![sentence])?;
    Ok(Arc::new(store))
}

fn run(options: &Options, out: &mut impl Write) -> Result<Outcome, Stop> {
    system::catch_endings();
    let contracts = Contracts::of(&options.inputs, &options.patterns);
    let store = match options.to.as_deref() {
        Some(to) => opened(to, &options.inputs, &contracts).map(Some),
        None => Ok(None),
    };
    let store = match store {
        Ok(store) => store,
        Err(sentences) => {
            sentences.iter().for_each(|sentence| tell(sentence));
            return Ok(Outcome::Wrong);
        }
    };
    contracts.faults.iter().for_each(|sentence| tell(sentence));
    let mut run = Run {
        progress: Progress::new(contracts.files.len(), options.quiet),
        total: contracts.files.len(),
        mapped: 0,
        refusals: contracts.unread,
    };
    let faults = contracts.faults.len();
    let threads = options.jobs.min(run.total);
    let work = Work::new(options, contracts.files, threads, store.clone());
    run.over(Arc::new(work), threads, out)?;
    run.progress.clear();
    let closed = store.map_or(Ok(()), |store| {
        store.close(&run.refusals)?;
        if !options.quiet {
            tell(&run.totals(contracts.left_out, &store));
        }
        let night = run.mapped > 0;
        night.then_some(()).ok_or_else(|| String::from(NO_NIGHT))
    });
    Ok(match closed {
        Ok(()) if faults == 0 && run.refusals.is_empty() => Outcome::Fine,
        Ok(()) => Outcome::Found,
        Err(sentence) => {
            tell(&sentence);
            Outcome::Wrong
        }
    })
}

/// What a run has come to so far.
struct Run {
    progress: Progress,
    total: usize,
    mapped: usize,
    refusals: Vec<Refusal>,
}

impl Run {
    /// Tells each contract's outcome, in their order.
    fn over(&mut self, work: Arc<Work>, threads: usize, out: &mut impl Write) -> io::Result<()> {
        let working = work.clone();
        let begun = Jobs::begin(self.total, threads, move |thread, item| {
            working.one(thread, item)
        });
        let mut jobs = begun?;
        loop {
            let next = jobs.next(SOON);
            if system::ending() {
                self.cut_short(&work);
            }
            let told = match next {
                Next::Done(result) => self.told(result, out),
                Next::Waiting => Ok(()),
                Next::Over => return Ok(()),
            };
            // The program ends then: no file may be half written.
            told.inspect_err(|_| mem::forget(store::at_rest()))?;
            if let Some(contract) = work.contracts.get(jobs.waited_for()) {
                self.progress.show(&contract.named.path);
            }
        }
    }

    fn told(&mut self, result: Result<Made, Refusal>, out: &mut impl Write) -> io::Result<()> {
        self.progress.done(result.is_err());
        let (text, said) = match result {
            Ok(Made { text, note }) => {
                self.mapped += 1;
                (text, note)
            }
            Err(refusal) => {
                let said = refusal.said();
                self.refusals.push(refusal);
                (String::new(), Some(said))
            }
        };
        if !text.is_empty() || said.is_some() {
            self.progress.clear();
        }
        out.write_all(text.as_bytes())?;
        if let Some(said) = said {
            out.flush()?;
            tell(&said);
        }
        Ok(())
    }

    /// Ends the program as the signal asks, once no file is half written.
    fn cut_short(&mut self, work: &Work) -> ! {
        let _resting = store::at_rest();
        self.progress.clear();
        let done = self.mapped + self.refusals.len();
        let advice = work.store.as_ref().map_or(String::new(), |store| {
            format!(
                "; {} is unfinished: remove it and map again",
                shown(&store.folder)
            )
        });
        let total = self.total;
        tell(&format!(
            "aznifrem: cut short after {done} of {total} contracts{advice}"
        ));
        system::end()
    }

    fn totals(&self, left_out: usize, store: &Store) -> String {
        let (total, mapped) = (self.total, self.mapped);
        let mut line = format!("contracts: {total}, mapped: {mapped}");
        let unread = self.mapped + self.refusals.len() - total;
        let refused = self.refusals.len() - unread;
        for (what, count) in [
            ("refused", refused),
            ("folders not read", unread),
            ("left out", left_out),
        ] {
            if count > 0 {
                line += &format!(", {what}: {count}");
            }
        }
        if !self.refusals.is_empty() {
            line += &format!("; listed in {}", shown(&store.list()));
        }
        line
    }
}
