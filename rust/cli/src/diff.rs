//! `aznifrem diff OLD NEW`: two stored maps, or two folders of them.

use std::collections::BTreeMap;
use std::fs;
use std::io::{self, Write};
use std::path::{Path, PathBuf};

use aznifrem::Map;
use compare::{Coded, Judged, Totals, judge, judge_coded, judge_matched, judge_matched_coded};

use crate::files::{Kind, Named, beneath};
use crate::given::{Given, no_dash};
use crate::input;
use crate::names::shown;
use crate::nights::Nights;
use crate::outcome::{Outcome, tell};
use crate::stored;
use crate::table::{Command, Group, Of, Operand, Opt, Stop, Value};
use crate::verdicts::{Both, Compared, Form, Report, Titled, Wanted};

const PATH: Of = Of::Path;

pub const COMMAND: Command = Command {
    name: "diff",
    says: "What moved between two stored maps, or two folders of them",
    operands: &[Operand::path("OLD"), Operand::path("NEW")],
    takes: "diff takes two maps or two folders of maps, OLD and NEW",
    groups: &[
        Group {
            heading: "What comes out (rows and verdicts, if nothing is said)",
            options: &[
                Opt::flag(
                    "--json",
                    "an object a line for each contract, with verdict, figures and rows; the last line has the totals",
                ),
                Opt::flag(
                    "--dot",
                    "the two maps of each contract that moved, side by side, for Graphviz: red is what went, green what came, yellow a block of both that moved",
                ),
                Opt::with(
                    "--html",
                    Value {
                        name: "PAGE",
                        of: PATH,
                    },
                    "also a page for a browser, in one file: the contracts, verdicts and rows, and the drawn maps of those that differ",
                ),
            ],
        },
        Group {
            heading: "Options",
            options: &[
                Opt::flag(
                    "--all",
                    "a verdict line for equal contracts too, and their maps with --dot",
                ),
                Opt::flag(
                    "--matched",
                    "rows between blocks that are matched by what they are, in the new map's addresses, in place of rows by address",
                ),
                Opt::with(
                    "--old-code",
                    Value {
                        name: "PATH",
                        of: PATH,
                    },
                    "the old contract, or the folder of them that OLD was made from; with --new-code, instructions are compared too",
                ),
                Opt::with(
                    "--new-code",
                    Value {
                        name: "PATH",
                        of: PATH,
                    },
                    "the new contract, or the folder of them that NEW was made from",
                ),
                Opt::flag("--hex", "these contracts hold hexadecimal digits"),
                Opt::flag("--binary", "these contracts hold the bytes themselves"),
            ],
        },
    ],
    notes: &[
        "A row is a block that came, went or changed, or a path of the record that came, went or has another destination, by address; docs/DIFF.md has what each row means. With --matched an old address that no new one is matched with is called 'old N', and has 65,536 added in JSON. A contract's last line is its verdict, with the figures old and new: equal, equal up to addresses (the new map is the old one with other addresses), or different. That unresolved jumps rose is said there in capitals.",
        "Of a folder every file is taken that ends in .map, also those that begin with a dot and those behind links; refused.jsonl, which --to leaves beside them, tells a contract that is refused from one that is gone.",
    ],
    exits: &[
        (0, "nothing moved"),
        (1, "something did"),
        (
            2,
            "a map, a code or a folder is unreadable, a night is unfinished, or the page cannot be written",
        ),
    ],
    examples: &[
        ("Last night and tonight", "aznifrem diff yesterday tonight"),
        (
            "As a page",
            "aznifrem diff --html night.html yesterday tonight",
        ),
        (
            "Drawn",
            "aznifrem diff --dot yesterday/a.hex.map tonight/a.hex.map | dot -Tsvg -o a.svg",
        ),
    ],
    run: |given, out| {
        let setting = Setting::asked(given)?;
        given.without_dash()?;
        if let Some(sentence) = given.path("--html").map_or(Ok(None), no_page)? {
            tell(&sentence);
            return Ok(Outcome::Wrong);
        }
        let [old, new] = [&given.operands[0], &given.operands[1]];
        Ok(run(old, new, &setting, wanted(given), out)?)
    },
};

/// Why no page is written there: it takes the place of what stands there, and a map is not lost so.
fn no_page(page: &Path) -> Result<Option<String>, Stop> {
    if page.as_os_str().is_empty() {
        let wrong = "--html takes a file, and its name is empty";
        return Err(Stop::Asked(wrong.into()));
    }
    no_dash("--html", page)?;
    let map = page.extension().is_some_and(|ending| ending == "map");
    let why = if page.is_dir() {
        "is a folder, and --html takes a file"
    } else if map {
        "is no name of a page: what ends in .map is a stored map"
    } else if page.is_file() && stored::read(page).is_ok() {
        "is a stored map, and no page is written over it"
    } else {
        return Ok(None);
    };
    Ok(Some(format!("{}: {why}", shown(page))))
}

fn wanted(given: &Given) -> Wanted {
    let form = match given.last(&["--json", "--dot"]) {
        Some("--json") => Form::Json,
        Some(_) => Form::Dot,
        None => Form::Rows,
    };
    Wanted {
        form,
        all: given.has("--all"),
        page: given.path("--html").map(Path::to_path_buf),
    }
}

/// How maps are set beside each other.
struct Setting<'a> {
    /// The contracts that the maps are of, where they are at hand.
    codes: Option<[&'a Path; 2]>,
    form: input::Form,
    /// Blocks are matched by what they are.
    matched: bool,
}

impl Setting<'_> {
    fn asked(given: &Given) -> Result<Setting<'_>, Stop> {
        let codes = match (given.path("--old-code"), given.path("--new-code")) {
            (Some(old), Some(new)) => Some([old, new]),
            (None, None) => None,
            _ => {
                let sentence = "--old-code and --new-code are given together";
                return Err(Stop::Asked(sentence.into()));
            }
        };
        Ok(Setting {
            codes,
            form: input::Form::asked(given),
            matched: given.has("--matched"),
        })
    }
}

fn run(
    old: &Path,
    new: &Path,
    setting: &Setting,
    mut wanted: Wanted,
    out: &mut dyn Write,
) -> io::Result<Outcome> {
    let both = pairs(old, new).and_then(|pairs| Ok((pairs, nights(old, new)?)));
    let (pairs, nights) = match both {
        Ok(both) => both,
        Err(sentences) => {
            sentences.iter().for_each(|sentence| tell(sentence));
            return Ok(Outcome::Wrong);
        }
    };
    // Two maps that are named have been asked for.
    wanted.all |= !old.is_dir();
    let title = format!("What moved from {} to {}", shown(old), shown(new));
    let mut report = Report::new(wanted, &title, out);
    for pair in &pairs {
        let name = shown(&pair.name);
        let titled = Titled {
            name: &name,
            title: &pair.title,
        };
        report.add(&titled, &pair.compared(setting, &nights))?;
    }
    let maps = pairs.into_iter().map(|pair| pair.name).collect();
    for (name, became) in nights.without_both(&maps) {
        let title = &format!("{name}: ");
        let name = &name;
        report.add(&Titled { name, title }, &Compared::Became(became))?;
    }
    report.finish()
}

/// What was refused when the maps of two folders were made.
fn nights(old: &Path, new: &Path) -> Result<Nights, Vec<String>> {
    if old.is_dir() {
        Nights::of(old, new)
    } else {
        Ok(Nights::default())
    }
}

/// Two maps of one name; either may be missing.
#[derive(Default)]
struct Pair {
    name: PathBuf,
    title: String,
    old: Option<PathBuf>,
    new: Option<PathBuf>,
}

impl Pair {
    /// What moved, or what is unreadable.
    fn compared<'n>(&self, setting: &Setting, nights: &'n Nights) -> Compared<'n> {
        let read = |path: &Path| stored::read(path).map(|stored| stored.map);
        match (self.old.as_deref().map(read), self.new.as_deref().map(read)) {
            (Some(Ok(old)), Some(Ok(new))) => match self.judged(&old, &new, setting) {
                Ok(judged) => Compared::Both(Box::new(Both { old, new, judged })),
                Err(sentences) => Compared::Not(sentences),
            },
            (None, Some(Ok(map))) => (nights.without_old(&self.name))
                .map_or_else(|| Compared::Came(Totals::of(&map)), Compared::Became),
            (Some(Ok(map)), None) => (nights.without_new(&self.name))
                .map_or_else(|| Compared::Went(Totals::of(&map)), Compared::Became),
            (old, new) => {
                let faults = [old, new].into_iter().flatten().filter_map(Result::err);
                Compared::Not(faults.collect())
            }
        }
    }

    /// With the codes, where they are at hand: one that is missing or another's is a fault.
    fn judged(&self, old: &Map, new: &Map, setting: &Setting) -> Result<Judged, Vec<String>> {
        let Some(sides) = setting.codes else {
            let judge = if setting.matched {
                judge_matched
            } else {
                judge
            };
            return Ok(judge(old, new));
        };
        let paths = sides.map(|side| self.code_path(side));
        let code = |path: &PathBuf| {
            let code = input::code(path, setting.form);
            code.map_err(|sentence| vec![format!("{}: {sentence}", shown(path))])
        };
        let (before, after) = (code(&paths[0])?, code(&paths[1])?);
        let coded = |at: usize, map, code| {
            let coded = Coded::new(map, code);
            coded.map_err(|sentence| vec![format!("{}: {sentence}", shown(&paths[at]))])
        };
        let (old, new) = (coded(0, old, &before)?, coded(1, new, &after)?);
        let judge = if setting.matched {
            judge_matched_coded
        } else {
            judge_coded
        };
        Ok(judge(&old, &new))
    }

    /// The contract of this name: its map's, without .map.
    fn code_path(&self, side: &Path) -> PathBuf {
        if side.is_dir() {
            side.join(self.name.with_extension(""))
        } else {
            side.to_path_buf()
        }
    }
}

/// The maps to compare, or why there are none.
fn pairs(old: &Path, new: &Path) -> Result<Vec<Pair>, Vec<String>> {
    for side in [old, new] {
        fs::metadata(side).map_err(|error| vec![stored::unreadable(side, &error)])?;
    }
    match (old.is_dir(), new.is_dir()) {
        (false, false) => Ok(vec![Pair {
            name: new.file_name().map_or(new.to_path_buf(), PathBuf::from),
            title: String::new(),
            old: Some(old.to_path_buf()),
            new: Some(new.to_path_buf()),
        }]),
        (true, true) => of_folders(old, new),
        _ => Err(vec![format!(
            "{} and {}: one is a folder and the other is not; give two maps or two folders",
            shown(old),
            shown(new)
        )]),
    }
}

/// The maps of two folders, by name.
fn of_folders(old: &Path, new: &Path) -> Result<Vec<Pair>, Vec<String>> {
    let (before, after) = maps_of(old, new)?;
    let mut pairs: BTreeMap<PathBuf, Pair> = BTreeMap::new();
    for map in before {
        pairs.entry(map.name).or_default().old = Some(map.path);
    }
    for map in after {
        pairs.entry(map.name).or_default().new = Some(map.path);
    }
    if pairs.is_empty() {
        return Err(vec![format!(
            "{} and {}: no map is in either; a map's file ends in .map",
            shown(old),
            shown(new)
        )]);
    }
    let titled = |(name, pair): (PathBuf, Pair)| Pair {
        title: format!("{}: ", shown(&name)),
        name,
        ..pair
    };
    Ok(pairs.into_iter().map(titled).collect())
}

/// With half of a folder unread, maps would seem to have come or gone: then nothing is compared.
fn maps_of(old: &Path, new: &Path) -> Result<(Vec<Named>, Vec<Named>), Vec<String>> {
    let (old, new) = (beneath(old, Kind::Maps), beneath(new, Kind::Maps));
    let faults = [old.faults, new.faults].concat();
    if faults.is_empty() {
        Ok((old.files, new.files))
    } else {
        Err(faults)
    }
}
