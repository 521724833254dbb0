//! `aznifrem follow`: a log of program counters, followed through a stored map.

use std::fmt;
use std::fs;
use std::io::{self, IsTerminal, Read, Write};
use std::path::{Path, PathBuf};
use std::sync::mpsc::RecvTimeoutError;
use std::time::{Duration, Instant};

use aznifrem::{Block, BlockType, Counts, Followed, Map, NotFollowed};
use compare::{NotTheCode, quoted};

use crate::input::{self, Form};
use crate::names::shown;
use crate::outcome::{Outcome, tell};
use crate::stored;
use crate::table::{Command, Group, Operand, Opt, Stop};

pub const COMMAND: Command = Command {
    name: "follow",
    says: "A log of program counters, followed through a stored map: what was entered and taken, and where the log leaves the map",
    operands: &[
        Operand::path("MAP"),
        Operand::path("CODE"),
        Operand::path("LOG"),
    ],
    takes: "follow takes a stored map, its code, and a log of program counters, 8 bytes each",
    groups: &[
        Group {
            heading: "What comes out (the first is the default)",
            options: &[
                Opt::flag("--summary", "blocks and edges by start, with their counts"),
                Opt::flag("--hottest", "the same, the most entered first"),
                Opt::flag(
                    "--json",
                    "the same as JSON, on a line; left has the step that is not in the map, or is null",
                ),
                Opt::flag("--dot", "the same for Graphviz, redder the more often"),
            ],
        },
        Group {
            heading: "Options",
            options: &[
                Opt::flag("--hex", "the code's file holds hexadecimal digits"),
                Opt::flag("--binary", "the code's file holds the bytes themselves"),
            ],
        },
    ],
    notes: &[
        "A log is a file of numbers of 8 bytes, little-endian; - for standard input. It has the counter of every instruction, begins at 0, and is one run.",
        "The code is a file of hexadecimal digits or of bytes, as for map. One of another length than the map's is refused; another code of the same length is not told apart.",
    ],
    exits: &[
        (0, "all steps are in the map"),
        (1, "one is not"),
        (
            2,
            "map, code or log cannot be read, or the code is not the map's",
        ),
    ],
    examples: &[(
        "A night's log",
        "aznifrem follow tonight/token.hex.map token.hex token.log",
    )],
    run: |given, out| {
        let print = given.last(&["--summary", "--hottest", "--json", "--dot"]);
        let form = Form::asked(given);
        run(&given.operands, form, print.unwrap_or("--summary"), out)
    },
};

/// Steps of a long log's beginning.
const BEGINNING: usize = 1 << 20;
const WIDTH: usize = 30;
/// Between two lines on a terminal.
const PAUSE: Duration = Duration::from_millis(300);

/// The first step that is not in the map, and what may stand in its place.
struct Left {
    place: usize,
    counter: u64,
    expected: String,
}

impl fmt::Display for Left {
    fn fmt(&self, f: &mut fmt::Formatter) -> fmt::Result {
        let (place, counter, expected) = (self.place, self.counter, &self.expected);
        write!(
            f,
            "step {place}, at {counter}, is not in the map; {expected}"
        )
    }
}

/// What one run has.
struct Run {
    map: Map,
    code: Vec<u8>,
    steps: Vec<u64>,
    followed: Followed,
}

fn run(
    operands: &[PathBuf],
    form: Form,
    print: &str,
    out: &mut dyn Write,
) -> Result<Outcome, Stop> {
    let [map, code, log] = operands else {
        return Err(Stop::Asked(COMMAND.takes.into()));
    };
    let run = match followed(map, code, log, form) {
        Ok(run) => run,
        Err(sentence) => {
            tell(&sentence);
            return Ok(Outcome::Wrong);
        }
    };
    let text = match print {
        "--json" => json(&run),
        "--dot" => dot(&run),
        _ => summary(&run, print == "--hottest"),
    };
    out.write_all(text.as_bytes())?;
    match run.left() {
        None => Ok(Outcome::Fine),
        Some(left) => {
            out.flush()?;
            tell(&format!("{}: {left}", shown(log)));
            Ok(Outcome::Found)
        }
    }
}

fn followed(map: &Path, code: &Path, log: &Path, form: Form) -> Result<Run, String> {
    let stored = stored::read(map)?;
    let named = |sentence| format!("{}: {sentence}", shown(code));
    let code = code_of(&stored.map, code, form).map_err(named)?;
    let bytes = log_bytes(log).map_err(|error| stored::unreadable(log, &error))?;
    if !bytes.len().is_multiple_of(8) {
        return Err(format!(
            "{}: is no log: it has {} bytes, and a step has 8",
            shown(log),
            bytes.len()
        ));
    }
    let eight = |eight: &[u8]| u64::from_le_bytes(eight.try_into().unwrap_or_default());
    let steps: Vec<u64> = bytes.chunks_exact(8).map(eight).collect();
    let followed = with_a_bar(&stored.bytes, &code, &steps);
    let followed = followed.map_err(|error| format!("{}: {error}", shown(map)))?;
    let map = stored.map;
    Ok(Run {
        map,
        code,
        steps,
        followed,
    })
}

/// The code of a map, as far as its length tells.
fn code_of(map: &Map, code: &Path, form: Form) -> Result<Vec<u8>, String> {
    let bytes = input::code(code, form)?;
    if bytes.len() != map.code_length {
        let (code, map) = (bytes.len(), map.code_length);
        return Err(NotTheCode::Length { code, map }.to_string());
    }
    Ok(bytes)
}

/// Follows a log; on a terminal a long one has a bar. The library's call is one and tells nothing on its way, so the
/// log's beginning is followed first, and tells how long the whole will take.
fn with_a_bar(map: &[u8], code: &[u8], steps: &[u64]) -> Result<Followed, NotFollowed> {
    let dumb = std::env::var_os("TERM").is_some_and(|term| term == "dumb");
    if steps.len() < 2 * BEGINNING || dumb || !io::stderr().is_terminal() {
        return Followed::of(map, code, steps);
    }
    let begun = Instant::now();
    let first = Followed::of(map, code, &steps[..BEGINNING])?;
    // Where the beginning leaves the map, the whole log does, with the same counts (`moves-prefix`, `follow-is`).
    if first.place < BEGINNING as u64 {
        return Ok(first);
    }
    let wanted = begun
        .elapsed()
        .mul_f64(steps.len() as f64 / BEGINNING as f64);
    std::thread::scope(|scope| {
        let (sender, receiver) = std::sync::mpsc::channel();
        scope.spawn(move || sender.send(Followed::of(map, code, steps)));
        let begun = Instant::now();
        loop {
            match receiver.recv_timeout(PAUSE) {
                Ok(done) => {
                    draw("");
                    return done;
                }
                Err(RecvTimeoutError::Timeout) => {
                    let share = begun.elapsed().as_secs_f64() / wanted.as_secs_f64();
                    draw(&bar(share, steps.len()));
                }
                Err(RecvTimeoutError::Disconnected) => {
                    panic!("the follower ended without an answer")
                }
            }
        }
    })
}

/// A bar that cannot be drawn is no reason to stop.
fn draw(line: &str) {
    let _ = write!(io::stderr(), "\r{line}\x1b[K");
}

/// How far a log is by the clock, as a guess: never quite at its end.
fn bar(share: f64, steps: usize) -> String {
    let percent = (share * 100.0).clamp(0.0, 99.0) as usize;
    let filled = percent * WIDTH / 100;
    let (done, left) = ("#".repeat(filled), ".".repeat(WIDTH - filled));
    format!("[{done}{left}] about {percent} % of {steps} steps")
}

fn log_bytes(log: &Path) -> io::Result<Vec<u8>> {
    if log != Path::new("-") {
        return fs::read(log);
    }
    let mut bytes = Vec::new();
    io::stdin().read_to_end(&mut bytes).map(|_| bytes)
}

impl Run {
    /// Where the log leaves the map, and what was expected there.
    fn left(&self) -> Option<Left> {
        let place = usize::try_from(self.followed.place).ok()?;
        let counter = *self.steps.get(place)?;
        Some(Left {
            place,
            counter,
            expected: self.expected(place),
        })
    }

    /// What may come behind the steps before a place.
    fn expected(&self, place: usize) -> String {
        let Some(&pc) = place
            .checked_sub(1)
            .and_then(|before| self.steps.get(before))
        else {
            return "a log begins at 0, with the map's first block".into();
        };
        let pc = usize::try_from(pc).unwrap_or(usize::MAX);
        let Some(block) = self.standing(place) else {
            return "nothing may follow".into();
        };
        if pc >= self.code.len() {
            return format!("nothing follows {pc}, which is past the code");
        }
        if pc != block.end {
            let next = pc + size(self.code[pc]);
            return format!(
                "behind {pc} comes {next}, up to the block's end at {}",
                block.end
            );
        }
        let counts = self.followed.counts.iter().find(|c| c.start == block.start);
        let edges = counts.map_or(&[][..], |counts| &counts.edges);
        let known = edges
            .iter()
            .filter(|(to, _)| self.map.blocks.contains_key(to));
        let known: Vec<String> = known.map(|(to, _)| to.to_string()).collect();
        match known.as_slice() {
            [] if dynamic(&block.btype) => format!(
                "the map knows no destination of the block {}-{}",
                block.start, block.end
            ),
            [] => format!("nothing follows the block {}-{}", block.start, block.end),
            all => format!(
                "behind the block {}-{} comes {}",
                block.start,
                block.end,
                all.join(" or ")
            ),
        }
    }

    /// The block in which the step before a place is: the last that was entered.
    fn standing(&self, place: usize) -> Option<&Block> {
        let mut entered: Option<&Block> = None;
        let mut at_end = true;
        for &step in &self.steps[..place] {
            let step = usize::try_from(step).ok()?;
            if at_end {
                entered = self.map.blocks.get(&step);
            }
            at_end = entered.is_some_and(|block| block.end == step);
        }
        entered
    }
}

/// The size of an instruction: PUSHk has k bytes more.
fn size(byte: u8) -> usize {
    match byte {
        0x60..=0x7f => usize::from(byte) - 0x5e,
        _ => 1,
    }
}

fn dynamic(btype: &BlockType) -> bool {
    matches!(
        btype,
        BlockType::DynamicJump { .. } | BlockType::DynamicJumpi { .. }
    )
}

fn kind(btype: &BlockType) -> &'static str {
    match btype {
        BlockType::Terminate { .. } => "Terminate",
        BlockType::Jump { .. } => "Jump",
        BlockType::Jumpi { .. } => "Jumpi",
        BlockType::DynamicJump { .. } => "DynamicJump",
        BlockType::DynamicJumpi { .. } => "DynamicJumpi",
    }
}

fn summary(run: &Run, hottest: bool) -> String {
    let mut counts: Vec<&Counts> = run.followed.counts.iter().collect();
    if hottest {
        counts.sort_by_key(|counts| std::cmp::Reverse(counts.entered));
    }
    let entries: u64 = counts.iter().map(|counts| counts.entered).sum();
    let entered = counts.iter().filter(|counts| counts.entered > 0).count();
    let mut text = format!(
        "steps {}, in the map {}; block entries {entries}; blocks entered {entered} of {}\n",
        run.steps.len(),
        run.followed.place,
        run.map.blocks.len()
    );
    for counts in counts {
        let block = &run.map.blocks[&counts.start];
        text += &format!(
            "  {}-{} {}: {}",
            block.start,
            block.end,
            kind(&block.btype),
            counts.entered
        );
        for (to, times) in &counts.edges {
            text += &format!(", to {to} {times}");
        }
        text += "\n";
    }
    text
}

fn json(run: &Run) -> String {
    let blocks = run.followed.counts.iter().map(|counts| {
        let edges = counts.edges.iter();
        let edges = edges.map(|(to, times)| format!("{{\"to\":{to},\"taken\":{times}}}"));
        let edges: Vec<String> = edges.collect();
        format!(
            "{{\"start\":{},\"entered\":{},\"edges\":[{}]}}",
            counts.start,
            counts.entered,
            edges.join(",")
        )
    });
    let blocks: Vec<String> = blocks.collect();
    let left = run.left().map_or("null".into(), |left| {
        let (counter, expected) = (left.counter, quoted(&left.expected));
        format!("{{\"counter\":{counter},\"expected\":{expected}}}")
    });
    format!(
        "{{\"steps\":{},\"place\":{},\"left\":{left},\"blocks\":[{}]}}\n",
        run.steps.len(),
        run.followed.place,
        blocks.join(",")
    )
}

/// Redder the more often, by the logarithm.
fn heat(times: u64, most: u64) -> String {
    let share = f64::ln_1p(times as f64) / f64::ln_1p(most.max(1) as f64);
    format!("0.000 {share:.3} 1.000")
}

fn dot(run: &Run) -> String {
    let most = run
        .followed
        .counts
        .iter()
        .map(|counts| counts.entered)
        .max();
    let most = most.unwrap_or_default();
    let mut text = String::from("digraph log {\n  node [shape=box, style=filled];\n");
    for counts in &run.followed.counts {
        let block = &run.map.blocks[&counts.start];
        text += &format!(
            "  {} [label=\"{}-{}\\n{}\", fillcolor=\"{}\"];\n",
            block.start,
            block.start,
            block.end,
            counts.entered,
            heat(counts.entered, most)
        );
        for (to, times) in &counts.edges {
            let drawn = if *times == 0 { ", style=dashed" } else { "" };
            text += &format!("  {} -> {to} [label=\"{times}\"{drawn}];\n", block.start);
        }
    }
    text + "}\n"
}

#[cfg(test)]
mod tests {
    use super::bar;

    #[test]
    fn a_bar_fills_and_never_ends() {
        assert!(bar(0.0, 10).starts_with("[......"));
        assert_eq!(bar(0.5, 10).matches('#').count(), 15);
        assert_eq!(bar(7.0, 10).matches('#').count(), 29);
        assert!(bar(7.0, 10).ends_with("about 99 % of 10 steps"));
    }
}
