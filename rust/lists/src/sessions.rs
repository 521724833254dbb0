//! `tests/sessions.list`: calls of the entry, and what the model answers to each.

use crate::answers::{self, Line, chosen};
use crate::maps;
use agree::families;
use agree::{Verdict, compare};
use codes::Random;
use codes::contract::{Style, sized};
use codes::corners::{CORNERS, recorded_both_ways};
use codes::init;
use model::{HIGHEST_LIMIT, LONGEST_CODE, LONGEST_DEPLOYED, Lent};
use std::collections::HashSet;

/// No call lends more.
const BUFFERS: Lent = Lent {
    w: 3_145_984,
    p: 65_536,
    s: 524_288,
    t: 262_144,
    r: 262_144,
    q: 262_144,
    out: 1_048_576,
};
/// The longest piece of a line that is taken from `tests/answers.list`.
const MOST_BYTES: usize = 4_900;
/// The bytes of a unit of W, P, S, T, R, Q and the output.
const UNITS: [u64; 7] = [64, 2, 9, 32, 32, 2, 1];

/// `limit w p s t r q out length piece number written checksum`: the code repeats the piece up to its length.
pub fn text(line: &Line) -> String {
    let answer = line.answer();
    let (written, lent) = (answer.written(), line.lent.map(|bytes| format!(" {bytes}")));
    format!(
        "{}{} {} {} {} {} {:016x}",
        line.limit,
        lent.concat(),
        line.code.len(),
        codes::to_hex(piece(&line.code)),
        answer.number(),
        written.len(),
        codes::checksum(written)
    )
}

/// The first bytes of a long code, if it repeats a few of them; else the whole.
fn piece(code: &[u8]) -> &[u8] {
    let repeats = |length: &usize| code[*length..].iter().eq(&code[..code.len() - length]);
    let short = (1..=16).filter(|length| 1000 * length <= code.len());
    let length = short.into_iter().find(repeats).unwrap_or(code.len());
    &code[..length]
}

/// All calls, each once; a list that says too little is a fault of this program.
pub fn lines() -> Vec<Line> {
    let rust = rust_codes();
    assert!(rust.len() >= 500, "codes of the Rust's answers");
    let around = around_the_needs();
    assert!(around.len() >= 1000, "cases around the needs");
    let mut lines = longest();
    lines.extend(both_families());
    lines.extend(corners());
    lines.extend(orders());
    lines.extend(rust.iter().map(|code| roomy(code)));
    lines.extend(answers::lines().into_iter().filter(short));
    lines.extend(around);
    lines.iter_mut().for_each(fit);
    let mut seen = HashSet::new();
    lines.retain(|line| seen.insert(line.clone()));
    lines
}

/// Whether a call is short enough to stand among thousands: the code is, or it repeats a piece.
fn short(line: &Line) -> bool {
    piece(&line.code).len() <= MOST_BYTES
}

fn in_buffers(limit: u64, code: &[u8]) -> Line {
    Line::new(limit, &BUFFERS, code)
}

/// The call in the rooms of document 01's program, or in the most that is lent where it needs more:
/// a small code in large buffers spends its time on marks.
fn roomy(code: &[u8]) -> Line {
    let line = Line::new(HIGHEST_LIMIT, &Lent::PROGRAM, code);
    if line.answer().number() == 0 {
        line
    } else {
        in_buffers(HIGHEST_LIMIT, code)
    }
}

/// Lends at most that.
fn fit(line: &mut Line) {
    let most = in_buffers(0, &[]).lent;
    for (bytes, most) in line.lent.iter_mut().zip(most) {
        *bytes = most.min(*bytes);
    }
}

/// Document 01's "Limit 500,001 refused 2" and document 02's "1 now means over 49,152", with codes of one piece.
fn longest() -> Vec<Line> {
    let mut lines = Vec::new();
    for text in [
        "00",
        "5b",
        "60",
        "56",
        "0c",
        "5b00",
        "60056007565b005b56",
        "6000575b",
    ] {
        let piece = answers::hex(text);
        let mut code = init::repeated(&piece, LONGEST_CODE);
        lines.push(in_buffers(HIGHEST_LIMIT, &code));
        lines.push(in_buffers(HIGHEST_LIMIT + 1, &code));
        lines.push(in_buffers(0, &code));
        lines.push(lending(&in_buffers(HIGHEST_LIMIT, &code), 0, BUFFERS.w - 1));
        code.push(piece[LONGEST_CODE % piece.len()]);
        lines.push(in_buffers(HIGHEST_LIMIT, &code));
        lines.push(in_buffers(HIGHEST_LIMIT + 1, &code));
    }
    lines
}

/// Both sides of the length at which the kinds become others, and 0x8000 as a real destination beside a missing one.
fn both_families() -> Vec<Line> {
    let mut lines = Vec::new();
    for text in ["00", "5b", "60056007565b005b56", "6000575b"] {
        let piece = answers::hex(text);
        for length in [LONGEST_DEPLOYED, LONGEST_DEPLOYED + 1] {
            lines.push(in_buffers(HIGHEST_LIMIT, &init::repeated(&piece, length)));
        }
    }
    lines.push(in_buffers(HIGHEST_LIMIT, &init::both_marks()));
    lines
}

/// Every corner: in the most that is lent, at the highest limit and at low ones, and in exactly
/// the rooms that it needs.
fn corners() -> Vec<Line> {
    let extra = ["1e00", "1e", "5b305b0c305b00", "6005565b0c5b30"];
    let texts = CORNERS.iter().chain(&extra);
    let mut codes: Vec<Vec<u8>> = texts.map(|text| answers::hex(text)).collect();
    codes.push(recorded_both_ways());
    let mut lines = Vec::new();
    for code in codes {
        lines.push(in_buffers(HIGHEST_LIMIT, &code));
        for limit in [HIGHEST_LIMIT, 0, 1, 2, 3, HIGHEST_LIMIT + 1] {
            lines.push(Line::new(limit, &Lent::PROGRAM, &code));
        }
        lines.extend(exact(HIGHEST_LIMIT, &code));
    }
    lines
}

/// The call in exactly the rooms that it needs at this limit.
fn exact(limit: u64, code: &[u8]) -> Option<Line> {
    let map = model::map(&BUFFERS, limit, code).ok()?;
    Some(Line::new(limit, &map.needs.lent(code.len()), code))
}

/// Two sessions in every choice of a few units of each room: which shortage is met first.
fn orders() -> Vec<Line> {
    let mut lines = Vec::new();
    for text in ["60056007565b005b56", "6005600d565b600b600d565b005b56"] {
        let just = exact(HIGHEST_LIMIT, &answers::hex(text)).expect("a session has a map");
        let mut made = vec![just.clone()];
        for (at, unit) in UNITS.into_iter().enumerate().take(6).skip(1) {
            let counts = some_of(just.lent[at] / unit);
            let lines = made.iter();
            let lines = lines.flat_map(|line| counts.iter().map(|n| lending(line, at, n * unit)));
            made = lines.collect();
        }
        lines.extend(made);
    }
    lines
}

/// The call with so many bytes of one buffer.
fn lending(line: &Line, at: usize, bytes: u64) -> Line {
    let mut line = line.clone();
    line.lent[at] = bytes;
    line
}

/// None, one, one less than all, and all.
fn some_of(all: u64) -> Vec<u64> {
    let mut counts = vec![0, 1.min(all), all.saturating_sub(1), all];
    counts.sort_unstable();
    counts.dedup();
    counts
}

/// Longer codes than those of `tests/rust.list`.
const LONGER: [(&str, usize); 3] = [("woven-long", 20), ("calls-middle", 30), ("calls-large", 8)];

/// Bytes of whole contracts, up to the longest that is deployed.
const CONTRACTS: [usize; 4] = [1000, 6000, 12_000, LONGEST_DEPLOYED];

/// Codes whose map at the highest limit is the unchanged Rust's, block by block.
fn rust_codes() -> Vec<Vec<u8>> {
    let taken = answers::lines().into_iter().map(|line| line.code);
    let mut codes = maps::lines(taken.collect());
    let answered = |code: &Vec<u8>| in_buffers(HIGHEST_LIMIT, code).answer().number() == 0;
    let mut random = Random::new(31);
    for (name, count) in LONGER {
        codes.extend(chosen(families::named(name), &mut random, count, answered));
    }
    for bytes in CONTRACTS {
        for style in [Style::Plain, Style::Calls] {
            codes.push(sized(&mut random, bytes, style));
        }
    }
    for code in &codes {
        let verdict = compare(code);
        assert!(verdict == Verdict::Same && answered(code), "{verdict:?}");
    }
    codes
}

/// Codes that need each room, tried with it at its need and short of it, and at limits around the
/// energy that they use.
fn around_the_needs() -> Vec<Line> {
    let mut random = Random::new(32);
    let mut lines = Vec::new();
    let rich = |code: &Vec<u8>| {
        let map = answers::whole(code);
        code.len() <= 64 && map.is_some_and(|map| map.records.len() >= 2 && map.energy >= 4)
    };
    for (name, count) in [("calls-small", 14), ("woven", 14), ("mutants", 8)] {
        for code in chosen(families::named(name), &mut random, count, rich) {
            let used = answers::energy(&code);
            for limit in [HIGHEST_LIMIT, used / 2] {
                lines.extend(exact(limit, &code).iter().flat_map(around));
            }
            for limit in [0, 1, 2, 3, 4, used - 1, used, used + 1, HIGHEST_LIMIT + 1] {
                lines.push(Line::new(limit, &Lent::PROGRAM, &code));
            }
        }
    }
    lines
}

/// Exactly enough; for each room more bytes that make no unit, a byte short, a unit short, nothing.
fn around(just: &Line) -> Vec<Line> {
    let mut lines = vec![just.clone()];
    for (at, unit) in UNITS.into_iter().enumerate() {
        let need = just.lent[at];
        let (byte, whole) = (need.saturating_sub(1), need.saturating_sub(unit));
        let others = [need + unit - 1, byte, whole, 0];
        lines.extend(others.map(|bytes| lending(just, at, bytes)));
    }
    lines
}
