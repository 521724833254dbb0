//! `tests/answers.list`: calls with lent rooms and a limit, answered by the model.

use agree::ENOUGH;
use agree::families::{self, Family};
use codes::Random;
use codes::corners::CORNERS;
use codes::init;
use model::{HIGHEST_LIMIT, LONGEST_CODE, LONGEST_DEPLOYED, Lent, Map};
use std::collections::HashSet;
use std::ops::RangeInclusive;

/// One call: `limit w p s t r q out code number output`.
#[derive(Clone, Debug, PartialEq, Eq, Hash)]
pub struct Line {
    pub limit: u64,
    pub lent: [u64; 7],
    pub code: Vec<u8>,
}

impl Line {
    pub fn new(limit: u64, lent: &Lent, code: &[u8]) -> Line {
        let Lent {
            w,
            p,
            s,
            t,
            r,
            q,
            out,
        } = *lent;
        Line {
            limit,
            lent: [w, p, s, t, r, q, out],
            code: code.to_vec(),
        }
    }

    pub fn lent(&self) -> Lent {
        let [w, p, s, t, r, q, out] = self.lent;
        Lent {
            w,
            p,
            s,
            t,
            r,
            q,
            out,
        }
    }

    pub fn answer(&self) -> model::Answer {
        model::answer(&self.lent(), self.limit, &self.code)
    }

    pub fn text(&self) -> String {
        let answer = self.answer();
        let lent: String = self.lent.map(|bytes| format!(" {bytes}")).concat();
        let (code, output) = (digits(&self.code), digits(answer.written()));
        format!("{}{lent} {code} {} {output}", self.limit, answer.number())
    }
}

/// Hexadecimal digits, or `-` for no byte at all.
pub fn digits(bytes: &[u8]) -> String {
    if bytes.is_empty() {
        "-".into()
    } else {
        codes::to_hex(bytes)
    }
}

/// More than these codes need, and for each room more than the 2^30 units that count.
const PLENTY: Lent = Lent::each(1 << 40);

/// Energy of a search that a prover goes through in well under a second, and of a longer one.
const LIGHT: RangeInclusive<u64> = 0..=60;
const LONGER: RangeInclusive<u64> = 61..=300;

pub fn lines() -> Vec<Line> {
    let mut lines = Vec::new();
    lines.extend(sessions());
    lines.extend(before_the_search());
    lines.extend(init_code());
    lines.extend(corners());
    for code in room_codes() {
        lines.extend(rooms(&code));
    }
    for code in limit_codes() {
        lines.extend(limits(&code));
    }
    lines.extend(spread());
    let mut seen = HashSet::new();
    lines.retain(|line| seen.insert(line.clone()));
    lines
}

/// The map with rooms for all but the heaviest searches.
pub fn whole(code: &[u8]) -> Option<Map> {
    model::map(&ENOUGH, HIGHEST_LIMIT, code).ok()
}

pub fn hex(text: &str) -> Vec<u8> {
    codes::from_hex(text).expect("a code of this program is hexadecimal")
}

/// Document 01's sessions, in the program's rooms.
fn sessions() -> Vec<Line> {
    let (back, callers) = ("60056007565b005b56", "6005600d565b600b600d565b005b56");
    let at_most = [
        "",
        "00",
        "6003565b00",
        "0c5b00",
        "6001570c5b00",
        "605b50600156",
    ];
    let mut lines: Vec<Line> = at_most
        .iter()
        .chain(&["605b50600160000156", back, callers])
        .map(|text| Line::new(HIGHEST_LIMIT, &Lent::PROGRAM, &hex(text)))
        .collect();
    for (limit, text) in [(0, back), (1, callers), (2, callers)] {
        lines.push(Line::new(limit, &Lent::PROGRAM, &hex(text)));
    }
    let just = Lent {
        w: 832,
        p: 4,
        s: 27,
        t: 32,
        r: 32,
        q: 4,
        out: 71,
    };
    lines.push(Line::new(HIGHEST_LIMIT, &just, &hex(back)));
    lines.push(Line::new(
        HIGHEST_LIMIT,
        &Lent { s: 26, ..just },
        &hex(back),
    ));
    lines
}

/// Refusals 1 to 3, and their order.
fn before_the_search() -> Vec<Line> {
    let none = Lent::each(0);
    let longer = vec![0; LONGEST_CODE + 1];
    let mut lines = vec![Line::new(HIGHEST_LIMIT + 1, &none, &longer)];
    for text in ["", "00", "60056007565b005b56"] {
        let code = hex(text);
        let need = model::rooms::work(code.len());
        lines.push(Line::new(HIGHEST_LIMIT + 1, &PLENTY, &code));
        lines.push(Line::new(HIGHEST_LIMIT + 1, &none, &code));
        lines.push(Line::new(u64::MAX, &PLENTY, &code));
        lines.push(Line::new(HIGHEST_LIMIT, &none, &code));
        lines.push(Line::new(
            HIGHEST_LIMIT,
            &Lent {
                w: need - 1,
                ..PLENTY
            },
            &code,
        ));
        lines.push(Line::new(HIGHEST_LIMIT, &Lent { w: need, ..PLENTY }, &code));
        lines.push(Line::new(HIGHEST_LIMIT, &Lent { w: need, ..none }, &code));
        lines.push(Line::new(0, &Lent { w: need, ..none }, &code));
    }
    lines
}

/// Both sides of both borders, and 0x8000 as a real destination beside a missing one (document 02, No. 10).
fn init_code() -> Vec<Line> {
    let mut codes = vec![init::both_marks(), init::two_callers()];
    for length in [LONGEST_DEPLOYED, LONGEST_DEPLOYED + 1, LONGEST_CODE] {
        let mut code = hex(NOWHERE);
        code.resize(length, 0);
        codes.push(code);
    }
    codes.push(vec![0; LONGEST_CODE + 1]);
    let line = |code: &Vec<u8>| Line::new(HIGHEST_LIMIT, &PLENTY, code);
    codes.iter().map(line).collect()
}

/// A JUMPI to which one caller gives a destination and another none, before any STOPs.
const NOWHERE: &str = "600e6008565b60085b6001905700005b600035600856";

/// Every corner, in the program's rooms and in plenty. Some use more energy than a prover can go
/// through: those at low limits only (rust/model's tests have them at the highest).
fn corners() -> Vec<Line> {
    let extra = ["1e00", "1e", "5b305b0c305b00", "6005565b0c5b30"];
    let mut lines = Vec::new();
    for code in CORNERS.iter().chain(&extra).map(|text| hex(text)) {
        let limits: &[u64] = if LIGHT.contains(&energy(&code)) {
            &[HIGHEST_LIMIT]
        } else {
            &[4, 20, 60]
        };
        for limit in limits {
            lines.push(Line::new(*limit, &Lent::PROGRAM, &code));
            lines.push(Line::new(*limit, &PLENTY, &code));
        }
    }
    lines
}

pub fn energy(code: &[u8]) -> u64 {
    whole(code).map_or(u64::MAX, |map| map.energy)
}

/// Codes whose rooms are tried one by one: corners, and some with many records.
fn room_codes() -> Vec<Vec<u8>> {
    let corners = [
        "56",
        "8056",
        "905b9056",
        "60025b8056",
        "60055b57005b56",
        "60056007565b005b56",
        "605b60016007565b56",
        "305b30600957905b905b56",
        "6005600d565b600b600d565b005b56",
        "600d30600a57506012565b57005b601460125b565b",
    ];
    let mut codes: Vec<Vec<u8>> = corners.map(hex).to_vec();
    let mut random = Random::new(11);
    let rich = |code: &Vec<u8>| {
        whole(code).is_some_and(|map| map.records.len() >= 4 && LIGHT.contains(&map.energy))
    };
    codes.extend(chosen(families::named("calls-small"), &mut random, 3, rich));
    codes.extend(chosen(families::named("woven"), &mut random, 3, rich));
    codes
}

/// Exactly enough; a byte more of each; a byte short, a unit short and nothing of one room.
fn rooms(code: &[u8]) -> Vec<Line> {
    let Some(map) = whole(code) else {
        return Vec::new();
    };
    let just = Line::new(HIGHEST_LIMIT, &map.needs.lent(code.len()), code);
    let mut more = just.clone();
    more.lent.iter_mut().for_each(|bytes| *bytes += 1);
    let mut lines = vec![just.clone(), more];
    let units = [64, 2, 9, 32, 32, 2, 1];
    for (at, unit) in units.into_iter().enumerate() {
        for missing in [1, unit, just.lent[at]] {
            if let Some(fewer) = just.lent[at].checked_sub(missing) {
                let mut short = just.clone();
                short.lent[at] = fewer;
                lines.push(short);
            }
        }
    }
    lines
}

/// Codes that are tried at several limits.
fn limit_codes() -> Vec<Vec<u8>> {
    let corners = [
        "60056007565b005b56",
        "6005600d565b600b600d565b005b56",
        "60025b56",
        "305b30600957905b905b56",
        "60075b57600d565b60126010565b60135b565b5b",
        "60075b57600d565b60126010565b60105b565b5b5b5b5b",
        "600d30600a57506012565b57005b601460125b565b",
    ];
    let mut codes: Vec<Vec<u8>> = corners.map(hex).to_vec();
    let mut random = Random::new(12);
    let long = |code: &Vec<u8>| (8..=40).contains(&energy(code));
    for name in ["calls-small", "woven", "mutants"] {
        codes.extend(chosen(families::named(name), &mut random, 4, long));
    }
    codes
}

/// 0 to 3, one less than the energy at the highest limit, that energy, half of it.
fn limits(code: &[u8]) -> Vec<Line> {
    let used = energy(code);
    let limits = [
        0,
        1,
        2,
        3,
        used / 2,
        used.saturating_sub(1),
        used,
        HIGHEST_LIMIT,
    ];
    limits
        .map(|limit| Line::new(limit, &Lent::PROGRAM, code))
        .to_vec()
}

/// Seeded codes in rooms near what they need, at the highest limit and at lower ones.
fn spread() -> Vec<Line> {
    let mut random = Random::new(13);
    let mut lines = Vec::new();
    let light = |code: &Vec<u8>| code.len() <= 80 && telling(code, &LIGHT);
    for (name, count) in [
        ("noise", 10),
        ("jumpy", 35),
        ("mutants", 40),
        ("woven", 50),
        ("calls-small", 50),
    ] {
        for code in chosen(families::named(name), &mut random, count, light) {
            lines.push(near(&mut random, &code));
        }
    }
    let longer =
        |code: &Vec<u8>| (100..=400).contains(&code.len()) && LONGER.contains(&energy(code));
    for code in chosen(families::named("calls-middle"), &mut random, 4, longer) {
        lines.push(Line::new(HIGHEST_LIMIT, &PLENTY, &code));
    }
    lines
}

/// Whether a map of this code says something, with a search of so much energy.
pub fn telling(code: &[u8], energy: &RangeInclusive<u64>) -> bool {
    whole(code).is_some_and(|map| energy.contains(&map.energy) && map.blocks.len() >= 2)
}

/// The first so many codes of a family that pass the test, each once.
pub fn chosen(
    family: &Family,
    random: &mut Random,
    count: usize,
    test: impl Fn(&Vec<u8>) -> bool,
) -> Vec<Vec<u8>> {
    let mut seen = HashSet::new();
    let codes = std::iter::repeat_with(|| (family.next)(random));
    codes
        .filter(test)
        .filter(|code| seen.insert(code.clone()))
        .take(count)
        .collect()
}

/// The code with each room near its need: most hold enough, and some are short.
fn near(random: &mut Random, code: &[u8]) -> Line {
    let limit = if random.percent(70) {
        HIGHEST_LIMIT
    } else {
        random.below(30) as u64
    };
    let needs = whole(code).map(|map| map.needs).unwrap_or_default();
    let mut line = Line::new(limit, &needs.lent(code.len()), code);
    for bytes in &mut line.lent {
        *bytes = match random.below(12) {
            0 => *bytes * random.below(100) as u64 / 100,
            1 => bytes.saturating_sub(1),
            2 => *bytes,
            _ => *bytes + random.below(1000) as u64,
        };
    }
    // W short ends the call before there is anything to see: seldom.
    if random.percent(90) {
        line.lent[0] = line.lent[0].max(model::rooms::work(code.len()));
    }
    line
}
