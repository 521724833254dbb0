//! The records of generated codes, each run on random stacks.

use agree::ENOUGH;
use agree::families::{FAMILIES, Family};
use aznifrem::{Mapper, Mode};
use codes::Random;
use codes::contract::{Style, sized};
use model::Record;

use crate::machine::fetch;
use crate::mask::Mask;
use crate::path::{Wrong, check};
use crate::word::Word;

/// The records of a code; none where its map is refused.
pub type Source = fn(&[u8]) -> Option<Vec<Record>>;

/// Of one code at most so many records are run, so that none outweighs the others.
const MOST: usize = 40;
/// The claim is of every answered run, at any limit; at this one no code keeps an emulated library busy for long.
const LIMIT: u64 = 20_000;
/// Random stacks for each record, beside one of zeros.
const STACKS: usize = 2;
/// Codes that are tried for each record that is asked for. Some 0.6 are needed.
const CODES: u64 = 10;
/// Wrong records that are written out.
const WRITTEN: usize = 5;

/// Whole contracts, beside the families that the model is held against the Rust on.
const CONTRACTS: Family = Family {
    name: "contracts",
    share: 200,
    next: |random| {
        let bytes = random.between(200, 4_000);
        sized(random, bytes, Style::Plain)
    },
};

/// The proved library's in mode 0.
pub fn library(code: &[u8]) -> Option<Vec<Record>> {
    library_in(Mode::Plain, code)
}

/// The proved library's in mode 1.
pub fn library_known_zero(code: &[u8]) -> Option<Vec<Record>> {
    library_in(Mode::KnownZero, code)
}

/// Each in memory of its own: rooms that one code made large would be wiped for every later one.
fn library_in(mode: Mode, code: &[u8]) -> Option<Vec<Record>> {
    let map = Mapper::new().in_mode(mode).map(code, LIMIT).ok()?;
    let records = map.records.into_iter().map(|record| Record {
        start: record.start,
        to: record.jump.to,
        path: record.jump.path,
        energy: None,
    });
    Some(records.collect())
}

/// The model's in mode 0.
pub fn model(code: &[u8]) -> Option<Vec<Record>> {
    let map = model::map(&ENOUGH, LIMIT, code).ok()?;
    Some(map.records)
}

/// The model's in mode 1.
pub fn model_known_zero(code: &[u8]) -> Option<Vec<Record>> {
    let map = model::map_in(1, &ENOUGH, LIMIT, code).ok()?;
    Some(map.records)
}

/// What came of it. A record counts once, however many stacks it was run on.
#[derive(Clone, Debug, Default, PartialEq, Eq)]
pub struct Tally {
    /// Whether the records are of mode 1.
    pub known_zero: bool,
    pub codes: u64,
    pub refused: u64,
    /// Records with a destination that were run, and those of them that were wrong on a stack.
    pub records: u64,
    pub wrong: u64,
    /// Blocks run, and the most that one path has.
    pub blocks: u64,
    pub longest: usize,
    /// Runs on a stack in which the mask rule was used and its premise held, and in which it did not hold.
    pub held: u64,
    pub broken: u64,
    /// Records whose premise words that are all 0 do not meet: they mask a number that the path itself makes too large.
    pub unmet: u64,
    /// Records whose destination is a byte 5B inside the argument of a PUSH.
    pub inside: u64,
    pub written_out: Vec<String>,
}

/// Runs records of mode 0 until so many with a destination were, or a source that gives too few is given up.
pub fn trials(source: Source, records: u64, seed: u64) -> Tally {
    trials_in(false, source, records, seed)
}

/// The same for records of mode 1, or of mode 0.
pub fn trials_in(known_zero: bool, source: Source, records: u64, seed: u64) -> Tally {
    let mut tally = Tally {
        known_zero,
        ..Tally::default()
    };
    let mut seeds = Random::new(seed);
    while tally.records < records && tally.codes < records.saturating_mul(CODES) {
        for family in FAMILIES.iter().chain([&CONTRACTS]) {
            for _ in 0..family.share.div_ceil(100) {
                let seed = seeds.word();
                let code = (family.next)(&mut Random::new(seed));
                tally.add(source, &code, seed, family.name);
            }
        }
    }
    tally
}

impl Tally {
    /// Runs the records of one code.
    pub fn add(&mut self, source: Source, code: &[u8], seed: u64, family: &str) {
        self.codes += 1;
        let Some(records) = source(code) else {
            self.refused += 1;
            return;
        };
        let mut random = Random::new(!seed);
        let found = records
            .iter()
            .filter_map(|record| Some((record, record.to?)));
        for (record, to) in found.take(MOST) {
            self.run(code, record, to, &mut random, family);
        }
    }

    fn run(&mut self, code: &[u8], record: &Record, to: usize, random: &mut Random, family: &str) {
        self.records += 1;
        self.longest = self.longest.max(record.path.len());
        self.inside += u64::from(is_argument(code, to));
        for stack in 0..=STACKS {
            let mut supply = || match stack {
                0 => Word::ZERO,
                _ => word(random, code.len()),
            };
            let mask = Mask::of(self.known_zero);
            let seen = check(code, record, to, mask, &mut supply);
            match seen {
                Ok(seen) if stack == 0 => self.unmet += u64::from(seen.broken > 0),
                Ok(seen) => {
                    self.blocks += seen.blocks as u64;
                    self.held += u64::from(seen.masked > 0 && seen.broken == 0);
                    self.broken += u64::from(seen.broken > 0);
                }
                Err(wrong) => return self.tell(code, record, &wrong, family),
            }
        }
    }

    fn tell(&mut self, code: &[u8], record: &Record, wrong: &Wrong, family: &str) {
        self.wrong += 1;
        if self.written_out.len() < WRITTEN {
            let (hex, path) = (codes::to_hex(code), &record.path);
            let text = format!("{family}, path {path:?} of {hex}: {wrong}");
            self.written_out.push(text);
        }
    }
}

/// Whether the place stands inside the argument of a PUSH, by the walk from 0.
fn is_argument(code: &[u8], place: usize) -> bool {
    let mut at = 0;
    while at < place {
        at += fetch(code, at).size;
    }
    at != place
}

/// Words that a run notices: addresses, numbers around 2^32, small ones, and any.
fn word(random: &mut Random, length: usize) -> Word {
    const TELLING: [u64; 6] = [0, 1, 0xffff_fffe, 0xffff_ffff, 0x1_0000_0000, u64::MAX];
    match random.below(10) {
        0..=2 => Word::from(random.below(length + 1) as u64),
        3 => Word::from(random.pick(&TELLING)),
        4 | 5 => Word::from(random.word() >> 32),
        6 => Word::from(random.word()),
        7 => Word::MAX,
        _ => Word(std::array::from_fn(|_| random.word())),
    }
}
