//! Reports over stored maps: the library's against the model's, folders, borders and joins.

use std::collections::BTreeSet;

use codes::Random;
use model::report::{self, BYTES, NotAdded};
use model::{Entry, Held, Kind};

use crate::damage::{damaged, one_destination, without_records};
use crate::stored::answers;

/// The library's calls on reports, or what stands in for them in a test.
#[derive(Clone, Copy)]
pub struct ReportPort {
    pub add: fn(&mut [u8], &[u8]) -> u64,
    pub join: fn(&mut [u8], &[u8]) -> u64,
}

/// What was seen.
#[derive(Clone, Debug, Default, PartialEq, Eq)]
pub struct Reports {
    pub maps: u64,
    pub refused: u64,
    pub joins: u64,
    pub too_large: u64,
    /// Maps whose longest path is of a 7 and of no record.
    pub longest_by_7: u64,
    /// Maps with a dynamic block of several distinct destinations.
    pub several: u64,
    /// Maps with a dynamic block of one destination that several 7s have.
    pub one_with_several_7s: u64,
    /// The first difference, if there is one.
    pub different: Option<String>,
}

/// So many maps in folders: each map added to a new report, each folder fed to a report, the
/// folders' reports joined in any order and shape, and maps added at the border of 64 bits.
pub fn run(port: ReportPort, count: u64, seed: u64) -> Reports {
    let mut run = Run {
        port,
        seen: Reports::default(),
    };
    let mut random = Random::new(seed);
    while run.seen.maps < count && run.seen.different.is_none() {
        let whole = answers(&mut random);
        let mut folders = vec![Vec::new(); random.between(1, 6)];
        for _ in 0..random.between(40, 160) {
            let one = &whole[random.below(whole.len())];
            let map = match random.below(100) {
                0..45 => one.clone(),
                45..60 => without_records(one),
                60..70 => one_destination(one),
                _ => damaged(&mut random, &whole),
            };
            let folder = random.below(folders.len());
            folders[folder].push(map);
        }
        run.folders(&mut random, &folders);
        run.borders(&mut random, &whole);
    }
    run.seen
}

struct Run {
    port: ReportPort,
    seen: Reports,
}

impl Run {
    /// The report of all is the joined reports of each.
    fn folders(&mut self, random: &mut Random, folders: &[Vec<Vec<u8>>]) {
        let mut all = vec![0; BYTES];
        let mut reports = Vec::new();
        for folder in folders {
            let mut report = vec![0; BYTES + random.below(3)];
            for map in folder {
                self.alone(map);
                self.add(&mut report, map);
                self.add(&mut all, map);
            }
            reports.push(report);
        }
        while reports.len() > 1 {
            let other = reports.swap_remove(random.below(reports.len()));
            let place = random.below(reports.len());
            self.join(&mut reports[place], &other);
        }
        // With no map at all the zero bytes of a new report are joined to nothing.
        let (of_all, joined) = (report::from_bytes(&all), report::from_bytes(&reports[0]));
        if of_all != joined {
            self.differ(format!(
                "the folders' reports joined are {joined:?}, of all maps {of_all:?}"
            ));
        }
    }

    /// In a new report no longer path and no other block hides what a map says.
    fn alone(&mut self, map: &[u8]) {
        self.add(&mut [0; BYTES], map);
        if let Ok(held) = model::read(map) {
            let blocks: Vec<&[Entry]> = sevens(&held).collect();
            let longest = |paths: &mut dyn Iterator<Item = usize>| paths.max().unwrap_or(0);
            let of_7s = longest(
                &mut blocks
                    .iter()
                    .copied()
                    .flatten()
                    .map(|seven| seven.path.len()),
            );
            let of_records = longest(&mut held.records.iter().map(|record| record.path.len()));
            let any =
                |test: fn(&[Entry]) -> bool| u64::from(blocks.iter().any(|block| test(block)));
            self.seen.longest_by_7 += u64::from(of_7s > of_records);
            self.seen.several += any(|block| ends(block) > 1);
            self.seen.one_with_several_7s += any(|block| ends(block) == 1 && block.len() > 1);
        }
    }

    /// Each number at the last that fits, and one further; reports of any length.
    fn borders(&mut self, random: &mut Random, maps: &[Vec<u8>]) {
        for place in 0..13 {
            for more in [0, 1, 2] {
                let near = u64::MAX - random.below(3) as u64;
                let mut report = numbers(random, 3);
                report[8 * place..8 * place + 8].copy_from_slice(&near.to_le_bytes());
                let mut other = numbers(random, 1);
                other[8 * place..8 * place + 8].copy_from_slice(&(more as u64).to_le_bytes());
                self.join(&mut report.clone(), &other);
                self.add(&mut report, &maps[random.below(maps.len())]);
            }
        }
        // The dynamic blocks together.
        for _ in 0..4 {
            let mut report = numbers(random, 2);
            let half = (1u64 << 63) - random.below(3) as u64;
            for place in [6, 7] {
                report[8 * place..8 * place + 8].copy_from_slice(&half.to_le_bytes());
            }
            let other = numbers(random, 2);
            self.join(&mut report.clone(), &other);
            self.add(&mut report, &maps[random.below(maps.len())]);
        }
        for length in [0, 1, 119, 120, 121] {
            let (report, other) = (vec![1; length], vec![2; random.between(118, 121)]);
            self.join(&mut report.clone(), &other);
            self.join(&mut other.clone(), &report);
            self.add(&mut report.clone(), &maps[random.below(maps.len())]);
            self.add(&mut report.clone(), &damaged(random, maps));
        }
    }

    fn add(&mut self, report: &mut [u8], map: &[u8]) {
        self.seen.maps += 1;
        let wanted = report::add(report, map);
        let before = report.to_vec();
        let given = (self.port.add)(report, map);
        self.held("add", &before, map, wanted, given, report);
    }

    fn join(&mut self, report: &mut [u8], other: &[u8]) {
        self.seen.joins += 1;
        let wanted = report::join(report, other);
        let before = report.to_vec();
        let given = (self.port.join)(report, other);
        self.held("join", &before, other, wanted, given, report);
    }

    /// Number and every byte of the report are the model's.
    fn held(
        &mut self,
        what: &str,
        before: &[u8],
        with: &[u8],
        wanted: Result<Vec<u8>, NotAdded>,
        given: u64,
        after: &[u8],
    ) {
        match wanted {
            Err(NotAdded::TooLarge) => self.seen.too_large += 1,
            Err(_) => self.seen.refused += 1,
            Ok(_) => {}
        }
        let number = wanted.as_ref().map_or_else(|why| why.number(), |_| 0);
        let bytes = wanted.unwrap_or_else(|_| before.to_vec());
        if given != number || after != bytes {
            let hex = codes::to_hex;
            self.differ(format!(
                "{what}: the library gives {given}, the model {number}; report {} with {} is {}, the model's {}",
                hex(before), hex(with), hex(after), hex(&bytes)
            ));
        }
    }

    fn differ(&mut self, sentence: String) {
        self.seen.different.get_or_insert(sentence);
    }
}

/// The 7s of each dynamic block.
fn sevens(held: &Held) -> impl Iterator<Item = &[Entry]> {
    held.blocks.iter().filter_map(|block| match &block.kind {
        Kind::DynamicJump { entries } | Kind::DynamicJumpi { entries, .. } => Some(&entries[..]),
        _ => None,
    })
}

/// How many distinct destinations a block's 7s have.
fn ends(sevens: &[Entry]) -> usize {
    let ends: BTreeSet<usize> = sevens.iter().filter_map(|seven| seven.to).collect();
    ends.len()
}

/// A report of small numbers.
fn numbers(random: &mut Random, below: usize) -> Vec<u8> {
    let numbers = (0..15).map(|_| random.below(below) as u64);
    numbers.flat_map(u64::to_le_bytes).collect()
}
