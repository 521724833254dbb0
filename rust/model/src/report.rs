//! Document 02, No. 11, as a plain program, written from its text: one report for many stored maps.

use std::collections::BTreeSet;

use crate::blocks::{Block, Kind};
use crate::reader::{Held, read};

/// "Totals are exact, 64-bit."
const MOST: u128 = u64::MAX as u128;
/// 15 numbers of 8 bytes.
pub const BYTES: usize = 120;

/// The numbers of a report but its share, which is worked out from them.
#[derive(Clone, Debug, Default, PartialEq, Eq)]
pub struct Report {
    pub maps: u128,
    /// "Blocks of each kind", from kind 2 on.
    pub kinds: [u128; 5],
    /// "Dynamic blocks with no destination (unresolved), one, or several distinct ones".
    pub dynamic: [u128; 3],
    /// "Records with and without destination".
    pub records: [u128; 2],
    pub longest: u128,
    pub energy: u128,
}

/// "Refusals: 12 as in No. 2, then 16, a total would not fit".
#[derive(Clone, Copy, Debug, PartialEq, Eq)]
pub enum NotAdded {
    Bad { offset: usize },
    TooLarge,
}

impl NotAdded {
    /// What the exported call gives.
    pub fn number(self) -> u64 {
        match self {
            NotAdded::Bad { offset } => 12 + 256 * offset as u64,
            NotAdded::TooLarge => 16,
        }
    }
}

/// A stored map added to the bytes of a report; others than its 120 stay.
pub fn add(report: &[u8], map: &[u8]) -> Result<Vec<u8>, NotAdded> {
    let held = read(map).map_err(|refused| NotAdded::Bad {
        offset: refused.offset,
    })?;
    joined(report, Some(of(&held)))
}

/// A report joined to a report.
pub fn join(report: &[u8], other: &[u8]) -> Result<Vec<u8>, NotAdded> {
    joined(report, from_bytes(other))
}

fn joined(report: &[u8], other: Option<Report>) -> Result<Vec<u8>, NotAdded> {
    let (Some(mut sum), Some(other)) = (from_bytes(report), other) else {
        return Err(NotAdded::TooLarge);
    };
    // "Sums added, the longer path, the share from the sums".
    sum.maps += other.maps;
    for (a, b) in sum.kinds.iter_mut().zip(other.kinds) {
        *a += b;
    }
    for (a, b) in sum.dynamic.iter_mut().zip(other.dynamic) {
        *a += b;
    }
    for (a, b) in sum.records.iter_mut().zip(other.records) {
        *a += b;
    }
    sum.longest = sum.longest.max(other.longest);
    sum.energy += other.energy;
    let numbers = numbers(&sum);
    if numbers.iter().any(|n| *n > MOST) || sum.dynamic.iter().sum::<u128>() > MOST {
        return Err(NotAdded::TooLarge);
    }
    let mut bytes: Vec<u8> = numbers
        .iter()
        .flat_map(|n| (*n as u64).to_le_bytes())
        .collect();
    bytes.extend(&report[BYTES..]);
    Ok(bytes)
}

/// What one map says.
pub fn of(held: &Held) -> Report {
    let mut report = Report {
        maps: 1,
        energy: u128::from(held.energy),
        ..Report::default()
    };
    let mut paths: Vec<usize> = Vec::new();
    for block in &held.blocks {
        report.kinds[kind(block)] += 1;
        if let Kind::DynamicJump { entries } | Kind::DynamicJumpi { entries, .. } = &block.kind {
            let ends: BTreeSet<usize> = entries.iter().filter_map(|entry| entry.to).collect();
            report.dynamic[ends.len().min(2)] += 1;
            paths.extend(entries.iter().map(|entry| entry.path.len()));
        }
    }
    for record in &held.records {
        report.records[usize::from(record.to.is_none())] += 1;
        paths.push(record.path.len());
    }
    report.longest = paths.into_iter().max().unwrap_or(0) as u128;
    report
}

fn kind(block: &Block) -> usize {
    match block.kind {
        Kind::Terminate { .. } => 0,
        Kind::Jump { .. } => 1,
        Kind::Jumpi { .. } => 2,
        Kind::DynamicJump { .. } => 3,
        Kind::DynamicJumpi { .. } => 4,
    }
}

/// The report that the first 120 bytes are; the share that stands there says nothing.
pub fn from_bytes(bytes: &[u8]) -> Option<Report> {
    let bytes = bytes.get(..BYTES)?;
    let at = |i: usize| {
        let eight: [u8; 8] = std::array::from_fn(|k| bytes[8 * i + k]);
        u128::from(u64::from_le_bytes(eight))
    };
    Some(Report {
        maps: at(0),
        kinds: [at(1), at(2), at(3), at(4), at(5)],
        dynamic: [at(6), at(7), at(8)],
        records: [at(9), at(10)],
        longest: at(11),
        energy: at(12),
    })
}

/// The numbers in their order, the share last.
pub fn numbers(report: &Report) -> [u128; 15] {
    let [k2, k3, k4, k5, k6] = report.kinds;
    let [none, one, several] = report.dynamic;
    let [with, without] = report.records;
    let (part, whole) = lowest(none, none + one + several);
    [
        report.maps,
        k2,
        k3,
        k4,
        k5,
        k6,
        none,
        one,
        several,
        with,
        without,
        report.longest,
        report.energy,
        part,
        whole,
    ]
}

/// "In lowest terms, 0 over 1 if there are none": by halving and subtracting.
fn lowest(part: u128, whole: u128) -> (u128, u128) {
    if whole == 0 {
        return (0, 1);
    }
    let (mut a, mut b, mut twos) = (part, whole, 0);
    while a != 0 && b != 0 {
        match (a % 2, b % 2) {
            (0, 0) => (a, b, twos) = (a / 2, b / 2, twos + 1),
            (0, _) => a /= 2,
            (_, 0) => b /= 2,
            _ if a < b => b -= a,
            _ => a -= b,
        }
    }
    let common = (a + b) << twos;
    (part / common, whole / common)
}
