//! `modes [CODES [SEED]]`: how many more jumps mode 1 of document 02, No. 6, resolves on contracts that write PUSH0 in their
//! addresses. It measures, and fails only where a code is refused or mode 1 finds fewer destinations.

use std::process::ExitCode;

use aznifrem::{BlockType, HIGHEST_LIMIT, Map, Mapper, Mode};
use codes::Random;
use codes::solidity::{Shape, code};

/// What the maps of one mode have in all.
#[derive(Default)]
struct Counts {
    dynamic: usize,
    unresolved: usize,
    records: usize,
    found: usize,
}

impl Counts {
    fn add(&mut self, map: &Map) {
        for block in map.blocks.values() {
            let jumps = match &block.btype {
                BlockType::DynamicJump { to } => to,
                BlockType::DynamicJumpi { true_to, .. } => true_to,
                _ => continue,
            };
            self.dynamic += 1;
            self.unresolved += usize::from(jumps.iter().all(|jump| jump.to.is_none()));
        }
        self.records += map.records.len();
        self.found += map.records.iter().filter(|r| r.jump.to.is_some()).count();
    }
}

fn main() -> ExitCode {
    let numbers: Result<Vec<u64>, _> = std::env::args().skip(1).map(|w| w.parse()).collect();
    let (count, seed) = match numbers.as_deref() {
        Ok([]) => (1_000, 1),
        Ok([count]) => (*count, 1),
        Ok([count, seed]) => (*count, *seed),
        _ => {
            eprintln!("usage: modes [CODES [SEED]]");
            return ExitCode::from(2);
        }
    };
    println!(
        "of a hundred addresses with PUSH0 | mode | dynamic blocks | unresolved | records | with a destination"
    );
    match [0, 4, 2, 1]
        .map(|zeros| row(zeros, count, seed))
        .into_iter()
        .collect()
    {
        Ok(()) => ExitCode::SUCCESS,
        Err(sentence) => {
            let sentence: String = sentence;
            eprintln!("modes: {sentence}");
            ExitCode::FAILURE
        }
    }
}

/// The same contracts in both modes, each so many-th address a sum with PUSH0.
fn row(zeros: usize, count: u64, seed: u64) -> Result<(), String> {
    let mut counts = [Counts::default(), Counts::default()];
    let mut random = Random::new(seed);
    for _ in 0..count {
        let shape = Shape::middle(&mut random);
        let code = code(
            &mut random,
            Shape {
                zeros,
                odd: 0,
                ..shape
            },
        );
        for (mode, counts) in [Mode::Plain, Mode::KnownZero].into_iter().zip(&mut counts) {
            let map = Mapper::new().in_mode(mode).map(&code, HIGHEST_LIMIT);
            counts.add(&map.map_err(|e| format!("{}: {e}", codes::to_hex(&code)))?);
        }
    }
    let share = if zeros == 0 { 0 } else { 100 / zeros };
    for (mode, c) in counts.iter().enumerate() {
        println!(
            "{share} | {mode} | {} | {} | {} | {}",
            c.dynamic, c.unresolved, c.records, c.found
        );
    }
    if counts[1].found < counts[0].found {
        return Err("mode 1 finds fewer destinations".into());
    }
    Ok(())
}
