//! `agree [CODES [SEED]]`: the model against the unchanged Rust on the exhaustive codes and on
//! its share of this many of each seeded family. Prints what came out; fails if two maps differ.

use agree::{Tally, families::FAMILIES};
use codes::{Random, exhaustive};
use std::process::ExitCode;
use std::time::Instant;

const CODES: u64 = 100_000;
const SEED: u64 = 1;

fn main() -> ExitCode {
    let (count, seed) = match arguments() {
        Ok(numbers) => numbers,
        Err(sentence) => {
            eprintln!("agree: {sentence}\nusage: agree [CODES [SEED]]");
            return ExitCode::from(2);
        }
    };
    let begun = Instant::now();
    let mut all = Tally::default();
    for length in 0..=5 {
        show(
            &mut all,
            &format!("all of {length} telling bytes"),
            |tally| {
                exhaustive::each(&exhaustive::TELLING, length, |code| tally.add(code));
            },
        );
    }
    show(&mut all, "all of 7 jumping bytes", |tally| {
        exhaustive::each(&exhaustive::JUMPS, 7, |code| tally.add(code));
    });
    for (at, family) in FAMILIES.iter().enumerate() {
        let mut random = Random::new(seed.wrapping_mul(1000).wrapping_add(at as u64));
        show(&mut all, family.name, |tally| {
            for _ in 0..count * family.share / 1000 {
                tally.add(&(family.next)(&mut random));
            }
        });
    }
    report("in all", &all, begun);
    if all.different == 0 {
        ExitCode::SUCCESS
    } else {
        ExitCode::FAILURE
    }
}

fn arguments() -> Result<(u64, u64), String> {
    let numbers: Result<Vec<u64>, String> = std::env::args()
        .skip(1)
        .map(|word| word.parse().map_err(|_| format!("'{word}' is no number")))
        .collect();
    match numbers?[..] {
        [] => Ok((CODES, SEED)),
        [count] => Ok((count, SEED)),
        [count, seed] => Ok((count, seed)),
        _ => Err("two numbers at the most".into()),
    }
}

fn show(all: &mut Tally, name: &str, run: impl FnOnce(&mut Tally)) {
    let begun = Instant::now();
    let mut tally = Tally::default();
    run(&mut tally);
    report(name, &tally, begun);
    all.join(tally);
}

fn report(name: &str, tally: &Tally, begun: Instant) {
    println!(
        "{name}: {} the same, {} different, {} too heavy, {:.1} s",
        tally.same,
        tally.different,
        tally.heavy,
        begun.elapsed().as_secs_f64()
    );
    if let Some(sentence) = &tally.first {
        println!("  {sentence}");
    }
}
