//! `inspections`: the proved inspector against the model's. `--help` has the words.

use std::process::ExitCode;
use std::time::Instant;

use differential::{INSPECTOR, Inspections, inspect_maps};

const HELP: &str = "\
inspections [OPTIONS]: the proved inspector against the model's, on maps of ours before pruning, and with one thing changed.

  --maps N      how many calls (default 4000), each of the whole map and of the part behind an offset
  --bytes N     the longest contract among the maps (default 2000, at most 49152)
  --seed S      where the seeded calls begin (default 1); the same seed, the same calls

Exit: 0 if all is the same, 1 if something differs, 2 if the command is not understood.
";

fn main() -> ExitCode {
    let begun = Instant::now();
    match run() {
        Ok(Some(all)) => {
            report(&all, begun);
            ExitCode::from(u8::from(all.different != 0))
        }
        Ok(None) => {
            print!("{HELP}");
            ExitCode::SUCCESS
        }
        Err(sentence) => {
            eprintln!("inspections: {sentence}\n{HELP}");
            ExitCode::from(2)
        }
    }
}

fn run() -> Result<Option<Inspections>, String> {
    let (mut count, mut seed, mut bytes) = (4_000, 1, 2_000);
    let mut words = std::env::args().skip(1);
    while let Some(word) = words.next() {
        let value = || format!("{word} needs a number");
        let mut number = || words.next().and_then(|n| n.parse().ok()).ok_or_else(value);
        match word.as_str() {
            "--maps" => count = number()?,
            "--seed" => seed = number()?,
            "--bytes" => bytes = number()? as usize,
            "--help" => return Ok(None),
            _ => return Err(format!("{word} is no option")),
        }
    }
    Ok(Some(inspect_maps(INSPECTOR, count, seed, bytes)))
}

fn report(all: &Inspections, begun: Instant) {
    let [long, mode, short] = all.refused;
    println!(
        "accepted {}, with {} paths, the longest of {} blocks; not right {} at the first block, {} further on; refused {} with 12, {long} with 1, {mode} with 13, {short} with 3",
        all.accepted, all.paths, all.longest, all.first, all.later, all.bad
    );
    println!(
        "{} entries listed; different {}; {:.1} s",
        all.listed,
        all.different,
        begun.elapsed().as_secs_f64()
    );
    for text in &all.written_out {
        println!("{text}");
    }
}
