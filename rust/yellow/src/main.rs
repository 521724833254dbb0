//! `yellow`: the records of generated contracts, run by an interpreter of the Yellow Paper's stack effects. `--help` has the words.

use std::process::ExitCode;
use std::time::Instant;

use yellow::{Source, Tally, trials_in};

const HELP: &str = "\
yellow [OPTIONS]: runs the paths of records of generated codes on random deep stacks. The last jump must pop the recorded
destination, the byte there must be 5B, and control must go from each block to the one named before it.

  --records N   records with a destination to run (default 5000)
  --seed S      where the codes begin (default 1); the same seed, the same codes and stacks
  --model       records of the model, in the place of the proved library's
  --known-zero  records of mode 1, in which PUSH0 is known to put 0

Exit: 0 if all are true, 1 if one is not or if fewer came than were asked for, 2 if the command is not understood.
";

fn main() -> ExitCode {
    let begun = Instant::now();
    match run() {
        Ok(Some((tally, asked))) => {
            report(&tally, begun);
            let short = tally.records < asked;
            if short {
                eprintln!("yellow: {asked} records were asked for, and fewer came");
            }
            ExitCode::from(u8::from(short || tally.wrong != 0))
        }
        Ok(None) => {
            print!("{HELP}");
            ExitCode::SUCCESS
        }
        Err(sentence) => {
            eprintln!("yellow: {sentence}\n{HELP}");
            ExitCode::from(2)
        }
    }
}

/// What came of it, and how many records were asked for.
fn run() -> Result<Option<(Tally, u64)>, String> {
    let (mut records, mut seed) = (5_000, 1);
    let (mut of_model, mut known_zero) = (false, false);
    let mut words = std::env::args().skip(1);
    while let Some(word) = words.next() {
        let mut value = || words.next().ok_or(format!("{word} needs a value"));
        match word.as_str() {
            "--help" | "-h" => return Ok(None),
            "--records" => records = number(&value()?)?,
            "--seed" => seed = number(&value()?)?,
            "--model" => of_model = true,
            "--known-zero" => known_zero = true,
            _ => return Err(format!("'{word}' is no option")),
        }
    }
    let source: Source = match (of_model, known_zero) {
        (false, false) => yellow::library,
        (false, true) => yellow::library_known_zero,
        (true, false) => yellow::model,
        (true, true) => yellow::model_known_zero,
    };
    Ok(Some((
        trials_in(known_zero, source, records, seed),
        records,
    )))
}

fn number(text: &str) -> Result<u64, String> {
    text.parse().map_err(|_| format!("'{text}' is no number"))
}

fn report(tally: &Tally, begun: Instant) {
    tally.written_out.iter().for_each(|text| println!("{text}"));
    println!(
        "{} codes, {} refused; {} records with a destination, {} wrong; {} blocks run, at most {} a path; \
         runs with the mask rule: {} with its premise, {} without; {} records whose premise zeros do not meet; {} destinations inside an argument; {:.1} s",
        tally.codes,
        tally.refused,
        tally.records,
        tally.wrong,
        tally.blocks,
        tally.longest,
        tally.held,
        tally.broken,
        tally.unmet,
        tally.inside,
        begun.elapsed().as_secs_f64()
    );
}
