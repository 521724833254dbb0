//! `reports`: the proved reports over stored maps against the model's. `--help` has the words.

use std::process::ExitCode;
use std::time::Instant;

use differential::{ReportPort, run_reports};

const HELP: &str = "\
reports [OPTIONS]: the proved reports over stored maps against the model's: folders, joins in any
order and shape, and sums at the border of 64 bits.

  --maps N      maps to add (default 20000)
  --seed S      where the seeded maps begin (default 1); the same seed, the same maps

Exit: 0 if all is the same, 1 if something differs, 2 if the command is not understood.
";

fn main() -> ExitCode {
    let (count, seed) = match asked() {
        Ok(Some(asked)) => asked,
        Ok(None) => {
            print!("{HELP}");
            return ExitCode::SUCCESS;
        }
        Err(sentence) => {
            eprintln!("reports: {sentence}\n{HELP}");
            return ExitCode::from(2);
        }
    };
    let begun = Instant::now();
    let library = ReportPort {
        add: aznifrem::report_add,
        join: aznifrem::report_join,
    };
    let seen = run_reports(library, count, seed);
    if let Some(sentence) = &seen.different {
        println!("{sentence}");
    }
    println!(
        "reports: {} maps added, {} of them no maps; longest by a 7 {}, several {}, one with several 7s {}; {} joins; {} sums too large; {} different; {:.1} s",
        seen.maps,
        seen.refused,
        seen.longest_by_7,
        seen.several,
        seen.one_with_several_7s,
        seen.joins,
        seen.too_large,
        u8::from(seen.different.is_some()),
        begun.elapsed().as_secs_f64()
    );
    ExitCode::from(u8::from(seen.different.is_some()))
}

fn asked() -> Result<Option<(u64, u64)>, String> {
    let (mut count, mut seed) = (20_000, 1);
    let mut words = std::env::args().skip(1);
    while let Some(word) = words.next() {
        let mut value = || {
            let text = words.next().ok_or(format!("{word} needs a value"))?;
            text.parse().map_err(|_| format!("'{text}' is no number"))
        };
        match word.as_str() {
            "--help" | "-h" => return Ok(None),
            "--maps" => count = value()?,
            "--seed" => seed = value()?,
            _ => return Err(format!("'{word}' is no option")),
        }
    }
    Ok(Some((count, seed)))
}
