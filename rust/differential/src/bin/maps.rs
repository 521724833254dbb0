//! `maps`: the proved reader of stored maps against the model's, on whole and damaged ones. `--help` has the words.

use std::process::ExitCode;
use std::time::Instant;

use differential::{Archives, Maps, check_map, read_maps, salvage_archives};

const HELP: &str = "\
maps [OPTIONS]: the proved reader of stored maps, and the binding's, against the model's.

  --maps N      whole and damaged maps to read (default 200000)
  --seed S      where the seeded maps begin (default 1); the same seed, the same maps
  --map HEX     these bytes alone
  --archives N  in the place of maps: so many archives of maps, salvaged

Exit: 0 if all is the same, 1 if something differs, 2 if the command is not understood.
";

fn main() -> ExitCode {
    let begun = Instant::now();
    match run() {
        Ok(Some(Came::Maps(maps))) => {
            report(&maps, begun);
            ExitCode::from(u8::from(maps.different != 0))
        }
        Ok(Some(Came::Archives(archives))) => {
            report_archives(&archives, begun);
            ExitCode::from(u8::from(archives.different != 0))
        }
        Ok(None) => {
            print!("{HELP}");
            ExitCode::SUCCESS
        }
        Err(sentence) => {
            eprintln!("maps: {sentence}\n{HELP}");
            ExitCode::from(2)
        }
    }
}

enum Came {
    Maps(Maps),
    Archives(Archives),
}

fn run() -> Result<Option<Came>, String> {
    let mut count = 200_000;
    let mut archives = None;
    let mut seed = 1;
    let mut words = std::env::args().skip(1);
    while let Some(word) = words.next() {
        let mut value = || words.next().ok_or(format!("{word} needs a value"));
        match word.as_str() {
            "--help" | "-h" => return Ok(None),
            "--maps" => count = number(&value()?)?,
            "--seed" => seed = number(&value()?)?,
            "--archives" => archives = Some(number(&value()?)?),
            "--map" => {
                let bytes = codes::from_hex(&value()?)?;
                println!("{:?}", check_map(aznifrem::read, &bytes));
                let mut maps = Maps::default();
                maps.add(aznifrem::read, &bytes);
                return Ok(Some(Came::Maps(maps)));
            }
            _ => return Err(format!("'{word}' is no option")),
        }
    }
    Ok(Some(match archives {
        Some(count) => Came::Archives(salvage_archives(aznifrem::salvage, count, seed)),
        None => Came::Maps(read_maps(aznifrem::read, count, seed)),
    }))
}

fn number(text: &str) -> Result<u64, String> {
    text.parse().map_err(|_| format!("'{text}' is no number"))
}

fn report(maps: &Maps, begun: Instant) {
    maps.written_out.iter().for_each(|text| println!("{text}"));
    let refused: Vec<String> = maps
        .refused
        .iter()
        .map(|(bad, count)| format!("{bad:?} {count}"))
        .collect();
    println!(
        "stored maps: {} held, {} different; bad at the first bad entry: {}; {:.1} s",
        maps.held,
        maps.different,
        refused.join(", "),
        begun.elapsed().as_secs_f64()
    );
}

fn report_archives(archives: &Archives, begun: Instant) {
    let texts = archives.written_out.iter();
    texts.for_each(|text| println!("{text}"));
    println!(
        "archives: {} whole, {} cut or damaged, {} different; maps copied: {}; {:.1} s",
        archives.whole,
        archives.cut,
        archives.different,
        archives.maps,
        begun.elapsed().as_secs_f64()
    );
}
