//! `differential`: the proved library against the unchanged Rust. `--help` has the words.

use std::process::ExitCode;
use std::time::{Duration, Instant};

use codes::{Random, exhaustive};
use differential::{Checker, FAMILIES, Family, Tally};

const HELP: &str = "\
differential [OPTIONS]: the proved library against the unchanged Rust, on the same codes.

  --codes N     codes of a light family; the heavier ones have a share of it (default 12000, and
                1800 where the library runs under an emulator)
  --seed S      where the seeded families begin (default 1); the same seed, the same codes
  --long        all codes of five telling and of seven jumping bytes too, and 200000 of a light
                family unless --codes says otherwise: millions
  --seconds T   goes on with the next seeds until this much time is over: fuzzing by a seeded loop
  --code HEX    this code alone, with --seed for its rooms and limits

Exit: 0 if all is the same, 1 if something differs, 2 if the command is not understood.
";

/// How far a run goes: the lengths of the exhaustive codes, and how many of a light family.
struct Extent {
    telling: usize,
    jumping: usize,
    codes: u64,
}

const LONG: Extent = Extent {
    telling: 5,
    jumping: 7,
    codes: 200_000,
};
/// The gate's, where the library is linked and where it is relayed.
const LINKED: Extent = Extent {
    telling: 3,
    jumping: 5,
    codes: 12_000,
};
const RELAYED: Extent = Extent {
    telling: 2,
    jumping: 4,
    codes: 1_800,
};

#[derive(Default)]
struct Options {
    codes: Option<u64>,
    seed: Option<u64>,
    long: bool,
    seconds: Option<u64>,
    code: Option<Vec<u8>>,
}

fn main() -> ExitCode {
    let options = match options() {
        Ok(Some(options)) => options,
        Ok(None) => {
            print!("{HELP}");
            return ExitCode::SUCCESS;
        }
        Err(sentence) => {
            eprintln!("differential: {sentence}\n{HELP}");
            return ExitCode::from(2);
        }
    };
    let begun = Instant::now();
    let all = run(&options, begun);
    report("in all", &all, begun);
    if all.different == 0 {
        ExitCode::SUCCESS
    } else {
        ExitCode::FAILURE
    }
}

fn options() -> Result<Option<Options>, String> {
    let mut options = Options::default();
    let mut words = std::env::args().skip(1);
    while let Some(word) = words.next() {
        let mut value = || words.next().ok_or(format!("{word} needs a value"));
        match word.as_str() {
            "--help" | "-h" => return Ok(None),
            "--long" => options.long = true,
            "--codes" => options.codes = Some(number(&value()?)?),
            "--seed" => options.seed = Some(number(&value()?)?),
            "--seconds" => options.seconds = Some(number(&value()?)?),
            "--code" => options.code = Some(codes::from_hex(&value()?)?),
            _ => return Err(format!("'{word}' is no option")),
        }
    }
    Ok(Some(options))
}

fn number(text: &str) -> Result<u64, String> {
    text.parse().map_err(|_| format!("'{text}' is no number"))
}

fn run(options: &Options, begun: Instant) -> Tally {
    let checker = Checker::LIBRARY;
    let mut all = Tally::default();
    let seed = options.seed.unwrap_or(1);
    if let Some(code) = &options.code {
        all.add(&checker, code, seed, "--code");
        return all;
    }
    let extent = match options.long {
        true => LONG,
        false if aznifrem::RELAYED => RELAYED,
        false => LINKED,
    };
    every_short_code(&checker, &extent, &mut all);
    let most = options.codes.unwrap_or(extent.codes);
    let mut round = seed;
    loop {
        seeded(&checker, most, round, &mut all);
        let time = options.seconds.map(Duration::from_secs);
        if time.is_none_or(|time| begun.elapsed() >= time) {
            return all;
        }
        round += 1;
    }
}

/// Exhaustive codes; the seed of each one's rooms and limits is made from its bytes.
fn every_short_code(checker: &Checker, extent: &Extent, all: &mut Tally) {
    let mut parts: Vec<(&str, &[u8], usize)> = Vec::new();
    let telling = 0..=extent.telling;
    parts.extend(telling.map(|length| ("telling", &exhaustive::TELLING[..], length)));
    parts.push(("jumping", &exhaustive::JUMPS[..], extent.jumping));
    for (name, alphabet, length) in parts {
        let begun = Instant::now();
        let mut tally = Tally::default();
        let title = format!("every code of {length} {name} bytes");
        exhaustive::each(alphabet, length, |code| {
            let mix = |seed: u64, byte: &u8| seed.wrapping_mul(257).wrapping_add(u64::from(*byte));
            tally.add(checker, code, code.iter().fold(1, mix), &title);
        });
        report(&title, &tally, begun);
        all.join(tally);
    }
}

fn seeded(checker: &Checker, most: u64, seed: u64, all: &mut Tally) {
    for (at, family) in FAMILIES.iter().enumerate() {
        let begun = Instant::now();
        let first = seed.wrapping_mul(1000).wrapping_add(at as u64);
        let tally = of_family(checker, family, (most * family.share).div_ceil(1000), first);
        report(&format!("{}, seed {first}", family.name), &tally, begun);
        all.join(tally);
    }
}

/// Each code has a seed of its own, drawn from the family's.
fn of_family(checker: &Checker, family: &Family, count: u64, first: u64) -> Tally {
    let mut seeds = Random::new(first);
    let mut tally = Tally::default();
    for _ in 0..count {
        let seed = seeds.word();
        let code = (family.next)(&mut Random::new(seed));
        let origin = format!("{}, its own seed {seed}", family.name);
        tally.add(checker, &code, seed, &origin);
    }
    tally
}

fn report(title: &str, tally: &Tally, begun: Instant) {
    println!(
        "{title}: {} codes, {} the same, of them {} with PUSH0, {} different, {} too heavy, {} too long, \
         {:.1} s",
        tally.codes(),
        tally.same,
        tally.zeros,
        tally.different,
        tally.heavy,
        tally.long,
        begun.elapsed().as_secs_f64()
    );
    if title != "in all" {
        tally.written_out.iter().for_each(|text| println!("{text}"));
    }
}
