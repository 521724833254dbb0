//! `bench`: the proved library and the unchanged Rust in one process. `--help` has the words.

mod contracts;
mod heap;
mod inspector;
mod port;
mod stats;
mod worst;

use std::process::ExitCode;
use std::time::Duration;

const HELP: &str = "\
bench [OPTIONS]: the proved library's call and the unchanged Rust in one process, in turn.

  --codes N      contracts of each class (default 20)
  --seed S       from which they are made (default 1)
  --seconds T    time of each worst case (default 20)
  --mebibytes M  memory of each worst case (default 2048)
  --contracts    the contracts alone
  --inspector    the inspector alone, on maps of contracts and on maps that are made to be slow
  --check        exit 1 if a goal is missed: on the contracts by a ratio over 0.3 or by no answer,
                 on the worst cases by a ratio over 1 or by an answer of the Rust alone

Prints one table; --inspector prints its own instead. Times are medians, of the turns and then of the codes; the call's has its wiping,
and its rooms have grown before; map is the binding's, which reads the answer too. A worst case runs
in a process of its own, both sides in it. Where the machine is not x86-64 it says so and ends.
";

const NOT_HERE: &str = "\
bench: times are taken on x86-64 only, and none is taken here: on this machine the library runs under an emulator";

struct Options {
    codes: usize,
    seed: u64,
    bounds: worst::Bounds,
    contracts_alone: bool,
    inspector_alone: bool,
    check: bool,
}

fn main() -> ExitCode {
    let words: Vec<String> = std::env::args().skip(1).collect();
    if let [flag, case, which, ceiling] = &words[..]
        && flag == "--child"
    {
        return child(case, which, ceiling);
    }
    match options(words.into_iter()) {
        Ok(Some(_)) if aznifrem::RELAYED => {
            println!("{NOT_HERE}");
            ExitCode::SUCCESS
        }
        Ok(Some(options)) => run(&options),
        Ok(None) => {
            print!("{HELP}");
            ExitCode::SUCCESS
        }
        Err(sentence) => {
            eprintln!("bench: {sentence}\n{HELP}");
            ExitCode::from(2)
        }
    }
}

fn child(case: &str, which: &str, ceiling: &str) -> ExitCode {
    match (case.parse(), ceiling.parse()) {
        (Ok(case), Ok(ceiling)) if case < worst::CASES.len() => {
            worst::child(case, which, ceiling);
            ExitCode::SUCCESS
        }
        _ => ExitCode::from(2),
    }
}

fn options(mut words: impl Iterator<Item = String>) -> Result<Option<Options>, String> {
    let mut options = Options {
        codes: 20,
        seed: 1,
        bounds: worst::Bounds {
            time: Duration::from_secs(20),
            memory: 2048 << 20,
        },
        contracts_alone: false,
        inspector_alone: false,
        check: false,
    };
    while let Some(word) = words.next() {
        let mut value = || {
            let value = words.next().ok_or(format!("{word} needs a value"))?;
            let number = value.parse::<u32>();
            number.map_err(|_| format!("'{value}' is no number"))
        };
        match word.as_str() {
            "--help" | "-h" => return Ok(None),
            "--codes" => options.codes = value()? as usize,
            "--seed" => options.seed = u64::from(value()?),
            "--seconds" => options.bounds.time = Duration::from_secs(u64::from(value()?)),
            "--mebibytes" => options.bounds.memory = (value()? as usize) << 20,
            "--contracts" => options.contracts_alone = true,
            "--inspector" => options.inspector_alone = true,
            "--check" => options.check = true,
            _ => return Err(format!("'{word}' is no option")),
        }
    }
    Ok(Some(options))
}

const COLUMNS: &str = "\
| codes | how many | longest, bytes | call, ms | Rust, ms | call / Rust | highest | map / Rust | lent, KiB | Rust's peak heap, KiB |
|---|---|---|---|---|---|---|---|---|---|";

fn run(options: &Options) -> ExitCode {
    if options.inspector_alone {
        return of_inspector(options);
    }
    println!("{COLUMNS}");
    let mut missed = of_contracts(options);
    if !options.contracts_alone {
        missed.extend(of_worst_cases(options));
    }
    for name in &missed {
        eprintln!("bench: the goal is missed by: {name}");
    }
    if options.check && !missed.is_empty() {
        ExitCode::FAILURE
    } else {
        ExitCode::SUCCESS
    }
}

/// The inspector's table, which has no goal.
fn of_inspector(options: &Options) -> ExitCode {
    match inspector::cases(options.seed) {
        Ok(cases) => {
            println!("{}", inspector::COLUMNS);
            for case in &cases {
                println!("{}", case.row());
            }
            ExitCode::SUCCESS
        }
        Err(sentence) => {
            eprintln!("bench: {sentence}");
            ExitCode::FAILURE
        }
    }
}

/// The contracts' lines; gives the classes that miss the goal.
fn of_contracts(options: &Options) -> Vec<String> {
    let mut missed = Vec::new();
    for class in &contracts::CLASSES {
        match class.measure(options.codes, options.seed) {
            Ok(measured) => {
                println!("{}", measured.row(class.name));
                if measured.misses() {
                    missed.push(class.name.into());
                }
            }
            Err(sentence) => {
                eprintln!("bench: {}: {sentence}", class.name);
                missed.push(class.name.into());
            }
        }
    }
    missed
}

/// The worst cases' lines; gives the cases that miss the goal.
fn of_worst_cases(options: &Options) -> Vec<String> {
    let mut missed = Vec::new();
    for (at, case) in worst::CASES.iter().enumerate() {
        match worst::measure(at, options.bounds) {
            Ok(measured) => {
                println!("{}", measured.row(&case.name()));
                if measured.misses() {
                    missed.push(case.name());
                }
            }
            Err(error) => {
                eprintln!("bench: {} cannot be run: {error}", case.name());
                missed.push(case.name());
            }
        }
    }
    missed
}
