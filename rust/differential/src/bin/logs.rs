//! `logs`: the proved follower of logs against the model's. `--help` has the words.

use std::process::ExitCode;
use std::time::Instant;

use differential::{Index, Logs, follow_logs, ring, shared};

const HELP: &str = "\
logs [OPTIONS]: the proved follower of logs against the model's, on logs that are in the map and on damaged ones.

  --logs N      how many logs (default 4000)
  --long N      seconds for logs of N steps through rings of 4, 400 and 4000 blocks, with an index; of N / 1000 without
  --shared N    seconds for logs of N steps through a function that 4, 400 and 1000 callers share, with an index of
                the edges; of N / 100 with one of the blocks alone, and of N / 1000 without
  --seed S      where the seeded logs begin (default 1); the same seed, the same logs

Exit: 0 if all is the same, 1 if something differs, 2 if the command is not understood.
";

fn main() -> ExitCode {
    let begun = Instant::now();
    match run() {
        Ok(Some(logs)) => {
            report(&logs, begun);
            ExitCode::from(u8::from(logs.different != 0))
        }
        Ok(None) => {
            print!("{HELP}");
            ExitCode::SUCCESS
        }
        Err(sentence) => {
            eprintln!("logs: {sentence}\n{HELP}");
            ExitCode::from(2)
        }
    }
}

fn run() -> Result<Option<Logs>, String> {
    let (mut count, mut seed) = (4_000, 1);
    let mut words = std::env::args().skip(1);
    while let Some(word) = words.next() {
        let value = || format!("{word} needs a number");
        match word.as_str() {
            "--help" | "-h" => return Ok(None),
            "--logs" => {
                count = words
                    .next()
                    .and_then(|w| w.parse().ok())
                    .ok_or_else(value)?
            }
            "--seed" => {
                seed = words
                    .next()
                    .and_then(|w| w.parse().ok())
                    .ok_or_else(value)?
            }
            "--long" => {
                let steps = words.next().and_then(|w| w.parse().ok());
                long(steps.ok_or_else(value)?);
                count = 0;
            }
            "--shared" => {
                let steps = words.next().and_then(|w| w.parse().ok());
                through_shared(steps.ok_or_else(value)?);
                count = 0;
            }
            _ => return Err(format!("'{word}' is no option")),
        }
    }
    Ok(Some(follow_logs(aznifrem::follow, count, seed)))
}

fn long(steps: usize) {
    for blocks in [4, 400, 4000] {
        let with = ring(aznifrem::follow, blocks, steps, true);
        let without = ring(aznifrem::follow, blocks, steps / 1000, false);
        println!(
            "{blocks} blocks: {steps} steps in {with:.2} s with an index, {} in {without:.2} s without",
            steps / 1000
        );
    }
}

fn through_shared(steps: usize) {
    for callers in [4, 400, 1000] {
        let parts = [
            (steps, Index::Edges),
            (steps / 100, Index::Blocks),
            (steps / 1000, Index::Nothing),
        ];
        let told = parts.map(|(steps, index)| {
            let seconds = shared(aznifrem::follow, callers, steps, index);
            format!("{steps} steps in {seconds:.3} s ({index:?})")
        });
        println!("{callers} callers: {}", told.join(", "));
    }
}

fn report(logs: &Logs, begun: Instant) {
    for text in &logs.written_out {
        println!("{text}");
    }
    let [bad, uneven, short] = logs.refused;
    println!(
        "{} logs in the map to their end, {} that leave it, {bad} bad maps (12), {uneven} uneven logs (14), {short} short rooms (15); {} steps, {:.1} s",
        logs.whole,
        logs.left,
        logs.steps,
        begun.elapsed().as_secs_f64()
    );
    let all = logs.whole + logs.left + bad + uneven + short;
    println!("{all} passed, {} failed", logs.different);
}
