//! The relay: a program that runs the library under the kit's emulator. Each call that is under way has one to itself.

use std::io::{Read, Write};
use std::path::Path;
use std::process::{Child, ChildStdin, ChildStdout, Stdio};
use std::sync::{Mutex, MutexGuard, PoisonError};

use crate::emulator::emulated;
use crate::error::NotRelayed;
use crate::memory::{Memory, Part};

const PROGRAM: &str = env!("AZNIFREM_RELAY");
const TOOLS: &str = env!("AZNIFREM_TOOLS");

/// Relays that wait for a call; they end when this process does, since nothing writes to them then.
static IDLE: Mutex<Vec<Relay>> = Mutex::new(Vec::new());

/// A list of relays is whole whatever panicked beside it.
fn idle() -> MutexGuard<'static, Vec<Relay>> {
    IDLE.lock().unwrap_or_else(PoisonError::into_inner)
}

/// One call, by its place in the table. If the relay fails, what was lent is as it was, and the next call has another relay.
pub fn call(place: usize, numbers: &[u64], parts: &mut [Part]) -> Result<u64, NotRelayed> {
    let waiting = idle().pop();
    let mut relay = match waiting {
        Some(relay) => relay,
        None => Relay::start(Path::new(TOOLS), Path::new(PROGRAM))?,
    };
    let result = relay.call(place, numbers, parts)?;
    idle().push(relay);
    Ok(result)
}

struct Relay {
    child: Child,
    requests: ChildStdin,
    results: ChildStdout,
    memory: Memory,
}

impl Relay {
    fn start(tools: &Path, program: &Path) -> Result<Relay, NotRelayed> {
        let mut child = spawned(tools, program)?;
        let (Some(requests), Some(mut results)) = (child.stdin.take(), child.stdout.take()) else {
            return Err(NotRelayed("the relay has no pipes".into()));
        };
        let file = word(&mut results).map_err(|_| ended(&mut child))?;
        let memory = Memory::of(child.id(), file).map_err(|e| {
            // It is stopped; why does not matter.
            let _ = ended(&mut child);
            NotRelayed(format!(
                "the relay's memory cannot be opened through /proc ({e}): see that /proc is there"
            ))
        })?;
        Ok(Relay {
            child,
            requests,
            results,
            memory,
        })
    }

    fn call(
        &mut self,
        place: usize,
        numbers: &[u64],
        parts: &mut [Part],
    ) -> Result<u64, NotRelayed> {
        let spans = self.memory.lend(parts)?;
        let slices = spans.iter().flat_map(|span| [span.start, span.length]);
        let words: Vec<u64> = numbers.iter().copied().chain(slices).collect();
        let mut request = vec![self.memory.length(), place as u64, words.len() as u64];
        request.extend(words);
        let bytes: Vec<u8> = request.into_iter().flat_map(u64::to_le_bytes).collect();
        let asked = self.requests.write_all(&bytes);
        let result = asked.and_then(|()| word(&mut self.results));
        let result = result.map_err(|_| ended(&mut self.child))?;
        self.memory.give_back(parts, &spans)?;
        Ok(result)
    }
}

fn spawned(tools: &Path, program: &Path) -> Result<Child, NotRelayed> {
    if !program.is_file() {
        let missing = program.display();
        return Err(NotRelayed(format!(
            "the relay that runs the library is missing ({missing}): build again"
        )));
    }
    let child = emulated(tools, program)
        .stdin(Stdio::piped())
        .stdout(Stdio::piped())
        .spawn();
    child.map_err(|e| {
        NotRelayed(format!(
            "the emulator of Rattle's kit at {} cannot be run ({e}): build again where the kit is",
            tools.display()
        ))
    })
}

/// Only a relay that failed is dropped: it must not stay.
impl Drop for Relay {
    fn drop(&mut self) {
        // One that has ended cannot be stopped: that is no fault.
        let _ = self.child.kill();
        let _ = self.child.wait();
    }
}

fn word(results: &mut ChildStdout) -> std::io::Result<u64> {
    let mut bytes = [0; 8];
    results.read_exact(&mut bytes)?;
    Ok(u64::from_le_bytes(bytes))
}

/// Why there is no result: the relay said nothing more, so it is over.
fn ended(child: &mut Child) -> NotRelayed {
    let _ = child.kill();
    let how = match child.wait() {
        Ok(status) => status.to_string(),
        Err(e) => e.to_string(),
    };
    NotRelayed(format!(
        "the relay that runs the library ended ({how}): if it was killed for want of memory, lend less or free some; else see what stands above, and build again"
    ))
}

#[cfg(test)]
mod tests {
    use super::{PROGRAM, Relay, TOOLS};
    use std::path::Path;

    fn refused(tools: &str, program: &str) -> String {
        let started = Relay::start(Path::new(tools), Path::new(program));
        started.err().expect("it is not there").to_string()
    }

    #[test]
    fn a_missing_emulator_or_relay_is_told() {
        let told = refused("/no/kit", PROGRAM);
        assert!(
            told.starts_with("the emulator of Rattle's kit at /no/kit cannot be run"),
            "{told}"
        );
        assert!(told.ends_with("build again where the kit is"), "{told}");
        let told = refused(TOOLS, "/no/relay");
        assert_eq!(
            told,
            "the relay that runs the library is missing (/no/relay): build again"
        );
        // What is no program for x86-64 ends at once.
        let told = refused(TOOLS, concat!(env!("CARGO_MANIFEST_DIR"), "/Cargo.toml"));
        let ended = "the relay that runs the library ended (exit status: 127):";
        assert!(told.starts_with(ended), "{told}");
    }
}
