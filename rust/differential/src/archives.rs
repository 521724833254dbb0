//! Archives of stored maps, whole, cut and damaged: the library's salvage against the model's.

use codes::Random;
use model::{Salvaged, salvage};

use crate::damage::damaged;
use crate::mismatch::{Mismatch, mismatch};
use crate::stored::answers;

/// The library's call, or what stands in for it in a test: archive, output, report.
pub type Salvager = fn(&[u8], &mut [u8], &mut [u8]) -> u64;

/// "Refusals: 18, output room short, nothing written."
const SHORT: u64 = 18;
/// The report's bytes: four numbers.
const REPORT: usize = 32;
/// All prefixes of an archive of at most so many bytes are tried.
const BRIEF: usize = 300;
/// What a lent byte holds before the call.
const OLD: u8 = 0xa5;

/// What came of many archives.
#[derive(Clone, Debug, Default, PartialEq, Eq)]
pub struct Archives {
    /// Those that came out equal, and those of which something was dropped.
    pub whole: u64,
    pub cut: u64,
    /// Maps that were copied, of both.
    pub maps: u64,
    pub different: u64,
    /// The first mismatches.
    pub written_out: Vec<String>,
}

impl Archives {
    /// Checks one archive.
    pub fn add(&mut self, salvager: Salvager, archive: &[u8]) {
        match check(salvager, archive) {
            Ok(salvaged) => {
                *(if salvaged.dropped == 0 {
                    &mut self.whole
                } else {
                    &mut self.cut
                }) += 1;
                self.maps += salvaged.maps as u64;
            }
            Err(found) => {
                self.different += 1;
                if self.written_out.len() < 5 {
                    let hex = codes::to_hex(archive);
                    let text = format!("{}: {}\n  archive {hex}", found.kind, found.sentence);
                    self.written_out.push(text);
                }
            }
        }
    }

    pub fn count(&self) -> u64 {
        self.whole + self.cut + self.different
    }
}

/// At least so many archives: whole ones of none to four maps, each prefix of the brief ones, and damaged ones.
pub fn run(salvager: Salvager, count: u64, seed: u64) -> Archives {
    let mut archives = Archives::default();
    let mut random = Random::new(seed);
    archives.add(salvager, &[]);
    while archives.count() < count {
        let maps = answers(&mut random);
        for _ in 0..40 {
            let some: Vec<&[u8]> = (0..random.below(5))
                .map(|_| &maps[random.below(maps.len())][..])
                .collect();
            let whole = some.concat();
            archives.add(salvager, &whole);
            let room = count.saturating_sub(archives.count()) as usize / 2;
            let cuts = (0..whole.len()).filter(|_| whole.len() <= BRIEF);
            cuts.take(room)
                .for_each(|length| archives.add(salvager, &whole[..length]));
            for _ in 0..20 {
                archives.add(salvager, &spoilt(&mut random, &maps, &whole));
            }
        }
    }
    archives
}

/// The archive with something wrong anywhere in it, or with a map in it that is wrong; or cut.
fn spoilt(random: &mut Random, maps: &[Vec<u8>], whole: &[u8]) -> Vec<u8> {
    match random.below(4) {
        0 => damaged(random, &[whole.to_vec()]),
        1 => [whole, &damaged(random, maps), whole].concat(),
        2 => [&damaged(random, maps), whole].concat(),
        _ => whole[..random.below(whole.len() + 1)].to_vec(),
    }
}

/// Holds the call against the model, with rooms that are enough and with one that is short; gives what the model says.
pub fn check(salvager: Salvager, archive: &[u8]) -> Result<Salvaged, Mismatch> {
    let said = salvage(archive);
    let need = said.copied.len();
    for (room, report) in [(need, REPORT), (archive.len() + 3, REPORT + 5)] {
        lent(salvager, archive, room, report, Some(&said))?;
    }
    if need > 0 {
        lent(salvager, archive, need - 1, REPORT, None)?;
    }
    lent(salvager, archive, need, REPORT - 1, None)?;
    Ok(said)
}

/// One call: its number, and every lent byte. Nothing is written where nothing is expected.
fn lent(
    salvager: Salvager,
    archive: &[u8],
    room: usize,
    report_room: usize,
    expected: Option<&Salvaged>,
) -> Result<(), Mismatch> {
    let (mut out, mut report) = (vec![OLD; room], vec![OLD; report_room]);
    let (mut wanted, mut printed) = (out.clone(), report.clone());
    if let Some(said) = expected {
        wanted[..said.copied.len()].copy_from_slice(&said.copied);
        let numbers = [said.maps, said.copied.len(), said.dropped, said.offset];
        for (place, number) in printed.chunks_exact_mut(8).zip(numbers) {
            place.copy_from_slice(&(number as u64).to_le_bytes());
        }
    }
    let number = salvager(archive, &mut out, &mut report);
    let wants = if expected.is_some() { 0 } else { SHORT };
    if number != wants {
        let sentence = format!("it gives {number}, the model {wants}; out has {room} bytes");
        return Err(mismatch("number", sentence));
    }
    if report != printed {
        let sentence = format!("it prints {report:?}, the model {printed:?}");
        return Err(mismatch("report", sentence));
    }
    if out != wanted {
        let sentence = format!("it writes {out:?}, the model {wanted:?}");
        return Err(mismatch("output", sentence));
    }
    Ok(())
}
