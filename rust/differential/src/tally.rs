//! What came of many codes.

use std::time::Duration;

use crate::check::{Checker, Verdict};
use crate::mismatch::Mismatch;
use crate::shrink::{MOST_TIME, smaller};

/// Mismatches of a line that are written out; the others are counted.
const WRITTEN_OUT: usize = 5;
/// A longer code is not printed whole; its seed spells it out.
const LONGEST_PRINTED: usize = 1_000;

/// How many codes came out which way.
#[derive(Clone, Debug, Default)]
pub struct Tally {
    pub same: u64,
    pub heavy: u64,
    pub long: u64,
    pub different: u64,
    /// Of the same, those in which PUSH0 stands as an instruction.
    pub zeros: u64,
    /// The first mismatches, each with its origin and a smaller code.
    pub written_out: Vec<String>,
    /// For how long each is made smaller, if not for the usual time.
    pub time: Option<Duration>,
}

impl Tally {
    /// Checks one code; the origin says where it is from.
    pub fn add(&mut self, checker: &Checker, code: &[u8], seed: u64, origin: &str) {
        match checker.check(code, seed) {
            Ok(Verdict::Same) => {
                self.same += 1;
                self.zeros += u64::from(model::ops::walk(code, 0).any(|(_, byte)| byte == 0x5f));
            }
            Ok(Verdict::TooHeavy) => self.heavy += 1,
            Ok(Verdict::TooLong) => self.long += 1,
            Err(mismatch) => {
                self.different += 1;
                if self.written_out.len() < WRITTEN_OUT {
                    let time = self.time.unwrap_or(MOST_TIME);
                    let text = written_out(checker, code, seed, (origin, &mismatch), time);
                    self.written_out.push(text);
                }
            }
        }
    }

    /// All codes that were checked.
    pub fn codes(&self) -> u64 {
        self.same + self.heavy + self.long + self.different
    }

    pub fn join(&mut self, other: Tally) {
        self.same += other.same;
        self.heavy += other.heavy;
        self.long += other.long;
        self.different += other.different;
        self.zeros += other.zeros;
        self.written_out.extend(other.written_out);
    }
}

fn written_out(
    checker: &Checker,
    code: &[u8],
    seed: u64,
    (origin, mismatch): (&str, &Mismatch),
    time: Duration,
) -> String {
    let shows = |code: &[u8]| {
        let found = checker.check(code, seed).err();
        found.is_some_and(|found| found.kind == mismatch.kind)
    };
    let small = smaller(time, code, shows);
    let last = checker.check(&small, seed).err();
    let sentence = last.map_or(mismatch.sentence.clone(), |found| found.sentence);
    let whole = if code.len() > LONGEST_PRINTED {
        format!("{} bytes", code.len())
    } else {
        codes::to_hex(code)
    };
    format!(
        "{origin}: {}\n  code     {whole}\n  smaller  {}  (--code HEX --seed {seed} checks it again)\n  there    {sentence}",
        mismatch.kind,
        codes::to_hex(&small)
    )
}
