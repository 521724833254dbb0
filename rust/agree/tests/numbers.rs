//! Document 02, No. 5: the model's numbers are those that a copy of the Rust tells.

use agree::ENOUGH;
use agree::families::FAMILIES;
use codes::{Random, exhaustive};
use counted::Told;
use model::HIGHEST_LIMIT;

/// How many codes were held against the copy, and how many records they have.
#[derive(Debug, Default)]
struct Held {
    codes: u64,
    records: usize,
}

impl Held {
    /// A code that is not too heavy.
    fn add(&mut self, code: &[u8]) {
        let Ok(map) = model::map_by(0, 0, &ENOUGH, HIGHEST_LIMIT, code) else {
            return;
        };
        let number = |record: &model::Record| record.energy.expect("choice 0 asks for numbers");
        let record = |record: &model::Record| (record.path.clone(), number(record));
        let ours = Told {
            records: map.records.iter().map(record).collect(),
            energy: map.energy,
        };
        assert_eq!(ours, counted::told(code), "{}", codes::to_hex(code));
        self.codes += 1;
        self.records += ours.records.len();
    }
}

#[test]
fn on_every_code_of_six_bytes_over_jumps() {
    let mut held = Held::default();
    exhaustive::each(&exhaustive::JUMPS, 6, |code| held.add(code));
    assert!(held.codes >= 999_000, "{held:?}");
}

#[test]
fn on_seeded_codes() {
    let mut held = Held::default();
    for (at, family) in FAMILIES.iter().enumerate() {
        let mut random = Random::new(5000 + at as u64);
        for _ in 0..25_000 * family.share / 1000 {
            held.add(&(family.next)(&mut random));
        }
    }
    assert!(held.codes >= 100_000 && held.records >= 100_000, "{held:?}");
}
