//! The inspector: maps of contracts, and a map that is made to be slow (docs/INSPECTOR.md).

use std::time::Instant;

use aznifrem::{Mapper, inspect_from};
use codes::Random;
use codes::contract::{Style, sized};
use codes::hostile::to_and_fro;

use crate::stats::{median, milliseconds};

const TURNS: usize = 5;

pub const COLUMNS: &str = "\
| inspected | code, bytes | map, bytes | not right | call, ms |
|---|---|---|---|---|";

/// A map and its code.
pub struct Case {
    name: String,
    code: Vec<u8>,
    map: Vec<u8>,
}

/// Contracts as answered; then the same 7s and twice the places, and twice of both.
pub fn cases(seed: u64) -> Result<Vec<Case>, String> {
    let mut cases = Vec::new();
    let mut random = Random::new(seed);
    for (name, bytes, style) in [
        ("6k", 6_000, Style::Plain),
        ("24k", 24_576, Style::Plain),
        ("24k of calls", 24_576, Style::Calls),
    ] {
        let code = sized(&mut random, bytes, style);
        let map = Mapper::new()
            .entries(&code, aznifrem::HIGHEST_LIMIT)
            .map_err(|error| format!("{name}: {error}"))?
            .to_vec();
        cases.push(Case {
            name: name.into(),
            code,
            map,
        });
    }
    for (sevens, places) in [(2_000, 2_000), (2_000, 4_000), (4_000, 4_000)] {
        let (code, map) = to_and_fro(sevens, places);
        let name = format!("{sevens} 7s, {places} places");
        cases.push(Case { name, code, map });
    }
    Ok(cases)
}

impl Case {
    /// The whole map at once, with a row for each entry that is not right.
    pub fn row(&self) -> String {
        let mut w = vec![0; 64 * self.code.len() + 256];
        let mut rows = vec![0; 2 * self.map.len()];
        let mut turn = || {
            rows.fill(0);
            let begun = Instant::now();
            inspect_from(0, 0, &self.code, &self.map, &mut w, &mut rows);
            milliseconds(begun.elapsed())
        };
        let times: Vec<f64> = (0..TURNS).map(|_| turn()).collect();
        let wrong = rows.chunks_exact(16).take_while(|row| row[..8] != [0; 8]);
        format!(
            "| {} | {} | {} | {} | {:.2} |",
            self.name,
            self.code.len(),
            self.map.len(),
            wrong.count(),
            median(&times)
        )
    }
}
