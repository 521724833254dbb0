//! Contracts: the library's call, the binding's map or text and the Rust, one after the other.

use std::hint::black_box;
use std::time::{Duration, Instant};

use aznifrem::{HIGHEST_LIMIT, LONGEST_CODE, Mapper};
use codes::Random;
use codes::contract::{Style, sized};

use crate::heap::peak;
use crate::port::Rooms;
use crate::stats::{highest, kibibytes, median, milliseconds, ratio_cell};

/// A class of contracts.
pub struct Class {
    pub name: &'static str,
    bytes: usize,
    style: Style,
    /// Whether both sides also make the JSON text of the blocks.
    texted: bool,
}

pub const CLASSES: [Class; 7] = [
    Class {
        name: "1k",
        bytes: 1_000,
        style: Style::Plain,
        texted: false,
    },
    Class {
        name: "6k",
        bytes: 6_000,
        style: Style::Plain,
        texted: false,
    },
    Class {
        name: "24k",
        bytes: 24_576,
        style: Style::Plain,
        texted: false,
    },
    Class {
        name: "24k of calls",
        bytes: 24_576,
        style: Style::Calls,
        texted: false,
    },
    Class {
        name: "48k, init code",
        bytes: LONGEST_CODE,
        style: Style::Plain,
        texted: false,
    },
    Class {
        name: "6k, and text",
        bytes: 6_000,
        style: Style::Plain,
        texted: true,
    },
    Class {
        name: "24k, and text",
        bytes: 24_576,
        style: Style::Plain,
        texted: true,
    },
];

/// "At or below 0.3 on the contracts."
const GOAL: f64 = 0.3;

const CEILING: usize = 1 << 30;
const FEWEST_TURNS: usize = 3;
const MOST_TURNS: usize = 25;
const TIME_A_CODE: Duration = Duration::from_millis(300);

/// The medians of one code.
struct Times {
    call: f64,
    map: f64,
    rust: f64,
}

/// What was measured of a class.
pub struct Measured {
    times: Vec<Times>,
    longest: usize,
    lent: usize,
    peaks: Vec<f64>,
}

impl Class {
    /// An error says which contract the library does not answer.
    pub fn measure(&self, count: usize, seed: u64) -> Result<Measured, String> {
        let mut random = Random::new(seed.wrapping_add(self.bytes as u64));
        let draw = |_| sized(&mut random, self.bytes, self.style);
        let codes: Vec<Vec<u8>> = (0..count).map(draw).collect();
        let mut rooms = Rooms::new(self.texted);
        let mut mapper = Mapper::new();
        for (at, code) in codes.iter().enumerate() {
            answered(code, &mut rooms, &mut mapper, CEILING)
                .map_err(|sentence| format!("contract {at} of seed {seed}: {sentence}"))?;
        }
        let lent = codes.iter().map(|code| rooms.lent(code.len()));
        let lent = lent.max().unwrap_or(0);
        let heap = |code: &Vec<u8>| peak(|| oracle::blocks(code)) as f64;
        let peaks = codes.iter().map(heap).collect();
        let times = codes
            .iter()
            .map(|code| self.timed(code, &mut rooms, &mut mapper))
            .collect();
        Ok(Measured {
            times,
            longest: codes.iter().map(Vec::len).max().unwrap_or(0),
            lent,
            peaks,
        })
    }

    /// The three in turn, over and over: what disturbs one disturbs the others as well.
    fn timed(&self, code: &[u8], rooms: &mut Rooms, mapper: &mut Mapper) -> Times {
        let (mut call, mut map, mut rust) = (Vec::new(), Vec::new(), Vec::new());
        let begun = Instant::now();
        while call.len() < FEWEST_TURNS
            || (call.len() < MOST_TURNS && begun.elapsed() < TIME_A_CODE)
        {
            call.push(time(|| rooms.call(code)));
            if self.texted {
                rust.push(time(|| agree::json::text(oracle::blocks(code).values())));
                map.push(time(|| mapper.json(code, HIGHEST_LIMIT).map(str::len)));
            } else {
                rust.push(time(|| oracle::blocks(code)));
                map.push(time(|| mapper.map(code, HIGHEST_LIMIT)));
            }
        }
        Times {
            call: median(&call),
            map: median(&map),
            rust: median(&rust),
        }
    }
}

/// Grows the rooms for a code; an error if the library does not answer it.
fn answered(
    code: &[u8],
    rooms: &mut Rooms,
    mapper: &mut Mapper,
    ceiling: usize,
) -> Result<(), String> {
    rooms
        .grow_for(code, ceiling)
        .map_err(|number| format!("the call is refused {number} within {ceiling} bytes"))?;
    let map = mapper.map(code, HIGHEST_LIMIT);
    let map = map.map_err(|error| error.to_string())?;
    // Times of another map, or of another text, would say nothing.
    let theirs = oracle::blocks(code);
    assert_eq!(map.blocks.len(), theirs.len());
    let text = mapper.json(code, HIGHEST_LIMIT);
    assert_eq!(
        text.as_deref(),
        Ok(agree::json::text(theirs.values()).as_str())
    );
    Ok(())
}

/// Milliseconds of a run; its result is dropped within them, as a caller would have to.
fn time<T>(run: impl FnOnce() -> T) -> f64 {
    let begun = Instant::now();
    drop(black_box(run()));
    milliseconds(begun.elapsed())
}

impl Measured {
    /// The median over the codes of call / Rust, if there is a code.
    fn ratio(&self) -> Option<f64> {
        let ratios = self.ratios(|times| times.call);
        (!ratios.is_empty()).then(|| median(&ratios))
    }

    /// The goal is missed by a ratio over it, and by none: on the contracts both must answer.
    pub fn misses(&self) -> bool {
        self.ratio().is_none_or(|ratio| ratio > GOAL)
    }

    fn ratios(&self, ours: fn(&Times) -> f64) -> Vec<f64> {
        let ratio = |times: &Times| ours(times) / times.rust;
        self.times.iter().map(ratio).collect()
    }

    fn middle(&self, of: fn(&Times) -> f64) -> f64 {
        let values: Vec<f64> = self.times.iter().map(of).collect();
        median(&values)
    }

    /// A line of the table.
    pub fn row(&self, name: &str) -> String {
        format!(
            "| {name} | {} | {} | {:.3} | {:.3} | {} | {:.2} | {:.2} | {} | {} |",
            self.times.len(),
            self.longest,
            self.middle(|times| times.call),
            self.middle(|times| times.rust),
            ratio_cell(self.ratio()),
            highest(&self.ratios(|times| times.call)),
            median(&self.ratios(|times| times.map)),
            kibibytes(self.lent),
            kibibytes(highest(&self.peaks) as usize)
        )
    }
}

#[cfg(test)]
mod tests {
    use super::{Mapper, Measured, Rooms, Times, answered};

    fn of(times: &[(f64, f64)]) -> Measured {
        let one = |(call, rust): &(f64, f64)| Times {
            call: *call,
            map: *call,
            rust: *rust,
        };
        Measured {
            times: times.iter().map(one).collect(),
            longest: 0,
            lent: 0,
            peaks: Vec::new(),
        }
    }

    #[test]
    fn a_median_over_the_goal_misses_it() {
        assert!(!of(&[(3.0, 10.0), (9.0, 10.0), (1.0, 10.0)]).misses());
        assert!(of(&[(3.1, 10.0), (9.0, 10.0), (1.0, 10.0)]).misses());
    }

    #[test]
    fn no_contract_at_all_misses_the_goal() {
        assert!(of(&[]).misses());
        let row = of(&[]).row("x");
        assert!(
            row.starts_with("| x | 0 | 0 | 0.000 | 0.000 | - |"),
            "{row}"
        );
    }

    #[test]
    fn a_contract_that_is_refused_is_said_to_be() {
        let code = codes::worst::diamonds(9);
        let within = |ceiling| answered(&code, &mut Rooms::new(true), &mut Mapper::new(), ceiling);
        assert_eq!(within(1 << 30), Ok(()));
        let sentence = within(1 << 10).expect_err("a kibibyte is too little");
        assert!(sentence.starts_with("the call is refused "), "{sentence}");
    }
}
