//! The families of codes, by name: those of `agree`, and contracts, damaged ones, worst cases, more
//! init code, and codes that are too long.

use codes::Random;
use codes::contract::{Style, sized};
use codes::random::{jumpy, mutant};
use codes::{init, worst};

/// A family of codes that a seed spells out.
#[derive(Clone, Copy)]
pub struct Family {
    pub name: &'static str,
    /// Of a thousand codes that a light family is asked for, those that this one is asked for.
    pub share: u64,
    pub next: fn(&mut Random) -> Vec<u8>,
}

/// The longest code that is deployed, and the longest that deploys it.
const LONGEST: usize = model::LONGEST_DEPLOYED;
const LONGEST_INIT: usize = model::LONGEST_CODE;

/// Those of `agree`, in their order; then these.
const MORE: [Family; 8] = [
    Family {
        name: "damaged",
        share: 100,
        next: damaged,
    },
    Family {
        name: "contracts",
        share: 10,
        next: |random| {
            let bytes = random.between(200, LONGEST);
            sized(random, bytes, Style::Plain)
        },
    },
    Family {
        name: "contracts-longest",
        share: 1,
        next: |random| sized(random, LONGEST, Style::Plain),
    },
    Family {
        name: "contracts-of-calls",
        share: 1,
        next: |random| {
            let bytes = random.between(200, LONGEST);
            sized(random, bytes, Style::Calls)
        },
    },
    Family {
        name: "damaged-contracts",
        share: 5,
        next: |random| {
            let bytes = random.between(200, LONGEST / 2);
            let code = sized(random, bytes, Style::Plain);
            many_damaged(random, code)
        },
    },
    Family {
        name: "worst",
        share: 10,
        next: worst_case,
    },
    Family {
        name: "init-damaged",
        share: 3,
        next: |random| {
            let length = agree::families::long(random);
            let code = init::far(random, length);
            let mut code = mutant(random, &code);
            code.truncate(LONGEST_INIT);
            code
        },
    },
    Family {
        name: "too-long",
        share: 3,
        next: too_long,
    },
];

const AGREED: usize = agree::families::FAMILIES.len();

/// All families.
pub const FAMILIES: [Family; AGREED + MORE.len()] = {
    let mut all = [MORE[0]; AGREED + MORE.len()];
    let mut at = 0;
    while at < all.len() {
        all[at] = if at < AGREED {
            let family = &agree::families::FAMILIES[at];
            Family {
                name: family.name,
                share: family.share,
                next: family.next,
            }
        } else {
            MORE[at - AGREED]
        };
        at += 1;
    }
    all
};

/// A small contract with some bytes changed, put in, taken out or said twice.
fn damaged(random: &mut Random) -> Vec<u8> {
    let bytes = random.between(60, 600);
    let code = sized(random, bytes, Style::Plain);
    mutant(random, &code)
}

fn many_damaged(random: &mut Random, mut code: Vec<u8>) -> Vec<u8> {
    for _ in 0..random.between(1, 4) {
        code = mutant(random, &code);
    }
    code.truncate(LONGEST);
    code
}

/// The worst cases, at sizes that the Rust answers in some hundredths of a second.
fn worst_case(random: &mut Random) -> Vec<u8> {
    let code = match random.below(5) {
        0 => worst::fan(random.between(1, 200)),
        1 => worst::diamonds(random.between(1, 9)),
        2 => worst::doubling(random.between(1, 11)),
        3 => worst::row(random.between(1, 140)),
        _ => worst::fan(random.between(1, 20)),
    };
    if random.percent(30) {
        mutant(random, &code)
    } else {
        code
    }
}

/// Too long by a byte, by up to some hundred, or about as long as two bytes can say.
fn too_long(random: &mut Random) -> Vec<u8> {
    let length = match random.below(4) {
        0 => LONGEST_INIT + 1,
        1 => random.between(65_535, 65_537),
        _ => random.between(LONGEST_INIT + 2, 50_000),
    };
    jumpy(random, length)
}
