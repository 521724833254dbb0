//! The families of codes that are held against each other, by name.

use codes::contract::Style;
use codes::corners::CORNERS;
use codes::init;
use codes::random::{Random, jumpy, mutant, noise};
use codes::solidity::{self, Shape};
use codes::woven;

/// A family of codes that a seed spells out.
pub struct Family {
    pub name: &'static str,
    /// Of a thousand codes that a light family is asked for, those that this one is asked for.
    pub share: u64,
    pub next: fn(&mut Random) -> Vec<u8>,
}

pub const FAMILIES: [Family; 13] = [
    Family {
        name: "noise",
        share: 1000,
        next: |random| {
            let length = random.between(1, 60);
            noise(random, length)
        },
    },
    Family {
        name: "jumpy",
        share: 1000,
        next: |random| {
            let length = random.between(3, 40);
            jumpy(random, length)
        },
    },
    Family {
        name: "jumpy-long",
        share: 1000,
        next: |random| {
            let length = random.between(40, 250);
            jumpy(random, length)
        },
    },
    Family {
        name: "mutants",
        share: 500,
        next: |random| {
            let corner = random.pick(&CORNERS);
            let corner = codes::from_hex(corner).expect("the corners are hexadecimal");
            mutant(random, &corner)
        },
    },
    Family {
        name: "woven",
        share: 200,
        next: |random| {
            let (blocks, steps) = (random.between(2, 6), random.between(1, 4));
            woven::code(random, blocks, steps)
        },
    },
    Family {
        name: "woven-long",
        share: 100,
        next: |random| {
            let (blocks, steps) = (random.between(5, 16), random.between(1, 5));
            woven::code(random, blocks, steps)
        },
    },
    Family {
        name: "calls-small",
        share: 1000,
        next: |random| {
            let shape = Shape::small(random);
            solidity::code(random, shape)
        },
    },
    Family {
        name: "calls-middle",
        share: 500,
        next: |random| {
            let shape = Shape::middle(random);
            solidity::code(random, shape)
        },
    },
    Family {
        name: "calls-large",
        share: 20,
        next: |random| {
            let shape = Shape::large(random);
            solidity::code(random, shape)
        },
    },
    Family {
        name: "zeros",
        share: 500,
        next: |random| {
            let zeros = random.between(1, 4);
            let shape = Shape::middle(random);
            solidity::code(random, Shape { zeros, ..shape })
        },
    },
    Family {
        name: "clz",
        share: 500,
        next: |random| {
            let shape = Shape::small(random);
            let code = match random.below(3) {
                0 => jumpy(random, 60),
                1 => woven::code(random, 5, 3),
                _ => solidity::code(random, shape),
            };
            with_clz(random, code)
        },
    },
    Family {
        name: "far",
        share: 10,
        next: |random| {
            let length = long(random);
            init::far(random, length)
        },
    },
    Family {
        name: "init",
        share: 1,
        next: |random| {
            let length = long(random);
            match random.below(10) {
                0 => init::contract(random, length, Style::Calls),
                1..=4 => init::deployer(random, length),
                _ => init::contract(random, length, Style::Plain),
            }
        },
    },
];

/// The length of a code that is longer than what is deployed, at its borders at times: "code over 24,576 bytes" and at
/// most 49,152; or of one that is just not.
pub fn long(random: &mut Random) -> usize {
    let (border, longest) = (model::LONGEST_DEPLOYED, model::LONGEST_CODE);
    match random.below(10) {
        0 => border,
        1 => border + 1,
        2 => longest - 1,
        3 => longest,
        _ => random.between(border + 1, longest),
    }
}

/// The code with CLZ in the place of some of its instructions.
fn with_clz(random: &mut Random, mut code: Vec<u8>) -> Vec<u8> {
    let starts: Vec<usize> = model::ops::walk(&code, 0).map(|(at, _)| at).collect();
    for at in starts {
        if random.percent(10) {
            code[at] = 0x1e;
        }
    }
    code
}

/// The family of this name; a name that none has is a fault of the program.
pub fn named(name: &str) -> &'static Family {
    let found = FAMILIES.iter().find(|family| family.name == name);
    found.unwrap_or_else(|| panic!("no family of codes is called '{name}'"))
}
