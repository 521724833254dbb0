//! The Rust of docs/RUST.md is these files, and they run.

use std::collections::BTreeMap;

use aznifrem::Mapper;
use codes::Random;
use codes::random::jumpy;
use codes::solidity::{Shape, code};

const PAGE: &str = include_str!("../../../docs/RUST.md");
const ONE: &str = include_str!("../examples/one.rs");
const THREADS: &str = include_str!("../examples/threads.rs");
const BEFORE: &str = include_str!("pages/evmole.rs");
const AFTER: &str = include_str!("../examples/from_evmole.rs");

/// The blocks of the page that are marked so.
fn marked(mark: &str) -> Vec<String> {
    let mut blocks = Vec::new();
    let mut lines = PAGE.lines();
    while lines.by_ref().any(|line| line == format!("```{mark}")) {
        let block = lines.by_ref().take_while(|line| *line != "```");
        blocks.push(block.map(|line| format!("{line}\n")).collect());
    }
    blocks
}

/// One side of a block that shows a change line by line.
fn side(change: &str, without: char) -> String {
    let kept = change.lines().filter(|line| !line.starts_with(without));
    kept.map(|line| format!("{}\n", line.get(1..).unwrap_or_default()))
        .collect()
}

#[test]
fn the_page_shows_the_examples() {
    assert_eq!(marked("rust"), [ONE, THREADS]);
    let changes = marked("diff");
    let [change] = &changes[..] else {
        panic!("the page shows one change, not {}", changes.len());
    };
    assert_eq!(side(change, '+'), BEFORE);
    assert_eq!(side(change, '-'), AFTER);
}

/// What evmole's crate gives its callers, over its own files in `oracle`.
mod evmole {
    pub use oracle::control_flow_graph;
    use oracle::control_flow_graph::ControlFlowGraph;

    pub struct ContractInfoArgs<'a>(&'a [u8]);

    pub struct Contract {
        pub control_flow_graph: Option<ControlFlowGraph>,
    }

    impl<'a> ContractInfoArgs<'a> {
        pub fn new(code: &'a [u8]) -> ContractInfoArgs<'a> {
            ContractInfoArgs(code)
        }

        pub fn with_control_flow_graph(self) -> ContractInfoArgs<'a> {
            self
        }
    }

    pub fn contract_info(asked: ContractInfoArgs) -> Contract {
        let blocks = oracle::blocks(asked.0);
        let control_flow_graph = Some(ControlFlowGraph { blocks });
        Contract { control_flow_graph }
    }
}

mod before {
    use super::evmole;
    include!("pages/evmole.rs");

    pub fn run() {
        main();
    }

    pub fn found(code: &[u8]) -> Vec<(usize, usize)> {
        jumps(code)
    }
}

mod after {
    include!("../examples/from_evmole.rs");

    pub fn run() {
        main().expect("it has a map");
    }

    pub fn found(mapper: &mut Mapper, code: &[u8]) -> Vec<(usize, usize)> {
        jumps(mapper, code).expect("it has a map")
    }
}

mod others {
    pub mod one {
        include!("../examples/one.rs");

        pub fn run() {
            main().expect("it has a map");
        }
    }

    pub mod threads {
        include!("../examples/threads.rs");

        pub fn run() {
            main().expect("they have maps");
        }
    }
}

#[test]
fn the_examples_run() {
    others::one::run();
    others::threads::run();
    before::run();
    after::run();
}

/// Before the change and after it a caller has the same jumps.
#[test]
fn the_change_changes_no_answer() {
    let mut random = Random::new(28);
    let mut mapper = Mapper::new();
    let mut lengths: BTreeMap<bool, usize> = BTreeMap::new();
    for number in 0..300 {
        let code = if number % 2 == 0 {
            let shape = Shape::small(&mut random);
            code(&mut random, shape)
        } else {
            jumpy(&mut random, 60)
        };
        let found = after::found(&mut mapper, &code);
        assert_eq!(before::found(&code), found);
        *lengths.entry(number % 2 == 0).or_default() += found.len();
    }
    assert!(lengths.values().all(|jumps| *jumps > 100), "{lengths:?}");
}
