//! "The search": from a dynamic jump backward, parent by parent, to the word that it jumps to.

use crate::blocks::{Block, Kind};
use crate::reach::{spread, static_sides};
use crate::rooms::{Refusal, Room, Rooms};
use crate::stack::{Stack, Symbol, run};
use std::collections::HashSet;
use std::rc::Rc;

const MOST_ROUNDS: usize = 128;
const MOST_WEIGHT: usize = 256;

/// What the search found for one path: the block, where it jumps to, the path; and its number, "the energy spent, from the
/// start of the run, when it was made", where that is asked for.
#[derive(Clone, Debug, PartialEq, Eq)]
pub struct Record {
    pub start: usize,
    pub to: Option<usize>,
    pub path: Vec<usize>,
    pub energy: Option<u64>,
}

/// What the search leaves: every record as found, and the energy used.
#[derive(Clone, Debug, PartialEq, Eq)]
pub struct Found {
    pub records: Vec<Record>,
    pub energy: u64,
}

/// A dynamic block whose jump reads its entry stack at this position.
struct Seeker {
    start: usize,
    position: usize,
    own: Rc<Stack>,
}

/// A way into a block: the blocks walked through, nearest first, and the stack that they leave.
struct Parent {
    path: Vec<usize>,
    state: Rc<Stack>,
}

/// What a turn remembers: last block, state and symbol.
type Met = (usize, Rc<Stack>, Symbol);

struct Search<'a> {
    blocks: &'a [Block],
    rooms: &'a mut Rooms,
    limit: u64,
    energy: u64,
    parents: Vec<Vec<Rc<Parent>>>,
    reached: Vec<bool>,
    records: Vec<Record>,
    recorded: HashSet<(Option<usize>, Vec<usize>)>,
    /// Addresses in recorded paths, and symbols in kept copies.
    recorded_addresses: usize,
    kept_cells: usize,
    /// Destinations whose static sides this round's end still has to reach.
    fresh: Vec<usize>,
    /// The turn in hand.
    path: Vec<usize>,
    met: HashSet<Met>,
    turn_cells: usize,
}

/// Resolves what own runs show, in place, and searches for the rest.
pub fn search(
    code: &[u8],
    zero_known: bool,
    blocks: &mut [Block],
    limit: u64,
    rooms: &mut Rooms,
) -> Result<Found, Refusal> {
    let seekers = own_runs(code, zero_known, blocks);
    let addresses = code.len() + 1;
    let mut search = Search {
        blocks,
        rooms,
        limit,
        energy: 0,
        parents: direct_parents(code, zero_known, blocks),
        reached: vec![false; addresses],
        records: Vec::new(),
        recorded: HashSet::new(),
        recorded_addresses: 0,
        kept_cells: 0,
        fresh: Vec::new(),
        path: Vec::new(),
        met: HashSet::new(),
        turn_cells: 0,
    };
    spread(blocks, &mut search.reached, vec![0]);
    search.rounds(&seekers)?;
    Ok(Found {
        records: search.records,
        energy: search.energy,
    })
}

/// "Each dynamic block whose own run ends in Jumpdest becomes static"; Before(p) has to seek.
fn own_runs(code: &[u8], zero_known: bool, blocks: &mut [Block]) -> Vec<Seeker> {
    let mut seekers = Vec::new();
    for block in blocks {
        if !matches!(
            block.kind,
            Kind::DynamicJump { .. } | Kind::DynamicJumpi { .. }
        ) {
            continue;
        }
        let (own, jump) = run(code, zero_known, block.start, block.end);
        match jump {
            Some(Symbol::Jumpdest(to)) => block.kind = resolved(&block.kind, to as usize),
            Some(Symbol::Before(position)) => seekers.push(Seeker {
                start: block.start,
                position,
                own: Rc::new(own),
            }),
            _ => {}
        }
    }
    seekers
}

fn resolved(kind: &Kind, to: usize) -> Kind {
    match *kind {
        Kind::DynamicJumpi { no, .. } => Kind::Jumpi { yes: to, no },
        _ => Kind::Jump { to },
    }
}

/// "In address order: each block with its own stack, for every static side (equal sides once)".
fn direct_parents(code: &[u8], zero_known: bool, blocks: &[Block]) -> Vec<Vec<Rc<Parent>>> {
    let mut parents = vec![Vec::new(); code.len() + 1];
    for block in blocks {
        let mut sides = static_sides(&block.kind);
        sides.dedup();
        if sides.is_empty() {
            continue;
        }
        let (own, _) = run(code, zero_known, block.start, block.end);
        let parent = Rc::new(Parent {
            path: vec![block.start],
            state: Rc::new(own),
        });
        for side in sides {
            parents[side].push(Rc::clone(&parent));
        }
    }
    parents
}

impl Search<'_> {
    fn rounds(&mut self, seekers: &[Seeker]) -> Result<(), Refusal> {
        for _ in 0..MOST_ROUNDS {
            if self.energy >= self.limit {
                break;
            }
            let before = self.records.len();
            self.round(seekers)?;
            if self.records.len() == before {
                break;
            }
            let fresh = std::mem::take(&mut self.fresh);
            spread(self.blocks, &mut self.reached, fresh);
        }
        Ok(())
    }

    /// "A round gives turns to the starts reached when it began."
    fn round(&mut self, seekers: &[Seeker]) -> Result<(), Refusal> {
        let reached = |seeker: &&Seeker| self.reached[seeker.start];
        let turns: Vec<&Seeker> = seekers.iter().filter(reached).collect();
        for seeker in turns {
            if self.energy >= self.limit {
                break;
            }
            self.turn(seeker)?;
        }
        Ok(())
    }

    /// "A turn needs one address in P, then its state in S."
    fn turn(&mut self, seeker: &Seeker) -> Result<(), Refusal> {
        self.met.clear();
        self.path = vec![seeker.start];
        self.rooms.ask(Room::P, 1)?;
        self.turn_cells = seeker.own.cells();
        self.rooms.ask(Room::S, self.kept_cells + self.turn_cells)?;
        self.level(1, seeker.position, &seeker.own)
    }

    /// "A level has a block and a stack position. Its parents are fixed when it opens."
    fn level(&mut self, weight: usize, position: usize, state: &Stack) -> Result<(), Refusal> {
        for parent in self.open_parents() {
            self.energy += 1;
            if self.energy > self.limit {
                break;
            }
            if let [only] = parent.path[..]
                && self.path.contains(&only)
            {
                continue;
            }
            let length = self.path.len();
            self.path.extend(&parent.path);
            self.step(weight, position, state, &parent.state)?;
            self.path.truncate(length);
        }
        Ok(())
    }

    /// Those stored for the path's last block whose own last block is reached, as first stored.
    fn open_parents(&self) -> Vec<Rc<Parent>> {
        let stored = &self.parents[self.last()];
        let reached = |parent: &&Rc<Parent>| parent.path.last().is_some_and(|b| self.reached[*b]);
        stored.iter().filter(reached).cloned().collect()
    }

    fn last(&self) -> usize {
        *self
            .path
            .last()
            .expect("a path has its first block at least")
    }

    /// Steps 3 to 6 for the parent that the path has just grown by.
    fn step(
        &mut self,
        weight: usize,
        position: usize,
        state: &Stack,
        parent: &Stack,
    ) -> Result<(), Refusal> {
        self.rooms.ask(Room::P, self.path.len())?;
        if weight == MOST_WEIGHT {
            return self.record(None);
        }
        let symbol = parent.read(position);
        let new = Rc::new(state.compose(parent));
        let cells = self.turn_cells + new.cells();
        self.rooms.ask(Room::S, self.kept_cells + cells)?;
        if !self.met.insert((self.last(), Rc::clone(&new), symbol)) {
            return Ok(());
        }
        self.turn_cells = cells;
        self.rooms.ask(Room::T, self.met.len())?;
        match symbol {
            Symbol::Before(deeper) => self.level(weight + 1, deeper, &new),
            Symbol::Jumpdest(to) => self.record(Some((to as usize, new))),
            Symbol::Constant(_) | Symbol::Other(_) => self.record(None),
        }
    }

    /// Records the path unless it is recorded with this destination, or with none, already.
    fn record(&mut self, found: Option<(usize, Rc<Stack>)>) -> Result<(), Refusal> {
        let to = found.as_ref().map(|(to, _)| *to);
        if !self.recorded.insert((to, self.path.clone())) {
            return Ok(());
        }
        self.rooms.ask(Room::R, self.records.len() + 1)?;
        self.recorded_addresses += self.path.len();
        self.rooms.ask(Room::Q, self.recorded_addresses)?;
        if let Some((to, state)) = found {
            self.kept_cells += state.cells();
            self.rooms.ask(Room::S, self.kept_cells + self.turn_cells)?;
            self.arrive(to, state);
        }
        self.records.push(Record {
            start: self.path[0],
            to,
            path: self.path.clone(),
            energy: Some(self.energy),
        });
        Ok(())
    }

    /// "A destination found counts as reached for parents at once."
    fn arrive(&mut self, to: usize, state: Rc<Stack>) {
        let path = self.path.clone();
        self.parents[to].push(Rc::new(Parent { path, state }));
        if !self.reached[to] {
            self.reached[to] = true;
            self.fresh.push(to);
        }
    }
}
