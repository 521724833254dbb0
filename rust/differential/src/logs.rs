//! Logs of program counters, in the map by construction and damaged: the library's follower against the model's.

use codes::contract::{Style, sized};
use codes::random::jumpy;
use codes::{Random, from_hex, init, woven};
use model::follow::destinations;
use model::ops::row;
use model::{Block, Held, NotFollowed, answer, follow_bytes};

use crate::damage::damaged;
use crate::mismatch::{Mismatch, mismatch};

/// The library's follower, or what stands in for it in a test: map, code, log, work, counts.
pub type Follower = fn(&[u8], &[u8], &[u8], &mut [u8], &mut [u8]) -> u64;

/// What came of many logs.
#[derive(Clone, Debug, Default, PartialEq, Eq)]
pub struct Logs {
    /// All steps are in the map; the log leaves it; 12, 14, 15.
    pub whole: u64,
    pub left: u64,
    pub refused: [u64; 3],
    pub steps: u64,
    pub different: u64,
    /// The first mismatches.
    pub written_out: Vec<String>,
}

/// One call: a stored map, its code, a log, and how many bytes are lent for work and counts.
#[derive(Clone, Debug)]
pub struct Call {
    pub map: Vec<u8>,
    pub code: Vec<u8>,
    pub log: Vec<u8>,
    pub work: usize,
    pub counts: usize,
    /// The log is the stepper's own, and nothing is damaged: all its steps are in the map.
    pub sound: bool,
}

/// So many logs.
pub fn run(follower: Follower, count: u64, seed: u64) -> Logs {
    let mut logs = Logs::default();
    let mut random = Random::new(seed);
    let mut done = 0;
    while done < count {
        let maps = maps(&mut random);
        for _ in 0..2_000.min(count - done) {
            let call = call(&mut random, &maps);
            logs.add(follower, &call);
            done += 1;
        }
    }
    logs
}

impl Logs {
    /// Checks one call.
    pub fn add(&mut self, follower: Follower, call: &Call) {
        self.steps += call.log.len() as u64 / 8;
        match check(follower, call) {
            Ok(Ok(place)) if place == call.log.len() / 8 => self.whole += 1,
            Ok(Ok(place)) if call.sound => {
                let sentence =
                    format!("a log that is in the map by construction leaves it at {place}");
                self.tell(&mismatch("place", sentence), call);
            }
            Ok(Ok(_)) => self.left += 1,
            Ok(Err(NotFollowed::BadMap(_))) => self.refused[0] += 1,
            Ok(Err(NotFollowed::UnevenLog)) => self.refused[1] += 1,
            Ok(Err(NotFollowed::NoRoom)) => self.refused[2] += 1,
            Err(found) => self.tell(&found, call),
        }
    }

    fn tell(&mut self, found: &Mismatch, call: &Call) {
        self.different += 1;
        if self.written_out.len() < 5 {
            let text = format!("{}: {} in {call:?}", found.kind, found.sentence);
            self.written_out.push(text);
        }
    }
}

/// Holds the follower against the model, every lent byte too; gives the place, or the refusal.
pub fn check(follower: Follower, call: &Call) -> Result<Result<usize, NotFollowed>, Mismatch> {
    let (mut work, mut counts) = (vec![0xaa; call.work], vec![0xbb; call.counts]);
    let given = follower(&call.map, &call.code, &call.log, &mut work, &mut counts);
    let said = follow_bytes(&call.map, &call.code, &call.log, call.counts);
    let mut wanted = vec![0xbb; call.counts];
    let (number, filled) = match &said {
        Ok(followed) => {
            for (eight, count) in wanted.chunks_exact_mut(8).zip(&followed.counts) {
                eight.copy_from_slice(&count.to_le_bytes());
            }
            (256 * followed.place as u64, 0)
        }
        Err(NotFollowed::BadMap(offset)) => (12 + 256 * *offset as u64, 0xaa),
        Err(NotFollowed::UnevenLog) => (14, 0xaa),
        Err(NotFollowed::NoRoom) => (15, 0xaa),
    };
    if given != number {
        let sentence = format!("the follower gives {given}, the model {number}");
        return Err(mismatch("number", sentence));
    }
    if counts != wanted {
        return Err(mismatch("counts", format!("{counts:?} against {wanted:?}")));
    }
    if work.iter().any(|&byte| byte != filled) {
        return Err(mismatch("work", format!("not all bytes are {filled}")));
    }
    Ok(said.map(|followed| followed.place))
}

/// Seconds to follow a log of so many steps through a ring of so many blocks, each with a jump to the next; with an index, or without.
pub fn ring(follower: Follower, blocks: usize, steps: usize, index: bool) -> f64 {
    let next = |block: usize| 5 * ((block + 1) % blocks);
    let jump = |block| {
        [
            0x5b,
            0x61,
            (next(block) >> 8) as u8,
            next(block) as u8,
            0x56,
        ]
    };
    let code: Vec<u8> = (0..blocks).flat_map(jump).collect();
    let map = answer(&agree::ENOUGH, 0, &code);
    let pcs = (0..blocks).flat_map(|block| [0, 1, 4].map(|pc| 5 * block as u64 + pc));
    let log = pcs.cycle().take(steps).flat_map(u64::to_le_bytes);
    let log: Vec<u8> = log.collect();
    let mut work = vec![0; if index { 16 * code.len() } else { 0 }];
    let begun = std::time::Instant::now();
    let given = follower(
        map.written(),
        &code,
        &log,
        &mut work,
        &mut vec![0; 16 * blocks],
    );
    let seconds = begun.elapsed().as_secs_f64();
    assert_eq!(given, 256 * steps as u64, "all steps are in the map");
    seconds
}

/// A function that so many callers share: first a jump to each of them, then the callers in a ring, each of which the
/// function returns to from the one before.
pub fn shared_code(callers: usize) -> Vec<u8> {
    let two = |address: usize| [(address >> 8) as u8, address as u8];
    let at = |caller: usize| 5 * callers + 8 * caller;
    let jump_to = |caller: usize| {
        let [high, low] = two(at(caller));
        [0x30, 0x61, high, low, 0x57]
    };
    let [high, low] = two(at(callers) + 5);
    let call = |caller: usize| {
        let [back, here] = two(at(caller + 1));
        [0x5b, 0x61, back, here, 0x61, high, low, 0x56]
    };
    let mut code: Vec<u8> = (0..callers).flat_map(jump_to).collect();
    code.extend((0..callers).flat_map(call));
    let [high, low] = two(at(0));
    code.extend([0x5b, 0x61, high, low, 0x56, 0x5b, 0x56]);
    code
}

/// What is lent for an index.
#[derive(Clone, Copy, Debug, PartialEq, Eq)]
pub enum Index {
    Nothing,
    Blocks,
    Edges,
}

/// Seconds to follow a log of so many steps through a function that so many callers share.
pub fn shared(follower: Follower, callers: usize, steps: usize, index: Index) -> f64 {
    let code = shared_code(callers);
    let map = answer(&agree::ENOUGH, model::HIGHEST_LIMIT, &code);
    assert_eq!(map.number(), 0, "the map is made");
    let at = |caller: usize| (5 * callers + 8 * caller) as u64;
    let function = at(callers) + 5;
    let call = |caller: usize| {
        let at = at(caller);
        [at, at + 1, at + 4, at + 7, function, function + 1]
    };
    let last = at(callers);
    let ring: Vec<u64> = (0..callers)
        .flat_map(call)
        .chain([last, last + 1, last + 4])
        .collect();
    let first = (0..callers as u64).flat_map(|jump| [0, 1, 4].map(|pc| 5 * jump + pc));
    let log = first.chain(ring.into_iter().cycle()).take(steps);
    let log: Vec<u8> = log.flat_map(u64::to_le_bytes).collect();
    let counts = 6 * callers + 3;
    let mut work = vec![
        0;
        match index {
            Index::Nothing => 0,
            Index::Blocks => 16 * code.len(),
            Index::Edges => 16 * code.len() + 24 * (2 * counts + 16),
        }
    ];
    let begun = std::time::Instant::now();
    let given = follower(
        map.written(),
        &code,
        &log,
        &mut work,
        &mut vec![0; 8 * counts],
    );
    let seconds = begun.elapsed().as_secs_f64();
    assert_eq!(given, 256 * steps as u64, "all steps are in the map");
    seconds
}

/// Some stored maps with their codes.
fn maps(random: &mut Random) -> Vec<(Vec<u8>, Vec<u8>)> {
    let corners = codes::corners::CORNERS;
    let mut all: Vec<Vec<u8>> = Vec::new();
    for _ in 0..8 {
        all.extend(from_hex(corners[random.below(corners.len())]).ok());
        all.push(jumpy(random, 60));
        all.push(woven::code(random, 4, 3));
    }
    for callers in [2, 9, 40] {
        all.push(shared_code(random.between(1, callers)));
    }
    let bytes = random.between(200, 900);
    all.push(sized(random, bytes, Style::Plain));
    all.push(init::two_callers());
    for _ in 0..4 {
        let length = agree::families::long(random);
        all.push(init::far(random, length));
    }
    let mapped = all.into_iter().filter_map(|code| {
        let answer = answer(&agree::ENOUGH, model::HIGHEST_LIMIT, &code);
        (answer.number() == 0).then(|| (answer.written().to_vec(), code))
    });
    mapped.collect()
}

/// A call on one of the maps: a log by the stepper, then perhaps damage to log, map, code or room.
fn call(random: &mut Random, maps: &[(Vec<u8>, Vec<u8>)]) -> Call {
    let (map, code) = &maps[random.below(maps.len())];
    let held = model::read(map).expect("the model reads what it wrote");
    let most = random.between(0, 120);
    let mut steps = stepped(random, &held, code, most);
    let room: usize = held
        .blocks
        .iter()
        .map(|b| 8 + 8 * destinations(b).len())
        .sum();
    let rows = 16 * held.blocks.last().map_or(0, |block| block.start + 1);
    let shelf = 24 * 16;
    let few = 24 * random.below(20) + random.below(24);
    let mut call = Call {
        map: map.clone(),
        code: code.clone(),
        log: vec![],
        // No index, one of blocks, one with room for a few edges, one with room for all.
        work: random.pick(&[
            0,
            7,
            rows.saturating_sub(1),
            rows,
            rows + 5,
            rows + shelf - 1,
            rows + shelf,
            rows + shelf + few,
            rows + shelf + 6 * room,
        ]),
        counts: room + random.below(20),
        sound: false,
    };
    match random.below(10) {
        0 => damage(random, &mut steps, code.len()),
        1 => damage(random, &mut steps, 9),
        2 => call.map = damaged(random, std::slice::from_ref(map)),
        3 => call.counts = random.below(room + 1),
        4 => call.code.truncate(random.below(code.len() + 1)),
        5 => {
            let at = random.below(code.len().max(1));
            if let Some(byte) = call.code.get_mut(at) {
                *byte = random.byte();
            }
        }
        _ => call.sound = true,
    }
    call.log = steps.iter().flat_map(|step| step.to_le_bytes()).collect();
    if random.percent(3) {
        let more = random.between(1, 7);
        call.log.extend((0..more).map(|_| random.byte()));
    }
    call
}

/// A walk as an EVM makes one: instruction by instruction, and at a block's end to one of its destinations that has a block.
fn stepped(random: &mut Random, held: &Held, code: &[u8], most: usize) -> Vec<u64> {
    let at = |start: usize| held.blocks.iter().find(|block| block.start == start);
    let mut steps = Vec::new();
    let mut standing: Option<&Block> = at(0);
    while let Some(block) = standing {
        let mut pc = block.start;
        while steps.len() < most && pc <= block.end {
            steps.push(pc as u64);
            if pc >= code.len() {
                return steps;
            }
            pc += row(code[pc]).size;
        }
        let ways: Vec<&Block> = destinations(block).into_iter().filter_map(at).collect();
        if steps.len() >= most || ways.is_empty() {
            return steps;
        }
        standing = Some(ways[random.below(ways.len())]);
    }
    steps
}

/// One step is another, is gone, comes twice, or is far away.
fn damage(random: &mut Random, steps: &mut Vec<u64>, near: usize) {
    if steps.is_empty() {
        steps.push(random.below(near + 2) as u64);
        return;
    }
    let at = random.below(steps.len());
    match random.below(4) {
        0 => steps[at] = random.below(near + 2) as u64,
        1 => {
            steps.remove(at);
        }
        2 => steps.insert(at, steps[at]),
        _ => steps[at] = random.word(),
    }
}
