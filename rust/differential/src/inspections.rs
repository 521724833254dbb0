//! Maps of our own before pruning, and the same with one thing changed: the library's inspector against the model's.

use codes::contract::{Style, sized};
use codes::random::jumpy;
use codes::{Random, from_hex, init, worst, woven};
use model::inspect::{PathEntry, path_entries};
use model::{HIGHEST_LIMIT, Inspected, LONGEST_CODE, entries, inspect_from, unpruned_by};

use crate::mismatch::{Mismatch, mismatch};

/// The library's inspector, or what stands in for it in a test.
#[derive(Clone, Copy)]
pub struct Inspector {
    /// Of mode, code, map, W and place.
    pub whole: fn(u64, &[u8], &[u8], &mut [u8], &mut [u8]) -> u64,
    /// Of mode, offset, code, map, W and rows.
    pub from: fn(u64, u64, &[u8], &[u8], &mut [u8], &mut [u8]) -> u64,
}

/// The proved one.
pub const INSPECTOR: Inspector = Inspector {
    whole: aznifrem::inspect,
    from: aznifrem::inspect_from,
};

/// What came of many calls.
#[derive(Clone, Debug, Default, PartialEq, Eq)]
pub struct Inspections {
    /// Accepted; 1, 13, 3; 12; 17 at the path's beginning, and further on.
    pub accepted: u64,
    pub refused: [u64; 3],
    pub bad: u64,
    pub first: u64,
    pub later: u64,
    pub paths: u64,
    /// The longest path that was accepted; the entries that are not right from an offset on.
    pub longest: usize,
    pub listed: u64,
    pub different: u64,
    /// The first mismatches.
    pub written_out: Vec<String>,
}

/// One call, and how many bytes are lent.
#[derive(Clone, Debug)]
pub struct Inspecting {
    pub mode: u64,
    pub code: Vec<u8>,
    pub map: Vec<u8>,
    pub w: usize,
    pub place: usize,
    /// The second call: from where on, and how many bytes its rows have.
    pub from: u64,
    pub rows: usize,
    /// A map of ours before pruning, in its mode, with nothing changed: it is accepted.
    pub ours: bool,
}

/// So many calls; of each 2,000 one map in some thirty is of a contract of at most so many bytes.
pub fn run(inspector: Inspector, count: u64, seed: u64, bytes: usize) -> Inspections {
    let mut all = Inspections::default();
    let mut random = Random::new(seed);
    let mut done = 0;
    while done < count {
        let maps = maps(&mut random, bytes);
        for _ in 0..2_000.min(count - done) {
            let call = call(&mut random, &maps);
            all.add(inspector, &call);
            done += 1;
        }
    }
    all
}

impl Inspections {
    /// Checks one call.
    pub fn add(&mut self, inspector: Inspector, call: &Inspecting) {
        let (said, listed) = match check(inspector, call) {
            Ok(found) => found,
            Err(found) => return self.tell(&found, call),
        };
        self.listed += listed;
        match said {
            Inspected::Accepted => {
                self.accepted += 1;
                let paths = path_entries(&call.map);
                self.paths += paths.len() as u64;
                let longest = paths.iter().map(|entry| entry.path.len()).max();
                self.longest = self.longest.max(longest.unwrap_or(0));
            }
            _ if call.ours => {
                let sentence = format!("a map of ours before pruning gives {said:?}");
                self.tell(&mismatch("ours", sentence), call);
            }
            Inspected::Refused(1) => self.refused[0] += 1,
            Inspected::Refused(13) => self.refused[1] += 1,
            Inspected::Refused(_) => self.refused[2] += 1,
            Inspected::BadEntry(_) => self.bad += 1,
            Inspected::NotRight { place: 0, .. } => self.first += 1,
            Inspected::NotRight { .. } => self.later += 1,
        }
    }

    fn tell(&mut self, found: &Mismatch, call: &Inspecting) {
        self.different += 1;
        if self.written_out.len() < 5 {
            let text = format!("{}: {} in {call:?}", found.kind, found.sentence);
            self.written_out.push(text);
        }
    }
}

/// Holds both calls against the model, every lent byte too; how many entries the second finds not right.
pub fn check(inspector: Inspector, call: &Inspecting) -> Result<(Inspected, u64), Mismatch> {
    let (said, wrong) = inspect_from(call.mode, 0, &call.code, &call.map, call.w);
    let (number, named) = said.told();
    let (mut w, mut place) = (vec![0xaa; call.w], vec![0xbb; call.place]);
    let given = (inspector.whole)(call.mode, &call.code, &call.map, &mut w, &mut place);
    same_number(given, number)?;
    let mut wanted = vec![0xbb; call.place];
    if let (Some(named), Some(eight)) = (named, wanted.first_chunk_mut::<8>()) {
        *eight = named.to_le_bytes();
    }
    if place != wanted {
        return Err(mismatch("place", format!("{place:?} against {wanted:?}")));
    }
    wiped(&said, &w)?;
    Ok((said, check_from(inspector, call, &said, &wrong)?))
}

/// The second call: of those that are not right the ones from an offset on, and a row for each that fits.
fn check_from(
    inspector: Inspector,
    call: &Inspecting,
    said: &Inspected,
    wrong: &[(usize, usize)],
) -> Result<u64, Mismatch> {
    let (mut w, mut rows) = (vec![0xaa; call.w], vec![0xbb; call.rows]);
    let given = (inspector.from)(
        call.mode, call.from, &call.code, &call.map, &mut w, &mut rows,
    );
    let left: Vec<_> = wrong
        .iter()
        .filter(|(offset, _)| *offset as u64 >= call.from)
        .collect();
    let said = match (said, left.first()) {
        (Inspected::NotRight { .. }, None) => Inspected::Accepted,
        (Inspected::NotRight { .. }, Some(&&(offset, place))) => {
            Inspected::NotRight { offset, place }
        }
        (same, _) => *same,
    };
    same_number(given, said.told().0)?;
    let mut wanted = vec![0xbb; call.rows];
    for (row, &&(offset, place)) in wanted.chunks_exact_mut(16).zip(&left) {
        row[..8].copy_from_slice(&(offset as u64).to_le_bytes());
        row[8..].copy_from_slice(&(place as u64).to_le_bytes());
    }
    if rows != wanted {
        return Err(mismatch("rows", format!("{rows:?} against {wanted:?}")));
    }
    wiped(&said, &w)?;
    Ok(left.len() as u64)
}

fn same_number(given: u64, number: u64) -> Result<(), Mismatch> {
    if given == number {
        return Ok(());
    }
    let sentence = format!("the inspector gives {given}, the model {number}");
    Err(mismatch("number", sentence))
}

/// W is all zero bytes, and untouched on 1, 13 and 3.
fn wiped(said: &Inspected, w: &[u8]) -> Result<(), Mismatch> {
    let refused = matches!(said, Inspected::Refused(_));
    let filled = if refused { 0xaa } else { 0 };
    if w.iter().any(|&byte| byte != filled) {
        return Err(mismatch("w", format!("not all bytes are {filled}")));
    }
    Ok(())
}

/// Maps before pruning, with their codes and modes.
fn maps(random: &mut Random, bytes: usize) -> Vec<(u64, Vec<u8>, Vec<u8>)> {
    let corners = codes::corners::CORNERS;
    let mut all: Vec<Vec<u8>> = Vec::new();
    for _ in 0..8 {
        all.extend(from_hex(corners[random.below(corners.len())]).ok());
        all.push(jumpy(random, 60));
        all.push(woven::code(random, 4, 3));
    }
    let fewer = random.between(200, 900);
    all.push(sized(random, fewer, Style::Plain));
    all.push(sized(random, bytes.min(LONGEST_CODE), Style::Calls));
    // Paths that are twice as long with each level, and calls one after the other.
    all.push(worst::doubling(random.between(4, 7)));
    all.push(worst::row(random.between(5, 40)));
    // Code of more than 24,576 bytes, with both marks as addresses.
    all.push(init::both_marks());
    for _ in 0..2 {
        let length = agree::families::long(random);
        all.push(init::far(random, length));
    }
    let mapped = all.into_iter().filter_map(|code| {
        let mode = random.below(2) as u64;
        let map = unpruned_by(random.below(2) as u64, mode == 1, HIGHEST_LIMIT, &code).ok()?;
        let bytes = entries::write(code.len(), &map);
        Some((mode, code, bytes))
    });
    mapped.collect()
}

/// A call on one of the maps, with at most one thing changed.
fn call(random: &mut Random, maps: &[(u64, Vec<u8>, Vec<u8>)]) -> Inspecting {
    let (mode, code, map) = &maps[random.below(maps.len())];
    let need = 64 * code.len() + 256;
    let mut call = Inspecting {
        mode: *mode,
        code: code.clone(),
        map: map.clone(),
        w: need + random.below(3) * 100,
        place: random.pick(&[0, 7, 8, 11]),
        from: random.pick(&[0, 0, 1, u64::MAX]),
        rows: random.pick(&[0, 15, 16, 17, 31, 32, 40, 1_600, 1_600, 1_600]),
        ours: false,
    };
    let paths = path_entries(map);
    if random.percent(50) && !paths.is_empty() {
        call.from = (paths[random.below(paths.len())].offset + random.below(2)) as u64;
    }
    match random.below(14) {
        0 => call.mode = random.pick(&[2, 77, u64::MAX]),
        1 => call.w = random.below(need),
        2 => call.mode = 1 - mode,
        3 => {
            let at = random.below(map.len());
            call.map[at] ^= 1 << random.below(8);
        }
        4 => {
            let at = random.below(code.len().max(1));
            if let Some(byte) = call.code.get_mut(at) {
                *byte = random.byte();
            }
        }
        5..=7 if !paths.is_empty() => {
            let path = &paths[random.below(paths.len())];
            change(random, &mut call.map, path, code.len());
        }
        11 if !paths.is_empty() => {
            let path = &paths[random.below(paths.len())];
            resize(random, &mut call.map, path, code.len());
        }
        // Many that are not right, 7s among them.
        12 | 13 if !paths.is_empty() => {
            for path in &paths {
                if random.percent(30) {
                    change(random, &mut call.map, path, code.len());
                }
            }
        }
        8 => edge(random, &mut call.map, code.len()),
        9 if random.below(20) == 0 => call.code = vec![0; LONGEST_CODE + 1],
        _ => call.ours = true,
    }
    call
}

/// One number of a path entry: its destination, its start, or a block of its path.
fn change(random: &mut Random, map: &mut [u8], path: &PathEntry, length: usize) {
    let body = path.offset + 6;
    let (to, addresses) = places(path);
    let at = match random.below(4) {
        0 => to,
        1 => body,
        _ => addresses + 2 * random.below(path.path.len().max(1)),
    };
    let value = random.below(length + 2) as u16;
    if let Some(two) = map.get_mut(at..at + 2) {
        two.copy_from_slice(&value.to_le_bytes());
    }
}

/// Where the destination of a path entry stands, and its addresses.
fn places(path: &PathEntry) -> (usize, usize) {
    let body = path.offset + 6;
    match path.kind {
        7 | 10 => (body, body + 6),
        8 | 11 => (body + 2, body + 8),
        _ => (body + 2, body + 12),
    }
}

/// A path with no block at all, or with some more: the entry's length and the path's count follow.
fn resize(random: &mut Random, map: &mut Vec<u8>, path: &PathEntry, length: usize) {
    let (_, addresses) = places(path);
    let (old, body) = (path.path.len(), addresses - path.offset - 6);
    let mut blocks = path.path.clone();
    if random.percent(30) {
        blocks.clear();
    }
    for _ in 0..random.below(4) {
        // One of its own blocks, or any.
        let own = !path.path.is_empty() && random.percent(70);
        let block = if own {
            path.path[random.below(old)]
        } else {
            random.below(length + 2)
        };
        blocks.insert(random.below(blocks.len() + 1), block);
    }
    let bytes = blocks.iter().flat_map(|&b| (b as u16).to_le_bytes());
    map.splice(addresses..addresses + 2 * old, bytes.collect::<Vec<_>>());
    let count = (blocks.len() as u32).to_le_bytes();
    map[addresses - 4..addresses].copy_from_slice(&count);
    let announced = ((body + 2 * blocks.len()) as u32).to_le_bytes();
    map[path.offset..path.offset + 4].copy_from_slice(&announced);
}

/// One side of a block: an edge that goes elsewhere.
fn edge(random: &mut Random, map: &mut [u8], length: usize) {
    let mut sides = Vec::new();
    let mut at = 0;
    while let Some(header) = map.get(at..at + 6) {
        let body = u32::from_le_bytes([header[0], header[1], header[2], header[3]]) as usize;
        match header[4] {
            3 | 6 => sides.push(at + 10),
            4 => sides.extend([at + 10, at + 12]),
            _ => {}
        }
        at += 6 + body;
    }
    if sides.is_empty() {
        return;
    }
    let side = sides[random.below(sides.len())];
    let value = random.below(length + 2) as u16;
    map[side..side + 2].copy_from_slice(&value.to_le_bytes());
}
