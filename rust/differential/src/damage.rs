//! Stored maps with something wrong in them: whole entries moved and changed, and bytes.

use codes::Random;
use model::Family;

const HEADER: usize = 6;
const KINDS: [u16; 16] = [0, 1, 2, 3, 4, 5, 6, 7, 8, 9, 10, 11, 12, 13, 256, 65535];

/// The entries of a whole map: kind and body.
#[derive(Clone)]
struct Parts(Vec<(u16, Vec<u8>)>);

impl Parts {
    fn of(mut map: &[u8]) -> Parts {
        let mut parts = Vec::new();
        while let Some((header, rest)) = map.split_first_chunk::<HEADER>() {
            let length = u32::from_le_bytes([header[0], header[1], header[2], header[3]]);
            let kind = u16::from_le_bytes([header[4], header[5]]);
            let (body, behind) = rest.split_at(rest.len().min(length as usize));
            parts.push((kind, body.to_vec()));
            map = behind;
        }
        Parts(parts)
    }

    fn bytes(&self) -> Vec<u8> {
        let entry = |(kind, body): &(u16, Vec<u8>)| {
            let length = (body.len() as u32).to_le_bytes();
            [&length[..], &kind.to_le_bytes(), body].concat()
        };
        self.0.iter().flat_map(entry).collect()
    }

    /// That of the code length that the head says.
    fn family(&self) -> Family {
        let head = self.0.first().and_then(|(_, body)| body.first_chunk());
        Family::of(head.map_or(0, |two| u16::from_le_bytes(*two).into()))
    }

    /// The head says the counts of the entries that are there, so that they hide nothing else.
    fn recount(&mut self) {
        let family = self.family();
        let count =
            |test: &dyn Fn(u16) -> bool| self.0.iter().filter(|(kind, _)| test(*kind)).count();
        let blocks = (count(&|kind| (2..=6).contains(&kind)) as u16).to_le_bytes();
        let records = (count(&|kind| family.is_record(kind.into())) as u32).to_le_bytes();
        if let Some((1, head)) = self.0.first_mut()
            && head.len() >= 8
        {
            head[2..4].copy_from_slice(&blocks);
            head[4..8].copy_from_slice(&records);
        }
    }
}

/// A whole map with no record: what its 7s say no record says again.
pub fn without_records(map: &[u8]) -> Vec<u8> {
    let mut parts = Parts::of(map);
    let family = parts.family();
    parts
        .0
        .retain(|(kind, _)| !family.is_record((*kind).into()));
    parts.recount();
    parts.bytes()
}

/// A whole map in which all 7s of a block have the destination of its first.
pub fn one_destination(map: &[u8]) -> Vec<u8> {
    let mut parts = Parts::of(map);
    let family = parts.family();
    let mut first = None;
    for (kind, body) in &mut parts.0 {
        match body.first_chunk_mut::<2>() {
            Some(to) if *kind == family.seven => *to = *first.get_or_insert(*to),
            _ => first = None,
        }
    }
    parts.bytes()
}

/// One of these maps with one to three things changed.
pub fn damaged(random: &mut Random, maps: &[Vec<u8>]) -> Vec<u8> {
    let one = &maps[random.below(maps.len())];
    let other = &maps[random.below(maps.len())];
    if random.percent(40) {
        let mut bytes = one.clone();
        for _ in 0..random.between(1, 3) {
            change_bytes(random, &mut bytes, other);
        }
        return bytes;
    }
    let (mut parts, other) = (Parts::of(one), Parts::of(other));
    for _ in 0..random.between(1, 3) {
        change_entries(random, &mut parts, &other);
    }
    if random.percent(60) {
        parts.recount();
    }
    let mut bytes = parts.bytes();
    if random.percent(10) {
        bytes.truncate(random.below(bytes.len() + 1));
    }
    bytes
}

fn change_entries(random: &mut Random, parts: &mut Parts, other: &Parts) {
    let count = parts.0.len();
    if count == 0 {
        return;
    }
    // Half of the time a dynamic block, a 7 or a record, if there is one.
    let mut at = random.below(count);
    let later = (at..count).find(|at| parts.0[*at].0 >= 5);
    if random.percent(50) {
        at = later.unwrap_or(at);
    }
    let to = random.below(count);
    match random.below(13) {
        0 => drop(parts.0.remove(at)),
        1 => parts.0.insert(to, parts.0[at].clone()),
        2 => parts.0.swap(at, to),
        3 => {
            let entry = parts.0.remove(at);
            parts.0.insert(to.min(parts.0.len()), entry);
        }
        4 if !other.0.is_empty() => {
            let entry = other.0[random.below(other.0.len())].clone();
            parts.0.insert(to, entry);
        }
        5 => parts.0[at].0 = random.pick(&KINDS),
        // The last entry often is a record behind others.
        9 => {
            let at = random.pick(&[at, count - 1]);
            other_kind(random, &mut parts.0, at);
        }
        6 => parts.0[at].1.push(random.pick(&[0, 1, 7, 255])),
        7 => drop(parts.0[at].1.pop()),
        8 => parts
            .0
            .insert(to, (random.pick(&KINDS), vec![0; random.below(13)])),
        _ => change_number(random, &mut parts.0[at].1),
    }
}

/// A record with a number or without, as it was not; else of the other family: the entry's kind, or the length that the
/// head says.
fn other_kind(random: &mut Random, parts: &mut [(u16, Vec<u8>)], at: usize) {
    let (kind, body) = &mut parts[at];
    match *kind {
        8 | 11 if random.percent(50) && body.len() >= 4 => {
            *kind += 1;
            body.splice(4..4, [random.byte(), 0, 0, 0]);
        }
        9 | 12 if random.percent(50) && body.len() >= 8 => {
            *kind -= 1;
            body.drain(4..8);
        }
        7..=9 => *kind += 3,
        10..=12 => *kind -= 3,
        _ => {
            if let Some(two) = parts[0].1.first_chunk_mut() {
                *two = random
                    .pick(&[24_576_u16, 24_577, 49_152, 65_535])
                    .to_le_bytes();
            }
        }
    }
}

/// A byte, or a number of two bytes, made one more or less, or anything.
fn change_number(random: &mut Random, body: &mut [u8]) {
    if body.is_empty() {
        return;
    }
    let at = random.below(body.len());
    match random.below(5) {
        0 => body[at] = body[at].wrapping_add(1),
        1 => body[at] = body[at].wrapping_sub(1),
        2 => body[at] = random.pick(&[0, 1, 2, 128, 255]),
        3 => body[at] = random.byte(),
        // The field of two bytes that this byte is in: a missing destination, or a start.
        _ => {
            let at = at & !1;
            let value = random
                .pick(&[0x8000, 0, 1, 0xffff, 24_576_u16, 24_577])
                .to_le_bytes();
            let end = body.len().min(at + 2);
            body[at..end].copy_from_slice(&value[..end - at]);
        }
    }
}

fn change_bytes(random: &mut Random, bytes: &mut Vec<u8>, other: &[u8]) {
    let at = random.below(bytes.len() + 1);
    match random.below(7) {
        0 => bytes.truncate(at),
        1 => bytes.insert(at, random.pick(&[0, 1, 7, 8, 255])),
        2 if at < bytes.len() => drop(bytes.remove(at)),
        3 if at < bytes.len() => bytes[at] ^= 1 << random.below(8),
        4 if at < bytes.len() => bytes[at] = random.byte(),
        // The two maps joined, at any places of theirs.
        5 => {
            bytes.truncate(at);
            bytes.extend(&other[random.below(other.len() + 1)..]);
        }
        // Some bytes said twice.
        _ => {
            let end = bytes.len().min(at + random.between(1, 30));
            let again = bytes[at..end].to_vec();
            bytes.splice(at..at, again);
        }
    }
}
