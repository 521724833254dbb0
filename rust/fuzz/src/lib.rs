//! One input of a fuzzer, held against the Rust and the model as `differential` holds every code; or
//! against the model's reader, as a stored map.

use aznifrem::{Lent, Map, Record, call};
use differential::{Checker, Port, Reader, check_map};

/// The seed of rooms and limits, and the code behind it.
fn split(input: &[u8]) -> (u64, &[u8]) {
    match input.split_first_chunk() {
        Some((seed, code)) => (u64::from(u16::from_le_bytes(*seed)), code),
        None => (0, &[]),
    }
}

/// What differs on an input, if anything, and the words that check it again and make it smaller.
pub fn mismatch(port: Port, input: &[u8]) -> Option<String> {
    let (seed, code) = split(input);
    let found = Checker {
        port,
        ..Checker::LIBRARY
    }
    .check(code, seed)
    .err()?;
    // It may have both answers in it, whole.
    let sentence: String = found.sentence.chars().take(200).collect();
    let code = codes::to_hex(code);
    Some(format!(
        "mismatch: {}: {sentence}\n  differential --seed {seed} --code {code}",
        found.kind
    ))
}

/// What differs on an input as a stored map, if anything, and the words that check it again.
pub fn map_mismatch(reader: Reader, input: &[u8]) -> Option<String> {
    let found = check_map(reader, input).err()?;
    let sentence: String = found.sentence.chars().take(200).collect();
    let map = codes::to_hex(input);
    Some(format!(
        "mismatch: {}: {sentence}\n  maps --map {map}",
        found.kind
    ))
}

/// The reader with a fault: a record of the wrong length is let through.
pub fn faulty_reader(map: &[u8]) -> u64 {
    let number = aznifrem::read(map);
    let offset = (number >> 8) as usize;
    let kind = map.get(offset.saturating_add(4)..).unwrap_or_default();
    if offset > 0 && kind.starts_with(&[8, 0]) {
        0
    } else {
        number
    }
}

/// The library with a fault: if the search found a destination, the energy is wrong.
pub fn faulty(code: &[u8], limit: u64, rooms: &mut Lent) -> u64 {
    let number = call(code, limit, rooms);
    let written = rooms.out.get(..number as usize).unwrap_or_default();
    let found = |record: &Record| record.jump.to.is_some();
    if Map::from_bytes(written).is_ok_and(|map| map.records.iter().any(found)) {
        rooms.out[14] ^= 1;
    }
    number
}

#[cfg(test)]
mod tests {
    use super::{faulty, faulty_reader, map_mismatch, mismatch, split};
    use aznifrem::{Lent, call};

    const RETURN: &str = "60056007565b005b56";

    #[test]
    fn the_seed_stands_before_the_code() {
        assert_eq!(split(&[1, 2, 0x5b, 0x56]), (513, &[0x5b, 0x56][..]));
        assert_eq!(split(&[1, 2]), (513, &[][..]));
        assert_eq!(split(&[1]), (0, &[][..]));
    }

    #[test]
    fn the_fault_is_a_mismatch_and_the_library_has_none() {
        let code = codes::from_hex(RETURN).expect("it is hexadecimal");
        let input = [vec![1, 0], code].concat();
        assert_eq!(mismatch(call, &input), None);
        let text = mismatch(faulty, &input).expect("a destination is found");
        assert!(text.starts_with("mismatch: bytes: byte 14 "), "{text}");
        assert!(text.ends_with(&format!("--seed 1 --code {RETURN}")));
    }

    #[test]
    fn the_readers_fault_is_a_mismatch_and_the_library_has_none() {
        let code = codes::from_hex(RETURN).expect("it is hexadecimal");
        let mut map = aznifrem::map(&code, 500_000)
            .expect("it has a map")
            .to_bytes()
            .expect("it fits");
        assert_eq!(map_mismatch(aznifrem::read, &map), None);
        assert_eq!(map_mismatch(faulty_reader, &map), None);
        // The record says three addresses, and two are there.
        map[63] = 3;
        assert_eq!(map_mismatch(aznifrem::read, &map), None);
        let text = map_mismatch(faulty_reader, &map).expect("it is let through");
        assert!(
            text.starts_with("mismatch: reader: the reader gives 0, "),
            "{text}"
        );
        assert!(text.ends_with(&format!("  maps --map {}", codes::to_hex(&map))));
    }

    #[test]
    fn a_panic_is_a_mismatch() {
        let port = |_: &[u8], _, _: &mut Lent| panic!("it cannot be");
        let text = mismatch(port, &[1, 0, 0x5b]).expect("it panics");
        assert!(text.starts_with("mismatch: panic: panicked at "), "{text}");
        assert!(text.ends_with(" it cannot be\n  differential --seed 1 --code 5b"));
    }
}
