//! The library's reader on a small part of the maps, and faults that must be found.

use aznifrem::read;
use differential::{Reader, read_maps};
use model::Bad;

#[test]
fn the_library_reads_as_the_model_does_and_everything_bad_is_met() {
    let maps = read_maps(read, 6_000, 3);
    assert_eq!(maps.written_out, Vec::<String>::new());
    assert_eq!(maps.different, 0);
    assert!(maps.held > 200, "{maps:?}");
    for bad in Bad::ALL {
        let met = maps.refused.get(&bad).copied().unwrap_or(0);
        assert!(met >= 10, "{bad:?}: {maps:?}");
    }
}

/// The bytes with another code length in their head.
fn said_to_be(map: &[u8], code_length: u16) -> Vec<u8> {
    let mut map = map.to_vec();
    if let Some(two) = map.get_mut(6..8) {
        two.copy_from_slice(&code_length.to_le_bytes());
    }
    map
}

/// Whether a reader that is wrong is told from the library's.
fn is_found(reader: Reader) -> bool {
    read_maps(reader, 1_000, 3).different > 0
}

#[test]
fn readers_that_are_wrong_are_found() {
    assert!(is_found(|_| 0));
    assert!(is_found(|_| 12));
    // The bad entry's end, or another number.
    assert!(is_found(|map| match read(map) {
        0 => 0,
        number => number + 256,
    }));
    assert!(is_found(|map| match read(map) {
        0 => 0,
        number => number + 1,
    }));
    // The head's code length is not looked at: every map is of the first family, or of the second.
    assert!(is_found(|map| read(&said_to_be(map, 9))));
    assert!(is_found(|map| read(&said_to_be(map, 30_000))));
    // The head's counts are not looked at.
    assert!(is_found(|map| match read(map) {
        12 if map.starts_with(&[12, 0, 0, 0, 1, 0]) => 0,
        number => number,
    }));
}
