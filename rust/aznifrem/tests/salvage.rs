//! The exported salvage: what it copies, prints and refuses, and every lent byte.

use aznifrem::{Salvaged, salvage};

/// A head of no block and no record; the map of STOP.
const EMPTY: [u8; 18] = [12, 0, 0, 0, 1, 0, 0, 0, 0, 0, 0, 0, 0, 0, 0, 0, 0, 0];

fn stop() -> Vec<u8> {
    let map = aznifrem::map(&[0x00], 0).expect("it is mapped");
    map.to_bytes().expect("it fits")
}

fn of(archive: &[u8]) -> (Salvaged, Vec<u8>) {
    let mut out = vec![0; archive.len()];
    let salvaged = Salvaged::of(archive, &mut out).expect("the library is reached");
    let salvaged = salvaged.expect("there is room");
    out.truncate(salvaged.copied as usize);
    (salvaged, out)
}

#[test]
fn whole_archives_come_out_equal() {
    let archives = [
        vec![],
        EMPTY.to_vec(),
        stop(),
        [&stop()[..], &EMPTY, &stop()].concat(),
    ];
    for (archive, maps) in archives.into_iter().zip([0, 1, 1, 3]) {
        let (salvaged, out) = of(&archive);
        let length = archive.len() as u64;
        let expected = Salvaged {
            maps,
            copied: length,
            dropped: 0,
            offset: length,
        };
        assert_eq!((salvaged, out), (expected, archive));
    }
}

#[test]
fn cut_anywhere_the_maps_before_the_cut_are_kept() {
    let parts = [stop(), EMPTY.to_vec(), stop()];
    let archive = parts.concat();
    for length in 0..=archive.len() {
        let whole = (0..=3).rev().find(|n| parts[..*n].concat().len() <= length);
        let whole = whole.expect("none has no byte");
        let (salvaged, out) = of(&archive[..length]);
        assert_eq!(salvaged.maps, whole as u64);
        assert_eq!(out, parts[..whole].concat());
        assert_eq!(salvaged.copied + salvaged.dropped, length as u64);
        let bad = out.len() as u64..=length as u64;
        assert!(bad.contains(&salvaged.offset), "{length}: {salvaged:?}");
    }
}

#[test]
fn where_a_buffer_is_short_nothing_is_written() {
    let archive = [&stop()[..], &stop()[..7]].concat();
    let copied = stop().len();
    for (room, report_room, number) in [
        (copied, 32, 0),
        (copied + 3, 40, 0),
        (copied - 1, 32, 18),
        (0, 32, 18),
        (copied, 31, 18),
        (copied, 0, 18),
    ] {
        let mut out = vec![0xaa; room];
        let mut report = vec![0xaa; report_room];
        assert_eq!(salvage(&archive, &mut out, &mut report), number);
        let (mut wanted, mut printed) = (vec![0xaa; room], vec![0xaa; report_room]);
        if number == 0 {
            wanted[..copied].copy_from_slice(&stop());
            for (at, number) in [1, copied, 7, copied].into_iter().enumerate() {
                printed[8 * at..][..8].copy_from_slice(&(number as u64).to_le_bytes());
            }
        }
        assert_eq!((out, report), (wanted, printed));
    }
}
