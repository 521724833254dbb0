//! The library's follower on a small part of the logs, and faults that must be found.

use differential::{Follower, Index, follow_logs, shared};

#[test]
fn the_library_follows_as_the_model_does() {
    let logs = follow_logs(aznifrem::follow, 1_000, 11);
    assert_eq!(logs.written_out, Vec::<String>::new());
    assert!(logs.whole > 300 && logs.left > 100, "{logs:?}");
    assert!(logs.refused.iter().all(|&times| times > 10), "{logs:?}");
}

#[test]
fn a_function_that_many_share_is_followed_with_any_index() {
    for callers in [1, 16, 17, 100] {
        for index in [Index::Nothing, Index::Blocks, Index::Edges] {
            shared(aznifrem::follow, callers, 2_000, index);
        }
    }
}

fn found(kind: &str, wrong: Follower) {
    let logs = follow_logs(wrong, 400, 12);
    let kinds = logs.written_out.iter().map(|text| text.starts_with(kind));
    assert!(kinds.clone().any(|is| is), "{kind}: {logs:?}");
}

#[test]
fn wrong_followers_are_found() {
    found("number", |map, code, log, work, counts| {
        aznifrem::follow(map, code, log, work, counts) + 256
    });
    found("counts", |map, code, log, work, counts| {
        let given = aznifrem::follow(map, code, log, work, counts);
        if let Some(last) = counts.last_mut() {
            *last ^= 1;
        }
        given
    });
    found("work", |map, code, log, work, counts| {
        let given = aznifrem::follow(map, code, log, work, counts);
        work.fill(0x55);
        given
    });
}

/// The binding's counts, block by block and edge by edge, in the place of the library's.
fn by_the_binding(map: &[u8], code: &[u8], log: &[u8], work: &mut [u8], counts: &mut [u8]) -> u64 {
    let given = aznifrem::follow(map, code, log, work, counts);
    if given & 0xff != 0 {
        return given;
    }
    let eight = |eight: &[u8]| u64::from_le_bytes(eight.try_into().unwrap());
    let steps: Vec<u64> = log.chunks_exact(8).map(eight).collect();
    let followed = aznifrem::Followed::of(map, code, &steps).unwrap();
    let held = model::read(map).unwrap();
    for (block, counted) in held.blocks.iter().zip(&followed.counts) {
        let named: Vec<usize> = counted.edges.iter().map(|edge| edge.0).collect();
        assert_eq!(named, model::follow::destinations(block));
    }
    let numbers = followed.counts.iter().flat_map(|block| {
        let taken = block.edges.iter().map(|edge| edge.1);
        std::iter::once(block.entered).chain(taken)
    });
    for (eight, number) in counts.chunks_exact_mut(8).zip(numbers) {
        eight.copy_from_slice(&number.to_le_bytes());
    }
    followed.place << 8
}

#[test]
fn the_binding_pairs_counts_with_their_edges() {
    let logs = follow_logs(by_the_binding, 300, 13);
    assert_eq!(logs.written_out, Vec::<String>::new());
}
