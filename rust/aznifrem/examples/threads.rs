use std::sync::atomic::{AtomicUsize, Ordering};
use std::thread;

use aznifrem::{Error, HIGHEST_LIMIT, Map, Mapper};

/// The maps of these codes, in their order, by every core.
fn maps(codes: &[Vec<u8>]) -> Vec<Result<Map, Error>> {
    let threads = thread::available_parallelism().map_or(1, |cores| cores.get());
    let next = AtomicUsize::new(0);
    let work = || {
        // Each thread has rooms of its own, and all of them together the ceiling.
        let mut mapper = Mapper::with_ceiling(Mapper::DEFAULT_CEILING / threads);
        let mut made = Vec::new();
        loop {
            let at = next.fetch_add(1, Ordering::Relaxed);
            let Some(code) = codes.get(at) else {
                return made;
            };
            made.push((at, mapper.map(code, HIGHEST_LIMIT)));
        }
    };
    let mut made: Vec<(usize, Result<Map, Error>)> = thread::scope(|scope| {
        let threads: Vec<_> = (0..threads).map(|_| scope.spawn(work)).collect();
        let made = threads.into_iter().map(|thread| thread.join());
        made.flat_map(|made| made.expect("no thread panics"))
            .collect()
    });
    made.sort_by_key(|(at, _)| *at);
    made.into_iter().map(|(_, map)| map).collect()
}

fn main() -> Result<(), Error> {
    let codes: Vec<Vec<u8>> = (0..100).map(|length| vec![0x5b; length]).collect();
    for (code, map) in codes.iter().zip(maps(&codes)) {
        assert_eq!(map?.code_length, code.len());
    }
    Ok(())
}
