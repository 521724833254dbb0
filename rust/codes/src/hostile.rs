//! Maps that nobody's search makes, for the inspector of document 02's No. 12.

/// A code of 1,000 bytes and a map of it, whose one record is slow to inspect. The blocks at 0 and 20 have this many 7s without
/// a destination before the one that leads to the other, and the record's path goes to and fro between them, over this many
/// places. The two edges share a place in the inspector's table, so that each is looked for anew, behind all those 7s.
pub fn to_and_fro(sevens: u32, places: u32) -> (Vec<u8>, Vec<u8>) {
    let mut code = vec![0; 1_000];
    code[..21].copy_from_slice(&[0x5b; 21]);
    (code[1], code[20]) = (0x56, 0x56);
    let mut map = Vec::new();
    let two = |number: usize| (number as u16).to_le_bytes();
    entry(
        &mut map,
        1,
        &[&two(1_000), &two(2), &1_u32.to_le_bytes(), &[0; 4]],
    );
    for (start, end, other) in [(0, 1, 20), (20, 20, 0)] {
        let count = (sevens + 1).to_le_bytes();
        entry(&mut map, 5, &[&two(start), &two(end), &count]);
        for _ in 0..sevens {
            entry(&mut map, 7, &[&two(0x8000), &[0; 4]]);
        }
        entry(&mut map, 7, &[&two(other), &[0; 4]]);
    }
    let path: Vec<u8> = (0..places)
        .flat_map(|at| two(20 * (at as usize % 2)))
        .collect();
    entry(
        &mut map,
        8,
        &[&two(0), &two(20), &places.to_le_bytes(), &path],
    );
    (code, map)
}

/// Length, kind and body.
fn entry(map: &mut Vec<u8>, kind: u16, parts: &[&[u8]]) {
    let body = parts.concat();
    map.extend((body.len() as u32).to_le_bytes());
    map.extend(kind.to_le_bytes());
    map.extend(body);
}
