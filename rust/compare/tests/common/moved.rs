//! A code laid out anew: its pieces in another order, with bytes between them, every pushed label aimed
//! at where it stands then. Of codes whose labels, and nothing else, are pushed by PUSH2.

use std::collections::BTreeMap;
use std::ops::Range;

const PUSH2: u8 = 0x61;
const JUMPDEST: u8 = 0x5b;
/// What control does not go on behind: STOP, JUMP, RETURN, REVERT, INVALID, SELFDESTRUCT.
const LAST: [u8; 6] = [0x00, 0x56, 0xf3, 0xfd, 0xfe, 0xff];

/// A piece, and the bytes before it.
pub type Laid = (Vec<u8>, Range<usize>);

pub struct Moved {
    pub code: Vec<u8>,
    /// Where each instruction of the old code stands now. What was put before the first is of block 0.
    pub places: BTreeMap<usize, usize>,
}

/// Pieces that control enters by a jump alone; the first holds address 0.
pub fn pieces(code: &[u8]) -> Vec<Range<usize>> {
    let mut cuts = vec![0];
    let mut last = 0;
    for (at, byte) in model::ops::walk(code, 0) {
        if at > 0 && byte == JUMPDEST && LAST.contains(&last) {
            cuts.push(at);
        }
        last = byte;
    }
    let ends = cuts.iter().skip(1).copied().chain([code.len()]);
    cuts.iter()
        .copied()
        .zip(ends)
        .map(|(from, to)| from..to)
        .collect()
}

pub fn moved(code: &[u8], layout: &[Laid]) -> Moved {
    let mut laid = Vec::new();
    let mut places = BTreeMap::new();
    let mut pushes = Vec::new();
    for (padding, piece) in layout {
        laid.extend(padding);
        for (at, byte) in model::ops::walk(&code[..piece.end], piece.start) {
            places.insert(at, laid.len());
            if byte == PUSH2 {
                pushes.push((
                    laid.len() + 1,
                    usize::from(code[at + 1]) * 256 + usize::from(code[at + 2]),
                ));
            }
            laid.extend(&code[at..at + model::ops::row(byte).size]);
        }
    }
    for (at, label) in pushes {
        let place = places.get(&label).copied().unwrap_or(0) as u16;
        laid[at..at + 2].copy_from_slice(&place.to_be_bytes());
    }
    places.insert(0, 0);
    Moved { code: laid, places }
}
