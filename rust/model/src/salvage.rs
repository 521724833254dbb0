//! Document 02, No. 14, as a plain program, written from its text: of an archive of stored maps, what is
//! copied and what is dropped.

use crate::family::Family;
use crate::reader::{Piece, pieces, read, whole_sevens};

/// "Prints how many maps and bytes it copied, how many bytes it dropped and the offset of the first bad
/// entry, or the input's length."
#[derive(Clone, Debug, PartialEq, Eq)]
pub struct Salvaged {
    pub maps: usize,
    pub copied: Vec<u8>,
    pub dropped: usize,
    pub offset: usize,
}

/// "Reads stored maps standing one after another, copies each that reads whole, drops everything from the
/// start of the first that does not."
pub fn salvage(archive: &[u8]) -> Salvaged {
    let mut maps = 0;
    let mut at = 0;
    let mut offset = archive.len();
    while at < archive.len() {
        let rest = &archive[at..];
        let map = &rest[..end(rest)];
        if let Err(refused) = read(map) {
            offset = at + refused.offset;
            break;
        }
        maps += 1;
        at += map.len();
    }
    Salvaged {
        maps,
        copied: archive[..at].to_vec(),
        dropped: archive.len() - at,
        offset,
    }
}

/// "A map ends where its head's counts say": behind as many blocks and records; if the last of them is a
/// block, behind its 7s. If there are not as many, it is all that is left.
fn end(rest: &[u8]) -> usize {
    let pieces = pieces(rest);
    let (head, entries) = pieces.split_first().expect("there is a byte");
    let family = Family::of(head.number(0, 2));
    let (blocks, records) = (head.number(2, 2), head.number(4, 4));
    let block = |piece: &&Piece| piece.whole && piece.is_block();
    let record = |piece: &&Piece| piece.whole && family.is_record(piece.kind);
    let nth = |count: usize, of: &dyn Fn(&&Piece) -> bool| {
        let mut places = (0..entries.len()).filter(|at| of(&&entries[*at]));
        // So many entries end with the last that counts; none, if none is wanted.
        match count {
            0 => Some(0),
            _ => places.nth(count - 1).map(|at| at + 1),
        }
    };
    let (Some(blocks), Some(records)) = (nth(blocks, &block), nth(records, &record)) else {
        return rest.len();
    };
    let mut count = blocks.max(records);
    if count > 0 && entries[count - 1].is_block() {
        count += whole_sevens(family, &entries[count..]);
    }
    entries.get(count).map_or(rest.len(), |next| next.offset)
}
