//! Words for what the library refused: it says where the first bad entry stands, and this which thing is bad there.

use crate::entries::{Entry, entries, entry_at};
use crate::error::Fault;
use crate::kinds::{DYNAMIC_JUMP, DYNAMIC_JUMPI, HEAD, HEADER, JUMP, JUMPI, Kinds, TERMINATE};

/// What is wrong with the first bad entry, which stands at this offset.
pub fn fault(bytes: &[u8], offset: usize) -> Fault {
    let Some(entry) = entry_at(bytes, offset) else {
        return if bytes.is_empty() {
            Fault::Empty
        } else {
            Fault::Cut
        };
    };
    if offset == 0 && entry.kind != HEAD {
        return Fault::NoHead;
    }
    let kinds = Kinds::of_map(bytes);
    match length(kinds, &entry) {
        None if Kinds::is_any(entry.kind) => Fault::OtherFamily(entry.kind),
        None => Fault::UnknownKind(entry.kind),
        Some(length) if length != entry.body.len() => Fault::Length(entry.body.len()),
        Some(_) => misplaced(bytes, kinds, &entry),
    }
}

/// The length that the kind says; of a path's entry and of a record, by the path length in it.
fn length(kinds: Kinds, entry: &Entry) -> Option<usize> {
    Some(match entry.kind {
        HEAD => 12,
        TERMINATE => 5,
        JUMP => 6,
        JUMPI | DYNAMIC_JUMP => 8,
        DYNAMIC_JUMPI => 10,
        kind if kind == kinds.path => 6 + 2 * entry.body.count(2) as usize,
        kind if kind == kinds.record => 8 + 2 * entry.body.count(4) as usize,
        kind if kind == kinds.numbered => 12 + 2 * entry.body.count(8) as usize,
        _ => return None,
    })
}

/// Of an entry of the right form: what it says does not go with the others.
fn misplaced(bytes: &[u8], kinds: Kinds, entry: &Entry) -> Fault {
    let before = || entries(bytes).take_while(|other| other.offset < entry.offset);
    let is_block = |other: &Entry| (TERMINATE..=DYNAMIC_JUMPI).contains(&other.kind);
    let start = entry.body.address(0);
    match entry.kind {
        HEAD if entry.offset == 0 => Fault::Counts,
        kind if kind == kinds.path => Fault::Away(kind),
        kind if kind == HEAD || kinds.is_record(kind) => Fault::OutOfOrder(kind),
        kind if before().any(|other| kinds.is_record(other.kind)) => Fault::OutOfOrder(kind),
        _ if before().any(|other| is_block(&other) && start <= other.body.address(0)) => {
            Fault::Start(start)
        }
        DYNAMIC_JUMP => Fault::Entries {
            count: entry.body.count(4),
            there: paths_behind(bytes, kinds, entry),
        },
        DYNAMIC_JUMPI => Fault::Entries {
            count: entry.body.count(6),
            there: paths_behind(bytes, kinds, entry),
        },
        _ => Fault::Success(entry.body.byte(4)),
    }
}

/// The whole entries of paths right behind an entry.
fn paths_behind(bytes: &[u8], kinds: Kinds, entry: &Entry) -> usize {
    let behind = &bytes[entry.offset + HEADER + entry.body.len()..];
    let paths = entries(behind).take_while(|other| other.kind == kinds.path);
    paths.count()
}
