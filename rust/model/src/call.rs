//! A whole call: the refusals in their order, the blocks, the search, merging and pruning.

use crate::blocks::{Block, Entry, Kind, blocks};
use crate::bounds::{HIGHEST_LIMIT, LONGEST_CODE};
use crate::entries;
use crate::map::Map;
use crate::reach::pruned;
use crate::rooms::{Lent, Needs, Refusal, Room, Rooms, work};
use crate::search::{Found, Record, search};

/// The map of a code in mode 0, or the first refusal met.
pub fn map(lent: &Lent, limit: u64, code: &[u8]) -> Result<Map, Refusal> {
    map_in(0, lent, limit, code)
}

/// The same in a mode, by its number.
pub fn map_in(mode: u64, lent: &Lent, limit: u64, code: &[u8]) -> Result<Map, Refusal> {
    map_by(1, mode, lent, limit, code)
}

/// The same with a choice: the records have their numbers if it is 0.
pub fn map_by(
    choice: u64,
    mode: u64,
    lent: &Lent,
    limit: u64,
    code: &[u8],
) -> Result<Map, Refusal> {
    if code.len() > LONGEST_CODE {
        return Err(Refusal::CodeTooLong);
    }
    if limit > HIGHEST_LIMIT {
        return Err(Refusal::LimitTooHigh);
    }
    let zero_known = match mode {
        0 => false,
        1 => true,
        _ => return Err(Refusal::NoSuchMode),
    };
    if lent.w < work(code.len()) {
        return Err(Refusal::WorkShort);
    }
    let mut rooms = Rooms::new(lent);
    let mut map = merged(choice, code, zero_known, limit, &mut rooms)?;
    let reached = pruned(&map.blocks, code.len() + 1);
    map.blocks.retain(|block| reached[block.start]);
    rooms.ask(Room::Out, entries::length(&map))?;
    map.needs = rooms.asked;
    Ok(map)
}

/// The same "with that run's edges before pruning" (document 02, No. 12).
pub fn unpruned_by(choice: u64, zero_known: bool, limit: u64, code: &[u8]) -> Result<Map, Refusal> {
    merged(choice, code, zero_known, limit, &mut Rooms::new(&Lent::ALL))
}

/// The blocks with what the search found, merged and not yet pruned.
fn merged(
    choice: u64,
    code: &[u8],
    zero_known: bool,
    limit: u64,
    rooms: &mut Rooms,
) -> Result<Map, Refusal> {
    let mut cut = blocks(code);
    let Found {
        mut records,
        energy,
    } = search(code, zero_known, &mut cut, limit, rooms)?;
    if choice != 0 {
        records.iter_mut().for_each(|record| record.energy = None);
    }
    for record in &records {
        enter(&mut cut, record);
    }
    cut.iter_mut().for_each(merge);
    Ok(Map {
        blocks: cut,
        records,
        energy,
        needs: Needs::default(),
    })
}

/// A record is an entry of its block; "DynamicJump drops entries without destination".
fn enter(blocks: &mut [Block], record: &Record) {
    let place = blocks.binary_search_by_key(&record.start, |block| block.start);
    let block = &mut blocks[place.expect("a record is of a block")];
    let entry = Entry {
        to: record.to,
        path: record.path.clone(),
    };
    match &mut block.kind {
        Kind::DynamicJump { entries } if record.to.is_some() => entries.push(entry),
        Kind::DynamicJumpi { entries, .. } => entries.push(entry),
        _ => {}
    }
}

/// "A DynamicJump whose entries share one target becomes a Jump."
fn merge(block: &mut Block) {
    if let Kind::DynamicJump { entries } = &block.kind
        && let Some(Entry { to: Some(to), .. }) = entries.first()
        && entries.iter().all(|entry| entry.to == Some(*to))
    {
        block.kind = Kind::Jump { to: *to };
    }
}
