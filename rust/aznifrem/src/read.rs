//! Reading a stored map: the proved library judges its bytes, and what it accepts is taken as it stands.

use std::collections::BTreeMap;

use crate::entries::{Body, Entry, entries};
use crate::error::{NotRelayed, Unreadable};
use crate::exported;
use crate::fault::fault;
use crate::kinds::{DYNAMIC_JUMP, DYNAMIC_JUMPI, HEAD, JUMP, JUMPI, Kinds};
use crate::map::{Block, BlockType, DynamicJump, Map, Record};

/// The library's own reader: 0 if the bytes hold a map, else 12 and 256 times the offset of their
/// first bad entry; wrong counts of the head are looked at last and give offset 0.
///
/// ```
/// use aznifrem::{Mapper, read};
///
/// let stored = Mapper::new().entries(&[0x00], 0)?.to_vec();
/// assert_eq!(read(&stored), 0);
/// assert_eq!(read(&stored[..20]), 12 + 256 * 18);
/// # Ok::<(), aznifrem::Error>(())
/// ```
///
/// # Panics
///
/// On a machine that is not x86-64, if the library cannot be reached there:
/// [`NotRelayed`](crate::NotRelayed) says why.
pub fn read(map: &[u8]) -> u64 {
    match exported::aznifrem_read(map) {
        Ok(number) => number,
        Err(not_relayed) => panic!("{not_relayed}"),
    }
}

impl Map {
    /// Reads a map from the entries of documents 01 and 02, by the library's reader. Whatever is accepted
    /// is written again to the same bytes by [`Map::to_bytes`].
    ///
    /// ```
    /// use aznifrem::{Map, Mapper};
    ///
    /// let mut mapper = Mapper::new();
    /// let stored = mapper.entries(&[0x60, 0x03, 0x56, 0x5b, 0x00], 500_000)?.to_vec();
    /// let map = Map::from_bytes(&stored)?;
    /// assert_eq!(map.to_bytes()?, stored);
    ///
    /// let cut = Map::from_bytes(&stored[..20]).unwrap_err();
    /// assert_eq!(cut.offset, 18);
    /// assert!(cut.to_string().contains("byte 18"));
    /// # Ok::<(), Box<dyn std::error::Error>>(())
    /// ```
    ///
    /// # Panics
    ///
    /// As [`read`] does; no bytes make it panic. [`Map::try_from_bytes`] gives that as an error.
    pub fn from_bytes(bytes: &[u8]) -> Result<Map, Unreadable> {
        match Map::try_from_bytes(bytes) {
            Ok(read) => read,
            Err(not_relayed) => panic!("{not_relayed}"),
        }
    }

    /// The same; the outer error only where the machine is not x86-64 and the library cannot be
    /// reached: then nothing is known of the bytes.
    ///
    /// ```
    /// use aznifrem::{Error, Map};
    ///
    /// fn blocks(stored: &[u8]) -> Result<usize, Error> {
    ///     let map = Map::try_from_bytes(stored)?;
    ///     Ok(map.map_or(0, |map| map.blocks.len()))
    /// }
    /// assert_eq!(blocks(&[12, 0]), Ok(0));
    /// ```
    pub fn try_from_bytes(bytes: &[u8]) -> Result<Result<Map, Unreadable>, NotRelayed> {
        let number = exported::aznifrem_read(bytes)?;
        if number == 0 {
            return Ok(Ok(held(bytes)));
        }
        let offset = (number >> 8) as usize;
        let fault = fault(bytes, offset);
        Ok(Err(Unreadable { offset, fault }))
    }
}

/// The map of bytes that were accepted.
fn held(bytes: &[u8]) -> Map {
    let mut map = Map {
        code_length: 0,
        blocks: BTreeMap::new(),
        records: Vec::new(),
        energy: 0,
    };
    let kinds = Kinds::of_map(bytes);
    for Entry { kind, body, .. } in entries(bytes) {
        if kind == HEAD {
            (map.code_length, map.energy) = (body.address(0), body.count(8));
        } else if kind == kinds.path {
            let jump = way(kinds, body, 0, 2);
            if let Some(mut block) = map.blocks.last_entry() {
                enter(&mut block.get_mut().btype, jump);
            }
        } else if kinds.is_record(kind) {
            map.records.push(record(kinds, kind, body));
        } else {
            let block = block(kind, body);
            map.blocks.insert(block.start, block);
        }
    }
    map
}

/// With its number or without.
fn record(kinds: Kinds, kind: u16, body: Body) -> Record {
    let numbered = kind == kinds.numbered;
    Record {
        start: body.address(0),
        jump: way(kinds, body, 2, if numbered { 8 } else { 4 }),
        energy: numbered.then(|| body.count(4)),
    }
}

fn block(kind: u16, body: Body) -> Block {
    let btype = match kind {
        JUMP => BlockType::Jump {
            to: body.address(4),
        },
        JUMPI => BlockType::Jumpi {
            true_to: body.address(4),
            false_to: body.address(6),
        },
        DYNAMIC_JUMP => BlockType::DynamicJump { to: Vec::new() },
        DYNAMIC_JUMPI => BlockType::DynamicJumpi {
            true_to: Vec::new(),
            false_to: body.address(4),
        },
        _ => BlockType::Terminate {
            success: body.byte(4) == 1,
        },
    };
    Block {
        start: body.address(0),
        end: body.address(2),
        btype,
    }
}

/// An entry of kind 7 or 10 is of the block before it.
fn enter(btype: &mut BlockType, jump: DynamicJump) {
    if let BlockType::DynamicJump { to: jumps } | BlockType::DynamicJumpi { true_to: jumps, .. } =
        btype
    {
        jumps.push(jump);
    }
}

/// The destination at a place, and the path whose length stands at another.
fn way(kinds: Kinds, body: Body, at: usize, length: usize) -> DynamicJump {
    let to = body.address(at);
    DynamicJump {
        path: body.path(length + 4),
        to: (to != usize::from(kinds.nowhere)).then_some(to),
    }
}
