//! Writing the entries of document 01.

use crate::error::Unwritable;
use crate::kinds::{DYNAMIC_JUMP, DYNAMIC_JUMPI, HEAD, JUMP, JUMPI, Kinds, TERMINATE};
use crate::map::{Block, BlockType, DynamicJump, Map};

type Written = Result<(), Unwritable>;

impl Map {
    /// The entries of document 01 for this map, of the [`Kinds`] of its code's length; the records with their numbers, if
    /// each has its own.
    pub fn to_bytes(&self) -> Result<Vec<u8>, Unwritable> {
        map(self)
    }
}

/// Head, blocks by start each with its paths, records as found.
fn map(map: &Map) -> Result<Vec<u8>, Unwritable> {
    let kinds = Kinds::of_code(map.code_length);
    let mut out = Vec::new();
    let mut head = Body::default();
    head.address(map.code_length)?;
    head.address(map.blocks.len())?;
    head.count(map.records.len())?;
    head.0.extend(map.energy.to_le_bytes());
    entry(&mut out, HEAD, &head)?;
    for (start, found) in &map.blocks {
        block(&mut out, kinds, *start, found)?;
    }
    let numbered = map.records.iter().all(|record| record.energy.is_some());
    for record in &map.records {
        let mut body = Body::default();
        body.address(record.start)?;
        body.destination(kinds, &record.jump)?;
        let number = record.energy.filter(|_| numbered);
        body.0.extend(number.into_iter().flat_map(u32::to_le_bytes));
        body.path(&record.jump)?;
        let kind = if numbered {
            kinds.numbered
        } else {
            kinds.record
        };
        entry(&mut out, kind, &body)?;
    }
    Ok(out)
}

#[derive(Default)]
struct Body(Vec<u8>);

impl Body {
    fn address(&mut self, value: usize) -> Written {
        let two = u16::try_from(value).map_err(|_| Unwritable { value })?;
        self.0.extend(two.to_le_bytes());
        Ok(())
    }

    fn count(&mut self, value: usize) -> Written {
        let four = u32::try_from(value).map_err(|_| Unwritable { value })?;
        self.0.extend(four.to_le_bytes());
        Ok(())
    }

    fn way(&mut self, kinds: Kinds, jump: &DynamicJump) -> Written {
        self.destination(kinds, jump)?;
        self.path(jump)
    }

    fn destination(&mut self, kinds: Kinds, jump: &DynamicJump) -> Written {
        let nowhere = usize::from(kinds.nowhere);
        match jump.to {
            Some(value) if value == nowhere => Err(Unwritable { value }),
            to => self.address(to.unwrap_or(nowhere)),
        }
    }

    fn path(&mut self, jump: &DynamicJump) -> Written {
        self.count(jump.path.len())?;
        jump.path.iter().try_for_each(|start| self.address(*start))
    }
}

fn entry(out: &mut Vec<u8>, kind: u16, body: &Body) -> Written {
    let mut length = Body::default();
    length.count(body.0.len())?;
    out.extend(length.0);
    out.extend(kind.to_le_bytes());
    out.extend(&body.0);
    Ok(())
}

/// The block's key is its start, whatever the block says.
fn block(out: &mut Vec<u8>, kinds: Kinds, start: usize, block: &Block) -> Written {
    let mut body = Body::default();
    body.address(start)?;
    body.address(block.end)?;
    let kind = match &block.btype {
        BlockType::Terminate { success } => {
            body.0.push(u8::from(*success));
            TERMINATE
        }
        BlockType::Jump { to } => {
            body.address(*to)?;
            JUMP
        }
        BlockType::Jumpi { true_to, false_to } => {
            body.address(*true_to)?;
            body.address(*false_to)?;
            JUMPI
        }
        BlockType::DynamicJump { to } => {
            body.count(to.len())?;
            DYNAMIC_JUMP
        }
        BlockType::DynamicJumpi { true_to, false_to } => {
            body.address(*false_to)?;
            body.count(true_to.len())?;
            DYNAMIC_JUMPI
        }
    };
    entry(out, kind, &body)?;
    for jump in block.btype.found() {
        let mut body = Body::default();
        body.way(kinds, jump)?;
        entry(out, kinds.path, &body)?;
    }
    Ok(())
}
