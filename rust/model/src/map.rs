//! What an answered call comes to.

use crate::blocks::Block;
use crate::rooms::Needs;
use crate::search::Record;

/// An answered call: the map, the records as found, the energy, and what was asked of each room.
#[derive(Clone, Debug, PartialEq, Eq)]
pub struct Map {
    pub blocks: Vec<Block>,
    pub records: Vec<Record>,
    pub energy: u64,
    pub needs: Needs,
}
