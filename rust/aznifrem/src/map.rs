//! The map, in evmole's shape.

use std::collections::BTreeMap;
use std::fmt;

/// The map of a code: blocks by start, the record, the energy that the search used.
#[derive(Clone, Debug, PartialEq, Eq)]
pub struct Map {
    /// Bytes of the code.
    pub code_length: usize,
    /// The blocks that are reached from 0, by their start.
    pub blocks: BTreeMap<usize, Block>,
    /// Every path that the search settled, in the order in which it was found.
    pub records: Vec<Record>,
    /// Units of energy used: at most the limit and 256 more.
    pub energy: u32,
}

/// A run of instructions that is entered at its first and left at its last.
#[derive(Clone, Debug, PartialEq, Eq)]
pub struct Block {
    /// Where its first instruction stands.
    pub start: usize,
    /// Where its last instruction stands.
    pub end: usize,
    /// How control goes on after it.
    pub btype: BlockType,
}

/// How control goes on after a block.
#[derive(Clone, Debug, PartialEq, Eq)]
pub enum BlockType {
    /// It ends here.
    Terminate {
        /// By STOP, RETURN or SELFDESTRUCT.
        success: bool,
    },
    /// A jump.
    Jump {
        /// Its destination.
        to: usize,
    },
    /// A jump on a condition.
    Jumpi {
        /// The destination if the condition is true.
        true_to: usize,
        /// The destination if it is false.
        false_to: usize,
    },
    /// A jump to what lies on the stack.
    DynamicJump {
        /// The destinations found, and the paths to them.
        to: Vec<DynamicJump>,
    },
    /// A jump on a condition, to what lies on the stack.
    DynamicJumpi {
        /// The destinations found if the condition is true, and the paths to them.
        true_to: Vec<DynamicJump>,
        /// The destination if it is false.
        false_to: usize,
    },
}

/// A destination of a dynamic jump, and the path by which it was found.
#[derive(Clone, Debug, PartialEq, Eq)]
pub struct DynamicJump {
    /// Starts of blocks, from the jump's own backward.
    pub path: Vec<usize>,
    /// The destination, if that path shows one.
    pub to: Option<usize>,
}

/// What the search found for one path.
#[derive(Clone, Debug, PartialEq, Eq)]
pub struct Record {
    /// The start of the block that jumps.
    pub start: usize,
    /// Where to, and by which path.
    pub jump: DynamicJump,
    /// The energy that was used, from the start of the run, when it was made; of a map that was made
    /// or stored without, none.
    pub energy: Option<u32>,
}

impl Map {
    /// The lowest limit at which every jump that was found is found: the highest number of a record
    /// with a destination, 0 if there is none. None where the records have no numbers.
    ///
    /// ```
    /// use aznifrem::Mapper;
    ///
    /// // 0 calls 13 and comes back to 5, which calls it again and comes back to 11.
    /// let code = [
    ///     0x60, 5, 0x60, 13, 0x56, 0x5b, 0x60, 11, 0x60, 13, 0x56, 0x5b, 0x00, 0x5b, 0x56,
    /// ];
    /// let mut mapper = Mapper::new().numbered();
    /// let map = mapper.map(&code, 500_000)?;
    /// assert_eq!((map.energy, map.lowest_limit()), (5, Some(3)));
    /// assert_eq!(mapper.map(&code, 3)?.records, map.records);
    /// assert_eq!(mapper.map(&code, 2)?.records.len(), 1);
    /// assert_eq!(Mapper::new().map(&code, 500_000)?.lowest_limit(), None);
    /// # Ok::<(), aznifrem::Error>(())
    /// ```
    pub fn lowest_limit(&self) -> Option<u32> {
        let found = self
            .records
            .iter()
            .filter(|record| record.jump.to.is_some());
        let numbers: Option<Vec<u32>> = self.records.iter().map(|record| record.energy).collect();
        numbers?;
        Some(found.filter_map(|record| record.energy).max().unwrap_or(0))
    }
}

impl Block {
    /// The block's identity: its start, as evmole has it too.
    pub fn id(&self) -> usize {
        self.start
    }
}

impl BlockType {
    /// Its name in evmole.
    pub fn name(&self) -> &'static str {
        match self {
            BlockType::Terminate { .. } => "Terminate",
            BlockType::Jump { .. } => "Jump",
            BlockType::Jumpi { .. } => "Jumpi",
            BlockType::DynamicJump { .. } => "DynamicJump",
            BlockType::DynamicJumpi { .. } => "DynamicJumpi",
        }
    }

    /// The destinations found for a dynamic jump; none for the other types.
    pub fn found(&self) -> &[DynamicJump] {
        match self {
            BlockType::DynamicJump { to } => to,
            BlockType::DynamicJumpi { true_to, .. } => true_to,
            _ => &[],
        }
    }
}

/// A line for a reader: `7-8 Jump to 5`. The paths of a dynamic jump are counted.
impl fmt::Display for Block {
    fn fmt(&self, f: &mut fmt::Formatter) -> fmt::Result {
        write!(f, "{}-{} {}", self.start, self.end, self.btype.name())?;
        match &self.btype {
            BlockType::Terminate { success: true } => write!(f, ", success"),
            BlockType::Terminate { success: false } => write!(f, ", failure"),
            BlockType::Jump { to } => write!(f, " to {to}"),
            BlockType::Jumpi { true_to, false_to } => {
                write!(f, " to {true_to}, else to {false_to}")
            }
            BlockType::DynamicJump { to } => write!(f, ", paths: {}", to.len()),
            BlockType::DynamicJumpi { true_to, false_to } => {
                write!(f, ", paths: {}, else to {false_to}", true_to.len())
            }
        }
    }
}

/// `to 5 by 7, 0`, or `to nowhere known by 7, 0`.
impl fmt::Display for DynamicJump {
    fn fmt(&self, f: &mut fmt::Formatter) -> fmt::Result {
        match self.to {
            Some(to) => write!(f, "to {to} by ")?,
            None => write!(f, "to nowhere known by ")?,
        }
        let path: Vec<String> = self.path.iter().map(usize::to_string).collect();
        f.write_str(&path.join(", "))
    }
}
