//! The control-flow map of an EVM contract: its blocks, its jumps, and the paths by which its
//! dynamic jumps were resolved. The map is made by a proved library; this crate lends it memory,
//! grows what is too small, and reads what comes back.
//!
//! ```
//! use aznifrem::{BlockType, HIGHEST_LIMIT, map};
//!
//! // PUSH1 5, PUSH1 7, JUMP; 5: JUMPDEST, STOP; 7: JUMPDEST, JUMP: a call and its return.
//! let code = [0x60, 5, 0x60, 7, 0x56, 0x5b, 0x00, 0x5b, 0x56];
//! let map = map(&code, HIGHEST_LIMIT)?;
//!
//! let starts: Vec<usize> = map.blocks.keys().copied().collect();
//! assert_eq!(starts, [0, 5, 7]);
//! // The return goes to 5 alone, so it is a plain jump; the record has the path that showed it.
//! assert_eq!(map.blocks[&7].btype, BlockType::Jump { to: 5 });
//! assert_eq!(map.records[0].jump.path, [7, 0]);
//! assert_eq!(map.energy, 2);
//! # Ok::<(), aznifrem::Error>(())
//! ```
//!
//! A [`Mapper`] keeps its memory between calls; [`Map::from_bytes`] reads a map that was stored;
//! [`Mapper::json`] gives the blocks as JSON; a [`Report`] adds up many stored maps; [`Salvaged::of`]
//! salvages an archive of them; [`Followed::of`] follows a log through one; [`Inspected::of`]
//! replays the paths of one, whoever made it. [`call`], [`call_json`], [`read()`], [`report_add`],
//! [`report_join`], [`salvage()`], [`follow()`], [`inspect()`] and [`inspect_from`] are the library's own calls, for those who lend the memory themselves.

#![warn(missing_docs)]

mod bounds;
mod call;
mod entries;
mod error;
mod fault;
mod follow;
mod inspect;
mod json;
mod kinds;
mod map;
mod mapper;
mod mode;
mod read;
mod report;
mod room;
mod rooms;
mod salvage;
mod write;

#[cfg(target_arch = "x86_64")]
#[path = "linked.rs"]
mod exported;

#[cfg(not(target_arch = "x86_64"))]
mod emulator;
#[cfg(not(target_arch = "x86_64"))]
#[path = "relayed.rs"]
mod exported;
#[cfg(not(target_arch = "x86_64"))]
mod memory;
#[cfg(not(target_arch = "x86_64"))]
mod relay;

pub use bounds::{HIGHEST_LIMIT, LONGEST_CODE, LONGEST_DEPLOYED, RELAYED};
pub use call::{Lent, call, call_by, call_in, call_json, call_json_by, call_json_in};
pub use error::{Error, Fault, NotRelayed, Unreadable, Unwritable};
pub use follow::{Counts, Followed, NotFollowed, follow};
pub use inspect::{Inspected, NotInspected, WrongPath, inspect, inspect_from};
pub use kinds::Kinds;
pub use map::{Block, BlockType, DynamicJump, Map, Record};
pub use mapper::Mapper;
pub use mode::Mode;
pub use read::read;
pub use report::{NotReported, REPORT_BYTES, Report, report_add, report_join};
pub use room::Room;
pub use salvage::{Salvaged, salvage};

/// The map of a code, made with an energy limit of at most [`HIGHEST_LIMIT`], in memory of its
/// own up to [`Mapper::DEFAULT_CEILING`]. For many codes, a [`Mapper`] is faster.
///
/// ```
/// use aznifrem::{Error, map};
///
/// assert_eq!(map(&[0x00], 0)?.blocks.len(), 1);
/// assert_eq!(map(&[0x00], 500_001), Err(Error::LimitTooHigh { limit: 500_001 }));
/// # Ok::<(), aznifrem::Error>(())
/// ```
pub fn map(code: &[u8], limit: u64) -> Result<Map, Error> {
    Mapper::new().map(code, limit)
}
