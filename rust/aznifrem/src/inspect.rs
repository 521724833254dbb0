//! Inspecting the path entries of a stored map, whoever made it (document 02, No. 12).

use std::fmt;

use crate::error::{NotRelayed, Unreadable};
use crate::exported;
use crate::map::Map;
use crate::mode::Mode;

/// "64 × code length + 256".
const WORK: usize = 64;
const WORK_MORE: usize = 256;
/// A row of the call: offset and place. How many rows are lent at first.
const ROW: usize = 16;
const FIRST_ROWS: usize = 256;

/// The library's own call: 0 where every path entry with a destination is right; or 1, 13 or 3 as for
/// a map, 12 and 256 times the offset of the first bad entry, 17 and 256 times the offset of the first
/// path entry that is not right, with the place in its path in `place` where it has 8 bytes. With 1,
/// 13 and 3 nothing is touched; else `w` is all zero bytes.
///
/// # Panics
///
/// On a machine that is not x86-64, if the library cannot be reached there: [`NotRelayed`] says why.
pub fn inspect(mode: u64, code: &[u8], map: &[u8], w: &mut [u8], place: &mut [u8]) -> u64 {
    match exported::aznifrem_inspect(mode, code, map, w, place) {
        Ok(number) => number,
        Err(not_relayed) => panic!("{not_relayed}"),
    }
}

/// The same call of the path entries that stand at the offset `from` or later, with a row of 16 bytes in `rows` for each
/// that is not right, as many as there is room for: its offset and the place in its path, little-endian.
///
/// # Panics
///
/// On a machine that is not x86-64, if the library cannot be reached there: [`NotRelayed`] says why.
pub fn inspect_from(
    mode: u64,
    from: u64,
    code: &[u8],
    map: &[u8],
    w: &mut [u8],
    rows: &mut [u8],
) -> u64 {
    match exported::aznifrem_inspect_from(mode, from, code, map, w, rows) {
        Ok(number) => number,
        Err(not_relayed) => panic!("{not_relayed}"),
    }
}

/// A path entry that is not right.
#[derive(Clone, Copy, Debug, PartialEq, Eq)]
pub struct WrongPath {
    /// Where the entry stands in the map's bytes.
    pub offset: usize,
    /// The place in its path of the first block that fails; 0 if the path is empty or only the symbol differs.
    pub place: usize,
}

/// What inspecting a map gives.
#[derive(Clone, Debug, PartialEq, Eq)]
pub struct Inspected {
    /// The path entries that are not right, in order.
    pub wrong: Vec<WrongPath>,
}

/// Why no map was inspected.
#[derive(Clone, Debug, PartialEq, Eq)]
#[non_exhaustive]
pub enum NotInspected {
    /// The code has more bytes than init code may have.
    CodeTooLong {
        /// How many it has.
        length: usize,
    },
    /// The bytes are no stored map.
    Unreadable(Unreadable),
    /// The library cannot be reached on this machine.
    NotRelayed(NotRelayed),
}

impl fmt::Display for NotInspected {
    fn fmt(&self, f: &mut fmt::Formatter) -> fmt::Result {
        match self {
            NotInspected::CodeTooLong { length } => {
                let longest = crate::LONGEST_CODE;
                write!(
                    f,
                    "the code has {length} bytes; at most {longest} are inspected"
                )
            }
            NotInspected::Unreadable(bad) => bad.fmt(f),
            NotInspected::NotRelayed(not) => not.fmt(f),
        }
    }
}

impl std::error::Error for NotInspected {}

impl Inspected {
    /// Inspects the path entries of a stored map against a code, in a mode.
    ///
    /// ```
    /// use aznifrem::{Inspected, Mapper, Mode};
    ///
    /// let code = [0x60, 5, 0x60, 7, 0x56, 0x5b, 0x00, 0x5b, 0x56];
    /// let mut stored = Mapper::new().entries(&code, 500_000)?.to_vec();
    /// assert!(Inspected::of(&stored, &code, Mode::Plain)?.wrong.is_empty());
    /// // The record's destination, moved from 5 to 7.
    /// stored[61] = 7;
    /// let wrong = Inspected::of(&stored, &code, Mode::Plain)?.wrong;
    /// assert_eq!((wrong[0].offset, wrong[0].place), (53, 0));
    /// # Ok::<(), Box<dyn std::error::Error>>(())
    /// ```
    pub fn of(map: &[u8], code: &[u8], mode: Mode) -> Result<Inspected, NotInspected> {
        if code.len() > crate::LONGEST_CODE {
            return Err(NotInspected::CodeTooLong { length: code.len() });
        }
        let held = Map::try_from_bytes(map).map_err(NotInspected::NotRelayed)?;
        held.map_err(NotInspected::Unreadable)?;
        let mut w = vec![0; WORK * code.len() + WORK_MORE];
        let mut rows = vec![0; FIRST_ROWS * ROW];
        let (mut from, mut wrong) = (0, Vec::new());
        loop {
            let number = mode.number();
            let given = exported::aznifrem_inspect_from(number, from, code, map, &mut w, &mut rows);
            let given = given.map_err(NotInspected::NotRelayed)?;
            if given == 0 {
                return Ok(Inspected { wrong });
            }
            assert_eq!(
                given & 0xff,
                17,
                "the code, the mode, the room and the map are fine"
            );
            wrong.extend(rows.chunks_exact(ROW).map_while(WrongPath::of_row));
            if WrongPath::of_row(&rows[rows.len() - ROW..]).is_none() {
                return Ok(Inspected { wrong });
            }
            // Twice the rows for what is left: the map is read once for each doubling.
            from = wrong.last().map_or(0, |last| last.offset as u64 + 1);
            rows = vec![0; 2 * rows.len()];
        }
    }
}

impl WrongPath {
    /// None where nothing was written: no path entry stands at offset 0, where the head does.
    fn of_row(row: &[u8]) -> Option<WrongPath> {
        let (offset, place) = row.split_first_chunk::<8>()?;
        let offset = u64::from_le_bytes(*offset) as usize;
        let place = u64::from_le_bytes(*place.first_chunk::<8>()?) as usize;
        (offset != 0).then_some(WrongPath { offset, place })
    }
}
