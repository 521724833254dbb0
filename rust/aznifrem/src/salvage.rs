//! Salvaging an archive: stored maps that stand one after another, of which an end may be missing.

use crate::error::NotRelayed;
use crate::exported;

/// Bytes of the report: four numbers.
const REPORT: usize = 32;
/// "18, output room short".
const SHORT: u64 = 18;

/// The library's own call: copies each map that reads whole to `out`, up to the first that does not,
/// and writes four numbers of 8 bytes, little-endian, to `report`, as [`Salvaged`] has them. Gives 0; or
/// 18 where `out` or `report`, which takes 32 bytes, is short, and then neither is touched. On 0 the
/// other bytes of both are untouched.
///
/// ```
/// use aznifrem::{Mapper, salvage};
///
/// let map = Mapper::new().entries(&[0x00], 0)?.to_vec();
/// let cut = [&map[..], &map[..20]].concat();
/// let (mut out, mut report) = ([0xaa; 40], [0xaa; 33]);
/// assert_eq!(salvage(&cut, &mut out, &mut report), 0);
/// assert_eq!((&out[..29], out[29]), (&map[..], 0xaa));
/// assert_eq!([report[0], report[8], report[16], report[24], report[32]], [1, 29, 20, 47, 0xaa]);
/// assert_eq!(salvage(&cut, &mut out[..28], &mut report), 18);
/// # Ok::<(), aznifrem::Error>(())
/// ```
///
/// # Panics
///
/// On a machine that is not x86-64, if the library cannot be reached there: [`NotRelayed`] says why.
/// [`Salvaged::of`] gives that as an error.
pub fn salvage(archive: &[u8], out: &mut [u8], report: &mut [u8]) -> u64 {
    match exported::aznifrem_salvage(archive, out, report) {
        Ok(number) => number,
        Err(not_relayed) => panic!("{not_relayed}"),
    }
}

/// What was salvaged of an archive.
#[derive(Clone, Copy, Debug, Default, PartialEq, Eq)]
pub struct Salvaged {
    /// Maps that are copied.
    pub maps: u64,
    /// Bytes that they have.
    pub copied: u64,
    /// Bytes that are dropped: those from the start of the first map on that does not read whole.
    pub dropped: u64,
    /// Where the first bad entry stands; the archive's length if there is none.
    pub offset: u64,
}

impl Salvaged {
    /// Salvages an archive into `out`, by the library; `None` if that is short, and then it is
    /// untouched. As many bytes as the archive has are enough. An error only where the machine is not
    /// x86-64 and the library cannot be reached.
    ///
    /// ```
    /// use aznifrem::{Mapper, Salvaged};
    ///
    /// let map = Mapper::new().entries(&[0x00], 0)?.to_vec();
    /// let cut = [&map[..], &map[..20]].concat();
    /// let mut out = vec![0; cut.len()];
    /// let salvaged = Salvaged::of(&cut, &mut out)?.expect("there is room");
    /// let expected = Salvaged { maps: 1, copied: 29, dropped: 20, offset: 47 };
    /// assert_eq!(salvaged, expected);
    /// assert_eq!(out[..29], map);
    /// # Ok::<(), aznifrem::Error>(())
    /// ```
    pub fn of(archive: &[u8], out: &mut [u8]) -> Result<Option<Salvaged>, NotRelayed> {
        let mut report = [0; REPORT];
        let number = exported::aznifrem_salvage(archive, out, &mut report)?;
        Ok((number != SHORT).then(|| printed(&report)))
    }
}

/// The four numbers, as they are printed.
fn printed(report: &[u8; REPORT]) -> Salvaged {
    let (numbers, _) = report.as_chunks::<8>();
    let number = |at: usize| u64::from_le_bytes(numbers[at]);
    Salvaged {
        maps: number(0),
        copied: number(1),
        dropped: number(2),
        offset: number(3),
    }
}
