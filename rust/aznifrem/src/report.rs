//! A release in numbers: one report for many stored maps, fed one after another.

use std::fmt;

use crate::error::{Error, NotRelayed, Unreadable};
use crate::exported;
use crate::fault::fault;

/// The bytes of a report: 15 numbers of 8 bytes.
pub const REPORT_BYTES: usize = 120;

const BAD_ENTRY: u64 = 12;
const TOTAL_TOO_LARGE: u64 = 16;

/// The totals of stored maps. A new one, of no maps, is [`Report::default`].
///
/// ```
/// use aznifrem::{Mapper, Report};
///
/// let mut mapper = Mapper::new();
/// let mut report = Report::default();
/// report.add(mapper.entries(&[0x60, 5, 0x60, 7, 0x56, 0x5b, 0x00, 0x5b, 0x56], 500_000)?)?;
/// // PUSH0, JUMP: a jump to nowhere.
/// report.add(mapper.entries(&[0x5f, 0x56], 500_000)?)?;
/// assert_eq!((report.maps, report.jump, report.unresolved), (2, 2, 1));
/// assert_eq!(report.share, (1, 1));
/// # Ok::<(), Box<dyn std::error::Error>>(())
/// ```
#[derive(Clone, Copy, Debug, PartialEq, Eq)]
pub struct Report {
    /// Maps that were added.
    pub maps: u64,
    /// Blocks of kind 2.
    pub terminate: u64,
    /// Blocks of kind 3.
    pub jump: u64,
    /// Blocks of kind 4.
    pub jumpi: u64,
    /// Blocks of kind 5.
    pub dynamic_jump: u64,
    /// Blocks of kind 6.
    pub dynamic_jumpi: u64,
    /// Dynamic blocks with no destination.
    pub unresolved: u64,
    /// Dynamic blocks with one destination.
    pub one: u64,
    /// Dynamic blocks with several distinct destinations.
    pub several: u64,
    /// Records with a destination.
    pub found: u64,
    /// Records without a destination.
    pub nowhere: u64,
    /// Addresses of the longest path.
    pub longest: u64,
    /// Energy of all maps.
    pub energy: u64,
    /// Unresolved over all dynamic blocks, in lowest terms; 0 over 1 if there are none.
    pub share: (u64, u64),
}

/// Why a report stayed as it was.
#[derive(Clone, Debug, PartialEq, Eq)]
#[non_exhaustive]
pub enum NotReported {
    /// The bytes are no stored map (12).
    NoMap(Unreadable),
    /// A total would not fit 64 bits (16).
    TooLarge,
    /// The linked library gave a number that document 02 does not have.
    NoSuchAnswer {
        /// The number.
        number: u64,
    },
    /// The library could not be reached.
    NotRelayed(NotRelayed),
}

impl fmt::Display for NotReported {
    fn fmt(&self, f: &mut fmt::Formatter<'_>) -> fmt::Result {
        match self {
            NotReported::NoMap(bad) => write!(f, "the bytes are no stored map: {bad}"),
            NotReported::TooLarge => f.write_str("a total of the report would not fit 64 bits"),
            NotReported::NoSuchAnswer { number } => Error::NoSuchAnswer { number: *number }.fmt(f),
            NotReported::NotRelayed(why) => why.fmt(f),
        }
    }
}

impl std::error::Error for NotReported {
    fn source(&self) -> Option<&(dyn std::error::Error + 'static)> {
        match self {
            NotReported::NoMap(bad) => Some(bad),
            NotReported::NotRelayed(why) => Some(why),
            _ => None,
        }
    }
}

impl From<NotRelayed> for NotReported {
    fn from(why: NotRelayed) -> NotReported {
        NotReported::NotRelayed(why)
    }
}

impl Default for Report {
    fn default() -> Report {
        Report {
            share: (0, 1),
            ..Report::from_numbers([0; 15])
        }
    }
}

impl Report {
    /// Adds a stored map; on an error the report is as before.
    pub fn add(&mut self, map: &[u8]) -> Result<(), NotReported> {
        let mut bytes = self.to_bytes();
        match exported::aznifrem_report_add(&mut bytes, map)? {
            number if number & 0xff == BAD_ENTRY => {
                let offset = (number >> 8) as usize;
                let fault = fault(map, offset);
                Err(NotReported::NoMap(Unreadable { offset, fault }))
            }
            number => self.take(number, &bytes),
        }
    }

    /// Joins the report of other maps: it is then the report of all of them, in whatever order
    /// they were added. On an error the report is as before.
    pub fn join(&mut self, other: &Report) -> Result<(), NotReported> {
        let mut bytes = self.to_bytes();
        let number = exported::aznifrem_report_join(&mut bytes, &other.to_bytes())?;
        self.take(number, &bytes)
    }

    /// The report that a call wrote, if its number says that it did.
    fn take(&mut self, number: u64, bytes: &[u8; REPORT_BYTES]) -> Result<(), NotReported> {
        match number {
            0 => *self = Report::from_bytes(bytes),
            TOTAL_TOO_LARGE => return Err(NotReported::TooLarge),
            _ => return Err(NotReported::NoSuchAnswer { number }),
        }
        Ok(())
    }

    /// All blocks.
    pub fn blocks(&self) -> u128 {
        let kinds = [
            self.terminate,
            self.jump,
            self.jumpi,
            self.dynamic_jump,
            self.dynamic_jumpi,
        ];
        kinds.into_iter().map(u128::from).sum()
    }

    /// The report's numbers, in the order of its bytes.
    pub fn numbers(&self) -> [u64; 15] {
        [
            self.maps,
            self.terminate,
            self.jump,
            self.jumpi,
            self.dynamic_jump,
            self.dynamic_jumpi,
            self.unresolved,
            self.one,
            self.several,
            self.found,
            self.nowhere,
            self.longest,
            self.energy,
            self.share.0,
            self.share.1,
        ]
    }

    fn from_numbers(n: [u64; 15]) -> Report {
        Report {
            maps: n[0],
            terminate: n[1],
            jump: n[2],
            jumpi: n[3],
            dynamic_jump: n[4],
            dynamic_jumpi: n[5],
            unresolved: n[6],
            one: n[7],
            several: n[8],
            found: n[9],
            nowhere: n[10],
            longest: n[11],
            energy: n[12],
            share: (n[13], n[14]),
        }
    }

    /// The bytes of the report, as the library's calls take them.
    pub fn to_bytes(&self) -> [u8; REPORT_BYTES] {
        let mut bytes = [0; REPORT_BYTES];
        for (eight, number) in bytes.chunks_exact_mut(8).zip(self.numbers()) {
            eight.copy_from_slice(&number.to_le_bytes());
        }
        bytes
    }

    /// The report that bytes are; all zero bytes are [`Report::default`].
    pub fn from_bytes(bytes: &[u8; REPORT_BYTES]) -> Report {
        let mut numbers = [0; 15];
        for (number, eight) in numbers.iter_mut().zip(bytes.chunks_exact(8)) {
            *number = eight
                .iter()
                .rev()
                .fold(0, |n, byte| n << 8 | u64::from(*byte));
        }
        if numbers == [0; 15] {
            return Report::default();
        }
        Report::from_numbers(numbers)
    }
}

/// The library's own call: adds a stored map to the first 120 bytes of a report. 0; or 16; or 12
/// and 256 times the offset of the map's first bad entry. A refusal leaves the report as it is.
///
/// ```
/// let mut report = [0; 121];
/// assert_eq!(aznifrem::report_add(&mut report, &[12, 0]), 12);
/// let map = aznifrem::Mapper::new().entries(&[0x00], 0)?.to_vec();
/// assert_eq!(aznifrem::report_add(&mut report[..119], &map), 16);
/// assert_eq!(aznifrem::report_add(&mut report, &map), 0);
/// assert_eq!((report[0], report[8], report[112]), (1, 1, 1));
/// # Ok::<(), aznifrem::Error>(())
/// ```
///
/// # Panics
///
/// On a machine that is not x86-64, if the library cannot be reached there:
/// [`NotRelayed`](crate::NotRelayed) says why.
pub fn report_add(report: &mut [u8], map: &[u8]) -> u64 {
    reached(exported::aznifrem_report_add(report, map))
}

/// The library's own call: joins another report to a report. 0, or 16.
///
/// # Panics
///
/// As [`report_add`] does.
pub fn report_join(report: &mut [u8], other: &[u8]) -> u64 {
    reached(exported::aznifrem_report_join(report, other))
}

fn reached(given: Result<u64, NotRelayed>) -> u64 {
    match given {
        Ok(number) => number,
        Err(not_relayed) => panic!("{not_relayed}"),
    }
}

#[cfg(test)]
mod tests {
    use super::{NotReported, Report};

    #[test]
    fn a_number_that_is_no_answer_is_told_and_changes_nothing() {
        let (mut report, written) = (Report::default(), [1; 120]);
        assert_eq!(report.take(16, &written), Err(NotReported::TooLarge));
        for number in [1, 11, 17, 16 + 256] {
            let told = report.take(number, &written);
            assert_eq!(told, Err(NotReported::NoSuchAnswer { number }));
            let sentence = told.unwrap_err().to_string();
            assert!(
                sentence.contains(&format!("answered {number}, which is no answer")),
                "{sentence}"
            );
        }
        assert_eq!(report, Report::default());
    }
}
