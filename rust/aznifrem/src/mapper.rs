//! Mapping one code after another in the same memory.

use crate::bounds::LONGEST_CODE;
use crate::call::{called, called_json};
use crate::error::Error;
use crate::map::Map;
use crate::mode::Mode;
use crate::room::Room;
use crate::rooms::Rooms;

/// The fewest bytes that an answer has: those of a head.
const LEAST_WRITTEN: u64 = 18;

/// The library's choices: records with their numbers, or without.
const NUMBERED: u64 = 0;
const WITHOUT_NUMBERS: u64 = 1;

/// The bytes of text are counted in these, the bytes of entries below.
const TEXT_UNIT: u64 = 1 << 32;

/// Maps codes in rooms that it keeps, so that a thousand of them allocate a few times. A room
/// grows when the library refuses a call by its number; then the call is made again. At the ceiling
/// all rooms share what it leaves, as often as it takes, so that a code is refused only if what it
/// needs is more than the ceiling. A room that one code made larger than 8 MiB is given back at the
/// next, as every call wipes what it is lent.
///
/// Threads have one each, and none waits for another: `examples/threads.rs` maps a list of codes with
/// every core.
///
/// ```
/// use aznifrem::{HIGHEST_LIMIT, Mapper};
///
/// let mut mapper = Mapper::new();
/// for length in 0..1000 {
///     let code = vec![0x5b; length];
///     assert_eq!(mapper.map(&code, HIGHEST_LIMIT)?.code_length, length);
/// }
/// # Ok::<(), aznifrem::Error>(())
/// ```
#[derive(Debug)]
pub struct Mapper {
    rooms: Rooms,
    choice: u64,
    mode: Mode,
    calls: u64,
}

impl Default for Mapper {
    fn default() -> Mapper {
        Mapper::new()
    }
}

impl Mapper {
    /// What all rooms together may have if the caller does not say: 1 GiB.
    pub const DEFAULT_CEILING: usize = 1 << 30;

    /// A mapper whose rooms may grow to [`Mapper::DEFAULT_CEILING`].
    pub fn new() -> Mapper {
        Mapper::with_ceiling(Mapper::DEFAULT_CEILING)
    }

    /// A mapper whose rooms together may have this many bytes.
    ///
    /// ```
    /// use aznifrem::{Error, Mapper, Room};
    ///
    /// let mut mapper = Mapper::with_ceiling(1000);
    /// let refused = mapper.map(&[0x5b; 100], 0).unwrap_err();
    /// assert!(matches!(refused, Error::RoomFull { room: Room::W, ceiling: 1000, .. }));
    /// ```
    pub fn with_ceiling(bytes: usize) -> Mapper {
        Mapper {
            rooms: Rooms::new(bytes),
            choice: WITHOUT_NUMBERS,
            mode: Mode::default(),
            calls: 0,
        }
    }

    /// The mapper with all its maps made in this mode; without it they are made in [`Mode::Plain`].
    ///
    /// ```
    /// use aznifrem::{BlockType, Mapper, Mode};
    ///
    /// // PUSH1 6, PUSH0, ADD; 4: JUMPDEST, JUMP; 6: JUMPDEST: a sum that is 6 where PUSH0 is known.
    /// let code = [0x60, 6, 0x5f, 0x01, 0x5b, 0x56, 0x5b];
    /// let jump = |mode| Mapper::new().in_mode(mode).map(&code, 500_000).map(|map| map.blocks[&4].btype.clone());
    /// assert!(matches!(jump(Mode::Plain)?, BlockType::DynamicJump { .. }));
    /// assert_eq!(jump(Mode::KnownZero)?, BlockType::Jump { to: 6 });
    /// # Ok::<(), aznifrem::Error>(())
    /// ```
    pub fn in_mode(mut self, mode: Mode) -> Mapper {
        self.mode = mode;
        self
    }

    /// The mapper with all its maps' records having their numbers: the energy that was used when each
    /// was made. Stored, a record is 4 bytes longer.
    ///
    /// ```
    /// use aznifrem::Mapper;
    ///
    /// let code = [0x60, 5, 0x60, 7, 0x56, 0x5b, 0x00, 0x5b, 0x56];
    /// let map = Mapper::new().numbered().map(&code, 500_000)?;
    /// assert_eq!(map.records[0].energy, Some(1));
    /// # Ok::<(), aznifrem::Error>(())
    /// ```
    pub fn numbered(mut self) -> Mapper {
        self.choice = NUMBERED;
        self
    }

    /// The map of a code, made with this energy limit.
    pub fn map(&mut self, code: &[u8], limit: u64) -> Result<Map, Error> {
        let bytes = self.entries(code, limit)?;
        Map::try_from_bytes(bytes)?.map_err(Error::Unreadable)
    }

    /// The map as the library writes it: the entries of document 01, to be stored.
    ///
    /// ```
    /// let mut mapper = aznifrem::Mapper::new();
    /// let stored = mapper.entries(&[], 500_000)?;
    /// assert_eq!(stored, [12, 0, 0, 0, 1, 0, 0, 0, 0, 0, 0, 0, 0, 0, 0, 0, 0, 0]);
    /// # Ok::<(), aznifrem::Error>(())
    /// ```
    pub fn entries(&mut self, code: &[u8], limit: u64) -> Result<&[u8], Error> {
        let number = self.answer(code, limit, false)?;
        self.written(Room::Output, number, number)
    }

    /// The map's blocks as JSON, byte for byte what serde makes of evmole's: a list of objects with
    /// id, start, end, type and data.
    ///
    /// ```
    /// let mut mapper = aznifrem::Mapper::new();
    /// let text = mapper.json(&[0x00], 500_000)?;
    /// assert_eq!(
    ///     text,
    ///     r#"[{"id":0,"start":0,"end":0,"type":"Terminate","data":{"success":true}}]"#
    /// );
    /// # Ok::<(), aznifrem::Error>(())
    /// ```
    pub fn json(&mut self, code: &[u8], limit: u64) -> Result<&str, Error> {
        self.both(code, limit).map(|(_, text)| text)
    }

    /// The entries and the JSON text of one call: both name the same blocks, paths and destinations.
    ///
    /// ```
    /// let mut mapper = aznifrem::Mapper::new();
    /// let (entries, text) = mapper.both(&[], 500_000)?;
    /// assert_eq!((entries.len(), text), (18, "[]"));
    /// # Ok::<(), aznifrem::Error>(())
    /// ```
    pub fn both(&mut self, code: &[u8], limit: u64) -> Result<(&[u8], &str), Error> {
        let number = self.answer(code, limit, true)?;
        let entries = self.written(Room::Output, number % TEXT_UNIT, number)?;
        let text = self.written(Room::Text, number / TEXT_UNIT, number)?;
        let text = std::str::from_utf8(text).map_err(|_| Error::NoSuchAnswer { number })?;
        Ok((entries, text))
    }

    /// Calls until the library answers, with a text or without; gives what it says it has written.
    fn answer(&mut self, code: &[u8], limit: u64, texted: bool) -> Result<u64, Error> {
        // A longer code is refused whatever is lent.
        let length = if code.len() > LONGEST_CODE {
            0
        } else {
            code.len()
        };
        self.rooms.ready(length, texted)?;
        loop {
            self.calls += 1;
            let (choice, mode) = (self.choice, self.mode.number());
            let (mut lent, text) = self.rooms.lent(length);
            let number = if texted {
                called_json(choice, mode, code, limit, &mut lent, text)?
            } else {
                called(choice, mode, code, limit, &mut lent)?
            };
            if number >= LEAST_WRITTEN {
                return Ok(number);
            }
            self.answer_refusal(number, code.len(), limit)?;
        }
    }

    /// The first bytes of a room, so many, as the library's number says.
    fn written(&self, room: Room, count: u64, number: u64) -> Result<&[u8], Error> {
        let count = usize::try_from(count).ok();
        let bytes = count.and_then(|count| self.rooms.written(room, count));
        bytes.ok_or(Error::NoSuchAnswer { number })
    }

    /// Grows the room that is named; an error if the call is not to be made again.
    fn answer_refusal(&mut self, number: u64, length: usize, limit: u64) -> Result<(), Error> {
        match number {
            1 => Err(Error::CodeTooLong { length }),
            2 => Err(Error::LimitTooHigh { limit }),
            _ => match Room::named(number) {
                Some(room) if self.rooms.lends(room) => self.rooms.grow(room),
                _ => Err(Error::NoSuchAnswer { number }),
            },
        }
    }

    /// Bytes that its rooms have together.
    pub fn lent(&self) -> usize {
        self.rooms.bytes()
    }

    /// How often a room was allocated, since the mapper was made.
    pub fn allocations(&self) -> u64 {
        self.rooms.allocations
    }

    /// How often the library was called, since the mapper was made.
    pub fn calls(&self) -> u64 {
        self.calls
    }
}

#[cfg(test)]
mod tests {
    use super::{Error, Mapper, Room};

    #[test]
    fn numbers_that_document_01_does_not_have_are_told() {
        let mut mapper = Mapper::new();
        for number in [0, 10, 11, 17] {
            let told = mapper.answer_refusal(number, 1, 1);
            assert_eq!(told, Err(Error::NoSuchAnswer { number }));
        }
        // W is as large as the code needs it.
        mapper.entries(&[0x00], 0).expect("STOP has a map");
        let told = mapper.answer_refusal(3, 1, 1);
        assert_eq!(told, Err(Error::NoSuchAnswer { number: 3 }));
        let number = 1 << 40;
        let told = mapper.written(Room::Output, number, number);
        assert_eq!(told, Err(Error::NoSuchAnswer { number }));
    }
}
