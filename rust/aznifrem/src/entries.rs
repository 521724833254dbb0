//! The entries of bytes, one after the other, as they stand. Nothing is judged here: the library does that.

use crate::kinds::HEADER;

/// A whole entry.
#[derive(Clone, Copy)]
pub struct Entry<'a> {
    pub offset: usize,
    pub kind: u16,
    pub body: Body<'a>,
}

/// The numbers of a body, by their places; one whose bytes are not all there is 0.
#[derive(Clone, Copy)]
pub struct Body<'a>(&'a [u8]);

impl Body<'_> {
    pub fn len(self) -> usize {
        self.0.len()
    }

    pub fn byte(self, at: usize) -> u8 {
        self.0.get(at).copied().unwrap_or(0)
    }

    pub fn address(self, at: usize) -> usize {
        usize::from(u16::from_le_bytes(self.bytes(at)))
    }

    pub fn count(self, at: usize) -> u32 {
        u32::from_le_bytes(self.bytes(at))
    }

    /// The addresses from a place to the end.
    pub fn path(self, from: usize) -> Vec<usize> {
        let (addresses, _) = self.0.get(from..).unwrap_or_default().as_chunks();
        let address = |two: &[u8; 2]| usize::from(u16::from_le_bytes(*two));
        addresses.iter().map(address).collect()
    }

    fn bytes<const N: usize>(self, at: usize) -> [u8; N] {
        let there = self.0.get(at..).and_then(<[u8]>::first_chunk);
        there.copied().unwrap_or([0; N])
    }
}

/// The entry at an offset, if its bytes are all there.
pub fn entry_at(bytes: &[u8], offset: usize) -> Option<Entry<'_>> {
    let (header, rest) = bytes.get(offset..)?.split_at_checked(HEADER)?;
    let header = Body(header);
    let body = Body(rest.get(..header.count(0) as usize)?);
    let kind = header.address(4) as u16;
    Some(Entry { offset, kind, body })
}

/// The entries from the first on, up to one that is cut or to the end.
pub fn entries(bytes: &[u8]) -> impl Iterator<Item = Entry<'_>> {
    let next = |entry: &Entry| entry_at(bytes, entry.offset + HEADER + entry.body.len());
    std::iter::successors(entry_at(bytes, 0), move |entry| next(entry))
}
