//! The calls that map a code, with its text or without.

use crate::error::NotRelayed;
use crate::exported;

/// The memory that one call borrows, by the letters of document 01; it may hold anything.
#[derive(Debug)]
pub struct Lent<'a> {
    /// Work: 64 bytes for each of the code and 256 more.
    pub w: &'a mut [u8],
    /// The path in hand: 2 bytes an address.
    pub p: &'a mut [u8],
    /// States: 9 bytes a symbol.
    pub s: &'a mut [u8],
    /// Remembered rows: 32 bytes each.
    pub t: &'a mut [u8],
    /// Records: 32 bytes each.
    pub r: &'a mut [u8],
    /// Recorded paths: 2 bytes an address.
    pub q: &'a mut [u8],
    /// The answer's entries.
    pub out: &'a mut [u8],
}

/// The library's own call, in mode 0 and with records of kind 8 or 11: the refusal's number, 1 to 9, or the bytes written to `out`, never
/// fewer than 18. Refusals 1 to 3 touch nothing; else the rooms W to Q are zero bytes afterwards,
/// and `out` is touched by an answer alone, in the bytes written.
///
/// ```
/// use aznifrem::{Lent, call};
///
/// let (mut w, mut room, mut out) = ([0xaa; 320], [[0xaa; 64]; 5], [0xaa; 64]);
/// let [p, s, t, r, q] = &mut room;
/// let written = call(&[0x00], 0, &mut Lent { w: &mut w, p, s, t, r, q, out: &mut out });
/// assert_eq!(written, 29);
/// assert_eq!(w, [0; 320]);
/// assert_eq!(out[29..], [0xaa; 35]);
/// ```
///
/// # Panics
///
/// On a machine that is not x86-64, if the library cannot be reached there: [`NotRelayed`] says
/// why. A [`Mapper`](crate::Mapper) gives that as an error.
pub fn call(code: &[u8], limit: u64, lent: &mut Lent) -> u64 {
    call_in(0, code, limit, lent)
}

/// The same in a mode, by its number: refusal 13 where that is neither 0 nor 1, which comes after 2
/// and before 3 and touches nothing.
///
/// ```
/// use aznifrem::{Lent, Mode, call_in};
///
/// let (mut w, mut room, mut out) = ([0; 832], [[0; 64]; 5], [0; 128]);
/// let [p, s, t, r, q] = &mut room;
/// let mut lent = Lent { w: &mut w, p, s, t, r, q, out: &mut out };
/// // JUMPDEST, PUSH1 0, POP, PUSH0, JUMP: a loop, seen where PUSH0 is known to be 0.
/// let code = [0x5b, 0x60, 0, 0x50, 0x5f, 0x56];
/// assert_eq!(call_in(Mode::Plain.number(), &code, 500_000, &mut lent), 32);
/// assert_eq!(call_in(Mode::KnownZero.number(), &code, 500_000, &mut lent), 30);
/// assert_eq!(call_in(2, &code, 500_000, &mut lent), 13);
/// ```
///
/// # Panics
///
/// As [`call`].
pub fn call_in(mode: u64, code: &[u8], limit: u64, lent: &mut Lent) -> u64 {
    call_by(1, mode, code, limit, lent)
}

/// The same with a choice: 0 asks for records with their numbers, of kind 9 or 12, any other number for
/// records without, of kind 8 or 11 ([`Kinds`](crate::Kinds)).
///
/// ```
/// use aznifrem::{Lent, call_by};
///
/// let (mut w, mut room, mut out) = ([0; 832], [[0; 64]; 5], [0; 128]);
/// let [p, s, t, r, q] = &mut room;
/// let mut lent = Lent { w: &mut w, p, s, t, r, q, out: &mut out };
/// // A call and its return, which has one record: 4 bytes more with its number, the first unit.
/// let code = [0x60, 5, 0x60, 7, 0x56, 0x5b, 0x00, 0x5b, 0x56];
/// assert_eq!(call_by(1, 0, &code, 500_000, &mut lent), 71);
/// assert_eq!(call_by(0, 0, &code, 500_000, &mut lent), 75);
/// assert_eq!(lent.out[63..67], [1, 0, 0, 0]);
/// ```
///
/// # Panics
///
/// As [`call`].
pub fn call_by(choice: u64, mode: u64, code: &[u8], limit: u64, lent: &mut Lent) -> u64 {
    match called(choice, mode, code, limit, lent) {
        Ok(number) => number,
        Err(not_relayed) => panic!("{not_relayed}"),
    }
}

/// The same; an error only where the machine is not x86-64.
pub(crate) fn called(
    choice: u64,
    mode: u64,
    code: &[u8],
    limit: u64,
    lent: &mut Lent,
) -> Result<u64, NotRelayed> {
    let Lent {
        w,
        p,
        s,
        t,
        r,
        q,
        out,
    } = lent;
    exported::aznifrem_map(limit, choice, mode, code, w, p, s, t, r, q, out)
}

/// The library's call that also writes the blocks as JSON, to `text`, in mode 0: the refusal's number, 1 to 9 or
/// 11; or the bytes written to `out` and, times 2^32, those written to `text`. Of the rooms and of
/// `out` all is as after [`call`], on 11 as on 9; `text` is touched by an answer alone, in the bytes
/// written.
///
/// ```
/// use aznifrem::{Lent, call_json};
///
/// let (mut w, mut room, mut out) = ([0xaa; 320], [[0xaa; 64]; 5], [0xaa; 64]);
/// let (mut text, [p, s, t, r, q]) = ([0xaa; 80], &mut room);
/// let mut lent = Lent { w: &mut w, p, s, t, r, q, out: &mut out };
/// let written = call_json(&[0x00], 0, &mut lent, &mut text);
/// assert_eq!(written, 29 + (71 << 32));
/// assert_eq!((&text[..6], text[71]), (&b"[{\"id\""[..], 0xaa));
/// assert_eq!(call_json(&[0x00], 0, &mut lent, &mut text[..70]), 11);
/// ```
///
/// # Panics
///
/// As [`call`].
pub fn call_json(code: &[u8], limit: u64, lent: &mut Lent, text: &mut [u8]) -> u64 {
    call_json_in(0, code, limit, lent, text)
}

/// The same in a mode, by its number, as [`call_in`].
///
/// # Panics
///
/// As [`call`].
pub fn call_json_in(mode: u64, code: &[u8], limit: u64, lent: &mut Lent, text: &mut [u8]) -> u64 {
    call_json_by(1, mode, code, limit, lent, text)
}

/// The same with a choice, as [`call_by`].
///
/// # Panics
///
/// As [`call`].
pub fn call_json_by(
    choice: u64,
    mode: u64,
    code: &[u8],
    limit: u64,
    lent: &mut Lent,
    text: &mut [u8],
) -> u64 {
    match called_json(choice, mode, code, limit, lent, text) {
        Ok(number) => number,
        Err(not_relayed) => panic!("{not_relayed}"),
    }
}

/// The same; an error only where the machine is not x86-64.
pub(crate) fn called_json(
    choice: u64,
    mode: u64,
    code: &[u8],
    limit: u64,
    lent: &mut Lent,
    text: &mut [u8],
) -> Result<u64, NotRelayed> {
    let Lent {
        w,
        p,
        s,
        t,
        r,
        q,
        out,
    } = lent;
    exported::aznifrem_json(limit, choice, mode, code, w, p, s, t, r, q, out, text)
}
