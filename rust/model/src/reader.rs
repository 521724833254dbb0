//! Document 02, No. 2, as a plain program, written from its text: the map that bytes hold, or the
//! first bad entry. Every entry is held against each thing of the list; the lowest offset counts.
//! "The reader refuses a map with a kind of the family that is not its code length's" (No. 10).

use crate::blocks::{Block, Entry, Kind};
use crate::family::Family;
use crate::search::Record;

const HEADER: usize = 6;

/// What the bytes hold.
#[derive(Clone, Debug, PartialEq, Eq)]
pub struct Held {
    pub code_length: usize,
    pub blocks: Vec<Block>,
    pub records: Vec<Record>,
    pub energy: u64,
}

/// The first bad entry, and all that is bad of it.
#[derive(Clone, Debug, PartialEq, Eq)]
pub struct Refused {
    pub offset: usize,
    pub bad: Vec<Bad>,
}

/// The things that are bad, in the document's order.
#[derive(Clone, Copy, Debug, PartialEq, Eq, PartialOrd, Ord, Hash)]
pub enum Bad {
    /// "A missing head".
    Head,
    /// "Heads whose counts disagree with the entries".
    Counts,
    /// "Entries out of order": a second head, a block after a record.
    Order,
    /// "After one of 8 and 9 the other".
    Other,
    /// "A block start not above the one before".
    Start,
    /// "Unknown kinds"; "12 covers the wrong family".
    Kind,
    /// "Kind 7 away from a dynamic block".
    Away,
    /// "Success bytes over 1".
    Success,
    /// "A dynamic count its 7s do not meet".
    Sevens,
    /// "Cut entries".
    Cut,
    /// "Bodies longer or shorter than their kind says".
    Length,
}

impl Bad {
    pub const ALL: [Bad; 11] = [
        Bad::Head,
        Bad::Counts,
        Bad::Order,
        Bad::Other,
        Bad::Start,
        Bad::Kind,
        Bad::Away,
        Bad::Success,
        Bad::Sevens,
        Bad::Cut,
        Bad::Length,
    ];
}

/// "It takes a byte string and either gives the answer it holds or refuses with the place of the
/// first bad entry."
pub fn read(bytes: &[u8]) -> Result<Held, Refused> {
    let pieces = pieces(bytes);
    if pieces.is_empty() {
        return Err(refused(0, vec![Bad::Head]));
    }
    // If the first is no head, or not a whole one, it is bad, and the family of what is behind it is of no matter.
    let code_length = pieces[0].number(0, 2);
    let family = Family::of(code_length);
    for at in 0..pieces.len() {
        let bad: Vec<Bad> = Bad::ALL
            .into_iter()
            .filter(|bad| is_bad(*bad, family, &pieces, at))
            .collect();
        if !bad.is_empty() {
            return Err(refused(pieces[at].offset, bad));
        }
    }
    // "Wrong head counts are looked at last and give offset 0."
    let (head, blocks) = (&pieces[0], blocks(family, &pieces));
    let records = records(family, &pieces);
    if (head.number(2, 2), head.number(4, 4)) != (blocks.len(), records.len()) {
        return Err(refused(0, vec![Bad::Counts]));
    }
    Ok(Held {
        code_length,
        blocks,
        records,
        energy: head.number(8, 4) as u64,
    })
}

fn refused(offset: usize, bad: Vec<Bad>) -> Refused {
    Refused { offset, bad }
}

/// An entry; if it is cut, with the bytes that are there.
pub(crate) struct Piece<'a> {
    pub(crate) offset: usize,
    pub(crate) whole: bool,
    pub(crate) kind: usize,
    body: &'a [u8],
}

/// The entries one after the other; only the last can be cut.
pub(crate) fn pieces(bytes: &[u8]) -> Vec<Piece<'_>> {
    let mut pieces = Vec::new();
    let mut offset = 0;
    while offset < bytes.len() {
        let rest = &bytes[offset..];
        let length = number(rest, 0, 4);
        let whole = rest.len() >= HEADER && rest.len() - HEADER >= length;
        let end = if whole { HEADER + length } else { rest.len() };
        pieces.push(Piece {
            offset,
            whole,
            kind: number(rest, 4, 2),
            body: &rest[HEADER.min(end)..end],
        });
        offset += end;
    }
    pieces
}

/// A number of so many bytes, little-endian; a byte that is not there is 0.
fn number(bytes: &[u8], at: usize, size: usize) -> usize {
    let byte = |at: usize| usize::from(bytes.get(at).copied().unwrap_or(0));
    (0..size).map(|i| byte(at + i) << (8 * i)).sum()
}

impl Piece<'_> {
    pub(crate) fn number(&self, at: usize, size: usize) -> usize {
        number(self.body, at, size)
    }

    pub(crate) fn is_block(&self) -> bool {
        (2..=6).contains(&self.kind)
    }

    fn is_dynamic(&self) -> bool {
        (5..=6).contains(&self.kind)
    }

    /// The length that its kind says; for those with a path "by the path length that it announces".
    fn length(&self, family: Family) -> Option<usize> {
        match self.kind {
            1 => Some(12),
            2 => Some(5),
            3 => Some(6),
            4 | 5 => Some(8),
            6 => Some(10),
            kind if family.is_seven(kind) => Some(6 + 2 * self.number(2, 4)),
            kind if family.is_numbered(kind) => Some(12 + 2 * self.number(8, 4)),
            kind if family.is_record(kind) => Some(8 + 2 * self.number(4, 4)),
            _ => None,
        }
    }
}

/// Whether a thing is bad of an entry. Of a cut one nothing is known but that it is cut.
fn is_bad(bad: Bad, family: Family, pieces: &[Piece], at: usize) -> bool {
    let (piece, before, behind) = (&pieces[at], &pieces[..at], &pieces[at + 1..]);
    let is_record = |piece: &Piece| family.is_record(piece.kind);
    if !piece.whole {
        return bad == Bad::Cut;
    }
    match bad {
        Bad::Head => at == 0 && piece.kind != 1,
        Bad::Counts | Bad::Cut => false,
        Bad::Order => {
            (at > 0 && piece.kind == 1) || (piece.is_block() && before.iter().any(is_record))
        }
        Bad::Other => {
            let other = |e: &Piece| is_record(e) && e.kind != piece.kind;
            is_record(piece) && before.iter().any(other)
        }
        Bad::Start => {
            let last = before.iter().rev().find(|e| e.is_block());
            piece.is_block() && last.is_some_and(|last| piece.number(0, 2) <= last.number(0, 2))
        }
        Bad::Kind => piece.length(family).is_none(),
        Bad::Away => {
            let first = before.iter().rev().find(|e| !family.is_seven(e.kind));
            family.is_seven(piece.kind) && !first.is_some_and(Piece::is_dynamic)
        }
        Bad::Success => piece.kind == 2 && piece.number(4, 1) > 1,
        Bad::Sevens => piece.is_dynamic() && count(piece) != whole_sevens(family, behind),
        Bad::Length => piece
            .length(family)
            .is_some_and(|length| length != piece.body.len()),
    }
}

/// The count of a dynamic block.
fn count(piece: &Piece) -> usize {
    match piece.kind {
        5 => piece.number(4, 4),
        _ => piece.number(6, 4),
    }
}

/// "Only whole 7s count": those of the run that begins here.
pub(crate) fn whole_sevens(family: Family, behind: &[Piece]) -> usize {
    let seven = |piece: &&Piece| piece.whole && family.is_seven(piece.kind);
    behind.iter().take_while(seven).count()
}

/// The blocks, each with the 7s behind it.
fn blocks(family: Family, pieces: &[Piece]) -> Vec<Block> {
    let mut blocks = Vec::new();
    for (at, piece) in pieces.iter().enumerate().filter(|(_, e)| e.is_block()) {
        let sevens = whole_sevens(family, &pieces[at + 1..]);
        let entries = pieces[at + 1..][..sevens].iter();
        let entries = entries.map(|seven| Entry {
            to: family.destination(seven.number(0, 2)),
            path: path(seven, 6),
        });
        let kind = match piece.kind {
            2 => Kind::Terminate {
                success: piece.number(4, 1) == 1,
            },
            3 => Kind::Jump {
                to: piece.number(4, 2),
            },
            4 => Kind::Jumpi {
                yes: piece.number(4, 2),
                no: piece.number(6, 2),
            },
            5 => Kind::DynamicJump {
                entries: entries.collect(),
            },
            _ => Kind::DynamicJumpi {
                no: piece.number(4, 2),
                entries: entries.collect(),
            },
        };
        blocks.push(Block {
            start: piece.number(0, 2),
            end: piece.number(2, 2),
            kind,
        });
    }
    blocks
}

fn records(family: Family, pieces: &[Piece]) -> Vec<Record> {
    let records = pieces.iter().filter(|piece| family.is_record(piece.kind));
    let numbered = |piece: &Piece| family.is_numbered(piece.kind);
    let record = |piece: &Piece| Record {
        start: piece.number(0, 2),
        to: family.destination(piece.number(2, 2)),
        path: path(piece, if numbered(piece) { 12 } else { 8 }),
        energy: numbered(piece).then(|| piece.number(4, 4) as u64),
    };
    records.map(record).collect()
}

/// The addresses from a place of the body to its end.
fn path(piece: &Piece, from: usize) -> Vec<usize> {
    let places = (from..piece.body.len()).step_by(2);
    places.map(|at| piece.number(at, 2)).collect()
}
