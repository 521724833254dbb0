//! An archive of stored maps, of any length, salvaged window by window by the proved call.
//!
//! The result is that of the whole archive. What the call copies of a window it copies of the archive
//! too, if no 7 stands behind it there: a map ends where its head's counts say, and only a 7 can be of
//! its last block's run (`windows` in crates/theorems/proofs/SalvageLaws.antt, which also says that the
//! rest is salvaged as if it stood alone, if no 7 stands behind it; a 7 that the call has seen whole and
//! not taken stands in place of a head, which is argued and tested here and not in the theorem). So a
//! window's maps are kept once the entry behind them is known to be no 7, or a 7 that was seen whole, and
//! the next window begins at that entry. In a map of longer code a 10 is what a 7 is elsewhere; behind the
//! maps either is taken for a 7, whichever the last map's is. What a window refuses may be whole in the archive, where the
//! window's end has cut it: it is refused for good where no byte behind the window can change that
//! ([`settled`]); else the window moves on, or grows if it holds no whole map.

use std::io::{self, Read};

use aznifrem::{Kinds, Salvaged};

/// Bytes that are read at a time, unless a map is larger.
pub const WINDOW: usize = 16 << 20;

const HEADER: usize = 6;
pub const HEAD: u16 = 1;
/// Bytes of a head, with its header.
const HEAD_BYTES: usize = 18;

/// Salvages what is read of the archive of this name, in windows of so many bytes at first; each run of
/// maps that is copied is handed to `keep`, in order. An error is a sentence.
pub fn salvage(
    name: &str,
    input: &mut impl Read,
    window: usize,
    keep: impl FnMut(&[u8]) -> Result<(), String>,
) -> Result<Salvaged, String> {
    salvage_held(&mut Held::new(name, input), window, keep)
}

/// A sentence on an archive that cannot be read.
pub fn unreadable(name: &str, error: &io::Error) -> String {
    format!("{name}: cannot be read: {error}")
}

/// The same, where what is held can be looked at afterwards.
fn salvage_held(
    held: &mut Held<impl Read>,
    window: usize,
    mut keep: impl FnMut(&[u8]) -> Result<(), String>,
) -> Result<Salvaged, String> {
    let mut out = Vec::new();
    let mut so_far = Salvaged::default();
    let window = window.max(HEADER);
    let mut size = window;
    loop {
        held.fill(size)?;
        out.resize(held.bytes.len(), 0);
        let given = Salvaged::of(&held.bytes, &mut out).map_err(|error| error.to_string())?;
        let given = given.ok_or("the library refuses room as large as its input")?;
        let (copied, bad) = (given.copied as usize, given.offset as usize);
        let ended = held.ended;
        if !ended && !held.known(copied)? {
            size = 2 * held.bytes.len();
            continue;
        }
        keep(&out[..copied])?;
        so_far.offset = so_far.copied + given.offset;
        so_far.maps += given.maps;
        so_far.copied += given.copied;
        let judged = &held.bytes[..out.len()];
        if ended || (bad < judged.len() && settled(judged, copied, bad)) {
            so_far.dropped = (held.bytes.len() - copied) as u64 + held.skip()?;
            return Ok(so_far);
        }
        held.bytes.drain(..copied);
        size = if copied == 0 {
            2 * held.bytes.len()
        } else {
            window
        };
    }
}

/// What is read of the archive and not yet kept.
struct Held<'a, R> {
    name: &'a str,
    input: &'a mut R,
    bytes: Vec<u8>,
    /// Nothing is left to read.
    ended: bool,
}

impl<'a, R: Read> Held<'a, R> {
    fn new(name: &'a str, input: &'a mut R) -> Held<'a, R> {
        Held {
            name,
            input,
            bytes: Vec::new(),
            ended: false,
        }
    }

    /// Reads until so many bytes are held, or one more is asked for and there is none.
    fn fill(&mut self, size: usize) -> Result<(), String> {
        let more = size.saturating_add(1).saturating_sub(self.bytes.len()) as u64;
        let read = self.input.by_ref().take(more).read_to_end(&mut self.bytes);
        let read = read.map_err(|error| unreadable(self.name, &error))?;
        self.ended |= (read as u64) < more;
        Ok(())
    }

    /// Whether the maps before this place end there in the whole archive too: the entry that stands there
    /// is no 7, or the call has seen all of it. Its kind may have to be read yet.
    fn known(&mut self, at: usize) -> Result<bool, String> {
        let judged = self.bytes.len();
        if judged - at < HEADER {
            self.fill(at + HEADER)?;
        }
        Ok(match entry(&self.bytes, at) {
            Some((kind, end)) if is_path(kind) => end <= judged,
            Some(_) => true,
            // The archive ends there: it is judged once more, and as a whole.
            None => false,
        })
    }

    /// How many bytes are left to read.
    fn skip(&mut self) -> Result<u64, String> {
        let skipped = io::copy(self.input, &mut io::sink());
        skipped.map_err(|error| unreadable(self.name, &error))
    }
}

/// Whether a kind is a 7's, of either family.
fn is_path(kind: u16) -> bool {
    [Kinds::FIRST.path, Kinds::SECOND.path].contains(&kind)
}

/// Kind and end of the entry at a place, if its header is there; the end may lie beyond the bytes.
pub fn entry(bytes: &[u8], at: usize) -> Option<(u16, usize)> {
    let header: &[u8; HEADER] = bytes.get(at..)?.first_chunk()?;
    let [a, b, c, d, kind @ ..] = *header;
    let length = u32::from_le_bytes([a, b, c, d]) as usize;
    Some((u16::from_le_bytes(kind), at + HEADER + length))
}

/// Whether the map at `start`, whose first bad entry stands at `bad`, is refused there whatever follows
/// the window. An entry is bad by itself, by those before it, or by the run of 7s behind it; a head also
/// by its counts, and then it must be known where its map ends.
fn settled(window: &[u8], start: usize, bad: usize) -> bool {
    // Of a head that is not whole, or is none, this says nothing, and then `bad` is `start`.
    let kinds = Kinds::of_map(&window[start..]);
    match entry(window, bad) {
        None => false,
        Some((HEAD, end)) if bad == start && end - start == HEAD_BYTES => {
            end <= window.len() && counts_met(kinds, window, start)
        }
        Some(_) if bad == start => true,
        Some((kind, end)) if ill(kinds, kind, end - bad - HEADER, &window[bad + HEADER..]) => true,
        Some((_, end)) => end <= window.len() && run_ends(kinds, window, end),
    }
}

/// Whether an entry behind a head is bad by its kind and its length, however much of it is there. A 7 is
/// not asked: whole, it counts for its block.
fn ill(kinds: Kinds, kind: u16, length: usize, body: &[u8]) -> bool {
    match kind {
        2 => length != 5,
        3 => length != 6,
        4 | 5 => length != 8,
        6 => length != 10,
        _ if kind == kinds.path => false,
        _ if kind == kinds.record => match body.first_chunk() {
            Some([_, _, _, _, a, b, c, d]) => {
                length != 8 + 2 * u32::from_le_bytes([*a, *b, *c, *d]) as usize
            }
            None => length < 8,
        },
        _ if kind == kinds.numbered => match body.first_chunk() {
            Some([_, _, _, _, _, _, _, _, a, b, c, d]) => {
                length != 12 + 2 * u32::from_le_bytes([*a, *b, *c, *d]) as usize
            }
            None => length < 12,
        },
        _ => true,
    }
}

/// Whether a run of 7s that may begin here is over within the window.
fn run_ends(kinds: Kinds, window: &[u8], mut at: usize) -> bool {
    while let Some((kind, end)) = entry(window, at) {
        if kind != kinds.path {
            return true;
        }
        if end > window.len() {
            return false;
        }
        at = end;
    }
    false
}

/// Whether the window holds as many blocks and records as the head at `start` says. A map that is refused
/// for its counts alone ends with a record, so that no 7 behind it is of it.
fn counts_met(kinds: Kinds, window: &[u8], start: usize) -> bool {
    let body = &window[start + HEADER..];
    let mut blocks = u64::from(u16::from_le_bytes([body[2], body[3]]));
    let mut records = u64::from(u32::from_le_bytes([body[4], body[5], body[6], body[7]]));
    let mut at = start + HEAD_BYTES;
    while blocks + records > 0 {
        match entry(window, at) {
            Some((kind, end)) if end <= window.len() => {
                blocks = blocks.saturating_sub(u64::from((2..=6).contains(&kind)));
                records = records.saturating_sub(u64::from(kinds.is_record(kind)));
                at = end;
            }
            _ => return false,
        }
    }
    true
}

#[cfg(test)]
mod tests {
    use super::{HEADER, Held, salvage, salvage_held, settled};
    use aznifrem::Salvaged;
    use std::io::{self, Read};

    fn entry(kind: u8, body: &[u8]) -> Vec<u8> {
        [&[body.len() as u8, 0, 0, 0, kind, 0], body].concat()
    }

    fn head(blocks: u8, records: u8) -> Vec<u8> {
        entry(1, &[9, 0, blocks, 0, records, 0, 0, 0, 2, 0, 0, 0])
    }

    fn stop(start: u8) -> Vec<u8> {
        entry(2, &[start, 0, start, 0, 1])
    }

    fn dynamic(start: u8, count: u8) -> Vec<u8> {
        entry(5, &[start, 0, start, 0, count, 0, 0, 0])
    }

    fn seven() -> Vec<u8> {
        entry(7, &[5, 0, 2, 0, 0, 0, 7, 0, 0, 0])
    }

    fn record() -> Vec<u8> {
        entry(8, &[7, 0, 5, 0, 2, 0, 0, 0, 7, 0, 0, 0])
    }

    /// The same entries of a map of longer code: its head says 24,577 bytes, and its kinds are others.
    fn longer(entries: &[Vec<u8>]) -> Vec<u8> {
        let moved = |entry: &Vec<u8>| {
            let mut entry = entry.clone();
            match entry[4] {
                1 => entry[6..8].copy_from_slice(&24_577_u16.to_le_bytes()),
                7..=9 => entry[4] += 3,
                _ => {}
            }
            entry
        };
        entries.iter().flat_map(moved).collect()
    }

    /// What is told and what is copied.
    type Given = (Salvaged, Vec<u8>);

    fn at_once(archive: &[u8]) -> Given {
        let mut out = vec![0; archive.len()];
        let given = Salvaged::of(archive, &mut out).expect("the library is reached");
        let given = given.expect("there is room");
        out.truncate(given.copied as usize);
        (given, out)
    }

    /// In windows; and the bytes of memory that the largest took.
    fn in_windows(mut archive: &[u8], window: usize) -> (Given, usize) {
        let mut kept = Vec::new();
        let keep = |bytes: &[u8]| {
            kept.extend_from_slice(bytes);
            Ok(())
        };
        let mut held = Held::new("archive", &mut archive);
        let given = salvage_held(&mut held, window, keep).expect("it is read");
        let largest = held.bytes.capacity();
        ((given, kept), largest)
    }

    fn same(archive: &[u8]) {
        let whole = at_once(archive);
        let windows = (1..=archive.len() + 8).step_by(3);
        for window in windows.chain([usize::MAX]) {
            let (given, _) = in_windows(archive, window);
            assert_eq!(given, whole, "{archive:?} in windows of {window}");
        }
    }

    /// Maps that end in every way: behind a head, a block, a 7, a record; and of longer code.
    fn maps() -> Vec<Vec<u8>> {
        let (sevens, records) = (
            [head(2, 0), stop(0), dynamic(7, 2), seven(), seven()],
            [head(2, 1), dynamic(0, 1), seven(), stop(9), record()],
        );
        vec![
            head(0, 0),
            [head(1, 0), stop(0)].concat(),
            longer(&sevens),
            sevens.concat(),
            longer(&records),
            records.concat(),
        ]
    }

    #[test]
    fn windows_give_what_the_whole_archive_gives() {
        let maps = maps();
        let all = maps.concat();
        same(&all);
        (0..all.len()).step_by(5).for_each(|cut| same(&all[..cut]));
        // Behind each map an entry that is no head, whole and cut; then more maps.
        for map in &maps {
            let ten = longer(&[seven()]);
            for behind in [seven(), ten, record(), stop(3), vec![9; 9]] {
                same(&[&map[..], &behind].concat());
                same(&[&map[..], &behind[..7], &all].concat());
                same(&[&map[..], &behind, &all].concat());
            }
        }
    }

    #[test]
    fn a_refusal_is_told_at_its_place_in_windows_too() {
        let all = maps().concat();
        // Counts too large and too small, a 7 too few and too many, a start that does not rise.
        let bad: [&[Vec<u8>]; 5] = [
            &[head(3, 0), stop(0), stop(2)],
            &[head(1, 1), stop(0), stop(2), record()],
            &[head(1, 0), dynamic(0, 2), seven()],
            &[head(1, 0), dynamic(0, 1), seven(), seven()],
            &[head(2, 0), stop(4), stop(4)],
        ];
        for bad in bad {
            for bad in [bad.concat(), longer(bad)] {
                same(&[&all[..], &bad].concat());
                same(&[&all[..], &bad, &all].concat());
            }
        }
        // A path and a record of the other family.
        let (first, second) = (head(1, 1), longer(&[head(1, 1)]));
        for (head, seven, record) in [
            (&first, longer(&[seven()]), record()),
            (&first, seven(), longer(&[record()])),
            (&second, seven(), longer(&[record()])),
            (&second, longer(&[seven()]), record()),
        ] {
            let bad = [&head[..], &dynamic(0, 1), &seven, &record].concat();
            same(&[&all[..], &bad, &all].concat());
        }
    }

    #[test]
    fn a_map_that_is_refused_for_good_does_not_grow_the_window() {
        // Heads that say too few blocks, and too many, before a long archive.
        let many = maps().concat().repeat(2_000);
        let few = [head(1, 1), stop(0), stop(2), record()].concat();
        let missing = [head(9, 0), stop(0)].concat();
        // The place of each, and the first byte from which on no more is needed: behind the record, and
        // behind the header of the second head.
        for (bad, offset, enough) in [(few, 0, 58), (missing, 29, 35)] {
            let archive = [&bad[..], &many].concat();
            assert_small(&archive);
            assert_eq!(at_once(&archive).0.offset, offset as u64);
            assert!(settled(&archive[..enough], 0, offset));
            assert!(!settled(&archive[..enough - 1], 0, offset));
        }
    }

    #[test]
    fn a_damaged_length_does_not_grow_the_window() {
        let many = maps().concat().repeat(2_000);
        // A second head, a block, a record and no kind at all, each of more bytes than the window has.
        for kind in [1, 2, 3, 4, 5, 6, 8, 9] {
            let damaged = [0, 0, 3, 0, kind, 0];
            let archive = [&head(2, 0)[..], &stop(0), &damaged, &many].concat();
            assert_small(&archive);
            let bad = head(2, 0).len() + stop(0).len();
            assert!(settled(&archive[..bad + HEADER + 12], 0, bad));
        }
        // Of a right length, and cut by the window: whole, they may be good.
        for entry in [stop(2), record()] {
            let archive = [&head(2, 0)[..], &stop(0), &entry].concat();
            let bad = archive.len() - entry.len();
            assert!(!settled(&archive[..archive.len() - 1], 0, bad));
        }
    }

    /// In windows of 128 bytes it is what it is at once, and a few windows' memory is enough.
    fn assert_small(archive: &[u8]) {
        let (given, largest) = in_windows(archive, 128);
        assert_eq!(given, at_once(archive));
        assert!(largest <= 1_024, "{largest} of {}", archive.len());
    }

    struct Broken;

    impl Read for Broken {
        fn read(&mut self, _: &mut [u8]) -> io::Result<usize> {
            Err(io::Error::other("the disk is broken"))
        }
    }

    #[test]
    fn an_archive_that_is_unreadable_midway_is_named() {
        let all = maps().concat();
        let mut kept = 0;
        let keep = |bytes: &[u8]| {
            kept += bytes.len();
            Ok(())
        };
        let given = salvage("old.maps", &mut all.chain(Broken), 64, keep);
        let said = given.expect_err("its end cannot be read");
        assert_eq!(said, "old.maps: cannot be read: the disk is broken");
        assert!(kept > 0 && kept < all.len(), "{kept}");
    }

    /// The whole map, of longer code.
    fn of_longer_code(map: Vec<u8>) -> Vec<u8> {
        let mut entries = Vec::new();
        let mut at = 0;
        while let Some((_, end)) = super::entry(&map, at) {
            entries.push(map[at..end].to_vec());
            at = end;
        }
        longer(&entries)
    }

    /// Numbers that look random, the same at every run.
    struct Random(u64);

    impl Random {
        fn below(&mut self, bound: usize) -> usize {
            self.0 ^= self.0 << 13;
            self.0 ^= self.0 >> 7;
            self.0 ^= self.0 << 17;
            (self.0 >> 11) as usize % bound
        }

        fn small(&mut self) -> u8 {
            self.below(3) as u8
        }

        /// A map that reads whole.
        fn map(&mut self) -> Vec<u8> {
            let (blocks, records) = (self.small(), self.small());
            let mut map = head(blocks, records);
            for start in 0..blocks {
                match self.small() {
                    0 => map.extend(stop(start)),
                    count => {
                        map.extend(dynamic(start, count));
                        (0..count).for_each(|_| map.extend(seven()));
                    }
                }
            }
            (0..records).for_each(|_| map.extend(record()));
            if self.below(2) == 0 {
                map
            } else {
                of_longer_code(map)
            }
        }

        /// An entry, good or bad behind the others.
        fn entry(&mut self, start: u8) -> Vec<u8> {
            match self.below(12) {
                0 => head(self.small(), self.small()),
                1 => longer(&[head(self.small(), self.small())]),
                2 | 3 => stop(start),
                4 | 5 => dynamic(start, self.small()),
                6 | 7 => seven(),
                8 => longer(&[seven()]),
                9 => record(),
                10 => entry(7 + 3 * self.small().min(1), &[5; 11]),
                _ => (0..self.below(9)).map(|_| self.below(9) as u8).collect(),
            }
        }

        fn maps(&mut self) -> Vec<u8> {
            (0..self.below(3)).flat_map(|_| self.map()).collect()
        }

        /// Maps, entries, maps; of some a byte is another, some are cut.
        fn archive(&mut self) -> Vec<u8> {
            let mut archive = self.maps();
            let entries = self.below(7) as u8;
            (0..entries).for_each(|start| archive.extend(self.entry(start)));
            archive.extend(self.maps());
            if self.below(3) == 0 && !archive.is_empty() {
                let at = self.below(archive.len());
                archive[at] = self.below(9) as u8;
            }
            if self.below(3) == 0 {
                archive.truncate(self.below(archive.len() + 1));
            }
            archive
        }
    }

    #[test]
    fn windows_of_random_archives_give_what_they_give_at_once() {
        let mut random = Random(0x9e37_79b9_7f4a_7c15);
        let mut dropped = 0;
        for _ in 0..ARCHIVES {
            let archive = random.archive();
            let whole = at_once(&archive);
            dropped += u32::from(whole.0.dropped > 0);
            for _ in 0..4 {
                let window = 1 + random.below(90);
                let (given, _) = in_windows(&archive, window);
                assert_eq!(given, whole, "{archive:?} in windows of {window}");
            }
        }
        assert!(dropped > ARCHIVES / 2 && dropped < ARCHIVES, "{dropped}");
    }

    const ARCHIVES: u32 = 3_000;
}
